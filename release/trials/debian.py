"""Installs the package in a root, uses what it installed, and removes it."""
import re
import shutil
import subprocess

from elf import numbers
from trials.given import unpacked
from trials.roots import STATUS
from trials.tools import try_tools

# A C library that is older than every one that a program of the kit runs over.
OLD = "2.31-13"
VERSION = r"(Package: libc6\n(?:.*\n)*?Version: ).*"
LEFT = "/usr/bin/cedar* /usr/share/man/man1/cedar* /usr/share/doc/cedar"


def try_package(root, file, version, has_man):
    shutil.copy(file, root.place / "tmp")
    if root.run("dpkg -i", f"dpkg -i /tmp/{file.name}", shown="Setting up cedar"):
        listed = "dpkg --verify cedar && dpkg -L cedar | grep -q /usr/bin/cedar"
        root.run("dpkg --verify", listed)
        try_tools(root, "/usr", "/usr/share", version, has_man)
        removed = f"dpkg -r cedar && ! ls -d {LEFT} 2> /dev/null | grep ."
        root.run("dpkg -r leaves nothing", removed, shown="Removing cedar")


def try_refused(root, file):
    """That dpkg refuses the package over an older C library than the programs need."""
    known = root.place / STATUS
    true = known.read_text()
    known.write_text(re.sub(VERSION, rf"\g<1>{OLD}", true))
    shutil.copy(file, root.place / "tmp")
    refused = {"status": 1, "shown": "cedar depends on libc6"}
    root.run("dpkg -i is refused over an old C library", f"dpkg -i /tmp/{file.name}", **refused)
    root.run("and taken away again", "dpkg -P cedar")
    known.write_text(true)


def is_too_old(root, file):
    """Whether a root's C library is older than the package wants."""
    words = ["dpkg-deb", "-f", file, "Depends"]
    wants = subprocess.run(words, capture_output=True, text=True).stdout
    wanted, has = re.search(r"libc6 \(>= ([\d.]+)\)", wants), root.glibc()
    return bool(wanted and has) and has < numbers(wanted[1])


def try_too_old(root, package, tools, room):
    """In a system whose C library is too old: that dpkg and the program say so."""
    shutil.copy(package, root.place / "tmp")
    refused = {"status": 1, "shown": "cedar depends on libc6"}
    line = f"dpkg -i /tmp/{package.name}"
    root.run("its C library is too old: dpkg -i is refused", line, **refused)
    top = unpacked(tools, room / f"old-{root.place.name}")
    shutil.copytree(top, root.place / "opt/cedar", symlinks=True)
    said = {"status": 1, "shown": "not found (required by"}
    root.run("and the program says why", "/opt/cedar/bin/cedar --version", **said)
