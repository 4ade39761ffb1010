"""The package of the programs for Debian and what is made of it."""
import shutil

import packing
from archives.tools import tree_of_tools
from elf import dotted
from kept import PROGRAMS, TOP
from licences import third_party
from packing import gzipped
from proved import proved

ZSH, DOCUMENTS = "share/zsh/vendor-completions/_cedar", "share/doc/cedar"
UNSTRIPPED = "# The bytes are those that the gate tried; stripped they would be others.\n"
CHANGES = """\
cedar ({version}) unstable; urgency=medium

  * Version {plain}: /usr/share/doc/cedar/CHANGELOG.md.gz tells what is new.

 -- {maintainer}  {day}
"""
CONTROL = """\
Package: cedar
Version: {version}
Architecture: amd64
Maintainer: {maintainer}
Installed-Size: @SIZE@
Depends: {depends}
Section: utils
Priority: optional
Homepage: {home}
Description: check, lay out and list policies of the Cedar language
 Cedar is a language in which authorization policies are written. This program
 tells every fault of a text, with what may help, lays texts out anew with
 their comments, and lists policies as JSON.
 .
 {claim}
 It needs a processor of {processor}.
"""
COPYRIGHT = """\
Format: https://www.debian.org/doc/packaging-manuals/copyright-format/1.0/
Upstream-Name: cedar
Source: {home}

Files: *
Copyright: Cedar Contributors, and the authors of this project
License: Apache-2.0

License: Apache-2.0
 On Debian systems the text is in /usr/share/common-licenses/Apache-2.0.

Comment:
{comment}
"""


def folded(text):
    """A text as a field of Debian's files holds it."""
    lines = text.strip("\n").split("\n")
    return "\n".join(f" {it}" if it.strip() else " ." for it in lines)


def depends(release):
    """The packages that hold what the programs are linked against, with their versions."""
    wanted = {"libc6": dotted(release.glibc(*PROGRAMS))}
    for name in filter(release.kept.has, PROGRAMS):
        if "libgcc_s.so.1" in release.elfs[name].needed:
            wanted["libgcc-s1"] = dotted(release.elfs[name].newest("GCC"))
    return ", ".join(f"{name} (>= {version})" for name, version in sorted(wanted.items()))


def add_documents(release, version, tree):
    day = release.day.strftime("%a, %d %b %Y %H:%M:%S +0000")
    about = {"version": version, "plain": release.plain, "day": day}
    changes = CHANGES.format(maintainer=release.settings["MAINTAINER"], **about)
    tree.add(f"{DOCUMENTS}/changelog.gz", gzipped(changes))
    tree.add(f"{DOCUMENTS}/CHANGELOG.md.gz", gzipped((TOP / "CHANGELOG.md").read_bytes()))
    tree.add(f"{DOCUMENTS}/PROVED.txt.gz", gzipped(proved(release)))
    tree.add(f"{DOCUMENTS}/NOTICE", (TOP / "NOTICE").read_bytes())
    comment = folded(third_party(release.kept, is_debian=True))
    home = release.settings["HOMEPAGE"]
    tree.add(f"{DOCUMENTS}/copyright", COPYRIGHT.format(home=home, comment=comment))
    strange = [it for it in PROGRAMS if it in release.elfs and not release.elfs[it].is_stripped]
    if strange:
        lines = (f"cedar: unstripped-binary-or-object [usr/bin/{it}]\n" for it in strange)
        tree.add("share/lintian/overrides/cedar", UNSTRIPPED + "".join(lines))


def pack(release):
    version = release.version.replace("-", "~")
    name = f"cedar_{version}_amd64.deb"
    if not shutil.which("dpkg-deb"):
        return release.leave_out(name, "there is no dpkg-deb on this machine")
    tree = tree_of_tools(release, ZSH, is_squeezed=True)
    add_documents(release, version, tree)
    is_proved = "Its parser is proved: see PROVED.txt."
    control = CONTROL.format(
        version=version,
        maintainer=release.settings["MAINTAINER"],
        depends=depends(release),
        home=release.settings["HOMEPAGE"],
        claim=is_proved if release.is_proved else "THIS BUILD IS NOT PROVED, and is no release.",
        processor=release.kept.processor(*PROGRAMS),
    )
    return release.write(name, packing.deb(tree.below("usr"), control, release.epoch))
