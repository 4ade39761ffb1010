"""Roots of a system in which a release is tried: a bare one of this machine's C library and a few
tools, and whole ones that debootstrap made."""
import os
import pathlib
import re
import shutil
import subprocess

# What a small system has: no compiler, no Python, no Rattle.
TOOLS = """bash sh cat cp ls mv rm mkdir chmod ln tar gzip gunzip zcat xz diff sed grep sort uniq
    head tail tr env true test dpkg dpkg-deb dpkg-split dpkg-query ldconfig start-stop-daemon man
    groff troff grotty preconv tbl eqn nroff col less ldd id sha256sum find dirname basename mktemp
    uname locale update-alternatives manpath""".split()
FOLDERS = """usr/bin usr/sbin usr/lib usr/lib64 usr/share tmp proc dev etc root var/lib/dpkg/info
    var/lib/dpkg/updates var/lib/dpkg/triggers var/log var/cache/man""".split()
SHARED = """/usr/share/groff /etc/groff /etc/manpath.config /usr/lib/locale/C.utf8
    /usr/share/dpkg""".split()
# What is found by no `ldd`: libraries of the C library's own, and helpers of `man`.
OPENED = ("libgcc_s.so.1", "libm.so.6", "libc.so.6")
LIBRARY_FOLDERS = ("/lib/x86_64-linux-gnu", "/usr/lib64", "/lib64")
HELPERS = ("/usr/libexec/man-db", "/usr/lib/man-db")
PACKAGE = """\
Package: {name}
Status: install ok installed
Architecture: amd64
Multi-Arch: same
Version: {version}
Maintainer: nobody <nobody@example.org>
Description: of this machine

"""
STATUS = "var/lib/dpkg/status"


def libraries(program):
    said = subprocess.run(["ldd", program], capture_output=True, text=True).stdout
    return re.findall(r"(/\S+) \(0x", said)


def put(file, root):
    """Copies a file of this machine to where it stands, the folders of /usr alone being ones."""
    place = root / re.sub(r"^/(bin|sbin|lib|lib64)/", r"/usr/\1/", file).lstrip("/")
    place.parent.mkdir(parents=True, exist_ok=True)
    if not place.exists():
        shutil.copy(os.path.realpath(file), place)


def lay_files(root):
    """Lays the tools and what they need into a bare root; returns the tools that aren't here."""
    found = {it: shutil.which(it, path="/usr/bin:/bin:/usr/sbin:/sbin") for it in TOOLS}
    helpers = (it for place in HELPERS for it in pathlib.Path(place).glob("*") if it.is_file())
    for file in [*filter(None, found.values()), *map(str, helpers)]:
        for it in [file, *libraries(file)]:
            put(it, root)
    for name in OPENED:
        there = [f"{it}/{name}" for it in LIBRARY_FOLDERS if os.path.exists(f"{it}/{name}")]
        for it in there[:1]:
            put(it, root)
    for it in SHARED:
        if os.path.isdir(it):
            own = {"dirs_exist_ok": True, "ignore_dangling_symlinks": True}
            shutil.copytree(it, root / it[1:], **own)
        elif os.path.exists(it):
            put(it, root)
    return {name for name, place in found.items() if not place}


def lay_packages(root):
    """Has dpkg know the packages of which the C library came."""
    known = ""
    for name in ("libc6", "libgcc-s1"):
        words = ["dpkg-query", "-W", "-f", "${Version}", name]
        said = subprocess.run(words, capture_output=True, text=True).stdout
        if said:
            known += PACKAGE.format(name=name, version=said)
            (root / f"var/lib/dpkg/info/{name}:amd64.list").write_text("/.\n")
    (root / STATUS).write_text(known)
    (root / "var/lib/dpkg/available").write_text("")


def bare_root(root):
    """Makes a root of this machine's C library and a few of its tools; returns those it hasn't."""
    for it in FOLDERS:
        (root / it).mkdir(parents=True, exist_ok=True)
    for it in ("bin", "sbin", "lib", "lib64"):
        (root / it).symlink_to(f"usr/{it}")
    lacking = lay_files(root)
    if shutil.which("dpkg-query"):
        lay_packages(root)
    (root / "etc/passwd").write_text("root:x:0:0::/root:/bin/bash\n")
    (root / "etc/group").write_text("root:x:0:\n")
    return lacking


def inside(root, *words):
    """A command within a root, without network."""
    outer = ["unshare", "--net", "--mount", "--pid", "--fork"]
    outer += [] if os.geteuid() == 0 else ["--user", "--map-root-user"]
    steps = 'mkdir -p "$0/proc" "$0/dev"; mount -t proc proc "$0/proc" 2> /dev/null; '
    steps += 'touch "$0/dev/null" && mount --bind /dev/null "$0/dev/null"; exec chroot "$0" "$@"'
    return [*outer, "sh", "-c", steps, root, *words]


def can_enter(root):
    """Why a root can't be entered on this machine; nothing where it can."""
    if not shutil.which("unshare"):
        return "there is no unshare on this machine"
    ran = subprocess.run(inside(root, "/bin/true"), capture_output=True, text=True)
    return ran.stderr.strip() if ran.returncode else ""


class Root:
    """A root in which commands are counted."""

    def __init__(self, count, name, place):
        self.count, self.name, self.place = count, name, place

    def run(self, name, line, **wanted):
        words = inside(self.place, "/bin/bash", "-c", line)
        return self.count.run(f"{self.name}: {name}", words, "/", **wanted)

    def has(self, program):
        return (self.place / "usr/bin" / program).exists()

    def glibc(self):
        """The version of its C library, as its dpkg knows it."""
        file = self.place / STATUS
        known = file.read_text() if file.exists() else ""
        found = re.search(r"(?m)^Package: libc6\n(?:.+\n)*?Version: (\d+)\.(\d+)", known)
        return tuple(map(int, found.groups())) if found else None
