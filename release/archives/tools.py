"""The archive of the programs, manual and completions; it can be unpacked over a prefix."""
import packing
from archives.notices import add_notices
from kept import PROGRAMS
from packing import Tree
from pages import manuals, needs, part, program
from release import TARGET

MANUAL = "share/man/man1"
BASH = "share/bash-completion/completions/cedar"
ZSH = "share/zsh/site-functions/_cedar"
FISH = "share/fish/vendor_completions.d/cedar.fish"


def tree_of_tools(release, zsh, is_squeezed=False):
    """Programs, manual and completions, where a prefix has them; Debian has zsh's elsewhere, and
    its manual squeezed."""
    tree = Tree()
    for name in PROGRAMS:
        if release.kept.has(name):
            tree.add(f"bin/{name}", release.kept.read(name), True)
        else:
            release.leave_out(f"bin/{name}", "it wasn't kept")
    for name, text in manuals(release):
        if is_squeezed:
            tree.add(f"{MANUAL}/{name}.gz", packing.gzipped(text))
        else:
            tree.add(f"{MANUAL}/{name}", text)
    known = program()
    return tree.add(BASH, known.bash()).add(zsh, known.zsh()).add(FISH, known.fish())


def pack(release):
    name = f"cedar-{release.version}-{TARGET}"
    tree = tree_of_tools(release, ZSH)
    tree.add("README.md", part(release, "README-tools.md", NEEDS=needs(release, *PROGRAMS)))
    whole = add_notices(release, tree).below(name)
    release.write(f"{name}.tar.gz", packing.tar_gz(whole, release.epoch))
