"""The tarball for npm, where hosts/js is there and its module was kept."""
import json

import packing
from archives.notices import add_notices
from packing import Tree
from release import HOSTS

MODULE = "cedar.wasm"
JS = HOSTS / "js"


def pack(release):
    name = f"cedar-proved-{release.version}.tgz"
    if not (JS / "package.json").is_file():
        return release.leave_out(name, "there is no hosts/js")
    if not release.kept.has(MODULE):
        return release.leave_out(name, f"no {MODULE} was kept")
    about = json.loads((JS / "package.json").read_text())
    told = json.dumps({**about, "version": release.version}, indent=2)
    tree = Tree().add("package.json", told + "\n").add(MODULE, release.kept.read(MODULE))
    add_notices(release, tree)
    for it in about["files"]:
        if it not in tree.files:
            tree.add(it, (JS / it).read_bytes())
    whole = tree.below("package")
    return release.write(name, packing.tar_gz(whole, release.epoch, with_folders=False))
