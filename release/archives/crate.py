"""The crate for Rust, which carries the static library."""
import json

import packing
from archives.notices import add_notices
from packing import Tree
from pages import first_call, needs, part
from release import HOSTS

RUST = HOSTS / "rust"
# What the public index takes.
LARGEST = 10 << 20


def sources():
    yield "build.rs"
    for folder in ("src", "examples", "tests"):
        for file in sorted((RUST / folder).glob("*.rs")):
            yield f"{folder}/{file.name}"


def pack(release):
    name = f"cedar-proved-{release.version}"
    of_plain, of_this = (f'version = "{it}"' for it in (release.plain, release.version))
    taken = lambda file: (RUST / file).read_text().replace(of_plain, of_this)
    more = f'[package]\nreadme = "README.md"\nrepository = "{release.settings["HOMEPAGE"]}"\n'
    tree = Tree().add("Cargo.toml", taken("Cargo.toml").replace("[package]\n", more))
    tree.add("Cargo.toml.orig", (RUST / "Cargo.toml").read_bytes())
    tree.add("Cargo.lock", taken("Cargo.lock"))
    made_of = {"git": {"sha1": release.kept.facts["commit"]}, "path_in_vcs": "hosts/rust"}
    tree.add(".cargo_vcs_info.json", json.dumps(made_of, indent=2) + "\n")
    for it in sources():
        tree.add(it, (RUST / it).read_bytes())
    tree.add("lib/libcedar.a", release.kept.read("libcedar.a"))
    told = {"NEEDS": needs(release, "libcedar.so"), "FIRST": first_call(release, "rust")}
    tree.add("README.md", part(release, "README-rust.md", **told))
    whole = add_notices(release, tree).below(name)
    data = packing.tar_gz(whole, release.epoch, with_folders=False)
    if len(data) > LARGEST:
        why = f"the crate has {len(data) >> 20} MB, and the public index takes {LARGEST >> 20}"
        release.leave_out("a crate that the public index takes", why)
    release.write(f"{name}.crate", data)
