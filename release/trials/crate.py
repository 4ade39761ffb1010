"""Builds a program over the crate, offline, from a registry that has it alone."""
import hashlib
import json
import os
import re
import shutil

from trials.given import FIRST, first_program, unpacked

CONFIG = """\
[source.crates-io]
replace-with = "here"
[source.here]
local-registry = "{registry}"
"""
MANIFEST = """\
[package]
name = "first"
version = "0.1.0"
edition = "2021"
[dependencies]
{name} = "={version}"
"""


def lay_registry(file, name, version, registry):
    index = registry / "index" / name[:2] / name[2:4]
    index.mkdir(parents=True)
    shutil.copy(file, registry)
    line = {"name": name, "vers": version, "deps": [], "features": {}, "yanked": False}
    line |= {"links": "cedar", "cksum": hashlib.sha256(file.read_bytes()).hexdigest()}
    (index / name).write_text(json.dumps(line) + "\n")


def try_crate(count, file, room):
    cargo = shutil.which("cargo")
    if not cargo:
        return count.leave_out("Rust", "there is no cargo")
    place, registry = room / "rust", room / "registry"
    name, version = re.fullmatch(r"([a-z-]+)-(\d.*)\.crate", file.name).groups()
    lay_registry(file, name, version, registry)
    for it in ("src", ".cargo"):
        (place / it).mkdir(parents=True)
    top = unpacked(file, room / "crate")
    (place / ".cargo/config.toml").write_text(CONFIG.format(registry=registry))
    (place / "Cargo.toml").write_text(MANIFEST.format(name=name, version=version))
    page = (top / "README.md").read_text()
    (place / "src/main.rs").write_text(first_program(page, "rust"))
    toolchains = os.environ.get("RUSTUP_HOME", os.path.expanduser("~/.rustup"))
    flags = {"CARGO_HOME": room / "cargo_home", "RUSTUP_HOME": toolchains}
    flags["PATH"] = f"{os.path.dirname(cargo)}:/usr/bin:/bin"
    words = [cargo, "build", "--offline", "--quiet"]
    if count.run("Rust: cargo build, offline", words, place, **flags):
        count.run("Rust: the page's program", [place / "target/debug/first"], place, shown=FIRST)
    words = [cargo, "metadata", "--offline", "--no-deps", "--format-version", "1"]
    wanted = {"shown": '"links":"cedar"', **flags}
    return count.run("Rust: cargo reads the crate's manifest", words, top, **wanted)
