"""The library for C and C++: header, static and shared library, files for pkg-config and CMake."""
import packing
from archives.notices import add_notices
from packing import Tree
from pages import first_call, needs, part
from release import HOSTS, TARGET


def pack(release):
    name, abi, kept = f"libcedar-{release.version}-{TARGET}", release.abi, release.kept
    tree = Tree().add("include/cedar.h", (HOSTS / "c/cedar.h").read_bytes())
    tree.add("lib/libcedar.a", kept.read("libcedar.a"))
    tree.add(f"lib/libcedar.so.{abi}", kept.read("libcedar.so"), True)
    tree.link("lib/libcedar.so", f"libcedar.so.{abi}")
    # Both compare numbers, and know no word behind them.
    tree.add("lib/pkgconfig/cedar.pc", part(release, "cedar.pc", VERSION=release.plain))
    for it in ("cedar-config.cmake", "cedar-config-version.cmake"):
        tree.add(f"lib/cmake/cedar/{it}", part(release, it, VERSION=release.plain))
    told = {"NEEDS": needs(release, "libcedar.so"), "FIRST": first_call(release, "c")}
    tree.add("README.md", part(release, "README-library.md", **told))
    whole = add_notices(release, tree).below(name)
    release.write(f"{name}.tar.gz", packing.tar_gz(whole, release.epoch))
