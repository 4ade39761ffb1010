"""Uses the library for C and C++, moved to another folder: by pkg-config and by CMake."""
import os
import shutil

from trials.given import SHORT, first_program, unpacked

CPP = """\
#include "cedar.h"
#include <cstdio>
int main() { std::puts(cedar_is_abi() ? "abi" : "other"); }
"""
CMAKE = """\
cmake_minimum_required(VERSION 3.13)
project(first C)
find_package(cedar {wanted} REQUIRED)
foreach(it cedar static)
  add_executable(first_${{it}} first.c)
  target_link_libraries(first_${{it}} PRIVATE cedar::${{it}})
endforeach()
"""
STRICT = "-Wall -Wextra -Werror"
OTHER_VERSION = "9.9"


def compiler():
    return os.environ.get("CC", "cc")


def try_pkg_config(count, library, place, version):
    paths = {"PKG_CONFIG_PATH": library / "lib/pkgconfig"}
    all_flags = "$(pkg-config --cflags --libs cedar)"
    static = f"$(pkg-config --cflags cedar) {library}/lib/libcedar.a"
    for name, flags in (("shared", all_flags), ("static", static)):
        line = f"{compiler()} {STRICT} first.c {flags} -o {name}"
        if count.run(f"C by pkg-config, {name}: compiles", ["sh", "-c", line], place, **paths):
            found = {"LD_LIBRARY_PATH": library / "lib"} if name == "shared" else {}
            wanted = {"status": 1, "shown": SHORT, **found}
            count.run(f"C by pkg-config, {name}: runs", [f"./{name}"], place, **wanted)
    words = ["pkg-config", "--modversion", "cedar"]
    count.run("pkg-config --modversion", words, place, shown=version, **paths)
    if not shutil.which("c++"):
        return count.leave_out("C++ by pkg-config", "there is no c++")
    (place / "first.cpp").write_text(CPP)
    rpath = "-Wl,-rpath,$(pkg-config --variable=libdir cedar)"
    line = f"c++ {STRICT} first.cpp {all_flags} {rpath} -o cpp"
    if count.run("C++ by pkg-config: compiles", ["sh", "-c", line], place, **paths):
        count.run("C++ by pkg-config: runs", ["./cpp"], place, shown="abi")


def try_cmake(count, library, place, version):
    series = ".".join(version.split(".")[:2])
    (place / "CMakeLists.txt").write_text(CMAKE.format(wanted=series))
    given = [f"-DCMAKE_PREFIX_PATH={library}", f"-DCMAKE_C_COMPILER={shutil.which(compiler())}"]
    words = ["cmake", "-S", ".", "-B", "build", *given]
    if count.run("C by CMake: configures", words, place) and count.run(
        "C by CMake: builds", ["cmake", "--build", "build"], place
    ):
        for it in ("cedar", "static"):
            wanted = {"status": 1, "shown": SHORT}
            count.run(f"C by CMake: cedar::{it} runs", [f"build/first_{it}"], place, **wanted)
    wrong = place / "wrong"
    wrong.mkdir()
    (wrong / "CMakeLists.txt").write_text(CMAKE.format(wanted=OTHER_VERSION))
    words = ["cmake", "-S", wrong, "-B", "other", *given]
    wanted = {"status": 1, "shown": f'requested version "{OTHER_VERSION}"'}
    count.run("C by CMake: another version is refused", words, place, **wanted)


def try_library(count, file, room, version):
    top, library, place = unpacked(file, room / "library"), room / "elsewhere/cedar", room / "c"
    library.parent.mkdir()
    shutil.move(top, library)
    place.mkdir()
    (place / "first.c").write_text(first_program((library / "README.md").read_text(), "c"))
    for tool, attempt in (("pkg-config", try_pkg_config), ("cmake", try_cmake)):
        if shutil.which(tool) and shutil.which(compiler()):
            attempt(count, library, place, version)
        else:
            count.leave_out(f"C by {tool}", f"there is no {tool}, or no C compiler")
