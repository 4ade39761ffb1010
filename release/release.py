"""A release as it is made: its version, what its files need, and the files themselves."""
import datetime
import os
import re

from elf import Elf, dotted
from kept import PROGRAMS, TOP, stop
from packing import digest

HERE, HOSTS = TOP / "release", TOP / "hosts"
TARGET = "x86_64-linux-gnu"
LOADER = "/lib64/ld-linux-x86-64.so.2"
# The libraries that each Linux with glibc has.
PLAIN = {"libc.so.6", "libm.so.6", "ld-linux-x86-64.so.2", "libgcc_s.so.1"}
# What users are told that files need; a newer need has to be meant.
NEWEST_GLIBC, HIGHEST_PROCESSOR = (2, 34), "x86-64-v2"
OLDEST_GLIBC = (2, 2, 5)


def settings():
    lines = (HERE / "settings").read_text().splitlines()
    return dict(it.split("=", 1) for it in lines if it and it[0] != "#")


class Release:
    """What is made of what was kept, in a folder."""

    def __init__(self, kept, folder):
        self.kept, self.folder, self.is_proved = kept, folder, not kept.lacks
        self.settings = settings()
        self.epoch = int(os.environ.get("SOURCE_DATE_EPOCH") or kept.facts["epoch"])
        self.day = datetime.datetime.fromtimestamp(self.epoch, datetime.timezone.utc)
        self.plain = (TOP / "VERSION").read_text().strip()
        self.version = self.plain if self.is_proved else f"{self.plain}-unproved"
        header = (HOSTS / "c/cedar.h").read_text()
        self.abi = re.search(r"#define CEDAR_ABI (\d+)", header)[1]
        linked = filter(kept.has, [*PROGRAMS, "libcedar.so"])
        self.elfs = {it: Elf(kept.read(it)) for it in linked}
        for name in self.elfs:
            self.stop_on_needs(name)
        library = self.elfs.get("libcedar.so")
        if library and library.soname != f"libcedar.so.{self.abi}":
            stop(f"libcedar.so calls itself {library.soname}, and CEDAR_ABI is {self.abi}")
        self.made, self.left_out = {}, {}

    def stop_on_needs(self, name):
        """Stops where a file needs more than users are told."""
        file, processor = self.elfs[name], self.kept.processor(name)
        odd = [it for it in file.needed if it not in PLAIN] or file.paths
        if odd or file.loader not in (None, LOADER):
            stop(f"{name} wouldn't run on a plain Linux: it asks for {odd or file.loader}")
        glibc = self.glibc(name)
        if glibc > NEWEST_GLIBC:
            stop(f"{name} needs glibc {dotted(glibc)}, which is newer than {dotted(NEWEST_GLIBC)}")
        if processor > HIGHEST_PROCESSOR:
            stop(f"{name} has instructions of {processor}, which is more than {HIGHEST_PROCESSOR}")

    def glibc(self, *names):
        """The glibc that files need, by the newest of the symbols that they ask for."""
        asked = [self.elfs[it].newest("GLIBC") for it in names if it in self.elfs]
        return max(filter(None, asked), default=OLDEST_GLIBC)

    def write(self, name, data):
        to = self.folder / name
        to.parent.mkdir(parents=True, exist_ok=True)
        to.write_bytes(data.encode() if isinstance(data, str) else data)
        self.made[name] = digest(to.read_bytes())

    def leave_out(self, name, why):
        self.left_out[name] = why
