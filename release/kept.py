"""What `release/keep` kept of a run of the gate, and what that may be called."""
import collections
import json
import pathlib
import re
import subprocess
import sys

from packing import digest

TOP = pathlib.Path(__file__).resolve().parent.parent
PROGRAMS = ("cedar", "cedar-parse")
LIBRARIES = ("libcedar.a", "libcedar.so")
FACTS = "kept.json"
# The crates of which they are made, and the processor that the kit compiles for of itself.
CRATES = {"cedar": "cedar", "cedar-parse": "cedar_parse"} | dict.fromkeys(LIBRARIES, "cedar_c")
COMPILED_FOR = "x86-64-v2"
# How the gate's log tells of a crate's proof: .ci/prove by the crate's name before the line that
# ends it; `rt ci` by a head over all that was said, or that an earlier run had proved it.
OF_SCHEDULE = r"(?m)^(\w+): (logic=.*)$"
OF_GATE = r"(?ms)^== (\w+)(?:: its tests)?\n(.*?)(?=^== |\Z)"
TAKEN_OVER = r"(?m)^rt: (\w+) (is kept: .*)$"


def stop(why):
    sys.exit(f"release/make: {why}")


def crates():
    """The crates of crates.txt, by name: what each stands on."""
    lines = re.findall(r"(?m)^(\w+)[^:\n#]*:(.*)$", (TOP / "crates.txt").read_text())
    return {name: below.split() for name, below in lines}


def verdicts(log):
    """What the gate's log says of each crate: the lines that end its proof and that of its tests;
    else, where the gate took it over, that it did."""
    told = collections.defaultdict(list)
    for name, line in re.findall(OF_SCHEDULE, log):
        told[name].append(line)
    for name, said in re.findall(OF_GATE, log):
        told[name] += re.findall(r"(?m)^logic=.*$", said)
    for name, line in re.findall(TAKEN_OVER, log):
        told[name] = told[name] or [line]
    return told


class Kept:
    """Programs, libraries, the gate's log, and what is known of them."""

    def __init__(self, folder):
        self.folder = folder
        if not (folder / FACTS).is_file():
            stop(f"{folder} holds nothing that release/keep kept")
        self.facts = json.loads((folder / FACTS).read_text())
        for name, known in self.facts["files"].items():
            if digest(self.read(name)) != known:
                stop(f"{name} isn't the file that was kept")
        self.log = (folder / "gate.log").read_text(errors="replace")
        self.verdicts = verdicts(self.log)
        self.lacks = list(self.lacking())

    def has(self, name):
        return name in self.facts["files"]

    def read(self, name):
        return (self.folder / name).read_bytes()

    def has_library(self):
        return all(map(self.has, LIBRARIES))

    def compiled_for(self, name):
        """The processor that the kit compiled a file for, which a program asks for as it starts. A
        verdict names it, but for the plainest."""
        told = [it for it in self.verdicts[CRATES[name]] if it.startswith("logic=")]
        named = re.findall(r" cpu=(\S+)", " ".join(told))
        return max(named, default="x86-64") if told else COMPILED_FOR

    def processor(self, *names):
        """The processor that these files need: by what they were compiled for, and by the
        instructions that they have."""
        found = [self.facts["processors"].get(it) for it in names]
        found += [self.compiled_for(it) for it in names if self.has(it)]
        return max(filter(None, found), default=COMPILED_FOR)

    def end(self):
        """The gate's last line."""
        return (re.findall(r"(?m)^\d+ passed, \d+ failed.*$", self.log) or [None])[-1]

    def is_proved(self, crate):
        """Whether the log says that a crate is proved, in this run or in an earlier one."""
        lines = self.verdicts[crate]
        return bool(lines) and all(re.match("logic=proved |is kept: ", it) for it in lines)

    def taken_over(self):
        """The crates that the gate took over, of whose proof its log has no line."""
        are_of = lambda name: "".join(self.verdicts[name])
        return [name for name in crates() if are_of(name).startswith("is kept")]

    def lacking(self):
        """Why what was kept may not be called proved."""
        facts, end = self.facts, self.end()
        if facts["unproved"]:
            yield facts["unproved"]
        if not re.fullmatch(r"[1-9]\d* passed, 0 failed", end or ""):
            yield f"the gate's log ends with {end!r}" if end else "the log isn't a gate's"
        words = ["git", "rev-parse", "HEAD^{tree}"]
        tree = subprocess.run(words, cwd=TOP, capture_output=True, text=True).stdout.strip()
        if tree != facts["tree"]:
            yield f"it is of the tree {facts['tree'][:12]}, and this checkout of {tree[:12]}"
        if facts["changed"]:
            yield f"the checkout had changes: {', '.join(it[3:] for it in facts['changed'][:6])}"
        silent = [name for name in crates() if not self.is_proved(name)]
        if silent:
            yield f"the log doesn't say that these are proved: {', '.join(silent)}"
        for name in PROGRAMS:
            if not self.has(name):
                yield f"there is no {name}"
        for name in filter(self.has, [*PROGRAMS, *LIBRARIES]):
            if b"__asan_init" in self.read(name):
                yield f"{name} has the checks of memory with which `rt try` builds"

    def logic(self):
        """The sum of the logic that the proofs stand on."""
        sums = re.findall(r"(?m)^(?:\w+: )?logic=proved .*?\bsum=([0-9a-f]+)", self.log)
        return ", ".join(sorted(set(sums))) or self.facts["kit"].partition(" logic ")[2]
