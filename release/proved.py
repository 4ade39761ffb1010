"""PROVED.txt: what was proved, of which commit, as the gate printed it, and what is trusted."""
import re

from kept import CRATES, crates
from pages import section

HOW = """\
Each crate's name, and the line that ended its proof, as the gate printed it; two lines where its
tests are proved too. `logic=proved functions=N`: N functions meet their contracts. `sum` is the
logic's, the same for all. `X=trusted`: X was taken as the kit, or an earlier check, had made it.
`is kept`: the gate took the crate over, since it had proved the same files over the same libraries
on that machine before; the line of that proof isn't in this log, and isn't made up here. Who
doubts any of it runs .ci/run on a clone of the commit, with this kit.
"""
PACKED = "The files that were tried there, packed unchanged, with the processor that each needs:"
CLAIMS = "WHAT THAT MEANS (README.md of the commit)"
TRUSTED = "TRUSTED BY THE LIBRARY, BESIDE THAT (hosts/README.md of the commit)"


def unlinked(text):
    """A page's text with the words of its links, and where these lead to."""
    return re.sub(r"\[([^\]]*)\]\(([^)]*)\)", r"\1 (\2)", text)


def verdict_lines(kept):
    for name in crates():
        yield name
        for line in kept.verdicts[name] or ["NOTHING IN THE LOG"]:
            yield f"    {line}"


def made_by(release):
    """The commit, the kit and the compilers, each with its name."""
    facts, kept = release.kept.facts, release.kept
    taken = kept.taken_over()
    yield "Commit", facts["commit"]
    yield "Tree", facts["tree"]
    yield "Kit", facts["kit"]
    yield "Kit's parts", facts["kit_parts"]
    yield "Sum of the logic", kept.logic()
    yield "Gate", kept.end() or "NONE"
    if taken:
        yield "Taken over", f"{len(taken)} of {len(crates())} crates, marked 'is kept' below"
    yield "Compiled by", "the kit's clang"
    if kept.has_library():
        yield "The C half", f"of the library, by {facts['c_compiler']}, {facts['linker']}"


def file_lines(release):
    kept = release.kept
    for name, known in kept.facts["files"].items():
        if name != "gate.log":
            level = f" ({kept.processor(name)})" if name in CRATES else ""
            yield f"    {known}  {name}{level}"


def proved(release):
    lines = [f"cedar {release.version}", ""]
    if not release.is_proved:
        lines.append("NOTHING HERE MAY BE CALLED PROVED:")
        lines += [*(f"- {it}" for it in release.kept.lacks), ""]
    lines += [f"{name + ':':18}{text}" for name, text in made_by(release)]
    lines += ["", PACKED, "", *file_lines(release), ""]
    lines += ["WHAT THE GATE SAID OF EACH CRATE", "", HOW, *verdict_lines(release.kept), ""]
    lines += [CLAIMS, "", unlinked(section("README.md", "What is proved")), ""]
    lines += [TRUSTED, "", unlinked(section("hosts/README.md", "Trusted")), ""]
    return "\n".join(lines)
