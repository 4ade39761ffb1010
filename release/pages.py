"""The pages of a release: the READMEs of its archives, made of parts/ and of the pages of hosts/,
and the manual."""
import re

import completions
from elf import dotted
from kept import TOP, stop
from release import HERE, HOSTS

# Which releases of which system have which glibc.
SYSTEMS = {
    "Debian": {"11": (2, 31), "12": (2, 36), "13": (2, 41)},
    "Ubuntu": {"20.04": (2, 31), "22.04": (2, 35), "24.04": (2, 39)},
    "Fedora": {"34": (2, 33), "35": (2, 34)},
    "RHEL": {"8": (2, 28), "9": (2, 34)},
}
LICENCES = """\
Licences: LICENSE, NOTICE, THIRD-PARTY.txt. Rattle's kit states none of its own parts that are
linked in (std, json and below)."""
# Where the help of `cedar` and of each command is stored; the gate compares it with the program.
HELPS = {"": "help", "check-parse": "help_check", "format": "help_format", "list": "help_list"}


def section(file, head):
    """A section of a page of the repository, without its head."""
    found = re.search(rf"(?ms)^## {head}.*?\n(.*?)(?=^## |\Z)", (TOP / file).read_text())
    return found[1].strip() if found else stop(f"{file} has no section '{head}'")


def needs(release, *names):
    """What files need of a machine."""
    glibc = release.glibc(*names)
    fit = lambda its: next(version for version, has in its.items() if has >= glibc)
    systems = ", ".join(f"{name} {fit(its)}" for name, its in SYSTEMS.items())
    asked = {it for name in names if name in release.elfs for it in release.elfs[name].needed}
    machine = f"Linux on {release.kept.processor(*names)} with glibc {dotted(glibc)} or later"
    return (
        f"It needs {machine}, as {systems} and\n"
        f"later have it, and of that {', '.join(sorted(asked))}; musl (Alpine) won't do."
    )


def banner(release):
    if release.is_proved:
        return ""
    return f"\n**NOT A RELEASE: {release.kept.lacks[0]}. PROVED.txt tells more.**\n"


def filled(release, text, **more):
    """A text with what stands between two @ filled in."""
    series = ".".join(release.plain.split(".")[:2])
    known = {"VERSION": release.version, "SERIES": series, "ABI": release.abi}
    known["LICENCES"] = LICENCES
    known |= {"BANNER": banner(release), **release.settings, **more}
    return re.sub(r"@([A-Z_]+)@", lambda it: known.get(it[1], it[0]), text)


def part(release, name, **more):
    return filled(release, (HERE / "parts" / name).read_text(), **more)


def first_call(release, language):
    """What a page of hosts/ says from the first call on, without what only a checkout has."""
    text = (HOSTS / language / "README.md").read_text()
    text = text[text.index("## The first call") : text.index("## Trusted")].strip()
    if language == "go":
        begin, end = text.index("A program of your own"), text.index("and `main.go`")
        text = text[:begin] + "In " + text[end + len("and ") :]
        text = text.replace('"cedar"\n', f'"{release.settings["GO_MODULE"]}"\n')
    parts = [it for it in text.split("\n\n") if not it.startswith("`show.c`")]
    text = re.sub(r"`cc -Ihosts/c .*?` prints", "It prints", "\n\n".join(parts))
    text = text.replace(", beside the folder `cedar`", "")
    return re.sub(r"(A stack of 256 KB does):\s+`\.ci/hosts` tries[^.]*", r"\1", text)


def program():
    """The program's commands and options."""
    printed = lambda run: (TOP / ".ci/runs/cedar" / run / "stdout").read_text()
    return completions.Program("cedar", {it: printed(run) for it, run in HELPS.items()})


def told_flags(page):
    """The flags that a page of the manual lists."""
    options = re.search(r"(?ms)^\.SH OPTIONS\n(.*?)(?=^\.SH )", page)[1]
    heads = re.findall(r"(?m)^\.TP\n(.*)$", options)
    return set(re.findall(r"--[a-z-]+", "\n".join(heads).replace("\\-", "-")))


def manuals(release):
    """The pages of the manual by their names; each has just the flags that --help lists."""
    known = program()
    for file in sorted((HERE / "man").glob("*.1")):
        text, command = file.read_text(), file.stem.partition("-")[2]
        listed = known.first if file.stem == "cedar" else known.of.get(command)
        odd = told_flags(text) ^ {it.long for it in listed} if listed else None
        if odd:
            stop(f"{file.name} and --help differ in {', '.join(sorted(odd))}")
        if release.kept.has("cedar-parse") or file.stem != "cedar-parse":
            yield file.name, filled(release, text, DATE=release.day.strftime("%Y-%m-%d"))
