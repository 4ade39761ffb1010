"""Completions of a program for bash, zsh and fish, made of what its --help prints."""
import re

FILE, NAME = "FILE", "NAME"


class Option:
    """An option of a command: its flags, what its value is, and what it does."""

    def __init__(self, short, long, value, text):
        self.short, self.long, self.value = short, long, value
        told = re.search(r"\[possible values: ([^]]*)\]", text)
        self.values = told[1].split(", ") if told else []
        self.text = re.sub(r"\s*\[(possible values|default): [^]]*\]", "", text).strip()

    def flags(self):
        return [it for it in (self.short, self.long) if it]

    def is_taken_again(self):
        return "again for more" in self.text or self.value == NAME


def options(text):
    """The options that a page of --help lists."""
    line = r"(?m)^ +(?:(-\w), )?(--[\w-]+)(?: <(\w+)>)? {2,}(.*)$"
    return [Option(*it.groups()) for it in re.finditer(line, text)]


def commands(text):
    """The commands that the first page lists, each with what it does."""
    part = text.split("Commands:\n")[1].split("\n\n")[0]
    return dict(re.findall(r"(?m)^  ([\w-]+) +(.+)$", part))


class Program:
    """A program's commands and options, by its pages of --help: the first under the name ''."""

    def __init__(self, name, pages):
        self.name, self.first = name, options(pages[""])
        self.told = commands(pages[""])
        self.of = {it: options(pages[it]) for it in self.told if it in pages}

    def bash(self):
        words = lambda its: " ".join(flag for it in its for flag in it.flags())
        cases = [f"        {name}) words='{words(its)}' ;;" for name, its in self.of.items()]
        taking = {" | ".join(it.flags()): it for its in self.of.values() for it in its if it.value}
        value = lambda flags, it: f"        {flags}) {bash_values(self.name, it)} ;;"
        values = [value(*it) for it in taking.items()]
        return BASH.format(
            name=self.name,
            first=" ".join([*self.told, words(self.first)]),
            helped=" ".join(self.of),
            known=" | ".join(self.told),
            values="\n".join(values),
            cases="\n".join(cases),
        )

    def zsh(self):
        told = "\n".join(f"        '{it}:{quoted(text)}'" for it, text in self.told.items())
        cases = []
        for command, its in self.of.items():
            lines = " \\\n".join(f"                {zsh_option(it)}" for it in its)
            head = f"            {command})\n                _arguments -s -S"
            cases.append(f"{head} \\\n{lines} ;;")
        first = " \\\n".join(f"        {zsh_option(it)}" for it in self.first)
        return ZSH.format(name=self.name, told=told, first=first, cases="\n".join(cases))

    def fish(self):
        seen = "__fish_seen_subcommand_from"
        none, helped = f"not {seen} {' '.join(self.told)}", f"{seen} help"
        complete = lambda when, rest: f"complete -c {self.name} -n '{when}' {rest}"
        lines = [f"# Completions of {self.name} for fish, made of its --help."]
        lines.append(f"complete -c {self.name} -f")
        for it, text in self.told.items():
            lines.append(complete(none, f"-a {it} -d '{fish_quoted(text)}'"))
        lines.append(complete(helped, f"-a '{' '.join(self.of)}'"))
        lines += [complete(none, fish_option(it)) for it in self.first]
        for command, its in self.of.items():
            when = f"{seen} {command}; and not {helped}"
            lines += [complete(when, fish_option(it)) for it in its]
        return "\n".join(lines) + "\n"


def bash_values(name, it):
    """What bash does behind a flag that takes a value."""
    if it.values:
        return f"COMPREPLY=($(compgen -W '{' '.join(it.values)}' -- \"$current\")); return"
    return f"_{name}_files; return" if it.value == FILE else "return"


def quoted(text):
    text = text.replace("'", "'\\''").replace(":", "\\:")
    return text.replace("[", "\\[").replace("]", "\\]")


def zsh_option(it):
    flags, value = it.flags(), ""
    if it.values:
        value = f":{it.value.lower()}:({' '.join(it.values)})"
    elif it.value:
        value = f":{it.value.lower()}:{'_files' if it.value == FILE else ''}"
    text = f"[{quoted(it.text)}]{value}"
    mark = "*" if it.is_taken_again() else f"({' '.join(flags)})"
    if len(flags) > 1:
        return f"'{mark}'{{{','.join(flags)}}}'{text}'"
    return f"'{mark if mark == '*' else ''}{flags[0]}{text}'"


def fish_quoted(text):
    return text.replace("\\", "\\\\").replace("'", "\\'")


def fish_option(it):
    short = f"-s {it.short[1:]} " if it.short else ""
    value = " -x" if it.value else ""
    if it.values:
        value = f" -x -a '{' '.join(it.values)}'"
    elif it.value == FILE:
        value = " -r -F"
    return f"{short}-l {it.long[2:]}{value} -d '{fish_quoted(it.text)}'"


BASH = """# Completions of {name} for bash, made of its --help.
_{name}_files() {{
    local found
    compopt -o filenames 2> /dev/null
    found=$(compgen -f -- "${{COMP_WORDS[COMP_CWORD]}}")
    [ -z "$found" ] || mapfile -t COMPREPLY <<< "$found"
}}
_{name}() {{
    local current=${{COMP_WORDS[COMP_CWORD]}} before=${{COMP_WORDS[COMP_CWORD-1]}}
    local command='' words='' it
    COMPREPLY=()
    for it in "${{COMP_WORDS[@]:1:COMP_CWORD-1}}"; do
        case $it in {known}) command=$it; break ;; esac
    done
    [ -z "$command" ] || case $before in
{values}
    esac
    case $command in
        '') words='{first}' ;;
        help) words='{helped}' ;;
{cases}
    esac
    COMPREPLY=($(compgen -W "$words" -- "$current"))
}}
complete -F _{name} {name}
"""

ZSH = """#compdef {name}
# Completions of {name} for zsh, made of its --help.
_{name}() {{
    local -a told
    local state
    told=(
{told}
    )
    _arguments -C \\
{first} \\
        '1:command:->command' \\
        '*::words:->words'
    case $state in
        command) _describe command told ;;
        words)
            case $words[1] in
{cases}
            help) _describe command told ;;
            esac ;;
    esac
}}
_{name} "$@"
"""
