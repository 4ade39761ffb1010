"""The texts that are tried, and how the files of a release are taken apart."""
import pathlib
import re
import tarfile
import textwrap

FAULTY = "permit(principal action);"
GOOD = "permit(principal, action, resource);"
PLAIN = "<stdin>:1:18: unexpected token `action`: expected an operator, `)`, `,` or `:`"
SHORT = "1:18: unexpected token `action`"
# What the first program of each page says.
FIRST = "my.cedar:2:18: unexpected token `action`"
BLOCK = r"(?m)^```rust\n([\s\S]*?)^```|((?:^    .*\n|^\n)+)"
STARTS = {"c": "#include", "python": "import ", "rust": "use ", "go": "package main"}


def unpacked(file, to):
    """Unpacks an archive, and returns the one folder that is in it."""
    to.mkdir(parents=True)
    with tarfile.open(file) as tar:
        tar.extractall(to)
    found, = pathlib.Path(to).iterdir()
    return found


def first_program(page, language):
    """The first program that a page shows."""
    for fenced, indented in re.findall(BLOCK, page):
        block = textwrap.dedent(fenced or indented).strip("\n") + "\n"
        if block.startswith(STARTS[language]):
            return block
    raise ValueError(f"the page shows no program of {language}")
