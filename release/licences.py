"""Whose work is linked into programs and libraries, and under which licences."""
import re

HEAD = """\
Beside what this project wrote, the programs and the libraries hold ports of these, as Rattle's kit
has them, and the kit's own libraries (json, std and below), of which the kit states no licence.
"""
RULE = "=" * 80
APACHE_OF_DEBIAN = "The Apache License 2.0: on Debian, /usr/share/common-licenses/Apache-2.0."


def licence_of(text):
    """The name that SPDX gives a licence, by its words; none where they are unknown."""
    words = " ".join(text.split())
    if "UNICODE LICENSE V3" in words.upper():
        return "Unicode-3.0"
    if "Apache License Version 2.0" in words:
        return "Apache-2.0"
    if "Boost Software License - Version 1.0" in words:
        return "BSL-1.0"
    is_mit = "Permission is hereby granted, free of charge" in words and "MERCHANTABILITY" in words
    return "MIT" if is_mit else None


def expression_of(kept, library):
    """The licences of one of the kit's libraries, as SPDX writes them."""
    files = kept.facts["libraries"][library]["licences"]
    kinds = [licence_of(kept.read(f"licences/{library}.{it}").decode()) for it in files]
    if not kinds or None in kinds:
        return "NOASSERTION"
    code = sorted(set(kinds) - {"Unicode-3.0"})
    # Two files with these names are a choice; others are of several parts.
    is_choice = {"LICENSE-APACHE", "LICENSE-MIT"} <= set(files)
    licence = (" OR " if is_choice else " AND ").join(code)
    if "Unicode-3.0" not in kinds:
        return licence
    return f"({licence}) AND Unicode-3.0" if code else "Unicode-3.0"


def is_apache(text):
    return bool(re.search(r"TERMS AND CONDITIONS FOR USE, REPRODUCTION, AND DISTRIBUTION", text))


def third_party(kept, is_debian=False):
    """What THIRD-PARTY.txt says, or Debian's file of copyrights, which may not repeat the licences
    that each Debian has."""
    lines = [HEAD]
    for name, told in kept.facts["libraries"].items():
        if told["ported"] or told["licences"]:
            ported = " ".join(told["ported"] or [])
            port = f", a port of the Rust crate {ported}" if ported else ""
            lines.append(f"- {name}{port}: {', '.join(told['licences']) or 'no licence is told'}")
    texts = {}
    for file in sorted((kept.folder / "licences").iterdir()):
        texts.setdefault(file.read_text(), []).append(file.name)
    for text, names in sorted(texts.items(), key=lambda it: it[1]):
        shown = APACHE_OF_DEBIAN if is_debian and is_apache(text) else text.rstrip()
        lines += ["", RULE, ", ".join(names), RULE, "", shown]
    return "\n".join(lines) + "\n"
