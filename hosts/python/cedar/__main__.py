"""python3 -m cedar [FILE]: the policies of a file, or its faults with their lines. Without a file it
reads standard input."""

import sys

import cedar


def main() -> int:
    if len(sys.argv) > 2:
        print("usage: python3 -m cedar [FILE]", file=sys.stderr)
        return 2
    name = sys.argv[1] if len(sys.argv) == 2 else "-"
    try:
        with open(0 if name == "-" else name, encoding="utf-8", newline="") as file:
            text = file.read()
    except (OSError, UnicodeDecodeError) as error:
        print(f"{name}: {error}", file=sys.stderr)
        return 2
    try:
        for policy in cedar.parse_policies(text):
            print(policy)
        return 0
    except cedar.CedarError as error:
        print(error.shown(name), file=sys.stderr)
        return 1


if __name__ == "__main__":
    sys.exit(main())
