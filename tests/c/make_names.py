"""Prints names.h for c/test.c: the name that each refusal given in C must have in c/gorephan.h, and its number, as docs/ANSWERS.md has them.

The table there names each refusal as the code does: WrongLength is GOREPHAN_WRONG_LENGTH. Fails where the header has other names than these.
"""
import re
import sys
from pathlib import Path

ROOT = Path(__file__).resolve().parents[2]
sys.path.insert(0, str(ROOT / "bin" / "parts"))

from refusal_table import PAGE, refusals  # noqa: E402


def in_c(name):
    """The name in C."""
    return "GOREPHAN" + re.sub(r"([A-Z])", r"_\1", name).upper()


def main():
    wanted = {in_c(row.name): row.number for row in refusals(PAGE.read_text()).values() if "in C " in row.by}
    header = (ROOT / "c" / "gorephan.h").read_text()
    enum = re.search(r"enum gorephan_refusal \{(.*?)\};", header, re.S)
    found = re.findall(r"\b(GOREPHAN_\w+) =", enum[1]) if enum else []
    if not wanted or sorted(found) != sorted(wanted):
        print(f"c/gorephan.h names the refusals {', '.join(found) or 'not at all'}; docs/ANSWERS.md has in C {', '.join(wanted)}", file=sys.stderr)
        return 1
    print("/* Made by tests/c/make_names.py from docs/ANSWERS.md. */")
    print("static const struct {\n    const char *name;\n    unsigned is, should_be;\n} names[] = {")
    for name, number in wanted.items():
        print(f'    {{"{name}", {name}, {number}}},')
    print("};")
    return 0


if __name__ == "__main__":
    sys.exit(main())
