"""The edits of crates/*/must-fail, which the gate tries, and of tests/edits, which tests/edits/run tries: wrong answers that a proof must refuse.

An edit's first line says what is true instead. Then come replacements: `file:` holds for the `old:` and `new:` after it, and the old text stands once in its file.
"""
import pathlib

ROOT = pathlib.Path(__file__).resolve().parents[2]


def in_gate(crate):
    """The edits of a crate that the gate tries."""
    return sorted((ROOT / "crates" / crate / "must-fail").glob("*.edit"))


def by_hand(crate):
    """The others."""
    return sorted((ROOT / "tests" / "edits" / crate).glob("*.edit"))


def replacements(edit):
    """(file, old, new) of each replacement."""
    file = old = None
    for line in edit.read_text().splitlines():
        word, _, rest = line.partition(": ")
        if word == "file":
            file = rest
        elif word == "old":
            old = rest
        elif word == "new":
            yield file, old, rest
