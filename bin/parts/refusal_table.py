"""The table of refusals in docs/ANSWERS.md, read: each number with its name, its sentence, and what gives it."""
import re
from collections import namedtuple
from pathlib import Path

PAGE = Path(__file__).resolve().parents[2] / "docs" / "ANSWERS.md"

# One refusal: its number, its name in the code, the page's sentence, and what gives it.
Refusal = namedtuple("Refusal", "number name words by")
ROW = re.compile(r"^\| \[?(\d+)(?:\]\(#refused-(\d+)\))? \| ([^|]*) \| ([^|]*) \| ([^|]*) \|", re.M)
LINK = re.compile(r"\[([^\]]*)\]\([^)]*\)")


def refusals(text):
    """The rows of the table, without that of 0; a row that links to another number's example counts for none."""
    rows = (Refusal(int(row[1]), row[3].strip("`"), row[4], row[5]) for row in ROW.finditer(text) if row[1] == row[2])
    return {row.number: row for row in rows}


def sentences():
    """The sentence of each refusal as plain text: of a link its words, and no backquotes."""
    found = refusals(PAGE.read_text("utf-8"))
    return {number: LINK.sub(r"\1", row.words).replace("`", "") for number, row in found.items()}
