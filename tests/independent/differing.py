"""Where model and program differ on a script, and a short script on which they still do."""
import time

from language import Console
from program import answers, text_of

# How long to go on cutting.
SECONDS = 120


def expected(lines):
    """The model's answers, as (number of the script's line from 0, answering line)."""
    console = Console()
    return [(at, answer) for at, line in enumerate(lines) for answer in console.answer(line)]


def difference(words, lines, ended=True, wanted=None):
    """None, or (line's number from 0, the model's answer, the program's) where they first differ."""
    wanted = expected(lines) if wanted is None else wanted
    got = answers(words, text_of(lines, ended))
    for (at, model), program in zip(wanted, got):
        if model != program:
            return at, model, program
    if len(got) == len(wanted):
        return None
    if len(got) > len(wanted):
        return len(lines) - 1, "(no more)", got[len(wanted)]
    at, model = wanted[len(got)]
    return at, model, "(nothing)"


def shortest(words, lines, found):
    """A short script with its difference: what follows it is cut off first, then parts of ever smaller size are left out."""
    end = time.monotonic() + SECONDS
    whole, lines = lines, lines[:found[0] + 1]
    if not difference(words, lines):
        # it takes more: the lines behind, or that the last has no newline
        lines = whole
    size = len(lines) // 2
    while size >= 1 and time.monotonic() < end:
        at = 0
        while at < len(lines) and time.monotonic() < end:
            tried = lines[:at] + lines[at + size:]
            other = difference(words, tried) if tried else None
            if other:
                lines, found = tried[:other[0] + 1], other
            else:
                at += size
        size //= 2
    return lines, found
