"""Reads every count of two octets on the console, once as humidity and once as temperature, and holds each reading to Python's own arithmetic.

  python3 tests/counts/check.py

A number must be written as its exact hundredths, have the bits of Python's count / 100, and lie, by exact fractions, so near to the count that
100 times the double is off by at most 1/200. "Not known" and "prohibited" must stand exactly where they are due. It shares no reader of lists
with tests/independent. The console is bin/console, or the command of GOREPHAN_CONSOLE.
"""
import argparse
import struct
import sys
from collections import Counter
from decimal import Decimal
from fractions import Fraction
from pathlib import Path

sys.path.insert(0, str(Path(__file__).resolve().parents[1] / "independent"))

import program  # noqa: E402

COUNTS = 65536
# Each record is a header of format A, with a length of 2 for any property below 0x800, and a count; a message holds 94 of them.
PROPERTIES, RECORDS = {"humidity": 0x0076, "temperature": 0x004F}, 94
OFF = Fraction(1, 200)


class Wrong(Exception):
    """A reading that is not as it should be."""


def line(of, codes):
    """The console's line that reads these counts, each in a record of the property."""
    header = struct.pack("<H", of * 32 + 2)
    return b"readings 52" + b"".join(header + struct.pack("<H", code) for code in codes).hex().encode()


def parts():
    """All counts, as the octets of a record have them, by messages."""
    return [range(begin, min(begin + RECORDS, COUNTS)) for begin in range(0, COUNTS, RECORDS)]


def ask(words, kind):
    """The console's answers to the messages, with the property named."""
    of = PROPERTIES[kind]
    lines = [f"property {of:x} {kind}".encode()] + [line(of, codes) for codes in parts()]
    named, *answers = program.answers(words, program.text_of(lines)) or ["(nothing)"]
    if named != "ok" or len(answers) != len(parts()):
        raise Wrong(f"{kind} is named: {named}; {len(parts())} messages have {len(answers)} answers, the last is {answers[-1:]}")
    return answers


def due(kind, code):
    """The count, and what it is: a number, not known or prohibited."""
    if kind == "humidity":
        return code, "unknown" if code == 0xFFFF else "prohibited" if code > 10000 else "number"
    count = code - 65536 if code >= 32768 else code
    return count, "unknown" if code == 0x8000 else "prohibited" if count < -27315 else "number"


def check(kind, code, words):
    """Takes one reading from the front of the words; gives what it was, and how far 100 times the double is from the count."""
    count, what = due(kind, code)
    wanted = [f"{PROPERTIES[kind]:04x}", what]
    if what == "number":
        wanted[1:] = [kind, str(Decimal(count).scaleb(-2)), struct.pack(">d", count / 100).hex()]
    found = words[:len(wanted)]
    del words[:len(wanted)]
    if found != wanted:
        raise Wrong(f"{kind} {code:04x} must be read as {' '.join(wanted)}, not as {' '.join(found)}")
    if what != "number":
        return what, Fraction(0)
    double, = struct.unpack(">d", bytes.fromhex(found[3]))
    off = abs(100 * Fraction(double) - count)
    if off > OFF:
        raise Wrong(f"{kind} {code:04x}: 100 times the double is {float(off)} from the count")
    return what, off


def compared(words, kind):
    """What the readings of all counts were, with how often each, and the farthest that a number was off."""
    kinds, farthest = Counter(), Fraction(0)
    for codes, answer in zip(parts(), ask(words, kind), strict=True):
        word, number, *found = answer.split(" ") + [""]
        if (word, number) != ("readings", f"{len(codes):x}"):
            raise Wrong(f"{kind} from {codes[0]:04x} on: {len(codes)} records are answered: {answer[:100]}")
        for code in codes:
            what, off = check(kind, code, found)
            kinds[what], farthest = kinds[what] + 1, max(farthest, off)
        if found != [""]:
            raise Wrong(f"{kind} from {codes[0]:04x} on: behind the readings stands {' '.join(found)}")
    return kinds, farthest


def main():
    _, words = program.asked(argparse.ArgumentParser(description="Holds every reading of two octets to Python's own doubles."))
    total, farthest = 0, Fraction(0)
    try:
        for kind in PROPERTIES:
            kinds, off = compared(words, kind)
            print(f"{kind}: {kinds['number']} numbers, {kinds['unknown']} not known, {kinds['prohibited']} prohibited")
            total, farthest = total + sum(kinds.values()), max(farthest, off)
    except Wrong as wrong:
        print(wrong)
        return 1
    print(f"{total} counts are read as they should be; 100 times the double is at most {float(farthest):.1e} from the count, and 1/200 is allowed")
    return 0


if __name__ == "__main__":
    sys.exit(main())
