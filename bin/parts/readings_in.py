"""Asks for the readings of every Sensor Status that a log hands up: the `readings` lines that the log lacks are put in."""
import re

from exchange import exchanged

# A Sensor Status handed up, with its octets; and a line that asks for readings.
HANDED, ASKED = re.compile(r"access src .* message (52[0-9a-f]*)(?: |$)"), re.compile(r"readings ([0-9A-Fa-f]+)")


def lacking(log, answers):
    """Each line that hands up a Sensor Status of which no later line asks the readings, before such a one is handed up again: its number, and the octets."""
    asked, found = set(), {}
    for number, line, said in reversed(list(exchanged(log, answers))):
        if asks := ASKED.fullmatch(line):
            asked.add(asks[1].lower())
        elif handed := HANDED.match(said[0]):
            if handed[1] not in asked:
                found[number] = handed[1]
            asked.discard(handed[1])
    return found


def put_in(log, answers):
    """The log with the `readings` lines that it lacks, each behind the line that hands its message up; and of each line the number in the log as it was.

    A line that is put in has the number of the line that it stands behind.
    """
    lacks, lines, numbers = lacking(log, answers), [], []
    for number, line in enumerate(log, 1):
        lines.append(line)
        numbers.append(number)
        if number in lacks:
            lines.append(f"readings {lacks[number]}")
            numbers.append(number)
    return lines, numbers


def is_put(numbers, at):
    """Whether the line at a place, from 1, was put in: it has the number of the line before it."""
    return at > 1 and numbers[at - 1] == numbers[at - 2]
