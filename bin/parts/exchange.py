"""A log of the console and the answers to it: which lines of answer belong to which line of the log."""


class Unfit(Exception):
    """The answers are not those of a console to this log."""


def lines_of(octets):
    """The lines of some octets; every octet is a letter, so that none is lost."""
    lines = octets.decode("latin-1").split("\n")
    return lines[:-1] if lines[-1] == "" else lines


def octets_of(lines):
    """Lines as octets."""
    return "".join(f"{line}\n" for line in lines).encode("latin-1")


def read(name):
    """The lines of a file."""
    with open(name, "rb") as file:
        return lines_of(file.read())


def is_silent(line):
    """Whether a line has no answer: it is empty, or a comment."""
    return not line or line.startswith("#")


def ends(line, answer):
    """Whether an answer is a line's last: only `show` has several, up to `end`."""
    return line != "show" or answer in ("end", "unread")


def exchanged(log, answers):
    """Each line that was answered: its number from 1, the line, and its lines of answer."""
    at = 0
    for number, line in enumerate(log, 1):
        if is_silent(line):
            continue
        start = at
        while at == start or not ends(line, answers[at - 1]):
            if at >= len(answers):
                raise Unfit(f"the show of line {number} has no end" if at > start else f"line {number} of the log has no answer")
            at += 1
        yield number, line, answers[start:at]
    if at != len(answers):
        raise Unfit(f"there are answers beyond the log, from line {at + 1} on")
