"""The unread lines of a log, gathered by what is probably meant."""
from dataclasses import dataclass, field

from forms import help_lines
from hints import HELP, Hint, hint, shown

# So many ranges of line numbers are named for one cause, and so many causes.
RANGES, CAUSES = 10, 12
NOTHING = Hint("a line that does not fit its form", "bin/console help prints the forms")


@dataclass
class Cause:
    """The lines that one cause makes unread: the hint of the first, how many there are, and the first ranges of their numbers."""
    hint: Hint
    count: int = 0
    ranges: list = field(default_factory=list)

    def add(self, number):
        """Takes one more line; numbers come in order."""
        self.count += 1
        if self.ranges and self.ranges[-1][1] == number - 1:
            self.ranges[-1][1] = number
        elif len(self.ranges) <= RANGES:
            self.ranges.append([number, number])

    def told(self):
        """The block of this cause: how many lines and which, why, and what to write."""
        spans = [f"{first} to {last}" if first < last else str(first) for first, last in self.ranges[:RANGES]]
        where = ", ".join(spans) + (" .." if len(self.ranges) > RANGES else "")
        yield f"{self.count:,} {'line is' if self.count == 1 else 'lines are'} unread ({where}): {self.hint.cause}."
        yield f"    {self.hint.advice}"
        if self.hint.meant:
            yield f"    Line {self.ranges[0][0]} is probably meant as: {shown(self.hint.meant)}"


class Explained:
    """Follows a log with its answers: whether there is a receiver, and which lines are unread for which cause."""

    def __init__(self):
        self.ready = self.refused = False
        self.causes = {}

    def take(self, number, line, answer):
        """One line with its first answer; the hint where it is unread."""
        if answer == "unread":
            found = hint(line, self.ready, self.refused) or NOTHING
            self.causes.setdefault(found.cause, Cause(found)).add(number)
            return found
        if line == "setup":
            self.ready = self.ready or answer == "ready"
            self.refused = answer != "ready"
        return None

    def told(self):
        """The lines of the explanation, the most frequent cause first; none where no line is unread."""
        causes = sorted(self.causes.values(), key=lambda cause: -cause.count)
        for cause in causes[:CAUSES]:
            yield from cause.told()
        rest = causes[CAUSES:]
        if rest:
            yield f"{sum(cause.count for cause in rest):,} more lines are unread, of {len(rest)} other causes."


def at_once(found):
    """The explanation of one line, for who has just typed it; who asks for help is given it."""
    if found == HELP:
        return "\n".join(help_lines())
    return f"    {found.cause}. {found.advice}" + (f". Probably: {shown(found.meant)}" if found.meant else "")
