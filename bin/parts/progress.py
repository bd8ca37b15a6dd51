"""How far a proof has come: which crates are proved, which is next, and the time left by the last known times."""
import os
import shutil
import sys
import time
from pathlib import Path

from crates import TARGET

# The seconds of each crate on a machine with two processors, for a first build; what was seen last is kept beside the build.
FIRST, LAST = Path(__file__).resolve().parent / "seconds.txt", TARGET / "built" / "seconds.txt"
UNKNOWN = 20


def known():
    """The last known seconds of each crate."""
    seconds = {}
    for path in (FIRST, LAST):
        if path.is_file():
            seconds.update((name, int(count)) for name, count in (line.split() for line in path.read_text().splitlines() if not line.startswith("#")))
    return seconds


def span(seconds):
    """A time in words, roughly."""
    if seconds < 8:
        return "some seconds"
    return f"some {round(seconds, -1):.0f} s" if seconds < 90 else f"some {seconds / 60:.0f} minutes"


class Progress:
    """The state of one proof; `crates` are those of it in the order of their proof, one after another, `again` those that are expected to be proved."""

    def __init__(self, name, crates, again):
        self.name, self.crates, self.again = name, crates, set(again)
        self.seconds = known()
        self.done, self.since, self.news = 0, time.monotonic(), ""
        self.proved = {}
        self.rewrites = sys.stderr.isatty() and os.environ.get("TERM") != "dumb"

    def begins(self, crate):
        """A crate is being proved, so those before it are; nothing is told of one that is unchanged."""
        self.done, self.since = self.crates.index(crate), time.monotonic()
        if crate not in self.again:
            # that was not expected, so all that comes behind it may be proved anew, too
            self.again.update(self.crates[self.done:])

    def ends(self):
        """The crate that began last is proved."""
        crate = self.crates[self.done]
        self.proved[crate] = self.seconds[crate] = round(time.monotonic() - self.since)
        self.done, self.since = self.done + 1, time.monotonic()
        self.news = f", {crate} took {self.seconds[crate]} s"
        if not self.rewrites:
            self.say()

    def ahead(self):
        """The crates that are still to be proved; the first is being proved now."""
        return [crate for crate in self.crates[self.done:] if crate in self.again]

    def left(self):
        """The seconds that are left."""
        times = [self.seconds.get(crate, UNKNOWN) for crate in self.ahead()]
        return sum(times) - min(time.monotonic() - self.since, times[0]) if times else 0

    def line(self):
        """The progress in one line."""
        ahead = self.ahead()
        rest = f"; now {ahead[0]}; {span(self.left())} left" if ahead else ""
        return f"{self.name}: {self.done} of {len(self.crates)} crates proved{self.news}{rest}"

    def say(self):
        """Shows the line: a terminal's last line is written anew."""
        if self.rewrites:
            width = shutil.get_terminal_size().columns
            print(f"\r{self.line()[:width - 1]}\x1b[K", end="", file=sys.stderr, flush=True)
        else:
            print(self.line(), file=sys.stderr, flush=True)

    def end(self):
        """Clears the terminal's line, and keeps the times."""
        if self.rewrites:
            print("\r\x1b[K", end="", file=sys.stderr, flush=True)
        LAST.parent.mkdir(parents=True, exist_ok=True)
        LAST.write_text("".join(f"{name} {seconds}\n" for name, seconds in sorted(self.seconds.items())))
