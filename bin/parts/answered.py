"""A log as it is shown to people: made plain, answered by the console, with the `readings` lines that it lacks, and answered again."""
import os
import shlex
import subprocess
import sys
from dataclasses import dataclass
from pathlib import Path

from early import compared, early, is_wanted
from exchange import Unfit, exchanged, lines_of, octets_of
from readings_in import is_put, put_in

ROOT = Path(__file__).resolve().parents[2]
MARK = b"\xef\xbb\xbf"


class Failed(Exception):
    """The console did not answer."""


@dataclass
class Answered:
    """The lines and their answers, the number of each line in the file, and what was taken off the file; `part` and `alone` are those of early.Early."""
    log: list
    answers: list
    numbers: list
    taken: list
    part: str = ""
    alone: str = ""

    def own(self):
        """The answers to the lines of the file, each line's together."""
        return [said for at, _, said in exchanged(self.log, self.answers) if not is_put(self.numbers, at)]


def plain(octets):
    """The octets without byte order mark and carriage returns at line ends, and words on what was taken off."""
    taken = []
    if octets.startswith(MARK):
        octets, taken = octets[len(MARK):], ["a byte order mark"]
    lines = octets.split(b"\n")
    returns = sum(line.endswith(b"\r") for line in lines)
    if returns:
        taken.append(f"carriage returns at line ends, {returns} of them")
    return b"\n".join(line.removesuffix(b"\r") for line in lines), taken


def consoles():
    """The command that answers first and explains unread lines, and the one that answers again; where no console is named, ours is built."""
    if named := os.environ.get("GOREPHAN_CONSOLE"):
        return shlex.split(named), shlex.split(named)
    if subprocess.run([str(ROOT / "bin" / "built"), "console"], check=False).returncode:
        raise Failed("the console is not built")
    console = [str(ROOT / "bin" / "program"), "console"]
    return [sys.executable, "-B", str(ROOT / "bin" / "parts" / "answering.py"), *console], console


def ask(command, log):
    """The console's answers to a log."""
    try:
        done = subprocess.run(command, input=octets_of(log), stdout=subprocess.PIPE, check=False)
    except OSError as fault:
        raise Failed(f"the console does not run: {command[0]}: {fault.strerror}") from fault
    if done.returncode:
        raise Failed(f"the console ended with status {done.returncode}")
    return lines_of(done.stdout)


def answered(path):
    """A log's file as it is shown: every line that was answered keeps its answer, and the readings stand between."""
    octets, taken = plain(Path(path).read_bytes())
    first, again = consoles()
    log = lines_of(octets)
    answers = ask(first, log)
    lines, numbers = put_in(log, answers)
    if len(lines) == len(log):
        return Answered(log, answers, numbers, taken)
    found = Answered(lines, ask(again, lines), numbers, taken)
    if found.own() != [said for _, _, said in exchanged(log, answers)]:
        raise Unfit("the console answered the same lines in another way the second time")
    return found


def before(path):
    """The same before the console is proved, of answers that are not proved yet; None where it is proved, or there are no such answers."""
    octets, taken = plain(Path(path).read_bytes())
    numbers = []

    def with_readings(log, answers):
        lines, numbers[:] = put_in(lines_of(log), lines_of(answers))
        return octets_of(lines)

    found = None if os.environ.get("GOREPHAN_CONSOLE") or not is_wanted() else early(octets, with_readings)
    return found and Answered(lines_of(found.log), lines_of(found.answers), numbers, taken, found.part, found.alone)


def judged(first, proved):
    """Whether the proved answers are those shown before, and words for it. Of a part only the file's own lines count: readings may be asked behind it."""
    if not first.part:
        return compared(first.answers, proved.answers)
    return compared(*([answer for said in one.own() for answer in said] for one in (first, proved)), True)
