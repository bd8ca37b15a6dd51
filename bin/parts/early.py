"""Answers a log before the console is proved, so that nobody has to wait for the proof; and says afterwards whether the proved answers are the same.

  early.py LOG ANSWERS                       answers a log; the status is 1 where there are no such answers
  early.py --compared LOG EARLY ANSWERS      compares, on standard output; the status is 1 where they differ

The answers are what the independent model answers, after `rt try` has run the console itself, unproved, on the log, and that has written exactly this. It does
so for the beginning of a long log; behind that the model alone answers, which is said. Where there are no such answers, a word says why.
"""
import os
import re
import shutil
import signal
import subprocess
import sys
import time
from dataclasses import dataclass
from itertools import zip_longest
from pathlib import Path

from crates import ROOT, TARGET
from exchange import Unfit, exchanged, lines_of, octets_of

MARK, NONE = "not proved yet: ", "no answers yet: "
# `rt try` runs the console on so many lines, and lets a program write so many octets.
LINES, OCTETS = 10000, 1 << 20
# The model answers as much of a log as it can in so many seconds, over 100,000 `hear` lines; `rt try` has until so many seconds after the start.
MODEL, LATEST = 8, 25
# So many seconds are left to `rt try` for its own end.
PATIENCE = 10
# The last line of what `rt try` says: the program has ended, in one of its two runs or in both alike; or neither was done, for steps, seconds or octets.
ENDED, UNANSWERED = re.compile(r"^run=ended status=0 .*proved=no\n\Z", re.M), re.compile(r"^run=no-answer .*proved=no\n\Z", re.M)
TOO_LONG, NO_MODEL = "it takes too long to run the console unproved", "the independent model, tests/independent, does not run"
ALONE = "the independent model alone answers"
# Two consoles that are not proved yet may run beside each other.
HERE = TARGET / "early" / str(os.getpid())


def is_wanted():
    """Whether the console is still to be proved."""
    return bool(shutil.which("rt") and subprocess.run([str(ROOT / "bin" / "built"), "--current", "console"], check=False).returncode)


def model(*options):
    """The command that runs the independent model; Python gets these options besides."""
    python = subprocess.run([str(ROOT / "tests" / "python")], stdout=subprocess.PIPE, text=True, check=True).stdout.strip()
    return [python, "-B", *options, str(ROOT / "tests/independent/console.py")]


@dataclass
class Early:
    """A log and its answers before the proof, as octets; words where that is not all of the log, and where the console was not seen to write all of it."""
    log: bytes
    answers: bytes
    part: str
    alone: str


def modelled(log, seconds=None):
    """The model's answers to a log, both as octets; or those that it gives within so many seconds."""
    try:
        return subprocess.run(model(), input=log, stdout=subprocess.PIPE, check=True, timeout=seconds).stdout
    except subprocess.TimeoutExpired as late:
        if not late.stdout:
            raise
        return late.stdout[:late.stdout.rfind(b"\n") + 1]


def within(log, answers, lines, octets):
    """How many lines of a log are answered, within so many lines and octets of answers; and by how many lines of answers."""
    count = at = 0
    try:
        for number, _, said in exchanged(log, answers):
            octets -= sum(len(answer) + 1 for answer in said)
            if number > lines or octets < 0:
                return min(number - 1, lines), at
            count, at = number, at + len(said)
    except Unfit:
        return count, at  # the answers end before the log
    return min(lines, len(log)), at


def cut(log, answers, lines=sys.maxsize, octets=sys.maxsize):
    """So much of a log as is answered within so many lines and octets of answers, and the answers to that, all as octets."""
    asked, said = lines_of(log), lines_of(answers)
    count, at = within(asked, said, lines, octets)
    return (log, answers) if count == len(asked) else (octets_of(asked[:count]), octets_of(said[:at]))


def first(part, whole):
    """Words where some octets are only the first lines of others."""
    counts = [len(lines_of(octets)) for octets in (part, whole)]
    return "" if counts[0] == counts[1] else "the first {:,} of {:,} lines".format(*counts)


def alone(begun, answers):
    """Words where the console, unproved, has written only the beginning of the answers."""
    words = first(begun, answers)
    return words and f"the console itself, run unproved, has written {words} of answers; behind them {ALONE}"


def differs(wrote, answers):
    """Words for the first line that is another where the answers should be these, both as octets; no text where they are the same."""
    for number, (one, other) in enumerate(zip_longest(lines_of(wrote), lines_of(answers)), 1):
        if one != other:
            return f"line {number} of what it writes is {one!r}, and of the model's answers {other!r}\n"
    return "" if wrote == answers else "the last line has no end\n"


class Trying:
    """`rt try` at work: it runs the console, unproved, on a log, and tells what that writes, which these answers are held to."""

    def __init__(self, log, answers):
        self.answers = answers
        shutil.rmtree(HERE, ignore_errors=True)
        HERE.mkdir(parents=True)
        (HERE / "stdin").write_bytes(log)
        with open(HERE / "stdin", "rb") as given, open(HERE / "stdout", "wb") as wrote, open(HERE / "log", "wb") as said:
            self.run = subprocess.Popen(["rt", "try"], cwd=ROOT / "crates" / "console", stdin=given, stdout=wrote, stderr=said, start_new_session=True)

    def wrong(self, seconds=0):
        """No text where the console writes these answers, else a word; None where that is not known within so many seconds, or `rt try` gives up."""
        try:
            self.run.wait(seconds)
        except subprocess.TimeoutExpired:
            return None
        said = (HERE / "log").read_text("utf-8", "replace")
        found = differs((HERE / "stdout").read_bytes(), self.answers)
        if ENDED.search(said) and not found:
            return ""
        if UNANSWERED.search(said):
            return None
        kept = HERE.with_suffix(".log")
        kept.write_text(said + found, "utf-8")
        return f"run unproved, the console does not write what the independent model answers: {kept.relative_to(ROOT)}"

    def end(self):
        """Ends it, with all that it has started, and takes its folder away."""
        if self.run.poll() is None:
            os.killpg(self.run.pid, signal.SIGTERM)  # then `rt` ends what it runs, which has a session of its own
            try:
                self.run.wait(PATIENCE)
            except subprocess.TimeoutExpired:
                os.killpg(self.run.pid, signal.SIGKILL)
        self.run.wait()
        shutil.rmtree(HERE, ignore_errors=True)


def tried(log, answers, latest):
    """A word where the console, unproved, does not write these answers; and words where it was not seen to write all of them until then."""
    log, begun = cut(log, answers, LINES, OCTETS)
    trying = Trying(log, begun)
    try:
        wrong = trying.wrong(max(latest - time.monotonic(), 0))
    finally:
        trying.end()
    return ("", f"{ALONE}: {TOO_LONG}") if wrong is None else (wrong, alone(begun, answers))


def early(log, changed=lambda log, answers: log):
    """A log of octets, after `changed` has seen its first answers, with the answers to that before the proof; or None."""
    latest = time.monotonic() + LATEST
    try:
        part, answers = cut(log, modelled(log, MODEL))
        asked = changed(part, answers)
        answers = answers if asked == part else modelled(asked)
    except (OSError, subprocess.SubprocessError):
        answers, wrong, words = b"", NO_MODEL, ""
    else:
        wrong, words = tried(asked, answers, latest) if answers else ("", "")
    if wrong:
        print(NONE + wrong, file=sys.stderr)
    return Early(asked, answers, first(part, log), words) if answers and not wrong else None


def compared(shown, proved, part=False):
    """Whether the proved answers, as lines, are those that were shown, or begin with them where that was a part; and words for it."""
    for number, (one, other) in enumerate(zip_longest(shown, proved[:len(shown)] if part else proved), 1):
        if one != other:
            return False, f"proved now, and NOT what was shown before: line {number} of the answers was {one!r} and is {other!r}"
    return True, f"proved now, and the {'first ' if part else ''}{len(shown):,} lines of answers are those shown before"


def main():
    *option, log, answers = sys.argv[1:]
    if option:
        whole, shown, proved = (Path(name).read_bytes() for name in (option[1], log, answers))
        same, words = compared(lines_of(shown), lines_of(proved), cut(whole, shown)[0] != whole)
        print(words)
        return int(not same)
    found = early(Path(log).read_bytes())
    for words in (found.part, found.alone) if found else ():
        if words:
            print(MARK + words, file=sys.stderr)
    if found:
        Path(answers).write_bytes(found.answers)
    return int(not found)


if __name__ == "__main__":
    sys.exit(main())
