"""Answers what is typed, or comes through a pipe, while the console is being proved, and hands over to the proved console: see bin/console.

  typed.py COMMAND..

The independent model answers each line at once, on standard error and marked. Beside it `rt try` runs the console itself, unproved, on all lines so far, and
a word says where that writes something else. When the console is proved, COMMAND runs it on the same lines, its answers are compared, and it answers what
comes from then on. The progress of the proof is shown, but not to who types before the input has ended. To a pipe the proved console answers every line anew,
on standard output.
"""
import os
import select
import subprocess
import sys
import time

from answering import BLOCK, KEPT, TYPE, answering, said
from crates import ROOT
from early import LINES, MARK, NO_MODEL, NONE, OCTETS, TOO_LONG, Trying, alone, compared, cut, model
from exchange import ends, is_silent, lines_of, octets_of
from explained import Explained, at_once
from given import put

START = "Until the console is proved, some minutes, the independent model answers; the console itself is run beside it, unproved, and a difference is told."
# The console is run unproved once nothing has come for so long, or so long after the run before, and is given up then; and so often it is looked at what goes
# on beside the typing.
PAUSE, SECONDS, LOOK = 1, 60, 0.2


class Lost(Exception):
    """The independent model does not run."""


class Building:
    """The proof at work; `said` is what it has said and nobody was shown."""

    def __init__(self, is_quiet):
        self.run = subprocess.Popen([str(ROOT / "bin" / "built"), "console"], stderr=subprocess.PIPE)
        self.source, self.said, self.ended, self.is_quiet = self.run.stderr.fileno(), b"", False, is_quiet

    def take(self):
        """Takes what it says, and shows it, unless it is quiet."""
        block = os.read(self.source, BLOCK)
        self.said += block
        self.ended = not block
        if not self.is_quiet:
            self.show()

    def show(self):
        """Shows what it has said."""
        os.write(2, self.said)
        self.said = b""

    def speak(self):
        """It is quiet no more: shows its last line, and what it says from then on."""
        if self.is_quiet and not self.ended:
            self.is_quiet, self.said = False, b"".join(self.said.splitlines(keepends=True)[-1:])
            self.show()

    def follow(self):
        """Waits for its end."""
        self.speak()
        while not self.ended:
            self.take()

    def failed(self):
        """Its status, which is not 0 where nothing is built; then it is shown what it has said."""
        status = self.run.wait()
        if status:
            self.show()
        return status


class Typed:
    """What has come so far, with the model's answers to its whole lines."""

    def __init__(self):
        self.octets, self.rest, self.answers, self.count, self.ended, self.since = bytearray(), b"", [], 0, False, 0
        self.is_keyboard, self.model, self.explained = os.isatty(0), None, Explained()

    def begin(self):
        """Starts the model, which answers line by line; it ends with its input, and not by Ctrl-C."""
        try:
            self.model = subprocess.Popen(model("-u"), stdin=subprocess.PIPE, stdout=subprocess.PIPE, start_new_session=True)
        except (OSError, subprocess.CalledProcessError) as fault:
            raise Lost from fault

    def take(self):
        """Takes what has come, and answers its lines."""
        try:
            block = os.read(0, BLOCK)
        except OSError:
            block = b""  # the terminal is gone
        self.ended, self.since = not block, time.monotonic()
        self.octets += block
        *whole, self.rest = (self.rest[:KEPT] + block).split(b"\n")
        if self.ended and self.rest:
            whole.append(self.rest)
        for line in whole:
            self.answer(line)

    def answer(self, octets):
        """Shows the model's answers to a line, and to who types why it is unread."""
        self.count += 1
        line = octets.decode("latin-1")
        answers = self.asked(octets, line)
        for answer in answers:
            said(MARK + answer)
        self.answers += answers
        found = answers and self.explained.take(self.count, line, answers[0])
        if found and self.is_keyboard:
            said(at_once(found))

    def asked(self, octets, line):
        """The model's answers to a line."""
        try:
            self.model.stdin.write(octets + b"\n")
            self.model.stdin.flush()
        except BrokenPipeError as fault:
            raise Lost from fault
        answers = []
        while not is_silent(line) and (not answers or not ends(line, answers[-1])):
            answer = self.model.stdout.readline()
            if not answer:
                raise Lost
            answers.append(answer.decode("latin-1").removesuffix("\n"))
        return answers

    def whole(self):
        """What has come, without a line that has not ended."""
        return bytes(self.octets if self.ended else self.octets[:self.octets.rfind(b"\n") + 1])


class Checking:
    """`rt try` beside the typing: on all lines so far, again and again, until one run says that something else is written, or is too much for it."""

    def __init__(self):
        self.trying, self.since, self.count, self.over, self.alone = None, time.monotonic(), 0, False, ""

    def look(self, typed):
        """Begins a run where lines have come, and tells what one has found."""
        now = time.monotonic()
        if self.trying:
            wrong = self.trying.wrong()
            if wrong is None and now - self.since > SECONDS:
                wrong = TOO_LONG
            if wrong is not None:
                self.end()
                self.tell(wrong or self.alone)
        elif not self.over and self.count < typed.count and (now - typed.since > PAUSE or now - self.since > SECONDS):
            self.since, self.count = now, typed.count
            answers = octets_of(typed.answers)
            log, begun = cut(typed.whole(), answers, LINES, OCTETS)
            self.trying, self.alone = Trying(log, begun), alone(begun, answers)

    def tell(self, words):
        """Tells what is wrong, or too much: then no other run begins."""
        self.over = bool(words)
        if words:
            said(MARK + words)

    def end(self):
        """Ends what is at work."""
        if self.trying:
            self.trying.end()
        self.trying = None


def early(building, typed):
    """Answers what comes until the console is proved; whether the model was there to do so."""
    checking = Checking()
    try:
        typed.begin()
        said(START)
        if typed.is_keyboard:
            said(TYPE)
        while not building.ended:
            ready = select.select([building.source] if typed.ended else [0, building.source], [], [], LOOK)[0]
            if 0 in ready:
                typed.take()
            if typed.ended:
                building.speak()
            if building.source in ready:
                building.take()
            checking.look(typed)
        return True
    except Lost:
        said(NONE + NO_MODEL)
        return False
    finally:
        checking.end()


def handed_over(command, typed):
    """Has the proved console answer what has come, says whether it answers the same, and lets it answer the rest; the status."""
    run = subprocess.run(command, input=typed.whole(), stdout=subprocess.PIPE, check=False)
    same, words = compared(typed.answers, lines_of(run.stdout))
    if typed.is_keyboard and not (same and os.isatty(1)):
        put(run.stdout)
    if typed.answers or not typed.ended:
        said((words if typed.answers else "proved now") + ("" if typed.ended else "; from here on the proved console answers"))
    if not typed.is_keyboard:
        answering(command, typed.octets)
    if not typed.ended:
        answering(command, typed.octets, typed.count, len(run.stdout))
    return run.returncode


def main():
    command, typed = sys.argv[1:], Typed()
    building = Building(typed.is_keyboard)
    try:
        is_answered = early(building, typed)
        building.follow()
        if building.failed():
            return 1
        return handed_over(command, typed) if is_answered else answering(command, typed.octets)
    except KeyboardInterrupt:
        return 130


sys.exit(main())
