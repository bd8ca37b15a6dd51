"""Runs a console between standard input and standard output, and explains on standard error which lines it did not read, and why.

  answering.py COMMAND..

What the console writes goes on as it comes, octet for octet. The explanation follows at the end of the input, or each unread answer at once where
standard input is a terminal. The exit status is the console's.
"""
import os
import subprocess
import sys
import threading
from collections import deque
from itertools import chain

from exchange import ends, is_silent
from explained import Explained, at_once

TYPE = "Type lines of the console: help shows them, Ctrl-D ends."
BLOCK = 1 << 16
# Of a line that goes on and on so much is kept: the console reads none so long.
KEPT = 1 << 13


def said(text):
    """One line on standard error, where there is one."""
    if sys.stderr:
        print(text, file=sys.stderr, flush=True)


def _blocks(source):
    """What comes from a file descriptor, until its end."""
    try:
        while block := os.read(source, BLOCK):
            yield block
    except OSError as fault:
        said(f"bin/console: the input cannot be read: {fault.strerror}")


def _lines(blocks):
    """Each block as it comes, with the lines that end in it; at the end what stands behind the last newline."""
    rest = b""
    for block in blocks:
        *whole, rest = (rest[:KEPT] + block).split(b"\n")
        yield block, [line.decode("latin-1") for line in whole]
    yield b"", [rest.decode("latin-1")]


def _put(target, octets):
    """Writes all octets to a file descriptor."""
    while octets:
        octets = octets[os.write(target, octets):]


class Asked:
    """The lines that the console was asked and has not yet answered, each with its number."""

    def __init__(self):
        self.waiting = deque()

    def feed(self, target, before):
        """Gives the console what came before, and then standard input; a line is kept before the console can answer it."""
        number = 0
        try:
            for block, lines in _lines(chain([before], _blocks(0))):
                for number, line in enumerate(lines, number + 1):
                    if not is_silent(line):
                        self.waiting.append((number, line))
                _put(target, block)
        except BrokenPipeError:
            pass  # the console has ended
        os.close(target)

    def answered(self, answer):
        """The line that an answer belongs to, None where it is a further answer to `show`."""
        if not self.waiting:
            return None
        return self.waiting.popleft() if ends(self.waiting[0][1], answer) else None


def _follow(source, asked, lines, octets):
    """Passes on what the console writes, and gathers which lines it did not read; of the first lines all was said, and so many octets were written."""
    explained, typed = Explained(), os.isatty(0)
    for block, answers in _lines(_blocks(source)):
        _put(1, block[octets:])
        octets = max(octets - len(block), 0)
        for answer in answers:
            pair = asked.answered(answer) if answer else None
            found = pair and explained.take(*pair, answer)
            if found and typed and pair[0] > lines:
                said(at_once(found))
    if not typed:
        for line in explained.told():
            said(line)


def answering(command, before=b"", lines=0, octets=0):
    """Runs the console until its input ends, and ends with its status. Standard input goes on behind what came before, of which so many lines are answered."""
    console = subprocess.Popen(command, stdin=subprocess.PIPE, stdout=subprocess.PIPE)
    asked, lost = Asked(), 0
    threading.Thread(target=asked.feed, args=(os.dup(console.stdin.fileno()), before), daemon=True).start()
    console.stdin.close()
    try:
        _follow(console.stdout.fileno(), asked, lines, octets)
    except BrokenPipeError:
        pass  # nobody reads the answers
    except OSError as fault:
        said(f"bin/console: the answers cannot be written: {fault.strerror}")
        lost = 1
    except KeyboardInterrupt:
        console.terminate()
    console.stdout.close()
    status = console.wait()
    os._exit((status if status >= 0 else 128 - status) or lost)  # the other thread may still wait for input


if __name__ == "__main__":
    if os.isatty(0):
        said(TYPE)
    answering(sys.argv[1:])
