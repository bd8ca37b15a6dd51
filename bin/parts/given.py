"""What bin/told and bin/picture are given: a log and its answers, as two files; and what they write of them."""
import os
import sys

from exchange import Unfit, read


def refused(words):
    """A word for wrong input, and the status that goes with it."""
    print(words, file=sys.stderr)
    return 2


def put(octets):
    """Writes to standard output; whoever reads may have seen enough."""
    try:
        sys.stdout.buffer.write(octets)
        sys.stdout.buffer.flush()
    except BrokenPipeError:
        os.dup2(os.open(os.devnull, os.O_WRONLY), sys.stdout.fileno())


def written(program, use, made):
    """Writes what `made` makes of the log's lines and the answers', and gives the status; wrong input gets a word, and nothing is written."""
    if len(sys.argv) != 3:
        return refused(f"use: {program} {use}")
    try:
        octets = made(*map(read, sys.argv[1:]))
    except OSError as error:
        return refused(f"{program}: {error.filename}: {error.strerror}")
    except Unfit as unfit:
        return refused(f"{program}: {sys.argv[2]} does not answer {sys.argv[1]}: {unfit}")
    put(octets)
    return 0
