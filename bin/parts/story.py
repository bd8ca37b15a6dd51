"""Shows a log of the console with its answers, and draws its picture: see bin/story."""
import os
import sys
from pathlib import Path

from answered import ROOT, Failed, answered, before, judged
from drawing import picture
from early import MARK
from exchange import Unfit, octets_of
from given import put, refused
from own_name import own_name, written_whole
from telling import shown

STORY, TARGET = ROOT / "crates" / "console" / "stdin", ROOT / "target"


def story(log):
    """Shows the log: with early answers first, if there are any, and then with the proved ones, if they are others or more."""
    first = before(log)
    if first:
        put(octets_of(MARK + words for words in (first.part, first.alone) if words) + shown(first.log, first.answers, first.numbers, MARK) + b"\n")
    given = answered(log)
    for words in given.taken:
        print(f"bin/story: takes off {words}", file=sys.stderr)
    TARGET.mkdir(exist_ok=True)
    drawn = picture(given.log, given.answers, given.numbers)
    place = written_whole(TARGET / "story.svg" if log == STORY else own_name(log, TARGET / "pictures", ".svg"), drawn)
    same, words = judged(first, given) if first else (False, "")
    put(f"bin/story: {words}\n".encode() if words else b"")
    put(b"" if same and not first.part else shown(given.log, given.answers, given.numbers))
    put(b"\nThe picture of it: " + os.fsencode(place) + b"\n")


def main():
    if len(sys.argv) > 2:
        return refused("use: bin/story [FILE]")
    log = Path(sys.argv[1]) if sys.argv[1:] else STORY
    if log.is_dir() or not os.access(log, os.R_OK):
        return refused(f"bin/story: there is no file {log} that can be read")
    try:
        story(log)
    except (Failed, OSError) as fault:
        print(f"bin/story: {fault}", file=sys.stderr)
        return 1
    except Unfit as fault:
        return refused(f"bin/story: the answers do not fit the log {log}: {fault}")
    return 0


sys.exit(main())
