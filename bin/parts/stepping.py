"""Writes the page that goes through a log step by step: see bin/class."""
import os
import subprocess
import sys
from pathlib import Path

from answered import ROOT, Failed, answered, before, judged
from exchange import Unfit
from given import refused
from one_file import page
from own_name import own_name, written_whole
from refusal_table import sentences
from rows import names
from scene import data

STORY, TARGET = ROOT / "crates" / "console" / "stdin", ROOT / "target"
# A page of more steps is too large for a browser.
MOST = 100_000
# How a capture's file begins: pcap of either order and either clock, pcapng, btsnoop.
CAPTURES = tuple(map(bytes.fromhex, ("d4c3b2a1", "a1b2c3d4", "4d3cb2a1", "a1b23c4d", "0a0d0d0a"))) + (b"btsnoop\0",)
NOT_PROVED = "The console is not proved yet. These are the answers of the independent model"


def is_capture(path):
    """Whether a file is a capture of the air, by how it begins."""
    with open(path, "rb") as file:
        return file.read(8).startswith(CAPTURES)


def captured(path, keys):
    """The log of a capture, with the lines of the file of keys that is named or stands beside it; and bin/capture's status."""
    beside = [each for each in (Path(f"{path}.keys"), path.with_suffix(".keys")) if each.is_file()]
    run = subprocess.run([ROOT / "bin" / "capture", path, *(keys or beside[:1])], stdout=subprocess.PIPE, check=False)
    log = own_name(path, TARGET / "captures", ".txt")
    log.write_bytes(run.stdout)
    return log, run.returncode


def kept(name, given, proved):
    """Writes the page of a log that was answered; where it is, or None where it has no line that is answered, or too many."""
    found = data(given, names(given.log), name.name if name != STORY else "the story", sentences())
    if not 0 < len(found["steps"]) <= MOST:
        return None
    if not proved:
        wrote = f": {given.alone}." if given.alone else ", which the console itself has written too, unproved."
        part = [f"Shown are {given.part}."] if given.part else []
        found["title"], found["notes"] = f"Not proved yet: {found['title']}", [NOT_PROVED + wrote, *part, *found["notes"]]
    TARGET.mkdir(exist_ok=True)
    return written_whole(TARGET / "class.html" if name == STORY else own_name(name, TARGET / "pages", ".html"), page(found))


def paged(name, log):
    """Writes the page of a log under the name of what it comes from: before the proof, if there are such answers, and behind it; whether there is one."""
    first = before(log)
    place = first and kept(name, first, False)
    if place:
        print(f"The page of {first.part or 'it'}, not proved yet: {place}", flush=True)
    given = answered(log)
    place = kept(name, given, True)
    if place and first:
        print(f"bin/class: {judged(first, given)[1]}")
    if place:
        print(f"The page of it: {place}")
    return bool(place)


def made(name, keys):
    """Writes the page; the status."""
    capture = is_capture(name)
    if keys and not capture:
        return refused(f"bin/class: {name} is no capture: its lines set up the station, and a file of keys is not asked for")
    log, status = captured(name, keys) if capture else (name, 0)
    if capture and not log.stat().st_size:
        return status
    if not paged(name, log):
        return refused(f"bin/class: {name} has no line that the console answers, or more than {MOST:,}: there is no page of it")
    return status


def main():
    if len(sys.argv) > 3 or any(word.startswith("-") for word in sys.argv[1:]):
        return refused("use: bin/class [LOG | CAPTURE [KEYS]]")
    name, *keys = map(Path, sys.argv[1:] or [STORY])
    for file in (name, *keys):
        if file.is_dir() or not os.access(file, os.R_OK):
            return refused(f"bin/class: there is no file {file} that can be read")
    try:
        return made(name, keys)
    except (Failed, OSError) as fault:
        print(f"bin/class: {fault}", file=sys.stderr)
        return 1
    except Unfit as fault:
        return refused(f"bin/class: the answers do not fit the log {name}: {fault}")


sys.exit(main())
