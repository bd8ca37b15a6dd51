"""Checks bin/capture: see tests/capture/run."""
import argparse
import os
import re
import shlex
import subprocess
import sys
import tempfile
from concurrent.futures import ThreadPoolExecutor
from pathlib import Path

from packets import ADV_IND
from scene import BEGAN, KEYS, ROOT, STEP, captures, scene  # it finds the model for all files here
from unfit import cut, unfit

import program

IGNORED = "a node ignores a mesh message in a connectable or scannable advertisement (MP 3.3.1)"
WHERE = re.compile(r"# packet (\d+), (\d+\.\d{6}) s(?:, channel (\d+))?(?:, (-?\d+) dBm)?, from ((?:[0-9a-f]{2}:){5}[0-9a-f]{2})"
                   rf"(?:, in (ADV_IND): {re.escape(IGNORED)})?")


def captured(*arguments):
    """What bin/capture writes, says and ends with."""
    run = subprocess.run([str(ROOT / "bin" / "capture"), *map(str, arguments)], stdin=subprocess.DEVNULL, capture_output=True, check=False)
    return run.stdout.decode("utf-8", "replace").splitlines(), run.stderr.decode("utf-8", "replace"), run.returncode


def _expected(adverts, channels, signals, as_a_node):
    """Each `hear` line with what stands in the comment before it; and the words of all other comments, with their packets."""
    heard, said = [], []
    for at, each in enumerate(adverts):
        place = (str(at + 1), f"{at * STEP / 1000000:.6f}", str(each.channel) if channels else None, str(each.rssi) if signals else None, each.address.hex(":"),
                 "ADV_IND" if each.kind == ADV_IND else None)
        if as_a_node and each.kind == ADV_IND:
            said += [(at + 1, f", in ADV_IND: not heard, for {IGNORED}: {pdu.hex()}") for pdu in each.heard]
        else:
            heard += [(f"hear {pdu.hex() or '-'}", place) for pdu in each.heard]
        said += [(at + 1, each.said)] if each.said else []
    return heard, said


def _of_log(lines, adverts, channels, signals, as_a_node):
    """What is wrong with the lines of a log."""
    heard, said = _expected(adverts, channels, signals, as_a_node)
    found = [(line, WHERE.fullmatch(before)) for before, line in zip(lines, lines[1:]) if line.startswith("hear")]
    if [(line, place and place.groups()) for line, place in found] != heard:
        yield f"the lines to be heard are {found}, not {heard}"
    for number, words in said:
        if not any(line.startswith(f"# packet {number}, ") and line.endswith(words) for line in lines):
            yield f"of packet {number} no comment says: {words}"
    if any(not line.isprintable() or not line.startswith(("#", "hear")) and line not in KEYS for line in lines):
        yield "there is a line that is no comment, no hear and none of the keys"
    if sum(line.startswith("# packet ") for line in lines) != len(heard) + len(said):
        yield f"there are more comments of packets than {len(heard) + len(said)}"
    if BEGAN not in lines[1] or lines[2:2 + len(KEYS)] != list(KEYS):
        yield f"the head is {lines[:2 + len(KEYS)]}"


def _of_answers(words, lines, as_a_node):
    """What is wrong with the console's answers to a log: each line is read, the message in segments is handed up at the last, and of the wind box's two the
    one that came in ADV_IND only where all is heard.
    """
    answers = program.answers(words, program.text_of([line.encode() for line in lines]))
    _, message = scene()
    if "unread" in answers or not answers[-1].startswith("access src 0201 ") or not answers[-1].endswith(f" message {message.hex()}"):
        yield f"the console answers {answers}"
    if sum(answer.startswith("access src 0101 ") for answer in answers) != (1 if as_a_node else 2):
        yield f"of the wind box the console answers {answers}"


def of_capture(folder, words, case):
    """What is wrong with the log of one capture: with all that it holds, and with what a node hears."""
    name, octets, adverts, channels, signals = case
    (folder / name).write_bytes(octets)
    for option in ((), ("--as-a-node",)):
        lines, said, status = captured(*option, folder / name, folder / "keys")
        if status or said:
            yield f"{name} {option}: status {status}: {said}"
            continue
        if not lines[0].startswith(f"# Capture {name}, "):
            yield f"{name}: the title is {lines[0]}"
        for wrong in (*_of_log(lines, adverts, channels, signals, bool(option)), *_of_answers(words, lines, bool(option))):
            yield f"{name} {option}: {wrong}"


def of_cut(folder, case):
    """What is wrong with what is written of a capture that is cut off: all before the cut, and a word on it."""
    name, octets, count, adverts = case
    (folder / name).write_bytes(octets)
    lines, said, status = captured(folder / name, folder / "keys")
    heard = [f"hear {pdu.hex() or '-'}" for each in adverts[:count] for pdu in each.heard]
    word = f"behind packet {count} it is cut off, and the next packet is not whole"
    fits = [line for line in lines if line.startswith("hear")] == heard and word in said and any(word in line for line in lines[-2:]) and status == 2
    return [] if fits else [f"{name}: status {status}, {said!r}, {lines[-3:]}"]


def of_unfit(folder, case):
    """What is wrong with what is said of an input that cannot be read, or of a log with things that are not heard."""
    name, arguments, status, words, comment = case
    lines, said, ended = captured(*(each if isinstance(each, str) else folder / each[0] for each in arguments))
    written = not lines if comment is None else any(comment in line for line in lines) and all(line.isprintable() for line in lines)
    heard = sum(line.startswith("hear") for line in lines)
    fits = ended == status and words in said and bool(said) == bool(words) and written and heard == (0 if status else 1)
    return [] if fits else [f"{name}: status {ended}, {said!r}, {lines}"]


def paged(folder, words):
    """What is wrong with the pages that bin/class writes of captures: with the keys beside, named, of a cut one, without keys and of what is no capture."""
    (name, octets, *_), (cut_name, cut_octets, *_) = next(captures()), next(cut())
    log, where = folder / "no.log", re.compile(r"The page of it: (.*)\n")
    log.write_text("show\n")
    message = scene()[1].hex()
    for keys, file, given, named, status in ((f"{name}.keys", name, octets, (), 0), ("beside.keys", "beside.pcap", octets, (), 0),
                                             ("other", "named.pcap", octets, ("keys",), 0), (f"{cut_name}.keys", cut_name, cut_octets, (), 2)):
        (folder / file).write_bytes(given)
        (folder / keys).write_text("\n".join(KEYS) + "\n")
        run = subprocess.run([str(ROOT / "bin" / "class"), *(str(folder / each) for each in (file, *named))], capture_output=True, text=True, check=False,
                             env={**os.environ, "GOREPHAN_CONSOLE": shlex.join(words)})
        found = where.fullmatch(run.stdout)
        page = Path(found[1]) if found else None
        text = page.read_text() if page else ""
        if run.returncode != status or IGNORED not in text or (message in text) == bool(status) or bool(status) != ("cut off" in run.stderr):
            yield f"bin/class {file}: status {run.returncode}, {run.stdout!r}, {run.stderr!r}"
        for rest in (page, page and page.with_suffix(".log"), *(ROOT / "target" / "captures" / f"{file}{end}" for end in (".txt", ".log"))):
            if rest:
                rest.unlink(missing_ok=True)
    run = subprocess.run([str(ROOT / "bin" / "class"), str(log), str(folder / "keys")], capture_output=True, text=True, check=False)
    if run.returncode != 2 or "is no capture" not in run.stderr:
        yield f"bin/class with keys for a log: status {run.returncode}, {run.stderr!r}"


def main():
    _, words = program.asked(argparse.ArgumentParser(description=__doc__))
    with tempfile.TemporaryDirectory() as name, ThreadPoolExecutor(2) as workers:
        folder = Path(name)
        (folder / "keys").write_text("\n".join(KEYS) + "\n")
        formats, cuts, others = list(captures()), list(cut()), list(unfit(folder))
        wrong = [each for found in workers.map(lambda case: list(of_capture(folder, words, case)), formats) for each in found]
        wrong += [each for found in workers.map(lambda case: of_cut(folder, case), cuts) for each in found]
        wrong += [each for found in workers.map(lambda case: of_unfit(folder, case), others) for each in found]
        wrong += paged(folder, words)
    for text in wrong:
        print(text)
    print(f"{len(formats)} captures heard by the console, {len(cuts)} cut off, {len(others)} that are not to be read, or not all of them, 5 shown by bin/class:"
          f" {f'{len(wrong)} wrong' if wrong else 'each as expected'}")
    return bool(wrong)


if __name__ == "__main__":
    sys.exit(main())
