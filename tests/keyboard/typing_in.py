"""The console behind bin/console's hands: a pipe that stays open, a terminal, rubbish, a reader that has gone, a status; and the help."""
import os
import pty
import random
import re
import select
import subprocess
import time
from pathlib import Path

from explaining import ROOT, SECONDS, run, wrapped
from forms import FORMS, LINES


def until(source, words, seconds=SECONDS):
    """What can be read from a file descriptor until these words have come, or the time is over."""
    text, end = b"", time.monotonic() + seconds
    while words not in text and select.select([source], [], [], max(end - time.monotonic(), 0))[0]:
        try:
            block = os.read(source, 4096)
        except OSError:
            break
        if not block:
            break
        text += block
    return text


def _open_pipe(words):
    """A pipe that stays open gets its answers as they come."""
    with subprocess.Popen(wrapped(words), stdin=subprocess.PIPE, stdout=subprocess.PIPE, stderr=subprocess.DEVNULL) as console:
        for line, answer in ((b"properties\n", b"ok\n"), (b"readings 00\n", b"no status\n")):
            os.write(console.stdin.fileno(), line)
            if until(console.stdout.fileno(), answer) != answer:
                return "a pipe that stays open: no answer comes before its end"
    return None


def _terminal(words):
    """On a terminal the explanation follows the answer at once, and help is given."""
    ours, theirs = pty.openpty()
    with subprocess.Popen(wrapped(words), stdin=theirs, stdout=theirs, stderr=theirs) as console:
        os.close(theirs)
        os.write(ours, b"readings 5 2\n")
        said = until(ours, b"Probably: readings 52")
        os.write(ours, b"help\n")
        said += until(ours, b"docs/ANSWERS.md")
        os.write(ours, b"properties\n\x04")
        rest = until(ours, b"ok\r\n")
        status = console.wait(SECONDS)
    os.close(ours)
    if b"unread\r\n    octets with spaces between them. " not in said or b" netkey KEY " not in said:
        return f"a terminal: {said!r} is said"
    return None if b"ok\r\n" in rest and not status else f"a terminal: {rest!r} is said at the end, with status {status}"


def _rubbish(words):
    """Octets of any kind harm nothing, and what is said of them is plain text."""
    made = random.Random(1).randbytes(300_000) + b"\n" + b"x" * 200_000
    alone, run_in = run(words, made), run(wrapped(words), made)
    if (alone.stdout, alone.returncode) != (run_in.stdout, run_in.returncode):
        return "rubbish: the answers or the status are not the console's"
    plain = re.fullmatch(rb"[ -~\n]+", run_in.stderr)
    return None if plain and b" unread (" in run_in.stderr else f"rubbish: {run_in.stderr[:200]!r} is said"


def _gone(words):
    """A reader of the answers that goes away ends the console, without a word."""
    log = (ROOT / "crates" / "console" / "stdin").read_bytes() * 20
    with subprocess.Popen(wrapped(words), stdin=subprocess.PIPE, stdout=subprocess.PIPE, stderr=subprocess.PIPE) as console:
        console.stdout.close()
        try:
            console.stdin.write(log)
            console.stdin.close()
        except BrokenPipeError:
            pass
        said = console.stderr.read()
    return f"a reader that has gone: {said[-200:]!r} is said" if b"answering.py" in said else None


def _status(words):
    """The status is the console's, or another than 0 where the answers cannot be written."""
    status = run(wrapped(["sh", "-c", "cat >/dev/null; exit 7"]), b"show\n").returncode
    with open("/dev/full", "wb") as full:
        lost = subprocess.run(wrapped(words), input=b"properties\n", stdout=full, stderr=subprocess.PIPE, timeout=SECONDS, check=False)
    if status != 7 or not lost.returncode or b"cannot be written" not in lost.stderr:
        return f"a console that ends with 7: status {status}; answers that cannot be written: status {lost.returncode} and {lost.stderr!r}"
    return None


def passes(words):
    """The console's input and output pass as they are."""
    checks = (_open_pipe, _terminal, _rubbish, _gone, _status)
    return [text for check in checks if (text := check(words))], f"{len(checks)} ways to run it"


def help_fits(_):
    """The help is one screen, has every word that the console reads, and each form is the document's; rt is not called for it."""
    wrong = []
    page = (ROOT / "docs" / "CONSOLE.md").read_text()
    read_words = set(re.findall(r'b"(\w+)"', (ROOT / "crates/commands/src/command.rt").read_text()))
    if read_words != set(FORMS):
        wrong.append(f"bin/parts/forms.py and crates/commands differ in {sorted(read_words ^ set(FORMS))}")
    wrong += [f"docs/CONSOLE.md has no line {line.form}" for line in LINES if f"`{line.form.partition('|')[0]}`" not in page]
    for word in ("help", "--help", "-h"):
        shown = subprocess.run([str(ROOT / "bin" / "console"), word], capture_output=True, text=True, timeout=SECONDS, check=False,
                               env={**os.environ, "PATH": _without("rt")})
        lines = shown.stdout.splitlines()
        if shown.returncode or len(lines) > 24 or max(map(len, lines), default=81) > 80:
            wrong.append(f"bin/console {word}: status {shown.returncode}, {len(lines)} lines")
        wrong += [f"bin/console {word} has no line {line.form}" for line in LINES if not any(line.form + " " in one for one in lines)]
    return wrong, f"{len(FORMS)} words on one screen"


def _without(command):
    """The folders of PATH that do not have this command."""
    return os.pathsep.join(folder for folder in os.environ["PATH"].split(os.pathsep) if not Path(folder, command).exists())
