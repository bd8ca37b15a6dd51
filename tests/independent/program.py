"""The program under test: which command runs it, which seeds were named, and what it answers to a script."""
import argparse
import os
import shlex
import shutil
import subprocess
from pathlib import Path

ROOT = Path(__file__).resolve().parents[2]
# A script that takes longer has hung.
SECONDS = 300


class Missing(Exception):
    """There is no such command, or it does not build."""


def _built():
    """The repository's program, which bin/console builds where it is not yet built."""
    if subprocess.run([str(ROOT / "bin" / "console")], stdin=subprocess.DEVNULL, check=False).returncode:
        raise Missing("bin/console does not build or does not run")
    return [str(ROOT / "bin" / "program"), "console"]


def _command(named):
    """The words of the command: the one named, else that of GOREPHAN_CONSOLE, else the repository's console."""
    text = named or os.environ.get("GOREPHAN_CONSOLE")
    try:
        words = shlex.split(text) if text else [str(ROOT / "bin" / "console")]
    except ValueError as fault:
        raise Missing(f"{text} is no command: {fault}") from None
    if not words or not shutil.which(words[0]):
        raise Missing(f"there is no command {words[0] if words else text}: name the console's by GOREPHAN_CONSOLE")
    return words if text else _built()


def asked(parser):
    """What the arguments ask for, and the words of the command; a wrong argument or a missing command gets a word and status 2."""
    chosen = parser.parse_args()
    try:
        return chosen, _command(getattr(chosen, "console", None))
    except Missing as missing:
        parser.error(str(missing))


def seeds(text):
    """The seeds of an argument, A or A..B."""
    first, dots, last = text.partition("..")
    if not first.isdecimal() or dots and not last.isdecimal() or dots and int(last) < int(first):
        raise argparse.ArgumentTypeError(f"{text} is neither a number nor A..B")
    return range(int(first), int(last if dots else first) + 1)


def text_of(lines, ended=True):
    """The script as the program reads it; the last line lacks its newline where it is not ended."""
    text = b"".join(line + b"\n" for line in lines)
    return text if ended else text.removesuffix(b"\n")


def answers(words, text):
    """The lines that the program answers; a line more says it where the program did not end well."""
    try:
        run = subprocess.run(words, input=text, stdout=subprocess.PIPE, timeout=SECONDS, check=False)
    except subprocess.TimeoutExpired:
        return [f"(the program did not end within {SECONDS} seconds)"]
    lines = run.stdout.split(b"\n")
    if lines.pop():
        lines.append(b"(the last line has no newline)")
    if run.returncode:
        lines.append(b"(the program ended with status %d)" % run.returncode)
    return [line.decode("latin-1") for line in lines]
