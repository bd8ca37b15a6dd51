"""The explanation of unread lines: of each bad log its words, of good logs nothing, and the answers untouched."""
import subprocess
import sys
from pathlib import Path

from exchange import exchanged, read
from hints import hint
from logs import GOOD, LOGS

ROOT = Path(__file__).resolve().parents[2]
SECONDS = 60


def wrapped(words):
    """The command that runs a console as bin/console does."""
    return [sys.executable, "-B", str(ROOT / "bin" / "parts" / "answering.py"), *words]


def run(words, octets):
    """What a command does with an input."""
    return subprocess.run(words, input=octets, capture_output=True, timeout=SECONDS, check=False)


def _afterwards(words):
    """bin/explain says of a log and its answers what bin/console says, and refuses the answers to another log."""
    log, other = (ROOT / "tests" / "console" / f"{name}.in" for name in ("unread", "setup"))
    answers = log.with_suffix(".out")
    told, refused = (subprocess.run([str(ROOT / "bin" / "explain"), str(one), str(answers)], capture_output=True, text=True, timeout=SECONDS, check=False)
                     for one in (log, other))
    if told.stdout != run(wrapped(words), log.read_bytes()).stderr.decode() or not told.stdout:
        yield f"bin/explain {log.name}: it says something else than bin/console:\n{told.stdout}"
    if not refused.returncode or refused.stdout or "bin/explain: " not in refused.stderr:
        yield f"bin/explain {other.name} {answers.name}: status {refused.returncode} and {refused.stderr!r}"


def _of_log(name, log, words):
    """What is wrong with what is said of one log."""
    octets = log.text.encode("latin-1")
    alone, run_in = run(words, octets), run(wrapped(words), octets)
    if (run_in.stdout, run_in.returncode) != (alone.stdout, alone.returncode):
        yield f"{name}: the answers or the status are not the console's"
    said = run_in.stderr.decode("latin-1")
    heads = tuple(line for line in said.splitlines() if line[:1] != " ")
    if heads != log.blocks:
        yield f"{name}: {heads} is said, and {log.blocks} expected"
    for word in log.words:
        if word not in said:
            yield f"{name}: {word!r} is not said"


def logs(words):
    """Each bad log is explained as the table has it, and good ones not at all."""
    wrong = [text for name, log in LOGS.items() for text in _of_log(name, log, words)]
    good = [*map(str.encode, GOOD), (ROOT / "crates" / "console" / "stdin").read_bytes()]
    wrong += _afterwards(words)
    wrong += [f"a good log is explained: {text[:60]!r}" for text in good if run(wrapped(words), text).stderr]
    return wrong, f"{len(LOGS)} bad logs and {len(good)} good ones"


def _of_session(session, words):
    """What is wrong with one recorded session: another answer, or a line that is unread without a cause, or has a cause and is not unread."""
    log, answers = read(session), read(session.with_suffix(".out"))
    if run(wrapped(words), session.read_bytes()).stdout != session.with_suffix(".out").read_bytes():
        yield f"{session.name}: the answers are not those recorded"
    ready = False
    for number, line, (answer, *_) in exchanged(log, answers):
        if (hint(line, ready) is not None) != (answer == "unread"):
            yield f"{session.name}, line {number}: the answer is {answer[:20]}, the hint {hint(line, ready)}"
        ready = ready or (line, answer) == ("setup", "ready")


def sessions(words):
    """In each recorded session a cause is found for exactly the lines that are unread."""
    paths = sorted((ROOT / "tests" / "console").glob("*.in"))
    lines = sum(len(list(exchanged(read(path), read(path.with_suffix(".out"))))) for path in paths)
    wrong = [text for path in paths for text in _of_session(path, words)]
    return wrong + ([] if lines else ["there is no session"]), f"{lines} lines of {len(paths)} sessions"
