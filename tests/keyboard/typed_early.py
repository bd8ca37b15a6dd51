"""What is typed or piped before the proof: answered at once and marked, compared when the proof is done, and answered by the proved console from then on."""
import os
import pty
import signal
import subprocess
import threading

from explaining import SECONDS
from logs import PDU, READY
from typing_in import until

MARK, SAME, ON = "not proved yet: ", "lines of answers are those shown before", "; from here on the proved console answers"
READING, READ = "readings 52c20ed711", "readings 1 0076 humidity 45.67 4046d5c28f5c28f6"
END, ALONE = "\x04", "behind them the independent model alone answers"


class Session:
    """bin/console at a terminal, where nothing is built; its proof waits until it is let go on. `shown` is all that the terminal has shown."""
    newline = "\r\n"

    def __init__(self, tree, tried, **also):
        tree.unbuilt()
        self.go, self.shown = tree.root.parent / "go", ""
        self.go.unlink(missing_ok=True)
        self.begin([str(tree.root / "bin" / "console"), "-"], tree.environment(tried, GO=str(self.go), **also))

    def begin(self, command, environment):
        """Starts the console."""
        self.ours, theirs = pty.openpty()
        self.screen = self.ours
        self.console = subprocess.Popen(command, stdin=theirs, stdout=theirs, stderr=theirs, env=environment)
        os.close(theirs)

    def __enter__(self):
        return self

    def __exit__(self, *_):
        os.close(self.ours)
        self.console.kill()
        self.console.wait(SECONDS)

    def shows(self, words):
        """Whether these words are shown from here on, as a line or at the end of one; what is typed is shown, too."""
        text = until(self.screen, f"{words}{self.newline}".encode()).decode("latin-1")
        self.shown += text
        return f"{words}{self.newline}" in text

    def types(self, line, words):
        """Types a line; whether these words are shown behind it."""
        os.write(self.ours, f"{line}\n".encode())
        return self.shows(words)

    def proved(self, words):
        """Lets the proof be done; whether these words are shown behind it."""
        self.go.touch()
        return self.shows(words)

    def ended(self, key=END):
        """Ends the input; the status."""
        os.write(self.ours, key.encode())
        self.shown += until(self.screen, b"\0").decode("latin-1")
        return self.console.wait(SECONDS)


class Pipe(Session):
    """The same between pipes; `shown` is what stands on standard error, and `wrote` on standard output at the end."""
    newline, wrote = "\n", ""

    def begin(self, command, environment):
        """Starts the console, with processes of its own."""
        self.console = subprocess.Popen(command[:1], stdin=subprocess.PIPE, stdout=subprocess.PIPE, stderr=subprocess.PIPE, env=environment,
                                        start_new_session=True)
        self.ours, self.screen = os.dup(self.console.stdin.fileno()), self.console.stderr.fileno()
        self.console.stdin.close()
        self.console.stdin = None  # what is sent goes through ours

    def __exit__(self, *_):
        self.console.kill()
        self.console.wait(SECONDS)
        self.console.stdout.close()
        self.console.stderr.close()

    def answers(self, answer):
        """Whether this answer is written on standard output, and nothing else."""
        text = until(self.console.stdout.fileno(), f"{answer}\n".encode()).decode("latin-1")
        self.wrote += text
        return text == f"{answer}\n"

    def sends(self, text):
        """Sends all at once, and ends the input."""
        def send():
            with os.fdopen(self.ours, "w") as ours:
                ours.write(text)
        threading.Thread(target=send, daemon=True).start()

    def status(self):
        """The status, behind what is still shown and written."""
        wrote, shown = self.console.communicate(timeout=SECONDS)
        self.wrote, self.shown = self.wrote + wrote.decode("latin-1"), self.shown + shown.decode("latin-1")
        return self.console.returncode


def _handed_over(tree):
    """The proved console knows what was typed before it was there, and says nothing of it again."""
    with Session(tree, "asked") as session:
        fits = [session.types("property 76 humidity", f"{MARK}ok"), session.types("readings 5 2", "Probably: readings 52"), session.types(READING, MARK + READ),
                session.proved(f"proved now, and the 3 {SAME}{ON}"), session.types(READING, f"\n{READ}"), session.types("netkey 0", " has 1 digits")]
        status = session.ended()
    before, _, behind = session.shown.partition(ON)
    fits += [f"{MARK}unread\r\n    octets with" in before, MARK not in behind, behind.count("unread") == 1, "Probably" not in behind]
    return all(fits) and not status


def _ended_before(tree):
    """Where the input ends before the proof, its progress is shown."""
    with Session(tree, "asked") as session:
        fits = [session.types("properties", f"{MARK}ok"), session.types(END, " left"), session.proved(f"proved now, and the 1 {SAME}")]
        return all(fits) and not session.ended() and "console: 0 of " in session.shown and ON not in session.shown


def _written_otherwise(tree):
    """Where the console, unproved, writes something else than the model, that is said, once."""
    with Session(tree, "refused") as session:
        fits = [session.types("properties", f"{MARK}ok"), session.shows(".log"), session.types("properties", f"{MARK}ok"), session.proved(SAME + ON)]
        said = f"{MARK}run unproved, the console does not write what the independent model answers"
        return all(fits) and not session.ended() and session.shown.count(said) == 1


def _too_many(tree):
    """A great many lines are answered, but only on the first of them the console is run unproved."""
    with Session(tree, "asked") as session:
        for _ in range(21):
            os.write(session.ours, b"\n" * 500)
            until(session.ours, b"\0", 0.05)
        fits = [session.types("properties", f"{MARK}ok"), session.shows(f"the first 0 of 1 lines of answers; {ALONE}"), session.proved(f"the 1 {SAME}{ON}")]
        return all(fits) and not session.ended()


def _proved_otherwise(tree):
    """Where the proved answers are others, they are shown."""
    with tree.other_model(), Session(tree, "fits") as session:
        fits = [session.types("properties", f"{MARK}known to nobody"), session.proved(f"was 'known to nobody' and is 'ok'{ON}")]
        return all(fits) and not session.ended() and "\nok\r\nproved now, and NOT what was shown before" in session.shown


def _not_proved(tree):
    """Where the proof fails, its log is shown, and nothing is answered any more."""
    with Session(tree, "asked", BUILT="/no/such/console") as session:
        fits = [session.types("properties", f"{MARK}ok"), session.proved("No such file or directory")]
        return all(fits) and session.ended("") == 1 and "proved now" not in session.shown


def _no_model(tree):
    """Where the model does not run, the proof is waited for, and what was typed is answered then."""
    with tree.other_model("import sys\nsys.exit(1)\n"), Session(tree, "asked") as session:
        fits = [session.types("properties", "no answers yet: the independent model, tests/independent, does not run"), session.proved("\nok")]
        return all(fits) and not session.ended() and MARK not in session.shown


def typed(tree):
    """Each way that a session typed before the proof can go."""
    for check in (_handed_over, _ended_before, _written_otherwise, _too_many, _proved_otherwise, _not_proved, _no_model):
        yield f"bin/console -, {check.__name__.strip('_').replace('_', ' ')}", check(tree)


def _waiting(tree):
    """Who waits for each answer before the next line gets it: before the proof on standard error, behind it on standard output, where all stand in the end."""
    with Pipe(tree, "asked") as pipe:
        fits = [pipe.types("property 76 humidity", f"{MARK}ok"), pipe.types("netkey 0", f"{MARK}unread"), pipe.types(READING, MARK + READ),
                pipe.proved(f"proved now, and the 3 {SAME}{ON}"), pipe.answers(f"ok\nunread\n{READ}")]
        os.write(pipe.ours, b"properties\n")
        fits += [pipe.answers("ok")]
        os.close(pipe.ours)
        fits += [not pipe.status(), "Ctrl-D" not in pipe.shown, pipe.shown.count(" has 1 digits") == 1, "1 line is unread (2): " in pipe.shown,
                 "console: 0 of " in pipe.shown]
        return all(fits) and pipe.wrote == f"ok\nunread\n{READ}\nok\n"


def _at_once(tree):
    """More lines than the pipes hold, all at once: each is answered, the console is run on the first unproved, and all are compared."""
    heard, count = READY + f"hear {PDU}\n" * 12000, 12003
    with Pipe(tree, "asked") as pipe:
        pipe.sends(heard)
        fits = [pipe.shows(f"the first 10,000 of {count:,} lines of answers; {ALONE}"), pipe.proved(f"proved now, and the {count:,} {SAME}"), not pipe.status()]
        marked = [line.removeprefix(MARK) for line in pipe.shown.splitlines() if line.startswith(MARK)]
        return all(fits) and len(pipe.wrote.splitlines()) == count and [*pipe.wrote.splitlines()] == marked[:-1] and "refused 3" in marked[-2]


def _with_no_newline(tree):
    """A line that ends with the input is answered, too, and nothing at all has no answer."""
    with Pipe(tree, "asked") as pipe:
        pipe.sends("properties")
        fits = [pipe.shows(f"{MARK}ok"), pipe.proved(f"proved now, and the 1 {SAME}"), not pipe.status(), pipe.wrote == "ok\n"]
    with Pipe(tree, "asked") as pipe:
        pipe.sends("")
        fits += [pipe.proved("console: proved and built"), not pipe.status(), not pipe.wrote, MARK not in pipe.shown, "proved now" not in pipe.shown]
    return all(fits)


def _written_or_proved_otherwise(tree):
    """Where the console writes something else, unproved or proved, that is said; the proved answers are written."""
    with Pipe(tree, "refused") as pipe:
        pipe.sends("properties\n")
        fits = [pipe.shows(".log"), pipe.proved(f"proved now, and the 1 {SAME}"), not pipe.status(), pipe.wrote == "ok\n"]
    with tree.other_model(), Pipe(tree, "fits") as pipe:
        pipe.sends("properties\n")
        fits += [pipe.shows(f"{MARK}known to nobody"), pipe.proved("was 'known to nobody' and is 'ok'"), not pipe.status(), pipe.wrote == "ok\n"]
    return all(fits)


def _with_no_pause(tree):
    """Where there is no pause in what comes, the console is run on it all the same, after a time."""
    def hurried(text):
        return text.replace("PAUSE, SECONDS, LOOK = 1, 60, 0.2", "PAUSE, SECONDS, LOOK = 600, 2, 0.2")
    with tree.other("bin/parts/typed.py", hurried), Pipe(tree, "refused") as pipe:
        fits = [pipe.types("properties", f"{MARK}ok"), pipe.shows(".log")]
        os.close(pipe.ours)
        return all(fits) and pipe.proved(f"proved now, and the 1 {SAME}") and not pipe.status()


def _lost_or_left(tree):
    """Where the model does not run, the proof is waited for; Ctrl-C ends it all."""
    with tree.other_model("import sys\nsys.exit(1)\n"), Pipe(tree, "asked") as pipe:
        pipe.sends("properties\n")
        fits = [pipe.shows("no answers yet: the independent model, tests/independent, does not run"), pipe.proved("console: proved and built")]
        fits += [not pipe.status(), pipe.wrote == "ok\n", MARK not in pipe.shown]
    with Pipe(tree, "asked") as pipe:
        fits += [pipe.types("properties", f"{MARK}ok")]
        os.killpg(pipe.console.pid, signal.SIGINT)
        fits += [pipe.status() == 130, not pipe.wrote, "Traceback" not in pipe.shown]
        os.close(pipe.ours)
    return all(fits)


def piped(tree):
    """Each way that a pipe before the proof can go."""
    for check in (_waiting, _at_once, _with_no_newline, _written_or_proved_otherwise, _with_no_pause, _lost_or_left):
        yield f"bin/console, from a pipe, {check.__name__.strip('_').replace('_', ' ')}", check(tree)
