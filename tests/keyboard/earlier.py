"""Answers before the proof: marked as not proved, compared with the proved ones, and none where there is nothing to wait for."""
import os
import shlex
import shutil
import subprocess
import tempfile
from contextlib import contextmanager
from pathlib import Path

from explaining import ROOT, SECONDS
from logs import PDU, READY
from typed_early import piped, typed

# `try` writes what the console does, or what the model does, or something else, as TRIED has it, and says how it has ended: the interpreter may have used up
# its steps, and of too many lines or octets it says nothing. `run` waits for the file GO, if one is named, and hands out the built console.
STAND_IN = r"""#!/bin/sh
case $1 in
version) echo stand-in ;;
try) [ "$TRIED" != real ] || exec "$RT" try
    [ "$TRIED" != slow ] || exec sleep 60
    [ "$TRIED" != unanswered ] || { printf 'checked: no-answer: the run takes long\nrun=no-answer proved=no\n' >&2 && exit 6; }
    given=$TREE/../given.$$
    cat >"$given"
    case $TRIED in
    asked | limit) $CONSOLE <"$given" ;;
    fits) python3 -B "$TREE/tests/independent/console.py" <"$given" ;;
    *) echo another ;;
    esac >"$given.wrote"
    [ "$(wc -l <"$given")" -le 10000 ] && [ "$(wc -c <"$given.wrote")" -le 1048576 ] || exit 1
    cat "$given.wrote"
    case $TRIED in limit*)
        echo 'interpreter: no-answer: the run did not finish within 20000000 steps: the program may loop forever' ;;
    esac >&2
    printf 'checked: ended status=0\nrun=ended status=0 runners=1 proved=no\n' >&2 ;;
run) until [ -z "${GO-}" ] || [ -e "$GO" ]; do sleep 0.05; done
    mkdir -p out && cp "$BUILT" out/console || exit
    printf 'rt: chose --jobs 2 for console\nlogic=proved functions=1\nrt: running out/console; to give it other input, run that file yourself\n' >&2
    cat stdout ;;
esac
"""
# It answers each line, and each wrongly.
OTHER_MODEL = "import sys\nfor line in sys.stdin.buffer:\n    if line.strip() and line[:1] != b'#':\n        print('known to nobody')\n"
# It answers as ours does, but wrongly behind so many lines, or after a minute behind a line `# later`.
LIKE_OURS = """import sys, time
from language import Console
console = Console()
for count, line in enumerate(sys.stdin.buffer):
    if line == b"# later\\n":
        sys.stdout.flush()
        time.sleep(60)
    for answer in console.answer(line.removesuffix(b"\\n")):
        print(answer if count < {} else "known to nobody")
"""
MARK, SAME, OTHER, NONE = "not proved yet: ", "proved now, and the 4 lines of answers are those shown before", "NOT what was shown before", "no answers yet: "
LOG = "# a log\nproperty 76 humidity\nreadings 52c20ed711c20effff\nnetkey 0\nreadings 52c20ed7\n"
ANSWERS = ["ok", "readings 2 0076 humidity 45.67 4046d5c28f5c28f6 0076 unknown", "unread", "refused 20"]
# A log of which the model alone answers the end, its answers, and what is said of them. A property is named once.
MOST, LONG, LONG_ANSWERS = 10000, LOG * 2500, ANSWERS + ["refused 14", *ANSWERS[1:]] * 2499
BEGUN = "the console itself, run unproved, has written the first {} lines of answers; behind them the independent model alone answers"
LONG_BEGUN, LONG_SAME = BEGUN.format("8,000 of 10,000"), "proved now, and the 10,000 lines of answers are those shown before"
# Lines whose answers are of more octets than rt try lets a program write.
MUCH = "property 76 humidity\n" + f"readings 52{'c20ed711' * 90}\n" * 400
# A log of which the model answers the beginning in time, and what is said of it.
LATER, PART, PART_SAME = LOG + "# later\nproperties\n", "the first 5 of 7 lines", "proved now, and the first 4 lines of answers are those shown before"

# More lines than the interpreter of `rt try` has steps for.
HEARD, HEARD_SAME = READY + f"hear {PDU}\n" * 200, "proved now, and the 203 lines of answers are those shown before"


class Tree:
    """The repository with nothing built, and the stand-in first in PATH."""

    def __init__(self, folder, words):
        self.root, self.log, self.words = Path(folder, "tree"), Path(folder, "a.log"), words
        shutil.copytree(ROOT / "bin", self.root / "bin")
        shutil.copytree(ROOT / "tests" / "independent", self.root / "tests" / "independent")
        shutil.copy(ROOT / "tests" / "python", self.root / "tests")
        (self.root / "docs").symlink_to(ROOT / "docs")
        shutil.copy(ROOT / "crates.txt", self.root)
        shutil.copytree(ROOT / "crates", self.root / "crates", ignore=lambda at, _: ("out", "must-fail") if Path(at).parent == ROOT / "crates" else ())
        self.log.write_text(LOG)
        stand_in = Path(folder, "path", "rt")
        stand_in.parent.mkdir()
        stand_in.write_text(STAND_IN)
        stand_in.chmod(0o755)
        self.path = os.pathsep.join([str(stand_in.parent), os.environ["PATH"]])

    def environment(self, tried, **also):
        """What the stand-in needs to know. No other console is named."""
        kept = {name: text for name, text in os.environ.items() if name != "GOREPHAN_CONSOLE"}
        return {**kept, "PATH": self.path, "TREE": str(self.root), "TRIED": tried, "CONSOLE": shlex.join(self.words), "RT": shutil.which("rt") or "rt",
                "BUILT": str(ROOT / "target" / "bin" / "console"), **also}

    def unbuilt(self):
        """Takes away what is built there."""
        for folder in ("target", "crates/console/out"):
            shutil.rmtree(self.root / folder, ignore_errors=True)

    def run(self, program, tried, log=LOG, **also):
        """Runs a script of bin/ on a log, where nothing is built."""
        self.unbuilt()
        self.log.write_text(log)
        return self.again(program, tried, **also)

    def again(self, program, tried, **also):
        """The same, with what is built there."""
        words = [str(self.root / "bin" / program), str(self.log)]
        return subprocess.run(words, capture_output=True, text=True, timeout=SECONDS, check=False, env=self.environment(tried, **also))

    @contextmanager
    def other(self, name, changed):
        """Another file in the place of ours, changed so."""
        file = self.root / name
        kept = file.read_text()
        file.write_text(changed(kept))
        try:
            yield
        finally:
            file.write_text(kept)

    def other_model(self, text=OTHER_MODEL):
        """Another model in the place of ours."""
        return self.other("tests/independent/console.py", lambda _: text)

    def in_a_hurry(self, model, latest):
        """Other seconds for the model, and for `rt try`."""
        return self.other("bin/parts/early.py", lambda text: text.replace("MODEL, LATEST = 8, 25", f"MODEL, LATEST = {model}, {latest}"))


def _marked(text):
    """The early answers in what is shown."""
    return [line.split(MARK)[1].split(" (")[0] for line in text.splitlines() if MARK in line]


def _console(tree):
    """bin/console of a file: the early answers on standard error, the proved ones on standard output."""
    first, second = tree.run("console", "asked"), tree.again("console", "asked")
    yield "bin/console, the first time", first.stdout.splitlines() == ANSWERS and _marked(first.stderr) == ANSWERS and SAME in first.stderr
    yield "bin/console, the second time", second.stdout == first.stdout and MARK not in second.stderr and SAME not in second.stderr
    refused = tree.run("console", "refused")
    yield "bin/console, where another is written unproved", refused.stdout == first.stdout and NONE in refused.stderr and MARK not in refused.stderr
    limit, differs = tree.run("console", "limit"), tree.run("console", "limit and a difference")
    yield "bin/console, at the interpreter's limit", _marked(limit.stderr) == ANSWERS and SAME in limit.stderr
    yield "bin/console, at the interpreter's limit, where another is written compiled", NONE in differs.stderr and MARK not in differs.stderr
    kept = next((tree.root / "target" / "early").glob("*.log"), None)
    yield "bin/console, what is kept of a difference", kept and "line 1 of what it writes is 'another', and of the model's answers 'ok'" in kept.read_text()
    with tree.other_model("import sys\nsys.exit(1)\n"):
        lost = tree.run("console", "asked")
    yield "bin/console, where the model does not run", lost.stdout == first.stdout and f"{NONE}the independent model" in lost.stderr and MARK not in lost.stderr
    nothing = tree.run("console", "asked", "\n")
    yield "bin/console, of nothing", not nothing.stdout and not nothing.returncode and "not proved" not in nothing.stderr and NONE not in nothing.stderr


def _long(tree):
    """Of a long log `rt try` sees the beginning, and the model alone answers the rest, which is said; all is compared."""
    long = tree.run("console", "asked", LONG)
    yield "bin/console, of a long log", (
        long.stdout.splitlines() == LONG_ANSWERS and _marked(long.stderr) == [LONG_BEGUN, *LONG_ANSWERS] and LONG_SAME in long.stderr)
    refused = tree.run("console", "refused", LONG)
    yield "bin/console, of a long log, where another is written unproved", (
        refused.stdout == long.stdout and NONE in refused.stderr and MARK not in refused.stderr)
    with tree.other_model(LIKE_OURS.format(MOST)):
        other = tree.run("console", "asked", LONG)
    behind = f"{OTHER}: line 8001 of the answers was 'known to nobody' and is 'refused 14'"
    yield "bin/console, of a long log, where the proved answers behind its beginning are others", behind in other.stderr and other.stdout == long.stdout
    much = tree.run("console", "asked", MUCH)
    answers = much.stdout.splitlines()
    fit = next(count for count in range(401) if sum(len(answer) + 1 for answer in answers[:count + 1]) > 1 << 20)
    yield "bin/console, of more answers than rt try takes", (
        _marked(much.stderr) == [BEGUN.format(f"{fit} of 401"), *answers] and "the 401 lines of answers are those" in much.stderr)
    told, paged = tree.run("story", "asked", LONG), tree.run("class", "asked", LONG, BUILT="/no/such/console")
    behind = told.stdout.partition(LONG_SAME)[2]
    yield "bin/story, of a long log", _marked(told.stdout) == [LONG_BEGUN, *LONG_ANSWERS] and "The picture of it" in behind and ANSWERS[1] not in behind
    place = paged.stdout.strip().partition("The page of it, not proved yet: ")[2]
    page = Path(place).read_text() if place else ""
    yield "bin/class, of a long log, where the proof fails", f"answers of the independent model: {LONG_BEGUN}." in page and '"line":12500,' in page


def _late(tree):
    """What is not known in time is not waited for: neither the model's answers to the end of a log, nor what `rt try` sees."""
    with tree.in_a_hurry(8, 2):
        slow = tree.run("console", "slow")
    given_up = tree.run("console", "unanswered")
    for what, run in (("takes long", slow), ("gives up", given_up)):
        yield f"bin/console, where rt try {what}", (
            _marked(run.stderr) == ["the independent model alone answers: it takes too long to run the console unproved", *ANSWERS] and SAME in run.stderr)
    *heard, asks, acknowledges = (ROOT / "tests" / "answers" / "station.log").read_text().splitlines()
    with tree.in_a_hurry(1.5, 25), tree.other_model(LIKE_OURS.format(MOST)):
        late, paged = tree.run("console", "asked", LATER), tree.run("class", "asked", LATER)
        apart = tree.run("story", "asked", "\n".join([*heard, "# later", acknowledges, asks, ""]))
    yield "bin/console, where the model takes long", (
        late.stdout.splitlines() == [*ANSWERS, "ok"] and _marked(late.stderr) == [PART, *ANSWERS] and PART_SAME in late.stderr)
    yield "bin/class, where the model takes long", f"The page of {PART}, not proved yet: " in paged.stdout and f"{PART_SAME}\nThe page of it: " in paged.stdout
    shown, _, again = apart.stdout.partition("lines of answers are those shown before\n")
    yield "bin/story, where the model takes long, of a log that asks for readings behind that", (
        f"+  {asks}" in shown and "# later" not in shown and f"21  {asks}" in again)


def _story(tree):
    """bin/story: the log with its early answers, each marked; then whether the proved ones are the same."""
    first, second = tree.run("story", "asked"), tree.again("story", "asked")
    yield "bin/story, the first time", _marked(first.stdout) == ANSWERS and SAME in first.stdout and "The picture of it" in first.stdout
    yield "bin/story, the second time", MARK not in second.stdout and SAME not in second.stdout and ANSWERS[1] in second.stdout
    with tree.other_model():
        other = tree.run("story", "fits")
    behind = other.stdout.partition(OTHER)[2]
    yield "bin/story, where the proved answers are others", f"{MARK}known to nobody" in other.stdout and ANSWERS[1] in behind and MARK not in behind


def _page(tree):
    """bin/class: a page that says that nothing is proved yet, and then the proved one in its place."""
    first, second = tree.run("class", "asked"), tree.again("class", "asked")
    places = [line.rpartition(": ")[2] for line in first.stdout.splitlines() if line.startswith("The page of it")]
    yield "bin/class, the first time", "The page of it, not proved yet: " in first.stdout and SAME in first.stdout and len(set(places)) == 1 < len(places)
    yield "bin/class, the second time", second.stdout == f"The page of it: {places[-1]}\n" and "not proved" not in Path(places[-1]).read_text().lower()
    refused = tree.run("class", "refused")
    yield "bin/class, where another is written unproved", "not proved yet" not in refused.stdout and NONE in refused.stderr and "The page of it: " in refused.stdout


def early(words):
    """Each way to answer before the proof; one of them by the toolchain's own `rt try`."""
    with tempfile.TemporaryDirectory() as folder:
        tree = Tree(folder, words)
        found = [*_console(tree), *_story(tree), *_page(tree), *_long(tree), *_late(tree), *typed(tree), *piped(tree)]
        real = tree.run("console", "real", HEARD)
        found.append(("bin/console, by rt try itself", len(real.stdout.splitlines()) == 203 and HEARD_SAME in real.stderr))
    return [f"{what}: not as expected" for what, fits in found if not fits], f"{len(found)} runs before a proof"
