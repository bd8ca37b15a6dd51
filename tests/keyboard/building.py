"""The building of programs, with a stand-in for rt in a small tree of its own: what is said while it proves, and when it is not called at all."""
import os
import pty
import re
import shlex
import shutil
import subprocess
import tempfile
import time
from pathlib import Path

from explaining import ROOT, SECONDS

CRATES = "# a small tree\nlow:\nleft: low\nright: io low\ntop: left right\nother: low\nother_c staticlib: other\nconsole: low\nsamples: low\n"
# It proves the crates that AGAIN names, one after another, says nothing of the others, and ends as ENDS has it. The program is given what its file `stdin` has.
STAND_IN = r"""#!/bin/sh
[ "$1" != version ] || { echo "stand-in ${VERSION-1}" && exit; }
crate=$(basename "$PWD")
echo "$crate $1" >>"$CALLS"
case $1 in run) exec 3>&2 ;; *) exec 3>&1 ;; esac
cd ..
say() {
    mkdir -p "$1/out/rlib"
    case " $AGAIN " in
    *" $1 "*) echo "rt: chose --jobs 2 for $1" && sleep "${SLOW-0.02}"
        printf 'fn %s::one: proved\nlogic /kit: files=1\ncrate %s: modules loaded=0 checked=9\nlogic=proved functions=1 incremental=trusted\n' "$1" "$1" ;;
    esac >&3
    case $1 in top | console | samples) touch "$1/out/$1.stamp" ;; *_c) ;; *) touch "$1/out/rlib/stamp" ;; esac
}
echo "only=0 proved=0" >&3
say low
[ "$1" = run ] || { say other && say "$crate" && echo archive >"$crate/out/lib$crate.a" && exit; }
if [ "$ENDS" = unproved ]; then
    printf 'rt: chose --jobs 2 for left\nsrc/lib.rt:1:1: some error\nfn left::one: proved\nfn left::two: not proved\nlogic=not-proved\n' >&3
    echo "rt: the library left did not build, so nothing above it was checked" >&3
    exit 1
fi
[ "$crate" != top ] || { say left && say right; }
say "$crate"
cat */src/* >"$crate/out/$crate"
echo "rt: running out/$crate; to give it other input, run that file yourself" >&3
cmp -s - "$crate/stdin" 2>/dev/null || [ ! -e "$crate/stdin" ] || echo "another input"
[ "$ENDS" != differs ] || echo another
[ ! -e "$crate/stdout" ] || cat "$crate/stdout"
[ "$ENDS" != status ] || exit 3
"""
EVERY = "low left right top other other_c console samples"
# The seconds of a crate are those that bin/built has measured; the stand-in takes next to none.
SHORT = re.compile("took [0-2] s")
TIMES = {"low": 60, "left": 60, "right": 40, "top": 120}


def shortly(said):
    """What was said, with the seconds of a stand-in's proof as none."""
    return SHORT.sub("took 0 s", said)


class Tree:
    """A repository of a few crates, with the bin/ of ours and the stand-in first in PATH."""

    def __init__(self, folder):
        self.root, self.calls, self.wrong, self.count = Path(folder, "tree"), Path(folder, "calls"), [], 0
        shutil.copytree(ROOT / "bin", self.root / "bin")
        (self.root / "crates.txt").write_text(CRATES)
        for name in ("low", "left", "right", "other", "other_c"):
            self.edit(f"crates/{name}/src/lib.rt")
        for name in ("top/src/main.rt", "top/stdin", "top/stdout", "console/src/main.rt", "samples/src/main.rt"):
            self.edit(f"crates/{name}")
        stand_in = Path(folder, "path", "rt")
        stand_in.parent.mkdir()
        stand_in.write_text(STAND_IN)
        stand_in.chmod(0o755)
        self.path = os.pathsep.join([str(stand_in.parent), os.environ["PATH"]])

    def edit(self, name):
        """Adds a line to a file, so that it is newer than all that was built."""
        path = self.root / name
        path.parent.mkdir(parents=True, exist_ok=True)
        with open(path, "a", encoding="ascii") as file:
            file.write(f"# {time.monotonic_ns()}\n")
        later = time.time() + 5
        os.utime(path, (later, later))

    def environment(self, **also):
        """What the stand-in needs to know."""
        return {**os.environ, "PATH": self.path, "CALLS": str(self.calls), "AGAIN": EVERY, "ENDS": "", **also}

    def took(self, **times):
        """The last known seconds of some crates are these."""
        kept = self.root / "target" / "built" / "seconds.txt"
        kept.write_text("".join(f"{name} {seconds}\n" for name, seconds in times.items()))

    def kept(self):
        """The last known seconds of each crate."""
        return dict(line.split() for line in (self.root / "target" / "built" / "seconds.txt").read_text().splitlines())

    def built(self, *words, **also):
        """Runs bin/built: its status, what it says, and whether rt was called to prove, in which crate."""
        self.calls.write_text("")
        run = subprocess.run([str(self.root / "bin" / "built"), *words], capture_output=True, text=True, timeout=SECONDS, check=False,
                             env=self.environment(**also))
        return run.returncode, shortly(run.stderr), self.calls.read_text().splitlines()

    def expect(self, what, words, status, calls, said, **also):
        """One run, and what it must do: its status, its calls of rt, and the lines that it says, in order, or where `said` is a text that text."""
        self.count += 1
        got = self.built(*words, **also)
        fits = said in got[1] if isinstance(said, str) else got[1].splitlines() == list(said)
        if got[0] != status or got[2] != calls or not fits:
            self.wrong.append(f"{what}: status {got[0]}, calls {got[2]}, and it says:\n{got[1]}")


FIRST = ("top: 0 of 4 crates proved; now low; some 80 s left",
         "top: 1 of 4 crates proved, low took 0 s; now left; some 60 s left",
         "top: 2 of 4 crates proved, left took 0 s; now right; some 40 s left",
         "top: 3 of 4 crates proved, right took 0 s; now top; some 20 s left",
         "top: 4 of 4 crates proved, top took 0 s",
         "top: proved and built")
LAST = ("top: 0 of 4 crates proved; now low; some 5 minutes left",
        "top: 1 of 4 crates proved, low took 0 s; now left; some 4 minutes left",
        "top: 2 of 4 crates proved, left took 0 s; now right; some 3 minutes left",
        "top: 3 of 4 crates proved, right took 0 s; now top; some 2 minutes left",
        "top: 4 of 4 crates proved, top took 0 s",
        "top: proved and built")
TOP = ("top: 0 of 4 crates proved; now top; some 2 minutes left", "top: 4 of 4 crates proved, top took 0 s", "top: proved and built")
# A crate is proved that was not expected to be: then those above it are, too.
MORE = ("top: 0 of 4 crates proved; now top; some 2 minutes left",
        "top: 2 of 4 crates proved, left took 0 s; now right; some 3 minutes left",
        "top: 3 of 4 crates proved, right took 0 s; now top; some 2 minutes left",
        "top: 4 of 4 crates proved, top took 0 s",
        "top: proved and built")

# An edit of these proves nothing, one of those all: crates.txt gets a comment, and nothing here depends on `other`.
TEXTS = ("crates/top/stdin", "crates/top/stdout", "crates/top/args", "crates/low/must-fail/one.edit", "README.md", "crates.txt", "crates/other/src/lib.rt")
SOURCES = ("crates/low/src/lib.rt", "crates/low/specs/Low.antt", "crates/low/proofs/low/Proof.antt")


def _proved_before(tree, *names):
    """These crates were proved after all edits."""
    later = time.time() + 6
    for name in names:
        os.utime(tree.root / "crates" / name / "out" / "rlib" / "stamp", (later, later))


def _programs(tree):
    """A program is proved at first and after an edit of a source, with progress, and not after one of a text."""
    run = ["top run"]
    tree.expect("the first build", ["top"], 0, run, FIRST)
    tree.expect("no edit", ["top"], 0, [], ())
    for name in TEXTS:
        tree.edit(name)
        tree.expect(f"an edit of {name}", ["top"], 0, [], ())
    for name in SOURCES:
        tree.edit(name)
        tree.took(**TIMES)
        tree.expect(f"an edit of {name}", ["top"], 0, run, LAST)
    for what, again, said in (("an edit of the program alone", "top", TOP), ("a proof that was not expected", "left right top", MORE)):
        tree.edit("crates/top/src/main.rt")
        _proved_before(tree, "low", "left", "right")
        tree.took(**TIMES)
        tree.expect(what, ["top"], 0, run, said, AGAIN=again)
    tree.expect("another toolchain", ["top"], 0, run, "top: 4 of 4 crates proved, top took 0 s", VERSION="2")
    (tree.root / "target" / "bin" / "top").write_text("another program")
    tree.expect("another program in its place", ["top"], 0, run, "top took 0 s", VERSION="2")
    (tree.root / "crates.txt").write_text(CRATES.replace("left: low", "left:"))
    tree.expect("another dependency", ["top"], 0, run, "top took 0 s", VERSION="2")
    (tree.root / "crates.txt").write_text(CRATES)
    tree.expect("a slow proof", ["top"], 0, run, "top: 4 of 4 crates proved, top took ", AGAIN="top", SLOW="4")
    seconds = tree.kept()["top"]
    if not 3 <= int(seconds) <= 9:
        tree.wrong.append(f"a proof of 4 s took {seconds} s")


def _failures(tree):
    """What is not proved is not built; a program whose run alone differs is."""
    tree.edit("crates/left/src/lib.rt")
    made = tree.root / "target" / "bin" / "top"
    before = made.read_bytes()
    tree.expect("what is not proved", ["top"], 1, ["top run"], "\nsrc/lib.rt:1:1: some error\nfn left::two: not proved\n", ENDS="unproved")
    tree.expect("what is still not proved", ["top"], 1, ["top run"], "not proved\nrt: the library left did not build, so nothing above it was checked\n"
                "top: not built; target/built/top.log has all that rt said\n", ENDS="unproved")
    if made.read_bytes() != before:
        tree.wrong.append("what is not proved is built")
    tree.expect("a run that differs", ["top"], 0, ["top run"], "line 1 of its answers is 'another', crates/top/stdout has '# ", ENDS="differs")
    tree.expect("a run that differed", ["top"], 0, [], (), ENDS="differs")
    tree.edit("crates/left/src/lib.rt")
    tree.expect("a run that ends otherwise", ["top"], 0, ["top run"], "differs from what is kept: it ended with status 3, and not 0\n", ENDS="status")
    tree.expect("no such crate", ["none"], 1, [], "crates.txt has no crate none")
    tree.expect("a wrong use", ["--archive"], 2, [], "use: bin/built")
    tools = tree.root.parent / "tools"
    tools.mkdir()
    for tool in ("sh", "dirname", "python3"):
        (tools / tool).symlink_to(shutil.which(tool))
    tree.expect("no toolchain", ["top"], 1, [], "the Rattle toolchain (rt) is not on this machine\n", PATH=str(tools))


def _archives(tree):
    """An archive is built by rt lib, of the crate that has its name and _c, once."""
    said = "other: 1 of 3 crates proved, low took 0 s; now other; some 40 s left"
    made = tree.root / "target" / "staticlib" / "libother.a"
    tree.took()
    tree.expect("an archive", ["--archive", "other"], 0, ["other_c lib"], said)
    if not made.is_file() or made.read_text() != "archive\n":
        tree.wrong.append("an archive is not where it is to be")
    tree.expect("an archive again", ["--archive", "other"], 0, [], ())
    tree.edit("crates/other/src/lib.rt")
    tree.expect("an archive after an edit", ["--archive", "other"], 0, ["other_c lib"], "now other")
    tree.expect("no such archive", ["--archive", "low"], 1, [], "crates.txt has no crate low_c")


def _gate(tree):
    """What rt ci has built is taken, where its sources are still those that it has proved."""
    sums, made = tree.root.parent / "sums", tree.root / "crates" / "top" / "out" / "top"
    for what, edited, calls in (("what rt ci built", "README.md", []), ("what rt ci built of other sources", "crates/low/src/lib.rt", ["top run"])):
        tree.edit("crates/left/src/lib.rt")
        listed = subprocess.run([str(tree.root / "bin" / "built"), "--sums"], capture_output=True, text=True, timeout=SECONDS, check=True,
                                env=tree.environment())
        sums.write_text(listed.stdout)
        if [line.split()[0] for line in listed.stdout.splitlines()] != ["top", "console", "samples"]:
            tree.wrong.append(f"the programs are {listed.stdout}")
        made.write_text(what)
        tree.edit(edited)
        tree.expect(f"{what} is taken", ["--passed", str(sums)], 0, [], ())
        is_there = (tree.root / "target" / "bin" / "top").read_text() == what
        if is_there == bool(calls):
            tree.wrong.append(f"{what} is {'' if is_there else 'not '}taken")
        tree.expect(what, ["top"], 0, calls, "top: proved and built" if calls else ())


def _beside(tree):
    """Of two builds at the same time one proves, and the other waits for it."""
    tree.count += 1
    tree.edit("crates/low/src/lib.rt")
    tree.calls.write_text("")
    command = [str(tree.root / "bin" / "built"), "top"]
    both = [subprocess.Popen(command, stderr=subprocess.PIPE, text=True, env=tree.environment(SLOW="0.5")) for _ in range(2)]
    said = [build.communicate(timeout=SECONDS)[1] for build in both]
    calls = tree.calls.read_text().splitlines()
    if calls != ["top run"] or any(build.returncode for build in both):
        tree.wrong.append(f"two builds at the same time: {calls} is called, and said {said}")


def _terminal(tree):
    """On a terminal one line is written anew, and is gone at the end."""
    tree.count += 1
    tree.edit("crates/low/src/lib.rt")
    ours, theirs = pty.openpty()
    with subprocess.Popen([str(tree.root / "bin" / "built"), "top"], stderr=theirs, env=tree.environment(TERM="xterm", COLUMNS="200")) as build:
        build.wait(SECONDS)
    os.close(theirs)
    said = os.read(ours, 1 << 16).decode()
    os.close(ours)
    lines = said.split("\r")
    if not lines[1].startswith("top: 0 of 4 crates proved; now low; some") or "\r\x1b[Ktop: proved and built" not in said or said.count("\n") != 1:
        tree.wrong.append(f"a terminal: {said!r} is written")


LOG, EXPLAINED = "properties\nhelp\n", "1 line is unread (2): there is no line for help.\n"
# What is run, whether on the log as standard input, what it writes, and what it says.
COMMANDS = (
    (("console", "LOG"), False, "ok\nunread\n", ("console: 2 of 2 crates proved, console took 0 s\n", EXPLAINED)),
    (("console",), True, "ok\nunread\n", (EXPLAINED,)),
    (("samples",), False, "requests\n", ("samples: 2 of 2 crates proved, samples took 0 s\n",)),
    (("samples", "-"), True, LOG, ()),
)


def _commands(tree, words):
    """bin/console and bin/samples build with progress, then run, from any folder; unread lines are explained."""
    (tree.root / "bin" / "program").write_text(f"#!/bin/sh\n[ $1 = console ] || exec cat\ncd {shlex.quote(os.getcwd())} && exec {shlex.join(words)}\n")
    (tree.root / "crates" / "samples" / "stdin").write_text("requests\n")
    log = tree.root / "LOG"
    log.write_text(LOG)
    for (command, *rest), fed, wrote, said in COMMANDS:
        tree.count += 1
        with open(log if fed else os.devnull, "rb") as source:
            run = subprocess.run([str(tree.root / "bin" / command), *rest], stdin=source, capture_output=True, text=True, timeout=SECONDS, check=False,
                                 cwd=tree.root, env=tree.environment())
        if run.returncode or run.stdout != wrote or not all(text in shortly(run.stderr) for text in said):
            tree.wrong.append(f"bin/{command} {rest}: status {run.returncode}, {run.stdout!r} is written, and said:\n{run.stderr}")


def builds(words):
    """All of it, in one small tree; the console is run by these words."""
    with tempfile.TemporaryDirectory() as folder:
        tree = Tree(folder)
        for part in (_programs, _failures, _archives, _gate, _beside, _terminal):
            part(tree)
        _commands(tree, words)
        return tree.wrong, f"{tree.count} builds"
