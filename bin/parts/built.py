"""Proves and builds what is named, unless it was built of the same: see bin/built."""
import fcntl
import functools
import os
import re
import shutil
import subprocess
import sys
import time
from contextlib import contextmanager
from itertools import zip_longest
from pathlib import Path

import crates
from crates import ROOT, TARGET
from progress import Progress

# What `rt` says as it begins a crate and when that is proved, and when all is proved and built and the program is run.
BEGUN, PROVED, RUNS = re.compile(r"rt: chose --jobs \d+ for (\w+)"), "logic=proved ", re.compile(r"^rt: running out/", re.M)
# Lines of it that tell nothing of why a crate is not proved.
QUIET = re.compile(r"(?:\w+ .*: proved|(?:logic|library|crate|statements|axioms|linked|rt: chose|rt: \w+: begins with) .*|(?:logic|only)=.*)\n?")
# The log of a running proof is read so often, and a terminal's line written so often.
LOOK, TICK = 0.2, 1.0


def say(text):
    """One line on standard error."""
    print(text, file=sys.stderr, flush=True)


@functools.lru_cache
def version():
    """The toolchain's own name."""
    return subprocess.run(["rt", "version"], stdout=subprocess.PIPE, stderr=subprocess.DEVNULL, text=True, check=False).stdout.strip()


def lines_of(path):
    """The lines of a file; of none, none."""
    return path.read_text("latin-1").splitlines() if path.is_file() else []


class Build:
    """What is to be built: its name and crate, the command that builds it there, the file that this makes, where that is kept, and the crates in their order.

    The archive NAME is the static library of the crate NAME_c.
    """

    def __init__(self, name, archive):
        self.name, self.archive, self.crate = name, archive, f"{name}_c" if archive else name
        self.folder = ROOT / "crates" / self.crate
        self.command = ["rt", "lib"] if archive else ["rt", "run", "--", *lines_of(self.folder / "args")]
        self.made = self.folder / "out" / (f"lib{self.crate}.a" if archive else name)
        self.product = TARGET / "staticlib" / f"lib{name}.a" if archive else TARGET / "bin" / name
        self.stamp = TARGET / "built" / self.product.name
        self.log, self.wrote = self.stamp.with_suffix(".log"), self.stamp.with_suffix(".stdout")
        self.table = crates.listed()
        if self.crate not in self.table:
            sys.exit(f"bin/built: crates.txt has no crate {self.crate}")
        self.crates = crates.ordered(self.table, self.crate)

    def sources(self):
        """The hash of all that matters to the product."""
        return crates.digest(self.table, self.crates, version())

    def stamped(self, sources):
        """What the stamp holds where the product that is there was built of these sources."""
        return f"{sources}\n{crates.digest_of(self.product)}\n"

    def is_current(self, sources):
        """Whether the product that is there was built of these sources."""
        return self.product.is_file() and self.stamp.is_file() and self.stamp.read_text() == self.stamped(sources)

    def keep(self):
        """Puts what `rt` has made into the product's place, whole."""
        self.product.parent.mkdir(parents=True, exist_ok=True)
        part = self.product.with_name(f".{self.product.name}.{os.getpid()}")
        shutil.copy(self.made, part)
        part.replace(self.product)

    def sign(self, sources):
        """Notes that the product was built of these sources."""
        self.stamp.write_text(self.stamped(sources))


def started(build, log):
    """Starts rt. A program, once it is built, is run on its crate's file `stdin`; what it writes is kept, and what rt says goes to the log."""
    given = build.folder / "stdin"
    with open(given if given.is_file() and not build.archive else os.devnull, "rb") as source, open(build.wrote, "wb") as wrote:
        return subprocess.Popen(build.command, cwd=build.folder, stdin=source, stdout=log if build.archive else wrote, stderr=log)


def proved(build):
    """Runs rt, with progress; its exit status, and whether it has built what is wanted."""
    progress = Progress(build.name, build.crates, crates.stale(build.table, build.crates))
    if progress.again:
        progress.say()
    drawn = time.monotonic()
    with open(build.log, "w+b") as log, open(build.log, encoding="utf-8", errors="replace") as lines:
        rt = started(build, log)
        rest, status = "", None
        while status is None:
            try:
                status = rt.wait(LOOK)
            except subprocess.TimeoutExpired:
                pass
            rest = followed(rest + lines.read(), progress)
            if progress.rewrites and progress.again and time.monotonic() - drawn > TICK:
                drawn = time.monotonic()
                progress.say()
    progress.end()
    is_built = build.made.is_file() and (not status if build.archive else bool(RUNS.search(build.log.read_text("utf-8", "replace"))))
    if progress.proved and is_built:
        say(f"{build.name}: proved and built")
    return status, is_built


def followed(text, progress):
    """Tells the progress of each crate that these lines of rt's log begin or end; what is left is a line that has not ended."""
    *lines, rest = text.split("\n")
    for line in lines:
        if match := BEGUN.fullmatch(line):
            progress.begins(match[1])
        elif line.startswith(PROVED):
            progress.ends()
    return rest


def why(build):
    """What rt has said, without the lines that tell nothing of why a crate is not proved."""
    with open(build.log, encoding="utf-8", errors="replace") as log:
        return "".join(line for line in log if not QUIET.fullmatch(line))


def difference(build, status):
    """Where the program's run first differs from its crate's files `stdout` and `status`; no text where it does not."""
    wanted = int((lines_of(build.folder / "status") or ["0"])[0])
    for number, pair in enumerate(zip_longest(lines_of(build.wrote), lines_of(build.folder / "stdout")), 1):
        if pair[0] != pair[1]:
            one, other = ("nothing" if line is None else ascii(line[:120]) for line in pair)
            return f"line {number} of its answers is {one}, crates/{build.name}/stdout has {other}"
    return f"it ended with status {status}, and not {wanted}" if status != wanted else ""


@contextmanager
def alone(build):
    """One build at a time: another waits."""
    build.stamp.parent.mkdir(parents=True, exist_ok=True)
    with open(build.stamp.parent / "lock", "w", encoding="ascii") as lock:
        try:
            fcntl.flock(lock, fcntl.LOCK_EX | fcntl.LOCK_NB)
        except BlockingIOError:
            say(f"{build.name}: another build is at work; this one waits for it")
            fcntl.flock(lock, fcntl.LOCK_EX)
        yield


def built(build):
    """Proves and builds where that is needed; the exit status."""
    if build.is_current(build.sources()):
        return 0
    with alone(build):
        sources = build.sources()
        if build.is_current(sources):
            return 0
        status, is_built = proved(build)
        if not is_built:
            sys.stderr.write(why(build))
            say(f"{build.name}: not built; {build.log.relative_to(ROOT)} has all that rt said")
            return 1
        build.keep()
        differs = "" if build.archive else difference(build, status)
        if differs:
            say(f"{build.name}: it is proved and built, but its run on crates/{build.name}/stdin differs from what is kept: {differs}")
        if build.sources() == sources:  # nothing was edited meanwhile
            build.sign(sources)
    return 0


def programs():
    """A build of each program of the repository."""
    return [Build(name, False) for name in crates.listed() if (ROOT / "crates" / name / "src" / "main.rt").is_file()]


def passed(sums):
    """Takes the programs that `rt ci` has just proved and built, those of which the sources are still what they were before it."""
    before = dict(line.split() for line in Path(sums).read_text().splitlines())
    for build in programs():
        with alone(build):
            sources = build.sources()
            if build.made.is_file() and sources == before.get(build.name):
                build.keep()
                build.sign(sources)
    return 0


def done(option, name):
    """Does what is asked; the exit status."""
    if option == "--sums":
        for build in programs():
            print(build.name, build.sources())
        return 0
    if option == "--passed":
        return passed(name)
    build = Build(name, option == "--archive")
    return int(not build.is_current(build.sources())) if option == "--current" else built(build)


def main():
    words = sys.argv[1:]
    option = words.pop(0) if words and words[0] in ("--archive", "--current", "--sums", "--passed") else ""
    if len(words) != (option != "--sums") or any(not word or word.startswith("-") for word in words):
        say("use: bin/built [--archive | --current] NAME")
        return 2
    if not shutil.which("rt"):
        say("bin/built: the Rattle toolchain (rt) is not on this machine")
        return 1
    try:
        return done(option, *words or [""])
    except KeyboardInterrupt:
        return 130


sys.exit(main())
