"""The crates of the repository: what one depends on, in which order `rt` proves them, and what of them matters to a build."""
import hashlib
import os
from pathlib import Path

ROOT = Path(__file__).resolve().parents[2]
TARGET = ROOT / "target"
PROVED = ("src", "specs", "proofs")


def listed():
    """Each crate of crates.txt with what it depends on; the toolchain's own libraries are left out."""
    table = {}
    for line in (ROOT / "crates.txt").read_text().splitlines():
        named, colon, needs = line.partition("#")[0].partition(":")
        if colon:
            table[named.split()[0]] = needs.split()  # behind the name of a static library stands its kind
    return {name: [one for one in needs if one in table] for name, needs in table.items()}


def ordered(table, name):
    """All that a crate depends on, and then the crate itself: each behind what it depends on, as `rt` proves them, one after another."""
    seen, found = set(), []

    def visit(one):
        if one not in seen:
            seen.add(one)
            for other in table[one]:
                visit(other)
            found.append(one)

    visit(name)
    return found


def files(name, parts):
    """The files of these parts of a crate, in order."""
    for part in parts:
        yield from sorted(path for path in (ROOT / "crates" / name / part).rglob("*") if path.is_file())


def digest_of(path):
    """The hash of a file; of none, no text."""
    return hashlib.sha256(path.read_bytes()).hexdigest() if path.is_file() else ""


def digest(table, crates, version):
    """The hash of all that a build depends on: the toolchain, the processor, and of each crate what it depends on and what is proved."""
    whole = hashlib.sha256(f"{version} {os.uname().machine}\n".encode())
    for name in crates:
        whole.update(f"{name}: {' '.join(table[name])}\n".encode())
        for path in files(name, PROVED):
            whole.update(f"{path.relative_to(ROOT)} {digest_of(path)}\n".encode())
    return whole.hexdigest()


def stamp(name):
    """The file that `rt` writes when it has built a library or a program, None where there is none; of a static library it writes none."""
    out = ROOT / "crates" / name / "out"
    return next((path for path in (out / "rlib" / "stamp", out / f"{name}.stamp") if path.is_file()), None)


def stale(table, crates):
    """The crates that `rt` will probably prove: nothing says that they were proved, or a file is newer, or they depend on such a crate."""
    found = set()
    for name in crates:
        kept = stamp(name)
        # one that was taken over from another checkout has that one's time, and its own in the second
        since = max(kept.stat().st_mtime, kept.stat().st_ctime) if kept else 0
        if found.intersection(table[name]) or not since or any(path.stat().st_mtime > since for path in files(name, PROVED)):
            found.add(name)
    return found
