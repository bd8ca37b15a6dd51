"""Folders outside the checkout, for copies of its crates: `rt ci` refuses a second crates.txt in it, and links and .rt and .antt files outside crates/.

  aside.py NAME           prints where this checkout's folder of that name is
  aside.py --copy NAME    the same, after making it a copy of crates.txt, crates/ and bin/
"""
import hashlib
import os
import shutil
import sys
import tempfile
from pathlib import Path

from crates import ROOT


def aside(name):
    """This checkout's own folder of that name, among the temporary files."""
    top = Path(tempfile.gettempdir(), f"gorephan-{os.getuid()}")
    top.mkdir(0o700, exist_ok=True)
    if top.is_symlink() or top.stat().st_uid != os.getuid():
        sys.exit(f"{top} is not yours: set TMPDIR to a folder that is")
    folder = top / f"{ROOT.name}-{hashlib.sha256(os.fsencode(ROOT)).hexdigest()[:12]}" / name
    folder.mkdir(parents=True, exist_ok=True)
    return folder


def emptied(folder, *but):
    """Takes all out of a folder but what these are the names of."""
    for path in folder.iterdir():
        if path.name not in but:
            shutil.rmtree(path) if path.is_dir() and not path.is_symlink() else path.unlink()


def copied(name, *without):
    """The folder of that name, made a copy of crates.txt and crates/, but for what crates have by these names. What `rt` has kept of the copy stays."""
    folder, ours = aside(name), ROOT / "crates"
    kept = folder / "crates"
    kept.mkdir(exist_ok=True)
    emptied(kept, *(crate.name for crate in ours.iterdir()))
    for crate in kept.iterdir():
        emptied(crate, "out")
    shutil.copy(ROOT / "crates.txt", folder)
    for crate in ours.iterdir():
        shutil.copytree(crate, kept / crate.name, dirs_exist_ok=True, ignore=lambda at, _, top=str(crate): {"out", *without} if at == top else ())
    return folder


def main():
    *option, name = sys.argv[1:] or [""]
    if option not in ([], ["--copy"]) or not name or name.startswith("-"):
        sys.exit(__doc__)
    folder = copied(name) if option else aside(name)
    if option:
        shutil.rmtree(folder / "bin", ignore_errors=True)
        shutil.copytree(ROOT / "bin", folder / "bin")
    print(folder)


if __name__ == "__main__":
    main()
