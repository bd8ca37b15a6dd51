"""The pages that are looked at: bin/class writes them, and each is taken away from under target/ as soon as it is there."""
import os
import re
import subprocess
from pathlib import Path

ROOT = Path(__file__).resolve().parents[2]
STORY = ROOT / "crates" / "console" / "stdin"
WHERE = re.compile(r"The page of it: (.*)\n")


# The console's command, once it is known that it is built; asking for it at each page would take as long as all the rest.
CONSOLE = {}


def asked(*arguments, own=False):
    """Runs bin/class: its status, what it wrote, and what it said on standard error; `own`: with the console that it asks by itself."""
    done = subprocess.run([ROOT / "bin" / "class", *arguments], env={**os.environ, **({} if own else CONSOLE)}, capture_output=True, check=False)
    return done.returncode, done.stdout.decode(), done.stderr.decode("utf-8", "replace")


def page_of(log, folder):
    """The page of a log, in this folder."""
    status, said, fault = asked(str(log))
    found = WHERE.fullmatch(said)
    if status or not found:
        raise AssertionError(f"bin/class {log} ended with status {status}: {said}{fault}")
    page = folder / f"{len(list(folder.iterdir()))}.html"
    written = Path(found[1])
    page.write_bytes(written.read_bytes())
    if written.parent.name == "pages":
        written.unlink()
        written.with_suffix(".log").unlink()
    return page
