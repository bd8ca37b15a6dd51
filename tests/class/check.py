"""Opens pages of bin/class in Chromium and checks them: see tests/class/run."""
import argparse
import shlex
import shutil
import sys
import tempfile
from pathlib import Path

ROOT = Path(__file__).resolve().parents[2]
sys.path[:0] = [str(ROOT / "bin" / "parts"), str(ROOT / "tests" / "independent")]

import bad  # noqa: E402
import large  # noqa: E402
import putting  # noqa: E402
from answered import lines_of, plain  # noqa: E402
from driver import Browser  # noqa: E402
from pages import CONSOLE, STORY, page_of  # noqa: E402
from program import answers, asked  # noqa: E402
from readings_in import put_in  # noqa: E402
from refusal_table import sentences  # noqa: E402
from steering import steered  # noqa: E402
from walking import walked  # noqa: E402

# So much of what is wrong is printed.
SHOWN = 40
PICTURE, LINE = ROOT / "docs" / "class.png", "readings 52c20effffc20e3c86c20e0627031e0ae703a20effffa20e0080"


def logs(folder):
    """The logs that are gone through: the story, the same without its `readings` lines, one that asks twice, exercises, examples, recorded sessions."""
    recorded, twice = folder / "recorded.log", folder / "twice.log"
    twice.write_bytes(bad.STATION + b"readings 52c20ec012\n" + bad.READING + b"readings 52c20ec012\n" * 2)
    recorded.write_bytes(b"".join(line for line in STORY.read_bytes().splitlines(keepends=True) if not line.startswith(b"readings ")))
    return [STORY, recorded, twice, *sorted(path for which in ("class/*.log", "tests/answers/*.log", "tests/console/*.in") for path in ROOT.glob(which))]


def asked_of(words, log):
    """A log with its readings put in, its answers, and the numbers of its lines."""
    lines = lines_of(plain(log.read_bytes())[0])
    said = lambda each: answers(words, "".join(f"{line}\n" for line in each).encode("latin-1"))  # noqa: E731
    found, numbers = put_in(lines, said(lines))
    return found, said(found), numbers


def gone_through(browser, folder, words):
    """Goes through the page of every log; on the story's page how one moves is looked at, too."""
    wrong, found, told = [], sentences(), {}
    for log in logs(folder):
        copy = folder / "logs" / log.parent.name / log.name
        copy.parent.mkdir(parents=True, exist_ok=True)
        shutil.copyfile(log, copy)
        page = page_of(copy, folder / "pages")
        faults, steps = walked(browser, page, *asked_of(words, log), found)
        told[log] = steps
        wrong += [f"{log.parent.name}/{log.name}, {fault}" for fault in faults]
        if log == STORY:
            faults, moved = steered(browser, page, steps)
            wrong += faults
    if told[STORY][-1].plots != told[folder / "recorded.log"][-1].plots:
        wrong.append("the story has other readings where the program asks for them")
    every = [step for steps in told.values() for step in steps]
    readings = sum(len(step.records) for step in every)
    return wrong, f"{len(told)} pages with {len(every)} steps and {readings} readings, forwards and backwards, {moved}"


def pictured(browser, folder):
    """Writes the picture for the documents: the six ways in which the old probe's box says that there is no value."""
    number = lines_of(STORY.read_bytes()).index(LINE) + 1
    browser.open(page_of(STORY, folder), f"#{number}")
    PICTURE.write_bytes(browser.picture())
    return [], f"{PICTURE.relative_to(ROOT)} is written"


def main():
    parser = argparse.ArgumentParser(description=__doc__)
    parser.add_argument("--screenshot", action="store_true", help=f"writes {PICTURE.relative_to(ROOT)} and checks nothing")
    chosen, words = asked(parser)
    CONSOLE["GOREPHAN_CONSOLE"] = shlex.join(words)
    wrong, counts = [], []
    with tempfile.TemporaryDirectory() as name:
        folder = Path(name)
        for each in ("browser", "pages", "logs", "bad"):
            (folder / each).mkdir()
        with Browser(folder / "browser") as browser:
            checks = [lambda: pictured(browser, folder / "pages")] if chosen.screenshot else [
                putting.cases, lambda: gone_through(browser, folder, words), lambda: bad.shown(browser, folder / "bad"),
                lambda: bad.refused(browser, folder / "bad"), lambda: bad.named(browser, folder / "logs"), lambda: large.loaded(browser, folder / "bad")]
            for check in checks:
                try:
                    found, count = check()
                except AssertionError as fault:
                    found, count = [str(fault)], "a check that did not end"
                wrong += found
                counts.append(count)
    for text in wrong[:SHOWN]:
        print(text[:300])
    print(f"{'; '.join(counts)}: {f'{len(wrong)} wrong' if wrong else 'each as expected'}")
    return bool(wrong)


sys.exit(main())
