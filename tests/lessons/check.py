"""Makes the logs and answers of class/ and the tables of docs/CLASS.md from class/source, and holds console, picture and page to them.

  python3 tests/lessons/check.py [--console COMMAND]    checks what the repository keeps; names what differs
  python3 tests/lessons/check.py --write                writes it; the console is not asked

The answers are those of the independent model of tests/independent.
"""
import argparse
import sys
from functools import partial

import class_page
from lessons import FOLDER, ROOT, lessons

import program  # found where lessons leads, as the next is
from make import Wrong, difference, picture  # the story's make.py


def text_of(lines):
    """Lines as a file has them."""
    return "".join(f"{line}\n" for line in lines)


def made(found):
    """The text of each file."""
    files = {class_page.PAGE: class_page.made(found)}
    for lesson in found:
        files |= {FOLDER / f"{lesson.name}.log": text_of(lesson.log), FOLDER / f"{lesson.name}.answers": text_of(lesson.answers)}
    return files


def faults_of_files(files):
    """Where a file differs from what the sources make, and files of class/ that none of them makes."""
    differences = (difference(*each) for each in files.items())
    yield from (f"{found}: tests/lessons/run --write makes it so" for found in differences if found)
    stray = (file for file in FOLDER.iterdir() if file.is_file() and file not in files)
    yield from (f"{file.relative_to(ROOT)} belongs to no exercise" for file in sorted(stray))


def faults_of_console(found, words):
    """Where the console answers a kept log otherwise than the kept answers say."""
    for lesson in found:
        log, kept = (FOLDER / f"{lesson.name}.{kind}" for kind in ("log", "answers"))
        said = program.answers(words, log.read_bytes()) if log.exists() else []
        differs = difference(kept, text_of(said))
        if differs:
            yield f"the console answers class/{lesson.name}.log otherwise: {differs.replace(', should be ', ', the console says ')}"


def faults_of_pictures(found):
    """Logs of which bin/picture draws none, or one without the log's title."""
    for lesson in found:
        title = lesson.log[0].removeprefix("# ").partition(":")[0]
        try:
            if f"{title}:" not in picture(text_of(lesson.log), text_of(lesson.answers)):
                yield f"the picture of class/{lesson.name}.log has not the title {title}"
        except Wrong as wrong:
            yield f"class/{lesson.name}.log has no picture: {str(wrong).splitlines()[-1]}"


def main():
    parser = argparse.ArgumentParser(prog="tests/lessons/run", description=__doc__.split("\n", maxsplit=1)[0])
    parser.add_argument("--write", action="store_true", help="writes the logs, the answers and the tables")
    parser.add_argument("--console", metavar="COMMAND", help="the console's command")
    write = parser.parse_args().write
    try:
        found = lessons()
        files = made(found)
        for file, text in files.items() if write else ():
            file.write_text(text)
    except (Wrong, OSError) as wrong:
        print(f"tests/lessons/check.py: {wrong}", file=sys.stderr)
        return 1
    faults = list(faults_of_pictures(found))
    if write:
        faults += class_page.faults(found)
    else:
        words = program.asked(parser)[1]
        faults += [*faults_of_files(files), *faults_of_console(found, words), *class_page.faults(found, partial(program.answers, words))]
    for fault in faults:
        print(fault)
    asked, answers = (sum(map(len, each)) for each in zip(*((lesson.questions, lesson.answers) for lesson in found)))
    if not faults:
        by = "the model's" if write else "each the console's"
        print(f"{len(found)} exercises, {asked} questions: {answers} answers, {by}, and what docs/CLASS.md says of them")
    return 1 if faults else 0


if __name__ == "__main__":
    sys.exit(main())
