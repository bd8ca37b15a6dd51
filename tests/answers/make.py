"""Makes the examples of docs/ANSWERS.md, the recipe of docs/CONSOLE.md and their logs, and holds the console to them.

  python3 tests/answers/make.py [--console COMMAND]    checks what the repository keeps; fails, and names the first difference, where something differs
  python3 tests/answers/make.py --write                writes it; the console is not asked

The PDUs are sealed and the lines answered by the independent model of tests/independent. The pages hold what is made between two markers.
"""
import argparse
import re
import sys
import textwrap
from itertools import zip_longest
from pathlib import Path

HERE = Path(__file__).resolve().parent
ROOT = HERE.parents[1]
for folder in ("bin/parts", "tests/story", "tests/independent"):
    sys.path.insert(0, str(ROOT / folder))

import causes  # noqa: E402
import program  # noqa: E402
import recipe  # noqa: E402
import refusal_table as table  # noqa: E402
from coverage import ASKED  # noqa: E402
from examples import MADE, Hidden  # noqa: E402
from language import Console  # noqa: E402
from make import difference  # noqa: E402, the story's make.py
from refusals import WORDS  # noqa: E402
from sealed import SETUP  # noqa: E402

CONSOLE = ROOT / "docs" / "CONSOLE.md"
# Where the refusals have their names and numbers.
IN_CODE = r"Refusal::(\w+)(?:\(_\))? => (\d+)"
SOURCES = ["crates/receiver/src/answer.rt", "crates/sensor/src/list.rt", "crates/transport/src/vetting.rt"]


class Wrong(Exception):
    """What was made does not show what it is to show, or a page has no place for it."""


def wrapped(text):
    """A paragraph's lines."""
    return textwrap.wrap(text, 160, break_long_words=False, break_on_hyphens=False)


def answered(lines, console):
    """What the model answers to these lines, and its words for why it answered each so."""
    answers, whys = [], []
    for line in lines:
        answers += console.answer(line.encode())
        whys.append(console.why)
    return answers, whys


def block(parts, console):
    """Lines behind four spaces and the answers of the model behind six; two dots stand for lines that are left out, which are answered too."""
    for part in parts:
        if isinstance(part, Hidden):
            yield "    .."
            answered(part.lines, console)
        else:
            yield from ("    " + part, *("      " + each for each in console.answer(part.encode())))


def example(number, make):
    """The section of one refusal, and its log with the answers. Its lines show that refusal and no other."""
    parts, console = make(), Console()
    lines = [line for part in parts for line in (part.lines if isinstance(part, Hidden) else [part])]
    log = [f"# Refused {number}: {WORDS[number]}.", "", "# 1. The station is set up", *SETUP, "", "# 2. The example", *lines]
    answers, _ = answered(log, Console())
    refused = {answer.split()[1] for answer in answers if answer.startswith("refused ")}
    if refused != {str(number)} or "unread" in answers:
        raise Wrong(f"the example of {number} shows {', '.join(sorted(refused)) or 'no refusal'}")
    answered(SETUP, console)
    section = [f"### Refused {number}", "", *wrapped(" ".join(make.__doc__.split())), "", *block(parts, console), ""]
    return section, (log, answers)


def request_session():
    """All cases of the table of 14, one behind the other, and the answers. Each case is refused for its row's reasons, and each reason has its case."""
    lines, answers, met = [], [], {}
    for row in causes.rows():
        found = []
        for case in row.cases:
            replies, whys = answered(case, Console())
            if replies[-1] != "refused 14" or any(reply.startswith(("refused", "unread")) for reply in replies[:-1]):
                raise Wrong(f"a case of {row.word}, {row.cause}, is answered {replies[-1]}")
            found.append(whys[-1].removeprefix(f"{row.word} refused 14: "))
            lines += case
            answers += replies
        if set(found) != set(row.whys):
            raise Wrong(f"{row.word}, {row.cause}: refused for {found}")
        met.setdefault(row.word, set()).update(found)
    for word, table_of in ASKED.items():
        if met.get(word, set()) != set(table_of.get(14, ())):
            raise Wrong(f"the table of 14 has not all causes of {word}: {set(table_of[14]) ^ met.get(word, set())}")
    return lines, answers


def within(page, name, lines):
    """The page's text with these lines between the markers of that name."""
    before, begin, rest = page.partition(f"<!-- tests/answers/run --write makes what follows: {name} -->\n")
    _, end, after = rest.partition(f"<!-- end: {name} -->\n")
    if not begin or not end:
        raise Wrong(f"a page has not the markers of: {name}")
    return before + begin + "\n" + "\n".join(lines) + "\n" + end + after


def made():
    """The text of each file, and the sessions: of each its name, its lines and the answers to them."""
    sections, sessions = [], {}
    for number, make in MADE.items():
        section, sessions[f"{number}.log"] = example(number, make)
        sections += section
    for who, session in recipe.logs().items():
        sessions[f"{who}.log"] = session
    station = [*block(SETUP, Console()), ""]
    answers_page = table.PAGE.read_text()
    for name, lines in (("causes of 14", [*causes.table(), ""]), ("station", station), ("examples", sections)):
        answers_page = within(answers_page, name, lines)
    files = {table.PAGE: answers_page, CONSOLE: within(CONSOLE.read_text(), "two boxes", recipe.page(wrapped))}
    files |= {HERE / name: "\n".join(log) + "\n" for name, (log, _) in sessions.items()}
    return files, sessions | {"the table of 14": request_session()}


def faults_of_table():
    """What the table of refusals lacks: a row for each number, with the name that the code has for it; and an example for each."""
    rows = table.refusals(table.PAGE.read_text())
    names = {int(number): name for source in SOURCES for name, number in re.findall(IN_CODE, (ROOT / source).read_text())}
    for number in sorted(WORDS | names | rows):
        if number not in MADE:
            yield f"refusal {number} has no example"
        if number not in rows:
            yield f"docs/ANSWERS.md: the table has no row of refusal {number} with a link to its example"
        elif rows[number].name != names.get(number):
            yield f"docs/ANSWERS.md: refusal {number} is {names.get(number)} in the code, not {rows[number].name}"


def faults_of_references():
    """Where docs/ANSWERS.md names a recorded session, or words of a comment in it, that are not there."""
    for name, words in re.findall(r'(tests/console/\w+\.in)(?:, "([^"]*)")?', table.PAGE.read_text()):
        file = ROOT / name
        comments = [line for line in file.read_text("latin-1").splitlines() if line.startswith("#")] if file.exists() else []
        if not any(words in line for line in comments):
            yield f"docs/ANSWERS.md: {name} has no comment with the words {words!r}"


def faults_of_console(words, sessions):
    """Where the console answers otherwise than the pages say."""
    for name, (lines, answers) in sessions.items():
        for at, (has, wanted) in enumerate(zip_longest(program.answers(words, program.text_of(line.encode() for line in lines)), answers), 1):
            if has != wanted:
                yield f"{name}: the console's line {at} is {has!r}, should be {wanted!r}"
                break


def checked(files, sessions, words):
    """All that is wrong."""
    stray = [f"{file.relative_to(ROOT)} belongs to no example" for file in sorted(HERE.glob("*.log")) if file not in files]
    differences = [f"{found}: tests/answers/run --write makes it so" for found in (difference(*each) for each in files.items()) if found]
    return [*faults_of_table(), *faults_of_references(), *stray, *differences, *faults_of_console(words, sessions)]


def main():
    parser = argparse.ArgumentParser(prog="tests/answers/run", description=__doc__.split("\n", maxsplit=1)[0])
    parser.add_argument("--write", action="store_true", help="writes the pages and the logs")
    parser.add_argument("--console", metavar="COMMAND", help="the console's command")
    write = parser.parse_args().write
    try:
        files, sessions = made()
        for file, text in files.items() if write else ():
            file.write_text(text)
    except (Wrong, OSError) as wrong:
        print(f"tests/answers/make.py: {wrong}", file=sys.stderr)
        return 1
    faults = [] if write else checked(files, sessions, program.asked(parser)[1])
    for fault in faults:
        print(fault)
    if not faults:
        cases, count = sum(len(row.cases) for row in causes.rows()), sum(len(answers) for _, answers in sessions.values())
        by = "the model's" if write else "each the console's"
        print(f"{len(MADE)} refusals by example, 14 by {cases} cases, two boxes: {count:,} lines of answers, {by}")
    return 1 if faults else 0


if __name__ == "__main__":
    sys.exit(main())
