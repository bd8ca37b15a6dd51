"""docs/CLASS.md: the tables that are made of the exercises, and whether what the page names and shows is so."""
import re
import subprocess

from lessons import FOLDER, ROOT

from exchange import is_silent  # found where lessons leads, as the next is
from language import Console

PAGE = ROOT / "docs" / "CLASS.md"
MADE = "(<!-- tests/lessons/run --write makes what follows: {0} -->\n).*?(<!-- end: {0} -->\n)"
# A section of the page, a paragraph in it that begins with a word, and what a paragraph names: a file of definitions, then names in it.
SECTION = re.compile(r"^## (.*)\n(?:.*\n)*?(?=^## |\Z)", re.M)
PARAGRAPH = r"^- \*\*{}\.\*\* ((?:.*\n)*?)(?=^- \*\*|^$)"
NAMED = re.compile(r"(\w+/specs/\w+\.antt)|`([\w-]+)`")
EDIT = re.compile(r"\S+/\w+\.edit\b")
DEFINED = r"^\s*(?:(?:abbrev|unfoldable|pub|record|data) )*{}(?= |$)"
# What is to be tried: a change of a log, and under it some of the answers, in their order.
TRY = re.compile(r"^      sed '(.*)' class/(\S+)\.log > /tmp/mine\.log && bin/story /tmp/mine\.log\n((?:        .*\n)+)", re.M)


def cell(text):
    """A comment's text as a sentence of a table."""
    return text[0].upper() + text[1:]


def table(lesson):
    """The table of an exercise: its questions, with the line that shows the answer."""
    rows = [f"| {each.line} | {cell(each.asked)} | {cell(each.said)} | {cell(each.answer)} |" for each in lesson.questions]
    return "\n".join(["", "| Line | Question | Often said | Answer |", "|---|---|---|---|", *rows, "", ""])


def made(lessons):
    """The page with its tables; a table that has no place in it is left out, and `faults` says so."""
    text = PAGE.read_text()
    for lesson in lessons:
        text = re.sub(MADE.format(lesson.name), lambda found, lesson=lesson: found[1] + table(lesson) + found[2], text, flags=re.S)
    return text


def defined(path, name):
    """Whether a name is defined in this file below crates/."""
    file = ROOT / "crates" / path
    return file.exists() and re.search(DEFINED.format(re.escape(name)), file.read_text(), re.M)


def definitions(paragraph):
    """The names in a paragraph, each with the file that stands last before it."""
    path = ""
    for file, name in NAMED.findall(paragraph):
        path = file or path
        if name:
            yield path, name


def proved(section, lesson):
    """What is wrong with where the page, or the log, says that it is proved."""
    found = re.search(PARAGRAPH.format("Proved"), section, re.M)
    named = list(definitions(found[1])) if found else []
    for path, name in named:
        if not defined(path, name):
            yield f"{name} is not defined in {path or 'a file named before it'}"
    for path, names in lesson.proved.items():
        for name in names:
            if (path.removeprefix("crates/"), name) not in named:
                yield f"the log names {name} in {path}, and the page does not"


def edits(section):
    """What is wrong with the edits of an exercise."""
    named = EDIT.findall(section)
    yield from (f"there is no {name}" for name in named if not (ROOT / name).exists())
    if not any("/must-fail/" in name for name in named):
        yield "names no mistake that the gate tries"


def answered(text):
    """The model's answers to the octets of a log."""
    console = Console()
    return [answer for line in text.removesuffix(b"\n").split(b"\n") for answer in console.answer(line)]


def within(shown, answers):
    """Whether these lines stand among the answers in their order."""
    rest = iter(answers)
    return all(line in rest for line in shown)


def tries(section, lesson, answers_to):
    """What is wrong with what is to be tried."""
    found = [each for each in TRY.findall(section) if each[1] == lesson.name]
    if not found:
        yield "has nothing to try"
    for script, _, shown in found:
        log = FOLDER / f"{lesson.name}.log"
        changed = subprocess.run(["sed", script, str(log)], capture_output=True, check=False)
        wanted = [line.strip() for line in shown.splitlines()]
        if changed.returncode or not within(wanted, answers_to(changed.stdout)):
            yield f"sed '{script}' does not lead to: {wanted[0]}"
        elif within(wanted, lesson.answers):
            yield f"sed '{script}' changes nothing of: {wanted[0]}"
    for number in re.findall(r"\bline (\d+)\b", section):
        if is_silent((lesson.log[int(number) - 1:] or [""])[0]):
            yield f"line {number} of the log is none that is answered"


def faults(lessons, answers_to=answered):
    """All that is wrong with the page but its tables; `answers_to` gives the answers to the octets of a log."""
    text = PAGE.read_text()
    sections = {found[1].split(".")[0]: found[0] for found in SECTION.finditer(text)}
    for lesson in lessons:
        number = lesson.name.partition("-")[0]
        section = sections.get(number, "")
        for show in ("bin/class", "bin/story"):
            if f"`{show} class/{lesson.name}.log`" not in section:
                yield f"docs/CLASS.md: section {number} has no {show} class/{lesson.name}.log"
        if not re.search(MADE.format(lesson.name), section, re.S):
            yield f"docs/CLASS.md: section {number} has no place for the table of {lesson.name}"
        for fault in (*proved(section, lesson), *edits(section), *tries(section, lesson, answers_to)):
            yield f"docs/CLASS.md, section {number}: {fault}"
    known = {f"class/{lesson.name}.log" for lesson in lessons}
    yield from (f"docs/CLASS.md: there is no {name}" for name in sorted(set(re.findall(r"class/\S+?\.log", text)) - known))
