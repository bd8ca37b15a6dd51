"""The exercises of class/: what each source makes, a log and the answers to it, and the questions that the log asks.

A source, class/source/NAME.txt, is written as tests/story/story.txt is. The line `station` stands for those of station.txt, which set the station up. Three
words begin a comment that the class is led by, each up to the next one or the next line that is answered:

  # Question: ..      asked before the line that it is about, with the line before that one: whoever steps through the log sees no answer yet
  # Often said: ..    what learners say to it, and
  # Answer: ..        what is so: these two stand before the line that shows it
  # Proved: ..        NAME, NAME in FILE; NAME in FILE: the log's last words say where the answer is proved
"""
import re
import sys
from collections import namedtuple
from pathlib import Path

ROOT = Path(__file__).resolve().parents[2]
for folder in ("bin/parts", "tests/story", "tests/independent"):
    sys.path.insert(0, str(ROOT / folder))

from exchange import is_silent  # noqa: E402
from make import Wrong, told  # noqa: E402, the story's make.py

FOLDER = ROOT / "class"
SOURCES = FOLDER / "source"
STATION = SOURCES / "station.txt"
WORDS = re.compile(r"# (Question|Often said|Answer|Proved): (.*)")
PLACE = re.compile(r"([\w, -]+) in (\S+)")
# So many lines of a log are answered; a comment has at most so many letters, for the projector.
FEWEST, MOST, WIDTH = 10, 30, 120

# A question with the number of the log's line that shows its answer.
Question = namedtuple("Question", "line asked said answer")
Lesson = namedtuple("Lesson", "name log answers questions proved")


def spoken(log):
    """The comments that lead the class: of each its word, its text, and the number of the answered line behind it, 0 where there is none."""
    found, going_on = [], False
    for number, line in enumerate(log, 1):
        begun = WORDS.fullmatch(line)
        if begun:
            found.append([*begun.groups(), 0])
        elif going_on and line.startswith("# "):
            found[-1][1] += line[1:]
        elif not is_silent(line):
            for each in found:
                each[2] = each[2] or number
        going_on = bool(begun) or going_on and line.startswith("# ")
    return found


def questions(name, comments):
    """The log's questions, each with what is said to it, and its answer one line later or more."""
    if [word for word, _, _ in comments] != ["Question", "Often said", "Answer"] * (len(comments) // 3) or not comments:
        raise Wrong(f"class/source/{name}.txt: Question, Often said and Answer do not stand in turn")
    found = []
    for (_, asked, asked_at), (_, said, _), (_, answer, shown_at) in zip(*[iter(comments)] * 3):
        if not 0 < asked_at < shown_at:
            raise Wrong(f"class/source/{name}.txt: no answered line stands between the question and its answer: {asked}")
        found.append(Question(shown_at, asked, said, answer))
    return found


def proved(name, text):
    """The definitions that the log's last words name, by their files."""
    found = [PLACE.fullmatch(part.strip()) for part in text.removesuffix(".").split(";")]
    if not all(found):
        raise Wrong(f"class/source/{name}.txt: Proved is not of the form NAME, NAME in FILE; NAME in FILE")
    return {place[2]: place[1].split(", ") for place in found}


def shaped(name, log):
    """Raises where a log is not such that a class can be led through it."""
    count = sum(not is_silent(line) for line in log)
    wide = [line for line in log if line.startswith("#") and len(line) > WIDTH]
    if not FEWEST <= count <= MOST:
        raise Wrong(f"class/source/{name}.txt: {count} lines are answered, and an exercise has {FEWEST} to {MOST}")
    if wide or not log[0].startswith("# Exercise "):
        raise Wrong(f"class/source/{name}.txt: {'a comment is too wide: ' + wide[0] if wide else 'the first line is no title'}")


def lesson(source):
    """The exercise of one source."""
    name = source.stem
    text = source.read_text().replace("\nstation\n", f"\n{STATION.read_text()}")
    try:
        log, answers = told(text)
    except Wrong as wrong:
        raise Wrong(str(wrong).replace("story.txt", f"class/{name}.log", 1)) from None
    shaped(name, log)
    *leading, (word, text, _) = spoken(log) or [("", "", 0)]
    if word != "Proved":
        raise Wrong(f"class/source/{name}.txt does not end with where it is proved")
    return Lesson(name, log, answers, questions(name, leading), proved(name, text))


def lessons():
    """All exercises, in their order."""
    return [lesson(source) for source in sorted(SOURCES.glob("[0-9]*.txt"))]
