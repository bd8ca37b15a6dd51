"""What a log of the console and its answers show, step by step, as plain data for the page that bin/class writes: a step for each answered line.

The rows are those of the picture (rows.py), and a place of a message is what the picture makes of it (drawing.kind_of). Beyond them a step has the log's
comments as narration, words for the lines of which the picture has no row, a refusal's sentence, and what was read; and of each property that the site has
named there are the records heard, for a plot.
"""
import re
from dataclasses import dataclass, field

from drawing import kind_of
from exchange import exchanged
from explained import Explained
from forms import FORMS, LABEL
from hints import shown
from readings_in import ASKED, HANDED, is_put
from refusals import WORDS
from rows import HEADING, NAME, OWN, UNITS, Row, Story, listed, title, written

# The letter that stands for what a place of a message is.
PLACES = {"new": "n", "filled": "f", "missing": "m", "again": "a", "named": "d", "whole": "w"}
# What a line makes of the message that it is about.
STATES = {"handed": "handed up", "repeat": "repeated: nothing new", "acknowledging": "acknowledged: these places are named",
          "acknowledged": "acknowledged: these places are named"}
# A line is shown up to so many letters.
LONGEST = 1200
FORWARDED, REFUSED = re.compile(r" forward ([0-9a-f]+)$"), re.compile(r"refused (\d+)")
PROPERTY = re.compile(r"property ([0-9A-Fa-f]+) (\w+)")


@dataclass
class Step:
    """One answered line: its number in the log, whether it was put in, its row, and what holds behind it: open messages, doubts, names of properties."""
    line: int
    put: bool
    command: str
    answers: list
    said: list
    chapter: int
    row: Row = None
    open: dict = field(default_factory=dict)
    doubt: frozenset = frozenset()
    names: dict = field(default_factory=dict)
    heard: bool = False


def visible(line):
    """A line as it can be shown: what is not ASCII or not printable by its number, and not too long."""
    plain = "".join(letter if " " <= letter <= "~" else f"\\x{ord(letter):02x}" for letter in line[:LONGEST])
    return plain + (f" .. and {len(line) - LONGEST} octets more" if len(line) > LONGEST else "")


def filled_in(form, values):
    """What a line gives, with the values in the place of its fields' names, and to which label, if to one."""
    found = form.gives
    for each, value in zip(form.fields, values):
        if each.labels and value.startswith(LABEL):
            found += f" to the label {int(value[len(LABEL):], 16)}"
        found = re.sub(rf"\b{re.escape(each.name)}\b", lambda _, value=value: value, found)
    return found


def plainly(command, answer, unread):
    """Words for a line of which the picture has no row."""
    if unread:
        meant = f" Probably it is meant as: {shown(unread.meant)}" if unread.meant else ""
        return f"unread: {unread.cause}. {unread.advice}.{meant}"
    word, *values = command.split(" ")
    gives = filled_in(FORMS[word], values)
    if refused := REFUSED.match(answer):
        return f"refused {refused[1]}: {WORDS.get(int(refused[1]), '')} ({word}: {gives})"
    if answer.startswith("started "):
        return f"{gives}: segment 0 of {int(answer.split()[-1], 16)} goes out"
    return gives + {"ok": ": taken", "sent": ": it goes out", "given": ": done"}.get(answer.split(" ")[0], "")


def paragraphs(comments):
    """The words of comments: a new paragraph behind an empty line or comment, and where a line ends with a sentence's end."""
    found, goes_on = [], False
    for comment in comments:
        words = written(comment.lstrip("#"))
        if words and goes_on:
            found[-1] += f" {words}"
        elif words:
            found.append(words)
        goes_on = bool(words) and not words.endswith((".", "!", "?"))
    return found


class Scene:
    """Follows a log: its steps, its chapters, and of each named property the records heard."""

    def __init__(self, called):
        self.story, self.explained, self.names = Story(called), Explained(), {}
        self.steps, self.chapters, self.plots, self.waiting = [], [], {}, set()

    def tell(self, step):
        """One more line with its answers."""
        rows, answer = self.story.rows, step.answers[0]
        unread, before = self.explained.take(step.line, step.command, answer), len(rows)
        self.story.tell(step.line, step.command, step.answers)
        if len(rows) == before:
            kind = "unread" if unread else "refused" if answer.startswith("refused ") else "plain"
            self.story.add(step.line, plainly(step.command, answer, unread), kind)
        self.name(step.command, answer)
        step.row, step.names, step.open, step.doubt = rows[-1], self.names, dict(self.story.open), frozenset(self.story.doubt)
        if step.row.kind.startswith(("readings", "vetted")):
            step.row.boxes = {each.src: (each, each.bits) for each in step.open.values()}
        self.steps.append(step)
        self.read(step, answer)

    def name(self, command, answer):
        """Follows which properties are named; a step keeps the names that hold at its time."""
        named = PROPERTY.fullmatch(command)
        if named and answer == "ok":
            self.names = {**self.names, f"{int(named[1], 16):04x}": named[2]}
        elif command == "properties":
            self.names = {}

    def read(self, step, answer):
        """Plots the records of a message that was heard, once for each time that it is handed up."""
        if handed := HANDED.match(answer):
            self.waiting.add(handed[1])
        asked = ASKED.fullmatch(step.command)
        octets = asked and asked[1].lower()
        if octets not in self.story.senders:
            return
        step.heard = True
        if octets in self.waiting:
            self.waiting.discard(octets)
            for cell in step.row.cells:
                if cell.property in step.names:
                    key = cell.property, step.names[cell.property]
                    self.plots.setdefault(key, []).append([len(self.steps) - 1, self.story.senders[octets], *said_of(cell)])


def said_of(cell):
    """What a record says: its kind, and its value without unit, or its word."""
    return cell.kind, cell.words.split(" ")[0] if cell.kind == "value" else cell.words


def state_of(step, message):
    """A message in a few words behind a step."""
    if message is step.row.message and step.row.kind in STATES:
        return STATES[step.row.kind]
    if step.open.get(message.src) is not message:
        return ""
    return "perhaps ended: no answer tells" if message.src in step.doubt else "session open"


def message_data(step, message, bits):
    """A message with what each of its places is."""
    kinds = (PLACES[kind_of(step.row, message, bits, 1 << place)] for place in range(message.places))
    return {"src": message.src, "auth": message.auth, "places": "".join(kinds), "more": not message.count, "state": state_of(step, message),
            "own": message is step.row.message}


def cell_data(step, cell):
    """A record with the name of its property, and its unit where it is a number."""
    kind, words = said_of(cell)
    name = step.names.get(cell.property, "")
    return {"property": cell.property, "name": name, "kind": kind, "words": words, "unit": UNITS.get(name, "") if kind == "value" else ""}


def step_data(step, order):
    """A step as the page has it; what is empty is left out."""
    boxes = sorted(step.row.boxes.items(), key=lambda item: order.setdefault(item[0], len(order)))
    answer = step.answers[0]
    refused, forwarded = REFUSED.match(answer), FORWARDED.search(answer)
    found = {"line": step.line, "put": step.put, "command": visible(step.command), "answers": step.answers, "words": step.row.words,
             "kind": step.row.kind, "said": step.said, "chapter": step.chapter, "messages": [message_data(step, *box) for _, box in boxes],
             "cells": [cell_data(step, cell) for cell in step.row.cells], "refused": int(refused[1]) if refused else 0,
             "forwarded": forwarded[1] if forwarded else "", "unheard": step.row.kind.startswith("readings") and not step.heard}
    return {key: value for key, value in found.items() if value or key in ("line", "chapter")}


def notes_on(scene, count, taken):
    """What there is to say about the whole log before it is looked at."""
    found, read = [], any(step.row.kind != "unread" for step in scene.steps)
    if not read and not any("receiver" in cause for cause in scene.explained.causes):
        found.append(f"The console reads none of the {count:,} lines that it was given: this is no log of the console, or a damaged one.")
    elif not scene.explained.ready:
        found.append("No receiver was set up: no setup of this log answered ready. So nothing was heard, and every line that needs a receiver is unread.")
    found += [f"Taken off the log: {what}." for what in taken]
    found += [line.strip() for line in scene.explained.told()]
    put = sum(step.put for step in scene.steps)
    if put:
        found.append(f"The log hands up {put} Sensor Status message{'' if put == 1 else 's'} without asking for the readings: "
                     f"{'this line was' if put == 1 else 'these lines were'} put in, each behind its message and under its number.")
    return found


def end_of(scene):
    """What is left undone where the log ends."""
    for message in scene.story.open.values():
        if message.src not in scene.story.doubt:
            yield f"The log ends here, and {scene.story.named(message)} is not complete: {listed(message.bits)} came. Nothing of it was handed up."


def followed(log, answers, numbers, called):
    """The scene of a log, and the comments behind its last step."""
    scene, comments = Scene(called), []
    found = {number: (line, said) for number, line, said in exchanged(log, answers)}
    for at, line in enumerate(log, 1):
        if heading := HEADING.fullmatch(line):
            scene.chapters.append({"words": written(heading[1]), "step": len(scene.steps)})
            comments.append("")
        elif at in found:
            step = Step(numbers[at - 1], is_put(numbers, at), *found[at], paragraphs(comments), len(scene.chapters) - 1)
            scene.tell(step)
            comments = []
        elif not NAME.fullmatch(line) and not (at == 1 and title(log)):
            comments.append(line)
    return scene, paragraphs(comments)


def data(given, called, name, sentences):
    """All that the page shows of a log that was answered; `sentences` has that of each refusal."""
    scene, after = followed(given.log, given.answers, given.numbers, called)
    order = {}
    steps = [step_data(step, order) for step in scene.steps]
    met = {step["refused"] for step in steps if "refused" in step}
    return {"title": title(given.log) or name, "log": name, "lines": given.numbers[-1] if given.numbers else 0, "boxes": called | {OWN: "this station"},
            "notes": notes_on(scene, len(steps), given.taken), "after": after + list(end_of(scene)),
            "chapters": [chapter for chapter in scene.chapters if chapter["step"] < len(steps)], "steps": steps,
            "sentences": {number: words for number, words in sentences.items() if number in met},
            "plots": [{"property": of, "name": kind, "unit": UNITS[kind], "records": records} for (of, kind), records in scene.plots.items()]}
