"""Checks bin/picture on logs of the console: a row for each PDU heard, acknowledgement sent, message read and list vetted, with the boxes and cells
that the answers ask for; title, headings and names from the comments; no text cut off; and a clear word for wrong input.

  python3 tests/picture/check.py

logs.py has the logs; the console is bin/console, or the command of GOREPHAN_CONSOLE.
"""
import argparse
import re
import subprocess
import sys
import tempfile
import xml.etree.ElementTree as xml
from collections import Counter
from itertools import combinations, zip_longest
from pathlib import Path

sys.path.insert(0, str(Path(__file__).resolve().parents[1] / "independent"))

import drawn  # noqa: E402
import program  # noqa: E402
from drawn import SVG, Wrong, must  # noqa: E402
from language import Console  # noqa: E402
from logs import LOGS  # noqa: E402

# Which kind of row each answer to `hear` makes.
KINDS = {"refused": "refused", "stored": "stored", "repeat": "repeat", "access": "handed", "control": "handed", "acknowledgement": "acknowledged"}
# A record in an answer to `readings`: its property, and a number of a kind, a word, or octets.
RECORD = re.compile(r"\b(\w{4}) (?:(humidity|temperature) (\S+) \w{16}|(unknown|prohibited)|raw (\S+))")
# What an answer to `hear` says of a message: its source, IV Index and SEQ.
HEARD = re.compile(r" src (\w+) .*?iv (\w+) (?:auth|seq) (\w+)")
BITS = re.compile(r" bits (\w+)")
# How a row's words name a message.
NAMED = re.compile(r"from (?:.*\((\w{4})\)|(\w{4})), message (\w+(?: under \w+)?)")
UNITS, JUDGED = {"humidity": "%", "temperature": "°C"}, {"unknown": "not known", "prohibited": "prohibited"}
# What is no answer to a `readings` line, to a `hear` line, and to a `vet` line.
NO_ANSWERS = {
    "readings 52": ("ok", "refused 14", "readings", "readings 2 0076 unknown", "readings 0 0076 unknown", "readings 1 0076", "readings 0 0076 unsaid", ""),
    "hear 00": ("ok", "refused", "refused one", "stored src 0201", "repeat src 0201 iv 12345678 auth 000a10 bits zz trials 1 0",
                "access src 0201 dst 0001 net 0 key 0 iv 12345678 seq 000a10 trials 1 1", "acknowledgement src 0201 bits 00000001 done trials 1 0",
                "acknowledgement src 0201", ""),
    "vet 0 80": ("ok", "approved", "approved message", "approved message -", "approved message 0", "approved message 00 00", "refused 14", "refused 26",
                 "refused 26 at", "refused 26 at 1", "refused 26 at x", "refused 27 at 0", "refused 16 trials 0 0", ""),
}
# Of which acknowledgements sent the log tells the places.
PLACES = {"the story": "xxx", "one source": "xxx", "one segment": "x", "what is not told": "-x-x-xxx"}
LEGEND = {"comes with this PDU", "came before", "a hole: missing", "repeated: nothing new", "named by an acknowledgement", "handed up", "refused",
          "not completed: how many more is not known"}


def picture(*files):
    """What bin/picture makes of these files."""
    return subprocess.run([str(program.ROOT / "bin" / "picture"), *map(str, files)], capture_output=True, text=True, check=False)


def answers_to(steps, word):
    """Line and answer of each line with this command that was read."""
    return [(at, step.answers[0]) for at, step in enumerate(steps, 1) if step.line.startswith(word + b" ") and step.answers != ["unread"]]


# Comments


def comments(steps):
    """The comments by their lines, as one reads them."""
    found = {at: step.line.decode("utf-8", "replace") for at, step in enumerate(steps, 1) if step.line.startswith(b"#")}
    return {at: re.sub(r"[\x00-\x20]+", " ", line[1:]).strip() for at, line in found.items()}


def names(steps):
    """What each source is called."""
    found = [re.fullmatch(r"box (\w+): (.+)", words) for words in comments(steps).values()]
    return {name[1].rjust(4, "0"): name[2] for name in found if name}


def check_comments(steps, shown):
    """Title and headings are those of the comments; gives how many there are."""
    found = comments(steps)
    headings = {at: words for at, words in found.items() if re.match(r"\d+\. ", words)}
    title = "" if 1 in headings or found.get(1, "").startswith("box ") else found.get(1, "")
    has = " ".join(text.text for text in drawn.texts(shown, "title"))
    must(has == title, f"the title is {has!r}, not {title!r}")
    has = {at: drawn.words(row) for at, row in drawn.rows(shown).items() if drawn.kind(row) == "heading"}
    must(has == headings, f"the headings are {has}, not {headings}")
    return len(headings) + (title != "")


def check_heads(steps, shown):
    """Over each source's column stand its name and its address, from the top down; gives the number of names."""
    called, columns = names(steps), {}
    for text in drawn.texts(shown, "head"):
        if "title" not in drawn.kinds(text):
            columns.setdefault(float(text.get("x")), []).append((float(text.get("y")), text.text))
    heads = [" ".join(words for _, words in sorted(found)) for _, found in sorted(columns.items())][1:]
    sources = {found[1] for _, answer in answers_to(steps, b"hear") if (found := HEARD.search(answer))}
    own = {"station"} if any(answer.startswith("acknowledgement") for _, answer in answers_to(steps, b"hear")) else set()
    must({head.split()[-1] for head in heads} == sources | own, f"columns {heads} for the sources {sources}")
    for head in heads:
        src = head.split()[-1]
        must(head in ("this station", f"{called.get(src, '')} {src}".strip()), f"a column of {src} is headed {head}")
    return len(set(called) & sources)


# Boxes


def check_own(row, answer):
    """A row's boxes are the places that its answer names, and the words say which place is new, repeated or named."""
    bits, kind, words = int(BITS.search(answer)[1], 16), drawn.kind(row), drawn.words(row)
    must(drawn.bits(row, "new", "filled", "again", "named", "whole") == bits, f"{words}: other places than {bits:x}")
    again = drawn.bits(row, "again")
    if kind == "repeat":
        one = bits.bit_count() == 1
        must(again == (bits if one else 0), f"{words}: repeated is drawn as {again:x} of {bits:x}")
        must(("one of places" in words) == (not one), f"{words}: does not say what the answer tells")
    elif kind == "acknowledged":
        must(drawn.bits(row, "named") == bits and ("no place" in words) == (bits == 0), f"{words}: names other places than {bits:x}")
    must(kind == "repeat" or again == 0, f"{words}: drawn as repeated")


def check_holes(row):
    """A place that is missing is a hole: its box is of that kind, and its number is, too."""
    own, numbers = drawn.boxes(row)[1], drawn.texts(row, "place")
    must([text.text for text in numbers] == [str(place) for place in range(len(own))], f"{drawn.words(row)}: places {len(own)}")
    holes = ["missing" in drawn.kinds(rect) for rect in own]
    must(holes == ["hole" in drawn.kinds(text) for text in numbers], f"{drawn.words(row)}: a hole that is none")


def check_boxes(steps, shown):
    """Every row of a PDU heard shows its answer's places; a segment stored and a message handed up bring one new place; gives the number of rows."""
    rows, found = drawn.rows(shown), 0
    for at, answer in answers_to(steps, b"hear"):
        row = rows.get(at)
        must(row is not None and drawn.kind(row) == KINDS[answer.split()[0]], f"line {at}: no row of its kind")
        new = drawn.bits(row, "new").bit_count()
        must(new == (drawn.kind(row) in ("stored", "handed")), f"line {at}: {new} new boxes")
        must(drawn.kind(row) != "handed" or not drawn.bits(row, "missing"), f"line {at}: handed up with a hole")
        must(drawn.kind(row) != "refused" or not drawn.boxes(row)[1], f"line {at}: a refusal with boxes of its own")
        check_holes(row)
        if BITS.search(answer):
            check_own(row, answer)
            found += 1
    return found


def acknowledged(steps):
    """Line and places of each acknowledgement that is sent, by the model's own receiver."""
    console = Console()
    for at, step in enumerate(steps, 1):
        sent = console.answer(step.line)
        if step.line.startswith(b"ack ") and sent[0].startswith("sent"):
            receiver, src = console.receiver, int(step.line.split()[2], 16)
            slot = receiver.slot_of(src)
            yield at, receiver.sessions[slot].bits if slot is not None else (2 << receiver.entry_of(src).last[1]) - 1


def check_acknowledgements(steps, shown, which):
    """An acknowledgement that is sent has a row, with the places that it names, or with none; `which` has a letter for each, - where none are drawn."""
    rows, wanted = drawn.rows(shown), dict(acknowledged(steps))
    has = {at: row for at, row in rows.items() if drawn.kind(row) == "acknowledging"}
    must(set(has) == set(wanted), f"acknowledgements of the lines {sorted(has)}, not {sorted(wanted)}")
    drawn_where = "".join("x" if drawn.boxes(row)[1] else "-" for row in has.values())
    must(which in (None, drawn_where), f"places are drawn {drawn_where}, not {which}")
    for at, row in has.items():
        named, own = drawn.bits(row, "named"), drawn.boxes(row)[1]
        must(named == wanted[at] or not own, f"line {at}: names {named:x}, not {wanted[at]:x}")
        must(drawn.bits(row, "named", "missing") == (1 << len(own)) - 1, f"line {at}: a place neither named nor a hole")
        must(("it names" in drawn.words(row)) == bool(own), f"line {at}: {drawn.words(row)}")
        check_holes(row)
    return drawn_where.count("x"), len(has)


# Readings


def messages_read(steps):
    """Line, answer and sender of each message read: who sent such a message last, or nobody."""
    senders = {}
    for at, step in enumerate(steps, 1):
        answer = " ".join(step.answers[:1])
        if step.line.startswith(b"hear ") and " message " in answer:
            senders[answer.split(" message ")[1].split()[0]] = answer.split()[2]
        elif step.line.startswith(b"readings ") and answer != "unread":
            yield at, answer, senders.get(step.line.decode().split()[1].lower())


def wanted_cells(answer):
    """Kind, property and words of each cell that an answer asks for."""
    for of, kind, number, judged, octets in RECORD.findall(answer):
        if kind:
            yield "value", of, f"{number} {UNITS[kind]}"
        elif judged:
            yield judged, of, JUDGED[judged]
        else:
            yield "raw", of, "raw, empty" if octets == "-" else f"raw {octets}"


def drawn_cells(row):
    """Kind, property and words of each cell in a row: words of several lines are joined."""
    found = []
    for text in drawn.texts(row):
        match drawn.kinds(text):
            case ["of", kind]:
                found.append((kind, text.text, ""))
            case [kind] if found:
                must(kind == found[-1][0], f"words of the kind {kind} in a cell {found[-1][0]}")
                found[-1] = (*found[-1][:2], found[-1][2] + text.text)
    return found


def check_places(row, cells):
    """The cells lie in their row, none on another, and each text in one of them or before all."""
    band = drawn.place(row.find(f"{SVG}rect"))
    must(all(drawn.inside(cell, band) for cell in cells), "a cell outside its row")
    must(all(drawn.apart(*pair) for pair in combinations(cells, 2)), "a cell on another")
    for text in drawn.texts(row)[2:]:
        must(any(drawn.inside(drawn.spread(text), cell) for cell in cells), f"{text.text} is in no cell")


def check_words(row, answer, sender, called):
    """A row's class and its words say what was answered, and who sent what was read."""
    words = drawn.words(row)
    first = f"{int(answer.split()[1], 16)} record" if answer.startswith("readings") else answer
    must(words.startswith(first), f"{answer[:40]}: the row says {words}")
    whose = f" from {called[sender]} ({sender})" if sender in called else f" from {sender}"
    must(whose in words if sender else " from " not in words, f"of a message from {sender or 'nobody'} the row says {words}")
    must((row.get("class") == "row readings refused") == answer.startswith("refused"), f"{answer[:40]} in a row {row.get('class')}")


def check_cells(row, answer):
    """A row's cells are the answer's records; gives their number."""
    wanted, cells = list(wanted_cells(answer)), [rect for rect in row.findall(f"{SVG}rect") if "cell" in drawn.kinds(rect)]
    for has, should in zip_longest(drawn_cells(row), wanted):
        must(has == should, f"a cell {has} for {should}")
    kinds = [drawn.kinds(rect)[1] for rect in cells]
    must(kinds == [kind for kind, _, _ in wanted], f"cells drawn as {Counter(kinds)}")
    must(len(row.findall(f"{SVG}path")) == kinds.count("prohibited"), "not each prohibited value, and no other, is crossed")
    check_places(row, [drawn.place(rect) for rect in cells])
    return len(cells)


def check_readings(steps, shown):
    """The rows of messages read are those of the answers, in their order; gives the number of their cells."""
    rows = {at: row for at, row in drawn.rows(shown).items() if drawn.kind(row) == "readings"}
    called, count = names(steps), 0
    for (at, row), (line, answer, sender) in zip(rows.items(), messages_read(steps), strict=True):
        try:
            must(at == line, f"the row is of line {at}")
            check_words(row, answer, sender, called)
            count += check_cells(row, answer)
        except Wrong as wrong:
            raise Wrong(f"line {line}: {wrong}") from None
    return count


# Vetting


def words_of(line, answer):
    """How the words of a vetted list's row begin and end: a place is told in decimal."""
    _, ctl, *pdus = line.split(b" ")
    verdict, which, *rest = answer.split()
    end = f"; {len(pdus)} PDU{'' if len(pdus) == 1 else 's'} vetted, not heard"
    if verdict == "approved":
        return f"approved: {'a control' if int(ctl, 16) else 'an access'} message of {len(rest[0]) // 2} octets ", end
    return f"refused {which}: ", f", at place {int(rest[1], 16)}{end}" if which == "26" else end


def check_vetted(steps, shown):
    """Each list that was vetted has a row that says what was answered, and it has no box: nothing of it was heard; gives their number."""
    rows, wanted = {at: row for at, row in drawn.rows(shown).items() if drawn.kind(row) == "vetted"}, dict(answers_to(steps, b"vet"))
    must(list(rows) == list(wanted), f"lists vetted in the lines {list(rows)}, not {list(wanted)}")
    for at, row in rows.items():
        begin, end = words_of(steps[at - 1].line, wanted[at])
        must(drawn.words(row).startswith(begin) and drawn.words(row).endswith(end), f"line {at}: {wanted[at][:40]}: {drawn.words(row)}")
        must(not drawn.boxes(row)[0] and " from " not in drawn.words(row), f"line {at}: drawn as if it were heard")
        must(("refused" in drawn.kinds(row)) == wanted[at].startswith("refused"), f"line {at}: {wanted[at][:40]} in a row {row.get('class')}")
    return len(rows)


# Rows


def messages_heard(steps):
    """Line and message of each answer that names one: which setup, its source, the IV Index, and SEQ of SeqAuth."""
    setups = 0
    for at, step in enumerate(steps, 1):
        setups += step.answers == ["ready"]
        found = step.line.startswith(b"hear ") and HEARD.search(step.answers[0])
        if found and not step.answers[0].startswith("acknowledgement"):
            yield at, (setups, *found.groups())


def check_names(steps, shown):
    """The words name the source that the answer does; no two messages of a source have one name, though SEQs start again under another IV Index."""
    found, rows = {}, drawn.rows(shown)
    for line, message in messages_heard(steps):
        named = NAMED.search(drawn.words(rows[line]))
        must(named and (named[1] or named[2]) == message[1], f"line {line}: {drawn.words(rows[line])}, from {message[1]}")
        key = (message[0], message[1], named[3])
        must(found.setdefault(key, message) == message, f"line {line}: {named[0]} is {found[key]} and {message}")


def check_rows(steps, shown):
    """The rows are those of the answers; gives their number."""
    wanted = Counter(KINDS[answer.split()[0]] for _, answer in answers_to(steps, b"hear"))
    wanted["readings"] = len(answers_to(steps, b"readings"))
    wanted["vetted"] = len(answers_to(steps, b"vet"))
    found = Counter(map(drawn.kind, drawn.rows(shown).values()))
    for other in ("break", "heading", "acknowledging"):
        del found[other]
    must(found == wanted, f"rows {dict(found)} for answers {dict(wanted)}")
    must(LEGEND <= {text.text for text in drawn.texts(shown)}, "the legend lacks words")
    drawn.check_bands(shown)
    return len(drawn.rows(shown))


# Wrong input


def refused(*files):
    """The picture of these is refused with a word and status 2."""
    run = picture(*files)
    must(run.returncode == 2 and run.stderr.count("\n") == 1 and not run.stdout, f"{[file.name for file in files]}: status {run.returncode}, {run.stderr}")


def check_refusals(folder, text, answers):
    """Wrong input gets a word and status 2."""
    (folder / "short").write_text("\n".join(answers[:-5]) + "\n")
    (folder / "long").write_text("\n".join(answers) + "\nok\n")
    (folder / "other").write_text("\n".join("ok" for _ in answers) + "\n")
    (folder / "in").write_bytes(text)
    cases = ((), (folder / "in",), (folder / "in", folder / "nowhere"), (folder / "nowhere", folder / "in"), (folder / "in", folder / "short"),
             (folder / "in", folder / "long"), (folder / "in", folder / "other"), (folder, folder / "in"))
    for case in cases:
        refused(*case)
    for line, wrong in NO_ANSWERS.items():
        (folder / "line").write_text(f"{line}\n")
        for answer in wrong:
            (folder / "no answer").write_text(f"{answer}\n")
            refused(folder / "line", folder / "no answer")
    return len(cases) + sum(map(len, NO_ANSWERS.values()))


def check(name, steps, shown, counts):
    """All that one picture is held to, counted."""
    counts["texts"] += drawn.check_room(shown)
    counts["rows"] += check_rows(steps, shown)
    counts["comments"] += check_comments(steps, shown)
    counts["names"] += check_heads(steps, shown)
    counts["boxed"] += check_boxes(steps, shown)
    check_names(steps, shown)
    named, sent = check_acknowledgements(steps, shown, PLACES.get(name))
    counts.update(named=named, sent=sent, cells=check_readings(steps, shown), vetted=check_vetted(steps, shown))


def main():
    _, words = program.asked(argparse.ArgumentParser(description="Holds the pictures of the console's logs to their answers."))
    counts = Counter()
    try:
        with tempfile.TemporaryDirectory() as folder_name:
            folder = Path(folder_name)
            for name, make in LOGS.items():
                steps = make()
                text = program.text_of([step.line for step in steps])
                answers = program.answers(words, text)
                (folder / "log").write_bytes(text)
                (folder / "answers").write_text("".join(f"{answer}\n" for answer in answers))
                run = picture(folder / "log", folder / "answers")
                must(run.returncode == 0, run.stderr)
                check(name, steps, xml.fromstring(run.stdout), counts)
            name, counts["wrong"] = "wrong input", check_refusals(folder, text, answers)
    except Wrong as wrong:
        print(f"{name}: {wrong}")
        return 1
    print("{rows} rows of {pictures} pictures are those of the answers, {boxed} with the places that the answer names, {cells} cells and {vetted}"
          " lists vetted; {named} of {sent} acknowledgements sent show their places; {comments} titles and headings and {names} names are there; {texts} texts"
          " have room; {wrong} kinds of wrong input get a word and status 2".format(pictures=len(LOGS), **counts))
    return 0


if __name__ == "__main__":
    sys.exit(main())
