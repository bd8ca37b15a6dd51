"""Makes the console's story from story.txt: the script, the answers to it, their picture, and the picture of its first two acts for README.

  python3 tests/story/make.py --write    writes crates/console/stdin, crates/console/stdout, docs/story.svg and docs/shed.svg
  python3 tests/story/make.py --check    writes nothing; fails, and names the first difference, where a file differs

story.txt is the script, but that a box is made there by a line of its own (`box wind 0101 "wind box" start 000100`; it becomes the comment that
names the box in the picture), that what a box sends is named there (`hear humidity segment 2 resent`; boxes.py has the forms of both), likewise
what was handed up from it (`readings humidity`; `changed` has the forms) and what its maker has sent in of it (`vet humidity`; `on_bench` has them),
and that `=>` may stand behind a command, with words of its answer: they must stand in the answer in that order, `forward` exactly where something is
forwarded. The answers are those of the independent model, which
the console itself is held to by `rt ci`.
"""
import subprocess
import sys
import tempfile
from itertools import zip_longest
from pathlib import Path

HERE = Path(__file__).resolve().parent
ROOT = HERE.parents[1]
sys.path.insert(0, str(ROOT / "tests" / "independent"))

from boxes import Unknown, from_line  # noqa: E402
from language import Console  # noqa: E402
from transport import ACCESS_SEGMENT  # noqa: E402

SCRIPT, ANSWERS, PICTURE, FIRST = (ROOT / name for name in ("crates/console/stdin", "crates/console/stdout", "docs/story.svg", "docs/shed.svg"))
# Where the first two acts end.
THIRD_ACT = "\n# 3. "


class Wrong(Exception):
    """A line of story.txt that cannot be told."""


def number(text, most):
    """A hexadecimal number of story.txt."""
    if set(text) - set("0123456789abcdef") or int(text, 16) > most:
        raise Wrong(f"{text} is no number from 0 to {most:x}")
    return int(text, 16)


def sent(box, words, last):
    """The PDU that these words name; `last` is the last one that the station sent."""
    match words:
        case ["segment", place, *how]:
            return box.segment(number(place, 31), " ".join(how))
        case ["status", ttl, dst]:
            return box.status(number(ttl, 0x7F), number(dst, 0xFFFF))
        case ["label", ttl, name]:
            return box.label(number(ttl, 0x7F), name)
        case ["first", when, *how]:
            return box.first(when, " ".join(how))
        case ["recorded"]:
            return box.recorded()
        case ["echo"]:
            return box.echo(last)
    raise Unknown(" ".join(words))


def changed(message, words):
    """What was handed up from a box: as it is, without its last octets, or with zeros for the octets that one segment brought."""
    match words:
        case []:
            return message
        case ["cut", count]:
            return message[:len(message) - number(count, len(message))]
        case ["hole", place]:
            start = ACCESS_SEGMENT * number(place, (len(message) - 1) // ACCESS_SEGMENT)
            hole = message[start:start + ACCESS_SEGMENT]
            return message[:start] + bytes(len(hole)) + message[start + len(hole):]
    raise Wrong(f"a message cannot be read {' '.join(words)}")


def read(words, shed, messages):
    """The console's line for a `readings` of story.txt: of a box's message, or of octets as they stand there."""
    if not words or words[0] not in shed:
        return " ".join(["readings", *words])
    if words[0] not in messages:
        raise Wrong(f"nothing of {words[0]} has been handed up")
    return f"readings {changed(messages[words[0]], words[1:]).hex() or '-'}"


def on_bench(box, words):
    """The transport PDUs of a box's long message: as they are; without the last of them; without one; or with SeqZero counting on, as SEQ does."""
    match words:
        case []:
            return box.segments
        case ["cut", count]:
            return box.segments[:len(box.segments) - number(count, len(box.segments))]
        case ["hole", place] if number(place, 31) < len(box.segments):
            return box.segments[:number(place, 31)] + box.segments[number(place, 31) + 1:]
        case ["counting"]:
            return box.counting()
    raise Wrong(f"segments cannot be vetted {' '.join(words)}")


def vetted(words, shed):
    """The console's line for a `vet` of story.txt: of a box's segments, or of PDUs as they stand there."""
    if not words or words[0] not in shed:
        return " ".join(["vet", *words])
    if not shed[words[0]].segments:
        raise Wrong(f"{words[0]} has no message in segments")
    return " ".join(["vet 0", *(pdu.hex() for pdu in on_bench(shed[words[0]], words[1:]))])


def spoken(line, shed, messages, last):
    """The console's line for a command of story.txt."""
    words = line.split()
    if words[0] == "readings":
        return read(words[1:], shed, messages)
    if words[0] == "vet":
        return vetted(words[1:], shed)
    if words[0] != "hear":
        return line
    if len(words) < 2 or words[1] not in shed:
        raise Wrong("hear needs the name of a box, and a line before it that makes the box")
    try:
        return "hear " + sent(shed[words[1]], words[2:], last).hex()
    except Unknown as unknown:
        raise Wrong(f"{words[1]} cannot send: {unknown}") from None


def boxed(line, shed):
    """Puts a box into the shed; gives the comment that names it."""
    try:
        name, box = from_line(line, shed)
    except Unknown as unknown:
        raise Wrong(unknown) from None
    shed[name] = box
    return f"# box {box.src:04x}: {box.words}"


def fits(wanted, answer):
    """Whether the wanted words stand in the answer in their order, and `forward` in both or in none."""
    rest = iter(answer.split())
    return all(word in rest for word in wanted) and ("forward" in wanted) == ("forward" in answer.split())


def told(text):
    """The script and the answers, as lines; `messages` holds what was handed up last from each box, `last` the last PDU that the station sent."""
    shed, console, script, answers, messages, last = {}, Console(), [], [], {}, b""
    for at, line in enumerate(text.splitlines(), 1):
        try:
            command, arrow, wanted = line.partition(" => ")
            if line.split()[:1] == ["box"]:
                line = boxed(line, shed)
            elif line and not line.startswith("#"):
                line = spoken(command, shed, messages, last)
            answer = console.answer(line.encode())
            if command.startswith("hear ") and " message " in answer[0]:
                messages[command.split()[1]] = bytes.fromhex(answer[0].split(" message ")[1].split()[0])
            if answer and answer[0].startswith(("sent ", "started ")):
                last = bytes.fromhex(answer[0].split()[1])
            if answer == ["unread"] or arrow and not fits(wanted.split(), answer[0]):
                raise Wrong(f"the answer is: {answer[0]}")
        except Wrong as wrong:
            raise Wrong(f"story.txt, line {at}: {wrong}") from None
        script.append(line)
        answers += answer
    return script, answers


def picture(script, answers):
    """What bin/picture draws of a script and its answers, both as texts."""
    with tempfile.TemporaryDirectory() as name:
        files = Path(name) / "script", Path(name) / "answers"
        for file, text in zip(files, (script, answers)):
            file.write_text(text)
        run = subprocess.run([str(ROOT / "bin" / "picture"), *map(str, files)], capture_output=True, text=True, check=False)
    if run.returncode:
        raise Wrong(run.stderr.strip())
    return run.stdout


def made():
    """The text of each file."""
    text = (HERE / "story.txt").read_text()
    if THIRD_ACT not in text:
        raise Wrong("story.txt has no third act")
    whole, begun = (["\n".join(lines) + "\n" for lines in told(part)] for part in (text, text.partition(THIRD_ACT)[0]))
    return {SCRIPT: whole[0], ANSWERS: whole[1], PICTURE: picture(*whole), FIRST: picture(*begun)}


def difference(file, text):
    """Where a file differs from the text, or None."""
    name = file.relative_to(ROOT)
    if not file.exists():
        return f"{name} is not there"
    lines = file.read_bytes().decode("utf-8", "replace").split("\n")
    for at, (has, wanted) in enumerate(zip_longest(lines, text.split("\n")), 1):
        if has != wanted:
            return f"{name}, line {at}: has {has!r}, should be {wanted!r}"
    return None


def main():
    if sys.argv[1:] not in (["--write"], ["--check"]):
        print("use: python3 tests/story/make.py --write | --check", file=sys.stderr)
        return 2
    try:
        files = made()
        if sys.argv[1] == "--write":
            for file, text in files.items():
                file.write_text(text)
    except (Wrong, OSError) as wrong:
        print(f"make.py: {wrong}", file=sys.stderr)
        return 2
    differences = [found for found in (difference(*each) for each in files.items()) if found]
    for found in differences:
        print(found)
    if not differences:
        script, answers = (files[file].count("\n") for file in (SCRIPT, ANSWERS))
        print(f"{script} lines of the story, {answers} of the model's answers and the picture are those kept")
    return 1 if differences else 0


if __name__ == "__main__":
    sys.exit(main())
