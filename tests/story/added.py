"""Checks that a box is added to the story by its text alone: a copy of story.txt gets one more box, and a wrong line gets a word with its number.

  python3 tests/story/added.py

The copy is told by make.py, which reads no other file for it.
"""
import sys

import make

# A box behind the last that story.txt makes, and what it does at the story's end.
BOX = 'box lamp 0401 "lamp" start 000700 long 0075 temperature 31.25 unknown -4.50 0076 humidity 12.00'
ACT = ("hear lamp segment 1 => stored 0401 00000002 1 0", "ack 0 401 => sent", "hear lamp echo => refused 22 1 0", "hear lamp segment 1 resent => repeat 0401 00000002 1 0",
       "hear lamp segment 0 => access 0401 0001 000700 1 1", "readings lamp => readings 4 0075 31.25 0075 unknown 0075 -4.50 0076 12.00",
       "vet lamp => approved", "vet lamp cut 1 => refused 27", "vet lamp cut 2 => refused 27", "vet lamp hole 0 => refused 26 at 0",
       "vet lamp hole 1 => refused 27", "vet lamp counting => refused 26 at 1", "vet 1 => refused 27")
# What the picture shows of it.
DRAWN = (
    ">lamp</text>",
    ">0401</text>",
    "stored from lamp (0401), message 000700: segment 1",
    "acknowledgement to lamp (0401), message 000700: it names place 1",
    "repeat from lamp (0401), message 000700: place 1",
    "handed up from lamp (0401), message 000700: access, 17 octets",
    "4 records from lamp (0401)",
    ">31.25 &#176;C<",
    ">12.00 %<",
    "approved: an access message of 21 octets in segments; 2 PDUs vetted, not heard",
    "refused 26: no message has such a segment there, at place 1; 2 PDUs vetted, not heard",
)
START = 'box lamp 0401 "lamp" start 000700'
# Wrong lines, each with words of what is said about it.
WRONG = {
    "box": "a box is made by",
    "box lamp": "a box is made by",
    'box lamp 401 "lamp" start 000700': "a box is made by",
    "box lamp 0401 start 000700": "a box is made by",
    'box lamp 0401 "" start 000700': "a box is made by",
    'box lamp 0401 "lamp"': "a box is made by",
    f"{START} long": "a box is made by",
    f"{START} before 0075 temperature 1.00": "a box is made by",
    f" {START}": "a box is made by",
    f"{START} => ok": "a box is made by",
    'box wind 0401 "lamp" start 000700': "there is a box wind already",
    'box lamp 0201 "lamp" start 000700': "0201 is no box's address, or it is taken",
    'box lamp 0001 "lamp" start 000700': "0001 is no box's address",
    'box lamp 8000 "lamp" start 000700': "8000 is no box's address",
    'box lamp 0000 "lamp" start 000700': "0000 is no box's address",
    f"{START} long warm 21.40": "warm stands where a property",
    f"{START} long 0075": "nothing stands behind property 0075",
    f"{START} long 0075 pressure 21.40": "pressure stands behind property 0075",
    f"{START} long 0075 temperature": "property 0075 has no value",
    f"{START} long 0075 temperature 21.4": "21.4 is no temperature: it is a number with two decimals",
    f"{START} long 0075 temperature 21,40": "21,40 is no temperature",
    f"{START} long 0075 temperature 327.68": "327.68 is no temperature: two octets do not hold it",
    f"{START} long 0076 humidity -0.01": "-0.01 is no humidity: two octets do not hold it",
    f"{START} long 0a1e raw": "nothing is not 1 to 127 octets",
    f"{START} long 0a1e raw abc": "abc is not 1 to 127 octets",
    f"{START} long 0075 temperature{' 1.00' * 95}": "381 octets is longer than 380",
    f"{START} before 0075 temperature 1.00 2.00 3.00 now 0075 temperature 1.00": "13 octets is longer than 11",
    "hear lamp segment 0": "hear needs the name of a box",
    "vet wind": "wind has no message in segments",
    "vet humidity hole 4": "segments cannot be vetted hole 4",
    "vet humidity cut 5": "5 is no number from 0 to 4",
    "vet humidity backwards": "segments cannot be vetted backwards",
    "vet lamp": "the answer is: unread",
    f"{START}\nhear lamp segment 0": "lamp cannot send: segment 0",
    f"{START}\nhear lamp echo twice": "lamp cannot send: echo twice",
    f"{START}\naccess 0 401 0 0 0 4 52\nhear lamp echo": "lamp cannot send: echo, of a PDU with TTL 0",
    f"{START}\nnetkey {'00' * 16}\nelements 1 0\nsetup\ncontrol 0 401 - 0 1 -\nhear lamp echo": "lamp cannot send: echo, before the station has sent",
    'box lamp 0401 "lamp" start ffffff\nhear lamp status 5 1\nhear lamp status 5 1': "lamp cannot send: its numbers end with ffffff",
    'box lamp 0401 "lamp" start fffffe long 0075 temperature 1.00 2.00 3.00 4.00 5.00 6.00': "its message needs more",
}


def told(text, wanted):
    """Says what a story lacks that should be in its picture, or its word where it cannot be told."""
    try:
        script, answers = ("\n".join(lines) + "\n" for lines in make.told(text))
        picture = make.picture(script, answers)
    except make.Wrong as wrong:
        return [str(wrong)]
    return [f"the picture lacks {words}" for words in wanted if words not in picture]


def refused(text, words):
    """Whether the story is refused with these words about its last line."""
    try:
        make.told(text)
    except make.Wrong as wrong:
        return str(wrong).startswith(f"story.txt, line {len(text.splitlines())}: ") and words in str(wrong)
    return False


def main():
    text = (make.HERE / "story.txt").read_text()
    lines = text.splitlines()
    last = max(at for at, line in enumerate(lines) if line.startswith("box "))
    with_box = "\n".join([*lines[:last + 1], BOX, *lines[last + 1:], *ACT])
    faults = told(with_box, DRAWN)
    before, after = (make.told(story) for story in (text, with_box))
    kept = [line for line in after[0] if line in before[0]]
    faults += ["a line of the story is lost"] if kept != before[0] else []
    faults += ["an answer of the story is changed"] if after[1][:len(before[1])] != before[1] else []
    faults += [f"no word about its line, or another: {line}" for line, words in WRONG.items() if not refused(f"{text}{line}", words)]
    for fault in faults:
        print(fault)
    if not faults:
        print(f"a box is added by {1 + len(ACT)} lines of story.txt alone, {len(DRAWN)} things of it are in the picture; {len(WRONG)} wrong lines get a word")
    return 1 if faults else 0


if __name__ == "__main__":
    sys.exit(main())
