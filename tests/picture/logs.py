"""Logs to draw: the story's, those of tests/independent, one whose readings are hard to draw, and short ones, told as story.txt is."""
import sys

import program
import script
import transport

sys.path.append(str(program.ROOT / "tests" / "story"))

import make  # noqa: E402

SEEDS = (1, 2, 3)
# Messages whose readings are hard to draw: most records, most numbers, widest values, each kind of record, no record, and each fault.
HARD = ("52" + "000000" * 126, "52" + "a20e4d95" * 94, "52fd1e0a" + "5a" * 127 + "c20effff" + "fd1f0a" + "a5" * 127, "52" + "031e0ae703" * 75,
        "52c20ec012c20effffc20e3c86c20e0627031e0ae703ff1e0aa20effffa20e0080a20e0180", "52C20EFFFF", "52", "-", "c1ffff03", "52c20e", "5200", "52c00e30")
# A station as the story's, before which a log's title may stand.
KEY = "63964771734fbd76e3b40519d1d94a48"
STATION = f"""netkey 7dd7364cd842ad18c17c2b820c84c3d6
appkey 0 {KEY}
elements 1 40
ivindex 12345678 0
setup => ready
"""
RECORDS = "long 0076 humidity 48.00 48.20 48.55 48.90 49.10"
# One source; repeats of which the answer tells the place, and of which it does not; an acknowledgement while it speaks and behind it.
ONE = f"""# One box
{STATION}box one 0201 "humidity box" start 000a10 {RECORDS}
hear one segment 1 => stored 00000002
hear one segment 1 resent => repeat 00000002
ack 0 201 => sent
hear one segment 0 => stored 00000003
hear one segment 0 resent => repeat 00000003
ack 0 201 => sent
hear one segment 2 => access
hear one segment 2 resent => repeat 00000007
ack 0 201 => sent
readings one => readings 5
"""
# A message of one segment, repeated: the answer tells the place. An acknowledgement that has nothing to name is refused and draws nothing.
SHORT = f"""{STATION}box one 0201 "lamp" start 000a10 long 0076 humidity 48.00
ack 0 201 => refused 14
hear one segment 0 => access
hear one segment 0 resent => repeat 00000001
ack 0 201 => sent
"""
# Comments that are drawn, and some that are not: a title that wraps and has letters of other scripts, headings, names before and behind their use.
COMMENTS = f"""# A title with <marks> & "quotes", a \u00b0 and a \u6c17 and a tab\tand a bell\x07, too long for one line: {'and so on, ' * 30}
# 1. Names & <places>
# not a heading: 2. because of the words before it
#2. A heading of {'many words, ' * 20}
{STATION}box one 0201 "first name" start 000a10 {RECORDS}
box two 0202 "a name that is far too long for the words of a row" start 000a10 {RECORDS}
hear one segment 0 => stored
hear two segment 0 => stored
# 10. The last act
# box 201: second name
# box 0203: never heard
# box 0204 without a colon
"""
# The widest words of a row that has no boxes.
WIDE = f"""{STATION}property 76 humidity
box one 0201 "{'W ' * 11}W" start 000a10 long 0076 raw 30
hear one segment 0 => access
readings one => refused 21
"""
# Lists that are vetted while a message comes. One is approved whose octets are a Sensor Status: read, it is still no message that was heard.
VETTED = f"""# On the bench
{STATION}property 76 humidity
box one 0201 "humidity box" start 000a10 {RECORDS}
hear one segment 0 => stored
vet one => approved
vet one hole 1 => refused 26 at 1
vet one cut 1 => refused 27
vet 1 => refused 27
vet 1 8100000052 => approved message 52
vet 0 c000000052c20ec012 => approved message 52c20ec012
readings 52c20ec012 => readings 1
hear one segment 1 => stored
room 1d 17f
vet one => refused 16
room 1d 180
hear one segment 2 => access
vet one counting => refused 26 at 1
"""
# First lines that are no title.
UNTITLED = ("# 1. An act\n", "# box 0201: humidity box\n", "#\n# Behind an empty comment\n", "\n# Behind an empty line\n", "properties\n# Behind a command\n")


def said(lines):
    """The steps of a log with these lines, which the model answers."""
    found = script.Script(0)
    for line in lines:
        found.say(line)
    return found.steps


def told(text):
    """The steps of a log that is told as story.txt is."""
    return said(line.encode() for line in make.told(text)[0])


def crowd():
    """Nine sources that speak at once."""
    boxes = [f'box box{at} 030{at} "humidity box {at}" start 000a10 {RECORDS}' for at in range(1, 10)]
    heard = [f"hear box{at} segment 0 => {'stored' if at < 9 else 'refused 12'}" for at in range(1, 10)]
    return told("\n".join([STATION.strip(), *boxes, *heard, "drop 301 => given up", "hear box9 segment 1 => stored", "hear box9 segment 0 resent => stored"]))


def hard():
    """The messages of HARD read, before and behind the naming of two properties; and one that is too long to be read."""
    readings = [f"readings {message}" for message in HARD]
    return said([*readings, "property 75 temperature", "property 76 humidity", *readings, f"readings 52{'00' * 380}"])


def freed():
    """Acknowledgements of which the answers do not tell the places: behind a message of one PDU, and behind a refusal 13; `show` or a repeat tells."""
    boxes = f'{STATION}box one 0201 "one" start 000a10 {RECORDS}\nbox two 0202 "two" start 000a10 {RECORDS}\n'
    begun = "hear one segment 0\nhear one segment 2\nhear two segment 0\nhear two segment 2\n"
    told_again = "ack 0 202\nshow\nack 0 202\n"
    right = [f"{boxes}{begun}{whole}hear two status 5 1 => access\n{told_again}" for whole in ("", "hear two segment 1 => access\n")]
    # under another key the first box's message is refused 13
    refused = make.told(f"{boxes}{begun}hear one segment 1\nack 0 202\nhear two segment 0 resent\nack 0 202\n{told_again}")[0]
    lines = [line for text in right for line in make.told(text)[0]] + [line.replace(KEY, KEY[::-1]) for line in refused]
    return said(line.encode() for line in lines)


def given_up():
    """A message of three segments is given up, and another begins with its SEQ: in one PDU, and in two segments."""
    first = f'{STATION}box one 0201 "one" start 000a10'
    begun = make.told(f"{first} {RECORDS}\nhear one segment 2 => stored 00000004\ndrop 201 => given up")[0]
    whole = make.told(f"{first}\nhear one status 5 1 => access")[0][-1:]
    parts = make.told(f"{first} long 0076 humidity 48.00 48.20 48.55\nhear one segment 0 => stored\nhear one segment 1 => access")[0][-2:]
    return said(line.encode() for line in [*begun, *whole, *begun, *parts])


def benched():
    """Lists that are vetted, also the longest, one at fault in its last place and one with a PDU too many; and lines that are unread."""
    most = transport.cut(0, 0x66, 0, 0, bytes(384))
    lists = (most, most[:31] + [most[31][:4]], [*most, b"\0"], most[:31])
    lines = [" ".join(["vet 0", *(pdu.hex() for pdu in each)]).encode() for each in lists]
    return said([*(line.encode() for line in make.told(VETTED)[0]), *lines, b"vet", b"vet 2", b"vet 0 0", b"vet 00000001 " + b"81" * 256])


def story():
    """The story's script."""
    return said((program.ROOT / "crates" / "console" / "stdin").read_bytes().splitlines())


LOGS = {
    "no line": lambda: said([]), "no source": lambda: told(f"# No source\n{STATION}properties\n"), "one source": lambda: told(ONE),
    "one segment": lambda: told(SHORT), "nine sources": crowd, "wide words": lambda: told(WIDE), "comments": lambda: told(COMMENTS),
    "hard readings": hard, "the bench": benched, "what is not told": freed, "given up": given_up, "the story": story,
    **{f"untitled {at}": lambda text=text: told(text) for at, text in enumerate(UNTITLED)},
    **{f"seed {seed}": lambda seed=seed: script.made(seed) for seed in SEEDS},
}
