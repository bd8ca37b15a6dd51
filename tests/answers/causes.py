"""The table of docs/ANSWERS.md that says, command by command, what is refused 14, with lines that show it."""
from collections import namedtuple

from boxes import APPLICATION_KEY, NETWORK_KEY
from sealed import GROUP, LABEL, LABELLED, SETUP, acknowledgement, segment

# A cause and the limit, for the reader; the words that the independent model has for it; and cases, each lines of which the last is refused 14.
Row = namedtuple("Row", "word cause limit whys cases")
# What C alone can ask for; c/test.c tries each.
Told = namedtuple("Told", "word cause limit example")

NETKEY, APPKEY = f"netkey {NETWORK_KEY.hex()}", f"appkey 0 {APPLICATION_KEY.hex()}"
# A message in two segments, and one in one segment.
TWO, ONE = "access 0 201 - 0 0 4 000102030405060708090a0b", "access 0 201 - 0 0 8 52"
FIRST_SEQ = 0x40
UNSENDABLE = (("0", "DST unassigned"), ("8000", "DST virtual"), (f"{LABELLED:x}", "DST virtual, of a label that is held"), ("ff05", "DST reserved"))


def set_up(*lines):
    """A setup with these lines beside the station's."""
    return [*SETUP[:-1], *lines, "setup"]


def on_station(*lines):
    """These lines, asked of the station."""
    return [*SETUP, *lines]


def setup_rows():
    """What makes no receiver."""
    yield Row("setup", "no network key, or a fifth", "1 to 4", ["number of network keys"], [["elements 1 40", "setup"], set_up(*[NETKEY] * 3)])
    yield Row("setup", "a fifth application key", "0 to 4", ["number of application keys"], [set_up(*[APPKEY] * 4)])
    yield Row("setup", "an application key that is bound to a network key which is not there", "0 to the last network key's number",
              ["an application key bound to no network key"], [set_up(APPKEY.replace("appkey 0", "appkey 2"))])
    yield Row("setup", "no element, or a ninth", "1 to 8", ["number of elements"], [[NETKEY, "setup"], set_up("elements 1" + " 0" * 9)])
    yield Row("setup", "an element's address that is not unicast", "0001 to 7fff, also the last one",
              ["the first element's address", "the last element's address"], [set_up("elements 0 40"), set_up("elements 7fff 40 40")])
    yield Row("setup", "a next SEQ that is too great", "at most 1000000, with which none is left", ["a next SEQ too high"], [set_up("elements 1 1000001")])
    yield Row("setup", "a ninth group", "0 to 8", ["number of groups"], [set_up(*[f"group {GROUP:x}"] * 8)])
    yield Row("setup", "a group that is no group's address, or reserved", "c000 to feff, fffc to ffff", ["a group address that is none", "a reserved group"],
              [set_up("group 8001"), set_up("group ff05")])
    yield Row("setup", "a fifth label", "0 to 4, also equal ones", ["number of labels"], [set_up(*[f"label {LABEL.hex()}"] * 4)])
    yield Row("setup", "update flag 1 with IV Index 0", "flag 0, or an IV Index of 1 or more", ["flag 1 with IV Index 0"], [set_up("ivindex 0 1")])


def common_rows(word, behind, labels=""):
    """What access and control messages are both refused for; `behind` are the fields behind the network key, `labels` how DST can be a label."""
    def line(element="0", dst="201", ttl="-", net="0"):
        return on_station(f"{word} {element} {dst} {ttl} {net} {behind}")
    yield Row(word, "an element that is not there", "E counts from 0", ["no such element"], [line(element="1")])
    yield Row(word, "a network key that is not there", "K counts from 0", ["no such network key"], [line(net="2")])
    yield Row(word, "a DST that is 0, virtual, also of a label that is held, or reserved", "0001 to 7fff, c000 to feff, fffc to ffff" + labels,
              [why for _, why in UNSENDABLE], [line(dst=dst) for dst, _ in UNSENDABLE])
    yield Row(word, "a TTL that is 1, or above 7f", "-, 0, 2 to 7f", ["TTL 1", "TTL above 127"], [line(ttl="1"), line(ttl="80")])


def access_rows():
    """What is not sent as an access message."""
    yield from common_rows("access", "0 4 52", "; `label:I`")
    yield Row("access", "a label that is not there", "I counts from 0", ["no such label"], [on_station("access 0 label:1 - 0 0 4 52")])
    yield Row("access", "an application key that is not there", "J counts from 0", ["no such application key"], [on_station("access 0 201 - 0 1 4 52")])
    yield Row("access", "an application key that is bound to another network key", "K is the N of its `appkey`",
              ["the application key is bound to another network key"], [on_station("access 0 201 - 1 0 4 52")])
    yield Row("access", "the device key to a group or a label", "`dev` to 0001 to 7fff only",
              ["the device key to no unicast address", "the device key to a label"],
              [on_station(f"access 0 {GROUP:x} - 0 dev 4 52"), on_station("access 0 label:0 - 0 dev 4 52")])
    yield Row("access", "no octets, or too many", "1 to 380 with a TransMIC of 4, 1 to 376 with 8", ["no payload", "payload too long"],
              [on_station("access 0 201 - 0 0 4 -"), on_station("access 0 201 - 0 0 4 " + "52" * 381), on_station("access 0 201 - 0 0 8 " + "52" * 377)])
    yield Row("access", "a second message in segments, while one is kept", "1 to 11 octets with a TransMIC of 4 go whole, at any time",
              ["another message is kept"], [on_station(ONE, TWO), on_station(TWO, ONE)])


def control_rows():
    """What is not sent as a control message."""
    yield from common_rows("control", "1 -")
    yield Row("control", "a label", "an address: labels are for access messages", ["control to a label"], [on_station("control 0 label:0 - 0 1 -")])
    yield Row("control", "an opcode that is 0, or above 7f", "1 to 7f", ["opcode 0", "opcode above 7f"],
              [on_station("control 0 201 - 0 0 -"), on_station("control 0 201 - 0 80 -")])
    yield Row("control", "too many octets", "0 to 256", ["parameters too long"], [on_station("control 0 201 - 0 1 " + "00" * 257)])
    yield Row("control", "a second message in segments, while one is kept", "0 to 11 octets go whole, at any time", ["another message is kept"],
              [on_station(ONE, "control 0 201 - 0 1 000102030405060708090a0b")])


def other_rows():
    """What cannot be sent again, acknowledged or given up."""
    yield Row("segment", "no message is kept: none was begun, or it was heard in full, cancelled or given up", "after `started`", ["nothing is kept"],
              [on_station("segment 0"), on_station(TWO, "stop", "segment 1")])
    yield Row("segment", "a number above SegN", "below the number behind `segments`", ["above SegN"], [on_station(TWO, "segment 2")])
    yield Row("segment", "a segment that was acknowledged", "those not yet acknowledged", ["already heard"],
              [on_station(TWO, acknowledgement(0x100, FIRST_SEQ, 1), "segment 0")])
    yield Row("segment", "the element's next SEQ is more than 8,191 after the message's first", "give it up by `stop`, and begin it anew",
              ["over 8,191 after the first"], [on_station(ONE, *["segment 0"] * 8192)])
    yield Row("ack", "a network key that is not there", "K counts from 0", ["no such network key"], [on_station(segment(0, 0x100), "ack 2 201")])
    yield Row("ack", "the source has no open session, and no message of it in segments was handed up",
              "after `stored`, or once a message in segments is handed up", ["nothing of this source"], [on_station("ack 0 201")])
    yield Row("ack", "that message is for a group or a label", "only what was sent to an element",
              ["its DST is not unicast", "DST of the open session is virtual", "DST of the last message handed up is virtual"],
              [on_station(segment(0, 0x100, dst=GROUP), "ack 0 201")]
              + [on_station(*[segment(at, 0x100, dst=LABELLED, label=LABEL) for at in range(count)], "ack 0 201") for count in (1, 3)])
    yield Row("stop", "no message is kept", "after `started`", ["nothing is kept"], [on_station("stop")])
    yield Row("drop", "the source has no open session", "after `stored`", ["no session of this source"], [on_station("drop 201")])


def property_rows():
    """What cannot be named; each case begins with no names."""
    def named(*lines):
        return ["properties", *lines]
    first, other = "property 76 humidity", "property 76 temperature"
    yield Row("property", "it is named already", "`properties` forgets all names", ["named already", "named already with the other kind"],
              [named(first, first), named(first, other)])
    yield Row("property", "a ninth name", "8", ["a ninth name"], [named(*[f"property {at:x} humidity" for at in range(1, 10)])])


TOLD = (
    Told("`gorephan_credentials`", "`key_len`, or a short `out_len`", "16; 33 or more", "c/test.c, `samples`"),
    Told("`gorephan_seal`", "`credential_len`, or its NID", "33; at most 127", "c/test.c, `every_refusal`"),
    Told("`gorephan_seal`", "`ctl`, `ttl` or `seq`", "0 or 1; 0 to 127, also 1; at most 0xFFFFFF",
         f"the same; `netseal {NETWORK_KEY.hex()} 12345678 0 80 000001 1201 fffd 00`"),
    Told("`gorephan_seal`", "`src` or `dst`", "0x0001 to 0x7FFF; not 0, and not virtual where `ctl` is 1: reserved is allowed", "the same"),
    Told("`gorephan_seal`", "`transport_len`", "1 to 16; 1 to 12 where `ctl` is 1", "the same"),
)


def rows():
    """All rows that the console can show."""
    return [*setup_rows(), *access_rows(), *control_rows(), *other_rows(), *property_rows()]


def shortened(line):
    """A line as it stands in the table: of a long field only the first octet."""
    return " ".join(field if len(field) <= 64 else field[:2] + ".." for field in line.split(" "))


def shown(case):
    """A case as it stands in the table, without the station's lines: a line that is repeated once, with its count, and of a long row the ends."""
    lines = case
    if tuple(case[:len(SETUP)]) == SETUP:
        lines = case[len(SETUP):]
    elif tuple(case[:len(SETUP) - 1]) == SETUP[:-1]:
        lines = case[len(SETUP) - 1:]
    runs = []
    for line in lines:
        if runs and runs[-1][0] == line:
            runs[-1][1] += 1
        else:
            runs.append([line, 1])
    words = [f"`{shortened(line)}`" + (f" {count:,} times" if count > 1 else "") for line, count in runs]
    return ", ".join(words if len(words) <= 4 else [*words[:2], "..", words[-1]])


def table():
    """The lines of the table."""
    yield "| Line | Refused 14 | Within the rules | Example |"
    yield "|---|---|---|---|"
    for row in rows():
        yield f"| `{row.word}` | {row.cause} | {row.limit} | {'; '.join(map(shown, row.cases))} |"
    for told in TOLD:
        yield f"| {told.word} | {told.cause} | {told.limit} | {told.example} |"
