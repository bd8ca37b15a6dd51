"""The console's lines, each once: its word, its fields, what it gives and what it answers. docs/CONSOLE.md explains them."""
from dataclasses import dataclass

LONGEST = 4095
DIGITS = frozenset("0123456789abcdefABCDEF")
# What a field is: a number in hex, octets as pairs of digits, a key or label of 16 octets, or one of some words.
NUMBER, OCTETS, KEY, WORD = "number", "octets", "key", "word"
# What stands before a label's number where a label is a destination.
LABEL = "label:"


@dataclass(frozen=True)
class Field:
    """A field: its name and kind; its greatest number, or its most octets; the only numbers that fit, where they are few; words that fit, too.

    `labels`: a label fits as well.
    """
    name: str
    kind: str = NUMBER
    most: int = 0xFFFFFFFF
    only: tuple = ()
    words: tuple = ()
    labels: bool = False

    @property
    def called(self):
        """The name without the dots of one that can come many times."""
        return self.name.rstrip(" .")


@dataclass(frozen=True)
class Line:
    """A line: its word and fields, what it gives, what it answers, and whether it needs a receiver. `many`: the last field, none or more times."""
    word: str
    fields: tuple
    gives: str
    answers: str = "ok"
    ready: bool = False
    many: bool = False

    @property
    def form(self):
        """How the line is written."""
        return " ".join([self.word] + [field.name for field in self.fields])

    def wanted(self, count):
        """The fields of a line that has so many: where the last comes many times, it makes up their number."""
        return self.fields[:-1] + self.fields[-1:] * max(count - len(self.fields) + 1, 0) if self.many else self.fields


def _octet(name, *words):
    """A number of one octet; these words fit, too."""
    return Field(name, most=0xFF, words=words)


def _address(name):
    """A number of two octets."""
    return Field(name, most=0xFFFF)


def _room(name):
    """The length of a lent buffer."""
    return Field(name, most=0x180)


_SENDING = (_octet("E"), Field("DST", most=0xFFFF, labels=True), _octet("TTL", "-"), _octet("K"))
_BYTES, _KEY = Field("BYTES", OCTETS), Field("KEY", KEY)
_SENT, _GIVEN_UP = "sent .., refused N", "given up, refused N"

LINES = (
    Line("netkey", (_KEY,), "one more network key"),
    Line("appkey", (_octet("N"), _KEY), "application key of netkey N"),
    Line("devkey", (_KEY,), "the device key"),
    Line("elements", (_address("FIRST"), Field("SEQ..")), "first address, next SEQs", many=True),
    Line("group", (_address("ADDRESS"),), "one more group"),
    Line("label", (Field("LABEL", KEY),), "one more label"),
    Line("ivindex", (Field("INDEX"), Field("FLAG", only=(0, 1))), "IV Index, update flag"),
    Line("relay", (Field("0|1", only=(0, 1)),), "relay off or on"),
    Line("setup", (), "makes the receiver", "ready, refused 14"),
    Line("hear", (Field("PDU", OCTETS),), "a Network PDU is heard", "refused, access, ..", ready=True),
    Line("room", (_room("FORWARD"), _room("MESSAGE")), "sizes of the lent buffers", ready=True),
    Line("access", (*_SENDING, _octet("J", "dev"), Field("MIC", only=(4, 8)), _BYTES), "sends an access message", "sent .., started ..", ready=True),
    Line("control", (*_SENDING, _octet("O"), _BYTES), "sends a control message", "sent .., started ..", ready=True),
    Line("segment", (_octet("N"),), "sends segment N", _SENT, ready=True),
    Line("ack", (_octet("K"), _address("S")), "acknowledges source S", _SENT, ready=True),
    Line("stop", (), "gives up what is sent", _GIVEN_UP, ready=True),
    Line("drop", (_address("S"),), "gives up S's session", _GIVEN_UP, ready=True),
    Line("show", (), "what the receiver keeps", "seq .. to end", ready=True),
    Line("property", (_address("P"), Field("humidity|temperature", WORD, words=("humidity", "temperature"))), "names property P", "ok, refused 14"),
    Line("properties", (), "forgets all names"),
    Line("readings", (Field("MESSAGE", OCTETS, most=380),), "reads a Sensor Status", "readings N .."),
    Line("vet", (Field("CTL", only=(0, 1)), Field("PDU ..", OCTETS, most=0xFF)), "vets a maker's segments", "approved, refused N", many=True),
)
FORMS = {line.word: line for line in LINES}

_HEAD = "A word and its fields in hex, one space between. * needs a receiver. Ctrl-D ends"
_FOOT = "DST can be label:I. All of it: docs/CONSOLE.md; each refusal: docs/ANSWERS.md."


def help_lines():
    """All lines on one screen, of 24 lines and 80 columns."""
    yield _HEAD
    for line in LINES:
        yield f"{'*' if line.ready else ' '}{line.form:<31} {line.gives:<27} {line.answers}"
    yield _FOOT
