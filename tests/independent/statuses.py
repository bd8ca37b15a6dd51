"""What is asked about Sensor Status, made from dice: lines that name properties, and lines that read property lists, right and wrong."""
import sensor

STATUS, LIST = bytes([sensor.STATUS]), 379
# Properties about the limits of the two formats, and those of temperature and humidity.
PROPERTIES = (0, 1, 0x4F, 0x75, 0x76, 0x7FF, 0x800, 0xFFFF)
LENGTHS = (0, 1, 2, 3, 4, 15, 16, 17, 126, 127)


def record(form, of, value):
    """A record's octets; format B has a length of 0x7F for no octets."""
    if form == "A":
        return (of << 5 | len(value) - 1 << 1).to_bytes(2, "little") + value
    return (of << 8 | (len(value) - 1) % 128 << 1 | 1).to_bytes(3, "little") + value


def _form(dice, of, length):
    """A format that can carry it."""
    return dice.choice("AB") if of < 0x800 and 1 <= length <= 16 else "B"


def _property(dice, named):
    if named.kinds and dice.random() < 0.6:
        return dice.choice(list(named.kinds))
    return _any(dice, named)


def _any(dice, named):
    """A property to be named or not: one about the limits, one that was forgotten, or any."""
    return dice.choice((*PROPERTIES, *PROPERTIES, *sorted(named.forgotten)[:4], dice.randrange(0x800), dice.randrange(0x10000)))


def _count(dice, kind):
    """The two octets of a count: at the edge of a range, or anywhere."""
    count = dice.choice((*sensor.EDGES[kind], *[dice.randrange(0x10000)] * 3, *[dice.randint(0, 10000)] * 2, -dice.randint(1, 27315)))
    return (count % 0x10000).to_bytes(2, "little")


def _good(dice, named, of):
    """A record that is read."""
    if of in named.kinds:
        value = _count(dice, named.kinds[of])
    else:
        value = dice.randbytes(dice.choice((0, 1, 2, 3, 16, dice.choice(LENGTHS), dice.randint(0, 16))))
    return record(_form(dice, of, len(value)), of, value)


def _list(dice, named, most):
    """Records one after another, all read, of few properties, so that one may come again; a record too many is left out."""
    some = [_property(dice, named) for _ in range(dice.randint(1, 5))]
    octets = b""
    for _ in range(dice.randint(1, most)):
        more = _good(dice, named, dice.choice(some))
        octets += more if len(octets + more) <= LIST else b""
    return octets


def _wrong_length(dice, named):
    """A record with a length that a named property may not have, perhaps cut."""
    of = dice.choice(list(named.kinds)) if named.kinds else 1
    value = dice.randbytes(dice.choice((0, 1, 1, 3, 16, 127)))
    octets = record(_form(dice, of, len(value)), of, value)
    return octets[:len(octets) - dice.choice((0, 0, dice.randint(0, len(value))))]


def good(dice, named):
    return STATUS + _list(dice, named, 8)


def cut(dice, named):
    """A list that ends anywhere, also in a header or a value."""
    octets = _list(dice, named, 4)
    return STATUS + octets[:dice.randint(0, len(octets))]


def damaged(dice, named):
    """A list with one bit changed."""
    octets = bytearray(_list(dice, named, 6) or b"\0")
    octets[dice.randrange(len(octets))] ^= 1 << dice.randrange(8)
    return STATUS + octets


def wrong_length(dice, named):
    """A named property of another length, first or behind records that are right, with or without more behind it."""
    octets = _list(dice, named, 3) * dice.randint(0, 1) + _wrong_length(dice, named) + dice.randbytes(dice.choice((0, 0, 5)))
    return STATUS + octets[:LIST]


def full(dice, named):
    """Records of one property with two octets, as many as a message holds: 94 in format A, 75 in format B."""
    of = _property(dice, named)
    form = _form(dice, of, 2)
    counts = [_count(dice, named.kinds.get(of, "humidity")) for _ in range(94 if form == "A" else 75)]
    return STATUS + b"".join(record(form, of, count) for count in counts) + record("B", 0x1234, b"") * dice.randint(0, 1)


def most(dice, named):
    """The most records that a message holds, 126 without octets; one octet fits behind them, which is a fault."""
    others = [of for of in range(0x10000 - 300, 0x10000) if of not in named.kinds]
    octets = b"".join(record("B", dice.choice(others), b"") for _ in range(126))
    return STATUS + octets + dice.choice((b"", b"", b"\0"))


def noise(dice, _):
    return STATUS + dice.randbytes(dice.choice((0, 1, 2, 3, dice.randint(0, 30), dice.randint(0, LIST))))


def other(dice, named):
    """A message that is no Sensor Status, though a list may follow the opcode."""
    return dice.choice((b"", bytes([dice.choice((0x00, 0x04, 0x51, 0x53, 0xD2, dice.randrange(256)))]) + _list(dice, named, 3)))


def long(dice, _):
    """Messages about the longest, whatever they begin with."""
    return dice.choice((STATUS, b"\x04")) + dice.randbytes(dice.choice((LIST - 1, LIST, LIST + 1, LIST + 1, 500, 1900)))


MESSAGES = (good,) * 9 + (cut,) * 4 + (damaged,) * 3 + (wrong_length,) * 4 + (noise,) * 3 + (full, most, other, long)


def line(dice, named):
    """One line: a name, all names forgotten, or a message read."""
    roll = dice.random()
    if roll < 0.2:
        return f"property {_any(dice, named):x} {dice.choice(('humidity', 'temperature'))}"
    if roll < 0.22:
        return "properties"
    return f"readings {dice.choice(MESSAGES)(dice, named).hex() or '-'}"
