"""Property lists of Sensor Status for tshark: those that it reads whole, those that end too early, and those whose last record it cannot read."""
from collections import namedtuple

from sensor import EDGES
from statuses import record

LIST = 379
# What the site names, and properties that stay raw; of all of these tshark has the length in a table of its own.
KINDS = {0x0054: "temperature", 0x0075: "temperature", 0x0076: "humidity"}
LENGTHS = {0x0054: 2, 0x0075: 2, 0x0076: 2, 0x000F: 6, 0x0011: 36, 0x004E: 3, 0x004F: 1, 0x0082: 4, 0x0086: 2, 0x0087: 1}
# Records that tshark cannot read: outside its table, without octets, and of another length than its table's.
UNREADABLE = (("A", 0x07FF, 1), ("A", 0x07FF, 16), ("B", 0x07FF, 2), ("B", 0x1234, 1), ("B", 0x9ABC, 17), ("B", 0x1234, 127), ("B", 0x1234, 0),
              ("B", 0x0000, 0), ("B", 0x0086, 0), ("A", 0x0086, 3), ("A", 0x0075, 1), ("A", 0x0076, 3), ("A", 0x0076, 16), ("B", 0x0075, 17),
              ("B", 0x0076, 0))

# octets is the list; before is the number of records before the last, where tshark can read nothing of that but its header, else None.
Listed = namedtuple("Listed", "octets before", defaults=(None,))


def _counts(form, of, counts):
    return b"".join(record(form, of, (count % 0x10000).to_bytes(2, "little")) for count in counts)


def _any(dice, count):
    """So many records, or as many of them as a message holds."""
    octets = b""
    for _ in range(count):
        of, length = dice.choice(list(LENGTHS.items()))
        more = record(dice.choice("AB") if length <= 16 else "B", of, dice.randbytes(length))
        octets += more if len(octets + more) <= LIST else b""
    return octets


def lists(dice):
    """Every edge of both kinds in both formats, the fullest lists, any records, a list cut at each octet, and what tshark cannot read."""
    for of, kind in KINDS.items():
        for form, most in (("A", 94), ("B", 75)):
            yield Listed(_counts(form, of, EDGES[kind]))
            yield Listed(_counts(form, of, (dice.randrange(0x10000) for _ in range(most))))
            yield Listed(_counts(form, of, (dice.randint(-27315, 0) if kind == "temperature" else dice.randint(0, 10000) for _ in range(most))))
    for count in (1, 2, 3, 5, 8, 13, 21, 60, 200):
        yield Listed(_any(dice, count))
    whole = _counts("A", 0x0075, (2140,)) + record("B", 0x0082, bytes(4)) + _counts("B", 0x0076, (0xFFFF,)) + record("A", 0x0087, b"\x05")
    for end in range(len(whole) + 1):
        yield Listed(whole[:end])
    for form, of, length in UNREADABLE:
        yield Listed(_any(dice, 3) + record(form, of, dice.randbytes(length)), 3)
