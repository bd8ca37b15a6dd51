"""What is vetted, made from dice: the segments of a maker's message, and the same wrong in one point, in several, or in none."""
import transport
from network import octets
from vetting import FRONT, said

# Lengths about the limits of each kind of message, by CTL: one segment and two, full or not, and the longest.
LENGTHS = ((5, 8, 9, 11, 12, 13, 24, 25, 36, 372, 373, 383, 384), (1, 2, 7, 8, 9, 16, 17, 24, 248, 249, 255, 256))
SHORTEST, MOST = ((5, 9), (1, 1)), (384, 256)
FIRSTS = ((0x00, 0x40, 0x7F, 0x66), (0x01, 0x02, 0x7F))
# The fields of the four octets in front, each with the number of its values, where it stands in them.
FIELDS = {"seg": (31, 2), "first": (24, 128), "bit": (23, 2), "seq_zero": (10, 0x2000), "seg_o": (5, 32), "seg_n": (0, 32)}


def message(dice):
    """CTL and the segments of a message that is allowed."""
    ctl = dice.randrange(2)
    bit = 0 if ctl else dice.choice((0, 0, 1))
    first = dice.choice((*FIRSTS[ctl], dice.randint(1, 0x7F) if ctl else dice.randint(0x40, 0x7F)))
    length = dice.choice((*LENGTHS[ctl], dice.randint(1, 60), dice.randint(1, 60), dice.randint(1, MOST[ctl])))
    length = max(length, SHORTEST[ctl][bit])
    return ctl, transport.cut(ctl, first, bit, dice.choice((0, 0x1FFF, dice.randrange(0x2000))), dice.randbytes(length))


def _longer(dice):
    """The same, of three segments at least."""
    ctl, pdus = message(dice)
    return (ctl, pdus) if len(pdus) > 2 else _longer(dice)


def _with(pdus, at, pdu):
    """The PDUs with another at one place."""
    return pdus[:at] + [pdu] + pdus[at + 1:]


def _somewhere(dice, pdus):
    """A place: the first, the last, or any of them."""
    return dice.choice((0, len(pdus) - 1, *[dice.randrange(len(pdus))] * 2))


def good(dice):
    """As it is, also of one segment and at its shortest."""
    return message(dice)


def cut(dice):
    """The first PDUs alone."""
    ctl, pdus = message(dice)
    return ctl, pdus[:dice.choice((0, 1, len(pdus) - 1, dice.randint(0, len(pdus))))]


def swapped(dice):
    """Two PDUs in each other's place."""
    ctl, pdus = _longer(dice)
    one, other = dice.sample(range(len(pdus)), 2)
    return ctl, _with(_with(pdus, one, pdus[other]), other, pdus[one])


def doubled(dice):
    """One PDU twice, side by side or at the end."""
    ctl, pdus = message(dice)
    at = _somewhere(dice, pdus)
    return ctl, pdus + [pdus[at]] if dice.random() < 0.3 else pdus[:at] + pdus[at:at + 1] + pdus[at:]


def lost(dice):
    """One PDU left out."""
    ctl, pdus = _longer(dice)
    at = _somewhere(dice, pdus)
    return ctl, pdus[:at] + pdus[at + 1:]


def changed_field(dice):
    """One field of one PDU says something else."""
    ctl, pdus = message(dice)
    return ctl, _field_changed(dice, pdus, _somewhere(dice, pdus))


def _field_changed(dice, pdus, at):
    """The PDUs, of which one has another value in one field: one beside it, or any."""
    place, values = FIELDS[dice.choice(list(FIELDS))]
    word = int.from_bytes(pdus[at][:FRONT], "big")
    more = dice.choice((1, values - 1, dice.randrange(1, values))) << place
    mask = values - 1 << place
    return _with(pdus, at, octets(word & ~mask | word + more & mask, FRONT) + pdus[at][FRONT:])


def first_octet(dice):
    """Octet 0 of all PDUs is one that no message has, or one of the other kind; or the bit before SeqZero is 1 in all of them."""
    ctl, pdus = message(dice)
    if dice.random() < 0.4:
        return ctl, [pdu[:1] + bytes([pdu[1] | 0x80]) + pdu[2:] for pdu in pdus]
    octet = dice.choice((0x80, 0x81, 0xBF, dice.randrange(0x100), pdus[0][0] & 0x7F))
    return ctl, [bytes([octet]) + pdu[1:] for pdu in pdus]


def shortened(dice):
    """The octets of one PDU are cut."""
    ctl, pdus = dice.choice((message, _longer))(dice)
    at = _somewhere(dice, pdus)
    size = len(pdus[at])
    return ctl, _with(pdus, at, pdus[at][:dice.choice((4, 4, 5, size - 1, size - 1, dice.randrange(1, size)))])


def stub(dice):
    """A PDU of fewer than four octets, in the place of one, before it, or behind all."""
    ctl, pdus = dice.choice((message, _longer))(dice)
    at = dice.choice((_somewhere(dice, pdus), _somewhere(dice, pdus), len(pdus)))
    return ctl, pdus[:at] + [dice.choice((b"", dice.randbytes(dice.randint(1, 3)), pdus[0][:3]))] + pdus[at + dice.randint(0, 1):]


def lengthened(dice):
    """One PDU has more octets than a segment holds."""
    ctl, pdus = message(dice)
    at = _somewhere(dice, pdus)
    full = FRONT + transport.segment_size(ctl)
    more = dice.choice((1, 1, 1, 4, 16, 32, 255 - full, 256 - full, dice.randint(1, 200)))
    return ctl, _with(pdus, at, pdus[at] + dice.randbytes(full + more - len(pdus[at])))


def too_many(dice):
    """One PDU or more behind the last, which count on."""
    ctl, pdus = message(dice)
    last, more = said(pdus[-1]), []
    for at in range(len(pdus), len(pdus) + dice.choice((1, 1, 2, 5))):
        more.append(transport.segment_header(last.first, last.bit, last.seq_zero, at % 32, last.seg_n) + dice.randbytes(transport.segment_size(ctl)))
    return ctl, pdus + more + [dice.randbytes(dice.choice((0, 3, 16)))] * dice.choice((0, 0, 1))


def smallest(dice):
    """One segment alone, of every length about the shortest that is allowed."""
    ctl, bit = dice.choice(((0, 0), (0, 1), (1, 0)))
    length = dice.choice((1, 4, 5, 6, 8, 9, 12, dice.randint(0, 13)))
    first = dice.choice(FIRSTS[ctl])
    return ctl, [transport.segment_header(first, bit, dice.randrange(0x2000), 0, 0) + dice.randbytes(length)]


def other_kind(dice):
    """The segments of one kind, vetted as the other."""
    ctl, pdus = message(dice)
    return 1 - ctl, pdus


def mixed(dice):
    """The first PDUs of one message, and behind them another's of the same kind from that place on."""
    (ctl, pdus), (other, more) = _longer(dice), _longer(dice)
    at = dice.randrange(1, min(len(pdus), len(more)))
    return ctl, pdus[:at] + (more[at:] if ctl == other else pdus[at - 1:])


def damaged(dice):
    """One bit is changed, mostly of the octets in front."""
    ctl, pdus = message(dice)
    at = _somewhere(dice, pdus)
    pdu = bytearray(pdus[at])
    pdu[dice.randrange(FRONT if dice.random() < 0.7 else len(pdu))] ^= 1 << dice.randrange(8)
    return ctl, _with(pdus, at, bytes(pdu))


def twice_wrong(dice):
    """Two PDUs are wrong: the first of them counts."""
    ctl, pdus = _longer(dice)
    for at in dice.sample(range(len(pdus)), 2):
        pdus = _field_changed(dice, pdus, at)
    return ctl, pdus


def noise(dice):
    """PDUs of any octets."""
    return dice.randrange(2), [dice.randbytes(dice.choice((0, 1, 3, 4, 5, 12, 13, 16, 17, dice.randrange(30)))) for _ in range(dice.randrange(5))]


def long(dice):
    """A PDU at its longest, or longer than one may be, anywhere in a list."""
    ctl, pdus = message(dice)
    return ctl, _with(pdus, _somewhere(dice, pdus), dice.randbytes(dice.choice((254, 255, 255, 256, 300))))


LISTS = ((good,) * 8 + (cut,) * 4 + (changed_field,) * 14 + (shortened,) * 6 + (stub,) * 6 + (lengthened,) * 5 + (smallest,) * 4 + (first_octet,) * 3
         + (too_many,) * 3 + (swapped, doubled, lost, damaged) * 2 + (other_kind, mixed, twice_wrong, noise, long))


def written(ctl, pdus):
    """The console's line."""
    return " ".join(["vet", f"{ctl}", *(pdu.hex() or "-" for pdu in pdus)])


def line(dice):
    """One line that vets."""
    return written(*dice.choice(LISTS)(dice))
