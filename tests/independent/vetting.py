"""Vetting of document 02: has any upper transport PDU exactly these transport PDUs as its segments? Found by trying all of them.

No PDU is judged by itself. Every length that an upper transport PDU may have is tried: it is filled with the octets that the PDUs bring, and with zeros
behind them, and cut as a sender cuts it; what comes of it is held against the PDUs. `_reasons` only names what is wrong with the PDU that was found to be
at fault, so that the comparison can count the reasons.
"""
from collections import namedtuple

ROOM = 384
# By CTL: the octets of a full segment, what octet 0 may be, and the longest upper transport PDU; and the shortest by the bit before SeqZero.
SIZE, MOST = (12, 8), (384, 256)
OCTET_0 = ({0x80, *range(0xC0, 0x100)}, set(range(0x81, 0x100)))
LEAST = ({0: 5, 1: 9}, {0: 1})
NAMES = ("access", "control")
FRONT = 4

# One message: CTL, octet 0, the bit before SeqZero, SeqZero, and the upper transport PDU.
Message = namedtuple("Message", "ctl first bit seq_zero upper")
# What a PDU says: octet 0, then the bit, SeqZero, SegO and SegN, and the octets behind these four.
Said = namedtuple("Said", "first bit seq_zero seg_o seg_n body")
# The console's answer, the words for why, and the cases that were met.
Vetted = namedtuple("Vetted", "answer why notes")


def said(pdu):
    """What a PDU of four octets or more says."""
    word = int.from_bytes(pdu[1:FRONT], "big")
    return Said(pdu[0], word >> 23, word >> 10 & 0x1FFF, word >> 5 & 31, word & 31, pdu[FRONT:])


def _sent(message):
    """The segments of a message, one after another, as a sender makes them."""
    size = SIZE[message.ctl]
    pieces = range(0, len(message.upper), size)
    for place, start in enumerate(pieces):
        word = message.bit << 23 | message.seq_zero << 10 | place << 5 | len(pieces) - 1
        yield bytes([message.first]) + word.to_bytes(3, "big") + message.upper[start:start + size]


def _tried(ctl, pdus):
    """For each length the message that may begin with these PDUs: octet 0, the bit and SeqZero are those of the first, whatever the others say."""
    if not pdus or len(pdus[0]) < FRONT:
        return
    first, bit, seq_zero, *_ = said(pdus[0])
    if first not in OCTET_0[ctl] or bit not in LEAST[ctl]:
        return
    brought = b"".join(pdu[FRONT:] for pdu in pdus) + bytes(MOST[ctl])
    for length in range(LEAST[ctl][bit], MOST[ctl] + 1):
        yield Message(ctl, first, bit, seq_zero, brought[:length])


def _agreed(pdus, message):
    """How many PDUs, from the first on, are this message's segments."""
    found = 0
    for pdu, segment in zip(pdus, _sent(message)):
        if pdu != segment:
            break
        found += 1
    return found


def judged(ctl, pdus):
    """How many PDUs, from the first on, begin some message's segments, and the message that has exactly all of them, or None."""
    most, whole = 0, None
    for message in _tried(ctl, pdus):
        agreed = _agreed(pdus, message)
        most = max(most, agreed)
        if agreed == len(pdus) and list(_sent(message)) == pdus:
            whole = message
    return most, whole


def _of_first(ctl, pdu):
    """What is wrong with what the first PDU says, whatever follows."""
    first, bit, _, seg_o, seg_n, body = pdu
    yield not first & 0x80, "SEG 0"
    yield not ctl and not first & 0x40 and first & 0x3F, "AKF 0 with an AID"
    yield ctl and not first & 0x7F, "opcode 0"
    yield ctl and bit, "RFU 1"
    yield seg_o, "SegO above its place"
    short = not ctl and not seg_n and 0 < len(body)
    yield short and len(body) < 5, "too short for a message"
    yield short and bit and 5 <= len(body) < 9, "too short for a message with SZMIC 1"


def _of_later(ctl, pdu, start, at):
    """What is wrong with what a later PDU says, beside the first, which says `start`."""
    yield at > start.seg_n, "behind the last"
    yield not pdu.first & 0x80, "SEG 0"
    yield (pdu.first ^ start.first) & 0x7F, "another octet 0"
    yield pdu.bit != start.bit, "RFU 1" if ctl else "another SZMIC"
    yield pdu.seq_zero != start.seq_zero, "another SeqZero"
    yield pdu.seg_o < at, "SegO below its place"
    yield pdu.seg_o > at, "SegO above its place"
    yield pdu.seg_n != start.seg_n, "another SegN"


def _of_length(ctl, body, at, seg_n):
    """What is wrong with the octets of a PDU that has its place."""
    yield not body, "no octets behind the first four"
    yield len(body) > SIZE[ctl], "more octets than a segment holds"
    yield at < seg_n and 0 < len(body) < SIZE[ctl], "not full before the last"


def _reasons(ctl, pdus, at):
    """All that is wrong with a PDU, where those before it begin a message's segments."""
    if len(pdus[at]) < FRONT:
        return ["fewer than four octets" if pdus[at] else "no octets"]
    pdu, start = said(pdus[at]), said(pdus[0])
    found = [*(_of_later(ctl, pdu, start, at) if at else _of_first(ctl, pdu))]
    found += _of_length(ctl, pdu.body, at, start.seg_n) if at <= start.seg_n else ()
    return [words for is_so, words in found if is_so]


def _place(pdus, at):
    """Which place of the message the PDU at fault has."""
    last = said(pdus[0]).seg_n if at else 0
    return "at 0" if not at else "between" if at < last else "at the last" if at == last else "too many"


def _fault(ctl, pdus, at):
    """The words for a fault: of which kind of message, where, and the reason if it is one alone."""
    found = _reasons(ctl, pdus, at)
    return f"{NAMES[ctl]}, {_place(pdus, at)}: {found[0] if len(found) == 1 else 'several reasons' if found else 'no reason'}"


def _unfinished(pdus):
    """The words for a list that ends too early."""
    if not pdus:
        return "no PDU"
    return "the last is missing" if len(pdus) == said(pdus[0]).seg_n else "more are missing"


def _notes(message, count):
    """The cases that an approved message met."""
    ctl, first, bit, seq_zero, upper = message
    cases = {
        "one segment": count == 1, "32 segments": count == 32, "several, the last full": count > 1 and len(upper) % SIZE[ctl] == 0,
        "several, the last of one octet": len(upper) % SIZE[ctl] == 1 and count > 1, "at its longest": len(upper) == MOST[ctl],
        "at its shortest": len(upper) == LEAST[ctl][0], "at its shortest with SZMIC 1": bit and len(upper) == 9, "SZMIC 1": bit and count > 1,
        "AKF 0": not ctl and first == 0x80, "AKF 1 with AID 0": not ctl and first == 0xC0, "opcode 1": ctl and first == 0x81,
        "opcode 7f": ctl and first == 0xFF, "SeqZero 0": seq_zero == 0, "SeqZero 1fff": seq_zero == 0x1FFF,
    }
    return [f"approved {NAMES[ctl]}: {words}" for words, is_so in cases.items() if is_so]


def vetted(ctl, pdus, room):
    """What the console answers where the message buffer has so much room, why, and the cases met."""
    most, whole = judged(ctl, pdus)
    notes = ["vetted: a PDU of 255 octets"] if any(len(pdu) == 255 for pdu in pdus) else []
    kind = "at fault" if most < len(pdus) else "approved" if whole else "unfinished"
    if room < ROOM:
        return Vetted("refused 16", f"vet refused 16: else {kind}", notes + (["vetted: 383 octets of room"] if room == ROOM - 1 else []))
    if kind == "at fault":
        return Vetted(f"refused 26 at {most:x}", f"vet refused 26, {_fault(ctl, pdus, most)}", notes)
    if kind == "unfinished":
        return Vetted("refused 27", f"vet refused 27: {NAMES[ctl]}, {_unfinished(pdus)}", notes)
    return Vetted(f"approved message {whole.upper.hex()}", f"vet approved {NAMES[ctl]}", notes + _notes(whole, len(pdus)))
