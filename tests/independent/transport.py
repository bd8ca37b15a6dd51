"""Transport (MP 3.5, 3.6): forms of the transport octets, SeqAuth, cutting into segments, and the securing of access messages."""
from collections import namedtuple

from ciphers import ccm_open, ccm_seal
from network import kind, octets

ACCESS_SEGMENT, CONTROL_SEGMENT = 12, 8
WINDOW = 8192

# first is octet 0; szmic is 0 for control, whose bit there is RFU.
Segment = namedtuple("Segment", "first szmic seq_zero seg_o seg_n body")
Whole = namedtuple("Whole", "first body")
Acknowledgement = namedtuple("Acknowledgement", "obo seq_zero bits")


def segment_size(ctl):
    return CONTROL_SEGMENT if ctl else ACCESS_SEGMENT


def all_bits(seg_n):
    """Bits 0 to SegN."""
    return (2 << seg_n) - 1


def _of_segment(ctl, seg):
    """What is wrong with a segment's lengths and numbers, or None."""
    if ctl and seg.first == 0x80:
        return "a segment with opcode 0"
    if seg.seg_o > seg.seg_n:
        return "SegO above SegN"
    if seg.seg_o < seg.seg_n and len(seg.body) != segment_size(ctl):
        return "a segment before the last that is not full"
    return None


def form(ctl, dst, transport):
    """A Segment, a Whole message or an Acknowledgement; or a sentence that says what is wrong with the form."""
    first = transport[0]
    if not ctl and not first & 0x40 and (first & 0x3F or kind(dst) != "unicast"):
        return "AKF 0 with an AID" if first & 0x3F else "AKF 0 to no unicast address"
    if first & 0x80:
        if len(transport) < 5:
            return "a segment without octets"
        word = int.from_bytes(transport[1:4], "big")
        seg = Segment(first, 0 if ctl else word >> 23, word >> 10 & 0x1FFF, word >> 5 & 31, word & 31, transport[4:])
        return _of_segment(ctl, seg) or seg
    if ctl and first == 0:
        if len(transport) != 7:
            return "an acknowledgement not of 7 octets"
        word = int.from_bytes(transport[1:3], "big")
        return Acknowledgement(word >> 15, word >> 2 & 0x1FFF, int.from_bytes(transport[3:], "big"))
    if not ctl and len(transport) < 6:
        return "an access message of fewer than 5 octets"
    return Whole(first, transport[1:])


def seq_auth(seq, seq_zero):
    """The greatest number from SEQ - 8191 to SEQ whose low 13 bits are SeqZero; None where it would be below 0."""
    start = seq - (seq - seq_zero) % WINDOW
    return start if start >= 0 else None


def segment_header(first, szmic, seq_zero, seg_o, seg_n):
    """The four octets before a segment's own; a control segment's RFU bit stands where an access segment's SZMIC does."""
    return bytes([0x80 | first]) + octets(szmic << 23 | seq_zero << 10 | seg_o << 5 | seg_n, 3)


def cut(ctl, first, szmic, seq, upper):
    """The transport octets of each segment, in SegO order, of a message begun with this SEQ."""
    size = segment_size(ctl)
    seg_n = (len(upper) + size - 1) // size - 1
    return [segment_header(first, szmic, seq % WINDOW, at, seg_n) + upper[at * size:(at + 1) * size] for at in range(seg_n + 1)]


def acknowledgement(obo, seq_zero, bits, rfu=0):
    return b"\x00" + octets(obo << 15 | seq_zero << 2 | rfu, 2) + octets(bits, 4)


def _nonce(of_device, mic, seq, src, dst, iv_index):
    return bytes([2 if of_device else 1, 0x80 if mic == 8 else 0]) + octets(seq, 3) + octets(src, 2) + octets(dst, 2) + octets(iv_index, 4)


def secure(key, of_device, mic, seq, src, dst, iv_index, payload, label=b""):
    """An access payload, encrypted, with its TransMIC behind it; to a virtual DST the label is its additional data."""
    return ccm_seal(key, _nonce(of_device, mic, seq, src, dst, iv_index), payload, mic, label)


def unsecure(key, of_device, mic, seq, src, dst, iv_index, upper, label=b""):
    """The access payload, or None where the TransMIC does not fit."""
    return ccm_open(key, _nonce(of_device, mic, seq, src, dst, iv_index), upper, mic, label)
