"""The Network PDU (MP 3.4): kinds of addresses, which IV Index fits, sealing and opening."""
from collections import namedtuple

from ciphers import aes, ccm_open, ccm_seal, xor

SHORTEST, LONGEST, SHORTEST_CONTROL = 14, 29, 18

# The first and the last of the group addresses that MP 3.4.2.4 reserves; and these two with the groups beside them.
RESERVED = (0xFF00, 0xFFFB)
ABOUT_RESERVED = (0xFEFF, *RESERVED, 0xFFFC)

# What an opened PDU says.
Opened = namedtuple("Opened", "ctl ttl seq src dst transport")


def kind(address):
    """Which of the ranges of MP 3.4.2 an address is in; document 02 sets the reserved groups apart from the others."""
    if address == 0:
        return "unassigned"
    if address <= 0x7FFF:
        return "unicast"
    if address <= 0xBFFF:
        return "virtual"
    return "reserved" if RESERVED[0] <= address <= RESERVED[1] else "group"


def octets(number, count):
    return number.to_bytes(count, "big")


def fitting_index(iv_index, ivi):
    """Whichever of the IV Index and the one before it has IVI as its lowest bit; None where that would be below 0."""
    if iv_index & 1 == ivi:
        return iv_index
    return iv_index - 1 if iv_index > 0 else None


def mic_size(ctl):
    return 8 if ctl else 4


def _nonce(front, iv_index):
    return b"\x00" + front + b"\x00\x00" + octets(iv_index, 4)


def _mask(credentials, iv_index, body):
    """What the front, octets 1 to 6, is hidden under; the body is the PDU from octet 7 on."""
    return aes(credentials.privacy, bytes(5) + octets(iv_index, 4) + body[:7])[:6]


def seal(credentials, iv_index, ctl, ttl, seq, src, dst, transport):
    """One Network PDU. It asks nothing about the addresses, so that wrong ones can be sent too."""
    front = bytes([ctl << 7 | ttl]) + octets(seq, 3) + octets(src, 2)
    body = ccm_seal(credentials.encryption, _nonce(front, iv_index), octets(dst, 2) + transport, mic_size(ctl))
    return bytes([(iv_index & 1) << 7 | credentials.nid]) + xor(front, _mask(credentials, iv_index, body)) + body


def unseal(credentials, iv_index, pdu):
    """What the PDU says if these credentials authenticate it, else None. Its NID is not compared here."""
    body = pdu[7:]
    front = xor(pdu[1:7], _mask(credentials, iv_index, body))
    ctl = front[0] >> 7
    if ctl and len(pdu) < SHORTEST_CONTROL:
        return None
    clear = ccm_open(credentials.encryption, _nonce(front, iv_index), body, mic_size(ctl))
    if clear is None:
        return None
    word = [int.from_bytes(part, "big") for part in (front[1:4], front[4:6], clear[:2])]
    return Opened(ctl, front[0] & 0x7F, *word, clear[2:])
