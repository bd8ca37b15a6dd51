"""What the receiver of document 01 sends: access and control messages, later segments, acknowledgements.

Each function takes the receiver and the length of the buffer lent for the PDU, gives the PDU, and checks in the document's order: 16, 14, 15.
"""
from dataclasses import dataclass

import network
import transport
from model import Label, Refusal, Sent
from network import kind

UNNAMED_TTL = 4
LAST_SEQ = 0xFFFFFF


@dataclass
class Outgoing:
    """The segmented message that is kept; segments are its transport octets in SegO order, heard has a bit for each."""
    element: int
    src: int
    dst: int
    ttl: int
    net: int
    ctl: int
    auth: tuple
    segments: list
    heard: int = 0


def _allow(wrong, why):
    if wrong:
        raise Refusal(14, why)


def _need_room(room):
    if room < network.LONGEST:
        raise Refusal(16, "PDU buffer")


def _address(receiver, dst):
    """The address of a destination, and the label that is additional data: none unless the destination is a label."""
    if isinstance(dst, Label):
        _allow(dst.place >= len(receiver.addresses), "no such label")
        return receiver.addresses[dst.place], receiver.setup.labels[dst.place]
    receiver.note(dst in network.RESERVED, f"asked to send to: {dst:04x}")
    _allow(dst in receiver.addresses, "DST virtual, of a label that is held")
    _allow(kind(dst) in ("unassigned", "virtual", "reserved"), "DST " + kind(dst))
    return dst, b""


def _common(receiver, element, dst, ttl, net):
    """What access and control messages must both keep to; gives the address, the label and the TTL."""
    _allow(element >= len(receiver.seqs), "no such element")
    address, label = _address(receiver, dst)
    _allow(ttl == 1, "TTL 1")
    _allow(ttl is not None and ttl > 127, "TTL above 127")
    _allow(net >= len(receiver.networks), "no such network key")
    return address, label, UNNAMED_TTL if ttl is None else ttl


def _next(receiver, element):
    """The element's next SEQ and the IV Index to send under; the SEQ is not taken yet."""
    if receiver.seqs[element] > LAST_SEQ:
        raise Refusal(15, "no SEQ left")
    return receiver.seqs[element], receiver.setup.iv_index - receiver.setup.flag


def _transmit(receiver, element, net, ctl, ttl, dst, octets):
    seq, iv_index = _next(receiver, element)
    receiver.seqs[element] = seq + 1
    receiver.note(dst in network.ABOUT_RESERVED, f"sent to: {dst:04x} with CTL {ctl}")
    opened = network.Opened(ctl, ttl, seq, receiver.setup.first + element, dst, octets)
    receiver.sent.append(Sent(net, iv_index, opened))
    return network.seal(receiver.networks[net], iv_index, *opened)


def _start(receiver, element, net, ctl, ttl, dst, segments):
    """Keeps the message and sends its segment 0; gives the PDU and the number of segments."""
    seq, iv_index = _next(receiver, element)
    receiver.out = Outgoing(element, receiver.setup.first + element, dst, ttl, net, ctl, (iv_index, seq), segments)
    return _transmit(receiver, element, net, ctl, ttl, dst, segments[0]), len(segments)


def _key(receiver, dst, label, net, key):
    """Octet 0 but for SEG, and the key, of an access message."""
    if key is None:
        _allow(label, "the device key to a label")
        _allow(kind(dst) != "unicast", "the device key to no unicast address")
        return 0, receiver.setup.device_key
    _allow(key >= len(receiver.aids), "no such application key")
    bound, secret = receiver.setup.app_keys[key]
    _allow(bound != net, "the application key is bound to another network key")
    return 0x40 | receiver.aids[key], secret


def _note_label(receiver, dst, mic, segmented):
    """Notes which label a message goes to, if to one, and how."""
    if not isinstance(dst, Label):
        return
    place, held, addresses = dst.place, receiver.setup.labels, receiver.addresses
    receiver.note(True, "sent to a label: " + ("TransMIC of 8" if mic == 8 else "TransMIC of 4, in segments" if segmented else "whole"))
    receiver.note(place == 3, "sent to a label: the fourth")
    receiver.note(held[place] in held[:place], "sent to a label: the second of equal ones")
    receiver.note(any(addresses[at] == addresses[place] and held[at] != held[place] for at in range(place)), "sent to a label: the second of one address")


def access(receiver, room, element, dst, ttl, net, key, mic, payload):
    """An access message under an application key, or the device key where key is None. Gives the PDU, and the number of segments or None."""
    _need_room(room)
    if key is None and dst in network.RESERVED:
        receiver.note(True, f"asked to send to under the device key: {dst:04x}")
    asked, (dst, label, ttl) = dst, _common(receiver, element, dst, ttl, net)
    octet, secret = _key(receiver, dst, label, net, key)
    _allow(len(payload) == 0, "no payload")
    _allow(len(payload) + mic > 384, "payload too long")
    segmented = mic == 8 or len(payload) > 11
    _allow(segmented and receiver.out, "another message is kept")
    seq, iv_index = _next(receiver, element)
    upper = transport.secure(secret, key is None, mic, seq, receiver.setup.first + element, dst, iv_index, payload, label)
    _note_label(receiver, asked, mic, segmented)
    if not segmented:
        return _transmit(receiver, element, net, 0, ttl, dst, bytes([octet]) + upper), None
    return _start(receiver, element, net, 0, ttl, dst, transport.cut(0, octet, int(mic == 8), seq, upper))


def control(receiver, room, element, dst, ttl, net, opcode, parameters):
    """A control message. Gives the PDU, and the number of segments or None."""
    _need_room(room)
    _allow(isinstance(dst, Label), "control to a label")
    dst, _, ttl = _common(receiver, element, dst, ttl, net)
    _allow(opcode == 0, "opcode 0")
    _allow(opcode > 0x7F, "opcode above 7f")
    _allow(len(parameters) > 256, "parameters too long")
    segmented = len(parameters) > 11
    _allow(segmented and receiver.out, "another message is kept")
    seq, _ = _next(receiver, element)
    if not segmented:
        return _transmit(receiver, element, net, 1, ttl, dst, bytes([opcode]) + parameters), None
    return _start(receiver, element, net, 1, ttl, dst, transport.cut(1, opcode, 0, seq, parameters))


def segment(receiver, room, seg_o):
    """One segment of the message that is kept."""
    _need_room(room)
    out = receiver.out
    _allow(not out, "nothing is kept")
    _allow(seg_o >= len(out.segments), "above SegN")
    _allow(out.heard >> seg_o & 1, "already heard")
    ahead = receiver.seqs[out.element] - out.auth[1]
    receiver.note(ahead == transport.WINDOW - 1 and receiver.seqs[out.element] <= LAST_SEQ, "sends a segment 8,191 after the first")
    receiver.note(ahead == transport.WINDOW - 1 and receiver.seqs[out.element] > LAST_SEQ, "has no SEQ left 8,191 after the first")
    receiver.note(ahead == transport.WINDOW and receiver.seqs[out.element] > LAST_SEQ, "has no SEQ left 8,192 after the first")
    _allow(ahead >= transport.WINDOW, "over 8,191 after the first")
    return _transmit(receiver, out.element, out.net, out.ctl, out.ttl, out.dst, out.segments[seg_o])


def acknowledge(receiver, room, net, src):
    """The acknowledgement of a source's open session, else of its last segmented message handed up."""
    _need_room(room)
    _allow(net >= len(receiver.networks), "no such network key")
    receiver.note(src in network.RESERVED, f"asked to acknowledge: {src:04x}")
    slot, entry = receiver.slot_of(src), receiver.entry_of(src)
    if slot is not None:
        session = receiver.sessions[slot]
        auth, bits, dst = session.auth, session.bits, session.terms.dst
    else:
        _allow(not entry or not entry.last, "nothing of this source")
        auth, seg_n, dst = entry.last
        bits = transport.all_bits(seg_n)
    _allow(kind(dst) == "virtual", f"DST of {'the last message handed up' if slot is None else 'the open session'} is virtual")
    _allow(kind(dst) != "unicast", "its DST is not unicast")
    pdu = _transmit(receiver, dst - receiver.setup.first, net, 1, UNNAMED_TTL, src, transport.acknowledgement(0, auth[1] % transport.WINDOW, bits))
    receiver.note(True, "acknowledges " + ("the last message handed up" if slot is None else "the open session"))
    return pdu
