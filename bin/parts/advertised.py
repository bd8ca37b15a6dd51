"""The advertisements of a packet, as a sniffer or a host tells of them, and the AD structures of each."""
from dataclasses import dataclass

MESSAGE, BEACON, PROVISIONING = 0x2A, 0x2B, 0x29
# MP 3.3.1: a mesh message comes in this kind of advertisement; in one that is connectable or scannable a node ignores it.
RIGHT, EXTENDED, OTHER_EXTENDED = "ADV_NONCONN_IND", "an extended advertisement", "an extended advertisement that is connectable or scannable"
ON_AIR = {0: "ADV_IND", 1: "ADV_DIRECT_IND", 2: RIGHT, 4: "SCAN_RSP", 6: "ADV_SCAN_IND", 7: EXTENDED}
REPORTED = {0: "ADV_IND", 1: "ADV_DIRECT_IND", 2: "ADV_SCAN_IND", 3: RIGHT, 4: "SCAN_RSP"}
ADDRESS = 6
# The bits of an extended report's event type: connectable, scannable and scan response; legacy; whether its data are whole, or go on.
NOT_RIGHT, RESPONSE, LEGACY, STATUS, MORE = 0x000B, 0x0008, 0x0010, 0x0060, 0x0020
REPORT, EXTENDED_REPORT = 0x02, 0x0D
SET_DATA, SET_EXTENDED_DATA, ALL_AT_ONCE = 0x2008, 0x2037, 3
NO_RSSI = 127


@dataclass
class Advertisement:
    """One advertisement: its data, and how many octets of them were said to come; its kind; its sender's address, channel and RSSI where they are known.

    `sent`: the host itself sends it; `part`: of longer data, so that no AD structure can be told.
    """
    data: bytes
    size: int
    kind: str = RIGHT
    address: str = ""
    channel: int = None
    rssi: int = None
    sent: bool = False
    part: bool = False

    @property
    def is_ignored(self):
        """Whether a node ignores a mesh message in it."""
        return self.kind not in (RIGHT, EXTENDED)


@dataclass
class Structure:
    """One AD structure: its type and octets. Octets that are no structure have no type."""
    type: int
    octets: bytes


def structures(data):
    """The AD structures of advertising data. The first that is longer than the data ends them, or a length of 0, behind which all should be 0."""
    at = 0
    while at < len(data) and data[at]:
        end = at + 1 + data[at]
        if end > len(data):
            break
        yield Structure(data[at + 1], data[at + 2:end])
        at = end
    if any(data[at:]):
        yield Structure(None, data[at:])


def _channel(packet):
    """The channel's number, as the link layer has it; link type 256 numbers the channels by their frequencies."""
    place = packet.number("btle_rf.channel")
    if place is None or packet.number("btle_rf.flags.channel_aliased"):
        return packet.number("nordic_ble.channel")
    advertising = {0: 37, 12: 38, 39: 39}
    return advertising[place] if place in advertising else place - 1 - (place > 12)


def _on_air(packet):
    """The advertisement of a packet of the link layer. In an extended one its data stand last, and it may be one of several packets of one sender."""
    kind, address = packet.number("btle.advertising_header.pdu_type"), packet.first("btle.advertising_address")
    signal, length = packet.number("btle_rf.signal_dbm"), packet.number("btle.advertising_header.length")
    found = Advertisement(
        bytes.fromhex((packet["data.data"] or [""])[-1]), length - ADDRESS, ON_AIR.get(kind, f"PDU type {kind}"), address, _channel(packet),
        packet.number("nordic_ble.rssi") if signal is None else signal)
    if found.kind == EXTENDED:
        found.size = length - 1 - (packet.number("btle.extended_advertising_header.length") or 0)
        if packet.number("btle.extended_advertising_header.mode") != 0:
            found.kind = OTHER_EXTENDED
        found.part = not address or bool(packet.number("btle.extended_advertising_header.flags.aux_pointer"))
    return found


def _sent(packet):
    """What the host advertises by a command."""
    data, size = bytes.fromhex(packet.first("data.data")), packet.number("bthci_cmd.le_data_length") or 0
    return Advertisement(data[:size], size, sent=True, part=packet.number("bthci_cmd.adv_data_operation") not in (None, ALL_AT_ONCE))


def _kind(event):
    """What an extended report tells of, in the link layer's words where it is of a legacy advertisement."""
    if not event & LEGACY:
        return OTHER_EXTENDED if event & NOT_RIGHT else EXTENDED
    return "SCAN_RSP" if event & RESPONSE else {0: RIGHT, 2: "ADV_SCAN_IND", 3: "ADV_IND"}.get(event & 7, "ADV_DIRECT_IND")


class Advertised:
    """The advertisements of packet after packet; `open` are the senders whose data an extended report has begun and none has ended."""

    def __init__(self):
        self.open = set()

    def of(self, packet):
        """The advertisements of a packet, in their order: those that have data."""
        found = []
        if packet["btle.advertising_header.length"]:
            found = [_on_air(packet)]
        elif packet.number("bthci_evt.le_meta_subevent") in (REPORT, EXTENDED_REPORT):
            found = self._reported(packet)
        elif packet.number("bthci_cmd.opcode") in (SET_DATA, SET_EXTENDED_DATA):
            found = [_sent(packet)]
        return [each for each in found if each.data]

    def _reported(self, packet):
        """The advertisements of a host's event: each report has one value of each field, but none of data where their length is 0."""
        data = iter(packet["data.data"])
        plain, extended = packet.numbers("bthci_evt.le_advts_event_type"), packet.numbers("bthci_evt.le_ext_advts_event_type")
        sets = packet["bthci_evt.advertising_sid"] or [""] * len(plain)
        for event, address, number, rssi, size in zip(
                plain or extended, packet["bthci_evt.bd_addr"], sets, packet.numbers("bthci_evt.rssi"), packet.numbers("bthci_evt.data_length")):
            octets = bytes.fromhex(next(data, "")) if size else b""
            found = Advertisement(octets, size, address=address, rssi=None if rssi == NO_RSSI else rssi)
            if plain:
                found.kind = REPORTED.get(event, f"event type {event}")
            else:
                found.kind = _kind(event)
                found.part = self._is_part(event & STATUS, (address, number))
            yield found

    def _is_part(self, status, sender):
        """Whether an extended report has only a part of its sender's data."""
        part = bool(status) or sender in self.open
        self.open.discard(sender)
        if status == MORE:
            self.open.add(sender)
        return part
