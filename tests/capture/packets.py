"""Advertisements as a sniffer and as a host see them: packets of the link layer, and HCI events and commands, octet for octet."""
import struct

MESSAGE, BEACON, PROVISIONING = 0x2A, 0x2B, 0x29
ADV_IND, ADV_NONCONN_IND, ADV_SCAN_IND, ADV_EXTENDED = 0, 2, 6, 7
ACCESS_ADDRESS = 0x8E89BED6
# The CRC of an advertisement begins with these bits; its polynomial, the lowest power first.
CRC_START, CRC_TAPS = 0x555555, 0xDA6000
# HCI: the kinds of a packet, the event that carries the reports, its two kinds, and the commands that say what the host advertises.
COMMAND, EVENT, META, REPORT, EXTENDED_REPORT = 1, 4, 0x3E, 0x02, 0x0D
SET_DATA, SET_EXTENDED_DATA = 0x2008, 0x2037
# Of an extended report: it tells of an ADV_NONCONN_IND or an ADV_IND; its data are whole, go on, or were cut off.
LEGACY_NONCONN, LEGACY_IND, WHOLE, MORE, LOST = 0x0010, 0x0013, 0x0000, 0x0020, 0x0040


def structure(kind, octets):
    """One AD structure."""
    return bytes([len(octets) + 1, kind]) + octets


def _crc(octets):
    """The CRC behind an advertisement, as it is sent."""
    state = int(f"{CRC_START:024b}"[::-1], 2)
    for octet in octets:
        for bit in range(8):
            low = (state ^ octet >> bit) & 1
            state = state >> 1 ^ (CRC_TAPS if low else 0)
    return state.to_bytes(3, "little")


def _packet(kind, body, good=True):
    """A packet of the link layer, its sender's address random; its CRC is wrong where it is not good."""
    pdu = bytes([0x40 | kind, len(body)]) + body
    crc = _crc(pdu)
    return struct.pack("<I", ACCESS_ADDRESS) + pdu + (crc if good else bytes([crc[0] ^ 1]) + crc[1:])


def on_air(address, data, kind=ADV_NONCONN_IND, good=True):
    """A packet of the link layer with an advertisement that is not extended."""
    return _packet(kind, address[::-1] + data, good)


def extended(address, data, goes_on=False, connectable=False):
    """A packet with an extended advertisement: its header has the address, if there is one, and where it goes on a pointer to the next packet."""
    header = bytes([bool(address) | 0x10 * goes_on]) + address[::-1] + (bytes([5, 10, 0]) if goes_on else b"")
    return _packet(ADV_EXTENDED, bytes([len(header) | 0x40 * connectable]) + header + data)


def with_radio(packet, channel, rssi, good=True, sure=True):
    """The packet under the header of link type 256: the channel by its frequency, the signal, whether both are sure, and that the CRC was checked."""
    place = {37: 0, 38: 12, 39: 39}[channel]
    return struct.pack("<BbbBIH", place, rssi, 0, 0, ACCESS_ADDRESS, 0x0411 | 0x0800 * good | (0x0002 if sure else 0x0040)) + packet


def with_nordic(packet, channel, rssi, good=True, counter=0):
    """The packet under the header of link type 272, version 3 of the nRF sniffer."""
    head = struct.pack("<BBBBHI", 10, good, channel, -rssi, 0, 1000 * counter)
    return struct.pack("<BHBHB", 0, len(head + packet), 3, counter, 2) + head + packet


def _event(kind, octets):
    """An HCI event of the LE controller."""
    return bytes([META, len(octets) + 1, kind]) + octets


def report(address, data, rssi, kind=3):
    """An LE Advertising Report of one advertisement: kind 3 is ADV_NONCONN_IND, 0 ADV_IND, 4 SCAN_RSP."""
    return reports([(address, data, rssi)], kind)


def reports(heard, kind=3):
    """An LE Advertising Report of several advertisements, one behind the other."""
    octets = bytes([len(heard)])
    for address, data, rssi in heard:
        octets += bytes([kind, 1]) + address[::-1] + bytes([len(data)]) + data + struct.pack("b", rssi)
    return _event(REPORT, octets)


def extended_report(address, data, rssi, state=WHOLE, connectable=False):
    """An LE Extended Advertising Report of one advertisement."""
    return _event(EXTENDED_REPORT, bytes([1]) + struct.pack("<HB", (LEGACY_IND if connectable else LEGACY_NONCONN) | state, 1) + address[::-1]
                  + struct.pack("<BBBbbHB", 1, 0, 0xFF, 0x7F, rssi, 0, 0) + bytes(6) + bytes([len(data)]) + data)


def set_data(data):
    """The command LE Set Advertising Data."""
    return struct.pack("<HBB", SET_DATA, 32, len(data)) + data.ljust(31, b"\0")


def set_extended_data(data):
    """The command LE Set Extended Advertising Data, all of it in one."""
    octets = bytes([0, 3, 1, len(data)]) + data
    return struct.pack("<HB", SET_EXTENDED_DATA, len(octets)) + octets
