"""Capture files: pcap, pcapng and btsnoop, each of packets with their times in microseconds since 1970."""
import struct

LINK_LAYER, LINK_LAYER_RADIO, NORDIC, HOST, ETHERNET = 251, 256, 272, 201, 1
H4, MONITOR = 1002, 2001
# What a monitor calls a command and an event; and microseconds from btsnoop's year 0 to 1970.
MONITOR_KINDS = {1: 2, 4: 3}
YEAR_0 = 0x00DCDDB30F2F8000


def pcap(link, packets):
    """The classic file of packets (time, octets)."""
    text = struct.pack("<IHHiIII", 0xA1B2C3D4, 2, 4, 0, 0, 65535, link)
    for time, octets in packets:
        text += struct.pack("<IIII", *divmod(time, 1000000), len(octets), len(octets)) + octets
    return text


def _block(kind, octets):
    """A block of a pcapng."""
    padded = octets + bytes(-len(octets) % 4)
    size = struct.pack("<I", len(padded) + 12)
    return struct.pack("<I", kind) + size + padded + size


def pcapng(link, packets):
    """The newer file of packets (time, octets)."""
    text = _block(0x0A0D0D0A, struct.pack("<IHHq", 0x1A2B3C4D, 1, 0, -1)) + _block(1, struct.pack("<HHI", link, 0, 65535))
    for time, octets in packets:
        text += _block(6, struct.pack("<IIIII", 0, time >> 32, time & 0xFFFFFFFF, len(octets), len(octets)) + octets)
    return text


def host(packets):
    """A pcap of link type 201, of packets (time, kind, octets)."""
    return pcap(HOST, [(time, struct.pack(">IB", kind == 4, kind) + octets) for time, kind, octets in packets])


def btsnoop(link, packets):
    """A host's log of packets (time, kind, octets): of link type H4, or as a monitor writes it."""
    text = b"btsnoop\0" + struct.pack(">II", 1, link)
    for time, kind, octets in packets:
        flags, octets = (MONITOR_KINDS[kind], octets) if link == MONITOR else ((kind == 4) | 2, bytes([kind]) + octets)
        text += struct.pack(">IIIIq", len(octets), len(octets), flags, 0, time + YEAR_0) + octets
    return text
