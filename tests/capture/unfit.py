"""Captures that are cut off, and inputs that bin/capture cannot read or must not hear, each with what is to be said of it."""
import struct

import files
import packets
from packets import ADV_NONCONN_IND, ADV_SCAN_IND, EVENT, LOST, MESSAGE, MORE, structure
from scene import BEGIN, FLAGS, KEYS, OTHER, captures

PDU = bytes(range(0x10, 0x22))
GOOD = packets.on_air(OTHER, structure(MESSAGE, PDU))
HEAR = "hear " + PDU.hex()
# The comment where neither channel nor RSSI is known.
UNSURE = f"# packet 1, 0.000000 s, from {OTHER.hex(':')}"
# What is said of a mesh message that a node ignores: where it is heard, and where it is not.
MARKED = "a node ignores a mesh message in a connectable or scannable advertisement (MP 3.3.1)"
LEFT = f": not heard, for {MARKED}: {PDU.hex()}"
# How long the head of a file is, and that of a packet.
HEADS = {"251.pcap": (24, 16), "256.pcapng": (48, 28), "h4-reports.btsnoop": (16, 24)}


def cut():
    """Of each container a file that is cut in the last packet's head, in its middle, and by its last octet; a pcapng has its length once more there."""
    for name, octets, adverts, *_ in captures():
        if name in HEADS:
            last = _last(name, octets)
            for at in (last + 3, last + HEADS[name][1] + 9, len(octets) - 1):
                yield f"cut-at-{at}-{name}", octets[:at], len(adverts) - 1, adverts


def _last(name, octets):
    """Where the last packet begins."""
    head, of_packet = HEADS[name]
    at = head
    while True:
        if name.endswith("pcapng"):
            size = struct.unpack_from("<I", octets, at + 4)[0]
        else:
            size = of_packet + struct.unpack_from("<I" if name.endswith("pcap") else ">I", octets, at + (8 if name.endswith("pcap") else 4))[0]
        if at + size == len(octets):
            return at
        at += size


def _sniffed(*found):
    """A capture of link type 251 of these packets."""
    return files.pcap(files.LINK_LAYER, [(BEGIN, packet) for packet in found])


def _misfitting():
    """A packet whose CRC the sniffer calls good, and whose length is not that of its data."""
    return packets.with_radio(GOOD[:5] + bytes([GOOD[5] - 1]) + GOOD[6:], 37, -50)


def _parts():
    """Extended reports of data in parts, each of which looks like a mesh message, and then one that is whole."""
    data = structure(MESSAGE, PDU)
    reports = [packets.extended_report(OTHER, data, -50, state) for state in (MORE, MORE, 0, LOST, 0)]
    return files.btsnoop(files.H4, [(BEGIN, EVENT, report) for report in reports])


def _extended():
    """Extended advertisements: one without data, one that is whole, and those that go on, or have no sender's address."""
    data = structure(MESSAGE, PDU)
    found = (packets.extended(b"", b"", goes_on=True), packets.extended(OTHER, data), packets.extended(OTHER, data, goes_on=True), packets.extended(b"", data))
    return files.pcap(files.LINK_LAYER_RADIO, [(BEGIN, packets.with_radio(packet, 37, -50)) for packet in found])


def _ignored():
    """Captures of one mesh message each, in an advertisement where a node ignores it: its name, its octets and what the advertisement is called."""
    data = structure(MESSAGE, PDU)
    yield "connectable.pcap", _sniffed(packets.extended(OTHER, data, connectable=True)), "an extended advertisement that is connectable or scannable"
    yield "scannable.pcap", _sniffed(packets.on_air(OTHER, data, ADV_SCAN_IND)), "ADV_SCAN_IND"
    yield "response.btsnoop", files.btsnoop(files.H4, [(BEGIN, EVENT, packets.report(OTHER, data, -50, kind=4))]), "SCAN_RSP"


def _several():
    """An event of two reports, of which the first has no data; and one that says two and holds one."""
    whole = packets.reports([(OTHER, b"", -50), (OTHER, structure(MESSAGE, PDU), -51)])
    lacking = bytearray(packets.report(OTHER, FLAGS, -50))
    lacking[3] = 2
    return files.btsnoop(files.MONITOR, [(BEGIN, EVENT, whole), (BEGIN, EVENT, bytes(lacking))])


def _kept_in_part():
    """A good packet, and one of which the sniffer kept all but the last four octets."""
    whole = _sniffed(GOOD)
    return whole + struct.pack("<IIII", 0, 0, len(GOOD) - 4, len(GOOD)) + GOOD[:-4]


def _made():
    """Each file: its name and octets, the status, the words on standard error, and those of a comment, None where nothing is written."""
    yield "nothing", b"", 2, "it has no packets", None
    yield "empty.pcap", files.pcap(files.LINK_LAYER, []), 2, "it has no packets", None
    yield "ethernet.pcap", files.pcap(files.ETHERNET, [(BEGIN, bytes(60))]), 2, "it has no packets of Bluetooth LE; tshark reads its first packet as eth", None
    yield "noise", bytes(range(7, 250)), 2, "it is no capture that tshark reads", None
    yield "text", ("\n".join(KEYS) + "\n").encode(), 2, "bin/capture: ", None
    yield "one.pcap", _sniffed(GOOD)[:50], 2, "it is cut off before the end of its first packet", None
    yield "flags.pcap", _sniffed(packets.on_air(OTHER, FLAGS)), 2, "it has no mesh message to be heard. packets in all: 1", "# End of the capture."
    yield "wrong.pcap", _sniffed(packets.on_air(OTHER, structure(MESSAGE, PDU), ADV_NONCONN_IND, False)), 2, "with a wrong CRC: 1", ": a wrong CRC: not heard"
    yield "part.pcap", _kept_in_part(), 0, "", f": {len(GOOD) - 4} of its {len(GOOD)} octets were kept: not heard"
    yield "misfit.pcap", files.pcap(files.LINK_LAYER_RADIO, [(BEGIN, _misfitting()), (BEGIN, packets.with_radio(GOOD, 37, -50))]), 0, "", \
        ": 20 octets of data where its length says 19: not heard"
    yield "parts.btsnoop", _parts(), 0, "", "parts of longer advertisements: 4;"
    yield "extended.pcap", _extended(), 0, "", "mesh messages heard: 1; parts of longer advertisements: 2; packets in all: 4"
    yield "unsure.pcap", files.pcap(files.LINK_LAYER_RADIO, [(BEGIN, packets.with_radio(GOOD, 37, -50, sure=False))]), 0, "", UNSURE
    yield "unsure.btsnoop", files.btsnoop(files.H4, [(BEGIN, EVENT, packets.report(OTHER, structure(MESSAGE, PDU), 127))]), 0, "", UNSURE
    yield "several.btsnoop", _several(), 0, "", "# packet 2, 0.000000 s: tshark finds this packet malformed"
    yield "lacking.pcap", _sniffed(GOOD), 0, "", "netkey KEY, appkey N KEY, elements FIRST SEQ.., ivindex INDEX FLAG, setup;"
    yield "1. \x1b[31m\n\u00e9.pcap", _sniffed(GOOD), 0, "", "# Capture 1. [31m \u00e9.pcap, by a sniffer of Bluetooth LE"


def _keys():
    """Files of keys: each with its name and octets, the status, and the words on standard error."""
    setup = "\n".join(KEYS) + "\n"
    yield "windows.keys", ("\ufeff" + setup.replace("\n", "\r\n")).encode(), 0, ""
    yield "short.keys", b"netkey 11\nsetup\n", 2, "line 1: the console does not read it: "
    yield "hear.keys", (setup + HEAR).encode(), 2, f"line {len(KEYS) + 1}: hear is no line that sets up a station"
    yield "lacking.keys", b"# nothing\n", 2, "there is no line setup in it"


def unfit(folder):
    """Each case: its name, the arguments, the status, the words on standard error, and those of a comment, None where nothing is written."""
    (folder / "good.pcap").write_bytes(_sniffed(GOOD))
    for name, octets, *rest in _made():
        (folder / name).write_bytes(octets)
        yield name, [(name,)], *rest
    for name, octets, kind in _ignored():
        (folder / name).write_bytes(octets)
        yield name, [(name,)], 0, "", f", in {kind}: {MARKED}"
        yield f"{name}, counted", [(name,)], 0, "", "mesh messages heard: 1; of these in advertisements where a node ignores them: 1; packets in all: 1"
        yield f"{name}, as a node", ["--as-a-node", (name,)], 2, "no mesh message to be heard. mesh messages that a node ignores: 1;", f", in {kind}{LEFT}"
    for name, octets, status, words in _keys():
        (folder / name).write_bytes(octets)
        yield name, [("good.pcap",), (name,)], status, words, None if status else KEYS[-1]
    for name, arguments, words in (
            ("no argument", [], "use: "), ("an option alone", ["--as-a-node"], "use: "), ("three arguments", ["1", "2", "3"], "use: "),
            ("no file", [("none",)], "there is no file"), ("a folder", [("",)], "there is no file"),
            ("no file of keys", [("good.pcap",), ("none",)], "there is no file")):
        yield name, arguments, 2, words, None
