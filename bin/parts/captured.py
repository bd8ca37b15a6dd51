"""Writes the mesh messages of a capture as a log of the console: see bin/capture."""
import os
import sys
from collections import Counter
from datetime import datetime, timedelta, timezone
from decimal import Decimal

from advertised import BEACON, MESSAGE, PROVISIONING, RIGHT, Advertised, structures
from dissected import Capture
from exchange import is_silent, read
from given import put, refused
from hints import MARK, hint
from rows import written

PROGRAM = "bin/capture"
# What a packet's protocols say of the capture; the first that is found counts.
SOURCES = {
    "nordic_ble": "by the nRF sniffer of Bluetooth LE", "btle_rf": "by a sniffer of Bluetooth LE, with channels", "btle": "by a sniffer of Bluetooth LE",
    "hci_mon": "a host's log, as btmon writes it", "bthci_evt": "a host's log of HCI", "bthci_cmd": "a host's log of HCI"}
AS_A_NODE, IS_IGNORED = "--as-a-node", "a node ignores a mesh message in a connectable or scannable advertisement (MP 3.3.1)"
NAMES = {MESSAGE: "a mesh message", BEACON: "a mesh beacon", PROVISIONING: "PB-ADV"}
# What is counted, in the order in which it is said.
HEARD, MARKED, IGNORED, SENT, BEACONS, PROVISIONED, WRONG_CRC, SHORT, PARTS, DAMAGED, PACKETS = KINDS = (
    "mesh messages heard", "of these in advertisements where a node ignores them", "mesh messages that a node ignores", "sent by this host", "mesh beacons",
    "PB-ADV", "advertisements with a wrong CRC", "packets kept in part", "parts of longer advertisements", "damaged advertisements", "packets in all")
COUNTED = {BEACON: BEACONS, PROVISIONING: PROVISIONED}
SETTING_UP = ("netkey", "appkey", "devkey", "elements", "group", "label", "ivindex", "relay", "setup", "property", "properties", "room")
LACKING = (
    "# Here the lines are lacking that set up the station: netkey KEY, appkey N KEY, elements FIRST SEQ.., ivindex INDEX FLAG, setup; and for the",
    "# readings property P humidity, property P temperature (docs/CONSOLE.md). bin/capture FILE KEYS takes them from a file KEYS.")


class Unusable(Exception):
    """What was given cannot be made into a log."""


def setting_up(name):
    """The lines of a file of keys, after a look whether the console reads them; a byte order mark and carriage returns at line ends are taken off."""
    lines = [line.removesuffix("\r") for line in read(name)]
    if lines:
        lines[0] = lines[0].removeprefix(MARK)
    for number, line in enumerate(lines, 1):
        found, word = hint(line, True), line.split(" ")[0]
        if found:
            raise Unusable(f"{_shown(name)}, line {number}: the console does not read it: {found.cause}")
        if not is_silent(line) and word not in SETTING_UP:
            raise Unusable(f"{_shown(name)}, line {number}: {word} is no line that sets up a station")
    if "setup" not in lines:
        raise Unusable(f"{_shown(name)}: there is no line setup in it")
    return [written(line) if line.startswith("#") else line for line in lines]


class Log:
    """The lines of a log, and how often each thing was met; `first` is the time of the first packet, `source` what the capture is.

    `as_a_node`: what a node ignores is not heard.
    """

    def __init__(self, as_a_node):
        self.as_a_node = as_a_node
        self.lines, self.counts, self.first, self.source, self.protocols = [], Counter(), None, "", ""
        self.advertised = Advertised()

    def time(self, packet):
        """The seconds from the first packet to this one, in words."""
        if not packet["frame.time_epoch"]:
            return "at no known time"
        now = Decimal(packet.first("frame.time_epoch"))
        self.first = now if self.first is None else self.first
        return f"{now - self.first:.6f} s"

    def take(self, packet):
        """Adds what a packet holds."""
        self.counts[PACKETS] += 1
        place, kept, length = f"# packet {packet.first('frame.number')}, {self.time(packet)}", packet.number("frame.cap_len"), packet.number("frame.len")
        self.protocols = self.protocols or packet.first("frame.protocols")
        self.source = self.source or next((words for name, words in SOURCES.items() if name in packet.first("frame.protocols").split(":")), "")
        if kept < length:
            self.counts[SHORT] += 1
            self.lines.append(f"{place}: {kept} of its {length} octets were kept: not heard")
            return
        for each in self.advertised.of(packet):
            self.advertisement(place + _where(each), packet, each)
        if packet["_ws.malformed"] and packet["bthci_evt.le_meta_subevent"]:
            self.counts[DAMAGED] += 1
            self.lines.append(f"{place}: tshark finds this packet malformed, and does not read all of it")

    def advertisement(self, head, packet, each):
        """Adds what an advertisement holds of mesh, or why it is not heard."""
        if packet["btle.crc.incorrect"]:
            self.counts[WRONG_CRC] += 1
            if any(found.type in NAMES for found in structures(each.data)):
                self.lines.append(f"{head}: a wrong CRC: not heard")
        elif len(each.data) != each.size:
            self.counts[DAMAGED] += 1
            self.lines.append(f"{head}: {len(each.data)} octets of data where its length says {each.size}: not heard")
        elif each.part:
            self.counts[PARTS] += 1
        else:
            for found in structures(each.data):
                self.structure(head, each, found)

    def structure(self, head, each, found):
        """Adds an AD structure, if it is one of mesh or damaged."""
        octets = found.octets.hex() or "-"
        if found.type is None:
            self.counts[DAMAGED] += 1
            self.lines.append(f"{head}: damaged from here on, and not heard: {octets}")
        elif found.type in NAMES and each.sent:
            self.counts[SENT] += 1
            self.lines.append(f"{head}: sent by this host, {NAMES[found.type]}: {octets}")
        elif found.type == MESSAGE and each.is_ignored and self.as_a_node:
            self.counts[IGNORED] += 1
            self.lines.append(f"{head}: not heard, for {IS_IGNORED}: {octets}")
        elif found.type == MESSAGE:
            self.counts[HEARD] += 1
            self.counts[MARKED] += each.is_ignored
            self.lines += [f"{head}: {IS_IGNORED}" if each.is_ignored else head, f"hear {octets}"]
        elif found.type in NAMES:
            self.counts[COUNTED[found.type]] += 1
            self.lines.append(f"{head}: {NAMES[found.type]}: {octets}")

    def counted(self):
        """What was met, in words."""
        return "; ".join(f"{name}: {self.counts[name]}" for name in KINDS if self.counts[name])

    def head(self, name):
        """The lines before all others: what the capture is, and when it begins."""
        yield f"# Capture {_shown(os.path.basename(name))}, {self.source}"
        if self.first is not None:
            begin = datetime(1970, 1, 1, tzinfo=timezone.utc) + timedelta(microseconds=int(self.first * 1000000))
            yield f"# Times are seconds from its first packet, which came at {begin:%Y-%m-%d %H:%M:%S.%f} UTC."


def _shown(name):
    """A file's name as it can be shown."""
    return written(os.fsencode(name).decode("latin-1"))


def _where(each):
    """Where an advertisement came from, as far as that is known, and its kind where it is not the one that mesh has."""
    words = [f"channel {each.channel}"] if each.channel is not None else []
    words += [f"{each.rssi} dBm"] if each.rssi is not None else []
    words += [f"from {each.address}"] if each.address else []
    words += [f"in {each.kind}"] if each.kind != RIGHT else []
    return "".join(f", {word}" for word in words)


def unread(capture, log):
    """Why a capture has nothing to say; no text where it has."""
    if capture.fault and not capture.count:
        return "it is cut off before the end of its first packet" if capture.is_cut else f"it is no capture that tshark reads: {capture.fault}"
    if not capture.count:
        return "it has no packets"
    return "" if log.source else f"it has no packets of Bluetooth LE; tshark reads its first packet as {log.protocols}"


def ended(capture, log):
    """The last lines of a log, and the words for what is wrong with the whole of it."""
    if not capture.fault:
        return [f"# End of the capture. {log.counted()}"], "" if log.counts[HEARD] else f"it has no mesh message to be heard. {log.counted()}"
    wrong = f"behind packet {capture.count} it is " + ("cut off, and the next packet is not whole" if capture.is_cut else f"damaged: {capture.fault}")
    return [f"# The capture ends too early: {wrong}.", f"# What came before: {log.counted()}"], f"{wrong}; what came before is written"


def main():
    as_a_node = sys.argv[1] == AS_A_NODE
    name, *keys = sys.argv[1 + as_a_node:]
    capture, log = Capture(name), Log(as_a_node)
    try:
        setup = setting_up(keys[0]) if keys else LACKING
    except Unusable as wrong:
        return refused(f"{PROGRAM}: {wrong}")
    for packet in capture:
        log.take(packet)
    wrong = unread(capture, log)
    if not wrong:
        last, wrong = ended(capture, log)
        put("\n".join([*log.head(name), *setup, *log.lines, *last, ""]).encode())
    return refused(f"{PROGRAM}: {_shown(name)}: {wrong}") if wrong else 0


sys.exit(main())
