"""The boxes of the filling shed: what each of them sends, as sealed Network PDUs.

A line of story.txt makes a box, and nothing else is needed for it:

  box NAME ADDRESS "WORDS" start SEQ                                    a box that sends the wind's force
  box NAME ADDRESS "WORDS" start SEQ long RECORDS                       and a long message, in segments
  box NAME ADDRESS "WORDS" start SEQ before RECORDS now RECORDS         and first readings under the IV Index before and the one now

NAME is its name in story.txt, WORDS its name in the picture. ADDRESS is its SRC, of four hexadecimal digits, SEQ its first number, of six. RECORDS
are what a Sensor Status message says, written as the console reads them, any number of times one of these:

  PROPERTY humidity VALUE..       two octets for each value: percent with two decimals, or unknown
  PROPERTY temperature VALUE..    likewise: degrees with two decimals, or unknown
  PROPERTY raw OCTETS             1 to 127 octets, as they are sent

What a box sends, story.txt names behind `hear NAME`: `segment N` with nothing, resent, relayed or forged behind it; `status TTL DST`, the wind's
force; `label TTL NAME`, the same to one of the labels below; `first before` and `first now`, with nothing or relayed behind it; `recorded`, the first PDU that it sent, once more; `echo`, the last PDU that
the station sent, which the box hands on as a relay.
"""
import re

import network
import transport
from ciphers import k2, k4, label_address

# MP's sample data, 8.3, as story.txt sets the station up with them.
NETWORK_KEY = bytes.fromhex("7dd7364cd842ad18c17c2b820c84c3d6")
APPLICATION_KEY = bytes.fromhex("63964771734fbd76e3b40519d1d94a48")
IV_INDEX = 0x12345678
INDEXES = {"before": IV_INDEX - 1, "now": IV_INDEX}
STATION, TTL = 0x0001, 5
# Three labels of one address, found by search. The station holds the first two.
LABELS = {name: bytes.fromhex(octets * 8) for name, octets in (("filling", "0039"), ("launching", "0073"), ("visitors", "2a01"))}

# Sensor Status of the Mesh Model, and for each kind of value how it is counted: signed or not, and the count that says "not known".
SENSOR_STATUS = b"\x52"
KINDS = {"humidity": (False, 0xFFFF), "temperature": (True, -0x8000)}
# A vendor's opcode of three octets (MP 3.7.3.1), which the wind's force follows.
WIND_STATUS = b"\xc1\xff\xff"

# A line that makes a box, and its parts.
FORM = 'box NAME ADDRESS "WORDS" start SEQ, and behind it nothing, long RECORDS, or before RECORDS now RECORDS'
LINE = re.compile(r'box (\w+) ([0-9a-f]{4}) "([^"]*[^" ][^"]*)" start ([0-9a-f]{6})(?: long (?P<long>.+)| before (?P<before>.+) now (?P<now>.+))?')
VALUE, PROPERTY, OCTETS = re.compile(r"-?\d+\.\d\d"), re.compile(r"[0-9a-f]{4}"), re.compile(r"(?:[0-9a-f]{2})+")
# The longest message in segments, and in one PDU.
LONGEST, SHORT = 380, 11
LAST_SEQ = 0xFFFFFF


class Unknown(Exception):
    """What a box was to say is nothing that it can say."""


def header(of, size):
    """What stands before a value: the length less one and the property, in format A, or in B where they need more bits."""
    if of < 0x800 and 1 <= size <= 16:
        return (of << 5 | (size - 1) << 1).to_bytes(2, "little")
    return (of << 8 | (size - 1 & 0x7F) << 1 | 1).to_bytes(3, "little")


def counted(kind, word):
    """The two octets of a value, low octet first: its hundredths, or that it is not known."""
    signed, unknown = KINDS[kind]
    if word != "unknown" and not VALUE.fullmatch(word):
        raise Unknown(f"{word} is no {kind}: it is a number with two decimals, or unknown")
    count = unknown if word == "unknown" else int(word.replace(".", ""))
    try:
        return count.to_bytes(2, "little", signed=signed)
    except OverflowError:
        raise Unknown(f"{word} is no {kind}: two octets do not hold it") from None


def octets(word):
    """The octets of a raw value."""
    if not OCTETS.fullmatch(word) or len(word) > 2 * 127:
        raise Unknown(f"{word or 'nothing'} is not 1 to 127 octets in hexadecimal")
    return bytes.fromhex(word)


def record(of, kind, words):
    """The records of one property; takes their values off the words."""
    if kind == "raw":
        values = [octets(words.pop(0) if words else "")]
    elif kind in KINDS:
        values = []
        while words and not PROPERTY.fullmatch(words[0]):
            values.append(counted(kind, words.pop(0)))
    else:
        raise Unknown(f"{kind or 'nothing'} stands behind property {of}, not humidity, temperature or raw")
    if not values:
        raise Unknown(f"property {of} has no value")
    return b"".join(header(int(of, 16), len(value)) + value for value in values)


def status(text):
    """The Sensor Status message of some records."""
    words, found = text.split(), SENSOR_STATUS
    while words:
        of = words.pop(0)
        if not PROPERTY.fullmatch(of):
            raise Unknown(f"{of} stands where a property of four hexadecimal digits should")
        found += record(of, words.pop(0) if words else "", words)
    return found


class Box:
    """A node beside the station. It begins its long message, if it has one, with the SEQ `start`; segment N is first sent with `start` + N.

    A box whose SEQ starts again with the IV Index has a first reading before and one now.
    """

    def __init__(self, src, start, words, payload, firsts):
        self.src, self.start, self.words, self.payload, self.firsts = src, start, words, payload, firsts
        self.segments, self.latest, self.said = [], {}, []
        if payload:
            self.segments = self._cut(start, self._secured(start, STATION, payload))
        self.next = start + len(self.segments) + (1 if firsts else 0)
        if self.next > LAST_SEQ + 1:
            raise Unknown(f"its numbers end with {LAST_SEQ:x}, and its message needs more")

    @staticmethod
    def _cut(start, upper):
        """The segments of a message that is begun with this SEQ."""
        return transport.cut(0, 0x40 | k4(APPLICATION_KEY), 0, start, upper)

    def counting(self):
        """Its segments as a wrong box makes them: the SeqZero of each is that of its own SEQ, not of the SEQ that the message was begun with."""
        upper = self._secured(self.start, STATION, self.payload)
        return [self._cut(self.start + place, upper)[place] for place in range(len(self.segments))]

    def _secured(self, seq, dst, payload, index=IV_INDEX, label=b""):
        """The upper transport octets of a message."""
        return transport.secure(APPLICATION_KEY, False, 4, seq, self.src, dst, index, payload, label)

    def _take(self):
        """Its next SEQ."""
        if self.next > LAST_SEQ:
            raise Unknown(f"its numbers end with {LAST_SEQ:x}")
        self.next += 1
        return self.next - 1

    def _sealed(self, ttl, seq, dst, body, index=IV_INDEX):
        """A Network PDU that it sends."""
        pdu = network.seal(k2(NETWORK_KEY), index, 0, ttl, seq, self.src, dst, body)
        self.said.append(pdu)
        return pdu

    def _short(self, ttl, seq, dst, payload, index=IV_INDEX, label=b""):
        """A message that is whole in one PDU."""
        return self._sealed(ttl, seq, dst, bytes([0x40 | k4(APPLICATION_KEY)]) + self._secured(seq, dst, payload, index, label), index)

    def segment(self, place, how=""):
        """A segment of the long message: as first sent, resent under a new SEQ, relayed (the latest, its TTL one lower), or forged."""
        if place >= len(self.segments) or how not in ("", "resent", "relayed", "forged"):
            raise Unknown(f"segment {place:x} {how}")
        if how == "resent":
            self.latest[place] = self._take()
        seq = self.latest.setdefault(place, self.start + place)
        pdu = self._sealed(TTL - (how == "relayed"), seq, STATION, self.segments[place])
        return pdu[:-1] + bytes([pdu[-1] ^ 1]) if how == "forged" else pdu

    def status(self, ttl, dst):
        """A short message, whole in one PDU: the wind's force, which grows from 3 on."""
        return self._short(ttl, self._take(), dst, WIND_STATUS + bytes([3 + len(self.said)]))

    def label(self, ttl, name):
        """The same to a label."""
        if name not in LABELS:
            raise Unknown(f"label {name}")
        label = LABELS[name]
        return self._short(ttl, self._take(), label_address(label), WIND_STATUS + bytes([3 + len(self.said)]), label=label)

    def first(self, when, how=""):
        """Its first reading under the IV Index before or under the one now, each with the SEQ `start`; or relayed, its TTL one lower."""
        if when not in self.firsts or how not in ("", "relayed"):
            raise Unknown(f"first {when} {how}")
        return self._short(TTL - (how == "relayed"), self.start, STATION, self.firsts[when], INDEXES[when])

    def recorded(self):
        """The first PDU that it sent, once more."""
        if not self.said:
            raise Unknown("recorded, before it has sent anything")
        return self.said[0]

    def echo(self, last):
        """The last PDU that the station sent, as a relay hands it on: opened, and sealed again with its TTL one lower."""
        opened = network.unseal(k2(NETWORK_KEY), IV_INDEX, last) if last else None
        if not opened:
            raise Unknown("echo, before the station has sent anything that it can open")
        if opened.ttl < 2:
            raise Unknown(f"echo, of a PDU with TTL {opened.ttl}: a relay hands on those with 2 and more")
        return network.seal(k2(NETWORK_KEY), IV_INDEX, *opened._replace(ttl=opened.ttl - 1))


def said(text, most):
    """The message of some records, or none where there are none."""
    message = status(text) if text else b""
    if len(message) > most:
        raise Unknown(f"its message of {len(message)} octets is longer than {most}")
    return message


def from_line(line, shed):
    """The name and the box that a line of story.txt makes, beside those of the shed."""
    found = LINE.fullmatch(line)
    if not found:
        raise Unknown(f"a box is made by: {FORM}")
    name, src, words, start = found.groups()[:4]
    if name in shed:
        raise Unknown(f"there is a box {name} already")
    if not 1 <= int(src, 16) <= 0x7FFF or int(src, 16) in (STATION, *(box.src for box in shed.values())):
        raise Unknown(f"{src} is no box's address, or it is taken: 0001 is the station, and a box has another up to 7fff")
    firsts = {when: said(found[when], SHORT) for when in INDEXES if found[when]}
    return name, Box(int(src, 16), int(start, 16), words.strip(), said(found["long"], LONGEST), firsts)
