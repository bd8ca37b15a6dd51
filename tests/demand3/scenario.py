"""Demand 3's scenario, made from a seed: a fresh receiver, up to eight speeches of different sources, and a list of arrivals.

A speech is one segmented message. An arrival is a segment of a speech, sent with a SEQ of its own from SeqAuth to SeqAuth + 8,191; or the
same PDU again, also with another TTL; or a PDU that no key opens; or a request to acknowledge a source. Each segment of each speech arrives.
"""
import random
from collections import namedtuple

import network
import transport
from ciphers import k2, k4, label_address

# start is SeqAuth's SEQ; handed is the answer that hands it up, without its trial counts, and the message.
Speech = namedtuple("Speech", "src dst net credentials ctl index start parts handed")
# number is the speech's, part the segment's; both None for a PDU that no key opens.
Segment = namedtuple("Segment", "line number part")
Request = namedtuple("Request", "line number net")


class Scenario:
    """The setup's lines, the speeches and the arrivals; sending_index is the IV Index that the receiver sends under. Labels have dice of their own."""

    def __init__(self, seed):
        self.dice, self.marks = random.Random(seed), random.Random(f"labels {seed}")
        dice = self.dice
        self.nets = self._net_keys(dice.randint(1, 4))
        self.apps = [(dice.randrange(len(self.nets)), dice.randbytes(16)) for _ in range(dice.randint(0, 4))]
        self.device = dice.randbytes(16)
        self.elements = dice.randint(1, 8)
        self.first = dice.randint(1, 0x8000 - self.elements)
        self.groups = [dice.randint(0xC000, 0xFEFF) for _ in range(dice.randint(0, 8))]
        self.labels = self._labels(self.marks.randint(0, 4))
        self.index = dice.choice((1, 2, 0xFFFFFFFF, dice.randrange(1, 1 << 32)))
        self.flag = dice.randint(0, 1)
        self.relay = dice.randint(0, 1)
        self.sending_index = self.index - self.flag
        others = [src for src in range(1, 0x8000) if not self.first <= src < self.first + self.elements]
        sources = dice.sample(others, dice.choice((8, dice.randint(1, 8))))
        self.speeches = [self._speech(src) for src in sources]
        self.arrivals = self._arrivals()

    def _net_keys(self, count):
        """Network keys, of which the second has the first one's NID."""
        keys = [self.dice.randbytes(16) for _ in range(count)]
        while count > 1 and k2(keys[1]).nid != k2(keys[0]).nid:
            keys[1] = self.dice.randbytes(16)
        return keys

    def _labels(self, count):
        """Labels, of which the first two have one address, and the fourth is the second again."""
        found, labels = {}, []
        while count > 1 and not labels:
            label = self.marks.randbytes(16)
            labels = [found[label_address(label)], label] if label_address(label) in found else []
            found[label_address(label)] = label
        labels += [self.marks.randbytes(16) for _ in range(count - len(labels))]
        return labels[:3] + labels[1:2] if count == 4 else labels

    def setup(self):
        """The lines that set up a fresh receiver."""
        lines = [f"netkey {key.hex()}" for key in self.nets] + [f"appkey {bound:x} {key.hex()}" for bound, key in self.apps]
        lines += [f"devkey {self.device.hex()}", f"elements {self.first:x}" + " 0" * self.elements, f"ivindex {self.index:x} {self.flag}"]
        lines += [f"group {group:x}" for group in self.groups] + [f"label {label.hex()}" for label in self.labels]
        return lines + [f"relay {self.relay}", "setup"]

    def _speech(self, src):
        """A segmented message of any kind to a DST that is for the receiver."""
        dice = self.dice
        net, index = dice.randrange(len(self.nets)), self.index - dice.randint(0, 1)
        start = dice.choice((dice.randrange(100), dice.randrange(0xFFFFFF - 100), 0xFFFFFF - dice.randint(80, 200)))
        ctl = dice.choice((0, 0, 1))
        dst, to, parts, key, payload = self._control(start) if ctl else self._access(src, net, index, start)
        handed = (f"{'control' if ctl else 'access'} src {src:04x} dst {dst:04x}{to} net {net:x} {key} iv {index:08x} seq {start:06x}", payload.hex())
        return Speech(src, dst, net, k2(self.nets[net]), ctl, index, start, parts, handed)

    def _local(self):
        return self.first + self.dice.randrange(self.elements)

    def _destination(self):
        return self.dice.choice([self._local(), self._local(), 0xFFFF] + self.groups)

    def _octets(self, most):
        return self.dice.randbytes(self.dice.choice((most, self.dice.randint(1, most), self.dice.randint(1, 40))))

    def _control(self, start):
        """DST, segments, the answer's words for the opcode, and the parameters; behind DST no words for a label."""
        opcode, parameters = self.dice.randint(1, 0x7F), self._octets(256)
        return self._destination(), "", transport.cut(1, opcode, 0, start, parameters), f"opcode {opcode:x}", parameters

    def _access(self, src, net, index, start):
        """DST, the answer's words for the label, segments, its words for the key, and the payload; under the device key the DST is unicast."""
        fitting = [at for at, (bound, _) in enumerate(self.apps) if bound == net]
        mic = self.dice.choice((4, 8))
        payload = self._octets(384 - mic)
        of_device = not fitting or self.dice.random() < 0.3
        label, to = b"", ""
        if of_device:
            dst, secret, first, key = self._local(), self.device, 0, "key dev"
        else:
            at = self.dice.choice(fitting)
            dst, secret, key = self._destination(), self.apps[at][1], f"key {at:x}"
            first = 0x40 | k4(secret)
            if self.labels and self.marks.random() < 0.4:
                # of equal labels the first is named
                label = self.marks.choice(self.labels)
                dst, to = label_address(label), f" label {self.labels.index(label):x}"
        upper = transport.secure(secret, of_device, mic, start, src, dst, index, payload, label)
        return dst, to, transport.cut(0, first, int(mic == 8), start, upper), key, payload

    def segment(self, number, part, seq, ttl):
        speech = self.speeches[number]
        pdu = network.seal(speech.credentials, speech.index, speech.ctl, ttl, seq, speech.src, speech.dst, speech.parts[part])
        return Segment(f"hear {pdu.hex()}", number, part)

    def _spoken(self, number):
        """What arrives of one speech: every segment, some again in one of the three ways."""
        dice, speech = self.dice, self.speeches[number]
        count = len(speech.parts)
        window = min(transport.WINDOW, 0xFFFFFF - speech.start + 1)
        parts = list(range(count)) + [dice.randrange(count) for _ in range(dice.randint(0, count))]
        if dice.random() < 0.5:
            dice.shuffle(parts)
        seqs = dice.sample(range(speech.start, speech.start + window), len(parts))
        for part, seq in zip(parts, seqs):
            ttl = dice.randrange(128)
            yield self.segment(number, part, seq, ttl)
            if dice.random() < 0.1:
                yield self.segment(number, part, seq, dice.choice((ttl, dice.randrange(128))))

    def _noise(self):
        """A PDU that no key opens: any octets, or a true one damaged behind its header."""
        dice = self.dice
        number = dice.randrange(len(self.speeches))
        pdu = bytes.fromhex(self.segment(number, 0, self.speeches[number].start, 5).line.split()[1])
        at = dice.randrange(7, len(pdu))
        damaged = pdu[:at] + bytes([pdu[at] ^ 1 << dice.randrange(8)]) + pdu[at + 1:]
        octets = dice.choice((damaged, dice.randbytes(dice.randint(0, 40)), pdu[:-1], pdu + b"\x00"))
        return Segment(f"hear {octets.hex() or '-'}", None, None)

    def _arrivals(self):
        """All speeches' segments mixed, in half of the scenarios after the first of each; then the same PDUs again, noise and requests between."""
        dice = self.dice
        spoken = [list(self._spoken(number)) for number in range(len(self.speeches))]
        ahead = dice.randint(0, 1)
        order = [number for number, parts in enumerate(spoken) for _ in parts[ahead:]]
        dice.shuffle(order)
        arrivals = [spoken[number].pop(0) for number in [*range(len(spoken))] * ahead + order]
        for _ in range(dice.randint(0, len(arrivals) // 2)):
            at = dice.randrange(len(arrivals))
            arrivals.insert(dice.randint(at + 1, len(arrivals)), arrivals[at])
        mixed, begun = [], set()
        for arrival in arrivals:
            if dice.random() < 0.1:
                mixed.append(self._noise())
            mixed.append(arrival)
            begun.add(arrival.number)
            if dice.random() < 0.25:
                mixed += self._request(dice.choice(sorted(begun)))
        return mixed

    def _request(self, number):
        """A request to acknowledge a speech that has begun, over any network key; none where it goes to no unicast address."""
        speech, net = self.speeches[number], self.dice.randrange(len(self.nets))
        if network.kind(speech.dst) == "unicast":
            yield Request(f"ack {net:x} {speech.src:x}", number, net)

    def sequential(self):
        """The speeches one after another: each segment once, in SegO order."""
        return [self.segment(number, part, speech.start + part, 5) for number, speech in enumerate(self.speeches) for part in range(len(speech.parts))]
