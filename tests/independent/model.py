"""The receiver of document 01: what it holds, setting up, hearing one PDU, giving up a session. sending.py has what it sends.

Written for reading beside the document, not for speed; it shares no code with the Rattle crates. Every refusal carries, beside its
number, the words for why, and the receiver notes which of the document's other cases it met, so that the comparison can count them.
"""
from collections import namedtuple
from dataclasses import dataclass, field

import network
import transport
from ciphers import k2, k4, label_address
from network import kind

CACHE, REPLAY, SESSIONS, LABELS, MESSAGE_ROOM = 16, 32, 8, 4, 384

Stored = namedtuple("Stored", "src auth bits")
Repeat = namedtuple("Repeat", "src auth bits")
# key is the application key's number, or None for the device key; label is the label's number where DST is virtual, else None; pair is
# (IV Index, SEQ), of SeqAuth for a segmented message.
Access = namedtuple("Access", "src dst net key label pair payload")
Control = namedtuple("Control", "src dst net opcode pair payload")
Acknowledged = namedtuple("Acknowledged", "src bits effect")
Refused = namedtuple("Refused", "number why")
# What hearing gives: one of the above, the two trial counts, and the forwarded PDU or None.
Heard = namedtuple("Heard", "answer trials forward")
# What the cache keeps of a PDU: document 02 has, beside SRC and SEQ, the IV Index under which it was opened.
Seen = namedtuple("Seen", "src seq iv_index")
AGAIN = "same SRC and SEQ under the other index"
# What the receiver has sent: document 01 keeps no such list. It is for the words alone, which tell an own PDU that comes back from another's.
Sent = namedtuple("Sent", "net iv_index opened")
OURS, BESIDE_OURS = "SRC is ours", "SRC is beside ours"
# A destination of what is sent that is no address: a label by its number. And the words for what comes to the address of a held label.
Label = namedtuple("Label", "place")
AT_LABEL, OPENED_AT, CLOSED_AT = "heard at a label", "opened at a label", "not opened at a label"


class Refusal(Exception):
    """A refusal by its number, with the words for why."""

    def __init__(self, number, why):
        super().__init__(number, why)
        self.number, self.why = number, why


@dataclass
class Setup:
    """What a receiver is set up with. app_keys are pairs of the network key's number and the key."""
    net_keys: list = field(default_factory=list)
    app_keys: list = field(default_factory=list)
    device_key: bytes = bytes(16)
    first: int = 0
    seqs: list = field(default_factory=list)
    groups: list = field(default_factory=list)
    iv_index: int = 0
    flag: int = 0
    relay: int = 0
    labels: list = field(default_factory=list)

    def fault(self):
        """Why setup refuses it, or None."""
        faults = (
            (not 1 <= len(self.net_keys) <= 4, "number of network keys"),
            (len(self.app_keys) > 4, "number of application keys"),
            (any(bound >= len(self.net_keys) for bound, _ in self.app_keys), "an application key bound to no network key"),
            (not 1 <= len(self.seqs) <= 8, "number of elements"),
            (self.first < 1, "the first element's address"),
            (self.first + len(self.seqs) - 1 > 0x7FFF, "the last element's address"),
            (any(seq > 0x1000000 for seq in self.seqs), "a next SEQ too high"),
            (len(self.groups) > 8, "number of groups"),
            (any(kind(group) not in ("group", "reserved") for group in self.groups), "a group address that is none"),
            (any(kind(group) == "reserved" for group in self.groups), "a reserved group"),
            (self.flag and self.iv_index == 0, "flag 1 with IV Index 0"),
            (len(self.labels) > LABELS, "number of labels"),
        )
        return next((why for wrong, why in faults if wrong), None)


@dataclass
class Entry:
    """A source's replay entry; last is (SeqAuth, SegN, DST) of its last segmented message handed up."""
    src: int
    pair: tuple
    last: tuple = None


@dataclass
class Session:
    """A segmented message that is being put together; terms are what its segments must agree in besides SeqAuth."""
    src: int
    auth: tuple
    terms: tuple
    places: dict = field(default_factory=dict)

    @property
    def bits(self):
        return sum(1 << place for place in self.places)


# What a joining segment is compared in (refusal 10).
Terms = namedtuple("Terms", "ctl first szmic seg_n dst net")
DIFFERENCES = {"ctl": "CTL", "first": "octet 0", "szmic": "SZMIC", "seg_n": "SegN", "dst": "DST", "net": "opening key"}


def _many(things, word):
    return f"several {word}s" if len(things) > 1 else f"{'one' if things else 'no'} {word}"


class Receiver:
    """A receiver that was set up; its operations raise Refusal, but for hear, whose answer holds it."""

    def __init__(self, setup):
        if setup.fault():
            raise Refusal(14, setup.fault())
        self.setup = setup
        self.networks = [k2(key) for key in setup.net_keys]
        self.aids = [k4(key) for _, key in setup.app_keys]
        self.addresses = [label_address(label) for label in setup.labels]
        self.seqs = list(setup.seqs)
        self.cache = []
        self.replay = []
        self.sessions = [None] * SESSIONS
        self.out = None
        self.sent = []
        self.dst = None
        self.notes = []

    def note(self, met, words):
        if met:
            self.notes.append(words)

    def is_local(self, address):
        return self.setup.first <= address < self.setup.first + len(self.seqs)

    def is_for_us(self, dst):
        # a reserved group is for nobody
        if kind(dst) == "reserved":
            return False
        return (self.is_local(dst) or dst == 0xFFFF or dst == 0xFFFE and self.setup.relay == 1 or dst in self.setup.groups
                or dst in self.addresses)

    def entry_of(self, src):
        return next((entry for entry in self.replay if entry.src == src), None)

    def slot_of(self, src):
        return next((slot for slot, session in enumerate(self.sessions) if session and session.src == src), None)

    # Hearing

    def hear(self, pdu, forward_room, message_room):
        trials, forward, before, self.dst = [0, 0], [], self.cache, None
        try:
            answer = self._heard(pdu, forward_room, message_room, trials, forward)
        except Refusal as refusal:
            answer = Refused(refusal.number, refusal.why)
        if self.cache is not before:
            self._note_again(before, self.cache[-1], answer, ", forwarded" if forward else "")
        if self.dst in self.addresses:
            self.note(True, f"{AT_LABEL}: {type(answer).__name__.lower()}" + (f" {answer.number}" if isinstance(answer, Refused) else ""))
        return Heard(answer, tuple(trials), forward[0] if forward else None)

    def _note_again(self, before, seen, answer, behind):
        """Notes what became of a PDU that went into the cache, where its SRC and SEQ stood there before under the other IV Index."""
        if not any(other[:2] == seen[:2] for other in before):
            return
        now = seen.iv_index == self.setup.iv_index
        match answer:
            case Access() | Control():
                self.note(now, f"{AGAIN}: heard{behind}")
            case Stored():
                self.note(now, f"{AGAIN}: stored{behind}")
            case Refused(number=6):
                self.note(True, f"{AGAIN}: not for this node{behind}")
            case Refused(number=9):
                self.note(not now, f"{AGAIN}: replayed{behind}")

    def _heard(self, pdu, forward_room, message_room, trials, forward):
        if forward_room < network.LONGEST:
            raise Refusal(16, "forward buffer")
        if message_room < MESSAGE_ROOM:
            raise Refusal(16, "message buffer")
        net, iv_index, opened = self._opened(pdu, trials)
        self.dst = opened.dst
        if kind(opened.src) != "unicast":
            raise Refusal(4, "SRC " + kind(opened.src))
        if opened.dst == 0 or opened.ctl and kind(opened.dst) == "virtual":
            self.note(self.is_local(opened.src), f"{OURS}: 4 before 22, DST {kind(opened.dst)}")
            raise Refusal(4, "DST " + kind(opened.dst))
        if self.is_local(opened.src):
            raise Refusal(22, self._own(iv_index, opened, trials[0]))
        self.note(opened.src + 1 == self.setup.first, f"{BESIDE_OURS}: the last below the first element")
        self.note(opened.src == self.setup.first + len(self.seqs), f"{BESIDE_OURS}: the first above the last element")
        seen = Seen(opened.src, opened.seq, iv_index)
        if seen in self.cache:
            self.note(sum(other[:2] == seen[:2] for other in self.cache) > 1, f"{AGAIN}: a copy of either is in the cache")
            self.note(seen[1:] == (0, 0), "SEQ 0 of IV Index 0 is in the cache")
            raise Refusal(5, "in the cache")
        self.cache = self.cache[-CACHE + 1:] + [seen]
        if self.setup.relay and opened.ttl >= 2 and not self.is_local(opened.dst):
            lower = opened._replace(ttl=opened.ttl - 1)
            forward.append(network.seal(self.networks[net], iv_index, *lower))
        ours = self.is_for_us(opened.dst)
        self.note(opened.dst in network.ABOUT_RESERVED, f"{'for' if ours else 'not for'} this node: {opened.dst:04x} with CTL {opened.ctl}")
        akf = opened.transport[0] & 0x40
        self.note(opened.dst in network.RESERVED and not opened.ctl and not akf, f"not for this node under AKF 0: {opened.dst:04x}")
        if not ours:
            beside = kind(opened.dst) == "virtual" and self.addresses
            raise Refusal(6, "DST virtual, other labels are held" if beside else "DST " + kind(opened.dst))
        return self._taken(net, iv_index, opened, trials)

    def _own(self, iv_index, opened, place):
        """Whose PDU it is that bears an address of ours, in words; and notes which element's, how it comes, and what 22 keeps it from."""
        same = [each.opened.ttl for each in self.sent if each.iv_index == iv_index and each.opened._replace(ttl=opened.ttl) == opened]
        several = len(self.seqs) > 1
        self.note(several and opened.src == self.setup.first, f"{OURS}: the first element of several")
        self.note(several and not self.is_local(opened.src + 1), f"{OURS}: the last element of several")
        self.note(place > 1, f"{OURS}: a later network key opens it")
        self.note(opened.ttl in same, f"{OURS}: as it was sent")
        self.note(opened.ttl + 1 in same, f"{OURS}: as a relay hands it on")
        self.note(self.setup.relay and opened.ttl >= 2 and not self.is_local(opened.dst), f"{OURS}: not forwarded")
        self.note(self.is_for_us(opened.dst), f"{OURS}: not taken")
        whose = "another's PDU" if not same else "an own acknowledgement" if opened.ctl and opened.transport[0] == 0 else "an own message"
        return whose + ("" if iv_index == self.setup.iv_index else " under the IV Index before")

    def _opened(self, pdu, trials):
        """The number of the key that opens it, the IV Index and what the PDU says: refusals 1 to 3."""
        if not network.SHORTEST <= len(pdu) <= network.LONGEST:
            raise Refusal(1, "too short" if len(pdu) < network.SHORTEST else "too long")
        candidates = [at for at, credentials in enumerate(self.networks) if credentials.nid == pdu[0] & 0x7F]
        if not candidates:
            raise Refusal(2, "no candidate key")
        iv_index = network.fitting_index(self.setup.iv_index, pdu[0] >> 7)
        if iv_index is None:
            raise Refusal(2, "no IV Index")
        for at in candidates:
            trials[0] += 1
            opened = network.unseal(self.networks[at], iv_index, pdu)
            if opened:
                self.note(trials[0] > 1, "a later network key opens it")
                self.note(iv_index != self.setup.iv_index, "under the IV Index before")
                return at, iv_index, opened
        self.note(trials[0] > 1, "several network keys fail")
        raise Refusal(3, "none authenticates")

    def _taken(self, net, iv_index, opened, trials):
        """What becomes of a PDU for this node: refusals 7 to 13."""
        found = transport.form(opened.ctl, opened.dst, opened.transport)
        if isinstance(found, str):
            raise Refusal(7, found)
        if isinstance(found, transport.Segment):
            return self._segment(net, iv_index, opened, found, trials)
        pair = (iv_index, opened.seq)
        entry = self.entry_of(opened.src)
        if entry and pair <= entry.pair:
            raise Refusal(9, "unsegmented: not above the entry")
        self._need_entry(opened.src, "an acknowledgement" if isinstance(found, transport.Acknowledgement) else "unsegmented")
        if isinstance(found, transport.Acknowledgement):
            self._accept(opened.src, pair)
            return Acknowledged(opened.src, found.bits, self._mark(opened, found))
        terms = Terms(opened.ctl, found.first, 0, 0, opened.dst, net)
        message = self._message(opened.src, pair, terms, found.body, trials)
        self._accept(opened.src, pair)
        return message

    def _need_entry(self, src, what):
        if not self.entry_of(src) and len(self.replay) >= REPLAY:
            raise Refusal(11, what)

    def _accept(self, src, pair, last=None):
        """Raises or makes the source's entry; remembers the segmented message in it."""
        entry = self.entry_of(src)
        if not entry:
            entry = Entry(src, pair)
            self.replay.append(entry)
        entry.pair = max(entry.pair, pair)
        entry.last = last or entry.last

    def _segment(self, net, iv_index, opened, seg, trials):
        src, start = opened.src, transport.seq_auth(opened.seq, seg.seq_zero)
        if start is None:
            raise Refusal(8, "no SeqAuth")
        auth = (iv_index, start)
        entry, slot = self.entry_of(src), self.slot_of(src)
        if entry and entry.last == (auth, seg.seg_n, opened.dst):
            self.note(slot is None, "repeats the last message handed up")
            self.note(slot is not None, "repeats the last message handed up while another comes")
            return Repeat(src, auth, transport.all_bits(seg.seg_n))
        terms = Terms(opened.ctl, seg.first, seg.szmic, seg.seg_n, opened.dst, net)
        if slot is not None and self.sessions[slot].auth == auth:
            self._joins(self.sessions[slot], terms)
            self.note(entry and auth <= entry.pair, "joins though the entry is newer")
        else:
            replaced, slot = slot, self._place(src, auth, entry, slot)
            self.note(replaced is not None, "replaces an older session")
            self.sessions[slot] = Session(src, auth, terms)
        session = self.sessions[slot]
        if seg.seg_o in session.places:
            self.note(True, "repeats within the session")
            return Repeat(src, auth, session.bits)
        session.places[seg.seg_o] = seg.body
        if len(session.places) <= seg.seg_n:
            return Stored(src, auth, session.bits)
        self.sessions[slot] = None
        self.note(seg.seg_n in (0, 31), f"completes with SegN {seg.seg_n}")
        self.note(seg.seg_o < seg.seg_n, "completes with a segment before the last")
        upper = b"".join(session.places[place] for place in range(seg.seg_n + 1))
        message = self._message(src, auth, terms, upper, trials)
        self._accept(src, auth, (auth, seg.seg_n, opened.dst))
        return message

    def _joins(self, session, terms):
        """Refusals 10 and 11 of a segment with the open session's SeqAuth."""
        for name, ours, its in zip(Terms._fields, session.terms, terms):
            if ours != its:
                raise Refusal(10, "differs in " + DIFFERENCES[name])
        self._need_entry(session.src, "a segment that joins")

    def _place(self, src, auth, entry, slot):
        """The slot of a session that opens or replaces: refusals 9, 11 and 12."""
        if entry and auth <= entry.pair:
            raise Refusal(9, "segment: not above the entry")
        if slot is not None and auth < self.sessions[slot].auth:
            raise Refusal(9, "segment: the open session is newer")
        self._need_entry(src, "a segment that would open a session")
        if slot is None and None not in self.sessions:
            raise Refusal(12, "no slot free")
        return self.sessions.index(None) if slot is None else slot

    def _message(self, src, pair, terms, upper, trials):
        """The message handed up of its upper transport octets: refusal 13."""
        if terms.ctl:
            return Control(src, terms.dst, terms.net, terms.first & 0x7F, pair, upper)
        mic = 8 if terms.szmic else 4
        if len(upper) <= mic:
            self.note(kind(terms.dst) == "virtual", f"{CLOSED_AT}: too short")
            raise Refusal(13, "too short")
        iv_index, seq = pair

        def unsecured(key, of_device, label=b""):
            return transport.unsecure(key, of_device, mic, seq, src, terms.dst, iv_index, upper, label)

        if terms.first & 0x40:
            key, label, payload = self._by_pairs(terms, unsecured, trials)
            return Access(src, terms.dst, terms.net, key, label, pair, payload)
        payload = unsecured(self.setup.device_key, True)
        if payload is None:
            raise Refusal(13, "the device key does not open it")
        return Access(src, terms.dst, terms.net, None, None, pair, payload)

    def _fitting(self, terms):
        """The numbers of the application keys and of the labels that an access message is tried with; one label, None, where DST is not virtual."""
        keys = [at for at, (bound, _) in enumerate(self.setup.app_keys) if bound == terms.net and self.aids[at] == terms.first & 0x3F]
        if kind(terms.dst) != "virtual":
            return keys, [None]
        return keys, [at for at, address in enumerate(self.addresses) if address == terms.dst]

    def _by_pairs(self, terms, unsecured, trials):
        """Each fitting key in order, and under each key each fitting label: the numbers of the first pair that opens the message, and its payload."""
        keys, labels = self._fitting(terms)
        for key in keys:
            for label in labels:
                trials[1] += 1
                payload = unsecured(self.setup.app_keys[key][1], False, b"" if label is None else self.setup.labels[label])
                if payload is not None:
                    self.note(trials[1] > 1 and label is None, "a later application key opens it")
                    self._note_opened(terms, key != keys[0], label, labels, trials[1])
                    return key, label, payload
        self._note_closed(terms, unsecured, keys, labels)
        if labels == [None]:
            raise Refusal(13, "no application key opens it" if keys else "no application key fits")
        raise Refusal(13, "no pair opens it" if keys else "no application key fits, DST virtual")

    def _note_opened(self, terms, later_key, label, labels, trials):
        """Notes which pair opens a message to a label, among which others, and how the message came."""
        if label is None:
            return
        place = "the only label" if len(labels) == 1 else "the first of several labels" if label == labels[0] else "a later label"
        self.note(True, f"{OPENED_AT}: {place}{' under a later key' if later_key else ''}")
        held = self.setup.labels
        self.note(any(held[other] == held[label] for other in labels if other > label), f"{OPENED_AT}: the first of equal labels")
        self.note(trials >= 5, f"{OPENED_AT}: the fifth pair or one behind it")
        self.note(trials == 16, f"{OPENED_AT}: the sixteenth pair")
        self.note(True, f"{OPENED_AT}: " + ("TransMIC of 8" if terms.szmic else "TransMIC of 4, in segments" if terms.first & 0x80 else "whole"))

    def _note_closed(self, terms, unsecured, keys, labels):
        """Notes how many pairs have failed, and with what other additional data one of the keys opens it."""
        secrets, held = [self.setup.app_keys[key][1] for key in keys], self.setup.labels
        if labels == [None]:
            by_label = any(unsecured(secret, False, label) is not None for secret in secrets for label in held)
            self.note(by_label, f"{CLOSED_AT}: DST is no label's, though a held one is the additional data")
            return
        self.note(True, f"{CLOSED_AT}: {_many(keys, 'key')} and {_many(labels, 'label')}")
        self.note(len(keys) * len(labels) == 16, f"{CLOSED_AT}: sixteen pairs")
        others = [label for label, address in zip(held, self.addresses) if address != terms.dst]
        self.note(any(unsecured(secret, False) is not None for secret in secrets), f"{CLOSED_AT}: no additional data")
        self.note(any(unsecured(secret, False, label) is not None for secret in secrets for label in others),
                  f"{CLOSED_AT}: a held label of another address")

    def _mark(self, opened, ack):
        """What an accepted acknowledgement does to the message that is kept."""
        out = self.out
        if not out or opened.dst != out.src or ack.seq_zero != out.auth[1] % transport.WINDOW:
            return "nothing"
        effect = self._marked(out, ack) if opened.src == out.dst or ack.obo else "nothing"
        self.note(out.dst in self.addresses, f"acknowledged, sent to a label: OBO {ack.obo}, {effect}")
        return effect

    def _marked(self, out, ack):
        """What an acknowledgement of the message that is kept does to it."""
        if ack.bits == 0:
            self.out = None
            return "cancelled"
        before, out.heard = out.heard, out.heard | ack.bits & transport.all_bits(len(out.segments) - 1)
        if out.heard == transport.all_bits(len(out.segments) - 1):
            self.out = None
            return "complete"
        return "marked" if out.heard != before else "nothing"

    # Giving up

    def drop(self, src):
        slot = self.slot_of(src)
        if slot is None:
            raise Refusal(14, "no session of this source")
        self.sessions[slot] = None

    def stop(self):
        if not self.out:
            raise Refusal(14, "nothing is kept")
        self.out = None
