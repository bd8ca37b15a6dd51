"""Judges the answers to a scenario by demand 3's three conclusions. It knows no receiver: only what was sent, and what was answered."""
import re

import network
import transport
from ciphers import k2
from scenario import Request

HANDED = re.compile(r"((?:access|control) src .*) trials [0-9a-f]+ [0-9a-f]+ message ([0-9a-f]+)(?: forward [0-9a-f]+)?")
NOT_HANDED = re.compile(r"(stored|repeat|refused 5)\b.*")
NOT_OPENED = re.compile(r"refused [123] trials .*")


class Wrong(Exception):
    """A conclusion does not hold: which line, and what was wanted."""

    def __init__(self, at, wanted):
        super().__init__(at, wanted)
        self.at, self.wanted = at, wanted


def handed_up(answer):
    """What an answer hands up, without its trial counts; None where it hands nothing up."""
    found = HANDED.fullmatch(answer)
    return found.groups() if found else None


class Run:
    """One run of arrivals over a fresh receiver.

    It keeps which segments have come, what was handed up of each source, how often each answer was given, and how many messages were open at once.
    """

    def __init__(self, scenario):
        self.scenario = scenario
        self.most = 0
        self.come = [set() for _ in scenario.speeches]
        self.handed = {speech.src: [] for speech in scenario.speeches}
        self.counts = {}

    def count(self, kind):
        self.counts[kind] = self.counts.get(kind, 0) + 1

    def judge(self, arrivals, answers):
        for at, (arrival, answer) in enumerate(zip(arrivals, answers, strict=True)):
            if isinstance(arrival, Request):
                self.acknowledged(at, arrival, answer)
            elif arrival.number is None:
                if not NOT_OPENED.fullmatch(answer):
                    raise Wrong(at, "refusal 1, 2 or 3: no key opens this PDU")
                self.count("opened by no key")
            else:
                self.heard(at, arrival, answer)

    def heard(self, at, arrival, answer):
        """Conclusion 1: the message is handed up, its very bytes, exactly where its last missing segment comes."""
        speech, come = self.scenario.speeches[arrival.number], self.come[arrival.number]
        last = arrival.part not in come and len(come) == len(speech.parts) - 1
        come.add(arrival.part)
        self.most = max(self.most, sum(0 < len(parts) < len(each.parts) for parts, each in zip(self.come, self.scenario.speeches)))
        if last:
            if handed_up(answer) != speech.handed:
                raise Wrong(at, f"{speech.handed[0]} .. message {speech.handed[1]}: the last missing segment comes")
            self.handed[speech.src].append(handed_up(answer))
            self.count("handed up to a label" if " label " in speech.handed[0] else "handed up")
            return
        found = NOT_HANDED.fullmatch(answer)
        if not found:
            raise Wrong(at, "stored, repeat or refusal 5: segments are missing, or all came before")
        self.count(found[1])

    def acknowledged(self, at, request, answer):
        """Conclusion 2: an acknowledgement names exactly the segments that have come."""
        speech = self.scenario.speeches[request.number]
        bits = sum(1 << part for part in self.come[request.number])
        wanted = transport.acknowledgement(0, speech.start % transport.WINDOW, bits)
        word, _, pdu = answer.partition(" ")
        opened = network.unseal(k2(self.scenario.nets[request.net]), self.scenario.sending_index, bytes.fromhex(pdu)) if word == "sent" else None
        if not opened or (opened.ctl, opened.src, opened.dst, opened.transport) != (1, speech.dst, speech.src, wanted):
            raise Wrong(at, f"an acknowledgement from {speech.dst:04x} to {speech.src:04x} that says {wanted.hex()}")
        self.count("acknowledgement")


def replay(shown):
    """The replay lines of `show` by source."""
    return {line.split()[1]: line for line in shown if line.startswith("replay ")}


def ends(scenario, mixed, mixed_shown, alone, alone_shown):
    """Conclusion 3: no session is open, and each source's entry and messages are those of the run in which the speeches come one after another."""
    if any(line.startswith("session ") for line in mixed_shown + alone_shown):
        raise Wrong(-1, "no session at the end")
    for speech in scenario.speeches:
        src = f"{speech.src:04x}"
        if src not in replay(mixed_shown) or replay(mixed_shown)[src] != replay(alone_shown).get(src):
            raise Wrong(-1, f"the entry {replay(alone_shown).get(src)}, as when the speeches come one after another")
        if len(mixed.handed[speech.src]) != 1 or mixed.handed[speech.src] != alone.handed[speech.src]:
            raise Wrong(-1, f"the messages of {src} that are handed up when the speeches come one after another")
    if replay(mixed_shown).keys() != replay(alone_shown).keys():
        raise Wrong(-1, "no entry but the speeches' sources")
