"""Holds plain_hear.c to the proved console: what each answers to every `hear` line, and what each remembers behind it.

  python3 bench/same_hear.py LIBRARY [A..B]      LIBRARY is plain_hear.c, plain_setup.c and plain_radio.c as a shared object; the console must be built

The lines are those of the recorded sessions, of the story, the class and the examples of docs/ANSWERS.md, and of the scripts that tests/independent
makes of the seeds A to B, or of the fixed ones, in which other nodes speak and the receiver is asked to send. Behind each line that can change what
hearing rests on a `show` is put in, so that cache, replay list, sessions and the message being sent are compared too. The plain C only hears: what
setup, giving up and sending do to the state is read off the console's answers. Prints how often each kind of answer was compared; the status is 1 at a
difference, and without seeds also where a kind did not occur.
"""
import argparse
import ctypes
import sys
from collections import Counter
from pathlib import Path
from types import SimpleNamespace

ROOT = Path(__file__).resolve().parents[1]
sys.path.insert(0, str(ROOT / "tests" / "independent"))

import language
import model
import network
import program
import script

CONSOLE = [str(ROOT / "bin" / "program"), "console"]
LOGS = ("crates/console/stdin", "class/*.log", "tests/answers/*.log", "tests/console/*.in")
FIXED = range(1, 25)
CHANGING = (b"hear", b"setup", b"access", b"control", b"stop", b"drop")
ROOM, DEVICE_KEY, NO_LABEL = 384, 0xFF, 0xFF
# The words for the numbers of plain_hear.h.
WORDS = ("refused", "stored", "repeat", "access", "control", "acknowledgement")
EFFECTS = ("nothing", "marked", "complete", "cancelled")
# Every kind of answer to `hear`: refusals that leave everything, and what can come with and without forwarding; an access message under the
# device key and an acknowledgement that fits are for an element, so they are never forwarded. At a label is what comes to the address of one.
KINDS = {f"refused {number}" for number in (16, 1, 2, 3, 4, 22, 5)} | {"access by the device key"} | {f"acknowledgement {effect}" for effect in EFFECTS}
KINDS |= {kind + behind for kind in (*(f"refused {number}" for number in range(6, 14)), "refused 13 at a label", "stored", "repeat",
                                     "access by an application key", "access by an application key and a label", "control", "acknowledgement nothing")
          for behind in ("", ", forwarded")}

U8, U16, U32 = ctypes.c_uint8, ctypes.c_uint16, ctypes.c_uint32


def structure(**fields):
    """A C structure with these fields, as plain_hear.h has them."""
    return type("Structure", (ctypes.Structure,), {"_fields_": list(fields.items())})


Pair = structure(iv=U32, seq=U32)
ApplicationKey = structure(key=U8 * 16, aid=U8, bound=U8)
Label = structure(octets=U8 * 16, address=U16)
Node = structure(iv=U32, next=U32 * 8, first=U16, groups=U16 * 8, networks=U8, applications=U8, elements=U8, listened=U8, labelled=U8, flag=U8,
                 relay=U8, network_keys=U8 * 16 * 4, credentials=U8 * 33 * 4, application_keys=ApplicationKey * 4, device_key=U8 * 16,
                 labels=Label * 4)
Seen = structure(pair=Pair, src=U16)
Entry = structure(pair=Pair, last=Pair, src=U16, dst=U16, segn=U8)
Segmented = structure(auth=Pair, filled=U32, src=U16, dst=U16, len=U16, first=U8, segn=U8, key=U8, ctl=U8, szmic=U8, ttl=U8, bytes=U8 * 384)
Receiver = structure(node=Node, cache=Seen * 16, oldest=U32, replay=Entry * 32, sessions=Segmented * 8, sending=Segmented)
Answer = structure(kind=U8, refusal=U8, network_trials=U8, application_trials=U8, forwarded=U8, network=U8, key=U8, label=U8, opcode=U8, effect=U8,
                   src=U16, dst=U16, len=U16, pair=Pair, bits=U32)


def pair_of(pair):
    return pair.iv, pair.seq


class Differs(Exception):
    """What the console has, and what the plain C has."""


def node_of(given):
    """What a setup gives, but for what plain_setup derives."""
    node = Node(iv=given.iv_index, first=given.first, networks=len(given.net_keys), applications=len(given.app_keys), elements=len(given.seqs),
                listened=len(given.groups), labelled=len(given.labels), flag=given.flag, relay=given.relay)
    node.next[:len(given.seqs)] = given.seqs
    node.groups[:len(given.groups)] = given.groups
    for at, key in enumerate(given.net_keys):
        node.network_keys[at][:] = key
    for at, (bound, key) in enumerate(given.app_keys):
        node.application_keys[at].key[:] = key
        node.application_keys[at].bound = bound
    node.device_key[:] = given.device_key
    for at, label in enumerate(given.labels):
        node.labels[at].octets[:] = label
    return node


def said(answer, message):
    """The answer as one of the model's, and the words for its kind."""
    pair, effect = pair_of(answer.pair), EFFECTS[answer.effect]
    match WORDS[answer.kind]:
        case "refused":
            # of 13 the plain C has DST
            at_label = answer.refusal == 13 and network.kind(answer.dst) == "virtual"
            return model.Refused(answer.refusal, ""), f"refused {answer.refusal}" + (" at a label" if at_label else "")
        case "stored":
            return model.Stored(answer.src, pair, answer.bits), "stored"
        case "repeat":
            return model.Repeat(answer.src, pair, answer.bits), "repeat"
        case "access":
            key, label = None if answer.key == DEVICE_KEY else answer.key, None if answer.label == NO_LABEL else answer.label
            kind = "access by the device key" if key is None else "access by an application key" + ("" if label is None else " and a label")
            return model.Access(answer.src, answer.dst, answer.network, key, label, pair, message), kind
        case "control":
            return model.Control(answer.src, answer.dst, answer.network, answer.opcode, pair, message), "control"
        case "acknowledgement":
            return model.Acknowledged(answer.src, answer.bits, effect), f"acknowledgement {effect}"


def written(buffer, before, count):
    """The first octets of a buffer; those behind them must be what they were."""
    if buffer.raw[count:] != before[count:]:
        raise Differs("octets left as they were", "octets written behind a message or PDU")
    return buffer.raw[:count]


class Plain:
    """The receiver in plain C, kept in step with the console line by line."""

    def __init__(self, library, counts):
        self.library, self.counts = library, counts
        self.given, self.receiver, self.room, self.element = model.Setup(), None, (29, ROOM), None
        self.turn = 0

    def set_up(self, ready):
        if ready:
            self.receiver = Receiver(node=node_of(self.given))
            self.library.plain_setup(ctypes.byref(self.receiver))
        self.given = model.Setup()

    def hear(self, pdu):
        """The line that the plain C answers to a PDU."""
        self.turn += 1
        before = bytes([self.turn % 251]) * ROOM
        forward, message = (ctypes.create_string_buffer(before, ROOM) for _ in range(2))
        answer = Answer()
        self.library.plain_hear(ctypes.byref(self.receiver), pdu, ctypes.c_size_t(len(pdu)), forward, ctypes.c_size_t(self.room[0]), message,
                                ctypes.c_size_t(self.room[1]), ctypes.byref(answer))
        handed_up = written(message, before, answer.len if WORDS[answer.kind] in ("access", "control") else 0)
        forwarded = written(forward, before, answer.forwarded)
        result, kind = said(answer, handed_up)
        self.counts[kind + (", forwarded" if forwarded else "")] += 1
        return language.heard(model.Heard(result, (answer.network_trials, answer.application_trials), forwarded))

    def shown(self):
        """The lines of `show`, but for the next SEQs, which only sending changes."""
        r = self.receiver
        seen = [r.cache[(r.oldest + at) % 16] for at in range(16)]
        out = r.sending
        state = SimpleNamespace(
            seqs=(),
            cache=[(each.src, each.pair.seq, each.pair.iv) for each in seen if each.src],
            replay=[model.Entry(each.src, pair_of(each.pair), (pair_of(each.last), each.segn, each.dst) if each.dst else None)
                    for each in r.replay if each.src],
            sessions=[SimpleNamespace(src=each.src, auth=pair_of(each.auth), bits=each.filled) if each.src else None for each in r.sessions],
            out=SimpleNamespace(dst=out.dst, auth=pair_of(out.auth), segments=range(out.segn + 1), heard=out.filled) if out.src else None)
        return list(language.shown(state))[1:]

    def begin(self, sending):
        """A message in segments was begun, as the console shows it."""
        numbers = dict(zip(sending[1::2], (int(field, 16) for field in sending[2::2])))
        self.receiver.sending = Segmented(src=self.receiver.node.first + self.element, dst=numbers["dst"], segn=numbers["segn"],
                                          auth=Pair(numbers["iv"], numbers["auth"]))
        self.element = None

    def give_up(self, src):
        for session in self.receiver.sessions:
            if session.src == src:
                ctypes.memset(ctypes.byref(session), 0, ctypes.sizeof(session))

    def show(self, lines):
        """Compares what is remembered with what the console shows."""
        if self.element is not None:
            self.begin(next(line.split() for line in lines if line.startswith("sending")))
        if self.shown() != lines[1:]:
            raise Differs("\n    ".join(lines[1:]), "\n    ".join(self.shown()))

    def follow(self, line, answers):
        """Takes part in a line that the console answered so."""
        word, fields = language.read(line)
        if word in language.GIVEN:
            language.GIVEN[word](self.given, *fields)
        elif word == "setup":
            self.set_up(answers == ["ready"])
        elif word == "room":
            self.room = fields
        elif word == "show":
            self.show(answers)
        elif word == "hear":
            told = self.hear(*fields)
            if [told] != answers:
                raise Differs(answers[0], told)
        elif answers[0].startswith("started"):
            self.element = fields[0]
        elif answers == ["given up"] and word == "stop":
            self.receiver.sending = Segmented()
        elif answers == ["given up"]:
            self.give_up(*fields)


def with_shows(lines):
    """The lines with a `show` behind each that can change what hearing rests on."""
    for line in lines:
        yield line
        if line.split(b" ")[0] in CHANGING:
            yield b"show"


def answered(lines, answers):
    """Each line that is answered, with the lines of its answer."""
    answers = iter(answers)
    for line in lines:
        if not line or line.startswith(b"#"):
            continue
        got = [next(answers, "(nothing)")]
        while line == b"show" and got[-1] not in ("end", "unread", "(nothing)"):
            got.append(next(answers, "(nothing)"))
        yield line, got


def compare(name, lines, library, counts):
    """Runs the console on the lines, and the plain C beside it."""
    lines = list(with_shows(lines))
    plain = Plain(library, counts)
    for at, (line, answers) in enumerate(answered(lines, program.answers(CONSOLE, program.text_of(lines))), 1):
        if answers == ["unread"]:
            continue
        try:
            plain.follow(line, answers)
        except Differs as difference:
            ours, other = difference.args
            sys.exit(f"same_hear: {name}, answer {at}, {line[:120].decode('latin-1')}\n  console:\n    {ours}\n  plain C:\n    {other}")


def logs():
    """Each log by its name, with its lines."""
    for pattern in LOGS:
        for path in sorted(ROOT.glob(pattern)):
            yield str(path.relative_to(ROOT)), path.read_bytes().split(b"\n")


def main():
    parser = argparse.ArgumentParser(description="Holds plain_hear.c to the proved console.")
    parser.add_argument("library", help="plain_hear.c, plain_setup.c and plain_radio.c as a shared object")
    parser.add_argument("seeds", nargs="?", type=program.seeds, help="one seed, or A..B; without it the fixed ones")
    asked = parser.parse_args()
    library, counts = ctypes.CDLL(asked.library), Counter()
    sessions = [*logs(), *((f"seed {seed}", [step.line for step in script.made(seed)]) for seed in asked.seeds or FIXED)]
    for name, lines in sessions:
        compare(name, lines, library, counts)
    for kind, count in sorted(counts.items()):
        print(f"{count:8} {kind}")
    missing = sorted(KINDS - counts.keys())
    if missing and not asked.seeds:
        sys.exit("same_hear: did not occur: " + "; ".join(missing))
    print(f"same_hear: {counts.total()} `hear` lines of {len(sessions)} sessions: the plain C answers and remembers what the console does")


main()
