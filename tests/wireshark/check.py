"""Lets tshark open what the console sends, and the console hear the same PDUs.

  python3 tests/wireshark/check.py

For each station the console sends messages of every kind, then, set up anew as the receiver, hears their PDUs and acknowledges. tshark
gets the keys, the labels and all PDUs, the acknowledgements too, in one capture: what it reads must be what was asked for. A damaged PDU of each station
is among them, of which it must read nothing. The console is bin/console, or the command of GOREPHAN_CONSOLE.
"""
import argparse
import sys
from pathlib import Path

sys.path.insert(0, str(Path(__file__).resolve().parents[1] / "independent"))

import program  # noqa: E402
from capture import Failed, dissected  # noqa: E402
from messages import RECEIVER, SENDER, UNNAMED_TTL, Station, count_of, readings, segmented, unopened  # noqa: E402
from network import kind  # noqa: E402

STATIONS = ((1, 0x12345678, 0), (2, 0x00101847, 1))


class Wrong(Exception):
    """What was asked for, and what came instead."""


def ask(words, lines):
    """The console's answers, one for each line."""
    answers = program.answers(words, program.text_of([line.encode() for line in lines]))
    if len(answers) != len(lines):
        raise Wrong(f"{len(lines)} lines have {len(answers)} answers; the last is {answers[-1:]}")
    return answers


def sent(words, station):
    """Each message with the PDUs that the console sends of it."""
    lines = station.setup(SENDER, station.starts)
    spans = []
    for message in station.messages:
        begin = len(lines)
        lines += [message.line] + [f"segment {at:x}" for at in range(1, count_of(message))]
        spans.append((begin, len(lines)))
        lines += ["stop"] if segmented(message) else []
    answers = ask(words, lines)
    for message, (begin, end) in zip(station.messages, spans):
        found = [answer.split() for answer in answers[begin:end]]
        if any(answer[0] not in ("sent", "started") for answer in found):
            raise Wrong(f"{message.line}\n  answered: {answers[begin:end]}")
        yield message, [bytes.fromhex(answer[1]) for answer in found]


def heard(words, station, spoken):
    """The receiver hands up each message; gives the acknowledgements that it sends, with what is to be read from each."""
    lines, ends, requests = station.setup(RECEIVER, (5, 6)), [], []
    seqs, own = list(station.starts), [5, 6]
    for message, pdus in spoken:
        lines += [f"hear {pdu.hex()}" for pdu in pdus]
        ends.append((message, len(lines) - 1))
        if segmented(message) and kind(message.dst) == "unicast":
            element = message.dst - RECEIVER
            requests.append((len(lines), {
                "btmesh.ctl": 1, "btmesh.ttl": UNNAMED_TTL, "btmesh.seq": own[element], "btmesh.src": message.dst, "btmesh.dst": SENDER + message.element,
                "btmesh.cntr.opcode": 0, "btmesh.obo": 0, "btmesh.seqzero": seqs[message.element] % 8192, "btmesh.blockack": 2 ** len(pdus) - 1}))
            own[element] += 1
            lines.append(f"ack {message.net} {SENDER + message.element:x}")
        seqs[message.element] += len(pdus)
    answers = ask(words, lines)
    for message, at in ends:
        word, label = "control" if message.mic is None else "access", "" if message.label is None else f"label {message.label:x} "
        if not answers[at].startswith(f"{word} src {SENDER + message.element:04x} dst {message.dst:04x} {label}net ") \
                or not answers[at].endswith(f" message {message.payload.hex() or '-'}"):
            raise Wrong(f"{message.line}\n  is heard as: {answers[at]}")
    for at, read in requests:
        if not answers[at].startswith("sent "):
            raise Wrong(f"{lines[at]}\n  answered: {answers[at]}")
        yield bytes.fromhex(answers[at].split()[1]), read


def frames(words, station):
    """Every PDU of a station with what tshark must read from it; None for the damaged one."""
    spoken, seqs = list(sent(words, station)), list(station.starts)
    for message, pdus in spoken:
        yield from zip(pdus, readings(message, seqs[message.element]), strict=True)
        seqs[message.element] += len(pdus)
    yield from heard(words, station, spoken)
    whole = spoken[0][1][0]
    yield whole[:-1] + bytes([whole[-1] ^ 1]), None


def compare(pdu, read, said):
    """How many fields of a PDU tshark reads as they were asked for."""
    if read is None:
        if said["btmesh.src"] is not None:
            raise Wrong(f"{pdu.hex()}: tshark opens a damaged PDU")
        return 0
    for field, value in read.items():
        if said[field] != value:
            raise Wrong(f"{pdu.hex()}\n  {field} must be {value}, tshark reads {said[field]}")
    return sum(value is not None for value in read.values())


def main():
    _, words = program.asked(argparse.ArgumentParser(description="Holds what the console sends to what tshark reads."))
    count = fields = closed = 0
    try:
        for parts in STATIONS:
            station = Station(*parts)
            all_frames = list(frames(words, station))
            networks = [(net, app, station.sending_index) for net, app in zip(station.nets, station.apps)]
            said = dissected([pdu for pdu, _ in all_frames], networks, [(station.device, SENDER + at) for at in range(2)], station.labels)
            fields += sum(compare(pdu, read, each) for (pdu, read), each in zip(all_frames, said))
            count += len(all_frames)
            closed += sum(map(unopened, station.messages))
    except (Wrong, Failed) as wrong:
        print(wrong)
        return 1
    print(f"{closed} messages of one segment with an 8-octet TransMIC, which tshark cannot open, are compared but for their payload")
    print(f"tshark reads {fields} fields of {count - len(STATIONS)} PDUs as they were sent, and nothing of {len(STATIONS)} damaged ones;"
          " the console hears them all")
    return 0


if __name__ == "__main__":
    sys.exit(main())
