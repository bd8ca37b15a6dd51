"""Lets tshark read the Sensor Status messages that the console sends, and holds what `readings` answers to what tshark reads.

  python3 tests/wireshark/sensors.py

One console sends the messages, another hears them and reads what is handed up; tshark gets the PDUs and the keys.

What tshark can (seen in 4.0.17): every header in both formats; the octets of each property that its own table has a length for; of a temperature
in hundredths (0054, 0075) the decimal, "not known" and "prohibited"; and a list that ends inside a header or a value is malformed to it.
What it cannot: it shows humidity (0076) as octets, so the count is judged here; it makes no doubles, so ours are held to those of its decimals. It goes
wrong on a property outside its table (one octet less than the header says), on a length of 0x7F (127 octets, not none), and on a header whose
length is not the table's (it takes the table's). A record of these last three kinds stands last in its list and is compared in its header alone.
The console is bin/console, or the command of GOREPHAN_CONSOLE.
"""
import argparse
import random
import struct
import sys
from pathlib import Path

sys.path.insert(0, str(Path(__file__).resolve().parents[1] / "independent"))

import program  # noqa: E402
from capture import Failed, statuses  # noqa: E402
from check import Wrong, ask, sent  # noqa: E402
from lists import KINDS, lists  # noqa: E402
from messages import RECEIVER, Message, Station  # noqa: E402

SEED, INDEX, NO_FLAG = 3, 0x12345678, 0
JUDGED = {"Value is not known": "unknown", "Prohibited": "prohibited"}


def message(payload):
    """A message under the first application key with a TransMIC of 4 octets."""
    return Message(f"access 0 {RECEIVER:x} - 0 0 4 {payload.hex()}", 0, RECEIVER, None, 0, 0, 4, None, payload)


def handed_up(words, station, spoken):
    """What the console hands up of each message's PDUs."""
    lines, ends = station.setup(RECEIVER, (5, 6)), []
    for _, pdus in spoken:
        lines += [f"hear {pdu.hex()}" for pdu in pdus]
        ends.append(len(lines) - 1)
    answers = ask(words, lines)
    for (each, _), end in zip(spoken, ends, strict=True):
        if not answers[end].startswith("access ") or not answers[end].endswith(f" message {each.payload.hex()}"):
            raise Wrong(f"{each.line}\n  is heard as: {answers[end]}")
        yield answers[end].split()[-1]


def number(kind, decimal):
    return f"{kind} {decimal} {struct.pack('>d', float(decimal)).hex()}"


def humidity(value):
    """A humidity from tshark's octets."""
    count = int.from_bytes(value, "little")
    return "unknown" if count == 0xFFFF else "prohibited" if count > 10000 else number("humidity", f"{count // 100}.{count % 100:02d}")


def reading(record):
    """The console's words for a record as tshark reads it."""
    kind = KINDS.get(record.property)
    if kind == "humidity":
        words = humidity(record.value)
    elif kind:
        words = JUDGED.get(record.words) or number(kind, record.words.removesuffix(" C"))
    else:
        words = f"raw {record.value.hex()}"
    return f"{record.property:04x} {words}"


def answer_of(records, malformed):
    """The console's answer to a list as tshark reads it."""
    return "refused 20" if malformed else " ".join(["readings", f"{len(records):x}", *map(reading, records)])


def check_whole(records, malformed, answer):
    """A list that tshark reads, or calls malformed."""
    wanted = answer_of(records, malformed)
    if answer != wanted:
        raise Wrong(f"by tshark the answer is {wanted}\n  the console answers {answer}")


def check_header(before, last, answer):
    """A list with a last record that tshark cannot read: what stands before, and of the last the property and how many octets it has."""
    length = 0 if last.length == 0x7F else last.length + 1
    head, _, octets = answer.rpartition(" ")
    wanted = " ".join(["readings", f"{len(before) + 1:x}", *map(reading, before), f"{last.property:04x} raw"])
    if last.property in KINDS and length != 2:
        if answer != "refused 21":
            raise Wrong(f"by tshark's header {last} has a wrong length\n  the console answers {answer}")
    elif head != wanted or len(octets.strip("-")) != 2 * length:
        raise Wrong(f"by tshark's headers the answer is {wanted} and {length} octets\n  the console answers {answer}")


def check_lengths(records):
    """Each length's bits fit the octets."""
    for record in records:
        if record.value is not None and record.length + 1 != len(record.value):
            raise Wrong(f"tshark reads a length of {record.length} for octets {record.value.hex()}")


def check(listed, said, answer):
    """One list; gives how many records were compared whole, how many in their header alone, and whether tshark calls it malformed."""
    records, malformed = said
    if listed.before is not None:
        before, last = records[:listed.before], records[listed.before]
        check_lengths(before)
        check_header(before, last, answer)
        return len(before), 1, 0
    check_whole(records, malformed, answer)
    check_lengths(records)
    return 0 if malformed else len(records), 0, int(malformed)


def main():
    _, words = program.asked(argparse.ArgumentParser(description="Holds the console's readings of Sensor Status to what tshark reads."))
    station = Station(SEED, INDEX, NO_FLAG)
    all_lists = list(lists(random.Random(SEED)))
    station.messages = [message(b"\x52" + listed.octets) for listed in all_lists]
    try:
        spoken = list(sent(words, station))
        names = [f"property {of:x} {kind}" for of, kind in KINDS.items()]
        answers = ask(words, names + [f"readings {octets}" for octets in handed_up(words, station, spoken)])[len(names):]
        said = list(statuses([pdu for _, pdus in spoken for pdu in pdus], [(station.nets[0], station.apps[0], INDEX)]))
        if len(said) != len(all_lists):
            raise Wrong(f"tshark reads {len(said)} Sensor Status messages of {len(all_lists)}")
        found = [check(*each) for each in zip(all_lists, said, answers, strict=True)]
    except (Wrong, Failed) as wrong:
        print(wrong)
        return 1
    whole, headers, malformed = map(sum, zip(*found))
    print(f"{headers} records on which tshark goes wrong (a property or a length that its table does not have, or no octets) are compared but for"
          " their octets")
    print(f"the console reads {whole} records of {len(all_lists)} Sensor Status messages as tshark does, and refuses the {malformed} lists"
          " that are malformed to it")
    return 0


if __name__ == "__main__":
    sys.exit(main())
