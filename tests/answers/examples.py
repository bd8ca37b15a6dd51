"""The examples of docs/ANSWERS.md: for each refusal lines that the station answers with it. A function's sentence is the page's."""
from collections import namedtuple

import transport
from boxes import APPLICATION_KEY, IV_INDEX, NETWORK_KEY, STATION
from sealed import (BOX, DEVICE_KEY, ELSEWHERE, GROUP, LABEL, LABELLED, OTHER_KEY, OTHER_LABEL, READING, READINGS, SECOND_KEY, akf_aid, changed, hear,
                    parts, secured, segment, vet, whole)

# Lines that the log has and the page leaves out.
Hidden = namedtuple("Hidden", "lines")

FIRST_SOURCE, NINTH = 0x0301, 0x0309


def wrong_length():
    """A Network PDU has 14 to 29 octets. Nothing else is looked at."""
    return ["# 13 octets", "hear 68eca487516765b5e5bfdacbaf", "# 30 octets", "hear " + "68" * 30]


def no_candidate():
    """NID, the low seven bits of octet 0, is that of no key, so no key is tried: trials 0 0. Or a key has it, but the IV Index is 0 and IVI asks for the one
    before."""
    return ["# NID 69; the station's keys have 68 and 7f", whole(0x100).replace("hear 68", "hear 69"),
            "# a second station, which nobody has given an IV Index: it is 0, and a PDU with IVI 1 needs one below it",
            f"netkey {NETWORK_KEY.hex()}", "elements 1 40", "setup", whole(0x100, index=1)]


def not_authentic():
    """A key has the NID and was tried, but the NetMIC does not fit: the PDU is damaged or forged, its key is another with that NID, or it was sealed under
    another IV Index than the station's and the one before."""
    return ["# one bit of the NetMIC is changed", changed(whole(0x100)),
            "# the box has moved on to the next IV Index, 12345679, and the station has not", whole(0x100, index=IV_INDEX + 1)]


def wrong_address():
    """The PDU is authentic, but no node may send it: SRC must be unicast, DST not 0, and not virtual with CTL 1."""
    octets = bytes([akf_aid()]) + secured(0x100, READING)
    return ["# DST 0000", hear(0x100, octets, dst=0), "# SRC c0a1, a group", hear(0x101, octets, src=GROUP),
            "# CTL 1 and DST 8001, a virtual address", hear(0x102, bytes([0x0A]), dst=0x8001, ctl=1)]


def cached():
    """SRC, SEQ and IV Index are those of one of the last sixteen PDUs. A copy that a relay brings gets this answer, and so does a box that tries again
    without a new SEQ."""
    return [whole(0x100), "# the same octets again", whole(0x100), "# a relay's copy: the same SRC and SEQ, TTL one lower", whole(0x100, ttl=4),
            "# the box says it again under a new SEQ", whole(0x101)]


def not_for_node():
    """DST is no element of the station, no group that it listens to, no address of a label that it holds, not ffff, and not fffe with relay on. With relay on
    it is forwarded all the same."""
    return ["# to another box, 0299", whole(0x100, dst=0x0299), "# to a group that was not given before setup", whole(0x101, dst=GROUP + 1),
            "# to all relays, where relay is off", whole(0x102, dst=0xFFFE), "# to a reserved group, which is for nobody", whole(0x103, dst=0xFF05),
            f"# to {ELSEWHERE:04x}, the address of a label that was not given before setup", whole(0x104, dst=ELSEWHERE, label=OTHER_LABEL)]


def wrong_form():
    """The transport octets are of no form: an access message of fewer than 5 octets behind octet 0, AKF 0 to a group, a segment whose SegO is above SegN, one
    before the last that is not full, and so on."""
    short = bytes([akf_aid()]) + secured(0x100, READING)[:4]
    device = b"\x00" + transport.secure(DEVICE_KEY, True, 4, 0x102, BOX, GROUP, IV_INDEX, READING)
    return ["# 4 octets behind octet 0: a TransMIC and no payload", hear(0x100, short), "# segment 2 of a message whose last is 1",
            hear(0x101, transport.segment_header(akf_aid(), 0, 0x100, 2, 1) + bytes(12)), "# under the device key (AKF 0) to a group",
            hear(0x102, device, dst=GROUP)]


def no_seq_auth():
    """SeqZero names the number that the message was begun with, at most 8,191 before this SEQ. For this SEQ it would be below 0."""
    return ["# a segment with SEQ 5 of a message that was begun with 6", hear(5, transport.segment_header(akf_aid(), 0, 6, 0, 1) + bytes(12))]


def replayed():
    """The station has accepted a message of this source with this SEQ or a greater one; or a segment's message was begun before such a one. A box whose
    SEQ fell back gets it for all it says."""
    return [whole(0x200), "# the box was started again and counts from 10", whole(0x10, payload=bytes.fromhex("52c20eca12")),
            "# a segment of a message that was begun with 100", segment(0, 0x100, 0x201)]


def differs():
    """The segment has the SeqAuth of the message that is coming, but another CTL, octet 0, SZMIC, SegN, DST or network key."""
    longer = transport.cut(0, akf_aid(), 0, 0x100, secured(0x100, READINGS + bytes(12)))
    return ["# segment 0 of three", segment(0, 0x100), "# segment 1, which says that there are four", hear(0x101, longer[1]),
            "# segment 1 of three, under the next SEQ: the message has suffered nothing", segment(1, 0x100, 0x102)]


def no_entry_left():
    """The station remembers 32 sources, to know a replay; this is one more. Only a new `setup` empties the list."""
    first, *others = [whole(0x10, src=FIRST_SOURCE + at) for at in range(32)]
    return ["# sources 0301 to 0320 say something", first, Hidden(others), "# and the 33rd, 0321", whole(0x10, src=FIRST_SOURCE + 32)]


def no_slot_left():
    """Eight messages in segments can come at once; this would be the ninth. The station gives none up by itself: `drop` does."""
    first, *others = [segment(0, 0x100, src=FIRST_SOURCE + at) for at in range(8)]
    return ["# sources 0301 to 0308 begin a message", first, Hidden(others), "# the ninth source, 0309", segment(0, 0x100, src=NINTH),
            "# the first one is given up", f"drop {FIRST_SOURCE:x}",
            "# and the ninth sends its segment again, under a new SEQ", segment(0, 0x100, 0x103, src=NINTH)]


def not_opened():
    """The network key fits and the message is for the station, but no application key opens it. The second count of trials says whether one had its AID. A
    message to a label's address is opened by a key and the label together; there the count is that of such pairs, under each key all labels of that
    address."""
    elsewhere = bytes([akf_aid()]) + secured(0x102, READING, dst=0x0002)
    return ["# another application key, which the station does not hold: none has its AID, so none is tried", whole(0x100, app=OTHER_KEY),
            "# the right application key, but under network key 1: it is bound to key 0 here", whole(0x101, key=SECOND_KEY),
            "# a key has the AID and is tried, and the TransMIC does not fit: the message was secured for another DST", hear(0x102, elsewhere),
            f"# to {LABELLED:04x}, the address of the station's label, but secured without the label", whole(0x103, dst=LABELLED),
            "# secured with the label it is opened, by key 0 and label 0", whole(0x104, dst=LABELLED, label=LABEL)]


def outside_rules():
    """The request is outside the rules, and nothing is sent or changed. The table above has all causes."""
    return ["# nothing is sent to a reserved group", "access 0 ff05 - 0 0 4 52", "# TTL 1", "access 0 201 1 0 0 4 52",
            "# no message in segments was begun", "segment 0", "# the station has one label, number 0", "access 0 label:1 - 0 0 4 52",
            f"# {LABELLED:04x} is that label's address; from an address it cannot be told which label is meant", f"access 0 {LABELLED:x} - 0 0 4 52"]


def no_seq_left():
    """The element has used all its numbers, ffffff among them. It can speak again only under another IV Index, by a new `setup`."""
    return ["# another station, whose next SEQ is the last", f"netkey {NETWORK_KEY.hex()}", f"appkey 0 {APPLICATION_KEY.hex()}", "elements 1 ffffff",
            f"ivindex {IV_INDEX:x} 0", "setup", "access 0 201 - 0 0 4 52", "access 0 201 - 0 0 4 52", "control 0 201 - 0 1 -"]


def short_buffer():
    """`room` has lent too little: 29 octets (1d) for a PDU, 384 (180) for a message. It is asked before all else, whether the buffer is needed or not. In C it
    is `out_len` below 29."""
    return [segment(0, 0x100), "# 28 octets for a PDU: hearing, sending and acknowledging are refused", "room 1c 180", whole(0x105),
            "access 0 201 - 0 0 4 52", "control 0 201 - 0 1 -", "segment 0", "ack 0 201",
            "# vetting needs no buffer for a PDU", vet(*parts(0x100)), "# 383 octets for a message: hearing and vetting are refused",
            "room 1d 17f", whole(0x105), vet(*parts(0x100)), "# sending needs no buffer for a message", "access 0 201 - 0 0 4 52", "# now both are as at the start",
            "room 1d 180", whole(0x105)]


def cut():
    """The list of the Sensor Status ends inside a header or a value, and nothing of it is read."""
    return ["property 76 humidity", "# two records, whole", "readings 52c20ed711c20ec012", "# the second value has one octet", "readings 52c20ed711c20ec0",
            "# the second header has one octet", "readings 52c20ed711c2"]


def misfit():
    """A property that is named humidity or temperature has two octets. Its header says another length."""
    return ["property 76 humidity", "# a humidity of one octet", "readings 52c00e30", "# a humidity of three", "readings 52c40ec01200"]


def own_source():
    """SRC is one of the station's elements. A relay brings back what the station itself has sent, or another node bears its address. It is asked before the
    cache and leaves everything: no entry, no session, nothing forwarded."""
    back = transport.acknowledgement(0, 0x100, 1)
    return ["# the station says something to the box, with TTL 4", f"access 0 {BOX:x} - 0 0 4 {READING.hex()}",
            "# a relay has heard it and hands it on: TTL 3", whole(0x40, src=STATION, dst=BOX, ttl=3),
            "# the box sends a segment, the station acknowledges it", segment(0, 0x100), f"ack 0 {BOX:x}",
            "# and the acknowledgement comes back in the same way", hear(0x41, back, src=STATION, dst=BOX, ctl=1, ttl=3),
            "# a box that was given the station's address by mistake", whole(0x200, src=STATION, dst=GROUP),
            "# the station knows of the box alone", "show"]


def fault():
    """The PDU at this place, counted from 0, begins with those before it the segments of no message. In a message octet 0, SZMIC or RFU, SeqZero and SegN are
    the same in all segments, SegO is the place, each but the last is full, and none stands behind the last. The first PDU at fault is named, and what stands
    behind it is not judged."""
    first, second, last = parts(0x100)
    other = parts(0x101)[1]
    return ["# the three segments of five readings, whole: approved", vet(first, second, last), "# the second has another SeqZero", vet(first, other, last),
            "# the second is missing, and the third stands in its place", vet(first, last), "# the first is not full", vet(first[:-1], second, last),
            "# the last has nothing behind its first four octets", vet(first, second, last[:4]), "# one too many: the last again", vet(first, second, last, last),
            "# the same as control segments, which hold eight octets and not twelve", vet(first, second, last, ctl=1),
            "# a control segment whose RFU bit is 1; and as it should be", vet(bytes.fromhex("8a80000052"), ctl=1), vet(bytes.fromhex("8a00000052"), ctl=1)]


def unfinished():
    """No PDU is at fault, but the list ends before SegN is reached: the last segments are missing. So it is where no PDU is given at all."""
    first, second, last = parts(0x100)
    return ["# no PDU", vet(), "# the first of three", vet(first), "# the first two", vet(first, second), "# and all three: approved", vet(first, second, last)]


# Each example by its number.
MADE = {
    1: wrong_length, 2: no_candidate, 3: not_authentic, 4: wrong_address, 5: cached, 6: not_for_node, 7: wrong_form, 8: no_seq_auth, 9: replayed,
    10: differs, 11: no_entry_left, 12: no_slot_left, 13: not_opened, 14: outside_rules, 15: no_seq_left, 16: short_buffer, 20: cut, 21: misfit,
    22: own_source, 26: fault, 27: unfinished,
}
