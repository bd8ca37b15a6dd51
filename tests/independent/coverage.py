"""Which kinds of answer the fixed seeds must reach: every refusal of the documents by its reasons, from every operation, and every other answer."""
import textwrap

from model import AGAIN, AT_LABEL, BESIDE_OURS, CLOSED_AT, OPENED_AT, OURS
from network import ABOUT_RESERVED, RESERVED
from sensor import EDGES
from vetting import NAMES

# Refusals of `hear` by number. Those of the second table must come with and without forwarding, those of the first never forward.
HEAR_KEPT = {
    16: ("forward buffer", "message buffer"),
    1: ("too short", "too long"),
    2: ("no candidate key", "no IV Index"),
    3: ("none authenticates",),
    4: ("SRC unassigned", "SRC virtual", "SRC group", "SRC reserved", "DST unassigned", "DST virtual"),
    22: tuple(whose + under for whose in ("an own message", "an own acknowledgement", "another's PDU") for under in ("", " under the IV Index before")),
    5: ("in the cache",),
    13: ("the device key does not open it",),
}
HEAR_CACHED = {
    6: ("DST unicast", "DST virtual", "DST virtual, other labels are held", "DST group", "DST reserved"),
    7: ("AKF 0 with an AID", "AKF 0 to no unicast address", "a segment without octets", "a segment with opcode 0", "SegO above SegN",
        "a segment before the last that is not full", "an acknowledgement not of 7 octets", "an access message of fewer than 5 octets"),
    8: ("no SeqAuth",),
    9: ("unsegmented: not above the entry", "segment: not above the entry", "segment: the open session is newer"),
    10: tuple("differs in " + point for point in ("CTL", "octet 0", "SZMIC", "SegN", "DST", "opening key")),
    11: ("unsegmented", "an acknowledgement", "a segment that joins", "a segment that would open a session"),
    12: ("no slot free",),
    13: ("too short", "no application key fits", "no application key opens it", "no application key fits, DST virtual", "no pair opens it"),
}
# Answers of `hear` that are no refusal; a message under the device key and an acknowledgement that fits are for a local address: never forwarded.
HEARD = ("access by the device key", "acknowledged complete", "acknowledged cancelled", "acknowledged marked")
HEARD_CACHED = ("stored", "repeat", "access by an application key", "access by an application key and a label", "control", "acknowledged nothing")

COMMON_14 = ("no such element", "DST unassigned", "DST virtual", "DST virtual, of a label that is held", "DST reserved",
             "TTL 1", "TTL above 127", "no such network key", "another message is kept")
ASKED = {
    "setup": {14: ("number of network keys", "number of application keys", "an application key bound to no network key", "number of elements",
                   "the first element's address", "the last element's address", "a next SEQ too high", "number of groups", "a group address that is none",
                   "a reserved group", "flag 1 with IV Index 0", "number of labels")},
    "access": {16: ("PDU buffer",), 15: ("no SEQ left",),
               14: COMMON_14 + ("no such label", "the device key to a label", "the device key to no unicast address", "no such application key",
                                "the application key is bound to another network key", "no payload", "payload too long")},
    "control": {16: ("PDU buffer",), 15: ("no SEQ left",), 14: COMMON_14 + ("control to a label", "opcode 0", "opcode above 7f", "parameters too long")},
    "segment": {16: ("PDU buffer",), 15: ("no SEQ left",), 14: ("nothing is kept", "above SegN", "already heard", "over 8,191 after the first")},
    "ack": {16: ("PDU buffer",), 15: ("no SEQ left",),
            14: ("no such network key", "nothing of this source", "its DST is not unicast", "DST of the open session is virtual",
                 "DST of the last message handed up is virtual")},
    "stop": {14: ("nothing is kept",)},
    "drop": {14: ("no session of this source",)},
    "property": {14: ("named already", "named already with the other kind", "a ninth name")},
    "readings": {20: ("one octet of a header", "two octets of a header of format B", "a value cut short"),
                 21: ("no octets at all", "too short", "too short, and its value cut too", "too long", "too long, and its value cut too")},
    "vet": {16: ("else approved", "else at fault", "else unfinished"),
            27: tuple(f"{name}, {which}" for name in NAMES for which in ("no PDU", "the last is missing", "more are missing"))},
}
DONE = ("netkey", "appkey", "devkey", "elements", "group", "label", "ivindex", "relay", "setup ready", "room", "access sent", "access started", "control sent",
        "control started", "segment sent", "ack sent", "stop", "drop", "show", "skipped", "property", "properties", "readings",
        "readings no status: no octets", "readings no status: another opcode", "vet approved access", "vet approved control")
UNREAD = ("a line too long", "no such command", "number of fields", "an empty field", "not a digit", "over 8 digits", "a number above its limit",
          "half an octet", "a key not of 16 octets", "a label not of 16 octets", "a MIC neither 4 nor 8", "before the first setup", "a kind that is none",
          "a message of over 380 octets", "a PDU of over 255 octets")
CASES = ("a later network key opens it", "several network keys fail", "under the IV Index before", "a later application key opens it",
         "repeats within the session", "repeats the last message handed up", "repeats the last message handed up while another comes",
         "joins though the entry is newer", "replaces an older session", "completes with SegN 0", "completes with SegN 31",
         "completes with a segment before the last", "acknowledges the open session", "acknowledges the last message handed up",
         "sends a segment 8,191 after the first", "has no SEQ left 8,191 after the first", "has no SEQ left 8,192 after the first",
         "names a property that was forgotten", "SEQ 0 of IV Index 0 is in the cache")
# Where the first and the last of the reserved groups must be met, and the groups beside them, which are listened to and sent to.
ENDS = tuple(f"{address:04x}" for address in RESERVED)
ABOUT = tuple(f"{address:04x} with CTL {ctl}" for address in ABOUT_RESERVED for ctl in (0, 1))
BESIDE = ABOUT[:2] + ABOUT[-2:]
MET = {"for this node": BESIDE, "not for this node": ABOUT, "not for this node under AKF 0": ENDS, "asked to listen to": ENDS, "asked to send to": ENDS,
       "asked to send to under the device key": ENDS, "sent to": BESIDE, "asked to acknowledge": ENDS}
# A PDU whose SRC and SEQ are in the cache under the other IV Index: handed up or stored under this one after the one before, replayed the other way
# round, not for this node either way; and, with both in the cache, a copy of one of them.
TWICE = {AGAIN: tuple(case + behind for case in ("heard", "stored", "not for this node", "replayed") for behind in ("", ", forwarded"))
         + ("a copy of either is in the cache",)}
# A PDU whose SRC is an element of the receiver: which one, opened by which key, how it comes, and what 22 keeps it from; 4, which comes before 22; and the
# addresses beside those of the elements, which are others'. 22 before 5 is not met: nothing that is 22 goes into the cache, and no line can put it there,
# so only a forged state has such an entry.
VOICE = {OURS: ("the first element of several", "the last element of several", "a later network key opens it", "as it was sent", "as a relay hands it on",
                "not forwarded", "not taken", "4 before 22, DST unassigned", "4 before 22, DST virtual"),
         BESIDE_OURS: ("the last below the first element", "the first above the last element")}
# What comes to the address of a held label, by its answer; 6 it cannot be. Which pair of key and label opens a message, and how the message comes; which
# pairs have failed, and what a message was secured with that none opens. How a message is sent to a label, to which one, who hears it, and which
# acknowledgement counts for it. How many labels a setup is given.
LABELLED = {
    AT_LABEL: ("access", "stored", "repeat", *(f"refused {number}" for number in (4, 22, 5, 7, 8, 9, 10, 11, 12, 13))),
    OPENED_AT: (*(label + key for label in ("the only label", "the first of several labels", "a later label") for key in ("", " under a later key")),
                "the first of equal labels", "the fifth pair or one behind it", "the sixteenth pair", "whole", "TransMIC of 4, in segments",
                "TransMIC of 8"),
    CLOSED_AT: (*(f"{keys} and {labels}" for keys in ("no key", "one key", "several keys") for labels in ("one label", "several labels")),
                "sixteen pairs", "too short", "no additional data", "a held label of another address",
                "DST is no label's, though a held one is the additional data"),
    "sent to a label": ("whole", "TransMIC of 4, in segments", "TransMIC of 8", "the fourth", "the second of equal ones", "the second of one address"),
    "sent to a label, heard by another": ("access", "stored", "repeat"),
    "acknowledged, sent to a label": ("OBO 0, nothing", *(f"OBO 1, {effect}" for effect in ("marked", "complete", "cancelled", "nothing"))),
    "labels given": tuple(map(str, range(6))),
}
# The cases of Sensor Status: what a record is, what a list is as a whole, the counts about the ends of the ranges, and what needs no receiver.
SENSED = {
    "a record": ("format A", "format A, at its longest", "format B", "format B, at its longest", "humidity above zero", "humidity of zero",
                 "humidity unknown", "humidity prohibited", "temperature above zero", "temperature of zero", "temperature below zero",
                 "temperature unknown", "temperature prohibited", "raw", "raw without octets", "raw, its name forgotten", "named property 0",
                 "named before a setup that is ready", "named before a setup that is refused"),
    "a list": ("no records", "126 records", "a property twice", "a property in both formats"),
    **{kind: tuple(f"count {count}" for count in counts) for kind, counts in EDGES.items()},
    "before the first setup": ("property", "properties", "readings", "vet"),
}
# The cases of vetting: what is approved, by its lengths and by the ends of its fields; what stands about it; and of 26 each reason that can stand alone, by
# the place of the PDU at fault in its message. Access has AKF and SZMIC where control has its opcode and RFU.
APPROVED = ("one segment", "32 segments", "several, the last full", "several, the last of one octet", "at its longest", "at its shortest", "SeqZero 0",
            "SeqZero 1fff")
STUBS = ("no octets", "fewer than four octets")
AT_FAULT = ("SEG 0", "SegO above its place", "several reasons", *STUBS, "no octets behind the first four", "more octets than a segment holds")
BETWEEN = AT_FAULT + ("another octet 0", "another SeqZero", "SegO below its place", "another SegN")
NOT_FULL = ("not full before the last",)
VETTED = {
    "approved access": APPROVED + ("at its shortest with SZMIC 1", "SZMIC 1", "AKF 0", "AKF 1 with AID 0"),
    "approved control": APPROVED + ("opcode 1", "opcode 7f"),
    "vetted": ("a PDU of 255 octets", "383 octets of room", "what our own sender keeps, approved"),
    "vet refused 26, access, at 0": AT_FAULT + NOT_FULL + ("AKF 0 with an AID", "too short for a message", "too short for a message with SZMIC 1"),
    "vet refused 26, control, at 0": AT_FAULT + NOT_FULL + ("opcode 0", "RFU 1"),
    "vet refused 26, access, between": BETWEEN + NOT_FULL + ("another SZMIC",),
    "vet refused 26, control, between": BETWEEN + NOT_FULL + ("RFU 1",),
    "vet refused 26, access, at the last": BETWEEN + ("another SZMIC",),
    "vet refused 26, control, at the last": BETWEEN + ("RFU 1",),
    **{f"vet refused 26, {name}, too many": STUBS + ("behind the last", "several reasons") for name in NAMES},
}


def _refusals(table, word, behind=""):
    return [f"{word} refused {number}: {why}{behind}" for number, reasons in table.items() for why in reasons]


def required():
    """The words for each kind, in the document's order."""
    kinds = _refusals(HEAR_KEPT, "hear")
    for behind in ("", ", forwarded"):
        kinds += _refusals(HEAR_CACHED, "hear", behind) + [f"hear {kind}{behind}" for kind in HEARD_CACHED]
    kinds += [f"hear {kind}" for kind in HEARD]
    for word, table in ASKED.items():
        kinds += _refusals(table, word)
    kinds += list(DONE) + [f"unread: {why}" for why in UNREAD] + list(CASES)
    return kinds + [f"{what}: {case}" for table in (MET, TWICE, VOICE, LABELLED, SENSED, VETTED) for what, cases in table.items() for case in cases]


def _groups(kinds):
    """The kinds by operation and number, those that were forwarded apart."""
    groups = {}
    for kind in kinds:
        words = kind.removesuffix(", forwarded")
        head, colon, rest = words.partition(": ")
        if not colon:
            head, rest = ("hear", words.removeprefix("hear ")) if words.startswith("hear ") else ("cases met" if kind in CASES else "done", words)
        groups.setdefault(head + kind.removeprefix(words), []).append((kind, rest))
    return groups


def report(counts):
    """Prints every count; gives the kinds that were not reached, and those that are not listed here."""
    kinds = required()
    for head, group in _groups(kinds).items():
        text = f"{head}: " + ", ".join(f"{rest} {counts[kind]}" for kind, rest in group)
        print(textwrap.fill(text, 150, subsequent_indent="    "))
    return [kind for kind in kinds if not counts[kind]], sorted(set(counts) - set(kinds))
