"""What each refusal means, in the few words that fit behind its number; docs/ANSWERS.md has the whole sentence of each."""

WORDS = {
    1: "its length is not 14 to 29 octets", 2: "no key has its NID, or no IV Index fits", 3: "no key authenticates it", 4: "an address is not allowed",
    5: "it is in the cache: heard before", 6: "it is not for this node", 7: "its transport form is wrong", 8: "no SeqAuth exists",
    9: "it is old: replayed, or a newer message is coming", 10: "it does not fit the message that it would join", 11: "no replay entry is free",
    12: "no session is free", 13: "no key opens the message, or it is too short", 14: "the request is outside the rules",
    15: "the element has no sequence number left", 16: "a buffer is too short", 20: "the list ends inside a header or a value",
    21: "a named property has another length than two octets", 22: "its SRC is an address of this node",
    26: "no message has such a segment there", 27: "the list ends before its last segment",
}
