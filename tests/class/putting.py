"""Checks which `readings` lines are put into a log: small logs with their answers, and what must come of them."""
from readings_in import put_in

X, Y = "52c20ec012", "52a20e5c08"


def access(octets, behind=""):
    """The answer that hands up a message."""
    return f"access src 0201 dst 0001 net 0 key 0 iv 12345678 seq 000100 trials 1 1 message {octets}{behind}"


# The log, the answers, the log that must come of it and the number of each line.
CASES = {
    "an empty log": ([], [], [], []),
    "a status that is not asked for": (["hear 00"], [access(X)], ["hear 00", f"readings {X}"], [1, 1]),
    "one that is forwarded": (["hear 00"], [access(X, " forward 68aa")], ["hear 00", f"readings {X}"], [1, 1]),
    "one that is asked for": (["hear 00", f"readings {X}"], [access(X), "readings 1 .."], ["hear 00", f"readings {X}"], [1, 2]),
    "one that is asked for later, in capitals": (["hear 00", "", "# words", "show", f"readings {X.upper()}"], [access(X), "seq 1", "end", "readings 1 .."],
                                                 ["hear 00", "", "# words", "show", f"readings {X.upper()}"], [1, 2, 3, 4, 5]),
    "asked for before it came": ([f"readings {X}", "hear 00"], ["readings 1 ..", access(X)], [f"readings {X}", "hear 00", f"readings {X}"], [1, 2, 2]),
    "twice the same, asked for once": (["hear 00", "hear 01", f"readings {X}"], [access(X), access(X), "readings 1 .."],
                                       ["hear 00", f"readings {X}", "hear 01", f"readings {X}"], [1, 1, 2, 3]),
    "twice the same, asked for between": (["hear 00", f"readings {X}", "hear 01"], [access(X), "readings 1 ..", access(X)],
                                          ["hear 00", f"readings {X}", "hear 01", f"readings {X}"], [1, 2, 3, 3]),
    "two of which one is asked for": (["hear 00", "hear 01", f"readings {X}"], [access(X), access(Y), "readings 1 .."],
                                      ["hear 00", "hear 01", f"readings {Y}", f"readings {X}"], [1, 2, 2, 3]),
    "no status": (["hear 00", "hear 01", "hear 02"], [access("c1ffff03"), "control src 0201 message 52", "refused 5 trials 1 0"],
                  ["hear 00", "hear 01", "hear 02"], [1, 2, 3]),
    "one that is sent": (["access 0 201 - 0 0 4 52"], ["sent 6852"], ["access 0 201 - 0 0 4 52"], [1]),
}


def cases():
    """What is wrong with the cases, and how many there are."""
    wrong = []
    for name, (log, answers, lines, numbers) in CASES.items():
        found = put_in(log, answers)
        if found != (lines, numbers):
            wrong.append(f"put in, {name}: {found}")
    return wrong, f"{len(CASES)} logs with readings put in"
