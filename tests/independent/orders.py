"""What the receiver is asked: each function is an actor, a generator of the console's lines without end.

Sending requests, right and wrong in one point; acknowledgements and giving up; buffers too short; setups that are refused.
"""
from dataclasses import replace

from world import RESERVED_GROUPS, setup_lines, some_group


def octets(dice, count):
    return dice.randbytes(count).hex() or "-"


def _request(world, labels=()):
    """The fields that access and control share, all allowed: element, DST, TTL and network key. The labels may be DST too."""
    dice, setup = world.dice, world.setup
    known = world.some_node().src
    numbers = (known, known, world.local(), world.heard_group(), dice.randint(1, 0x7FFF), some_group(dice))
    dst = dice.choice([f"{number:04x}" for number in numbers] + [f"label:{at:x}" for at in range(len(labels))])
    element = 0 if dice.random() < 0.5 else dice.randrange(len(setup.seqs))
    ttl = dice.choice(("-", "-", "0", "2", "7f", f"{dice.randint(2, 127):x}"))
    return [f"{element:x}", dst, ttl, f"{dice.randrange(len(setup.net_keys)):x}"]


def _spoilt(world, fields):
    """One of the shared fields made wrong."""
    dice, setup = world.dice, world.setup
    wrong = ((0, f"{dice.choice((len(setup.seqs), 8, 0xFF)):x}"), (1, "0"), (1, f"{dice.randint(0x8000, 0xBFFF):x}"),
             (1, f"{dice.choice(RESERVED_GROUPS):x}"), (1, f"{world.of_label():x}"),
             (1, f"label:{dice.choice((0, len(setup.labels), 4, 0xFF)):x}"), (2, "1"), (2, "80"), (2, "ff"),
             (3, f"{dice.choice((len(setup.net_keys), 4, 0xFF)):x}"))
    at, value = dice.choice(wrong)
    return fields[:at] + [value] + fields[at + 1:]


def access(world):
    """Access messages: every size about its limits, every key."""
    dice, setup = world.dice, world.setup
    while True:
        fields = _request(world, setup.labels)
        fitting = [f"{at:x}" for at, (bound, _) in enumerate(setup.app_keys) if f"{bound:x}" == fields[3]]
        key = dice.choice(fitting) if fitting and dice.random() < 0.75 else "dev"
        if key == "dev" and dice.random() < 0.8:
            fields[1] = f"{world.some_node().src:x}"
        mic = dice.choice((4, 4, 8))
        count = dice.choice((1, 2, 8, 11, 12, 20, 376, 380, dice.randint(1, 40)))
        count = min(count, 384 - mic)
        roll = dice.random()
        if roll < 0.15:
            fields = _spoilt(world, fields)
        elif roll < 0.22:
            key = f"{dice.choice((len(setup.app_keys), 4, 0xFF, *range(len(setup.app_keys)))):x}"
        elif roll < 0.3:
            count = dice.choice((0, 385 - mic, 381, 377, 600))
        yield " ".join(["access", *fields, key, f"{mic}", octets(dice, count)])


def control(world):
    """Control messages: every size about its limits, every opcode."""
    dice = world.dice
    while True:
        fields, opcode = _request(world), dice.choice((1, 0x7F, dice.randint(1, 0x7F)))
        count = dice.choice((0, 1, 11, 12, 17, 256, dice.randint(0, 40)))
        roll = dice.random()
        if roll < 0.15:
            fields = _spoilt(world, fields)
        elif roll < 0.22:
            opcode = dice.choice((0, 0x80, 0xFF))
        elif roll < 0.3:
            count = dice.choice((257, 300, 700))
        yield " ".join(["control", *fields, f"{opcode:x}", octets(dice, count)])


def to_labels(world):
    """Access messages to held labels that are allowed, whole or in a few segments, but that another may be kept; now and then that one is given up."""
    dice, setup = world.dice, world.setup
    while True:
        if world.receiver.out and dice.random() < 0.2:
            yield "stop"
        key, mic = dice.randrange(len(setup.app_keys)), dice.choice((4, 4, 8))
        count = dice.choice((1, 11, dice.randint(12, 40)))
        yield f"access 0 label:{dice.randrange(len(setup.labels)):x} - {setup.app_keys[key][0]:x} {key:x} {mic} {octets(dice, count)}"


def segments(world):
    """Later segments of the message that is kept, and others."""
    dice = world.dice
    while True:
        out = world.receiver.out
        count = len(out.segments) if out else 3
        heard = [place for place in range(count) if out and out.heard >> place & 1] or [0]
        yield f"segment {dice.choice((*heard[:2], dice.randrange(count), dice.randrange(count), count, dice.randrange(256))):x}"


def acknowledge(world):
    """Acknowledgements of sources that have a session, that had one, or neither."""
    dice = world.dice
    while True:
        known = [session.src for session in world.receiver.sessions if session] + [entry.src for entry in world.receiver.replay if entry.last]
        src = dice.choice(known) if known and dice.random() < 0.8 else dice.choice((0, world.some_node().src, world.local(), 0xFFFF, *RESERVED_GROUPS))
        net = dice.randrange(len(world.setup.net_keys)) if dice.random() < 0.9 else dice.choice((len(world.setup.net_keys), 4, 0xFF))
        yield f"ack {net:x} {src:x}"


def giving_up(world):
    dice = world.dice
    while True:
        if dice.random() < 0.4:
            yield "stop"
            continue
        known = [session.src for session in world.receiver.sessions if session]
        yield f"drop {dice.choice(known) if known and dice.random() < 0.6 else dice.choice((0, world.some_node().src)):x}"


def short_room(dice):
    return dice.choice(("room 1c 180", "room 0 180", "room 1d 17f", "room 1d 0", "room 0 0", f"room {dice.randint(0, 384):x} {dice.randint(0, 383):x}"))


def enough_room(dice):
    return dice.choice(("room 1d 180", "room 180 180", f"room {dice.randint(29, 384):x} 180"))


def _among(dice, groups, one):
    """The groups with one more at any place."""
    at = dice.randint(0, len(groups))
    return groups[:at] + [one] + groups[at:]


def bad_setups(dice, setup):
    """The setup, wrong in each point that document 01 names, in listing a reserved group, and in a fifth label."""
    key, nets = dice.randbytes(16), len(setup.net_keys)
    return (
        replace(setup, net_keys=[]),
        replace(setup, net_keys=[dice.randbytes(16) for _ in range(dice.choice((5, 6, 20)))]),
        replace(setup, app_keys=[(0, dice.randbytes(16)) for _ in range(dice.choice((5, 9)))]),
        replace(setup, app_keys=setup.app_keys[:3] + [(dice.choice((nets, 4, 255)), key)]),
        replace(setup, seqs=[]),
        replace(setup, first=1, seqs=[dice.randrange(9) for _ in range(dice.choice((9, 100, 400)))]),
        replace(setup, first=0),
        replace(setup, first=0x8000 - len(setup.seqs) + dice.choice((1, 2))),
        replace(setup, first=dice.choice((0x8000, 0xC000, 0xFFFF))),
        replace(setup, seqs=setup.seqs[:-1] + [dice.choice((0x1000001, 0x2000000, 0xFFFFFFFF))]),
        replace(setup, groups=[0xC000] * dice.choice((9, 30))),
        replace(setup, groups=setup.groups[:7] + [dice.choice((0, 1, 0x7FFF, 0x8000, 0xBFFF))]),
        replace(setup, groups=_among(dice, setup.groups[:7], dice.choice(RESERVED_GROUPS))),
        replace(setup, iv_index=0, flag=1),
        replace(setup, labels=(setup.labels + [dice.randbytes(16) for _ in range(20)])[:dice.choice((5, 5, 5, 20))]),
    )


def bad_setup(dice, setup):
    """The lines of a setup that is refused."""
    return setup_lines(dice.choice(bad_setups(dice, setup)), dice)


ACTORS = (access, control, segments, acknowledge, giving_up)
