"""What the receiver hears: each function is an actor, a generator of PDUs without end that is given the world.

An actor reads the receiver's state where it aims at something (a segment that differs from an open session, an acknowledgement that fits);
what it makes comes from the world's nodes.
"""
from itertools import chain, zip_longest

import network
import transport
from ciphers import k2, k4
from model import Terms
from network import kind
from transport import WINDOW
from world import RESERVED_GROUPS

NOTHING = b""


def damaged(dice, pdu):
    """The PDU with one bit changed, cut, or lengthened."""
    how = dice.randrange(5)
    if how == 0:
        return pdu[:dice.randrange(len(pdu))]
    if how == 1:
        return pdu + dice.randbytes(dice.choice((1, 1, 2, 40)))
    at = dice.randrange(8 * len(pdu)) if how > 2 else dice.randrange(8)
    return pdu[:at // 8] + bytes([pdu[at // 8] ^ 1 << at % 8]) + pdu[at // 8 + 1:]


def app_key(world, net, dst):
    """A key for an access message: one bound to the network key as a rule. Gives octet 0's AKF and AID, the key, and whether it is the device key."""
    dice = world.dice
    fitting = [key for bound, key in world.setup.app_keys if bound == net]
    held = [key for _, key in world.setup.app_keys]
    roll = dice.random()
    if roll < (0.08 if kind(dst) == "virtual" else 0.25) or not held:
        return 0, world.setup.device_key if dice.random() < 0.9 else dice.randbytes(16), True
    key = world.strange_app if roll < 0.35 else dice.choice(held) if roll < 0.45 or not fitting else dice.choice(fitting)
    return 0x40 | k4(key), key, False


def length(dice, one, most):
    """How long a segmented message is: within one segment, of a few, of many, or the most."""
    return dice.choice((one, dice.randint(1, one), *[dice.randint(1, 5 * one)] * 3, *[dice.randint(1, 60)] * 4, dice.randint(1, most), most))


def access(world, node, dst, seq, segmented, mic):
    """The transport octets of an access message begun with this SEQ, one for each segment."""
    dice = world.dice
    first, key, of_device = app_key(world, node.net, dst)
    payload = dice.randbytes(length(dice, 12 - mic, 384 - mic) if segmented else dice.randint(1, 11))
    if segmented and dice.random() < 0.05:
        payload = NOTHING
    upper = transport.secure(key, of_device, mic, seq, node.src, dst, node.index, payload, NOTHING if of_device else world.data_for(dst))
    if dice.random() < 0.04:
        upper = upper[:-1] + bytes([upper[-1] ^ 1])
    if not segmented:
        return [bytes([first]) + upper]
    if dice.random() < 0.05:
        upper = upper[:dice.randint(1, mic)]
    return transport.cut(0, first, int(mic == 8), seq, upper)


def control(dice, seq, segmented):
    opcode = dice.choice((1, 0x0A, 0x7F, dice.randint(1, 0x7F)))
    if not segmented:
        return [bytes([opcode]) + dice.randbytes(dice.choice((0, 11, dice.randint(0, 11))))]
    return transport.cut(1, opcode, dice.choice((0, 0, 1)), seq, dice.randbytes(length(dice, 8, 256)))


def message(world, node, dst=None):
    """A message of any kind: CTL, DST and a list of (SEQ, transport octets)."""
    dice, dst = world.dice, world.destination() if dst is None else dst
    ctl, segmented = dice.choice((0, 0, 1)), dice.random() < 0.65
    if kind(dst) == "virtual" and dice.random() < 0.9:
        ctl = 0
    if node.seq > 0xFFFFFF - 40:
        # near the end of the numbers: messages that the last SEQ cuts off
        node.seq = 0xFFFFFF - dice.randrange(3)
    first = node.take()
    parts = control(dice, first, segmented) if ctl else access(world, node, dst, first, segmented, dice.choice((4, 8)) if segmented else 4)
    return ctl, dst, [(first if at == 0 else node.take(), part) for at, part in enumerate(parts)]


def talk(world):
    """A node that sends one message after another: in order, shuffled, with losses, repeats and damaged copies."""
    dice = world.dice
    node = world.node()
    while True:
        if dice.random() < 0.1:
            node.index, node.net = world.index(), dice.randrange(len(world.setup.net_keys))
        if dice.random() < 0.05:
            node.seq += dice.choice((1, WINDOW - 2, WINDOW - 1, WINDOW, 100))
        ctl, dst, parts = message(world, node)
        if dice.random() < 0.5:
            dice.shuffle(parts)
        lossy = dice.random() < 0.3
        for seq, octets in parts:
            if lossy and dice.random() < 0.2:
                continue
            pdu = node.say(ctl, world.ttl(), dst, octets, seq)
            if dice.random() < 0.05:
                yield damaged(dice, pdu)
            yield pdu
            if dice.random() < 0.05:
                yield pdu
            if dice.random() < 0.08:
                yield node.say(ctl, world.ttl(), dst, octets)


def late(world):
    """Segments of one message with SEQs up to and past 8,191 after its first."""
    dice = world.dice
    while True:
        node = world.some_node()
        node.seq = min(node.seq, 0xFFFFFF - 3 * WINDOW)
        ctl, dst, parts = message(world, node, world.local())
        first = parts[0][0]
        for _, octets in parts[:3]:
            ahead = dice.choice((0, 1, WINDOW - 2, WINDOW - 1, WINDOW, WINDOW + 1))
            yield node.say(ctl, 5, dst, octets, first + ahead)
            node.seq = max(node.seq, first + ahead + 1)


def one_short(world, ctl, src=None):
    """A message of one PDU that is accepted, if its source is."""
    dice, node = world.dice, world.node(src)
    if ctl:
        return node.say(1, world.ttl(), world.destination(), bytes([5]) + dice.randbytes(4))
    dst, seq = world.local(), node.take()
    upper = transport.secure(world.setup.device_key, True, 4, seq, node.src, dst, node.index, b"\x01")
    return node.say(0, world.ttl(), dst, b"\x00" + upper, seq)


def crowd(world):
    """New sources, each with a short message or an acknowledgement: they fill the replay list."""
    dice = world.dice
    while True:
        if dice.random() < 0.7:
            yield one_short(world, dice.choice((0, 1)))
        else:
            dst = dice.choice((world.local(), world.heard_group()))
            yield world.node().say(1, world.ttl(), dst, transport.acknowledgement(1, dice.randrange(WINDOW), 1))


def openers(world):
    """New sources, each with the first segment of a longer message: they fill the slots."""
    dice = world.dice
    while True:
        node, ctl = world.node(), dice.randint(0, 1)
        dst, seq = dice.choice((world.local(), world.heard_group(), *[world.of_label()] * (1 - ctl))), node.take()
        parts = transport.cut(ctl, dice.randint(0x40, 0x7F), 0, seq, dice.randbytes(dice.randint(13, 40)))
        yield node.say(ctl, world.ttl(), dst, parts[0], seq)
        if dice.random() < 0.3:
            yield node.say(ctl, world.ttl(), dst, parts[1])


def joined(world):
    """Segments for sessions that are open, whoever opened them: fitting in all, or different in one of refusal 10's points."""
    dice = world.dice
    while True:
        sessions = [session for session in world.receiver.sessions if session]
        if not sessions:
            yield one_short(world, 1)
            continue
        session = dice.choice(sessions)
        node, terms = world.node(session.src), session.terms
        change = dice.choice((None, None, "ctl", "first", "szmic", "seg_n", "dst", "net"))
        terms = changed(world, terms, change)
        size = transport.segment_size(terms.ctl)
        missing = [place for place in range(terms.seg_n + 1) if place not in session.places]
        place = dice.choice(missing) if missing and dice.random() < 0.8 else dice.randint(0, terms.seg_n)
        body = dice.randbytes(size if place < terms.seg_n else dice.randint(1, size))
        head = transport.segment_header(terms.first, terms.szmic, session.auth[1] % WINDOW, place, terms.seg_n)
        node.index = session.auth[0]
        ahead = node.seq if session.auth[1] <= node.seq < session.auth[1] + WINDOW else session.auth[1] + dice.randrange(WINDOW)
        node.seq = min(ahead, 0xFFFFFF)
        yield node.say(terms.ctl, world.ttl(), terms.dst, head + body, None, terms.net)


def changed(world, terms, change):
    """The terms of a session, different in one point where that can be had."""
    dice = world.dice
    match change:
        case "ctl":
            return terms._replace(ctl=1 - terms.ctl, first=terms.first if terms.first & 0x40 else terms.first | 0x41, szmic=0)
        case "first":
            return terms._replace(first=terms.first ^ 0x01 if terms.first & 0x40 else terms.first | 0x40)
        case "szmic":
            return terms._replace(szmic=1 - terms.szmic)
        case "seg_n":
            return terms._replace(seg_n=dice.choice([n for n in (0, 1, 3, 31, terms.seg_n - 1, terms.seg_n + 1) if 0 <= n <= 31 and n != terms.seg_n]))
        case "dst":
            return terms._replace(dst=world.other_than(terms.dst) or terms.dst)
        case "net":
            return terms._replace(net=dice.randrange(len(world.setup.net_keys)))
    return Terms(*terms)


def echo(world, sent, lower=0):
    """What the receiver sent itself, as it was or with a lower TTL."""
    opened = sent.opened._replace(ttl=max(sent.opened.ttl - lower, 0))
    return network.seal(world.receiver.networks[sent.net], sent.iv_index, *opened)


def again(world):
    """PDUs that were heard: the same, under another TTL, under a new SEQ, under the other IV Index, to another DST; and the receiver's own."""
    dice = world.dice
    while True:
        if world.receiver.sent and dice.random() < 0.2:
            yield echo(world, dice.choice(world.receiver.sent[-8:]))
            continue
        if not world.said:
            yield one_short(world, 0)
            continue
        credentials, index, (ctl, ttl, seq, src, dst, octets), pdu = dice.choice(world.said[-4:] if dice.random() < 0.3 else world.said)
        how = dice.randrange(8)
        if how < 3:
            yield pdu
        elif how == 3:
            yield world.sealed(credentials, index, (ctl, world.ttl(), seq, src, dst, octets))
        elif how < 6:
            yield world.sealed(credentials, index, (ctl, ttl, world.node(src).take(), src, dst, octets))
        elif how == 6:
            yield world.sealed(credentials, world.index(), (ctl, ttl, world.node(src).take(), src, dst, octets))
        else:
            yield world.sealed(credentials, index, (ctl, ttl, world.node(src).take(), src, world.destination(), octets))


def lasts(world):
    """Segments of messages handed up before, some after their source has begun another; some with another SegN or DST."""
    dice = world.dice
    while True:
        known = [entry for entry in world.receiver.replay if entry.last]
        if not known:
            yield one_short(world, 1)
            continue
        entry = dice.choice(known)
        node, ((index, start), seg_n, dst) = world.node(entry.src), entry.last
        node.seq = min(max(node.seq, start + 1), start + WINDOW - 1, 0xFFFFFF)
        if dice.random() < 0.4:
            node.index, seq = world.setup.iv_index, node.take()
            yield node.say(1, world.ttl(), world.local(), transport.cut(1, 9, 0, seq, bytes(20))[0], seq)
        change = dice.randrange(6)
        seg_n = dice.choice((0, 31, seg_n + 1)) % 32 if change == 0 else seg_n
        dst = world.other_than(dst) or dst if change == 1 else dst
        place, node.index, ctl = dice.randint(0, seg_n), index, int(kind(dst) != "virtual")
        head = transport.segment_header(dice.randint(1 if ctl else 0x40, 0x7F), dice.randint(0, 1), start % WINDOW, place, seg_n)
        yield node.say(ctl, world.ttl(), dst, head + dice.randbytes(transport.segment_size(ctl)), min(node.take(), start + WINDOW - 1))


def longest(world):
    """Messages of 32 segments, none lost."""
    dice = world.dice
    while True:
        node, dst = world.node(), world.local()
        first = node.seq = min(node.seq, 0xFFFF00)
        upper = transport.secure(world.setup.device_key, True, 8, first, node.src, dst, node.index, dice.randbytes(376))
        parts = transport.cut(0, 0, 1, first, upper)
        dice.shuffle(parts)
        yield from (node.say(0, world.ttl(), dst, part) for part in parts)


def noise(world):
    """What no key opens: any octets, damaged PDUs, PDUs of other networks; and lengths of all kinds under a held NID."""
    dice = world.dice
    while True:
        how = dice.randrange(7)
        if how == 0:
            yield dice.randbytes(dice.choice((0, 1, 13, 14, 17, 18, 29, 30, dice.randint(0, 60))))
        elif how == 1 and world.said:
            yield damaged(dice, dice.choice(world.said)[3])
        elif how == 2:
            said = (dice.randint(0, 1), 5, dice.randrange(1 << 24), 7, world.local(), b"\x01" + bytes(6))
            yield world.sealed(k2(world.strange_net), world.index(), said)
        elif how == 3:
            # authentic but for its length: a control PDU without transport octets
            node = world.some_node()
            yield node.say(1, world.ttl(), world.local(), NOTHING)
        else:
            key = k2(dice.choice(world.setup.net_keys))
            yield bytes([dice.choice((0, 0x80)) | key.nid]) + dice.randbytes(dice.choice((12, 13, 14, 16, 17, 27, 28, 29)))


def addresses(world):
    """PDUs that a key opens, with addresses that are not allowed or not for the receiver."""
    dice = world.dice
    while True:
        node = world.some_node()
        src = dice.choice((0, 0x8000, 0xBFFF, 0xC000, 0xFFFF, dice.choice(RESERVED_GROUPS), node.src, node.src, node.src))
        dst = dice.choice((0, 0x8000, 0xBFFF, 0xFFFD, 0xC000, 0x7FFF, dice.choice(RESERVED_GROUPS), world.local()))
        ctl = dice.randint(0, 1)
        credentials = dice.choice(world.setup.net_keys)
        yield world.sealed(k2(credentials), world.index(), (ctl, world.ttl(), node.take(), src, dst, dice.randbytes(dice.randint(1, 12))))


def forms(world):
    """Transport octets made by hand, right and wrong, from any node to any destination."""
    dice = world.dice
    while True:
        node = world.some_node()
        ctl = dice.randint(0, 1)
        aids = [0x40 | k4(key) for _, key in world.setup.app_keys]
        first = dice.choice([0, 0, 0x80, 0x40, 0xC0, 0x01, 0x81, dice.randrange(256)] + aids + [0x80 | aid for aid in aids])
        seg_n = dice.choice((0, 0, 1, 2, 31, dice.randrange(32)))
        seg_o = dice.choice((0, seg_n, dice.randrange(32)))
        zero = dice.choice((node.seq, node.seq + 1, node.seq - 1, dice.randrange(WINDOW))) % WINDOW
        full = transport.segment_size(ctl)
        body = dice.randbytes(dice.choice((full, full, full - 1, 1, 0, dice.randint(0, full))))
        head = transport.segment_header(first & 0x7F, dice.randint(0, 1), zero, seg_o, seg_n) if first & 0x80 else bytes([first])
        if ctl and first == 0:
            body = transport.acknowledgement(dice.randint(0, 1), zero, dice.choice((0, 1, dice.randrange(1 << 32))), dice.randrange(4))[1:]
            body = dice.choice((body, body, body[:-1], body + b"\x00", NOTHING))
        octets = (head + body)[:dice.choice((16, 16, 16, 3, 5, dice.randint(1, 16)))][:12 if ctl else 16]
        yield node.say(ctl, world.ttl(), world.destination(), octets)


def answers(world):
    """Acknowledgements of the message that the receiver keeps: fitting, or wrong in one point; all, some, none or foreign bits."""
    dice = world.dice
    while True:
        out = world.receiver.out
        if not out:
            yield one_short(world, 1)
            continue
        everything = transport.all_bits(len(out.segments) - 1)
        some = dice.randrange(1 << 32)
        bits = dice.choice((everything, 0xFFFFFFFF, 0, 0x80000000, 1 << dice.randrange(32), some & everything, some, out.heard))
        node = world.node(out.dst) if kind(out.dst) == "unicast" and dice.random() < 0.8 else world.some_node()
        zero = out.auth[1] % WINDOW if dice.random() < 0.85 else dice.randrange(WINDOW)
        dst = out.src if dice.random() < 0.8 else world.destination()
        yield node.say(1, world.ttl(), dst, transport.acknowledgement(dice.randint(0, 1), zero, bits, dice.randrange(4)))


def begun_again(world):
    """Sources whose SEQs start again: a message under each of the two IV Indexes, both begun with one SEQ, the one behind the other or PDU by PDU.

    Copies stand between. There must be an IV Index before the receiver's.
    """
    dice, now = world.dice, world.setup.iv_index
    while True:
        node, spoken = world.node(), []
        start = min(node.seq, 0xFFFF00)
        for index in dice.choice(((now - 1, now), (now - 1, now), (now, now - 1))):
            node.index, node.seq = index, start
            ctl, dst, parts = message(world, node)
            spoken.append([node.say(ctl, world.ttl(), dst, octets, seq) for seq, octets in parts[:dice.choice((1, 2, 32))]])
        pdus = list(chain(*spoken)) if dice.random() < 0.5 else [pdu for both in zip_longest(*spoken) for pdu in both if pdu]
        for at, pdu in enumerate(pdus):
            yield pdu
            if dice.random() < 0.3:
                yield dice.choice(pdus[max(at - 3, 0):at + 1])


def own_voice(world):
    """PDUs whose SRC is one of the receiver's elements: its own, as they were and as relays hand them on; others', also with a DST that is not allowed.

    And messages of the addresses beside its elements.
    """
    dice = world.dice
    while True:
        sent, how = world.receiver.sent, dice.randrange(8)
        beside = [src for src in (world.setup.first - 1, world.setup.first + len(world.setup.seqs)) if kind(src) == "unicast"]
        if how < 4 and sent:
            yield echo(world, dice.choice(sent[-8:]), dice.choice((0, 1, 1, 2)))
        elif how == 4:
            ctl = dice.randint(0, 1)
            yield world.node(world.local()).say(ctl, world.ttl(), dice.choice((0, 0x8000, 0xBFFF)) if ctl else 0, dice.randbytes(12))
        elif how == 5 and beside:
            yield one_short(world, dice.randint(0, 1), dice.choice(beside))
        else:
            yield one_short(world, dice.randint(0, 1), world.local())


def to_labels(world):
    """Messages to the addresses of labels, held ones as a rule: whole and in segments, with the right additional data or not, damaged, and again.

    Some are to a group, where a label is no additional data, and a few are control messages.
    """
    dice = world.dice
    while True:
        node = world.node() if dice.random() < 0.3 else world.some_node()
        node.seq, node.net = min(node.seq, 0xFFFF00), dice.choice((0, 0, 0, node.net))
        dst = dice.choice((*[world.of_label()] * 6, world.heard_group(), dice.randint(0x8000, 0xBFFF)))
        first, segmented, ctl = node.seq, dice.random() < 0.4, int(dice.random() < 0.05)
        parts = control(dice, first, segmented) if ctl else access(world, node, dst, first, segmented, dice.choice((4, 8)) if segmented else 4)
        pdus = [node.say(ctl, world.ttl(), dst, part) for part in parts[:dice.choice((1, 6, 32, 32))]]
        for pdu in pdus:
            yield pdu
            if dice.random() < 0.1:
                yield dice.choice((pdu, damaged(dice, pdu), node.say(ctl, world.ttl(), dst, parts[-1])))


ACTORS = (late, crowd, openers, joined, again, lasts, longest, noise, addresses, forms, answers)
