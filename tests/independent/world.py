"""A receiver's surroundings, made from dice: what it is set up with, keys that it does not hold, and the other nodes."""
from ciphers import k2, k4, label_address
from model import Setup
from network import kind, seal

LAST_SEQ = 0xFFFFFF
# Groups that may be listened to: those that MP fixes, and the last before the reserved ones. And of the reserved both ends, and one within.
SPECIAL_GROUPS = (0xFFFF, 0xFFFE, 0xFFFD, 0xFFFC, 0xFEFF)
RESERVED_GROUPS = (0xFF00, 0xFF05, 0xFFFB)


def alike(dice, mark, count, wanted=None):
    """Some keys or labels with one mark (a NID, an AID, an address) between them, found by trying; with the wanted mark where one is named."""
    found = {}
    while True:
        key = dice.randbytes(16)
        keys = found.setdefault(mark(key), [])
        keys.append(key)
        if len(keys) == count and wanted in (None, mark(key)):
            return keys


def nid(key):
    return k2(key).nid


def keys_of(dice, mark, count):
    """A list of keys: all different, some with equal marks, or one of them twice."""
    style = dice.randrange(4)
    if style == 0 or count < 2:
        return [dice.randbytes(16) for _ in range(count)]
    same = alike(dice, mark, dice.randint(2, count))
    keys = (same + [dice.randbytes(16) for _ in range(count)])[:count]
    if style == 1:
        keys[-1] = keys[0]
    dice.shuffle(keys)
    return keys


def labels_of(dice, count):
    """A list of labels: all different, several of one address, one of them twice, or both."""
    style = dice.randrange(4)
    if style == 0 or count < 2:
        return [dice.randbytes(16) for _ in range(count)]
    same = alike(dice, label_address, dice.randint(2, count)) if style > 1 else []
    labels = (same + [dice.randbytes(16) for _ in range(count)])[:count]
    if style < 3:
        labels[-1] = labels[0]
    dice.shuffle(labels)
    return labels


def start_of(dice, most=LAST_SEQ):
    """A SEQ to begin with: near 0, near a multiple of 8,192, near the last, or anywhere."""
    near = dice.choice((0, 0, 8192 * dice.randrange(1, 2047), LAST_SEQ, dice.randrange(LAST_SEQ)))
    return min(max(near + dice.randint(-40, 40), 0), most)


def some_group(dice):
    """A group that may be listened to and sent to."""
    return dice.choice((dice.randint(0xC000, 0xFEFF), dice.choice(SPECIAL_GROUPS)))


def setup_of(dice):
    """A setup that is allowed."""
    nets = keys_of(dice, nid, dice.randint(1, 4))
    apps = [(dice.randrange(len(nets)), key) for key in keys_of(dice, k4, dice.randint(0, 4))]
    if dice.random() < 0.5:
        apps = [(0, key) for _, key in apps]
    count = dice.randint(1, 8)
    first = dice.choice((1, 0x8000 - count, dice.randint(1, 0x8000 - count)))
    seqs = [dice.choice((0, start_of(dice, 0x1000000), LAST_SEQ - 3, LAST_SEQ, 0x1000000)) for _ in range(count)]
    seqs[0] = dice.choice((0, seqs[0], start_of(dice, 0xFFF000)))
    groups = [some_group(dice) for _ in range(dice.randint(0, 8))]
    index = dice.choice((0, 1, 2, 0xFFFFFFFF, dice.randrange(1 << 32)))
    device, flag, relay = dice.randbytes(16), dice.randint(0, 1) if index else 0, dice.choice((0, 1, 1))
    return Setup(nets, apps, device, first, seqs, groups, index, flag, relay, labels_of(dice, dice.randint(0, 4)))


def setup_lines(setup, dice):
    """The lines that give this setup, in an order that keeps the keys' own, and the labels'."""
    lines = [f"netkey {key.hex()}" for key in setup.net_keys] + [f"appkey {bound:x} {key.hex()}" for bound, key in setup.app_keys]
    others = [f"devkey {setup.device_key.hex()}", " ".join([f"elements {setup.first:x}"] + [f"{seq:x}" for seq in setup.seqs]),
              f"ivindex {setup.iv_index:x} {setup.flag:x}", f"relay {setup.relay:x}"] + [f"group {group:x}" for group in setup.groups]
    for each in others:
        lines.insert(dice.randint(0, len(lines)), each)
    at = len(lines)
    for label in reversed(setup.labels):
        at = dice.randint(0, at)
        lines.insert(at, f"label {label.hex()}")
    return [line.encode() for line in lines] + [b"setup"]


class Node:
    """Another node: its address, its next SEQ, and the IV Index and the network key that it speaks under."""

    def __init__(self, world, src):
        self.world, self.src = world, src
        self.seq = start_of(world.dice)
        self.net = world.dice.randrange(len(world.setup.net_keys))
        self.index = world.index()

    def take(self):
        """The next SEQ; after the last it begins again at 0, as after a change of IV Index."""
        if self.seq > LAST_SEQ:
            self.seq, self.index = 0, self.world.setup.iv_index
        self.seq += 1
        return self.seq - 1

    def say(self, ctl, ttl, dst, octets, seq=None, net=None):
        """A sealed PDU, remembered by the world so that it can come again."""
        seq = self.take() if seq is None else seq
        keys = self.world.setup.net_keys
        credentials = k2(keys[(self.net if net is None else net) % len(keys)])
        return self.world.sealed(credentials, self.index, (ctl, ttl, seq, self.src, dst, octets))


class World:
    """What lies around the receiver that a console has just set up. `said` holds the latest PDUs of others with what they were sealed from."""

    def __init__(self, dice, console):
        self.dice, self.console = dice, console
        self.nodes = {}
        self.said = []
        self.strange_net = dice.choice((dice.randbytes(16), alike(dice, nid, 1, nid(self.setup.net_keys[0]))[0]))
        held = [k4(key) for _, key in self.setup.app_keys]
        self.strange_app = alike(dice, k4, 1, dice.choice(held))[0] if held and dice.random() < 0.7 else dice.randbytes(16)

    @property
    def receiver(self):
        """The receiver as it now is; an odd line can make a refused setup a good one, and then it is another."""
        return self.console.receiver

    @property
    def setup(self):
        return self.receiver.setup

    def index(self):
        """The current IV Index or the one before, if there is one."""
        return max(self.setup.iv_index - self.dice.choice((0, 0, 1)), 0)

    def node(self, src=None):
        """The node of an address, or a new one; rarely its address is one of the receiver's own."""
        if src is None:
            src = self.local() if self.dice.random() < 0.03 else self.dice.choice((1, 0x7FFF, *[self.dice.randint(1, 0x7FFF)] * 6))
        return self.nodes.setdefault(src, Node(self, src))

    def some_node(self):
        return self.dice.choice(list(self.nodes.values())) if self.nodes else self.node()

    def local(self):
        return self.setup.first + self.dice.randrange(len(self.setup.seqs))

    def heard_group(self):
        """A group address that is for the receiver."""
        return self.dice.choice([0xFFFF] + [0xFFFE] * self.setup.relay + self.setup.groups)

    def of_label(self):
        """The address of a held label, where there is one; else of none."""
        return self.dice.choice(self.receiver.addresses or [self.dice.randint(0x8000, 0xBFFF)])

    def data_for(self, dst):
        """The additional data of a message: mostly a held label of a virtual DST, and none for another; now and then any held label, or none."""
        held = self.setup.labels
        right = [label for label, address in zip(held, self.receiver.addresses) if address == dst] or [b""]
        return self.dice.choice(right if self.dice.random() < 0.8 else [b"", *held])

    def destination(self):
        """A DST: mostly one that is for the receiver."""
        if self.receiver.addresses and self.dice.random() < 0.12:
            return self.of_label()
        roll = self.dice.random()
        if roll < 0.55:
            return self.local()
        if roll < 0.85:
            return self.heard_group()
        beside = (self.setup.first - 1 or 1, min(self.setup.first + len(self.setup.seqs), 0x7FFF))
        return self.dice.choice((*SPECIAL_GROUPS, *RESERVED_GROUPS, *beside, self.dice.randint(0xC000, 0xFFFF), self.dice.randint(0x8000, 0xBFFF),
                                 self.dice.randint(1, 0x7FFF)))

    def ttl(self):
        return self.dice.choice((0, 1, 2, 3, 7, 127, self.dice.randrange(128)))

    def sealed(self, credentials, index, said):
        pdu = seal(credentials, index, *said)
        self.said = self.said[-60:] + [(credentials, index, said, pdu)]
        return pdu

    def other_than(self, address):
        """Another address of the same kind that is for the receiver, or None."""
        if kind(address) == "unicast":
            others = [self.setup.first + at for at in range(len(self.setup.seqs))]
        elif kind(address) == "virtual":
            others = self.receiver.addresses
        else:
            others = [0xFFFF] + self.setup.groups
        others = [other for other in others if other != address]
        return self.dice.choice(others) if others else None
