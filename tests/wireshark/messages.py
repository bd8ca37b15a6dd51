"""What the sender sends: messages of every kind and size, with what must be read from each PDU of them by anybody who holds the keys."""
import random
from collections import namedtuple

from ciphers import label_address
from world import alike

SENDER, RECEIVER, GROUP = 0x0003, 0x1201, 0xC105
# An access message's TransMIC and payload length; a control message's parameters' length.
ACCESS = ((4, 1), (4, 11), (4, 12), (4, 20), (4, 21), (4, 43), (4, 380), (8, 1), (8, 4), (8, 5), (8, 376))
CONTROL = (0, 1, 11, 12, 17, 256)
TO_LABELS = ((4, 1), (4, 11), (4, 12), (4, 43), (8, 1), (8, 5))
TTLS = (None, 0, 2, 127)
UNNAMED_TTL = 4
# Opcodes that MP leaves free, so that a dissector shows the parameters as they are.
FREE_OPCODES = range(0x0B, 0x80)

# line is the console's; key is an application key's number, None for the device key; mic is None for control; label is a label's number, None for no label.
Message = namedtuple("Message", "line element dst ttl net key mic opcode payload label", defaults=(None,))


def _line(word, element, dst, ttl, net, *rest):
    """A request; DST is as it is written, and a TTL of None is left unnamed."""
    return " ".join([word, f"{element}", dst, "-" if ttl is None else f"{ttl:x}", f"{net}", *rest])


def _access(dice, mic, size, key, dst, label=None):
    """An access message, to a label where one is named; dst is the address in any case."""
    net, element, ttl = key or 0, dice.randrange(2), dice.choice(TTLS)
    # an opcode of two octets that no model has: tshark shows an access payload whatever is in it
    payload = (b"\xbf\xff" + dice.randbytes(size))[:size]
    written = f"{dst:x}" if label is None else f"label:{label:x}"
    line = _line("access", element, written, ttl, net, "dev" if key is None else f"{key}", f"{mic}", payload.hex())
    return Message(line, element, dst, ttl, net, key, mic, None, payload, label)


def messages(dice, labels):
    """One message of each size, under each key, to each kind of destination as far as they are allowed."""
    for mic, size in ACCESS:
        for key, dst in ((0, RECEIVER), (1, GROUP), (None, RECEIVER + 1)):
            yield _access(dice, mic, size, key, dst)
    for mic, size in TO_LABELS:
        for at, label in enumerate(labels):
            yield _access(dice, mic, size, at % 2, label_address(label), at)
    for size in CONTROL:
        for dst in (RECEIVER, GROUP):
            net, element, ttl, opcode = dice.randrange(2), dice.randrange(2), dice.choice(TTLS), dice.choice(FREE_OPCODES)
            payload = dice.randbytes(size)
            line = _line("control", element, f"{dst:x}", ttl, net, f"{opcode:x}", payload.hex() or "-")
            yield Message(line, element, dst, ttl, net, None, None, opcode, payload)


class Station:
    """Sender and receiver with the same keys: two network keys, an application key of each, a device key, an IV Index and its flag.

    And with the same labels, of which two have one address.
    """

    def __init__(self, seed, index, flag):
        dice = random.Random(seed)
        self.nets = [dice.randbytes(16) for _ in range(2)]
        self.apps = [dice.randbytes(16) for _ in range(2)]
        self.device = dice.randbytes(16)
        self.index, self.flag = index, flag
        self.starts = [dice.randrange(0xFF0000), dice.randrange(0xFF0000)]
        self.labels = [*alike(dice, label_address, 2), dice.randbytes(16)]
        self.messages = list(messages(dice, self.labels))

    def setup(self, first, seqs):
        """The lines that set up one of the two."""
        lines = [f"netkey {key.hex()}" for key in self.nets] + [f"appkey {at} {key.hex()}" for at, key in enumerate(self.apps)]
        lines += [f"devkey {self.device.hex()}", f"elements {first:x} " + " ".join(f"{seq:x}" for seq in seqs)]
        lines += [f"label {label.hex()}" for label in self.labels]
        return lines + [f"ivindex {self.index:x} {self.flag}", f"group {GROUP:x}", "setup"]

    @property
    def sending_index(self):
        return self.index - self.flag


def count_of(message):
    """How many PDUs a message takes."""
    if message.mic is None:
        return 1 if len(message.payload) <= 11 else (len(message.payload) + 7) // 8
    if message.mic == 4 and len(message.payload) <= 11:
        return 1
    return (len(message.payload) + message.mic + 11) // 12


def segmented(message):
    return message.mic == 8 or len(message.payload) > 11


def unopened(message):
    """Whether tshark cannot open it: in a message of one segment it looks for a TransMIC of 4 octets, though it reads SZMIC 1 (seen in 4.0.17)."""
    return message.mic == 8 and count_of(message) == 1


def readings(message, first):
    """What is to be read from each of a message's PDUs, by tshark's names; `first` is the SEQ of the first of them."""
    count = count_of(message)
    for at in range(count):
        read = {"btmesh.ctl": int(message.mic is None), "btmesh.ttl": UNNAMED_TTL if message.ttl is None else message.ttl, "btmesh.seq": first + at,
                "btmesh.src": SENDER + message.element, "btmesh.dst": message.dst, "btmesh.cntr.opcode": message.opcode}
        if message.mic is not None:
            read["btmesh.acc.akf"] = int(message.key is not None)
        if segmented(message):
            read |= {"btmesh.seqzero_data": first % 8192, "btmesh.sego": at, "btmesh.segn": count - 1}
            read["btmesh.szmic"] = None if message.mic is None else int(message.mic == 8)
        # the whole message is shown with the PDU that completes it
        whole = (message.payload.hex() or None) if at == count - 1 else None
        if not unopened(message):
            read["btmesh.cntr.unknownpayload" if message.mic is None else "btmesh.access.decrypted"] = whole
        yield read
