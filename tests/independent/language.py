"""The console's language: a line read, the model driven, the answer written."""
import model
import network
import sending
import sensor
import vetting

LONGEST_LINE, LONGEST_MESSAGE, LONGEST_PDU = 4095, 380, 255
DIGITS = frozenset(b"0123456789abcdefABCDEF")


class Unread(Exception):
    """A line that is of no form, or whose fields do not fit; its argument says why."""


def _hex(field):
    if not field:
        raise Unread("an empty field")
    if not DIGITS.issuperset(field):
        raise Unread("not a digit")
    return field.decode()


def _number(most):
    def read(field):
        number = int(_hex(field), 16)
        if len(field) > 8:
            raise Unread("over 8 digits")
        if number > most:
            raise Unread("a number above its limit")
        return number
    return read


def _octets(field):
    if field == b"-":
        return b""
    if len(_hex(field)) % 2:
        raise Unread("half an octet")
    return bytes.fromhex(field.decode())


def _sixteen(what):
    def read(field):
        octets = _octets(field)
        if len(octets) != 16:
            raise Unread(f"a {what} not of 16 octets")
        return octets
    return read


def _or(word, meaning, read):
    return lambda field: meaning if field == word else read(field)


def _mic(field):
    size = BYTE(field)
    if size not in (4, 8):
        raise Unread("a MIC neither 4 nor 8")
    return size


def _destination(field):
    """An address, or a label by its number."""
    label, colon, number = field.partition(b":")
    return model.Label(BYTE(number)) if (label, colon) == (b"label", b":") else ADDRESS(field)


def _kind(field):
    if field not in (b"humidity", b"temperature"):
        raise Unread("a kind that is none")
    return field.decode()


def _message(field):
    message = _octets(field)
    if len(message) > LONGEST_MESSAGE:
        raise Unread("a message of over 380 octets")
    return message


def _pdu(field):
    pdu = _octets(field)
    if len(pdu) > LONGEST_PDU:
        raise Unread("a PDU of over 255 octets")
    return pdu


BIT, BYTE, ADDRESS, LONG, ROOM = (_number(most) for most in (1, 0xFF, 0xFFFF, 0xFFFFFFFF, 384))
PROPERTY, KEY, LABEL = ADDRESS, _sixteen("key"), _sixteen("label")
TTL, APP = _or(b"-", None, BYTE), _or(b"dev", None, BYTE)

# The fields of each command; those of MANY take any number of their last one.
FORMS = {
    b"netkey": (KEY,),
    b"appkey": (BYTE, KEY),
    b"devkey": (KEY,),
    b"elements": (ADDRESS, LONG),
    b"group": (ADDRESS,),
    b"label": (LABEL,),
    b"ivindex": (LONG, BIT),
    b"relay": (BIT,),
    b"setup": (),
    b"property": (PROPERTY, _kind),
    b"properties": (),
    b"readings": (_message,),
    b"vet": (BIT, _pdu),
    b"room": (ROOM, ROOM),
    b"hear": (_octets,),
    b"access": (BYTE, _destination, TTL, BYTE, APP, _mic, _octets),
    b"control": (BYTE, _destination, TTL, BYTE, BYTE, _octets),
    b"segment": (BYTE,),
    b"ack": (BYTE, ADDRESS),
    b"stop": (),
    b"drop": (ADDRESS,),
    b"show": (),
}
MANY = (b"elements", b"vet")


def read(line):
    """The command and its fields."""
    if len(line) > LONGEST_LINE:
        raise Unread("a line too long")
    word, *fields = line.split(b" ")
    if word not in FORMS:
        raise Unread("no such command")
    form = FORMS[word]
    if word in MANY and fields:
        form = form[:1] + form[1:] * (len(fields) - 1)
    if len(form) != len(fields):
        raise Unread("number of fields")
    return word.decode(), [parse(each) for parse, each in zip(form, fields)]


def _hexed(octets):
    return octets.hex() or "-"


def _pair(pair, word):
    return f"iv {pair[0]:08x} {word} {pair[1]:06x}"


def heard(result):
    """The answer to `hear`."""
    answer, trials = result.answer, f"trials {result.trials[0]:x} {result.trials[1]:x}"
    match answer:
        case model.Refused():
            text = f"refused {answer.number} {trials}"
        case model.Stored() | model.Repeat():
            text = f"{type(answer).__name__.lower()} src {answer.src:04x} {_pair(answer.auth, 'auth')} bits {answer.bits:08x} {trials}"
        case model.Access():
            key = "dev" if answer.key is None else f"{answer.key:x}"
            label = "" if answer.label is None else f" label {answer.label:x}"
            text = (f"access src {answer.src:04x} dst {answer.dst:04x}{label} net {answer.net:x} key {key} {_pair(answer.pair, 'seq')}"
                    f" {trials} message {_hexed(answer.payload)}")
        case model.Control():
            text = (f"control src {answer.src:04x} dst {answer.dst:04x} net {answer.net:x} opcode {answer.opcode:x} {_pair(answer.pair, 'seq')}"
                    f" {trials} message {_hexed(answer.payload)}")
        case model.Acknowledged():
            text = f"acknowledgement src {answer.src:04x} bits {answer.bits:08x} {answer.effect} {trials}"
    return text + (f" forward {result.forward.hex()}" if result.forward else "")


def shown(receiver):
    """The lines of `show`."""
    yield " ".join(["seq"] + [f"{seq:06x}" for seq in receiver.seqs])
    yield " ".join(["cache"] + [f"{src:04x}:{seq:06x}:{iv_index:08x}" for src, seq, iv_index in receiver.cache])
    for entry in sorted(receiver.replay, key=lambda entry: entry.src):
        line = f"replay {entry.src:04x} {_pair(entry.pair, 'seq')}"
        if entry.last:
            (iv_index, seq), seg_n, dst = entry.last
            line += f" last {iv_index:08x} {seq:06x} segn {seg_n:x} dst {dst:04x}"
        yield line
    for slot, session in enumerate(receiver.sessions):
        if session:
            yield f"session {slot:x} src {session.src:04x} {_pair(session.auth, 'auth')} bits {session.bits:08x}"
    if receiver.out:
        out = receiver.out
        yield f"sending dst {out.dst:04x} {_pair(out.auth, 'auth')} segn {len(out.segments) - 1:x} heard {out.heard:08x}"
    yield "end"


class Console:
    """The program's state: the lines given since the last `setup`, the receiver if there is one, the buffers' lengths, and the named properties.

    `why` says of the last answer what was refused and why, or what kind it was; `notes` which other cases it met.
    """

    def __init__(self):
        self.given = model.Setup()
        self.receiver = None
        self.room = (29, 384)
        self.named = sensor.Properties()
        self.why, self.met = "", []

    @property
    def notes(self):
        return self.met + (self.receiver.notes if self.receiver else [])

    def answer(self, line):
        """The lines that answer this one; none where it is skipped."""
        self.met = []
        if self.receiver:
            self.receiver.notes.clear()
        if not line or line.startswith(b"#"):
            self.why = "skipped"
            return []
        try:
            word, fields = read(line)
            if word in GIVEN:
                GIVEN[word](self.given, *fields)
                self.why = word
                return ["ok"]
            if word in SITE:
                return [self._site(word, fields)]
            return self._setup() if word == "setup" else self._asked(word, fields)
        except Unread as unread:
            self.why = f"unread: {unread}"
            return ["unread"]
        except model.Refusal as refusal:
            self.why = f"{word} refused {refusal.number}: {refusal.why}"
            return [f"refused {refusal.number}"]

    def _setup(self):
        given, self.given = self.given, model.Setup()
        self.met += [f"asked to listen to: {group:04x}" for group in given.groups if group in network.RESERVED]
        self.met += [f"labels given: {len(given.labels)}"] if len(given.labels) <= model.LABELS + 1 else []
        self.named.outlive("a setup that is refused")
        self.receiver = model.Receiver(given)
        self.named.outlive("a setup that is ready")
        self.why = "setup ready"
        return ["ready"]

    def _site(self, word, fields):
        """The lines about what the site has named and what it vets, which need no receiver."""
        if not self.receiver:
            self.met.append(f"before the first setup: {word}")
        self.why = word
        return SITE[word](self, *fields)

    def _name(self, of, kind):
        self.named.name(of, kind)
        self.met += ["names a property that was forgotten"] if of in self.named.forgotten else []
        return "ok"

    def _forget(self):
        self.named.forget()
        return "ok"

    def _readings(self, message):
        if message[:1] != bytes([sensor.STATUS]):
            self.why = f"readings no status: {'another opcode' if message else 'no octets'}"
            return "no status"
        answer, met = sensor.readings(message, self.named)
        self.met += met
        return answer

    def _vet(self, ctl, *pdus):
        answer, self.why, met = vetting.vetted(ctl, list(pdus), self.room[1])
        self.met += met
        out = self.receiver and self.receiver.out
        if out and (out.ctl, out.segments) == (ctl, list(pdus)) and answer != "refused 16":
            self.met.append(f"vetted: what our own sender keeps, {answer.split()[0]}")
        return answer

    def _asked(self, word, fields):
        if not self.receiver:
            raise Unread("before the first setup")
        self.why = word
        if word == "room":
            self.room = tuple(fields)
            return ["ok"]
        if word == "show":
            return list(shown(self.receiver))
        if word == "hear":
            return [self._hear(*fields)]
        if word in ("stop", "drop"):
            getattr(self.receiver, word)(*fields)
            return ["given up"]
        return [self._send(word, fields)]

    def _hear(self, pdu):
        result = self.receiver.hear(pdu, *self.room)
        kind = type(result.answer).__name__.lower()
        match result.answer:
            case model.Refused(number, why):
                kind += f" {number}: {why}"
            case model.Access(key=key, label=label):
                kind += " by the device key" if key is None else " by an application key" + ("" if label is None else " and a label")
            case model.Acknowledged(effect=effect):
                kind += " " + effect
        self.why = f"hear {kind}{', forwarded' if result.forward else ''}"
        return heard(result)

    def _send(self, word, fields):
        result = SENDING[word](self.receiver, self.room[0], *fields)
        pdu, count = result if isinstance(result, tuple) else (result, None)
        self.why = f"{word} {'sent' if count is None else 'started'}"
        return f"sent {pdu.hex()}" if count is None else f"started {pdu.hex()} segments {count:x}"


def _elements(given, first, *seqs):
    given.first, given.seqs = first, list(seqs)


def _index(given, index, flag):
    given.iv_index, given.flag = index, flag


GIVEN = {
    "netkey": lambda given, key: given.net_keys.append(key),
    "appkey": lambda given, net, key: given.app_keys.append((net, key)),
    "devkey": lambda given, key: setattr(given, "device_key", key),
    "elements": _elements,
    "group": lambda given, group: given.groups.append(group),
    "label": lambda given, label: given.labels.append(label),
    "ivindex": _index,
    "relay": lambda given, on: setattr(given, "relay", on),
}
SITE = {"property": Console._name, "properties": Console._forget, "readings": Console._readings, "vet": Console._vet}
SENDING = {"access": sending.access, "control": sending.control, "segment": sending.segment, "ack": sending.acknowledge}
