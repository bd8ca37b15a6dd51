"""What a log of the console and its answers tell, as the rows of a picture: a row for each PDU heard, acknowledgement sent, message read and list vetted."""
import re
from dataclasses import dataclass, field

from exchange import Unfit, exchanged
from refusals import WORDS

UNITS = {"humidity": "%", "temperature": "\u00b0C"}
# What the comments of a log give to its picture: an act's heading, and the name of a box.
HEADING, NAME = re.compile(r"#\s*(\d+\.\s+\S.*)"), re.compile(r"#\s*box\s+([0-9A-Fa-f]{1,4}):\s*(\S.*)")
# A session and the last message handed up, as `show` has them.
SESSION = re.compile(r"session \w+ src (?P<src>\w+) iv (?P<iv>\w+) auth (?P<auth>\w+) bits (?P<bits>\w+)")
LAST = re.compile(r"replay (?P<src>\w+) .* last (?P<iv>\w+) (?P<auth>\w+) segn (?P<segn>\w+) ")
# The octets of an approved message, and the place of a PDU at fault.
OCTETS, PLACE = re.compile(r"(?:[0-9a-f]{2})+"), re.compile(r"[0-9a-f]{1,2}")
# The column of the message that the station itself sends; a name longer than so many letters stands only at its column's head.
OWN, LONG_NAME = "own", 24
# What an acknowledgement does to the message that is being sent.
EFFECTS = {"complete": "complete, all is heard", "cancelled": "cancelled", "marked": "marked, something is newly heard", "nothing": "nothing changes"}
# One segment holds so many octets of a message at most: a message in one PDU that is longer did not come in segments.
ONE_SEGMENT = 8


@dataclass
class Message:
    """One message that segments came of; count is the number of its segments once that is known, places how many boxes it takes."""
    src: str
    auth: str
    bits: int = 0
    count: int = 0
    places: int = 0


@dataclass
class Cell:
    """One record that was read: its property, what became of its value (value, unknown, prohibited or raw), and the words for it."""
    property: str
    kind: str
    words: str


@dataclass
class Row:
    """One row: the log's line, its words, what kind it is, the message that it concerns and the state of all open ones behind it, or its cells.

    `new` has a bit for each place that comes with the PDU, `again` one for the place that is known to be repeated.
    """
    line: int
    words: str
    kind: str
    message: Message = None
    new: int = 0
    again: int = 0
    boxes: dict = field(default_factory=dict)
    cells: list = field(default_factory=list)


def fields(answer):
    """The named values of an answer to `hear`."""
    words = answer.split()
    return dict(zip(words[1::2], words[2::2]))


def records(answer):
    """The cells of an answer to `readings`, a record each."""
    words = iter(answer.split()[2:])
    for of in words:
        match kind := next(words, ""):
            case "humidity" | "temperature":
                yield Cell(of, "value", f"{next(words, '')} {UNITS[kind]}")
                next(words, "")
            case "raw":
                octets = next(words, "-")
                yield Cell(of, "raw", "raw, empty" if octets == "-" else f"raw {octets}")
            case "unknown" | "prohibited":
                yield Cell(of, kind, "not known" if kind == "unknown" else kind)
            case _:
                raise Unfit(f"{of} {kind} is no record")


def written(comment):
    """The words of a comment as one reads them: UTF-8, with a space for what cannot be shown."""
    words = comment.encode("latin-1").decode("utf-8", "replace")
    return " ".join("".join(letter if letter.isprintable() else " " for letter in words).split())


def title(log):
    """The words of the log's first line, where it is a comment and neither a heading nor a box's name."""
    first = log[0] if log else ""
    return written(first.lstrip("#")) if first.startswith("#") and not HEADING.fullmatch(first) and not NAME.fullmatch(first) else ""


def names(log):
    """What each source is called: the last name counts, wherever in the log it stands."""
    found = map(NAME.fullmatch, log)
    return {f"{int(name[1], 16):04x}": written(name[2]) for name in found if name}


def listed(bits):
    """The places of these bits in words: 0, 2 to 4."""
    places, runs = [place for place in range(bits.bit_length()) if bits >> place & 1], []
    for place in places:
        if runs and runs[-1][1] == place - 1:
            runs[-1][1] = place
        else:
            runs.append([place, place])
    words = [str(first) if first == last else f"{first}, {last}" if last == first + 1 else f"{first} to {last}" for first, last in runs]
    return f"place{'' if len(places) == 1 else 's'} {', '.join(words)}" if places else "no place"


class Story:
    """What the answers tell, as rows. `open` holds each source's unfinished message, `last` its last one handed up in segments (none where the
    log does not tell), `doubt` the sources whose open message may be gone, `senders` who sent what was handed up, `sending` of how many
    segments the station's own message is.
    """

    def __init__(self, called):
        self.called, self.rows, self.senders = called, [], {}
        self.fresh()

    def fresh(self):
        """A receiver that was just set up has heard and sent nothing."""
        self.open, self.known, self.begun, self.last, self.doubt, self.sending = {}, {}, set(), {}, set(), 0

    def whose(self, src):
        """A source in words: its name with its address, or its address."""
        name = self.called.get(src, "")
        return f"{name} ({src})" if 0 < len(name) <= LONG_NAME else src

    def add(self, line, words, kind, message=None, new=0, again=0):
        """A row with all messages that are open, and the one that it concerns."""
        row = Row(line, words, kind, message, new, again, {each.src: (each, each.bits) for each in self.open.values()})
        if message:
            message.places = max(message.places, message.count, message.bits.bit_length())
            row.boxes[message.src] = (message, message.bits)
        self.rows.append(row)

    def tell(self, line, command, answers):
        """Adds what a line and its answers tell."""
        word, *rest = command.split(" ")
        match word, rest, answers[0].split():
            case "setup", _, ["ready"]:
                self.fresh()
                self.add(line, "a receiver is set up", "break")
            case "drop", [src], ["given", "up"]:
                src = f"{int(src, 16):04x}"
                self.open.pop(src, None)
                self.add(line, f"the message from {self.whose(src)} is given up", "break")
            case "hear", [_], said if said != ["unread"]:
                self.heard(line, answers[0])
            case "ack", [_, src], ["sent", _]:
                self.acknowledging(line, f"{int(src, 16):04x}")
            case ("access" | "control"), _, ["started", _, "segments", count]:
                self.sending = int(count, 16)
            case "stop", _, ["given", "up"]:
                self.sending = 0
            case "show", _, ["seq", *_]:
                self.looked(answers)
            case "readings", [octets], said if said != ["unread"]:
                self.rows.append(self.readings(line, octets.lower(), answers[0]))
            case "vet", [ctl, *pdus], said if said != ["unread"]:
                self.rows.append(vetted(line, int(ctl, 16), len(pdus), said))

    def heard(self, line, answer):
        """The row of an answer to `hear`."""
        try:
            HEARD[answer.partition(" ")[0]](self, line, answer, fields(answer))
        except (KeyError, IndexError, ValueError):
            raise Unfit(f"line {line} of the log: {answer[:60]} is no answer to hear") from None
        self.rows[-1].words += ", forwarded" if " forward " in answer else ""

    def message(self, said, auth):
        """The message of a source and a SeqAuth, new where it was not open; where its SEQ came under another IV Index before, its own is named."""
        key = (said["src"], said["iv"], auth)
        if key not in self.known:
            again = (said["src"], auth) in self.begun
            self.begun.add((said["src"], auth))
            self.known[key] = Message(said["src"], f"{auth} under {said['iv']}" if again else auth)
        return self.known[key]

    def another(self, said, auth):
        """A message in the place of one that had its source and SeqAuth before and came to no end: given up, or refused 13 when it was complete."""
        message = Message(said["src"], self.message(said, auth).auth)
        self.known[said["src"], said["iv"], auth] = message
        return message

    def named(self, message):
        """A message in words: whose it is, and its SeqAuth."""
        return f"{self.whose(message.src)}, message {message.auth}"

    def refused(self, line, answer, _):
        """A refusal names no source, and 13 may have freed the session of any."""
        number = int(answer.split()[1])
        self.doubt |= set(self.open) if number == 13 else set()
        self.add(line, f"refused {number}: {WORDS.get(number, '')}", "refused")

    def stored(self, line, _, said):
        """A segment found its place."""
        message, bits = self.message(said, said["auth"]), int(said["bits"], 16)
        goes_on = self.open.get(message.src) is message and message.bits & bits == message.bits != bits
        before = message.bits if goes_on else 0
        message = message if goes_on else self.another(said, said["auth"])
        message.bits, self.open[message.src] = bits, message
        self.doubt.discard(message.src)
        self.add(line, f"stored from {self.named(message)}: segment {(bits ^ before).bit_length() - 1}", "stored", message, bits ^ before)

    def repeat(self, line, _, said):
        """A segment that was there: which one, the answer tells where only one place is filled."""
        message = self.message(said, said["auth"])
        message.bits = int(said["bits"], 16)
        if self.open.get(message.src) is message:
            self.doubt.discard(message.src)
        else:
            message.count, self.last[message.src] = message.bits.bit_length(), message
        one = message.bits.bit_count() == 1
        words = f"repeat from {self.named(message)}: {'' if one else 'one of '}{listed(message.bits)}"
        self.add(line, words, "repeat", message, again=message.bits if one else 0)

    def handed(self, line, answer, said):
        """A message is handed up, with its last segment or in one PDU."""
        message = self.message(said, said["seq"])
        before = message.bits if self.open.get(message.src) is message else 0
        if before >> before.bit_count() + 1:
            # more is missing than one segment: it was refused 13 before, and this is a message of one PDU
            before = 0
        if self.open.get(message.src) is message:
            del self.open[message.src]
            self.doubt.discard(message.src)
        message = message if before else self.another(said, said["seq"])
        message.count = before.bit_count() + 1
        message.bits = (1 << message.count) - 1
        octets = answer.split(" message ")[1].split()[0]
        size = 0 if octets == "-" else len(octets) // 2
        self.senders[octets] = message.src
        self.remember(message, before, size)
        to = f" to the label {int(said['label'], 16)} (address {said['dst']})" if "label" in said else ""
        self.add(line, f"handed up from {self.named(message)}: {answer.split()[0]}{to}, {size} octets", "handed", message, message.bits ^ before)

    def remember(self, message, before, size):
        """The last message handed up in segments. Of one PDU only the size may tell that it was no segment, which would end an older session."""
        src = message.src
        if before or src not in self.last and size <= ONE_SEGMENT:
            self.last[src] = message
        elif size <= ONE_SEGMENT:
            self.last[src] = None
        if not before and size <= ONE_SEGMENT and src in self.open:
            self.doubt.add(src)

    def acknowledged(self, line, answer, said):
        """An acknowledgement of the station's own message, with the places that it names."""
        effect, bits = answer.split()[5], int(said["bits"], 16)
        message = Message(OWN, "", bits, self.sending if effect in ("marked", "complete") else 0)
        if effect in ("complete", "cancelled"):
            self.sending = 0
        self.add(line, f"acknowledgement from {self.whose(said['src'])}: it names {listed(bits)}; {EFFECTS[effect]}", "acknowledged", message)

    def acknowledging(self, line, src):
        """An acknowledgement that is sent names exactly the places come so far: of the open message, else of the last one handed up."""
        message = None if src in self.doubt else self.open.get(src) or self.last.get(src)
        words = f"{self.named(message)}: it names {listed(message.bits)}" if message else self.whose(src)
        self.add(line, f"acknowledgement to {words}", "acknowledging", message)

    def looked(self, answers):
        """What `show` tells of the open sessions and of the last messages handed up holds, whatever was believed before."""
        self.open, self.last, self.doubt = {}, {}, set()
        for answer in answers:
            if said := SESSION.match(answer):
                message = self.open[said["src"]] = self.message(said, said["auth"])
                message.bits = int(said["bits"], 16)
                message.places = max(message.places, message.bits.bit_length())
            elif said := LAST.match(answer):
                message = self.last[said["src"]] = self.message(said, said["auth"])
                message.count = int(said["segn"], 16) + 1
                message.bits = (1 << message.count) - 1

    def readings(self, line, octets, answer):
        """The row of an answer to `readings`, with who sent such a message last; it may also be one that nobody sent."""
        whose = f" from {self.whose(self.senders[octets])}" if octets in self.senders else ""
        match answer.split():
            case ["no", "status"]:
                return Row(line, f"no status: the message{whose} is no Sensor Status", "readings")
            case ["refused", "20" | "21" as number]:
                return Row(line, f"refused {number}: {WORDS[int(number)]}; nothing of the message{whose} is read", "readings refused")
            case ["readings", count, *_]:
                read = list(records(answer))
                if count == f"{len(read):x}":
                    return Row(line, f"{len(read)} record{'' if len(read) == 1 else 's'}{whose or ', not heard'}", "readings", cells=read)
        raise Unfit(f"line {line} of the log: {answer[:60]} is no answer to readings")


HEARD = {"refused": Story.refused, "stored": Story.stored, "repeat": Story.repeat, "access": Story.handed, "control": Story.handed,
         "acknowledgement": Story.acknowledged}


def vetted(line, ctl, count, said):
    """The row of an answer to `vet`: of segments that nobody has sent, so of no source."""
    named, pdus = ("a control" if ctl else "an access"), f"{count} PDU{'' if count == 1 else 's'} vetted, not heard"
    match said:
        case ["approved", "message", octets] if OCTETS.fullmatch(octets):
            return Row(line, f"approved: {named} message of {len(octets) // 2} octets in segments; {pdus}", "vetted")
        case ["refused", "26", "at", place] if PLACE.fullmatch(place) and int(place, 16) < count:
            return Row(line, f"refused 26: {WORDS[26]}, at place {int(place, 16)}; {pdus}", "vetted refused")
        case ["refused", "16" | "27" as number]:
            return Row(line, f"refused {number}: {WORDS[int(number)]}; {pdus}", "vetted refused")
    raise Unfit(f"line {line} of the log: {' '.join(said)[:60]} is no answer to vet")


def told(log, answers, called, numbers=None):
    """The rows of a log, its headings among them; the numbers are those of its lines, where they are not counted from 1."""
    story = Story(called)
    found = {at: (line, answered) for at, line, answered in exchanged(log, answers)}
    for at, (number, line) in enumerate(zip(numbers or range(1, len(log) + 1), log), 1):
        if heading := HEADING.fullmatch(line):
            story.rows.append(Row(number, written(heading[1]), "heading"))
        elif at in found:
            story.tell(number, *found[at])
    return story.rows
