"""What a page must show, worked out from the log and the answers' own text; nothing of what makes the page is used here."""
import re
from dataclasses import dataclass, field

UNITS = {"humidity": "%", "temperature": "°C"}
NAME, HEADING = re.compile(r"#\s*box\s+[0-9A-Fa-f]{1,4}:\s*\S"), re.compile(r"#\s*\d+\.\s+\S")
SHOWN, WINDOW = 1200, 12


@dataclass
class Wanted:
    """One step: number, line and answers; the narration's words; whose message it concerns, its places filled, new and repeated; sessions; records."""
    line: int
    put: bool
    command: str
    answers: list
    said: str = ""
    src: str = ""
    filled: set = None
    new: set = None
    again: set = None
    sessions: dict = None
    records: list = field(default_factory=list)
    unheard: bool = False
    plots: dict = field(default_factory=dict)

    @property
    def refused(self):
        """The number of a refusal, or none."""
        found = re.match(r"refused (\d+)", self.answers[0])
        return int(found[1]) if found else None

    @property
    def is_acknowledgement(self):
        """Whether one is sent or heard."""
        return self.command.startswith("ack ") and self.answers[0].startswith("sent ") or self.answers[0].startswith("acknowledgement ")

    @property
    def is_vetted(self):
        """Whether a list of segments was vetted."""
        return self.command.startswith("vet ") and self.answers != ["unread"]

    @property
    def forwarded(self):
        """The PDU that was forwarded, or none."""
        return self.answers[0].partition(" forward ")[2]


def value(answer, name):
    """What stands behind a name in an answer."""
    words = answer.split()
    return words[words.index(name) + 1]


def places(bits):
    """The places of these bits."""
    return {place for place in range(32) if bits >> place & 1}


def records(answer):
    """The records of an answer to `readings`: property, kind, and the text that is shown."""
    words, found = answer.split()[2:], []
    while words:
        of, kind = words[0], words[1]
        if kind in UNITS:
            found.append((of, "value", f"{words[2]} {UNITS[kind]}"))
            words = words[4:]
        elif kind == "raw":
            found.append((of, "raw", "raw, empty" if words[2] == "-" else f"raw {words[2]}"))
            words = words[3:]
        else:
            found.append((of, kind, {"unknown": "not known", "prohibited": "prohibited"}[kind]))
            words = words[2:]
    return found


class Listener:
    """Follows the answers: which places each message has, which properties are named, and which records were heard."""

    def __init__(self):
        self.bits, self.names, self.waiting, self.heard_once, self.plots = {}, {}, set(), set(), {}

    def take(self, step):
        """Fills in what one line must show."""
        word, *rest = step.command.split(" ")
        answer = step.answers[0]
        if answer == "ready":
            self.bits = {}
        elif word == "drop" and answer == "given up":
            self.bits.pop(f"{int(rest[0], 16):04x}", None)
        elif word == "property" and answer == "ok":
            self.names[f"{int(rest[0], 16):04x}"] = rest[1]
        elif word == "properties":
            self.names = {}
        elif word == "hear" and answer.split(" ")[0] in ("stored", "repeat", "access", "control"):
            self.heard(step, answer)
        elif word == "hear" and answer.startswith("acknowledgement "):
            step.src, step.filled = value(answer, "src"), places(int(value(answer, "bits"), 16))
        elif word == "ack" and answer.startswith("sent "):
            step.src = f"{int(rest[1], 16):04x}"
            step.filled = places(self.bits[step.src][1]) if step.src in self.bits else None
        elif answer.startswith("readings "):
            self.read(step, rest[0].lower())
        elif word == "show" and len(step.answers) > 1:
            step.sessions = {value(line, "src"): places(int(value(line, "bits"), 16)) for line in step.answers if line.startswith("session ")}
        elif step.is_vetted:
            step.sessions = {src: places(bits) for src, (_, bits) in self.bits.items()}
        step.plots = {key: found[-WINDOW:] for key, found in self.plots.items()}

    def heard(self, step, answer):
        """A segment that is stored or repeated, or a message that is handed up."""
        src, kind = value(answer, "src"), answer.split(" ")[0]
        step.src = src
        key = src, value(answer, "iv"), value(answer, "auth" if " auth " in answer else "seq")
        before = self.bits.get(src, (None, 0))
        known = places(before[1]) if before[0] == key else set()
        if kind in ("access", "control"):
            step.filled = set(range(len(known) + 1))
            step.new = step.filled - known
            if known:
                del self.bits[src]
            self.waiting.add(value(answer, "message"))
            self.heard_once.add(value(answer, "message"))
            return
        step.filled = places(int(value(answer, "bits"), 16))
        if kind == "repeat":
            step.new, step.again = set(), step.filled if len(step.filled) == 1 else set()
            return
        step.new = step.filled - known if known < step.filled else step.filled
        self.bits[src] = key, int(value(answer, "bits"), 16)

    def read(self, step, octets):
        """The records of a message; they are plotted once for each time that it was handed up."""
        step.records, step.unheard = records(step.answers[0]), octets not in self.heard_once
        if octets in self.waiting:
            self.waiting.discard(octets)
            for of, kind, text in step.records:
                if of in self.names:
                    self.plots.setdefault((of, self.names[of]), []).append((kind, text))


def visible(line):
    """A line as it is shown: what cannot be printed by its number, and a long one cut."""
    found = "".join(letter if 32 <= ord(letter) < 127 else f"\\x{ord(letter):02x}" for letter in line[:SHOWN])
    return found + (f" .. and {len(line) - SHOWN} octets more" if len(line) > SHOWN else "")


def narration(comment, is_first):
    """The words of a comment that are narrated: not a title, a heading, or a box's name."""
    if NAME.match(comment) or HEADING.match(comment) or is_first:
        return []
    return "".join(letter if letter.isprintable() else " " for letter in comment.lstrip("#").encode("latin-1").decode("utf-8", "replace")).split()


def wanted(log, answers, numbers):
    """All steps that the page of a log must have; `numbers` has the number of each line in the file."""
    at, words, found, listener = 0, [], [], Listener()
    for place, line in enumerate(log):
        if not line or line.startswith("#"):
            words += narration(line, place == 0)
            continue
        end = at + 1
        while line == "show" and answers[end - 1] not in ("end", "unread"):
            end += 1
        step = Wanted(numbers[place], place > 0 and numbers[place - 1] == numbers[place], line, answers[at:end], " ".join(words))
        listener.take(step)
        found.append(step)
        at, words = end, []
    return found
