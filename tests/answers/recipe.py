"""The recipe "Two boxes of your own" of docs/CONSOLE.md: a box sends three segments, the station loses one, acknowledges, and gets it again."""
from collections import namedtuple

from boxes import APPLICATION_KEY, IV_INDEX, NETWORK_KEY
from language import Console
from sealed import READINGS

# Whose console the lines are typed into, and the lines: a PDU that was sent before stands there by its name in braces, and a line that sends one has
# `=> NAME` behind it.
Step = namedtuple("Step", "heading words who lines")

KEYS = (f"netkey {NETWORK_KEY.hex()}", f"appkey 0 {APPLICATION_KEY.hex()}", f"ivindex {IV_INDEX:x} 0")
STEPS = (
    Step("The box is set up", "It is element 0201, and its next SEQ is a10. In the first terminal:", "box", [*KEYS, "elements 201 a10", "setup"]),
    Step("The station is set up", "It is element 0001. In the second terminal:", "station", [*KEYS, "elements 1 40", "setup", "property 76 humidity"]),
    Step("Three segments are sent", "The box sends the station five readings, 21 octets. With the TransMIC they are 25, so three segments. The PDU behind "
         "`started` is segment 0; the others are asked for one by one.", "box",
         [f"access 0 1 - 0 0 4 {READINGS.hex()} => first", "segment 1 => second", "segment 2 => third"]),
    Step("One of them is lost", "The station hears the first and the last. The second is lost: we do not type it. `bits 00000005` are places 0 and 2; the "
         "hole is place 1. The acknowledgement says so.", "station", ["hear {first}", "hear {third}", "ack 0 201 => partly"]),
    Step("It is sent again", "The box hears the acknowledgement: two segments are marked, and it sends those no more, `refused 14`. The lost one it sends "
         "again, under a new SEQ, so its octets are others.", "box", ["hear {partly}", "segment 0", "segment 1 => again"]),
    Step("The message is whole", "The station hears the segment and hands the message up. `readings` reads what stands behind `message`. The second "
         "acknowledgement names all three places.", "station", ["hear {again}", f"readings {READINGS.hex()}", "ack 0 201 => all"]),
    Step("Nothing is left to send", "The box hears that all has come. It keeps the message no longer.", "box", ["hear {all}", "segment 1"]),
)
# Each side, and the name that its log gives to the other in the picture.
SIDES = {"box": "# box 0001: station", "station": "# box 0201: humidity box"}


def played():
    """Each step, and its lines with their answers, as two receivers of the model give them."""
    consoles, sent = {who: Console() for who in SIDES}, {}
    for step in STEPS:
        exchanged = []
        for told in step.lines:
            line, _, name = told.partition(" => ")
            line = line.format(**sent)
            answer = consoles[step.who].answer(line.encode())
            if name:
                sent[name] = answer[0].split()[1]
            exchanged.append((line, answer))
        yield step, exchanged


def page(wrapped):
    """The recipe's lines: each block has the name of its console, a line stands at the left edge and its answer behind two spaces."""
    for number, (step, exchanged) in enumerate(played(), 1):
        yield from (*wrapped(f"**{number}. {step.heading}.** {step.words}"), "", "```" + step.who)
        for line, answer in exchanged:
            yield from (line, *("  " + each for each in answer))
        yield from ("```", "")


def logs():
    """What is typed into each console, with a heading for each step, and the answers."""
    found = {who: ([f"# Two boxes of your own: the {who}'s side (docs/CONSOLE.md).", other], []) for who, other in SIDES.items()}
    for number, (step, exchanged) in enumerate(played(), 1):
        log, answers = found[step.who]
        log += ["", f"# {number}. {step.heading}", *(line for line, _ in exchanged)]
        answers += [each for _, answer in exchanged for each in answer]
    return found
