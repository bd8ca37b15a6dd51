"""A script made from a seed, with the answer that the model gives to each of its lines."""
import random
from collections import namedtuple
from dataclasses import replace

import lines
import orders
import statuses
import traffic
import vendors
from ciphers import k4, label_address
from language import Console
from network import kind, seal
from world import World, alike, labels_of, setup_lines, setup_of

# One line of a script: its octets, the answering lines, and the words for what kind of answer it was and which cases it met.
Step = namedtuple("Step", "line answers kinds")
# One script of so many ends with a flood, over 8,192 transmissions of one element, from one of these numbers on in turn.
FLOODS, STARTS = 6, (0, 0xFFFFFF - 8191, 0xFFFFFF - 8190, 5)


class Script:
    """Lines said to the model one after another. What is vetted has dice of its own, `bench`."""

    def __init__(self, seed):
        self.dice = random.Random(seed)
        self.bench = random.Random(f"bench {seed}")
        self.console = Console()
        self.steps = []

    def say(self, line):
        line = line if isinstance(line, bytes) else line.encode()
        answers = self.console.answer(line)
        self.steps.append(Step(line, answers, (self.console.why, *self.console.notes)))
        return answers

    def set_up(self, setup, dice):
        """Sets up with room enough, whatever odd lines have left: the first setup takes that away."""
        for line in [b"setup"] + setup_lines(setup, dice) + [b"room 1d 180"]:
            self.say(line)

    def hear(self, pdu):
        self.say(b"hear " + (pdu.hex().encode() or b"-"))

    def sense(self):
        """A line about Sensor Status."""
        self.say(statuses.line(self.dice, self.console.named))

    def vet(self, own):
        """A line that vets a maker's list, or with the chance `own` the segments of the message that is being sent."""
        out = self.console.receiver and self.console.receiver.out
        self.say(vendors.written(out.ctl, out.segments) if out and self.bench.random() < own else vendors.line(self.bench))

    def odd(self):
        """A line that is mostly unread, made of one of the latest or of any command."""
        recent = [step.line for step in self.steps[-12:] if 0 < len(step.line) < 400]
        self.say(lines.odd(self.dice, self.dice.choice((*recent[-4:], *self.dice.sample(lines.RIGHT, 4)))))


class Stage:
    """A world on the script: its actors take turns, with weights that differ from world to world."""

    def __init__(self, script):
        self.script, self.dice = script, script.dice
        self.set_up()
        self.world = World(self.dice, script.console)
        hears = [(traffic.talk, 3)] * self.dice.randint(1, 12) + [(actor, self.dice.choice((0, 0, 1, 1, 3, 8))) for actor in traffic.ACTORS]
        asks = [(actor, self.dice.choice((0, 1, 1, 3, 8))) for actor in orders.ACTORS]
        self.actors = [(actor(self.world), weight, script.hear) for actor, weight in hears]
        self.actors += [(actor(self.world), weight, script.say) for actor, weight in asks]

    def set_up(self):
        """Sets up with odd lines between, which may spoil it, so until it is ready."""
        answers = []
        while answers != ["ready"]:
            for line in setup_lines(setup_of(self.dice), self.dice):
                if self.dice.random() < 0.04:
                    self.script.odd()
                if self.dice.random() < 0.02:
                    self.script.sense()
                answers = self.script.say(line)

    def turn(self):
        actor, _, use = self.dice.choices(self.actors, [weight for _, weight, _ in self.actors])[0]
        for _ in range(self.dice.choice((1, 1, 1, 2, 3, 8))):
            use(next(actor))
        if self.dice.random() < 0.04:
            self.script.odd()
        if self.dice.random() < 0.08:
            self.script.say("show")
        if self.dice.random() < 0.06:
            for _ in range(self.dice.randint(1, 4)):
                self.script.sense()
        if self.script.bench.random() < 0.03:
            self.script.vet(own=0.4)

    def play(self, count):
        """Turns, a few of them with buffers that are too short."""
        end = len(self.script.steps) + count
        while len(self.script.steps) < end:
            short = self.dice.random() < 0.02
            if short:
                self.script.say(orders.short_room(self.dice))
            for _ in range(self.dice.randint(1, 4)):
                self.turn()
            if short:
                self.script.say(orders.enough_room(self.dice))
            if self.dice.random() < 0.03:
                for line in orders.bad_setup(self.dice, self.world.setup):
                    self.script.say(line)

    def flood(self, start):
        """One segment sent until over 8,191 numbers have passed since the message began."""
        self.script.set_up(replace(self.world.setup, seqs=[start]), self.dice)
        self.script.say(b"control 0 1 - 0 1 " + b"00" * 12)
        for _ in range(8193):
            self.script.say("segment 1")
        for line in ("show", "segment 0", "stop", "control 0 1 - 0 1 -"):
            self.script.say(line)


def begin_again(script, dice, count=60):
    """A receiver whose sources begin their SEQs again under the other IV Index, and a node that talks; its dice are its own."""
    setup = setup_of(dice)
    script.set_up(replace(setup, iv_index=dice.choice((1, 1, 2, 0xFFFFFFFF, max(setup.iv_index, 1)))), dice)
    world = World(dice, script.console)
    again, other = traffic.begun_again(world), traffic.talk(world)
    for _ in range(count):
        script.hear(next(again if dice.random() < 0.8 else other))
        if dice.random() < 0.05:
            script.say("show")
    script.say("show")


def own_voice(script, dice, count=60):
    """A receiver that sends, acknowledges what others begin, and hears PDUs of its own elements; its dice are its own."""
    script.set_up(replace(setup_of(dice), relay=1), dice)
    world = World(dice, script.console)
    own, others = traffic.own_voice(world), traffic.openers(world)
    asked = [actor(world) for actor in (orders.access, orders.control, orders.acknowledge)]
    for _ in range(count):
        if dice.random() < 0.3:
            script.say(next(dice.choice(asked)))
        else:
            script.hear(next(others if dice.random() < 0.2 else own))
        if dice.random() < 0.05:
            script.say("show")
    script.say("show")


def at_labels(script, dice, full, count=120):
    """A receiver with labels, which hears messages to them, is asked for some and has them acknowledged; its dice are its own.

    A full one has four application keys of one AID and four labels of one address: sixteen pairs.
    """
    setup = setup_of(dice)
    labels = alike(dice, label_address, 4) if full else labels_of(dice, dice.randint(2, 4))
    keys = alike(dice, k4, 4 if full else dice.randint(1, 4))
    script.set_up(replace(setup, app_keys=[(0, key) for key in keys], labels=labels, seqs=[dice.randrange(0xFF0000)] + setup.seqs[1:]), dice)
    world = World(dice, script.console)
    hears = [actor(world) for actor in (traffic.to_labels, traffic.to_labels, traffic.to_labels, traffic.joined, traffic.lasts, traffic.answers)]
    asks = [actor(world) for actor in (orders.access, orders.to_labels, orders.to_labels, orders.segments, orders.acknowledge)]
    for _ in range(count):
        roll = dice.random()
        if roll < 0.06:
            script.say(dice.choice(lines.LABEL_LIMITS))
        elif roll < 0.3:
            script.say(next(dice.choice(asks)))
        else:
            script.hear(next(dice.choice(hears)))
    script.say("show")
    read_elsewhere(script, dice)


def read_elsewhere(script, dice):
    """What a receiver has sent to labels, heard by another that is set up alike but for its elements."""
    receiver = script.console.receiver
    sent = [each for each in receiver.sent if kind(each.opened.dst) == "virtual"]
    script.set_up(replace(receiver.setup, first=0x3000 if receiver.setup.first < 0x2000 else 1), dice)
    for each in sent:
        script.hear(seal(receiver.networks[each.net], each.iv_index, *each.opened))
        step = script.steps[-1]
        script.steps[-1] = step._replace(kinds=(*step.kinds, f"sent to a label, heard by another: {step.answers[0].split()[0]}"))


def at_bench(script, count):
    """Makers' lists one after another; where there is a receiver also with too little room, and it goes on as it was."""
    for _ in range(count):
        short = script.console.receiver and script.bench.random() < 0.08
        if short:
            script.say(orders.short_room(script.bench))
        for _ in range(script.bench.randint(1, 3)):
            script.vet(own=0.05)
        if short:
            script.say(orders.enough_room(script.bench))
    script.say("show")


def made(seed, worlds=3, count=530):
    """The script of a seed."""
    script = Script(seed)
    at_bench(script, seed % 4)
    for _ in range(script.dice.randrange(4)):
        script.say(script.dice.choice(("show", "hear -", "room 1d 180", "stop", "ack 0 1", "access 0 1 - 0 0 4 00", "setup", "segment 0",
                                       "properties")))
    for _ in range(script.dice.randrange(12)):
        script.sense()
    for _ in range(worlds):
        stage = Stage(script)
        stage.play(count)
        script.say("show")
    if seed % FLOODS == 0:
        stage.flood(STARTS[seed // FLOODS % len(STARTS)])
    begin_again(script, random.Random(f"begin again {seed}"))
    own_voice(script, random.Random(f"own voice {seed}"))
    at_labels(script, random.Random(f"labels {seed}"), seed % 3 == 0)
    at_bench(script, 60)
    return script.steps
