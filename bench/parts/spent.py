"""What one function's octets are spent on: loops that are left, vector instructions, copies, and constants that it puts on its stack."""
import re
from collections import namedtuple

from measured import ENDS, Walk
from objects import Place

# copies and fills: calls of memcpy, memmove and memset and repeated string instructions; copied: their octets where these are a constant beside them.
Spent = namedtuple("Spent", "loops vectors vector_octets copies copied unknown laid")
VECTOR = re.compile(r"%[xyz]mm\d")
WIDTH = {"x": 16, "y": 32, "z": 64}
STRING = {"rep movsb": 1, "rep movsw": 2, "rep movsl": 4, "rep movsq": 8, "rep stos": 8}
COPYING = {"memcpy", "memmove", "memset"}


def ways(archive, function, code):
    """Of each instruction's place the places in the function that it may lead to."""
    led = {}
    for one in code:
        following = one.place._replace(offset=one.place.offset + one.size)
        jumps = archive.leaves(one) and not one.name.startswith("call")
        to = [] if one.name in ENDS or one.name.startswith("jmp") else [following]
        if jumps and one.operands[0].startswith("*"):
            to += Walk(archive, function).table(one)
        elif jumps:
            to += [target for target in archive.targets(one) if isinstance(target, Place)]
        led[one.place] = [place for place in to if function.holds(place)]
    return led


def reached(start, led, without=None):
    """The places that can be come to from a start, but through one that is left out."""
    seen, todo = set(), [start]
    while todo:
        place = todo.pop()
        if place not in seen and place != without and place in led:
            seen.add(place)
            todo += led[place]
    return seen


def loops(function, led):
    """How many loops there are: places that every way to some jump back to them passes."""
    before = {}
    for place in reached(function.place, led):
        for following in led[place]:
            before.setdefault(following, set()).add(place)
    joined = [place for place, sources in before.items() if len(sources) > 1 or place == function.place]
    return sum(bool(before[place] - reached(function.place, led, place)) for place in joined)


def constant_before(archive, code, at, registers, entered):
    """The constant that a register was given on the straight way to an instruction; None where it cannot be told."""
    while at and code[at].place not in entered:
        at -= 1
        if archive.leaves(code[at]):
            return None
        if code[at].operands and code[at].operands[-1] in registers:
            first = code[at].operands[0]
            return int(first[1:], 16) if code[at].name.startswith("mov") and first.startswith("$") else None
    return None


def spent(archive, function):
    code = archive.code(function)
    led = ways(archive, function, code)
    entered = {place for one in code if archive.leaves(one) for place in led[one.place]}
    sizes = []
    for at, one in enumerate(code):
        if one.name in STRING:
            count = constant_before(archive, code, at, ("%ecx", "%rcx"), entered)
            sizes.append(None if count is None else count * STRING[one.name])
        elif one.name.startswith(("call", "jmp")) and COPYING & {target for target in archive.targets(one) if isinstance(target, str)}:
            sizes.append(constant_before(archive, code, at, ("%edx", "%rdx"), entered))
    vectors = [one for one in code if any(VECTOR.search(operand) for operand in one.operands)]
    known = [size for size in sizes if size is not None]
    return Spent(loops(function, led), len(vectors), sum(one.size for one in vectors), len(sizes), sum(known), len(sizes) - len(known), laid(archive, vectors))


def laid(archive, vectors):
    """Octets of constants that are loaded into a vector register and stored on the stack from it unchanged."""
    loaded, octets = {}, 0
    for one in vectors:
        source, last = one.operands[0], one.operands[-1]
        if VECTOR.fullmatch(source) and last.endswith("(%rsp)") and source in loaded:
            octets += loaded[source]
        if VECTOR.fullmatch(last):
            loaded.pop(last, None)
            constant = any(isinstance(target, Place) and archive.section(target).is_constant for target in archive.targets(one))
            if constant and one.name.startswith(("mov", "vmov")):
                loaded[last] = WIDTH[last[1]]
    return octets
