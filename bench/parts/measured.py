"""What an archive, or one function of it with all that it reaches, takes of a machine: octets of code and of constants, and of stack at the deepest call.

The stack is found by walking each function's instructions with the depth of the stack pointer below the caller's: 8 for the return address, then what is pushed
and subtracted; what is written below the stack pointer (the red zone) counts too. A jump to another function is walked on in the same frame, a call adds the
stack of what is called. Whatever cannot be followed is an error in words, so that no figure is too small.
"""
import pathlib
import re
from collections import Counter, deque, namedtuple
from functools import cached_property

from objects import FUNCTION, MERGED, OBJECT, RELATIVE, THROUGH_GOT, Object, Place, members

# Functions of the C library that an archive may leave to its user: their own stack is not counted.
LIBRARY = {"memcpy", "memmove", "memset", "memcmp", "bcmp"}
ENDS = {"ret", "retq", "ud2", "hlt", "int3"}
KEPT = {"%rbp", "%rbx", "%r12", "%r13", "%r14", "%r15"}  # what a called function leaves as it was
HELD = {"%rbp", "%r10", "%r13", "%r11"}  # registers that compilers keep an older stack pointer in
COMPARES = {"cmp", "cmpq", "test", "testq"}
INDEXED = re.compile(r"(-?(?:0x)?[0-9a-f]+)?\((%\w+)")
EQUAL = "flags"  # held: the depth that the stack pointer was just compared with
MANY = 1000  # depths at one place: more are a loop that pushes

Frame = namedtuple("Frame", "own calls outside")


class Unmeasured(Exception):
    """Why something cannot be told."""


class Function:
    """A function of an archive."""

    def __init__(self, symbol, place):
        self.name, self.size, self.place, self.is_global = symbol.name, symbol.size, place, symbol.is_global

    def holds(self, place):
        return place[:2] == self.place[:2] and self.place.offset <= place.offset < self.place.offset + self.size


def number(text):
    """A constant of an instruction, as a signed number of 64 bits."""
    value = int(text.removeprefix("$"), 16)
    return value - (1 << 64) if value >= 1 << 63 else value


class Archive:
    """An archive or an object, and what its functions reach and need."""

    def __init__(self, path, objdump="objdump", depths=None):
        self.path, self.depths = path, depths or {}
        self.objects = [Object(name, octets, objdump) for name, octets in members(pathlib.Path(path).read_bytes(), str(path))]
        self.functions, self.globals = {}, {}
        for one in self.objects:
            for symbol in one.symbols:
                if symbol.section is None:
                    continue
                place = Place(one, symbol.section, symbol.offset)
                if symbol.is_global:
                    self.globals[symbol.name] = place
                if symbol.kind == FUNCTION and (place not in self.functions or symbol.is_global):
                    self.functions[place] = Function(symbol, place)
        self.frames, self.stacks = {}, {}

    # Places and what refers to them

    def sections(self):
        """The sections with the place of their first octet."""
        return [(Place(one, number, 0), section) for one in self.objects for number, section in enumerate(one.sections)]

    def section(self, place):
        return place.object.sections[place.section]

    def code(self, function):
        """The instructions of a function, in their order."""
        one, section, start = function.place
        return [found for at in range(start, start + function.size) if (found := one.code.get(Place(one, section, at)))]

    def function_at(self, place):
        return next((function for function in self.functions.values() if function.holds(place)), None)

    def named(self, name):
        """The function of that name, whole or behind the last `::`."""
        found = [function for function in self.functions.values() if name in (function.name, function.name.rsplit("::", 1)[-1])]
        exact = [function for function in found if function.name == name]
        if len(exact or found) != 1:
            raise Unmeasured(f"{self.path} has {len(found)} functions named {name}")
        return (exact or found)[0]

    def target(self, one, relocation, end):
        """Where a relocation leads: a place of the archive, or a name. end is where the instruction ends, from which the processor counts."""
        symbol = relocation.symbol
        if symbol.section is None:
            if symbol.name not in self.globals:
                return symbol.name
            place = self.globals[symbol.name]
        else:
            place = Place(one, symbol.section, symbol.offset)
        behind = 0 if relocation.kind in THROUGH_GOT else relocation.addend
        if relocation.kind in RELATIVE - THROUGH_GOT:
            behind += end - relocation.offset
        return place._replace(offset=place.offset + behind)

    def targets(self, instruction):
        """Where an instruction's relocations lead; of a direct call or jump without one the place that it names."""
        one, section, offset = instruction.place
        if instruction.relocations:
            return [self.target(one, relocation, offset + instruction.size) for relocation in instruction.relocations]
        if self.leaves(instruction) and instruction.operands and re.fullmatch("[0-9a-f]+", instruction.operands[0]):
            return [Place(one, section, int(instruction.operands[0], 16))]
        return []

    @staticmethod
    def leaves(instruction):
        """Whether it is a call or a jump."""
        return instruction.name.startswith(("j", "call")) or instruction.name.startswith("loop")

    @cached_property
    def constants_read(self):
        """The places of constants that any instruction refers to, by section, in order; sized objects count from their first octet."""
        places = {}
        for one in self.objects:
            for instruction in one.code.values():
                for target in self.targets(instruction):
                    if isinstance(target, Place) and self.section(target).is_constant:
                        first, _ = self.sized(target) or (self.clamped(target), 0)
                        places.setdefault(target[:2], set()).add(first.offset)
        return {section: sorted(offsets) for section, offsets in places.items()}

    def clamped(self, place):
        """A reference may lead past its section by a constant part of an index: then the section's end is meant."""
        return place._replace(offset=max(0, min(place.offset, self.section(place).size - 1)))

    def sized(self, place):
        """The first octet and the size of the constant there, where a symbol tells it."""
        place = self.clamped(place)
        for symbol in place.object.symbols:
            if symbol.kind == OBJECT and symbol.section == place.section and symbol.offset <= place.offset < symbol.offset + symbol.size:
                return place._replace(offset=symbol.offset), symbol.size
        return None

    def extent(self, place):
        """The constant at a place: its first octet and how many there are, up to the next one that is referred to."""
        found = self.sized(place)
        if found:
            return found
        place = self.clamped(place)
        ends = [offset for offset in self.constants_read.get(place[:2], []) if place.offset < offset] + [self.section(place).size]
        return place, ends[0] - place.offset

    def reached(self, names):
        """The functions and the constants that the named functions reach, themselves included; of a constant its place with its size."""
        functions, constants, todo = [], {}, deque(self.named(name) for name in names)
        while todo:
            function = todo.popleft()
            if function in functions:
                continue
            functions.append(function)
            for instruction in self.code(function):
                for target in self.targets(instruction):
                    todo.extend(self.followed(target, constants))
        return functions, constants

    def followed(self, target, constants):
        """The functions that a place leads to: its own, or those that the constant there refers to."""
        if isinstance(target, str):
            return []
        section = self.section(target)
        if section.is_code:
            function = self.function_at(target)
            return [function] if function else []
        if not section.is_constant:
            return []
        place, size = self.extent(target)
        if place in constants:
            return []
        constants[place] = size
        inside = [self.target(place.object, found, found.offset) for at, found in section.relocations.items() if place.offset <= at < place.offset + size]
        return [function for one in inside for function in self.followed(one, constants)]

    # The stack

    def frame(self, function):
        """What one activation of a function takes itself, and how deep it stands at each call."""
        if function not in self.frames:
            self.frames[function] = Walk(self, function).frame()
        return self.frames[function]

    def stack(self, function, above=()):
        """The stack of the deepest chain of calls from a function on, its return address included."""
        if function in above:
            names = " -> ".join(one.name for one in (*above[above.index(function) :], function))
            raise Unmeasured(f"{names} is recursive: name the depth of one of them by --depth NAME=N")
        if function not in self.stacks:
            depth = self.depths.get(function.name, self.depths.get(function.name.rsplit("::", 1)[-1]))
            if depth is None or self.to(function, function, ()) is None:
                self.stacks[function] = self.below(function, None, above)
            else:
                self.stacks[function] = (depth - 1) * self.to(function, function, ()) + self.below(function, function, above)
        return self.stacks[function]

    def below(self, function, without, above):
        """The deepest that a function comes, calls included but those that lead to `without` first."""
        frame = self.frame(function)
        called = [depth + self.rest(callee, without, (*above, function)) for callee, depth in frame.calls.items() if callee is not without]
        return max([frame.own] + [8 + depth for depth in frame.outside.values()] + called)

    def rest(self, callee, without, above):
        """The stack of a called function, as it is where `without` may not be entered again."""
        if without is None:
            return self.stack(callee, above)
        if callee in above:
            raise Unmeasured(f"{callee.name} is recursive beside {without.name}")
        return self.below(callee, without, above)

    def to(self, function, wanted, above):
        """The deepest chain of calls from a function to where `wanted` is entered; None where it never is."""
        depths = []
        for callee, depth in self.frame(function).calls.items():
            if callee is wanted:
                depths.append(depth)
            elif callee not in above and (more := self.to(callee, wanted, (*above, function))) is not None:
                depths.append(depth + more)
        return max(depths, default=None)

    # The figures

    def figures(self, names=()):
        """Code, constants, stack and variables: of the named functions and what they reach, or of all."""
        if names:
            functions, constants = self.reached(names)
            code, data = sum(function.size for function in functions), sum(constants.values())
        else:
            functions = list(self.functions.values())
            code = sum(section.size for _, section in self.sections() if section.is_code)
            data = sum(section.size for _, section in self.sections() if section.is_constant)
        tops = [self.named(name) for name in names] or [function for function in functions if function.is_global]
        return {
            "code": code,
            "constants": data,
            "stack": max((self.stack(function) for function in tops), default=0),
            "variables": sum(section.size for _, section in self.sections() if section.is_variable),
        }

    def merged(self):
        """Octets of constants once the linker has put equal ones of one kind together."""
        plain = sum(section.size for _, section in self.sections() if section.is_constant and not section.flags & MERGED)
        parts = {}
        for _, section in self.sections():
            if section.is_constant and section.flags & MERGED and section.entry:
                parts.setdefault(section.name, set()).update(section.data[at : at + section.entry] for at in range(0, section.size, section.entry))
        return plain + sum(len(part) for found in parts.values() for part in found)

    def left_out(self, functions):
        """The names that these functions call and the archive has not."""
        return sorted({name for function in functions for name in self.frame(function).outside})

    def traps(self, functions):
        """How many instructions of these functions stop the program, and how many calls lead to what is no function of memory."""
        names = Counter(instruction.name for function in functions for instruction in self.code(function))
        calls = sum(name not in LIBRARY for function in functions for name in self.frame(function).outside)
        return names["ud2"] + names["hlt"] + names["int3"] + calls


class Walk:
    """One function's instructions walked, with the depth of the stack pointer and the registers that hold an older one."""

    def __init__(self, archive, function):
        self.archive, self.function = archive, function
        self.own, self.calls, self.outside, self.seen = 8, {}, {}, {}

    def error(self, instruction, what):
        return Unmeasured(f"{self.function.name}: {instruction.name} {','.join(instruction.operands)} at {instruction.place.offset:#x}: {what}")

    def frame(self):
        todo = [(self.function.place, 8, {})]
        while todo:
            place, depth, held = todo.pop()
            state = depth, *sorted(held.items())
            states = self.seen.setdefault(place, set())
            if state in states:
                continue
            states.add(state)
            instruction = place.object.code.get(place)
            if instruction is None:
                raise Unmeasured(f"{self.function.name}: no instruction at {place.offset:#x}")
            if len({each[0] for each in states}) > MANY:
                raise self.error(instruction, "the stack grows in a loop")
            if len(states) > MANY:  # a register that held the stack pointer goes through the frame in a loop
                held = dict(set.intersection(*(set(each[1:]) for each in states)))
                if (depth, *sorted(held.items())) in states:
                    continue
                states.add((depth, *sorted(held.items())))
            todo.extend(self.step(instruction, depth, held))
        self.missed()
        return Frame(self.own, self.calls, self.outside)

    def missed(self):
        """An error where a place that a table of the function names was not come to: then a jump was taken to go by another table."""
        for instruction in self.archive.code(self.function):
            if instruction.place in self.seen and any(place not in self.seen for place in self.tabled(instruction, self.function)):
                raise self.error(instruction, "no jump goes by this table")

    def step(self, instruction, depth, held):
        """Where the walk goes on: places with depth and held registers."""
        self.touch(instruction, depth, held)
        following = instruction.place._replace(offset=instruction.place.offset + instruction.size)
        if instruction.name in ENDS:
            return []
        if instruction.name.startswith("call"):
            self.call(instruction, depth)
            return [(following, depth, {name: old for name, old in held.items() if name in KEPT})]
        if self.archive.leaves(instruction):
            places = self.jump(instruction, depth)
            if instruction.name == "jne" and EQUAL in held:  # a loop that touches a large frame page by page
                places = [following] if held[EQUAL] == depth else places
            elif not instruction.name.startswith("jmp"):
                places = places + [following]
            return [(place, depth, held) for place in places]
        depth, held = self.moved(instruction, depth, self.lost(held, EQUAL))
        if instruction.name == "cmp" and instruction.operands[1] == "%rsp" and instruction.operands[0] in held:
            held = {**held, EQUAL: held[instruction.operands[0]]}
        self.own = max(self.own, depth)
        return [(following, depth, held)]

    def touch(self, instruction, depth, held):
        """Octets below the stack pointer that an instruction names."""
        for operand in instruction.operands:
            match = INDEXED.search(operand)
            if match and match[1] and match[1].startswith("-"):
                base = depth if match[2] == "%rsp" else held.get(match[2])
                if base is not None:
                    self.own = max(self.own, base - int(match[1], 16))

    def call(self, instruction, depth):
        targets = self.archive.targets(instruction)
        if not targets:
            raise self.error(instruction, "what is called cannot be told")
        for target in targets:
            if isinstance(target, str):
                self.outside[target] = max(self.outside.get(target, 0), depth)
                continue
            callee = self.archive.functions.get(target)
            if callee is None:
                raise self.error(instruction, "no function begins where it calls")
            self.calls[callee] = max(self.calls.get(callee, 0), depth)

    def jump(self, instruction, depth):
        """The places that a jump leads to; one to a name is a call that returns to our caller."""
        targets = self.archive.targets(instruction)
        if instruction.operands[0].startswith("*") and not any(relocation.kind in THROUGH_GOT for relocation in instruction.relocations):
            targets = self.table(instruction)
        for target in targets:
            if isinstance(target, str):
                self.outside[target] = max(self.outside.get(target, 0), depth - 8)
        if not targets:
            raise self.error(instruction, "where it leads cannot be told")
        return [target for target in targets if not isinstance(target, str)]

    def table(self, instruction):
        """Where a jump by a table may lead: what the table names that the jump refers to, or the nearest instruction before it that refers to one."""
        home = self.archive.function_at(instruction.place)
        for other in reversed(self.archive.code(home)):
            if other.place.offset <= instruction.place.offset and (found := self.tabled(other, home)):
                return found
        return []

    def tabled(self, instruction, home):
        """The places in a function that a table names which an instruction refers to."""
        targets = [target for target in self.archive.targets(instruction) if isinstance(target, Place) and self.archive.section(target).is_constant]
        return [place for target in targets for place in self.entries(target, home)]

    def entries(self, start, home):
        """The places in a function that the table at a place names, entry by entry."""
        section, at, found = self.archive.section(start), start.offset, []
        _, size = self.archive.extent(start)
        while at < start.offset + size and (relocation := section.relocations.get(at)):
            place = self.archive.target(start.object, relocation, relocation.offset)
            if isinstance(place, str):
                break
            if relocation.kind in RELATIVE:
                place = place._replace(offset=place.offset - (at - start.offset))
            if not home.holds(place):
                break
            found.append(place)
            at += 4 if relocation.kind in RELATIVE else 8
        return found

    def moved(self, instruction, depth, held):
        """Depth and held registers after an instruction that does not jump."""
        name, operands = instruction.name, instruction.operands
        last = operands[-1] if operands else ""
        stem = name.removesuffix("q")
        if stem in ("push", "pushf"):
            return depth + 8, held
        if stem == "pop" and last != "%rsp":
            return depth - 8, self.lost(held, last)
        if stem == "popf":
            return depth - 8, held
        if stem == "leave":
            if "%rbp" not in held:
                raise self.error(instruction, "the frame pointer is not known")
            return held["%rbp"] - 8, self.lost(held, "%rbp")
        if last in ("%esp", "%sp", "%spl") or name.startswith(("enter", "xchg")) and "%rsp" in operands:
            raise self.error(instruction, "it moves the stack pointer otherwise than by a constant")
        if last == "%rsp" and name not in COMPARES:
            return self.pointer(instruction, depth, held), held
        if last in HELD and name not in COMPARES:
            value = self.address(instruction, depth, held)
            held = self.lost(held, last)
            return depth, {**held, last: value} if value is not None else held
        return depth, self.lost(held, wide(last)) if wide(last) in held and name not in COMPARES else held

    @staticmethod
    def lost(held, register):
        return {name: old for name, old in held.items() if name != register}

    def pointer(self, instruction, depth, held):
        """The depth after an instruction that sets the stack pointer."""
        name, first = instruction.name.removesuffix("q"), instruction.operands[0]
        if name == "and" and first.startswith("$") and number(first) < 0:
            return depth + max(0, -number(first) - 8)  # the stack pointer is a multiple of 8, so this is the most
        value = self.address(instruction, depth, held)
        if value is None:
            raise self.error(instruction, "it moves the stack pointer otherwise than by a constant")
        return value

    @staticmethod
    def address(instruction, depth, held):
        """The depth that a move, a constant added or an address computed gives its last operand; None where that is not known."""
        name, first = instruction.name.removesuffix("q"), instruction.operands[0]
        known = {**held, "%rsp": depth}
        if name == "mov" and first in known:
            return known[first]
        if name in ("sub", "add") and first.startswith("$") and instruction.operands[-1] in known:
            return known[instruction.operands[-1]] + number(first) * (1 if name == "sub" else -1)
        match = re.fullmatch(r"(-?0x[0-9a-f]+)?\((%\w+)\)", first)
        if name == "lea" and match and match[2] in known:
            return known[match[2]] - int(match[1] or "0", 16)
        return None


def wide(register):
    """The 64-bit register that a part of it belongs to, of those that are held."""
    return {"%ebp": "%rbp", "%bp": "%rbp", "%bpl": "%rbp"}.get(register, re.sub(r"(%r1[0-9])[dwb]$", r"\1", register))
