"""Objects and archives for x86-64 Linux as they are linked: sections, symbols and relocations read from the file, instructions as objdump decodes them."""
import re
import struct
import subprocess
import tempfile
from collections import namedtuple
from functools import cached_property

# A place in an object: the number of a section and an offset in it. A symbol whose section is None is for another object to give.
Place = namedtuple("Place", "object section offset")
Symbol = namedtuple("Symbol", "name kind section offset size is_global")
Relocation = namedtuple("Relocation", "offset kind symbol addend")
Instruction = namedtuple("Instruction", "place size name operands relocations")

WRITE, ALLOCATED, EXECUTED, MERGED = 1, 2, 4, 16  # flags of a section
SYMTAB, RELA, NOBITS = 2, 4, 8  # types of a section
OBJECT, FUNCTION = 1, 2  # types of a symbol
# Relocations that count from the field on: PC32, PLT32, GOTPCREL, PC64, GOTPCRELX, REX_GOTPCRELX. Those of the GOT lead to the symbol itself.
RELATIVE = {2, 4, 9, 24, 41, 42}
THROUGH_GOT = {9, 41, 42}

LISTED = re.compile(r"\s*([0-9a-f]+):\t((?:[0-9a-f]{2} )+)\s*(?:\t(.*))?")
PREFIXES = {"cs", "ds", "es", "fs", "gs", "ss", "data16", "addr32", "lock", "notrack", "bnd", "rep", "repz", "repnz", "rex.W"}


class Section:
    """A section: its name, flags and octets, and the relocations in it by their offset."""

    def __init__(self, name, kind, flags, size, data, entry):
        self.name, self.kind, self.flags, self.size, self.data, self.entry = name, kind, flags, size, data, entry
        self.relocations = {}

    @property
    def is_code(self):
        return bool(self.flags & EXECUTED)

    @property
    def is_constant(self):
        return self.name.startswith((".rodata", ".data.rel.ro"))

    @property
    def is_variable(self):
        return self.flags & (WRITE | ALLOCATED) == WRITE | ALLOCATED and not self.is_constant


class Object:
    """One object file."""

    def __init__(self, name, octets, objdump):
        if octets[:6] != b"\x7fELF\x02\x01" or struct.unpack_from("<HH", octets, 16) != (1, 62):
            raise ValueError(f"{name} is no object file for x86-64")
        self.name, self.octets, self.objdump = name, octets, objdump
        self.read()

    def read(self):
        """Sections, symbols and relocations."""
        table, = struct.unpack_from("<Q", self.octets, 40)
        size, count, names = struct.unpack_from("<HHH", self.octets, 58)
        heads = [struct.unpack_from("<IIQQQQIIQQ", self.octets, table + size * i) for i in range(count)]
        self.sections = []
        for name, kind, flags, _, at, length, _, _, _, entry in heads:
            data = b"" if kind == NOBITS else self.octets[at : at + length]
            self.sections.append(Section(self.string(heads[names], name), kind, flags, length, data, entry))
        self.symbols = []
        for head in heads:
            if head[1] == SYMTAB:
                self.symbols = [self.symbol(heads, head, at) for at in range(head[4], head[4] + head[5], 24)]
        for head in heads:
            if head[1] == RELA:
                for at in range(head[4], head[4] + head[5], 24):
                    offset, info, addend = struct.unpack_from("<QQq", self.octets, at)
                    self.sections[head[7]].relocations[offset] = Relocation(offset, info & 0xFFFFFFFF, self.symbols[info >> 32], addend)

    def string(self, head, at):
        """A name in a table of strings."""
        start = head[4] + at
        return self.octets[start : self.octets.index(b"\0", start)].decode("utf-8", "replace")

    def symbol(self, heads, head, at):
        name, info, _, section, value, size = struct.unpack_from("<IBBHQQ", self.octets, at)
        return Symbol(self.string(heads[head[6]], name), info & 15, section if 0 < section < len(heads) else None, value, size, info >> 4 != 0)

    @cached_property
    def code(self):
        """The instructions, by section and offset."""
        with tempfile.NamedTemporaryFile(suffix=".o") as file:
            file.write(self.octets)
            file.flush()
            listed = subprocess.run([self.objdump, "-dwz", "--show-raw-insn", file.name], capture_output=True, text=True, check=True).stdout
        numbers = {section.name: i for i, section in enumerate(self.sections) if section.is_code}
        if len(numbers) != sum(section.is_code for section in self.sections):
            raise ValueError(f"{self.name}: two sections of code have one name")
        code, number = {}, None
        for line in listed.splitlines():
            if line.startswith("Disassembly of section "):
                number = numbers[line[len("Disassembly of section ") : -1]]
            elif match := LISTED.fullmatch(line):
                one = self.instruction(number, int(match[1], 16), len(match[2].split()), match[3] or "")
                code[one.place] = one
        return code

    def instruction(self, section, offset, size, text):
        text = re.sub(r"\s+#.*|\s+<.*", "", text)
        words = text.split(None, 1)
        repeated = ""
        while len(words) == 2 and words[0] in PREFIXES:
            repeated = "rep " if words[0].startswith("rep") else repeated
            words = words[1].split(None, 1)
        name, operands = (words + ["", ""])[:2]
        relocations = self.sections[section].relocations
        inside = [relocations[at] for at in range(offset, offset + size) if at in relocations]
        return Instruction(Place(self, section, offset), size, repeated + name, re.split(r",(?![^(]*\))", operands) if operands else [], inside)


def members(octets, path):
    """The files of an archive, or the file itself."""
    if octets[:8] != b"!<arch>\n":
        yield path, octets
        return
    at, long_names = 8, b""
    while at + 60 <= len(octets):
        name, size = octets[at : at + 16].rstrip(), int(octets[at + 48 : at + 58])
        data = octets[at + 60 : at + 60 + size]
        at += 60 + size + size % 2
        if name == b"//":
            long_names = data
        elif name not in (b"/", b"/SYM64/"):
            if name[:1] == b"/":
                name = long_names[int(name[1:]) :].split(b"\n", 1)[0]
            yield name.rstrip(b"/").decode("utf-8", "replace"), data
