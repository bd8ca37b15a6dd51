"""Lines that the console cannot read, or only just: each made from a line that it can."""

KEY = b"0123456789abcdef0123456789ABCDEF"
# One line of each command, all readable.
RIGHT = (b"netkey " + KEY, b"appkey 0 " + KEY, b"devkey " + KEY, b"elements 1 0 ffffff", b"group c000", b"label " + KEY, b"ivindex 1 0", b"relay 1", b"setup",
         b"room 1d 180", b"hear 00", b"access 0 1 - 0 0 4 00", b"access 1 c000 7f 1 dev 8 0102", b"access 0 label:0 - 0 0 4 00", b"control 0 1 2 0 1 -",
         b"segment 1f", b"ack 0 1",
         b"stop", b"drop 1", b"show", b"property 76 humidity", b"property 4f temperature", b"properties", b"readings 52c20ed711",
         b"vet 0 e6a03401c3c51d8e476b28e3aa5001f3 e6a034211c01cea6", b"vet 1 810000000a -")
# Each field one above its limit, and at it, where the library answers.
LIMITS = (
    b"appkey 100 " + KEY, b"netkey " + KEY[2:], b"netkey " + KEY + b"00", b"devkey -", b"elements", b"elements 10000 0", b"elements 1 100000000",
    b"elements 1 0 0 0 000000000", b"group 10000", b"ivindex 100000000 0", b"ivindex 1 2", b"relay 2", b"room 181 180", b"room 1d 181", b"room 1d -",
    b"hear", b"hear 0", b"hear - -", b"access 100 1 - 0 0 4 00", b"access 0 10000 - 0 0 4 00", b"access 0 1 100 0 0 4 00", b"access 0 1 - 100 0 4 00",
    b"access 0 1 - 0 100 4 00", b"access 0 1 - 0 0 5 00", b"access 0 1 - 0 0 0 00", b"access 0 1 - 0 - 4 00", b"access 0 1 - 0 DEV 4 00",
    b"control 100 1 - 0 1 -", b"control 0 10000 - 0 1 -", b"control 0 1 100 0 1 -", b"control 0 1 - 100 1 -", b"control 0 1 - 0 100 -",
    b"segment 100", b"ack 100 1", b"ack 0 10000", b"drop 10000", b"drop -",
    b"access ff ffff ff ff ff 8 -", b"access 0 1 - 0 0 00000008 00", b"control ff ffff ff ff ff -", b"segment ff", b"ack ff ffff", b"drop ffff",
    b"property 10000 humidity", b"property 000000076 humidity", b"property - humidity", b"property 76", b"property 76 raw", b"property 76 Humidity",
    b"property 76 humidity 0", b"property FFFF temperature", b"properties 0", b"readings", b"readings 5", b"readings - -", b"readings 5g",
    b"readings 52" + b"FF" * 379, b"readings 52" + b"00" * 380, b"readings 04" + b"00" * 380,
    b"vet", b"vet 2", b"vet -", b"vet 00000001", b"vet 000000001", b"vet 0 ", b"vet 0  -", b"vet 0 - ", b"vet 0 0", b"vet 0 - 0g", b"vet 0 - - -",
    b"vet 1 " + b"FF" * 255, b"vet 1 " + b"ff" * 256, b"vet 0 - " + b"ff" * 255, b"vet 0 - " + b"ff" * 256,
    b"ivindex FFFFFFFF 1", b"relay 00000001", b"room 180 180", b"room 1d 180", b"elements 1")

# The same of labels.
LABEL_LIMITS = (
    b"label", b"label -", b"label " + KEY[2:], b"label " + KEY + b"00", b"label 0 " + KEY, b"label:0", b"Label " + KEY, b"access 0 label:100 - 0 0 4 00",
    b"access 0 label: - 0 0 4 00", b"access 0 label:- - 0 0 4 00", b"access 0 label - 0 0 4 00", b"access 0 Label:0 - 0 0 4 00",
    b"access 0 label:000000000 - 0 0 4 00", b"access 0 label:0:0 - 0 0 4 00", b"access 0 label 0 - 0 0 4 00", b"access 0 label:0g - 0 0 4 00",
    b"access 0 :0 - 0 0 4 00", b"control 0 label:100 - 0 1 -", b"ack 0 label:0", b"drop label:0", b"group label:0", b"elements label:0 0",
    b"label " + KEY, b"access ff label:FF ff ff ff 8 -", b"access 0 label:00000000 - 0 0 4 00", b"control ff label:ff ff ff ff -")


def _field(dice, line, make):
    """The line with one of its fields made anew."""
    fields = line.split(b" ")
    at = dice.randrange(1, len(fields)) if len(fields) > 1 else 0
    fields[at] = make(fields[at])
    return b" ".join(fields)


def _long(dice):
    """A line of 4,095 or 4,096 octets, or longer, that is right but for that."""
    kind, length = dice.randrange(4), dice.choice((4095, 4095, 4096, 4097, 6000))
    if kind == 0:
        head = b"control 0 0001 - 0 1 " if length % 2 else b"control 00 0001 - 0 1 "
        return head + b"a5" * ((length - len(head)) // 2)
    if kind == 1:
        return b"elements 1" + b" 0" * ((length - 11) // 2) + (b" 0" if length % 2 else b" 00")
    if kind == 2:
        return (b"vet 0" if length % 2 else b"vet 00") + b" -" * ((length - 5) // 2)
    return b"#" + dice.randbytes(length - 1).replace(b"\n", b"\r")


CHANGES = (
    lambda dice, line: line + b"\r",
    lambda dice, line: line + b" ",
    lambda dice, line: b" " + line,
    lambda dice, line: line + b" 0",
    lambda dice, line: line.replace(b" ", b"  ", 1),
    lambda dice, line: line.replace(b" ", b"\t", 1),
    lambda dice, line: line.upper(),
    lambda dice, line: line[:1].upper() + line[1:],
    lambda dice, line: b" ".join(line.split(b" ")[:1] + [field.upper() for field in line.split(b" ")[1:]]),
    lambda dice, line: line.rpartition(b" ")[0],
    lambda dice, line: line[:-1],
    lambda dice, line: line[:dice.randrange(len(line))],
    lambda dice, line: _field(dice, line, lambda _: b""),
    lambda dice, line: _field(dice, line, lambda _: b"-"),
    lambda dice, line: _field(dice, line, lambda field: b"0x" + field),
    lambda dice, line: _field(dice, line, lambda field: b"+" + field),
    lambda dice, line: _field(dice, line, lambda field: field + b"g"),
    lambda dice, line: _field(dice, line, lambda field: field.rjust(dice.choice((8, 9)), b"0")),
    lambda dice, line: _field(dice, line, lambda field: b"%x" % dice.choice((2, 5, 0x100, 0x181, 0x10000, 0x1000000, 0x100000000))),
    lambda dice, line: _field(dice, line, lambda field: dice.randbytes(3).replace(b"\n", b"\0")),
    lambda dice, line: dice.randbytes(dice.randint(1, 30)).replace(b"\n", b"\x0b"),
    lambda dice, line: b"",
    lambda dice, line: b"# " + line,
    lambda dice, line: b" #",
    lambda dice, line: line + b"\0",
    lambda dice, line: _long(dice),
)


def odd(dice, line):
    """A line that is mostly no command any more, made from one that is."""
    return dice.choice(CHANGES)(dice, line) if dice.random() < 0.75 else dice.choice(LIMITS)
