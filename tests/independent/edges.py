"""Scripts by hand about the edges of reading: no line, no newline, lines at their longest and far beyond, lines across a buffer's end."""
import transport

KEY = b"0123456789abcdef0123456789abcdef"
# The longest answer to `readings`: 94 temperatures of three digits below zero, and one octet of another property.
LONGEST = b"property 4f temperature\nreadings 52" + b"e2094d95" * 94 + b"a0ffff"
BLOCK = 65536
# A command, and what follows it, where the receiver is ready after it.
READY = b"netkey " + KEY + b"\nelements 1 0\nsetup\n"
# Labels up to the most that are held, one more, and as many more as one octet counts; behind each what is sent to the last that can be held.
LABELLED = tuple(READY.replace(b"setup\n", b"appkey 0 " + KEY + b"\n" + (b"label " + KEY + b"\n") * count + b"setup\naccess 0 label:3 - 0 0 4 00")
                 for count in (3, 4, 5, 256, 260))


def _elements(length):
    """A readable line of that length but for the limit."""
    return b"elements 1" + b" 0" * ((length - 11) // 2) + (b" 0" if length % 2 else b" 00")


def _straddling(command):
    """Lines that begin ever later before the end of a block of 65,536 octets, and so of every smaller power of two."""
    text = b""
    for before in range(len(command) - 1):
        text += b"#" * (-(len(text) + before + 1) % BLOCK) + b"\n" + command
    return text


def _vetting(pdus, ctl=b"0"):
    """The line that vets these PDUs."""
    return b"vet " + ctl + b"".join(b" " + (pdu.hex().encode() or b"-") for pdu in pdus)


def _filled(pdu, pdus=()):
    """A line with these PDUs and behind them one, as often as the line holds it; and the same with one more."""
    begun, more = _vetting(pdus), len(_vetting([pdu])) - len(_vetting([]))
    times = (4095 - len(begun)) // more
    return [_vetting([*pdus, *[pdu] * count]) for count in (times, times + 1)]


# The longest messages that are approved, and a short one.
ACCESS, CONTROL = (transport.cut(ctl, 0x7F, 0, 0x1FFF, bytes(range(256)) + bytes(most - 256)) for ctl, most in ((0, 384), (1, 256)))
PAIR = transport.cut(0, 0x66, 1, 0x1849, bytes(16))
# Lists that fill a line: PDUs of no octets, of one, which ask for most room where a length stands before each, of two, and as long as one may be; alone, and
# behind a message that is whole or begun.
VETTINGS = (
    b"vet 0", b"vet 1", b"vet", b"vet ", _vetting(ACCESS), _vetting(CONTROL, b"1"), _vetting(ACCESS[:-1]), _vetting(CONTROL[:1], b"1"), _vetting(PAIR),
    *[line for pdu in (b"", b"\xE6", b"\xE6\xA0", ACCESS[0], bytes(255)) for pdus in ((), ACCESS, PAIR[:1]) for line in _filled(pdu, pdus)],
    b"vet 0" + b" -" * 2045, b"vet 00" + b" -" * 2045, b"vet 00" + b" 00" * 1363, b"vet 000" + b" 00" * 1363)

TEXTS = (
    b"", b"\n", b"\n\n\n", b"#", b"#\xff\x00\r\t\n", b"\x00", b" ", b"\r\n", b"show", b"show\n", b"setup", READY + b"show", READY + b"show\n\n",
    b"netkey " + KEY + b"\r\nelements 1 0\nsetup\n", b"\n#\n" * 50000 + READY, READY + b"a" * 4095 + b"\nshow", READY + b"a" * 200000 + b"\nshow",
    READY + b"#" + b"a" * 200000 + b"\nshow", READY + b"a" * 200000, READY + b"#" * 200000, READY + b" " * 4096 + b"\n" + b"\x00" * BLOCK + b"\nshow\n",
    *[READY + _elements(length) + end for length in (4094, 4095, 4096, 4097, BLOCK - 1, BLOCK) for end in (b"", b"\nsetup\n")],
    _straddling(b"netkey " + KEY + b"\nsetup\n"), _straddling(_vetting(PAIR) + b"\n"), b"readings -", b"readings 52\nproperties",
    b"properties\nproperty 0 humidity\nproperty 0 temperature", LONGEST, LONGEST + b"\n",
    *[b"readings " + first + b"00" * more + end for first in (b"52", b"04") for more in (379, 380, 2042, 2043) for end in (b"", b"\nreadings 52\n")],
    *LABELLED,
    b"vet", b"vet 0", _vetting(ACCESS), *VETTINGS[-4:], b"\n".join(VETTINGS), READY + b"room 1d 17f\n" + b"\n".join(VETTINGS) + b"\nroom 1d 180\n" + _vetting(PAIR) + b"\nshow\n",
)


def scripts():
    """Each text as its lines, and whether the last is ended by a newline."""
    for text in TEXTS:
        lines = text.split(b"\n")
        ended = lines[-1] == b""
        yield lines[:-1] if ended else lines, ended
