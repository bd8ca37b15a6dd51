"""Why the console does not read a line, and what is probably meant. A line is text in which every octet is a letter (latin-1)."""
import difflib
import re
from functools import lru_cache
from typing import NamedTuple

from forms import DIGITS, FORMS, KEY, LABEL, LONGEST, OCTETS, WORD, Field

KEY_DIGITS, NUMBER_DIGITS = 32, 8
MARK = "\xef\xbb\xbf"
# What word processors and web pages put in the place of a space and of a -, as UTF-8 has it.
TYPED = {"\xc2\xa0": " ", "\xe2\x80\x93": "-", "\xe2\x80\x94": "-", "\xe2\x88\x92": "-"}
ASKING = ("help", "?", "-h", "--help", "man")
LEAVING = ("quit", "exit", "bye", "q", "end")
# A line that is longer is not shown whole.
SHOWN = 72
# A line has at most so many causes of different kinds.
MENDED = 8


class Hint(NamedTuple):
    """The cause, what to do, and the line as it is probably meant, where that can be told."""
    cause: str
    advice: str
    meant: str = ""


HELP = Hint("there is no line for help", "bin/console help prints the lines; docs/CONSOLE.md explains them")


def hint(line, ready, refused=False):
    """The first cause for which a line is unread, None where there is none; ready: a receiver is set up; refused: a setup was tried and refused."""
    found = _found(line, ready, refused)
    return found and found._replace(meant=_mended(found.meant))


def _found(line, ready, refused):
    """The hint, with the line as it is when only this cause is mended."""
    if not line or line.startswith("#"):
        return None
    return _of_text(line) or _of_word(line) or _of_form(line, ready, refused)


def _mended(meant):
    """The line when every cause is mended; no text where one cannot be."""
    for _ in range(MENDED):
        found = _found(meant, True, False)
        if not found:
            return meant
        meant = found.meant
    return ""


def shown(text):
    """A text as it can be shown: printable, and not too long."""
    plain = "".join(letter if " " <= letter <= "~" else "?" for letter in text[:SHOWN])
    return plain + (" .." if len(text) > SHOWN else "")


def _of_text(line):
    """What is wrong with the text of a line, whatever it says."""
    if line.startswith(MARK):
        return Hint("a byte order mark at the start, as some editors put it", "Take it away: tail -c +4 FILE | bin/console", line[len(MARK):])
    if "\0" in line:
        return Hint("an octet 00: UTF-16, as PowerShell writes it, or no text", "If it is UTF-16: iconv -f utf-16 -t utf-8 FILE | bin/console")
    if "\r" in line[:-1]:
        return Hint("a carriage return inside the line", r"Lines end with a newline: tr '\r' '\n' < FILE | bin/console")
    if line.endswith("\r"):
        return Hint("a carriage return at the end, as in files from Windows", r"Take it away: sed 's/\r$//' FILE | bin/console", line[:-1])
    if len(line) > LONGEST:
        return Hint(f"more than {LONGEST:,} octets", "The console reads no longer line; the longest message needs some 800, its segments some 1,100")
    return _of_spaces(line) or _of_letters(line)


def _of_spaces(line):
    """Tabs, and spaces where none belong."""
    meant = re.sub("[ \t]+", " ", line).strip(" ")
    if not meant:
        return Hint("nothing but spaces or tabs", "Leave the line empty")
    if "\t" in line:
        return Hint("a tab", "Write one space between fields, and no tab", meant)
    if line.startswith(" "):
        return Hint("a space before the word", "Nothing stands before the word", meant)
    if line.endswith(" "):
        return Hint("a space at the end", "Nothing stands behind the last field", meant)
    if "  " in line:
        return Hint("two spaces, one behind the other", "Write one space between fields", meant)
    return None


def _of_letters(line):
    """Octets that are no plain letter, digit or sign."""
    if all(" " <= letter <= "~" for letter in line):
        return None
    meant = line
    for typed, plain in TYPED.items():
        meant = meant.replace(typed, plain)
    return Hint("a character that is no plain letter, digit or sign, as from an arrow key or a copied text", "Type the line anew", meant)


def _of_word(line):
    """A word that is none of the console's."""
    word, _, rest = line.partition(" ")
    low = word.lower()
    if word in FORMS:
        return None
    if low in FORMS:
        return Hint("a word with capital letters", "Words are in lower case", f"{low} {rest}".rstrip(" "))
    if low in ASKING:
        return HELP
    if low in LEAVING:
        return Hint("there is no line to leave", "The console ends where its input ends: type Ctrl-D")
    if _is_octets(line):
        return Hint("octets with no word before them", "A PDU is heard by: hear PDU", f"hear {_joined(line)}")
    near = _nearest(low)
    if near:
        return Hint(f"an unknown word, probably {near}", f"Its form is: {FORMS[near].form}", f"{near} {rest}".rstrip(" "))
    return Hint("an unknown word", "bin/console help prints the words")


@lru_cache(maxsize=4096)
def _nearest(word):
    """The console's word that is nearest to this one, None where none is near."""
    if len(word) <= 16:
        near = difflib.get_close_matches(word, FORMS, n=1, cutoff=0.6)
        if near:
            return near[0]
    return max((known for known in FORMS if word.startswith(known)), key=len, default=None)


def _joined(text):
    """The digits of octets that are written apart, or with a prefix."""
    return re.sub("0[xX]|[ :,.-]", "", text)


def _is_octets(line):
    """Whether a line is digits of octets alone, perhaps written apart or with a prefix; a short one has to have a decimal digit."""
    digits = _joined(line)
    return bool(digits) and DIGITS.issuperset(digits) and (len(digits) >= 8 or any(digit.isdigit() for digit in digits))


def _of_form(line, ready, refused):
    """What is wrong with a line whose word is known."""
    word, *fields = line.split(" ")
    form = FORMS[word]
    if form.ready and not ready:
        return _before(refused)
    wanted = form.wanted(len(fields))
    if len(fields) > len(wanted):
        return _label_apart(form, fields) or _apart(form, fields) or Hint(f"too many fields behind {word}", f"Its form is: {form.form}")
    if len(fields) < len(wanted):
        return Hint(f"too few fields behind {word}", f"Its form is: {form.form}")
    for place, (field, text) in enumerate(zip(wanted, fields)):
        found = _of_field(form, field, text)
        if found:
            cause, advice, meant = found
            return Hint(cause, advice, " ".join([word, *fields[:place], meant, *fields[place + 1:]]) if meant else "")
    return None


def _before(refused):
    """A line that needs a receiver where there is none."""
    if refused:
        return Hint("a line that needs a receiver, and the setup before it was refused",
                    "Mend what setup was given: keys, elements, groups, labels (docs/CONSOLE.md, Setting up)")
    return Hint("a line that needs a receiver, before the first setup", "Before it write netkey KEY, elements FIRST SEQ and setup, which answers ready")


def _label_apart(form, fields):
    """A label that is written with a space before its number."""
    place = next((at for at, field in enumerate(form.fields) if field.labels), None)
    if place is None or len(fields) != len(form.fields) + 1 or fields[place].lower() not in (LABEL, LABEL[:-1]):
        return None
    return Hint("a space within a label", f"Write {LABEL} and its number one behind the other",
                " ".join([form.word, *fields[:place], LABEL + fields[place + 1], *fields[place + 2:]]))


def _apart(form, fields):
    """Octets that are written with spaces between them."""
    if not form.fields or form.fields[-1].kind not in (OCTETS, KEY):
        return None
    kept = len(form.fields) - 1
    digits = _joined("".join(fields[kept:]))
    if not DIGITS.issuperset(digits):
        return None
    return Hint("octets with spaces between them", "Write the digits one behind the other", " ".join([form.word, *fields[:kept], digits]))


def _of_field(form, field, text):
    """What is wrong with one field; what is meant is that field alone."""
    if text in field.words:
        return None
    if field.labels and text[:len(LABEL)].lower() == LABEL:
        return _of_label(form, text)
    if field.kind == WORD:
        near = difflib.get_close_matches(text[:32].lower(), field.words, n=1)
        return Hint(f"{form.word} without {' or '.join(field.words)}", f"Its form is: {form.form}", near[0] if near else "")
    if text[:2] in ("0x", "0X"):
        return Hint("a prefix 0x", "Numbers and octets are in hex without a prefix", text[2:])
    if text.lower() in field.words:
        return Hint("a word with capital letters", "Words are in lower case", text.lower())
    return _of_octets(form, field, text) if field.kind in (OCTETS, KEY) else _of_number(form, field, text)


def _of_label(form, text):
    """What is wrong with a label as a destination."""
    word, number = text[:len(LABEL)], text[len(LABEL):]
    if word != LABEL:
        return Hint("a word with capital letters", "Words are in lower case", LABEL + number)
    found = _of_field(form, Field("the number of the label", most=0xFF), number)
    return found and found._replace(meant=LABEL + found.meant if found.meant else "")


def _of_octets(form, field, text):
    """What is wrong with a field of octets, or with a key."""
    if text == "-" and field.kind == OCTETS:
        return None
    if not DIGITS.issuperset(text):
        digits = _joined(text)
        if digits and DIGITS.issuperset(digits):
            return Hint("octets with signs between them", "Write the digits one behind the other", digits)
        return Hint(f"{field.called} of {form.word} has something else than hex digits", "The digits are 0 to 9 and a to f")
    if field.kind == KEY and len(text) != KEY_DIGITS:
        named = field.called.lower()
        return Hint(f"a {named} that has not {KEY_DIGITS} digits", f"A {named} is 16 octets; the first such line has {len(text)} digits")
    if len(text) % 2:
        return Hint("an odd number of hex digits", "Each octet has two digits: 0 is 00")
    if len(text) > 2 * field.most:
        return Hint(f"{field.called} of {form.word} has more than {field.most} octets", "Nothing that is sent is longer")
    return None


def _of_number(form, field, text):
    """What is wrong with a number."""
    if not text or not DIGITS.issuperset(text):
        return Hint(f"{field.called} of {form.word} is no hex number", _fitting(field))
    if len(text) > NUMBER_DIGITS:
        return Hint(f"{field.called} of {form.word} has over eight digits", _fitting(field))
    number = int(text, 16)
    if number > field.most or field.only and number not in field.only:
        return Hint(f"{field.called} of {form.word} is no number that fits", _fitting(field))
    return None


def _fitting(field):
    """The numbers that fit a field, and the words that stand for one."""
    numbers = " or ".join(f"{one:x}" for one in field.only) or f"0 to {field.most:x} in hex"
    return f"It is {numbers}" + "".join(f", or {word}" for word in (*field.words, *[f"{LABEL}I"] * field.labels))
