"""Logs that the console does not read in full, each with what must be said of it."""
from typing import NamedTuple

KEY = "7dd7364cd842ad18c17c2b820c84c3d6"
PDU = "68eca487516765b5e5bfdacbaf6cb7fb6bff871f035444ce83a670df"
READY = f"netkey {KEY}\nelements 1201 0\nsetup\n"
PLAIN = "a character that is no plain letter, digit or sign, as from an arrow key or a copied text"
SEVENTEEN = READY + f"hear {PDU}\n" * 14


class Log(NamedTuple):
    """A log, the first lines of the blocks that explain it, in order, and other words that must be there."""
    text: str
    blocks: tuple
    words: tuple = ()


def behind(lines, cause, *words, where="4"):
    """A log of one cause, behind a setup that is ready."""
    count = lines.count("\n") + 1
    return Log(READY + lines, (f"{count} {'line is' if count == 1 else 'lines are'} unread ({where}): {cause}.",), words)


LOGS = {
    "CRLF": Log(SEVENTEEN.replace("\n", "\r\n"), ("17 lines are unread (1 to 17): a carriage return at the end, as in files from Windows.",),
                ("sed 's/\\r$//' FILE", f"Line 1 is probably meant as: netkey {KEY}")),
    "CR alone": Log(READY.replace("\n", "\r"), ("1 line is unread (1): a carriage return inside the line.",), ("tr '\\r' '\\n'",)),
    "a byte order mark": Log("\xef\xbb\xbf" + READY, ("1 line is unread (1): a byte order mark at the start, as some editors put it.",),
                             ("tail -c +4 FILE", f"Line 1 is probably meant as: netkey {KEY}")),
    "a mark and CRLF": Log("\xef\xbb\xbf" + READY.replace("\n", "\r\n"),
                           ("2 lines are unread (2 to 3): a carriage return at the end, as in files from Windows.",
                            "1 line is unread (1): a byte order mark at the start, as some editors put it."), (f"Line 1 is probably meant as: netkey {KEY}",)),
    "UTF-16": Log("".join(letter + "\0" for letter in "setup\nshow"),
                  ("2 lines are unread (1 to 2): an octet 00: UTF-16, as PowerShell writes it, or no text.",), ("iconv -f utf-16",)),
    "a tab": behind("hear\t00", "a tab", "Line 4 is probably meant as: hear 00"),
    "a double space": behind("hear  00", "two spaces, one behind the other", "probably meant as: hear 00"),
    "a space at the end": behind("show ", "a space at the end", "probably meant as: show"),
    "a space before": behind(" show", "a space before the word", "probably meant as: show"),
    "spaces alone": behind("  ", "nothing but spaces or tabs", "Leave the line empty"),
    "a no-break space": behind("drop\xc2\xa01", PLAIN, "probably meant as: drop 1"),
    "an arrow key": behind("show\x1b[D", PLAIN, "Type the line anew"),
    "a prefix": behind("drop 0x1", "a prefix 0x", "probably meant as: drop 1"),
    "a short key": Log("netkey 7dd7364c\n", ("1 line is unread (1): a key that has not 32 digits.",), ("16 octets", "has 8 digits")),
    "odd digits": behind("hear 68b", "an odd number of hex digits", "two digits"),
    "octets apart": behind("hear 68 b2", "octets with spaces between them", "probably meant as: hear 68b2"),
    "octets with colons": behind("hear 68:b2", "octets with signs between them", "probably meant as: hear 68b2"),
    "a key apart": Log("netkey " + " ".join(KEY[at:at + 2] for at in range(0, 32, 2)) + "\n", ("1 line is unread (1): octets with spaces between them.",),
                       (f"probably meant as: netkey {KEY}",)),
    "capitals": Log(f"NETKEY {KEY}\n", ("1 line is unread (1): a word with capital letters.",), (f"probably meant as: netkey {KEY}",)),
    "help": Log("help\n?\n", ("2 lines are unread (1 to 2): there is no line for help.",), ("bin/console help",)),
    "leaving": behind("quit", "there is no line to leave", "Ctrl-D"),
    "raw hex": behind(PDU, "octets with no word before them", f"probably meant as: hear {PDU}"),
    "raw hex apart": behind("0x68 0xec", "octets with no word before them", "probably meant as: hear 68ec"),
    "before setup": Log(f"hear {PDU}\nshow\nroom 1d 180\n", ("3 lines are unread (1 to 3): a line that needs a receiver, before the first setup.",),
                        ("netkey KEY", "setup")),
    "behind a refused setup": Log("setup\nshow\n", ("1 line is unread (2): a line that needs a receiver, and the setup before it was refused.",), ("Mend",)),
    "an unknown word": behind("heer 00", "an unknown word, probably hear", "hear PDU", "probably meant as: hear 00"),
    "a word with no space behind": behind("hear68b2", "an unknown word, probably hear", "hear PDU"),
    "a word like none": behind("xyzzy", "an unknown word", "bin/console help"),
    "too many fields": behind("show 1", "too many fields behind show", "Its form is: show"),
    "too few fields": behind("ack 0", "too few fields behind ack", "Its form is: ack K S"),
    "too great": behind("segment 100", "N of segment is no number that fits", "0 to ff in hex"),
    "nine digits": behind("drop 000000001", "S of drop has over eight digits", "0 to ffff in hex"),
    "no number": behind("access 0 1 x 0 0 4 00", "TTL of access is no hex number", "0 to ff in hex, or -"),
    "a MIC of 5": behind("access 0 1 - 0 0 5 00", "MIC of access is no number that fits", "It is 4 or 8"),
    "no switch": behind("relay on", "0|1 of relay is no hex number", "It is 0 or 1"),
    "no kind": behind("property 76 humid", "property without humidity or temperature", "property P humidity|temperature"),
    "no digits": behind("hear 0g", "PDU of hear has something else than hex digits", "0 to 9 and a to f"),
    "a line too long": behind("hear " + "00" * 2046, "more than 4,095 octets"),
    "a message too long": behind("readings " + "52" * 381, "MESSAGE of readings has more than 380 octets"),
    "no CTL": Log("vet\n", ("1 line is unread (1): too few fields behind vet.",), ("Its form is: vet CTL PDU ..",)),
    "PDUs in the place of CTL": behind("vet e6a03401c3c5 e6a03421", "CTL of vet has over eight digits", "It is 0 or 1"),
    "a CTL of 2": behind("vet 2 00", "CTL of vet is no number that fits", "It is 0 or 1"),
    "a second PDU with a prefix": behind("vet 0 80 0x81 82", "a prefix 0x", "probably meant as: vet 0 80 81 82"),
    "a third PDU of half an octet": behind("vet 0 80 81 8", "an odd number of hex digits", "two digits"),
    "a PDU that is no hex": behind("vet 0 - 8g", "PDU of vet has something else than hex digits", "0 to 9 and a to f"),
    "a PDU too long": behind("vet 1 - " + "81" * 256, "PDU of vet has more than 255 octets"),
    "an element with no number": behind("elements 1 0 x", "SEQ of elements is no hex number", "0 to ffffffff in hex"),
    "lines apart": Log(READY + "show\t\nshow\n" * 11, ("11 lines are unread (4, 6, 8, 10, 12, 14, 16, 18, 20, 22 ..): a tab.",)),
    "several causes": Log("sho\nhelp\nhear 00\nsho\nhear 00\nhear 00\n", (
        "3 lines are unread (3, 5 to 6): a line that needs a receiver, before the first setup.",
        "2 lines are unread (1, 4): an unknown word, probably show.", "1 line is unread (2): there is no line for help.")),
}
# Logs of which nothing is to be said.
GOOD = ("", "\n\n# a comment\r\n#\tanother\n", READY + "show\n", READY + "setup\n", "vet 0\nvet 1 -\nvet 1 81 - 82\nvet 0 " + "80" * 255,
        f"netkey {KEY.upper()}\nelements 1201 0\nsetup\nhear -")
