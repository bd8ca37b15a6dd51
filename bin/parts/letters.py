"""How wide a text is at most in a common sans-serif font, so that a picture has room for it."""
from html import escape

# Letters by how wide they are at most, in parts of the font's size; any other letter of ASCII is of MIDDLE, any beyond ASCII of WIDEST width.
TIGHT, NARROW, MIDDLE, CAPITAL, WIDEST = 0.36, 0.46, 0.64, 0.88, 1.03
CLASSES = {TIGHT: " ',./:;I\\ijl|", NARROW: "!()-[]frt", CAPITAL: "#&+<=>ABCDEFGHKMNOPQRSTUVXYZ^~", WIDEST: "%@Wmw"}
WIDTHS = {letter: width for width, letters in CLASSES.items() for letter in letters}
# A bold letter is so much wider.
BOLD = 1.15


def letter(which):
    """The width of one letter, in parts of the font's size."""
    return WIDTHS.get(which, MIDDLE) if which < "\x7f" else WIDEST


def wide(text, size=12, bold=False):
    """The width of a text in whole pixels."""
    width = size * sum(map(letter, text)) * (BOLD if bold else 1)
    return int(width) + 1


def lines(text, width, size=12, bold=False):
    """The words of a text in lines that this width holds; a word that is wider than that is cut up."""
    found = [""]
    for word in text.split():
        longer = f"{found[-1]} {word}".strip()
        if wide(longer, size, bold) <= width:
            found[-1] = longer
            continue
        found += [""] if found[-1] else []
        for each in word:
            if found[-1] and wide(found[-1] + each, size, bold) > width:
                found.append("")
            found[-1] += each
    return found


def text(words, x, y, style=""):
    """A text of the SVG."""
    name = f' class="{style}"' if style else ""
    return f'<text{name} x="{x}" y="{y}">{escape(words)}</text>'
