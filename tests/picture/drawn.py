"""What a picture shows: its rows by the log's line, their boxes and texts, and where each of these stands."""
from itertools import combinations

import letters

SVG = "{http://www.w3.org/2000/svg}"
# The sizes of the texts that are not of 12 pixels.
SIZES = {"title": 17, "place": 9}


class Wrong(Exception):
    """What the picture does not show as it should."""


def must(holds, words):
    """Ends a check where something does not hold."""
    if not holds:
        raise Wrong(words)


def kinds(element):
    """The words of an element's class."""
    return element.get("class", "").split()


def kind(row):
    """Which kind of row it is."""
    return kinds(row)[1]


def texts(element, which=""):
    """The texts of an element, those of a class where it is named."""
    return [text for text in element.findall(f"{SVG}text") if not which or which in kinds(text)]


def words(row):
    """The words of a row."""
    return " ".join(text.text for text in texts(row, "words"))


def rows(picture):
    """The rows by the log's line."""
    found = {int(texts(row, "number")[0].text): row for row in picture.findall(f"{SVG}g")}
    must(len(found) == len(picture.findall(f"{SVG}g")), "two rows of one line")
    return found


def boxes(row):
    """The boxes of a row, all of them and those of the message that it is about."""
    found = [rect for rect in row.findall(f"{SVG}rect") if "box" in kinds(rect)]
    return found, [rect for rect in found if "aside" not in kinds(rect)]


def bits(row, *which):
    """A bit for each place of the row's own message whose box is of one of these kinds."""
    own = boxes(row)[1]
    return sum(1 << at for at, rect in enumerate(own) if kinds(rect)[1] in which)


def place(rect):
    """Left, top, right and bottom."""
    left, top, wide, tall = (float(rect.get(name)) for name in ("x", "y", "width", "height"))
    return left, top, left + wide, top + tall


def spread(text, row=None):
    """Left, top, right and bottom of a text."""
    named = kinds(text) + (kinds(row) if row is not None and "words" in kinds(text) else [])
    size = next((SIZES[name] for name in named if name in SIZES), 12)
    face = letters.PLAIN
    if "of" in named or "raw" in named:
        face = letters.MONOSPACE
    elif set(named) & {"head", "value", "prohibited", "heading"}:
        face = letters.BOLD
    wide, x, y = letters.width(text.text or "", size, face), float(text.get("x")), float(text.get("y"))
    left = x - wide if "number" in named else x - wide / 2 if "place" in named else x
    return left, y - size * 0.8, left + wide, y + size * 0.25


def inside(one, other):
    """Whether one lies in the other."""
    return other[0] <= one[0] <= one[2] <= other[2] and other[1] <= one[1] <= one[3] <= other[3]


def apart(one, other):
    """Whether two do not overlap."""
    return one[2] <= other[0] or other[2] <= one[0] or one[3] <= other[1] or other[3] <= one[1]


def check_room(picture):
    """Every text ends within the picture, none over the rows lies on another, and a row's words end before its boxes; gives the number of texts."""
    frame, over = (0, 0, float(picture.get("width")), float(picture.get("height"))), texts(picture)
    found = [(text, spread(text)) for text in over] + [(text, spread(text, row)) for row in picture.findall(f"{SVG}g") for text in texts(row)]
    for text, at in found:
        must(inside(at, frame), f"{text.text}: cut off, it ends at {at[2]:g} of {frame[2]:g}")
    for (one, at), (other, there) in combinations(found[:len(over)], 2):
        must(apart(at, there), f"{one.text} lies on {other.text}")
    marks = [place(rect) for rect in picture.findall(f"{SVG}rect")[1:]]
    must(all(apart(mark, at) for mark in marks for _, at in found[:len(over)]), "a mark of the legend lies on words")
    for row in picture.findall(f"{SVG}g"):
        ends = [spread(text, row)[2] for text in texts(row, "words")]
        starts = [place(rect)[0] for rect in row.findall(f"{SVG}rect")[1:]]
        must(not starts or max(ends) < min(starts), f"{words(row)}: runs into the boxes")
    return len(found)


def check_bands(picture):
    """The rows stand one under the other, in the picture."""
    bands = [place(row.find(f"{SVG}rect")) for row in picture.findall(f"{SVG}g")]
    must(all(above[3] == below[1] for above, below in zip(bands, bands[1:])), "a row that does not begin where the last ends")
    frame = (0, 0, float(picture.get("width")), float(picture.get("height")))
    must(all(inside(band, frame) for band in bands), "a row outside the picture")
