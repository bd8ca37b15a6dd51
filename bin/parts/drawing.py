"""The picture of a log's rows, as the lines of an SVG: title, legend, a column for each source with a box for each segment of its message."""
from dataclasses import dataclass
from math import ceil

from letters import lines, text, wide
from rows import OWN, names, title, told

ROW, BOX, COLUMN, GAP, LEAST, TITLE, HEAD_LINE = 20, 14, 34, 16, 900, 17, 15
# A cell of a readings row: how wide it is at least with the gap behind it, where in it the value begins, and a letter's width there.
CELL, VALUE, WIDE_LETTER = 136, 44, 7.5
LEGEND = (("new", "comes with this PDU"), ("filled", "came before"), ("missing", "a hole: missing"), ("again", "repeated: nothing new"),
          ("named", "named by an acknowledgement"), ("whole", "handed up"), ("no", "refused"), ("open", "not completed: how many more is not known"))
HEAD, OVER = "what happened (line of the log)", "message from"
READINGS = (("value", "a number, with its unit"), ("unknown", "not known: the sender says so"), ("prohibited", "prohibited: no such value is allowed"),
            ("raw", "raw octets: nobody named the property"))
STYLE = """text { font: 12px sans-serif; fill: #222 } .head { font-weight: bold } text.title { font-size: 17px } .number { fill: #777; text-anchor: end }
.place { font-size: 9px; text-anchor: middle } text.hole { fill: #999 } .paper { fill: #fff } .band { fill: none }
.refused rect.band, .no { fill: #fbd5d5 } .refused text.words { fill: #a00000 } .break rect.band { fill: #e8e8e8 }
.heading text.words { font-weight: bold } .heading rect.band { fill: #dfe6f0 }
rect.box { stroke: #555; stroke-width: .7 } .new { fill: #4fbf70 } .filled { fill: #8fb0d6 } rect.missing { fill: #fff; stroke-dasharray: 2 1.5 }
.again { fill: #e8b23a } .named { fill: #c3a3e0 } .whole { fill: #b9e5c4 }
.aside { opacity: .45 } line { stroke: #555; stroke-dasharray: 2 2 }"""
CELL_STYLE = """
rect.cell { stroke-width: 1.5 } rect.value { fill: #c4ecce; stroke: #1d7a3a; stroke-width: 2 } rect.unknown { fill: #fff; stroke: #222; stroke-dasharray: 5 3 }
rect.prohibited { fill: #b3261e; stroke: #5c0f0a } rect.raw { fill: #bdbdbd; stroke: #777; stroke-width: .7 }
text.value, text.prohibited { font-weight: bold } text.unknown { font-style: italic } text.prohibited { fill: #fff } text.raw { font-family: monospace }
.cross { stroke: #fff; stroke-width: 2 } text.of { font: 12px monospace }
.readings rect.band { fill: #f1f3fa; stroke: #fff; stroke-width: 2 } .readings.refused rect.band { fill: #fbd5d5 }"""

VETTED_STYLE = """
.vetted rect.band { fill: #e4f1ee; stroke: #fff; stroke-width: 2 } .vetted.refused rect.band { fill: #fbd5d5 }"""


@dataclass
class Layout:
    """Where things stand: the words, the cells, each source's column with the lines of its head, and how wide the picture is."""
    words: int
    cells: int
    starts: dict
    heads: dict
    width: int


def widest(found, bold=False):
    """The width of the widest of some words."""
    return max((wide(each, bold=bold) for each in found), default=0)


def head(src, called, width):
    """What stands over a source's column: its name, in lines as wide as the column or its widest word, and its address; the station's own is named so."""
    name = "this station" if src == OWN else called.get(src, "")
    folds = lines(name, max(width, widest(name.split(), bold=True)), bold=True) if name else []
    return folds if src == OWN else [*folds, src]


def layout(rows, called):
    """A layout in which every text has room; the width holds at least one cell."""
    words, widths = 20 + wide("0" * max(4, len(str(rows[-1].line if rows else 0)))), {}
    for row in rows:
        for src, (message, _) in row.boxes.items():
            widths[src] = max(widths.get(src, COLUMN), message.places * (BOX + 1) + (0 if message.count else 16))
    heads = {src: head(src, called, width) for src, width in widths.items()}
    starts, x = {}, words + GAP + max(widest(row.words for row in rows if row.boxes), wide(HEAD, bold=True))
    for src, width in widths.items():
        starts[src] = x
        x += max(width, widest(heads[src], bold=True)) + GAP
    x = max(x, min(starts.values(), default=0) + wide(OVER) + GAP)
    cells = words + GAP + widest(row.words for row in rows if row.cells)
    all_words = words + GAP + widest((row.words for row in rows if row.kind != "heading"))
    return Layout(words, cells, starts, heads, max(LEAST, x, all_words, cells + 2 * CELL))


def box(x, y, kind, aside=False):
    """The box of one place."""
    return f'<rect class="box {kind}{" aside" if aside else ""}" x="{x}" y="{y}" width="{BOX}" height="{BOX}"/>'


def open_end(x, y):
    """The broken line behind the boxes of a message that is not completed."""
    return f'<line x1="{x}" y1="{y + BOX // 2}" x2="{x + BOX}" y2="{y + BOX // 2}"/>'


def kind_of(row, message, bits, bit):
    """What a message's place is in one row."""
    own = message is row.message
    if not bits & bit:
        return "missing"
    if own and row.kind in ("acknowledged", "acknowledging"):
        return "named"
    if own and (row.new | row.again) & bit:
        return "new" if row.new & bit else "again"
    return "whole" if own and (row.kind == "handed" or row.kind == "repeat" and message.count == bits.bit_length()) else "filled"


def boxes(row, message, bits, x, y):
    """A message's boxes in one row: faint and without numbers where the row is about another."""
    own = message is row.message
    for place in range(message.places):
        kind, left = kind_of(row, message, bits, 1 << place), x + place * (BOX + 1)
        yield box(left, y, kind, not own)
        if own:
            yield text(str(place), left + BOX // 2, y + BOX - 4, "place hole" if kind == "missing" else "place")
    if not message.count:
        yield open_end(x + message.places * (BOX + 1) + 2, y)


def cell(x, y, wide_, tall, kind):
    """A cell of a readings row without its words; prohibited is crossed at its right end."""
    yield f'<rect class="cell {kind}" x="{x}" y="{y}" width="{wide_}" height="{tall}"/>'
    if kind == "prohibited":
        yield f'<path class="cross" d="M{x + wide_ - 11} {y + tall / 2 - 3:g}l6 6m0 -6l-6 6"/>'


def folded(words, width):
    """The words in lines that a cell of this width holds, with no octet torn apart: only long raw octets take more than one."""
    most = int((width - VALUE - GAP) / WIDE_LETTER) // 2 * 2
    return [words[at:at + most] for at in range(0, len(words), most)]


def placed(row, width):
    """Each cell of a row with its lines of words, its width, and where it stands: on the next line where this one is full."""
    width -= width % CELL
    x = y = tall = 0
    for each in row.cells:
        found = folded(each.words, width)
        across = CELL * ceil((VALUE + GAP + WIDE_LETTER * len(found[0])) / CELL)
        if x + across > width:
            x, y = 0, y + tall
        tall = ROW * len(found)
        yield each, found, across, x, y
        x += across


def cells(row, plan, top):
    """The height that a row's cells take, one line at least, and the cells."""
    height, found = ROW, []
    for each, folds, across, x, y in placed(row, plan.width - plan.cells):
        x, y, tall = plan.cells + x, top + y, ROW * len(folds)
        found += cell(x, y + 2, across - 6, tall - 4, each.kind)
        found.append(text(each.property, x + 5, y + 14, f"of {each.kind}"))
        found += [text(words, x + VALUE, y + at * ROW + 14, each.kind) for at, words in enumerate(folds)]
        height = y + tall - top
    return height, found


def mark(kind, x, y):
    """What a legend's words stand behind: a box, the broken line, or a cell; and how wide it is."""
    if kind in dict(READINGS):
        return 2 * BOX, "".join(cell(x, y, 2 * BOX, BOX, kind))
    return BOX, open_end(x, y) if kind == "open" else box(x, y, kind)


def legend(entries, plan, y):
    """What each mark means, on as many lines as the picture's width asks for; and where the next line begins."""
    x, found = plan.words, []
    for kind, words in entries:
        across = mark(kind, 0, 0)[0] + 5 + wide(words)
        if x > plan.words and x + across > plan.width - GAP:
            x, y = plan.words, y + ROW + 2
        start, drawn = mark(kind, x, y)
        found += [drawn, text(words, x + start + 5, y + 11)]
        x += across + GAP
    return y + ROW + 2, found


def row_lines(row, plan, y):
    """The height of a row, and its lines of the SVG; a heading takes as many lines as its words ask for."""
    folds = lines(row.words, plan.width - plan.words - GAP, bold=True) if row.kind == "heading" else [row.words]
    height, found = cells(row, plan, y)
    height = max(height, ROW * len(folds))
    for src, (message, bits) in row.boxes.items():
        found += boxes(row, message, bits, plan.starts[src], y + 3)
    return height, [f'<g class="row {row.kind}"><rect class="band" x="0" y="{y}" width="{plan.width}" height="{height}"/>',
                    text(str(row.line), plan.words - 8, y + 14, "number"),
                    *(text(words, plan.words, y + 14 + at * ROW, "words") for at, words in enumerate(folds)), *found, "</g>"]


def top_lines(plan, head_words, messages_read):
    """Where the rows begin, and what stands over them: title, legend, and the heads of the columns."""
    y, found = 8, []
    for words in lines(head_words, plan.width - plan.words - GAP, TITLE, bold=True) if head_words else ():
        found.append(text(words, plan.words, y + 16, "head title"))
        y += ROW + 6
    for entries in (LEGEND, READINGS if messages_read else ()):
        y, drawn = legend(entries, plan, y)
        found += drawn
    deep = max(map(len, plan.heads.values()), default=0)
    y += HEAD_LINE * (deep + 1) + 14
    found.append(text(HEAD, plan.words, y - 10, "head"))
    for src, x in plan.starts.items():
        found += [text(word, x, y - 10 - HEAD_LINE * at, "head") for at, word in enumerate(reversed(plan.heads[src]))]
    if plan.starts:
        found.append(text(OVER, min(plan.starts.values()), y - 14 - HEAD_LINE * deep))
    return y, found


def drawn(rows, head_words, called):
    """The lines of the SVG."""
    plan, messages_read = layout(rows, called), any(row.kind.startswith("readings") for row in rows)
    y, found = top_lines(plan, head_words, messages_read)
    for row in rows:
        height, body = row_lines(row, plan, y)
        found += body
        y += height
    vetted = any(row.kind.startswith("vetted") for row in rows)
    height, style = y + ROW, STYLE + (CELL_STYLE if messages_read else "") + (VETTED_STYLE if vetted else "")
    yield f'<svg xmlns="http://www.w3.org/2000/svg" width="{plan.width}" height="{height}" viewBox="0 0 {plan.width} {height}"><style>{style}</style>'
    yield f'<rect class="paper" width="{plan.width}" height="{height}"/>'
    yield from found
    yield "</svg>"


def picture(log, answers, numbers=None):
    """The octets of the SVG of a log and its answers: ASCII, with any other letter by its number."""
    called = names(log)
    found = drawn(told(log, answers, called, numbers), title(log), called)
    return "".join(f"{line}\n" for line in found).encode("ascii", "xmlcharrefreplace")
