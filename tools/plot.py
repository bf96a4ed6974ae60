"""The two ends of the bound over the steps of a search, as an SVG.

The picture is for a projector: 16:9, large type, and colours that the
colour-blind tell apart.  Below the low end each line has a strip as high as
its weight, which begins where the line was listed and ends at its label.
"""

import math
from itertools import accumulate
from typing import NamedTuple
from xml.sax.saxutils import escape

from words import ends_text, of_drawn_ending

WIDTH, HEIGHT = 1600, 900
LEFT, RIGHT, TOP, BOTTOM = 160, 1120, 140, 730
TAIL = 44               # both ends go on so far after the last step
LABELS = RIGHT + 75     # where the labels at the right begin
LOWEST = BOTTOM + 70    # and how far down they may stand
MARGIN = 60
TYPE, TYPE_ENDS, TYPE_TITLE = 29, 33, 46
DIGIT, LETTER = 0.72, 0.55      # how wide they are, at most, by their size
LOWER_TOPS = [lead / 10 ** zeros for zeros in range(5)
              for lead in (50, 20, 10)]     # percent at the upper edge
MOST_TICKS = 8
LONGEST_NAME = 32
MOST_ROWS = 12          # labels of lines; with more, the last tells the rest
MOST_RIMS = 40          # with more lines than these, their dots are small

LOW, HIGH, BAND = "#005b96", "#b84a00", "#fbe6d4"
STRIPS = ("#b5d4ea", "#d9e9f5")
INK, LEADER, FAINT = "#111111", "#666666", "#c8c8c8"
FONT = "Helvetica, Arial, 'DejaVu Sans', sans-serif"


class Scale(NamedTuple):
    """Where steps and weights are in the picture."""
    steps: int
    total: int
    top: float              # percent of the total at the upper edge

    def x(self, steps):
        return LEFT + (RIGHT - TAIL - LEFT) * steps / max(self.steps, 1)

    def y(self, weight):
        share = 100 * weight / self.total
        return BOTTOM - (BOTTOM - TOP) * share / self.top


def scale_of(last):
    """All of the total, or less where the ends are far below it."""
    top = 100.0
    for lower in LOWER_TOPS:
        if last.high == 0 or lower * last.total < 220 * last.high:
            break
        top = lower
    return Scale(last.steps, last.total, top)


def tick_text(share):
    return "%g %%" % share


def ticks_of(most, whole):
    """Round numbers from 0 to `most`, whole ones if asked."""
    size = 10.0 ** math.floor(math.log10(most / MOST_TICKS))
    if whole:
        size = max(size, 1.0)
    gap = next(size * lead for lead in (1, 2, 5, 10)
               if size * lead * MOST_TICKS >= most)
    return [gap * i for i in range(int(most / gap * 1.001) + 1)]


def stairs(points):
    """The corners of a path that keeps each value up to the next point."""
    corners = points[:1]
    for x, y in points[1:]:
        if y != corners[-1][1]:
            corners += [(x, corners[-1][1]), (x, y)]
    return corners + [(points[-1][0], corners[-1][1])]


def spread(rows):
    """A height for each row, from above: in all as near as can be to what the
    rows are about, the bold ones nearest, and none into the next."""
    gaps = [0] + [(row.size + above.size) * 0.58
                  for above, row in zip(rows, rows[1:])]
    offsets = list(accumulate(gaps))
    blocks = []         # [weighted sum of heights, weight, rows], offsets off
    for row, offset in zip(rows, offsets):
        weight = 20 if row.bold else 1
        blocks.append([weight * (row.about - offset), weight, 1])
        while (len(blocks) > 1 and blocks[-2][0] * blocks[-1][1]
               > blocks[-1][0] * blocks[-2][1]):
            last = blocks.pop()
            blocks[-1] = [a + b for a, b in zip(blocks[-1], last)]
    even = [total / weight for total, weight, count in blocks
            for _ in range(count)]
    return [min(height, LOWEST - offsets[-1]) + offset
            for height, offset in zip(even, offsets)]


class Row(NamedTuple):
    """A label at the right: the height it is about, its text and its look."""
    about: float
    text: str
    colour: str
    size: int
    bold: bool


def line_text(rank, atoms):
    """A line's rank and atoms, cut where the room ends."""
    text = "%d:" % rank if atoms else "%d: nothing" % rank
    room = (WIDTH - LABELS) / (LETTER * TYPE)
    for atom in atoms:
        if len(text) + len(str(atom)) + 3 > room:
            return text + " …"
        text += " %d" % atom
    return text


def shown_of(history):
    """How many lines have a label of their own."""
    lines = len(history.last.lines)
    return lines if lines <= MOST_ROWS else MOST_ROWS - 1


def strips_of(history, scale):
    """For each label of a line, from the first on: where its strip begins,
    its upper and lower height, and the text.  With many lines the last one
    stands for the rest."""
    lines, shown = history.last.lines, shown_of(history)
    strips, below = [], 0
    for rank, line in enumerate(lines[:shown], 1):
        strips.append((scale.x(history.listed_at[rank - 1]),
                       scale.y(below + line.weight), scale.y(below),
                       line_text(rank, line.atoms)))
        below += line.weight
    if shown < len(lines):
        strips.append((scale.x(history.listed_at[shown]),
                       scale.y(history.last.low), scale.y(below),
                       "%d more lines" % (len(lines) - shown)))
    return strips


def rows_of(history, scale, strips):
    """The labels at the right, from above: the ends, then the lines."""
    last = history.last
    ends = [(last.high, HIGH), (last.low, LOW)]
    if last.low == last.high:
        ends = [(last.low, INK)]
    rows = [Row(scale.y(end), text, colour, TYPE_ENDS, True)
            for (end, colour), text in zip(ends, ends_text(last))]
    return rows + [Row((upper + lower) / 2, text, INK, TYPE, False)
                   for _, upper, lower, text in reversed(strips)]


def text_at(x, y, text, size=TYPE, anchor="start", colour=INK, bold=False):
    return ('<text x="%.1f" y="%.1f" font-size="%d" text-anchor="%s" '
            'fill="%s" font-weight="%s">%s</text>'
            % (x, y, size, anchor, colour, "bold" if bold else "normal",
               escape(text)))


def shape(name, points, look):
    """A polyline or polygon."""
    return '<%s points="%s" %s/>' % (
        name, " ".join("%.1f,%.1f" % point for point in points), look)


def stroke(colour, width):
    return ('fill="none" stroke="%s" stroke-width="%d" '
            'stroke-linejoin="round"' % (colour, width))


def drawn_axes(scale):
    """Ticks, their labels, and faint lines across at each share."""
    for share in ticks_of(scale.top, False):
        y = BOTTOM - (BOTTOM - TOP) * share / scale.top
        yield shape("polyline", [(LEFT, y), (RIGHT, y)], stroke(FAINT, 2))
        yield text_at(LEFT - 16, y + 10, tick_text(share), anchor="end")
    for steps in ticks_of(scale.steps, True) if scale.steps else [0]:
        x = scale.x(steps)
        yield shape("polyline", [(x, BOTTOM), (x, BOTTOM + 12)],
                    stroke(INK, 3))
        yield text_at(x, BOTTOM + 44, "%d" % steps, anchor="middle")
    yield text_at((LEFT + RIGHT) / 2, BOTTOM + 82, "steps of the search",
                  anchor="middle")
    yield shape("polyline", [(LEFT, TOP), (LEFT, BOTTOM), (RIGHT, BOTTOM)],
                stroke(INK, 4))


def path_of(history, scale, end):
    """The corners of one end, low or high, over the steps."""
    points = [(scale.x(steps), scale.y(getattr(history.at[steps], end)))
              for steps in sorted(history.at)]
    return stairs(points + [(RIGHT, points[-1][1])])


def drawn_ends(history, scale, strips):
    """The band, the strips of the lines and both ends over them, as far as
    they are within the picture's frame."""
    low, high = (path_of(history, scale, end) for end in ("low", "high"))
    yield ('<clipPath id="frame"><rect x="%d" y="%d" width="%d" '
           'height="%d"/></clipPath>' % (LEFT, TOP - 4, RIGHT - LEFT,
                                         BOTTOM - TOP + 8))
    yield '<g clip-path="url(#frame)">'
    yield shape("polygon", high + low[::-1],
                'class="band" fill="%s"' % BAND)
    yield shape("polygon", low + [(RIGHT, BOTTOM)],
                'fill="%s"' % STRIPS[1])
    for number, (x, upper, lower, _) in enumerate(strips[:shown_of(history)]):
        yield ('<rect x="%.1f" y="%.1f" width="%.1f" height="%.1f" '
               'fill="%s"/>' % (x, upper, RIGHT - x, lower - upper,
                                STRIPS[number % 2]))
    yield shape("polyline", high, 'class="high" ' + stroke(HIGH, 8))
    yield shape("polyline", low, 'class="low" ' + stroke(LOW, 8))
    yield "</g>"
    within = next((x for x, y in high if y > TOP), RIGHT)
    yield from drawn_name(within, TOP + 46, HIGH, (
        "high: at most this likely" if scale.top == 100
        else "high: still above %s" % tick_text(scale.top)))
    yield from drawn_name(low[1][0], BOTTOM - 24, LOW,
                          "low: at least this likely")


def drawn_name(until, y, colour, name):
    """What an end is, at its first stretch, as long as that allows."""
    for text in (name, name.partition(":")[0]):
        if LEFT + 34 + len(text) * LETTER * TYPE < until:
            yield text_at(LEFT + 24, y, text, colour=colour, bold=True)
            return


def drawn_markers(history, scale):
    """A dot where each line was listed, with its rank where there is room:
    below it on the right no end passes."""
    low, ranks, shown = 0, [], shown_of(history)
    radius, rim = (10, 3) if len(history.last.lines) <= MOST_RIMS else (6, 0)
    for rank, (line, steps) in enumerate(zip(history.last.lines,
                                             history.listed_at), 1):
        low += line.weight
        x, y = scale.x(steps), scale.y(low)
        yield ('<circle class="line" cx="%.1f" cy="%.1f" r="%d" fill="%s" '
               'stroke="white" stroke-width="%d"/>' % (
                   x, y, radius, LOW, rim))
        until = x + 20 + len(str(rank)) * DIGIT * TYPE
        if (rank <= shown and until < RIGHT and y + TYPE + 6 < BOTTOM
                and all(x + 12 > other_until or other_y - y > TYPE
                        for other_until, other_y in ranks)):
            ranks.append((until, y))
            yield text_at(x + 12, y + TYPE + 4, str(rank), colour=LOW,
                          bold=True)


def drawn_rows(rows):
    """The labels at the right and what leads to them."""
    for row, y in zip(rows, spread(rows)):
        look = stroke(row.colour, 4) if row.bold else stroke(LEADER, 2)
        yield shape("polyline", [
            (RIGHT + 4, row.about), (RIGHT + 16, row.about),
            (LABELS - 16, y), (LABELS - 8, y)], look)
        yield text_at(LABELS, y + row.size * 0.35, row.text, row.size,
                      colour=row.colour, bold=row.bold)


def title_of(board, asked):
    board = "".join(c if c.isprintable() else "?" for c in board)
    return "Board %s, question %s" % (
        board if len(board) <= LONGEST_NAME
        else board[:LONGEST_NAME - 1] + "…", " ".join(map(str, asked)))


def drawn_ending(lines):
    first = HEIGHT - 34 - 18 * (len(lines) - 1)
    for number, text in enumerate(lines):
        yield text_at(MARGIN, first + 36 * number, text)


def drawing(board, asked, history):
    """The picture of a question that was put to a board of this name."""
    last, scale = history.last, scale_of(history.last)
    strips = strips_of(history, scale)
    title = title_of(board, asked)
    ending = of_drawn_ending(last)
    told = "Lines: %d; %s. %s" % (
        len(last.lines), ", ".join(ends_text(last)), " ".join(ending))
    return "\n".join([
        '<svg xmlns="http://www.w3.org/2000/svg" width="%d" height="%d" '
        'viewBox="0 0 %d %d" role="img" font-family="%s">' % (
            WIDTH, HEIGHT, WIDTH, HEIGHT, FONT),
        "<title>%s</title>" % escape(title),
        "<desc>%s</desc>" % escape(told),
        '<rect width="%d" height="%d" fill="white"/>' % (WIDTH, HEIGHT),
        text_at(MARGIN, 66, title, TYPE_TITLE, bold=True),
        text_at(MARGIN, 112, "likelihood of the reading"),
        *drawn_axes(scale),
        *drawn_ends(history, scale, strips),
        *drawn_markers(history, scale),
        *drawn_rows(rows_of(history, scale, strips)),
        *drawn_ending(ending),
        "</svg>",
    ]) + "\n"
