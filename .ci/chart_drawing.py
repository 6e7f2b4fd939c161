"""A sequence chart drawn as SVG, or as a page of HTML: functions that give the lines of either."""

import bisect

import chart_style as style
from chart_layout import BARS, BOX, MARGIN, MARK, PORT, TOP
from chart_layout import Anchor, given_text, less, x_of
from chart_rows import Fate, Kind

# what means something in XML, by its name
NAMED_CHARACTERS = str.maketrans(
    {"&": "&amp;", "<": "&lt;", ">": "&gt;", '"': "&quot;", "'": "&#39;"}
)
# the name of a module below the top of its box, and half of the box's width
NAME_UNDER_TOP, HALF_BOX = 16, 60
# lifelines begin so far above the first row
OVER_ROWS = 12
# the fewest characters of an address that is shown as a text
SHORTEST_TEXT = 3
# half of a cross, and of a loop how far the points reach that bend it
HALF_CROSS, BEND = 5, 70
# how far a bow is from where the line would cross a lifeline, and a dot so far above it or less has
# it below
REACH, NEAR = 8, 14
# a number stands so far below the middle of its dot; where numbers and times end
UNDER_MIDDLE, NUMBER_END, TIME_END = 4, 40, 100
# how far a fold stands below its cycle, how high it is, and where its text stands in it
UNDER_CYCLE, FOLD, FOLD_LEFT, FOLD_DOWN = 8, 18, 60, 13
# how far the bars of a reset go beyond the left of where they stand out, and above its base line
BARS_LEFT, BARS_OVER = 13, (6, 2)
# how far what is said below a chart stands below its end, beside the height of a line
UNDER_CHART = 6


def escaped(text):
    """A text as it stands in XML."""
    return text.translate(NAMED_CHARACTERS)


def closing(anchor):
    """How a text is placed, as an attribute."""
    return "" if anchor == Anchor.START else f' text-anchor="{anchor.value}"'


def address_text(address):
    """An address: as a text where it is one of printable characters."""
    if SHORTEST_TEXT <= len(address) and all(0x21 <= byte <= 0x7E for byte in address):
        return f"&quot;{escaped(address.decode())}&quot;"
    return address.hex().upper()


def names(chart, y):
    """The names of the modules, all at one height."""
    for module, column in chart.shown():
        yield f'<text x="{x_of(column)}" y="{y}">{module.name}</text>\n'


def ports(chart):
    """The ports of the modules, with their links and addresses."""
    for module, column in chart.shown():
        for place, port in enumerate(module.ports, 1):
            spot = f'x="{x_of(column)}" y="{TOP + BOX + PORT * place}"'
            yield f"<text {spot}>{port.number}: {port.link} {address_text(port.address)}</text>\n"


def group(words, lines):
    """Lines with the same attributes."""
    return [f"<g {words}>\n", *lines, "</g>\n"]


def lives(chart, layout):
    """The modules, with their lifelines from the boxes to the end."""
    places = [x_of(column) for _, column in chart.shown()]
    shape = f'y="{TOP}" width="{2 * HALF_BOX}" height="{BOX}" rx="4"'
    boxes = [f'<rect x="{less(x, HALF_BOX)}" {shape}/>\n' for x in places]
    way = f"{less(layout.body, OVER_ROWS)}V{layout.heights.end}"
    middle = f'{style.PALE} text-anchor="middle"'
    yield from group(style.BOXES, boxes)
    yield from group(style.NAME, names(chart, TOP + NAME_UNDER_TOP))
    yield from group(middle, ports(chart))
    yield from group(style.LIFE, (f'<path d="M{x} {way}"/>\n' for x in places))
    if layout.heights.names:
        yield from group(middle, (it for y in layout.heights.names for it in names(chart, y)))


def span(x, y, values, unit):
    """The least of some numbers, and below it the greatest, where this is another."""
    if values:
        yield f'<text x="{x}" y="{y}">{min(values)}{unit}</text>\n'
    if values and min(values) < max(values):
        yield f'<text x="{x}" y="{y + MARK}">to {max(values)}{unit}</text>\n'


def numbers(joined, y):
    """The number and the time of a row, or of rows at one height."""
    yield from span(NUMBER_END, y, [row.entry for row in joined], "")
    yield from span(TIME_END, y, [row.time for row in joined if row.time is not None], " ms")


def fold_text(row, y, width):
    """That the cycle above stands there so many times more."""
    top = y + MARK * max(len(row.marks), row.is_joined) + UNDER_CYCLE
    what = "entries above come" if row.fold.has_ticks else "data above moves"
    size = f'width="{less(width, 2 * MARGIN)}" height="{FOLD}" rx="4"'
    box = f'<rect {style.FOLD} x="{MARGIN}" y="{top}" {size}/>'
    place = f'font-style="italic" x="{FOLD_LEFT}" y="{top + FOLD_DOWN}"'
    return f"{box}<text {style.PALE} {place}>the {what} {row.fold.times} times more</text>\n"


def rows(chart, layout, width):
    """The numbers, the folds and the dots of the rows."""
    shown = [
        (place, row, y)
        for place, (row, y) in enumerate(zip(chart.rows, layout.heights.rows))
        if not row.is_folded
    ]
    yield f'<g {style.PALE} text-anchor="end">\n'
    for place, row, y in shown:
        if not row.is_joined:
            yield from numbers(chart.rows[place : place + 1 + row.joined], y + UNDER_MIDDLE)
    yield "</g>\n"
    for _, row, y in shown:
        if row.fold:
            yield fold_text(row, y, width)
    for _, row, y in shown:
        if row.column is not None:
            yield f'<circle cx="{x_of(row.column)}" cy="{y}" r="2.5"/>\n'


class Dots:
    """Where the dots of each lifeline stand, from above."""

    def __init__(self, chart, layout):
        self.columns = [[] for _ in chart.columns]
        for row, y in zip(chart.rows, layout.heights.rows):
            if not row.is_folded and row.column is not None:
                self.columns[row.column].append(y)

    def is_near(self, column, y):
        """Whether the last dot above a height is near it."""
        dots = self.columns[column]
        count = bisect.bisect_left(dots, y)
        return count > 0 and y <= dots[count - 1] + NEAR

    def passed(self, line):
        """The columns whose lifelines a line passes between its ends, in its order."""
        left, right = min(line.x1, line.x2), max(line.x1, line.x2)
        found = [it for it in range(len(self.columns)) if left < x_of(it) < right]
        return found if line.goes_right() else found[::-1]


def bow(line, column, dots):
    """The bow in which a line goes round a lifeline, on the side on which no dot stands."""
    across, down = abs(line.x2 - line.x1), line.y2 - line.y1
    # about the length of the line, some hundredths more or less
    length = max(across, down) + min(across, down) // 8 * 3
    side, fall = across * REACH // length, down * REACH // length
    x = x_of(column)
    y = line.y1 + down * abs(x - line.x1) // across
    if not line.goes_right():
        side = -side
    sweep = int(line.goes_right() != dots.is_near(column, y))
    return f"L{x - side} {y - fall}A1 1 0 0 {sweep} {x + side} {y + fall}"


def way(line, bows=""):
    """The way of a line: straight, with these bows, or a loop where a module sends to itself."""
    begin, end = f"M{line.x1} {line.y1}", f"{line.x2} {line.y2}"
    if line.is_loop():
        far = line.x1 + BEND
        return f"{begin}C{far} {line.y1} {far} {line.y2} {end}"
    return f"{begin}{bows}L{end}"


def cross(x, y):
    """A cross where a frame was lost."""
    left, right = less(x, HALF_CROSS), x + HALF_CROSS
    top, bottom = less(y, HALF_CROSS), y + HALF_CROSS
    lines = f"M{left} {top}L{right} {bottom}M{left} {bottom}L{right} {top}"
    return f'<path {style.CROSS} d="{lines}"/>'


def line_words(label):
    """How a frame's line looks, and the name of its head."""
    if label.tells_of_failure():
        return style.FAILURE, "failure"
    words = {Kind.REQUEST: style.REQUEST, Kind.REPLY: style.REPLY, Kind.DATA: style.DATA}
    return words[label.kind], label.kind.value


def drawn_line(drawn, dots):
    """The line of a frame, with its head or a cross, and the straight one that one points at."""
    line = drawn.line
    words, head = line_words(drawn.arrow.label)
    bows = "".join(bow(line, column, dots) for column in dots.passed(line))
    is_gone = drawn.arrow.fate in (Fate.LOST, Fate.NOBODY)
    behind = "" if is_gone else f' marker-end="url(#{head})"'
    return (
        f'<g {words}><path {style.HIT} d="{way(line)}"/>'
        f'<path class="line"{behind} d="{way(line, bows)}"/>'
        f"{cross(line.x2, line.y2) if is_gone else ''}</g>"
    )


def drawn_arrow(drawn, is_link, dots):
    """An arrow with its label and what its message says, as a link to this on a page."""
    entry, output = drawn.arrow.name
    begin, end = (f'<a href="#f{entry}-{output}">', "</a>") if is_link else ("<g>", "</g>")
    place = f'x="{drawn.spot.x}" y="{drawn.spot.y}"{closing(drawn.spot.anchor)}'
    return (
        f"{begin}<title>{entry}.{output} {escaped(drawn.arrow.says)}</title>"
        f"{drawn_line(drawn, dots)}"
        f'<text class="halo" {place}>{escaped(drawn.label)}</text>{end}\n'
    )


def text_at(spot, words, text):
    """A text at its place, with these attributes."""
    return f'<text{words} x="{spot.x}" y="{spot.y}"{closing(spot.anchor)}>{escaped(text)}</text>\n'


def bars(spot):
    """The bars of a reset, across the lifeline, left of its word."""
    left, right = less(spot.x, BARS + BARS_LEFT), less(spot.x, BARS - 1)
    lines = "".join(f"M{left} {less(spot.y, over)}H{right}" for over in BARS_OVER)
    return f'<path {style.CROSS} d="{lines}"/>\n'


def marks(chart, layout):
    """The texts at the lifelines: what the modules were given, and what came of it."""
    yield '<g class="halo">\n'
    for row, spot in zip(chart.rows, layout.given):
        if spot:
            words = style.BOLD if "command" in row.given else ""
            yield text_at(spot, words, given_text(row.given))
    for row, spots in zip(chart.rows, layout.marks):
        for mark, spot in zip(row.marks, spots):
            yield text_at(spot, style.BAD if mark.is_bad else "", mark.text)
            if mark.is_reset:
                yield bars(spot)
    yield "</g>\n"


def notes(chart, end):
    """What is said below the chart."""
    for place, note in enumerate(chart.notes, 1):
        y = end + UNDER_CHART + MARK * place
        yield f'<text {style.PALE} x="{MARGIN}" y="{y}">{escaped(note)}</text>\n'


def svg(chart, layout, is_link=False):
    """The chart as SVG. On a page its arrows are links to what their messages say."""
    width, height = layout.width(), layout.height()
    size, dots = f'width="{width}" height="{height}"', Dots(chart, layout)
    yield f'<svg xmlns="http://www.w3.org/2000/svg" viewBox="0 0 {width} {height}" '
    yield f'{size} role="img" {style.TEXT}>\n'
    yield "<title>A sequence chart of a run of cipbridge</title>"
    yield f"<style>{style.STYLE}</style>\n{style.HEADS}"
    yield f'<rect class="paper" fill="#fff" {size}/>\n'
    yield from lives(chart, layout)
    yield from rows(chart, layout, width)
    yield from (drawn_arrow(drawn, is_link, dots) for drawn in layout.arrows)
    yield from marks(chart, layout)
    yield from notes(chart, layout.heights.end)
    yield "</svg>\n"


def message(arrow):
    """What the message of an arrow says, on a page."""
    entry, output = arrow.name
    title = f"<h2>{entry}.{output} {arrow.label}</h2>"
    return f'<section id="f{entry}-{output}">{title}<p>{escaped(arrow.says)}</p></section>\n'


def page(chart, layout):
    """One page: the chart, and beside it what the messages of its arrows say."""
    yield '<!DOCTYPE html>\n<html lang="en"><head><meta charset="utf-8">'
    yield f"<title>A run of cipbridge</title><style>{style.PAGE_STYLE}</style></head><body><main>\n"
    yield from svg(chart, layout, is_link=True)
    yield "</main><aside><h1>Messages</h1>"
    yield "<p>Point at an arrow, or go to one by the Tab key and press Enter.</p>\n"
    yield from map(message, chart.arrows)
    yield f"</aside><script>{style.SCRIPT}</script></body></html>\n"
