"""Where the things of a sequence chart stand, in pixels from the left and from above.

Rows stand one below the other, texts beside lifelines and labels at their arrows, so that as little
as can be hides something else. All numbers are whole: a share of a way is rounded down, and what
would stand beyond the left or above the top stands at 0.
"""

from dataclasses import dataclass, replace
from enum import Enum

from chart_rows import Arrow, Fate

# from one lifeline to the next, and where the first one stands
SPACING, LEFT = 170, 150
# where the boxes of the modules begin, the height of each without its ports, and that of a port
TOP, BOX, PORT = 10, 24, 13
# from the last port to the first row
UNDER_BOXES = 40
# the height of a row, and of each mark behind its first and of a line of text
ROW, MARK = 34, 14
# so many rows stand between two lines with the names of the modules, which are so high
NAMED, NAMES = 24, 30
# the numbers and times at the left end before this, and an arrow's label best begins behind this
NUMBERS, EDGE = 104, 46
# what is free at the right and below, and at both sides of a fold and of what is said below
MARGIN = 20
# how far a text beside a lifeline stands from it, above a dot, and below it the first mark
GAP, OVER_DOT, UNDER_DOT = 6, 6, 12
# how far the bars of a reset stand out behind where another mark begins
BARS = 6
# how far a text stands above and below its base line
ABOVE, BELOW = 9, 3
# how bad it is that a text stands on another, on a line, or before the edge
ON_TEXT, ON_LINE, ON_EDGE = 20, 3, 20
# a line takes so many bands behind its first, each of the height of a row
MOST_BANDS = 40
# the length of an arrow of which one end is not shown, to the side and down
SHORT, FALL = 60, ROW // 2
# the part of its way that a lost frame came, in thousandths, and the middle of a way
LOST_PART, MIDDLE = 600, 500
# how far a loop of a module to itself reaches, and where the text at it begins
LOOP, BEHIND_LOOP = 53, 58
# the parts of its way at which a label may stand, the best first
PARTS = (500, 400, 600, 300, 700, 200, 800, 120, 880)
# how far a line may fall below half of a label that stands over it
STEEP = 16
# how far a label stands above its line, below it, to its side, and behind its end
OVER_LINE, UNDER_LINE, BESIDE, BEHIND = 4, 12, 4, 9


def less(number, by):
    """A number less another, or 0."""
    return max(number - by, 0)


def x_of(column):
    """Where the lifeline of a column stands."""
    return LEFT + SPACING * column


def width_of(characters):
    """About how wide so many characters are."""
    return characters * 13 // 2


def body_of(modules):
    """Where the rows begin, below the boxes and the ports of these modules."""
    return TOP + BOX + PORT * max(len(module.ports) for module in modules) + UNDER_BOXES


class Heights:
    """Where the rows of a chart stand: the dot of each, where the names of the modules stand again,
    and where the chart ends."""

    def __init__(self, rows, top):
        self.rows, self.names = [], []
        # where the row under way stands, and where the next one does
        height, self.end, shown = top, top, 0
        for row in rows:
            if row.is_folded:
                self.rows.append(self.end)
                continue
            if not row.is_joined:
                if shown == NAMED:
                    self.names.append(self.end)
                    self.end, shown = self.end + NAMES, 0
                height, shown = self.end, shown + 1
            self.rows.append(height)
            self.end = max(self.end, height + self.height_of(row))

    @staticmethod
    def height_of(row):
        """How high a row is that is shown."""
        return ROW + MARK * less(len(row.marks), 1) + (ROW if row.fold else 0)


class Anchor(Enum):
    """By which of its points a text is placed."""

    START = "start"
    MIDDLE = "middle"
    END = "end"


@dataclass(frozen=True)
class Area:
    """Where a text stands."""

    left: int
    top: int
    right: int
    bottom: int

    def meets(self, other):
        """Whether two texts meet."""
        beside = self.right < other.left or other.right < self.left
        return not beside and self.top <= other.bottom and other.top <= self.bottom

    def is_crossed(self, line):
        """Whether a line goes through the text."""
        reach = line.within(self.top, self.bottom)
        return reach is not None and self.left <= reach[1] and reach[0] <= self.right

    def bands(self):
        """The bands in which the text begins and ends."""
        return {self.top // ROW, self.bottom // ROW}


@dataclass(frozen=True)
class Spot:
    """The place of a text: a point on its base line."""

    x: int
    y: int
    anchor: Anchor

    def area(self, width):
        """Where a text of this width stands."""
        before = {Anchor.START: 0, Anchor.MIDDLE: width // 2, Anchor.END: width}[self.anchor]
        left = less(self.x, before)
        return Area(left, less(self.y, ABOVE), left + width, self.y + BELOW)


def between(begin, end, thousandths):
    """A place so many thousandths of the way from one to another."""
    share = abs(end - begin) * thousandths // 1000
    return begin + share if begin <= end else begin - share


@dataclass(frozen=True)
class Line:
    """Where the line of a frame begins and ends."""

    x1: int
    y1: int
    x2: int
    y2: int

    def is_loop(self):
        """Whether the line goes from a module to itself."""
        return self.x1 == self.x2

    def goes_right(self):
        return self.x1 <= self.x2

    def at(self, thousandths):
        """The point so many thousandths of the way."""
        return between(self.x1, self.x2, thousandths), between(self.y1, self.y2, thousandths)

    def x_at(self, y):
        """Where the line is at a height between its ends."""
        way = self.y2 - self.y1
        return between(self.x1, self.x2, (y - self.y1) * 1000 // way if way else 0)

    def within(self, top, bottom):
        """How far the line goes to the left and to the right between two heights; None where it is
        not there. It goes down, or to the side."""
        high, low = max(self.y1, top), min(self.y2, bottom)
        if low < high:
            return None
        if self.is_loop():
            return self.x1, self.x1 + LOOP
        return tuple(sorted((self.x_at(high), self.x_at(low))))

    def cut(self):
        """The part of its way that a lost frame came."""
        return replace(self, x2=self.at(LOST_PART)[0])


def end_beside(x, other):
    """Where an arrow ends of which the other end is not shown: beside its lifeline, on the side of
    that one's column."""
    return less(x, SHORT) if other is not None and x_of(other) < x else x + SHORT


def line_of(chart, heights, arrow):
    """The line of an arrow, and whether both ends are shown; None where neither is."""

    def height_of(place):
        shown = place is not None and not chart.rows[place].is_folded
        return heights.rows[place] if shown else None

    begin, end = height_of(arrow.sent), height_of(arrow.ended)
    source, target = arrow.source, arrow.target
    if begin is not None and source is not None:
        x = x_of(source)
        if end is None:
            return Line(x, begin, end_beside(x, target), begin + FALL), False
        line = Line(x, begin, end_beside(x, None) if target is None else x_of(target), end)
        return line.cut() if arrow.fate == Fate.LOST else line, True
    if begin is None and end is not None and target is not None:
        x = x_of(target)
        return Line(end_beside(x, source), less(end, FALL), x, end), False
    return None


class Areas:
    """What takes a part of a chart, texts and lines, in bands of the height of a row."""

    def __init__(self):
        self.texts, self.lines = {}, {}
        # the greatest end of a text to the right
        self.right = 0

    def put_text(self, area):
        self.right = max(self.right, area.right)
        for band in area.bands():
            self.texts.setdefault(band, []).append(area)

    def put_line(self, line):
        first = line.y1 // ROW
        last = min(line.y2 // ROW, first + MOST_BANDS)
        for band in range(first, last + 1):
            self.lines.setdefault(band, []).append(line)

    def cost(self, area):
        """How bad it is that a text stands here: 0 where nothing is. What takes both of its bands
        counts in each."""
        cost = 0
        for band in area.bands():
            cost += ON_TEXT * sum(map(area.meets, self.texts.get(band, ())))
            cost += ON_LINE * sum(map(area.is_crossed, self.lines.get(band, ())))
        return cost


def over(line, part, width):
    """Above a line, the middle of the text over a point of it; None where the line is too steep."""
    if line.is_loop():
        return None
    x, y = line.at(part)
    fall = (line.y2 - line.y1) * (width // 2) // abs(line.x2 - line.x1)
    return Spot(x, less(y, fall + OVER_LINE), Anchor.MIDDLE) if fall <= STEEP else None


def on_side(x, y, is_right, gap):
    """So far to the right or to the left of a point."""
    return Spot(x + gap, y, Anchor.START) if is_right else Spot(less(x, gap), y, Anchor.END)


def above(line, part):
    """Above a line, and on the side to which it falls."""
    x, y = line.at(part)
    return on_side(x, less(y, OVER_LINE), line.goes_right(), BESIDE)


def below(line, part):
    """Below a line, and on the side from which it falls."""
    x, y = line.at(part)
    return on_side(x, y + UNDER_LINE, not line.goes_right(), BESIDE)


def behind(line):
    """Behind the end of a short line, or beside a loop."""
    if line.is_loop():
        x, y = line.at(MIDDLE)
        return Spot(x + BEHIND_LOOP, y + OVER_LINE, Anchor.START)
    return on_side(line.x2, line.y2 + OVER_LINE, line.goes_right(), BEHIND)


def label_spots(line, is_whole, width):
    """The places at which the label of a line may stand, the best first."""
    if not is_whole or line.is_loop():
        yield behind(line)
    for part in PARTS:
        if spot := over(line, part, width):
            yield spot
    for part in PARTS:
        yield above(line, part)
        yield below(line, part)


@dataclass
class Drawn:
    """An arrow that is shown: its line, whether both ends are, its label, and where this stands."""

    arrow: Arrow
    line: Line
    is_whole: bool
    label: str
    spot: Spot | None = None


class Layout:
    """Where all of a chart stands. Lines take their places first, then the texts at the lifelines,
    and last the labels, one by one."""

    def __init__(self, chart):
        self.chart, self.areas = chart, Areas()
        self.body = body_of(chart.modules)
        self.heights = Heights(chart.rows, self.body)
        self.take_names()
        self.arrows = list(self.take_lines())
        # of each row where stands what its module was given (None where nothing does), and its
        # marks, none of a row that is not shown
        self.given = [self.take_given(row, y) for row, y in zip(chart.rows, self.heights.rows)]
        self.marks = [self.take_marks(row, y) for row, y in zip(chart.rows, self.heights.rows)]
        for drawn in self.arrows:
            self.take_label(drawn)

    def take_names(self):
        """The names of the modules that stand in between take their places."""
        for y in self.heights.names:
            for module, column in self.chart.shown():
                spot = Spot(x_of(column), y, Anchor.MIDDLE)
                self.areas.put_text(spot.area(width_of(len(module.name))))

    def take_lines(self):
        for arrow in self.chart.arrows:
            if found := line_of(self.chart, self.heights, arrow):
                self.areas.put_line(found[0])
                yield Drawn(arrow, *found, f"{arrow.label}{arrow.fate.value}")

    def take(self, spot, width):
        """A text of this width takes its place."""
        self.areas.put_text(spot.area(width))
        return spot

    def take_beside(self, column, y, width):
        """A text takes its place beside a lifeline: at the right, unless the left is better and it
        comes to no number there."""
        right, left = (on_side(x_of(column), y, is_right, GAP) for is_right in (True, False))
        there, here = left.area(width), right.area(width)
        is_left = NUMBERS < there.left and self.areas.cost(there) < self.areas.cost(here)
        return self.take(left if is_left else right, width)

    def take_given(self, row, y):
        """What the module of a row was given takes its place."""
        text = given_text(row.given)
        if row.is_folded or row.column is None or not text:
            return None
        return self.take_beside(row.column, less(y, OVER_DOT), width_of(len(text) + 1))

    def take_marks(self, row, y):
        """The marks of a row take their places, one below the other."""
        if row.is_folded or row.column is None:
            return []
        heights = range(y + UNDER_DOT, y + UNDER_DOT + MARK * len(row.marks), MARK)
        return [self.take_mark(row.column, y, mark) for mark, y in zip(row.marks, heights)]

    def take_mark(self, column, y, mark):
        """A mark takes its place; a reset always at the right, behind its bars."""
        width = width_of(len(mark.text))
        if mark.is_reset:
            return self.take(on_side(x_of(column), y, True, GAP + BARS), width)
        return self.take_beside(column, y, width)

    def take_label(self, drawn):
        """The label of an arrow takes its place: the first of those at which it is least bad."""
        width, least = width_of(len(drawn.label)), None
        for spot in label_spots(drawn.line, drawn.is_whole, width):
            area = spot.area(width)
            cost = self.areas.cost(area) + (ON_EDGE if area.left < EDGE else 0)
            if least is None or cost < least:
                drawn.spot, least = spot, cost
            if cost == 0:
                break
        self.take(drawn.spot, width)

    def width(self):
        """How wide the chart is, with all of its texts."""
        lives = LEFT + SPACING * len(self.chart.columns)
        notes = [width_of(len(note)) + 2 * MARGIN for note in self.chart.notes]
        return max([lives + MARGIN, self.areas.right + MARGIN, *notes])

    def height(self):
        """How high the chart is, with what is said below it."""
        return self.heights.end + MARGIN + MARK * len(self.chart.notes)


def given_text(given):
    """What a module was given, beside its lifeline; nothing for a frame, which has its arrow."""
    if "tick_ms" in given:
        return f"tick {given['tick_ms']} ms"
    numbers = (given[word] for word in ("op", "of", "instance") if word in given)
    return f"{given['command']} {next(numbers)}" if "command" in given else ""
