"""What a sequence chart has: lifelines, rows, arrows and marks, and what is said below them.

They are gathered from the JSON and from the text of a transcript. JSON has entries and outputs with
what their messages say; the text has the number of each output, and below it the sentence that a
chart shows of a message. Labels, fates, marks and times are worked out here (docs/VIEWS.md, Chart).
"""

import json
import re
import tomllib
from dataclasses import dataclass, field, replace
from enum import Enum

from chart_folds import Fold, Round, fold, join

# a reply to the service Reset, and the general statuses of a success and of a failed connection
RESET_REPLY, SUCCESS, CONNECTION_FAILURE = 0x85, 0, 1
# commands whose number is an op that ends, and those that move data
OPENING, MOVING = ("send", "open", "large", "close"), ("enter", "produce")
OUTPUT = re.compile(r"  (\d+) \w")
# what stands before each line that the text has below another
INDENT = "    "


@dataclass(frozen=True)
class Port:
    """A port of a module: its number, its link and its address there."""

    number: int
    link: str
    address: bytes


@dataclass(frozen=True)
class Module:
    """A module of a topology."""

    name: str
    ports: list[Port]


def modules_of(topology):
    """The modules of a topology, a TOML text, in its order."""
    return [
        Module(
            module["name"],
            [
                Port(port["number"], port["link"], bytes.fromhex(port["address"]))
                for port in module["port"]
            ],
        )
        for module in tomllib.loads(topology)["module"]
    ]


@dataclass(frozen=True)
class Cut:
    """The part of a run that is shown: from one entry to another, and which modules by their names,
    all where none is named."""

    first: int
    last: int
    names: tuple[str, ...]

    def has_entry(self, number):
        return self.first <= number <= self.last

    def columns(self, modules):
        """The column of each module that is shown, by its name."""
        names = [it.name for it in modules if not self.names or it.name in self.names]
        return {name: column for column, name in enumerate(names)}


class Kind(Enum):
    """What a frame holds."""

    REQUEST = "request"
    REPLY = "reply"
    DATA = "data"


def failed(says):
    """Whether what a reply says is a failure, where it can be read."""
    return "status" in says and says["status"]["general"] != SUCCESS


def is_reset(says):
    """Whether what a reply says is that a module was reset."""
    return says.get("code") == RESET_REPLY and not failed(says)


@dataclass(frozen=True)
class Label:
    """What a frame holds, in short: its kind, its number or connection id, and what it says."""

    kind: Kind
    number: int
    says: dict

    @classmethod
    def of(cls, holds):
        """What a frame holds, of its object in JSON."""
        kind = next(kind for kind in Kind if kind.value in holds)
        return cls(kind, holds[kind.value], holds["says"])

    def tells_of_failure(self):
        """Whether it is a reply that tells of a failure, or can't be read."""
        return self.kind == Kind.REPLY and ("unreadable" in self.says or failed(self.says))

    def service(self):
        if "unreadable" in self.says:
            return "unreadable"
        return self.says["service"] or f"service {self.says['code'] % 0x80:02X}"

    def status(self):
        """The digits of a reply's status, or `ok`; `reply` where it can't be read."""
        if "unreadable" in self.says:
            return "reply"
        general, extra = self.says["status"]["general"], self.says["status"]["extra"]
        if general == CONNECTION_FAILURE and extra is not None:
            return f"{extra:04X}"
        return "ok" if general == SUCCESS else f"{general:02X}"

    def __str__(self):
        if self.kind == Kind.DATA:
            return f"data {self.number}"
        return f"{self.service()} {self.status()}" if self.kind == Kind.REPLY else self.service()


@dataclass(frozen=True)
class Frame:
    """A frame: who sent it, to whom it goes (None where no module has the address), and what it
    holds."""

    sender: str
    to: str | None
    label: Label


class Fate(Enum):
    """How a frame ended, with the word that stands at its arrow."""

    WAITS = " (waits)"
    ARRIVED = ""
    LOST = " (lost)"
    NOBODY = " (no module)"


@dataclass
class Arrow:
    """A frame in a chart: the entry and the output that sent it, the rows in which it was sent and
    ended and the columns from which and to which it goes, each None where it is not shown, and what
    its message says."""

    name: tuple
    label: Label
    fate: Fate
    says: str
    sent: int | None
    ended: int | None
    source: int | None
    target: int | None


@dataclass(frozen=True)
class Mark:
    """What came of an entry, beside the lifeline. At a reset stand bars across the lifeline."""

    text: str
    is_bad: bool
    is_reset: bool = False


@dataclass(frozen=True)
class Look:
    """How the row of cyclic data or of a tick looks, but for its bytes: rows of one look may be
    folded."""

    column: int
    # what its module was given: a command, a frame or a tick
    cause: str
    # of the command; how many entries before this one sent the frame; or the milliseconds
    number: int
    # the connection id of the datum that goes out, or 0
    id: int = 0
    outputs: int = 0

    def with_output(self, connection_id):
        return replace(self, id=connection_id, outputs=self.outputs + 1)


@dataclass
class Row:
    """An entry. Its column is None where a frame was lost."""

    entry: int
    column: int | None = None
    # what the module was given, as JSON has it
    given: dict = field(default_factory=dict)
    # the time of the module after a tick, in milliseconds
    time: int | None = None
    # of an entry that moves data, or of a tick, where nothing else comes of it
    look: Look | None = None
    marks: list[Mark] = field(default_factory=list)
    # the row stands in one that is shown in its place
    is_folded: bool = False
    # the cycle of rows that ends here and is shown once
    fold: Fold | None = None
    # so many rows behind this one stand at its height, or it stands at that of one before it
    joined: int = 0
    is_joined: bool = False


@dataclass
class Chart:
    """A chart: all modules of the topology, the columns of those that are shown, and what stands
    between their lifelines and below."""

    modules: list[Module]
    columns: dict[str, int]
    rows: list[Row] = field(default_factory=list)
    arrows: list[Arrow] = field(default_factory=list)
    notes: list[str] = field(default_factory=list)

    def shown(self):
        """The modules that are shown, each with its column."""
        return [(it, self.columns[it.name]) for it in self.modules if it.name in self.columns]


def byte_count(pairs):
    """How many bytes these pairs of digits are."""
    return len(bytes.fromhex(pairs.strip("-")))


def status_text(status):
    """A status by its digits and its name."""
    general, extra, name = status["general"], status["extra"], status["name"]
    if general == SUCCESS and name:
        return name
    digits = f"{general:02X}"
    if extra is not None:
        digits = f"{extra:04X}" if general == CONNECTION_FAILURE else f"{digits} with {extra:04X}"
    return f"{digits} {name}" if name else f"status {digits}"


def done_mark(done):
    """That an op came to its end, and how."""
    says = done["says"]
    if "unreadable" in says:
        return Mark(f"op {done['op']} done: unreadable", True)
    return Mark(f"op {done['op']} done: {status_text(says['status'])}", failed(says))


def mark_of(kind, output):
    """The mark of an output that is no frame."""
    match kind:
        case "done":
            return done_mark(output)
        case "refused" | "dropped":
            return Mark(f"{kind} {output}", True)
        case "consumed":
            behind = ", repeated: not written" if output.get("repeated") else ""
            count = byte_count(output["bytes"])
            return Mark(f"consumed {output['instance']} ({count} bytes){behind}", False)
        case "arrived":
            return Mark(f"arrived {output['op']} ({byte_count(output['bytes'])} bytes)", False)
        case "expired":
            return Mark(f"expired, serial {output['serial']}", True)
        case "ended":
            return Mark(f"op {output['op']} ended by the reset", True)
    raise ValueError(f"an output {kind!r}")


def message_text(told, send):
    """What a message says, of the line that the text has below a frame that goes out: without who
    refused it, and without an address that no module has."""
    behind = ""
    if send["refused_at"] is not None:
        behind += f"; refused at {send['refused_at']}"
    if send["to"] is None:
        behind += f"; to port {send['port']} address {send['address']}: no module"
    if not told.endswith(behind):
        raise ValueError(f"below an output {told!r} without {behind!r} at its end")
    return told.removesuffix(behind)


def told_outputs(text):
    """The outputs of a transcript shown as a text: the number of each, and the line below it."""
    lines = text.split("\n")
    for line, told in zip(lines, lines[1:]):
        if found := OUTPUT.match(line):
            yield int(found[1]), told.removeprefix(INDENT)


def frame_name(frame):
    return frame["entry"], frame["output"]


class Gatherer:
    """Gathers a chart, entry by entry and output by output."""

    def __init__(self, modules, cut):
        self.cut = cut
        self.chart = Chart(modules, cut.columns(modules))
        self.places = {module.name: place for place, module in enumerate(modules)}
        # the frames on their way, and the arrows of those that are shown, by entry and output
        self.frames, self.flying = {}, {}
        # the time of each module in milliseconds, and the command of each op that has not ended
        self.times, self.ops = {}, {}
        # the entry under way: its number, its module where that is known, what this was given, the
        # frame that arrived, and its row where it is shown
        self.entry, self.at, self.given, self.arrived, self.row = 0, None, {}, None, None
        # the ticks of all modules that are under way, and the first row and the count of past ones
        self.round, self.together = Round(), []

    def put_row(self, row):
        self.row = row
        self.chart.rows.append(row)

    def place(self):
        """The place of the row under way, where it is shown."""
        return len(self.chart.rows) - 1 if self.row else None

    def put_arrow(self, name, frame, fate, says="", sent=None, ended=None):
        columns = self.chart.columns
        source, target = columns.get(frame.sender), columns.get(frame.to)
        arrow = Arrow(name, frame.label, fate, says, sent, ended, source, target)
        self.chart.arrows.append(arrow)
        return arrow

    def put_mark(self, mark):
        if self.row:
            self.row.marks.append(mark)

    def look_of(self, column):
        """How the row of the entry under way looks, where it may move data or is a tick."""
        given = self.given
        if given.get("command") in MOVING:
            return Look(column, "command", given.get("of", given.get("instance")))
        if self.arrived and self.arrived.label.kind == Kind.DATA:
            return Look(column, "frame", max(self.entry - given["frame"]["entry"], 0))
        return Look(column, "tick", given["tick_ms"]) if "tick_ms" in given else None

    def take_entry(self, entry):
        """An entry begins: a module takes a step, or a frame is lost."""
        self.entry, self.row = entry["number"], None
        if "lost" in entry:
            self.take_lost(frame_name(entry["lost"]))
        else:
            self.take_step(entry["module"], entry["given"])

    def take_step(self, at, given):
        name = frame_name(given["frame"]) if "frame" in given else None
        self.at, self.given, self.arrived = at, given, self.frames.pop(name, None)
        if given.get("command") in OPENING:
            self.ops.setdefault((self.places[at], given["op"]), given["command"])
        if "tick_ms" in given:
            self.times[at] = self.times.get(at, 0) + given["tick_ms"]
        column = self.chart.columns.get(at)
        if column is not None and self.cut.has_entry(self.entry):
            time = self.times[at] if "tick_ms" in given else None
            self.put_row(Row(self.entry, column, given, time, self.look_of(column)))
        self.join_tick()
        if name:
            self.land(name)

    def join_tick(self):
        """The ticks of all modules go on with the step under way, begin anew or end with it."""
        if "tick_ms" not in self.given:
            self.round = Round()
            return
        place, is_shown = self.places[self.at], self.row is not None
        self.round = self.round.ticked(place, self.given["tick_ms"], is_shown)
        rows = self.round.rows
        if self.round.modules == len(self.chart.modules) and 1 < rows:
            self.together.append((len(self.chart.rows) - rows, rows))

    def land(self, name):
        """The frame arrives that the entry under way was given."""
        if name in self.flying:
            arrow = self.flying.pop(name)
            arrow.fate, arrow.ended = Fate.ARRIVED, self.place()
        elif self.arrived and self.row:
            self.put_arrow(name, self.arrived, Fate.ARRIVED, ended=self.place())

    def take_lost(self, name):
        self.at, self.given, self.arrived, self.round = None, {}, None, Round()
        self.frames.pop(name, None)
        if name not in self.flying:
            return
        if self.cut.has_entry(self.entry):
            self.put_row(Row(self.entry))
        arrow = self.flying.pop(name)
        arrow.fate, arrow.ended = Fate.LOST, self.place()
        # what comes of a loss is nothing
        self.row = None

    def take_output(self, index, told, output):
        """An output of the entry under way, and what the text tells below it."""
        ((kind, output),) = output.items()
        if kind == "send":
            self.take_send(index, told, output)
        else:
            self.take_other(kind, output)

    def take_send(self, index, told, send):
        """A frame goes out, of which a transcript that is cut may not say from where."""
        if self.at is None:
            return
        frame = Frame(self.at, send["to"], Label.of(send["holds"]))
        if self.row and self.row.look:
            is_data = frame.label.kind == Kind.DATA
            self.row.look = self.row.look.with_output(frame.label.number) if is_data else None
        is_asked = self.arrived is not None and self.arrived.label.kind == Kind.REQUEST
        if is_asked and frame.label.kind == Kind.REPLY and is_reset(frame.label.says):
            self.put_mark(Mark("reset", True, is_reset=True))
        name = self.entry, index
        if frame.to is not None:
            self.frames[name] = frame
        # a frame of an entry that is not shown may come to a module that is
        if not self.row and (frame.to not in self.chart.columns or self.cut.last < self.entry):
            return
        fate = Fate.NOBODY if frame.to is None else Fate.WAITS
        arrow = self.put_arrow(name, frame, fate, message_text(told, send), self.place())
        if frame.to is not None:
            self.flying[name] = arrow

    def end_op(self, kind, output):
        """An op came to its end, by a reply or by a reset, or was refused."""
        if self.at is None:
            return
        if kind in ("done", "ended"):
            self.ops.pop((self.places[self.at], output["op"]), None)
        elif kind == "refused" and self.given.get("command") in OPENING:
            self.ops.pop((self.places[self.at], self.given["op"]), None)

    def take_other(self, kind, output):
        """An output that is no frame."""
        self.end_op(kind, output)
        if self.row and self.row.look:
            moves = kind in ("consumed", "arrived") and not output.get("repeated")
            self.row.look = self.row.look.with_output(self.row.look.id) if moves else None
        self.put_mark(mark_of(kind, output))
        if kind == "done" and "command" in self.given and is_reset(output["says"]):
            self.put_mark(Mark("reset", True, is_reset=True))

    def take_end(self, end):
        """What is said below the chart."""
        if end["cut"]:
            self.chart.notes.append(f"the transcript is cut within line {end['lines'] + 1}")
        for (place, op), command in sorted(self.ops.items()):
            name = self.chart.modules[place].name
            self.chart.notes.append(f"still open at the end: {name} {command} {op}")


def chart_of(shown_json, shown_text, topology, cut):
    """The chart of a transcript, which is shown as this JSON and as this text, over a topology."""
    gatherer = Gatherer(modules_of(topology), cut)
    told = told_outputs(shown_text)
    for line in shown_json.splitlines():
        shown = json.loads(line)
        if shown.get("entry"):
            gatherer.take_entry(shown["entry"])
        for output in shown.get("outputs", ()):
            gatherer.take_output(*next(told), output)
        if "end" in shown:
            gatherer.take_end(shown["end"])
    chart = gatherer.chart
    fold(chart.rows)
    join(chart.rows, gatherer.together)
    return chart
