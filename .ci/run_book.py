"""What is known of a run from its transcript, as far as docs/VIEWS.md has it: the frames on their
way, the connections by their ids, the ops that have not ended, and who made a failure.
"""

from dataclasses import dataclass

from messages import Open, Opened, Unreadable, read_or_fault, read_reply, read_request
from messages import number_at, service_label, status_label
from transcripts import COMMANDS, FRAME

REQUEST, REPLY, DATUM = "request", "reply", "data"
# the transport class whose data begins with a sequence count, and the bytes of that
COUNTED_CLASS, COUNT_SIZE = 1, 2


@dataclass(frozen=True)
class Sent:
    """A frame that was sent: from where and to where, and in short what it holds."""

    sender: str
    # None where no module has the address
    to: str | None
    kind: str
    number: int
    label: str
    # of a failure the module that made it, where that is known
    made_at: str | None
    # the attributes that a request asks for, or the request that a reply answers
    asked: object


@dataclass(frozen=True)
class Known:
    """What is known of the connection of a datum: its triad, and whether its data is counted."""

    triad: object = None
    is_counted: bool = False

    def split(self, data):
        """The sequence count of a datum, None where it has none, and the data behind it."""
        if self.is_counted and len(data) >= COUNT_SIZE:
            return number_at(data, 0, COUNT_SIZE), data[COUNT_SIZE:]
        return None, data


def read(kind, data):
    """The request or the reply that a frame holds, or the fault; None of a datum."""
    if kind == DATUM:
        return None
    return read_or_fault(read_request if kind == REQUEST else read_reply, data)


def label_of(kind, number, message):
    """A frame in short."""
    if kind == DATUM:
        return f"data {number}"
    if isinstance(message, Unreadable):
        return "unreadable" if kind == REQUEST else "unreadable reply"
    service = service_label(message.service)
    return service if kind == REQUEST else f"{service} {status_label(message)}"


class Book:
    """What is known so far."""

    def __init__(self, topology):
        self.topology = topology
        # the frames on their way, by their names
        self.frames = {}
        # the transport class of each connection
        self.classes = {}
        # the connection under an id, at the module that chose the id
        self.ids = {}
        # the connection that an op of a module opened
        self.opened = {}
        # the last sequence count of a connection that a module consumed
        self.counts = {}
        # the commands of the ops that have not ended, by module and op
        self.ops = {}
        # the step under way, and the frame that it was given, where they are known
        self.step = self.arrived = None

    def has_op(self):
        """Whether the step under way is a command with an op of its own."""
        return self.step is not None and COMMANDS.get(self.step.word) == "op"

    def begin(self, step):
        """A module takes a step."""
        self.step = step
        self.arrived = self.frames.pop(step.number, None) if step.word == FRAME else None
        if self.has_op():
            self.ops.setdefault((step.module, step.number), step.word)

    def lose(self, frame):
        """A frame is lost: what is known of it."""
        self.step = self.arrived = None
        return self.frames.pop(frame, None)

    def answered(self):
        """The attributes asked for by the request that the reply answers which came."""
        return self.arrived.asked if self.arrived and self.arrived.kind == REPLY else None

    def asked_under(self, number):
        """The attributes asked for by the request that a reply under this number answers: the one
        that came under it, or that which the reply answers that came."""
        sent = self.arrived
        if sent and sent.kind == REQUEST and sent.number == number:
            return sent.asked
        return self.answered()

    def made_at(self):
        """The module that made a failure which the step under way tells or sends: that of the reply
        that came, else its own; None where it is not known."""
        if not self.step:
            return None
        if not self.arrived:
            return None if self.step.word == FRAME else self.step.module
        return self.arrived.made_at if self.arrived.kind == REPLY else self.step.module

    def learn(self, kind, number, message):
        """What a frame that goes out tells of connections. Gives the attributes that it asks for,
        or that were asked for."""
        at = self.step.module
        if kind == REPLY:
            answer = getattr(message, "answer", None)
            if isinstance(answer, Opened):
                self.ids[at, answer.ot_id] = answer.triad
                self.counts.pop((at, answer.triad), None)
            return self.asked_under(number)
        if kind == DATUM or isinstance(message, Unreadable):
            return None
        if isinstance(message.meaning, Open):
            opened = message.meaning
            self.classes[opened.triad] = opened.transport_class
            self.ids[at, opened.to.id] = opened.triad
            if self.step.word in COMMANDS:
                self.opened[at, self.step.number] = opened.triad
        return message.asked()

    def send(self, index, port, address, kind, number, message):
        """A frame goes out: what is known of it; None where the step is not known."""
        if not self.step:
            return None
        asked = self.learn(kind, number, message)
        to = self.topology.module_at(self.step.module, port, address)
        made_at = self.made_at() if getattr(message, "is_failure", False) else None
        label = label_of(kind, number, message)
        sent = Sent(self.step.module, to, kind, number, label, made_at, asked)
        if to is not None:
            self.frames[self.step.entry, index] = sent
        return sent

    def end(self, op):
        """An op of the module under way came to its end."""
        if self.step:
            self.ops.pop((self.step.module, op), None)

    def refuse(self):
        """The command under way was refused."""
        if self.has_op():
            self.end(self.step.number)

    def of_triad(self, triad):
        """What is known of the data of a connection, which may be none."""
        return Known(triad, self.classes.get(triad) == COUNTED_CLASS)

    def of_id(self, to, number):
        """The same of the connection under an id at a module."""
        return self.of_triad(self.ids.get((to, number)))

    def of_op(self, op):
        """The same of the connection that an op of the module under way opened."""
        return self.of_triad(self.opened.get((self.step.module, op)) if self.step else None)

    def consume(self, triad, data):
        """Whether a datum repeats the sequence count before it, so that it is not written."""
        count, _ = self.of_triad(triad).split(data)
        if not self.step or count is None:
            return False
        key = (self.step.module, triad)
        last, self.counts[key] = self.counts.get(key), count
        return last == count

    def open_ops(self):
        """The ops that have not ended, in the order of the topology and rising: module, op and
        command of each."""
        places = {name: place for place, name in enumerate(self.topology.names)}
        ops = [(*op, word) for op, word in self.ops.items()]
        return sorted(ops, key=lambda op: (places[op[0]], op[1]))
