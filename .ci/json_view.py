"""What `cipview json` shows of a transcript, by docs/VIEWS.md (JSON): a model of its lines. Of the
text it has what stands at the end.

`show` gives each line, and behind how many lines of the transcript it comes out: an entry is
written when the next one begins, or another line. Of which op a trail or a chain is, the model does
not say: it has null there, and `covered` puts null there in a line of `cipview`.
"""

import json
import re
from bisect import bisect_right
from dataclasses import dataclass, field
from operator import itemgetter

from messages import Reply, Request, pairs, shown_or_fault
from run_book import REPLY, Book, read
from transcripts import COMMANDS, TICK, Faulty, Note, Output, Reader, Step
from transcripts import number, triad_of

NEWLINE, RETURN = b"\n", b"\r"
# the members of trails and chains whose values the model leaves out, and the lines that have them
OF_OPS = re.compile(rb'("(?:command|module|op)":)(?:"[\w-]+"|\d+)')
HAVE_OPS = (b'"note":"trail', b'"note":"chain')


def covered(line):
    """A line of `cipview json` with null in the place of what the model leaves out."""
    has_ops = any(note in line for note in HAVE_OPS)
    return OF_OPS.sub(rb"\1null", line) if has_ops else line


def line_of(value):
    """An object on a line of its own, its members in alphabetical order."""
    text = json.dumps(value, sort_keys=True, separators=(",", ":"), ensure_ascii=False)
    return text.encode() + NEWLINE


def frame_of(name):
    entry, output = name
    return {"entry": entry, "output": output}


def numbers(names, words):
    """Numbers under their names, null where a dash stands."""
    return {name: number(word) for name, word in zip(names, words)}


def triad_in(words):
    return numbers(("serial", "vendor", "originator"), words)


def pending_row(words):
    """A request that waits: `pending NUMBER PORT ADDRESS due US words W KIND [TRIAD]`."""
    of_number, port, address, _, due, _, left, kind, *triad = words
    row = numbers(("number", "port", "due_us", "words"), (of_number, port, due, left))
    return {**row, "address": address, "kind": kind, "triad": triad_in(triad) if triad else None}


def link(words):
    """A link of a connection: `PORT ADDRESS own ID their ID`, or the ids the other way round."""
    port, address, *ids = words
    return {**numbers(("port", *ids[::2]), (port, *ids[1::2])), "address": address}


def hop_row(words):
    """A connection that is open: `hop TRIAD up .. down .. watch UP DOWN`."""
    down, watch = words.index("down"), words.index("watch")
    from_up, to_down = words[4:down], words[down + 1 : watch]
    up = numbers(("op",), from_up[1:]) if from_up[0] == "op" else link(from_up)
    ends = ("config", "ot_instance", "to_instance")
    down = numbers(ends, to_down[1:]) if to_down[0] == "end" else link(to_down)
    watched = numbers(("up_us", "down_us"), words[watch + 1 :])
    return {"triad": triad_in(words[:3]), "up": up, "down": down, "watch": watched}


def row(words):
    """A row of tables."""
    word, *rest = words
    if word == "pending":
        return {"pending": pending_row(rest)}
    if word == "hop":
        return {"hop": hop_row(rest)}
    instance, data = rest
    return {"assembly": {"instance": number(instance), "data": data}}


def said(words):
    """What stands beside `note`, with null for the ops of trails and chains."""
    word, *rest = words
    if not word:
        return row(words[2:])
    if word in ("quiet", "limit"):
        return {word: True}
    if word == "trail":
        entries = [number(entry) for entry in rest]
        return {"trail": {"entries": entries, "module": None, "command": None, "op": None}}
    if word == "chain":
        *modules, ot_instance, to_instance = rest
        ends = numbers(("ot_instance", "to_instance"), (ot_instance, to_instance))
        return {"chain": {"modules": modules, "op": None, **ends}}
    if word == "not":
        return {"chain": "not open"}
    if word == "broken":
        return {"chain": {"broken": rest[0]}}
    module, _, now, _, last_id, _, last_number = rest
    members = numbers(("now_us", "id", "number"), (now, last_id, last_number))
    return {"tables": {"module": module, **members}}


def datum(known, data):
    """A datum: its connection where it is known, its sequence count where it has one."""
    count, rest = known.split(data)
    triad = known.triad and known.triad.shown()
    return {"triad": triad, "count": count, "data": pairs(rest)}


@dataclass
class Model:
    """What comes out with a line of the transcript, by the number of that line; and what comes out
    at the end, or which line is the first faulty one. `tail` is what the text of the transcript has
    at the end."""

    lines: list = field(default_factory=list)
    end: bytes = b""
    tail: bytes = b""
    faulty: int | None = None

    def between(self, begin, end):
        """What comes out behind the lines from one on, which are so many, to another."""
        first, last = (bisect_right(self.lines, count, key=itemgetter(0)) for count in (begin, end))
        return b"".join(line for _, line in self.lines[first:last])

    def whole(self):
        """All that comes out of a transcript with no faulty line."""
        return b"".join(line for _, line in self.lines) + self.end


class JsonView:
    """Shows the lines of a transcript, one behind the other."""

    def __init__(self, topology):
        self.book = Book(topology)
        # the entry under way, and its outputs
        self.entry, self.outputs = None, []

    def flush(self):
        """The entry under way, which is whole; nothing where there is none."""
        if self.entry is None and not self.outputs:
            return b""
        line = line_of({"entry": self.entry, "outputs": self.outputs})
        self.entry, self.outputs = None, []
        return line

    def came(self, sent):
        """The frame that a step was given, or that was lost."""
        return sent and {"from": sent.sender, "label": sent.label}

    def step(self, step):
        self.book.begin(step)
        if step.word in COMMANDS:
            given = {"command": step.word, COMMANDS[step.word]: step.number}
        elif step.word == TICK:
            given = {"tick_ms": step.number}
        else:
            given = {"frame": frame_of(step.number)}
        arrived = self.came(self.book.arrived)
        return {"number": step.entry, "module": step.module, "given": given, "arrived": arrived}

    def loss(self, loss):
        arrived = self.came(self.book.lose(loss.frame))
        return {"number": loss.entry, "lost": frame_of(loss.frame), "arrived": arrived}

    def attributes(self, message, asked):
        """The member `attributes`, where a request sets an assembly, or a reply has what was asked
        for."""
        found = None
        if isinstance(message, Request) and message.meaning is None:
            found = message.set_assembly()
        elif isinstance(message, Reply) and asked:
            found = asked.answered(message)
        return {"attributes": found} if found else {}

    def sent(self, index, fields):
        port, address, kind, of_number, data = fields
        message = read(kind, data)
        sent = self.book.send(index, port, address, kind, of_number, message)
        to = sent and sent.to
        if message is None:
            says = datum(self.book.of_id(to, of_number), data)
        else:
            says = shown_or_fault(message)
        return {
            "port": port,
            "address": pairs(address),
            "to": to,
            "refused_at": sent and sent.made_at,
            "holds": {kind: of_number, "bytes": pairs(data), "says": says},
            **self.attributes(message, sent and sent.asked),
        }

    def done(self, op, data):
        self.book.end(op)
        reply = read(REPLY, data)
        is_failure = getattr(reply, "is_failure", False)
        return {
            "op": op,
            "bytes": pairs(data),
            "says": shown_or_fault(reply),
            "refused_at": self.book.made_at() if is_failure else None,
            **self.attributes(reply, self.book.answered()),
        }

    def consumed(self, fields):
        triad, (instance, data) = triad_of(fields), fields[3:]
        repeated = {"repeated": True} if self.book.consume(triad, data) else {}
        says = datum(self.book.of_triad(triad), data)
        return {"instance": instance, "bytes": pairs(data), "says": says, **repeated}

    def arrived(self, op, data):
        return {"op": op, "bytes": pairs(data), "says": datum(self.book.of_op(op), data)}

    def output(self, output):
        """What an output says."""
        word, fields = output.word, output.fields
        if word == "send":
            return self.sent(output.index, fields)
        if word == "done":
            return self.done(*fields)
        if word == "consumed":
            return self.consumed(fields)
        if word == "arrived":
            return self.arrived(*fields)
        if word == "expired":
            return triad_of(fields).shown()
        if word == "ended":
            self.book.end(*fields)
            return {"op": fields[0]}
        if word == "refused":
            self.book.refuse()
        return fields[0]

    def take(self, line, text):
        """A line: what comes out with it."""
        if isinstance(line, Output):
            self.outputs.append({line.word: self.output(line)})
            return b""
        out = self.flush()
        if isinstance(line, Note):
            return out + line_of({"note": text.decode("ascii"), **said(line.words)})
        self.entry = self.step(line) if isinstance(line, Step) else self.loss(line)
        return out

    def finish(self, lines, is_cut):
        """The end of the transcript."""
        ops = [{"module": module, "op": op} for module, op, _ in self.book.open_ops()]
        end = {"lines": lines, "cut": is_cut, "open": ops, "waiting": len(self.book.frames)}
        return self.flush() + line_of({"end": end})

    def tail(self, lines, is_cut):
        """The same in the text, in lines that begin with `#`."""
        told = [f"the transcript is cut within line {lines + 1}"] * is_cut
        for module, op, word in self.book.open_ops():
            told.append(f"still open at the end: {module} {word} {op}")
        if waiting := len(self.book.frames):
            told.append(f"frames that have not arrived at the end: {waiting}")
        return "".join(f"# {line}\n" for line in told).encode()


def show(topology, transcript):
    """What `cipview json` shows of a transcript."""
    *lines, rest = transcript.split(NEWLINE)
    view, reader, model = JsonView(topology), Reader(topology), Model()
    for text in lines:
        text = text.removesuffix(RETURN)
        try:
            out = view.take(reader.read(text), text)
        except Faulty as fault:
            model.faulty = fault.line
            return model
        model.lines += [(reader.lines, out)] if out else []
    model.end = view.finish(reader.lines, bool(rest))
    model.tail = view.tail(reader.lines, bool(rest))
    return model
