"""Transcripts read line by line, by the tables of docs/CONSOLE.md (Transcript) and docs/VIEWS.md.

`Topology` has what a transcript names: modules, and at which address each stands. `Reader` gives
of each line what it shows, and raises Faulty of the first line that is none of a transcript.
"""

import re
import tomllib
from dataclasses import dataclass

from messages import LONGEST_ADDRESS, Triad

# commands, and by which member a view shows the number of each
COMMANDS = {
    "send": "op",
    "open": "op",
    "large": "op",
    "close": "op",
    "enter": "of",
    "set": "instance",
    "produce": "instance",
}
TICK, FRAME, LOST = "tick", "frame", "lost"
NUMBER = re.compile("[0-9]+")
BYTES = re.compile("-|(?:[0-9A-Fa-f]{2})+")
U16, U32, U64 = 2**16 - 1, 2**32 - 1, 2**64 - 1
TRIAD = "U16 U16 U32"
# what stands behind the number of an output; words in capitals are fields
OUTPUTS = (
    "send PORT ADDRESS request U32 BYTES",
    "send PORT ADDRESS reply U32 BYTES",
    "send PORT ADDRESS data U32 BYTES",
    "done U32 BYTES",
    f"consumed {TRIAD} U32 BYTES",
    "arrived U32 BYTES",
    f"expired {TRIAD}",
    "ended U32",
    *(f"refused {word}" for word in ("OpUsed", "NotOpen", "WrongSize", "ReservedService")),
    "refused NoInstance",
    *(f"dropped {word}" for word in ("Malformed", "Late", "UnknownId", "WrongSize")),
)
NOTES = (
    "quiet",
    "limit",
    "not open",
    "broken MODULE",
    "tables MODULE now U64 id U64 number U64",
)
KINDS = ("unconnected", f"opening {TRIAD}", f"large {TRIAD}", f"closing {TRIAD}")
UPS = ("up op U32", "up U16 BYTES own OPTIONAL their U32")
DOWNS = ("down end U32 U32 U32", "down U16 BYTES their OPTIONAL own OPTIONAL")
# rows of tables, which are indented as outputs are
ROWS = (
    *(f"pending U32 U16 BYTES due U64 words U32 {kind}" for kind in KINDS),
    *(f"hop {TRIAD} {up} {down} watch OPTIONAL OPTIONAL" for up in UPS for down in DOWNS),
    "assembly U32 BYTES",
)
# trails and chains have as many words as there are entries and modules; a chain has at least a
# module, and the two instances behind the modules
LEAST_CHAIN = 4
# in front of what is indented stand two empty words, for the two spaces
INDENT = ["", ""]


class Faulty(Exception):
    """A line that is none of a transcript, by its number from 1."""

    def __init__(self, line):
        super().__init__(f"line {line}")
        self.line = line


class Topology:
    """The modules of a topology file, in its order, and where they stand."""

    def __init__(self, text):
        self.names, self.links, self.seats = [], {}, {}
        for module in tomllib.loads(text)["module"]:
            name = module["name"]
            self.names.append(name)
            for port in module["port"]:
                self.links[name, port["number"]] = port["link"]
                self.seats[port["link"], bytes.fromhex(port["address"])] = name

    def module_at(self, name, port, address):
        """The module to which a frame goes that a module sends by a port to an address, or None."""
        return self.seats.get((self.links.get((name, port)), address))


@dataclass(frozen=True)
class Step:
    """A module was given a command, a tick or a frame."""

    entry: int
    module: str
    word: str
    number: int | tuple


@dataclass(frozen=True)
class Loss:
    """A frame was lost."""

    entry: int
    frame: tuple


@dataclass(frozen=True)
class Output:
    """An output: the word that says of which kind it is, and what stands behind it."""

    index: int
    word: str
    fields: list


@dataclass(frozen=True)
class Note:
    """A line that is no part of an entry, by its words."""

    words: list


def number(word, most=U64):
    """The number that a word is, of at most so much; else None."""
    return int(word) if NUMBER.fullmatch(word) and int(word) <= most else None


def positive(word):
    return number(word, U16) or None


def data(word):
    """The bytes that a word is, else None."""
    return bytes.fromhex(word.replace("-", "")) if BYTES.fullmatch(word) else None


def address(word):
    """The link address that a word is, else None."""
    found = data(word)
    return found if found and len(found) <= LONGEST_ADDRESS else None


def frame(word):
    """The name of a frame, `E.K`, else None."""
    parts = [number(part) for part in word.split(".")]
    return tuple(parts) if len(parts) == 2 and None not in parts else None


class Reader:
    """Reads the lines of a transcript, one behind the other."""

    def __init__(self, topology):
        self.topology, self.lines = topology, 0
        # the numbers that come next, where they are known
        self.next_entry = self.next_output = None
        self.readers = {
            "U16": lambda word: number(word, U16),
            "U32": lambda word: number(word, U32),
            "U64": number,
            "PORT": positive,
            "OPTIONAL": lambda word: word if word == "-" else number(word),
            "BYTES": data,
            "ADDRESS": address,
            "MODULE": self.module,
        }

    def module(self, word):
        return word if word in self.topology.names else None

    def fault(self):
        return Faulty(self.lines)

    def need(self, found):
        """What was found, which must not be None."""
        if found is None:
            raise self.fault()
        return found

    def fields(self, words, pattern):
        """The words in the places of a pattern, None where they don't fit it."""
        pattern, found = pattern.split(" "), []
        if len(words) != len(pattern):
            return None
        for word, wanted in zip(words, pattern):
            reader = self.readers.get(wanted)
            value = reader(word) if reader else word if word == wanted else None
            if value is None:
                return None
            found.append(value)
        return found

    def first_fit(self, words, patterns):
        """The same of the first pattern that they fit."""
        fits = (self.fields(words, pattern) for pattern in patterns)
        return self.need(next((found for found in fits if found is not None), None))

    def step(self, words):
        """The line of an entry."""
        if len(words) == 3 and words[1] == LOST:
            return Loss(int(words[0]), self.need(frame(words[2])))
        if len(words) != 4 or not self.module(words[1]):
            raise self.fault()
        entry, module, word, given = words
        if word == FRAME:
            given = frame(given)
        elif word == TICK:
            given = positive(given)
        else:
            given = number(given, U32) if word in COMMANDS else None
        return Step(int(entry), module, word, self.need(given))

    def note(self, words):
        """A line that is no part of an entry and is not indented."""
        if words[0] == "trail":
            for word in words[1:]:
                self.need(number(word))
        elif words[0] == "chain":
            if len(words) < LEAST_CHAIN:
                raise self.fault()
            for word in words[1:-2]:
                self.need(self.module(word))
            for word in words[-2:]:
                self.need(number(word, U32))
        else:
            self.first_fit(words, NOTES)
        return Note(words)

    def shown(self, words):
        """What the words of a line show."""
        if words[:2] == INDENT and len(words) > 3:
            index = number(words[2])
            if index is None:
                self.first_fit(words[2:], ROWS)
                return Note(words)
            word, *fields = self.first_fit(words[3:], OUTPUTS)
            return Output(index, word, fields)
        return self.note(words) if number(words[0]) is None else self.step(words)

    def count(self, line):
        """An entry or an output has the number that comes next, where it is known."""
        if isinstance(line, Note):
            return
        is_output = isinstance(line, Output)
        wanted = self.next_output if is_output else self.next_entry
        found = line.index if is_output else line.entry
        if wanted not in (None, found):
            raise self.fault()
        behind = min(found + 1, U64)
        if is_output:
            self.next_output = behind
        else:
            self.next_entry, self.next_output = behind, 0

    def read(self, text):
        """What the next line shows, without its end."""
        self.lines += 1
        if not text.isascii():
            raise self.fault()
        line = self.shown(text.decode("ascii").split(" "))
        self.count(line)
        return line


def triad_of(fields):
    """The triad with which the fields of an output begin."""
    return Triad(*fields[:3])
