"""The worked runs over the chassis: a request from S to B and back; a connection from S to E that is opened, carries data both ways
and is closed; one that is opened large; and resets: of B, of A while S opens through it, of S by itself, each used again."""

from driver import Script
from oracle import CHASSIS, Module, frames_of

TIMING, PATH, IDENTITY = (0x07, 0xFA), bytes.fromhex("020501030207200424642C652C66"), bytes.fromhex("010220012401")
OPEN = (0, 1, 10_000, 0x4806, 10_000, 0x4804)
LARGE = (0, 1, 10_000, 0x48000006, 10_000, 0x48000004)
DATUM, SECOND = bytes.fromhex("0100AABBCCDD"), bytes.fromhex("010011223344")
ASKED = [("S", ("send", 1, *TIMING, PATH[:4], IDENTITY))]
CONNECTED = [
    ("S", ("open", 1, *TIMING, PATH, 0x42, *OPEN)),
    ("S", ("enter", 1, DATUM)),
    ("E", ("produce", 102)),
    ("S", ("enter", 1, SECOND)),
    ("S", ("close", 2, 1, *TIMING)),
]

CONNECTED_LARGE = [("S", ("large", 1, *TIMING, PATH, 0x42, *LARGE)), ("S", ("enter", 1, DATUM))]

# the Identity's service Reset, without its byte
RESET = bytes.fromhex("050220012401")
RESETTING = [
    ("S", ("open", 1, *TIMING, PATH, 0x42, *OPEN)),
    ("S", ("send", 2, *TIMING, PATH[:4], RESET)),
    ("S", ("enter", 1, DATUM)),
    ("S", ("send", 3, *TIMING, PATH[:2], RESET + b"\x01")),
    ("S", ("send", 4, *TIMING, b"", RESET)),
    ("E", ("send", 5, *TIMING, b"", RESET + b"\x00")),
    ("S", ("open", 6, *TIMING, PATH, 0x43, *OPEN)),
    ("S", ("enter", 6, DATUM)),
]


def events(commands):
    """All events of a run: these commands, each followed by the frames that come of it, as they are carried."""
    modules, found = {name: Module(name) for name in CHASSIS}, []

    def run(name, words):
        found.append((name, words))
        for frame in frames_of(name, modules[name].step(words)):
            run(*frame)

    for name, words in commands:
        run(name, words)
    return found


def guarded(kind):
    """The worked runs on modules of a kind, each event guarded, so that its step alone is refused memory."""
    script = Script("plain" if kind == "adapter" else kind)
    settings = {} if kind == "adapter" else {"E": {"kind": ["plain", "indexed"].index(kind)}}
    for commands in (ASKED, CONNECTED, CONNECTED_LARGE, RESETTING):
        script.fresh(**settings)
        # the run, its beginning once more under other names, and a time at which all of that is due
        again = [("S", ("send", 8, *TIMING, PATH[:4], IDENTITY)), ("S", ("open", 9, *TIMING, PATH, 0x43, *OPEN))]
        again.append(("S", ("large", 10, *TIMING, PATH, 0x44, *LARGE)))
        ticks = [(name, ("tick", 65_535)) for name in CHASSIS]
        for name, words in [*events(commands), *again, *ticks]:
            script.event(name, words, guard="! ")
            script.tables(name)
    return script
