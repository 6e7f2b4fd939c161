"""Transcripts of leaves: bytes, names, paths of one symbol, services and statuses, of which each
that may be stands somewhere in what a view shows; counts that are repeated; and lines of any bytes,
or with carriage returns.

`leaves` gives a Leaves for each kind. What the text of a view says below some of its lines is told
by rules of its own, character by character.
"""

from dataclasses import dataclass

from chassis import chassis
from messages import pairs

SERVICES, STATUSES = "services", "statuses"
EVERY_BYTE = range(256)
# bytes are shown up to so many, and symbols of fewer than so many characters
BYTES, SYMBOL = 300, 40
# the characters that a product name may have, and the most of them
PRINTABLE, LONGEST_NAME = range(0x20, 0x7F), 32
# the characters that the name of a module may have, the most of them, and of modules
LETTERS = "ABCDEFGHIJKLMNOPQRSTUVWXYZabcdefghijklmnopqrstuvwxyz0123456789_-"
LONGEST, MODULES = 16, 64
# words of transcripts, which may be names of modules too
WORDS = ("lost", "send")
# what asks B for the product name in its Identity, and the success that has it
ASKS_NAME, NAME_REPLY = bytes.fromhex("0E03200124013007"), bytes.fromhex("8E000000")
# other bytes than a product name has
NO_NAMES = (b"\x1F", b"a\x1F", b"\x7F", b"a\x7F", b"\x80", b"\xFF", b"\x00")
# an open of class 1, its success, and its triad in a transcript
OPEN = bytes.fromhex(
    "54022006240107F70000000000400000010001010100D100000000001027000006481027000004480104200424"
    "642C652C66"
)
OPENED = bytes.fromhex("D40000000050000000400000010001010100D10010270000102700000000")
TRIAD = "1 257 13697025"
# sequence counts of data that A consumes, and whether each repeats the one before; before the last
# of them the connection is opened anew
COUNTS, AGAIN = ((1, False), (1, True), (2, False), (1, False), (1, True)), (1, False)
RETURNS = b"quiet\r\n0 S tick 1\r\n  0 ended 1\r\nlimit\r\n\r"
# lines of other bytes than a reader lets through, but for the first
LINES = (
    b"quiet",
    b"",
    b'"',
    b"\\",
    b'a "b" c\\d',
    bytes(range(0x10)),
    bytes(range(0x10, 0x20)),
    b"\x20\x7E\x7F",
    b"\xC3\xA9\xE2\x82\xAC",
    b"\xC3",
    b"\x80",
    b"a line that is longer than thirty-two bytes, and plain",
    b"a line that is longer than thirty-two bytes, with \t in it",
)
NET = '[[link]]\nname = "net"\nkind = "byte"\nfirst = 0\nlast = 255\n'
MODULE = """[[module]]
name = "{name}"
kind = "plain"
vendor = 257
device_type = 14
product = 7
major = 2
minor = 1
serial = {place}
product_name = "P"
first_id = 16
[[module.port]]
number = 2
link = "net"
address = "{place:02X}"
"""


@dataclass(frozen=True)
class Leaves:
    """A transcript of leaves. Of the lines in its text, those that begin with `front` are `said`;
    none are looked at where it has no front."""

    name: str
    topology: str
    text: bytes
    count: int
    front: bytes = b""
    said: tuple = ()


def exchange(number, request, reply):
    """A request that goes from S to A, the reply, and the end of the op by it."""
    first, request, reply = 3 * number, pairs(request), pairs(reply)
    return (
        f"{first} S send 0\n  0 send 2 05 request 0 {request}\n"
        f"{first + 1} A frame {first}.0\n  0 send 2 01 reply 0 {reply}\n"
        f"{first + 2} S frame {first + 1}.0\n  0 done 0 {reply}\n"
    )


def messages(name, leaves):
    """Leaves as requests, as replies and as ends of ops."""
    text = "".join(exchange(number, leaf, leaf) for number, leaf in enumerate(leaves))
    return Leaves(name, CHASSIS, text.encode(), len(leaves))


def counting(count):
    """So many bytes, which are each another one."""
    return bytes(place % 256 for place in range(count))


def services():
    """Each service, as short messages and as successes."""
    for byte in EVERY_BYTE:
        yield bytes([byte, 0])
        yield bytes([byte, 0, 0, 0])


def statuses():
    """Each general status, without an additional one and with one; and additional ones."""
    for byte in EVERY_BYTE:
        yield bytes([0x81, 0, byte, 0])
        yield bytes([0x81, 0, byte, 1, 0x07, 0x01])
        yield from (bytes([0xD4, 0, 1, 1, byte, high]) for high in range(4))


def data():
    """Bytes as data, of a connection of which nothing is known but the triad in one place."""
    text, said = "", []
    for count in range(BYTES):
        shown = pairs(counting(count))
        text += f"{count} S tick 1\n  0 send 2 05 data 7 {shown}\n"
        text += f"  1 consumed 1 2 3 4 {shown}\n  2 arrived 5 {shown}\n"
        told = f": {count} bytes {each_pair(counting(count))}"
        said += [f"    datum{told}", f"    datum of triad 1 2 3{told}", f"    datum{told}"]
    return Leaves("data", CHASSIS, text.encode(), BYTES, b"    datum", encoded(said))


def each_pair(found):
    """Bytes as upper-case pairs, one by one."""
    return "".join(f"{byte:02X}" for byte in found) or "-"


def symbol(name):
    """A symbol, which stands as it is where it has two characters or more, all printable."""
    if len(name) > 1 and all(0x21 <= byte <= 0x7E and byte != 0x22 for byte in name):
        return 'symbol "' + "".join(chr(byte) for byte in name) + '"'
    return f"symbol {each_pair(name)}"


def symbols():
    """Paths of one symbol, in requests."""
    text, said, front = "", [], "    Get_Attributes_All to "
    for first in EVERY_BYTE:
        text += f"{first} S send 1\n"
        for count in range(1, SYMBOL):
            name = bytes((first + place) % 256 for place in range(count))
            path = bytes([0x91, count]) + name + bytes(count % 2)
            request = bytes([0x01, len(path) // 2]) + path
            text += f"  {count - 1} send 2 05 request 1 {pairs(request)}\n"
            said.append(front + symbol(name))
    return Leaves("symbols", CHASSIS, text.encode(), len(said), front.encode(), encoded(said))


def product_names():
    """Product names of each character that they may have, and such as can't be one."""
    names = [
        bytes(PRINTABLE[(begin + place) % len(PRINTABLE)] for place in range(count))
        for begin in range(len(PRINTABLE))
        for count in (0, 1, 2, LONGEST_NAME - 1, LONGEST_NAME, LONGEST_NAME + 1)
    ]
    names += NO_NAMES
    replies = [NAME_REPLY + bytes([len(name)]) + name for name in names]
    text = "".join(exchange(number, ASKS_NAME, reply) for number, reply in enumerate(replies))
    front, said = "    Identity: product name ", []
    for name in names:
        if len(name) <= LONGEST_NAME and name not in NO_NAMES:
            # of the reply that goes out, and of the op that ends
            said += 2 * [f'{front}"{name.decode()}"']
    said = encoded(said)
    return Leaves("product names", CHASSIS, text.encode(), len(names), front.encode(), said)


def modules():
    """Names of modules, of each character that they may have."""
    longest = [LETTERS[place : place + LONGEST] for place in range(0, len(LETTERS), LONGEST)]
    short = LETTERS[: MODULES - len(longest) - len(WORDS)]
    names = [*short, *WORDS, *longest]
    topology = NET + "".join(
        MODULE.format(name=name, place=place) for place, name in enumerate(names)
    )
    text, said, front = "", [], "    data 7 from "
    for place, name in enumerate(names):
        to = (place + 1) % len(names)
        entry = 2 * place
        text += f"{entry} {name} send {place}\n  0 send 2 {to:02X} data 7 {place:02X}\n"
        text += f"{entry + 1} {names[to]} frame {entry}.0\n"
        text += f"broken {name}\nchain {name} {names[to]} 1 2\n"
        said.append(front + name)
    return Leaves("modules", topology, text.encode(), len(names), front.encode(), encoded(said))


def consumed(place, count):
    """A datum with this sequence count."""
    return f"  {place} consumed {TRIAD} 101 {pairs(count.to_bytes(2, 'little'))}AABB\n"


def repeats():
    """Data whose sequence counts are repeated."""
    text = f"0 S open 1\n  0 send 2 05 request 1 {pairs(OPEN)}\n1 A frame 0.0\n"
    text += "".join(consumed(place, count) for place, (count, _) in enumerate(COUNTS))
    text += f"2 A tick 1\n  0 send 2 01 reply 1 {pairs(OPENED)}\n{consumed(1, AGAIN[0])}"
    said, front = [], f"    datum of triad {TRIAD}: "
    for count, is_repeated in (*COUNTS, AGAIN):
        behind = "; repeated: not written" if is_repeated else ""
        said.append(f"{front}count {count}, 2 bytes AABB{behind}")
    return Leaves("repeats", CHASSIS, text.encode(), len(said), front.encode(), encoded(said))


def encoded(lines):
    return tuple(line.encode() for line in lines)


def leaves():
    """All transcripts of leaves."""
    yield messages(SERVICES, list(services()))
    yield messages(STATUSES, list(statuses()))
    yield messages("bytes", [counting(count) for count in range(BYTES)])
    yield data()
    yield symbols()
    yield product_names()
    yield modules()
    yield repeats()
    yield Leaves("carriage returns", CHASSIS, RETURNS, 1)
    for line in LINES:
        yield Leaves(f"line {line!r}", CHASSIS, b"quiet\n" + line + b"\nlimit\n", 1)


CHASSIS = "\n".join(chassis()) + "\n"
