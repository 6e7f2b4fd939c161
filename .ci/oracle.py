"""What a module does at each event, worked out from docs/ROUTING_TABLE.md and docs/FORMATS.md, and never from the program.

Module(name) is a module of the chassis of docs/CONSOLE.md, fresh. Its `step` takes the words of an event, as lines for
the driver have them, and gives the lines that come of it; `tables` gives the lines of its state. `hits` counts the rows,
under the names that they have in the document, each with its group.
"""

from collections import Counter

# the last microsecond, number of 32 bits, and count of an incarnation
LAST, MOST, COUNT = 9_223_372_036_854_775_807, 0xFFFFFFFF, 0xFFFF
MESSAGE, EMBEDDED, HEADER, ROOM = 66_000, 65_535, bytes.fromhex("0220062401"), 256
CLASS, INSTANCE, MEMBER, POINT, ATTRIBUTE = range(5)
# the bytes of network connection parameters, and what waits for the reply, of Forward_Open and Large_Forward_Open
WIDTH, OPENING = {0x54: 2, 0x5B: 4}, {0x54: "opening", 0x5B: "large"}
OPENS = {kind: service for service, kind in OPENING.items()}
# last legal address of the link, own address
CHASSIS = {
    "S": (14, 9, 0x0A0B0C0D, "SC", 0x11, {2: (0xFE, 0x01)}, {}),
    "A": (12, 1, 0x00000A0A, "AR", 0x21, {2: (0xFE, 0x05), 1: (0x10, 0x00)}, {}),
    "B": (12, 2, 0x00000B0B, "BR", 0x31, {1: (0x10, 0x03), 2: (0x3F, 0x01)}, {}),
    "E": (12, 3, 0x00000E0E, "EA", 0x41, {2: (0x3F, 0x07)}, {100: 0, 101: 4, 102: 2, 103: 4}),
}
ODD_SIZES = {100: 3, 101: 4, 102: 2, 103: 5}
LARGE_SIZES = {100: 0, 101: 4, 102: 2, 103: 4, 110: 600}
# on which link a module's port stands
LINKS = {("S", 2): "LAN", ("A", 2): "LAN", ("A", 1): "RACK", ("B", 1): "RACK", ("B", 2): "SUB", ("E", 2): "SUB"}
STATUS = {
    "request": {"path past the end": "26", "path unreadable": "04", "path form not supported": "05",
                "no such Connection Manager instance": "16", "service not supported": "08"},
    "unconnected send": {"cut before the route size": "13", "cut in the route": "13", "bytes after the route": "15",
                         "route unreadable": "04", "embedded request unreadable or for the Connection Manager": "0205"},
    "open": {"cut in the fixed part": "13", "cut in the path": "13", "bytes after the path": "15", "path unreadable": "04",
             "connection type not supported": "0108", "RPI of zero": "0111", "triad in use": "0100",
             "no room or ids left": "0113", "not an application path": "0315", "no such instance or configuration": "0117",
             "transport class not supported": "0103", "size mismatch": "0109", "output owned": "0106",
             "no room or id left": "0113"},
    "close": {"cut in the fixed part": "13", "cut in the path": "13", "bytes after the path": "15", "path unreadable": "04",
              "not this sender's open triad": "0107", "path differs from the hop's": "0316"},
    "target": {"path form not supported": "05", "class not supported": "05", "no such instance": "16",
               "service not supported": "08", "no such attribute": "14", "not settable": "0E", "data short": "13",
               "data long": "15", "no incarnation left": "0C"},
}  # fmt: skip
LINK = {"no port segment": "0315", "no such port": "0311", "link address not legal": "0312", "time-out ticks spent": "0204",
        "no pending left": "0301"}  # fmt: skip


class Unreadable(Exception):
    """Bytes that are no path, or no request."""


def num(data, at, size=2):
    return int.from_bytes(data[at : at + size], "little")


def put(number, size=2):
    return number.to_bytes(size, "little")


def pairs(data):
    return data.hex().upper() or "-"


def segment(path):
    """What the first segment of a path is, and how many bytes it has."""
    first = path[0]

    def byte(at):
        if at >= len(path):
            raise Unreadable
        return path[at]

    def padded(size):
        if size % 2 and byte(size) != 0:
            raise Unreadable
        return size + size % 2

    if first < 0x20:
        port, size, at = first & 15, 1, 1
        if port == 0:
            raise Unreadable
        if first & 16:
            size, at = byte(1), 2
            if not 1 <= size <= 16:
                raise Unreadable
        if port == 15:
            port, at = byte(at) + 256 * byte(at + 1), at + 2
            if port == 0:
                raise Unreadable
        byte(at + size - 1)
        return ("port", port, path[at : at + size]), padded(at + size)
    if first < 0x40 and first & 3 < 3 and first >> 2 & 7 < 5 and first & 0x1F not in (2, 10, 18):
        width = 1 << (first & 3)
        if width == 1:
            return ("logical", first >> 2 & 7, byte(1)), 2
        byte(width + 1)
        if byte(1) != 0:
            raise Unreadable
        return ("logical", first >> 2 & 7, num(path, 2, width)), 2 + width
    if first == 0x34 and byte(1) == 4:
        byte(9)
        return ("key", [num(path, at) for at in (2, 4, 6)], path[8:10]), 10
    if first == 0x43:
        return ("inhibit", byte(1)), 2
    if first == 0x80:
        size = 2 + 2 * byte(1)
        byte(size - 1)
        return ("words", path[2:size]), size
    if first == 0x91:
        byte(1 + byte(1))
        return ("symbol", path[2 : 2 + path[1]]), padded(2 + path[1])
    raise Unreadable


def segments(path):
    """The segments of a path, and the bytes behind the first of them and behind the second."""
    found, ends, at = [], [], 0
    if len(path) > 510:
        raise Unreadable
    while at < len(path):
        part, size = segment(path[at:])
        at += size
        found.append(part)
        ends.append(path[at:])
    return found, ends


def is_path(path):
    try:
        segments(path)
        return True
    except Unreadable:
        return False


def first_hop(path):
    """The key that a path begins with, if it does; and the port, the address and the rest, where a port segment follows."""
    found, ends = segments(path)
    key = found[0] if found and found[0][0] == "key" else None
    at = 1 if key else 0
    hop = (found[at][1], found[at][2], ends[at]) if len(found) > at and found[at][0] == "port" else None
    return key, hop


def read_request(data):
    """The service, the path and the data of a request, or the name of the row that cannot read it."""
    if len(data) < 2 or data[0] & 0x80:
        return "not a request"
    end = 2 + 2 * data[1]
    if end > len(data):
        return "path past the end"
    return (data[0], data[2:end], data[end:]) if is_path(data[2:end]) else "path unreadable"


def object_of(path):
    """The class, the instance and the attribute that a path names, where it is exactly that."""
    found, _ = segments(path)
    kinds = [part[1] if part[0] == "logical" else None for part in found]
    if kinds not in ([CLASS, INSTANCE], [CLASS, INSTANCE, ATTRIBUTE]):
        return None
    return [part[2] for part in found] + [None] * (3 - len(found))


def application(path):
    """The three instances of an application path and its configuration bytes, where it is one."""
    found, _ = segments(path)
    if found and found[0][0] == "key":
        found = found[1:]
    found = [part for part in found if part[0] != "inhibit"]
    points = [part for part in found[1:4] if part[0] == "logical" and part[1] in (INSTANCE, POINT)]
    rest = found[4:]
    if found[:1] != [("logical", CLASS, 4)] or len(points) < 3 or rest and (len(rest) > 1 or rest[0][0] != "words"):
        return None
    return [part[2] for part in points], rest[0][1] if rest else b""


def failure(service, status, data=b""):
    extra = b"\x01\x01" + bytes.fromhex(status)[::-1] if len(status) == 4 else bytes.fromhex(status) + b"\x00"
    # an additional status is written high byte first in the tables of the document, and low byte first on a link
    return bytes([service | 0x80, 0]) + extra + data


def line_of(name, words):
    """An event as a line for the driver."""
    return " ".join([name, *(pairs(it) if isinstance(it, bytes) else str(it) for it in words)])


def carried(name, port, to):
    """Which module a frame comes to, by which port and from which address: None where no module has the address."""
    own = bytes([CHASSIS[name][5][port][1]])
    for other, number in LINKS:
        if LINKS[other, number] == LINKS[name, port] and to == bytes([CHASSIS[other][5][number][1]]):
            return other, number, own
    return None


def frames_of(name, lines):
    """The frames that a module sent and that come to a module, as events."""
    for line in lines:
        words = line.split()
        if words[0] == "send":
            came = carried(name, int(words[1]), bytes.fromhex(words[2]))
            yield came and (came[0], (words[3], *came[1:], int(words[4]), bytes.fromhex(words[5].replace("-", ""))))


class Module:
    """A module of the chassis. `settings` are those that the driver knows: kind 2 is an adapter, sizes 1 are odd ones, sizes 2 have
    one of 600 bytes."""

    hits = Counter()

    def __init__(self, name, **settings):
        self.name, self.is_adapter = name, settings.get("kind", 2 if name == "E" else 0) == 2
        self.type, self.product, self.serial, self.product_name, first_id, self.ports, self.sizes = CHASSIS[name]
        self.sizes = [self.sizes, ODD_SIZES, LARGE_SIZES][settings.get("sizes", 0)]
        self.now, self.id = settings.get("clock", 0), settings.get("first_id", first_id) - 1
        self.number = settings.get("first_number", 1) - 1
        self.pending_room, self.hop_room = settings.get("pending_room", ROOM), settings.get("hop_room", ROOM)
        self.pendings, self.openings, self.hops, self.ops = {}, {}, {}, set()
        self.assemblies = {instance: bytes(size) for instance, size in self.sizes.items()}

    def copy(self):
        other = object.__new__(Module)
        other.__dict__.update(self.__dict__)
        other.pendings, other.openings, other.ops = dict(self.pendings), dict(self.openings), set(self.ops)
        other.hops, other.assemblies = {triad: dict(hop) for triad, hop in self.hops.items()}, dict(self.assemblies)
        return other

    def hit(self, group, row, answer=None):
        Module.hits[group, row] += 1
        self.row = group, row
        return answer

    # what goes out

    def replied(self, up, data):
        if up[0] == "op":
            return f"done {up[1]} {pairs(data)}"
        return f"send {up[1]} {pairs(up[2])} reply {up[3]} {pairs(data)}"

    def sent_on(self, up, hop, timing, words, kind, data):
        """A request goes on: it takes the next number, and a pending waits for its reply."""
        self.number += 1
        tick, ticks = timing
        due = self.now + (2 ** (tick & 15) * ticks) * 1000
        self.pendings[self.number] = (up, hop[0], hop[1], due, words, kind)
        return [f"send {hop[0]} {pairs(hop[1])} request {self.number} {pairs(data)}"]

    # rows that groups share

    def key_fault(self, key):
        if key is None:
            return None
        (vendor, kind, product), (major, minor) = key[1], key[2]
        if vendor not in (0, 0x0101) or product not in (0, self.product):
            return "0114"
        if kind not in (0, self.type):
            return "0115"
        fits = minor in (0, 3) or major & 0x80 and minor <= 3
        return None if major & 0x7F in (0, 1) and fits else "0116"

    def link_row(self, hop):
        if hop[0] not in self.ports or self.is_adapter:
            return "no such port"
        return None if len(hop[1]) == 1 and hop[1][0] <= self.ports[hop[0]][0] else "link address not legal"

    def wait_row(self, ticks):
        if ticks < 2:
            return "time-out ticks spent"
        return "no pending left" if len(self.pendings) >= self.pending_room or self.number % 65536 >= COUNT else None

    # requests

    def request(self, port, sender, number, data):
        if port not in self.ports or len(data) > MESSAGE:
            return self.hit("request", "unknown port or too long", ["dropped Malformed"])
        read = read_request(data)
        if read == "not a request":
            return self.hit("request", read, ["dropped Malformed"])
        up = ("link", port, sender, number)
        if isinstance(read, str):
            return [self.replied(up, self.refused("request", read, data[0]))]
        service, path, data = read
        named = object_of(path)
        if named is None:
            return [self.replied(up, self.refused("request", "path form not supported", service))]
        if named[0] == 6:
            if named[1] != 1:
                return [self.replied(up, self.refused("request", "no such Connection Manager instance", service))]
            if service not in (0x52, 0x54, 0x5B, 0x4E):
                return [self.replied(up, self.refused("request", "service not supported", service))]
            self.hit("request", "Connection Manager")
            if service in WIDTH:
                return self.forward_open(up, data, service)
            return {0x52: self.unconnected, 0x4E: self.forward_close}[service](up, data)
        self.hit("request", "target")
        return self.answered(up, *read)

    def refused(self, group, row, service, data=b"", status=None):
        self.hit(group, row)
        return failure(service, status or STATUS[group].get(row) or LINK[row], data)

    def answered(self, up, service, path, data):
        """What the module's own objects answer; a reset is carried out."""
        lines = [self.replied(up, self.target(service, path, data))]
        if self.row != ("target", "reset"):
            return lines
        askers = [it[0] for it in self.pendings.values()] + [hop["up"] for hop in self.hops.values()]
        self.pendings, self.openings, self.hops = {}, {}, {}
        self.number, self.id = (((it >> 16) + 1) << 16 for it in (self.number, self.id))
        self.assemblies = {instance: bytes(size) for instance, size in self.sizes.items()}
        return lines + [f"ended {op}" for op in sorted({up[1] for up in askers if up[0] == "op"})]

    def target(self, service, path, data):
        def no(row):
            return self.refused("target", row, service)

        named = object_of(path)
        if named is None:
            return no("path form not supported")
        of_class, instance, attribute = named
        if of_class not in (1, 4):
            return no("class not supported")
        if instance != 1 if of_class == 1 else instance not in self.assemblies:
            return no("no such instance")
        if service not in ((0x01, 0x05, 0x0E, 0x10) if of_class == 1 else (0x0E, 0x10)):
            return no("service not supported")
        if service == 0x05:
            if len(data) > 1:
                return no("data long")
            if max(self.number, self.id) >> 16 == COUNT:
                return no("no incarnation left")
            self.hit("target", "reset")
            return bytes([0x85, 0, 0, 0])
        if service != 0x01 and attribute not in (range(1, 8) if of_class == 1 else (3,)):
            return no("no such attribute")
        if service == 0x10 and of_class == 1:
            return no("not settable")
        wanted = self.sizes[instance] if service == 0x10 else 0
        if len(data) < wanted:
            return no("data short")
        if len(data) > wanted:
            return no("data long")
        self.hit("target", "answered")
        if service == 0x10:
            self.assemblies[instance] = data
            return bytes([0x90, 0, 0, 0])
        name = self.product_name.encode()
        fields = [put(0x0101), put(self.type), put(self.product), b"\x01\x03", put(0), put(self.serial, 4)]
        fields.append(bytes([len(name)]) + name)
        read = self.assemblies[instance] if of_class == 4 else b"".join(fields) if service == 1 else fields[attribute - 1]
        return bytes([service | 0x80, 0, 0, 0]) + read

    def unconnected(self, up, data):
        place = 4 + num(data, 2) + num(data, 2) % 2 if len(data) >= 4 else len(data)

        def no(row, status=None):
            words = data[place : place + 1]
            return [self.replied(up, self.refused("unconnected send", row, 0x52, words, status))]

        if len(data) <= place:
            return no("cut before the route size")
        end = place + 2 + 2 * data[place]
        if len(data) < end:
            return no("cut in the route")
        if len(data) > end:
            return no("bytes after the route")
        embedded, route = data[4 : 4 + num(data, 2)], data[place + 2 :]
        if not is_path(route):
            return no("route unreadable")
        read = read_request(embedded)
        if isinstance(read, str) or read[1] and segments(read[1])[0][0] == ("logical", CLASS, 6):
            return no("embedded request unreadable or for the Connection Manager")
        if not route:
            self.hit("unconnected send", "answered here")
            return self.answered(up, *read)
        key, hop = first_hop(route)
        if self.key_fault(key):
            return no("key mismatch", self.key_fault(key))
        row = "no port segment" if hop is None else self.link_row(hop) or self.wait_row(data[1])
        if row:
            return no(row)
        self.hit("unconnected send", "forwarded")
        rest = hop[2]
        fixed = bytes([data[0], data[1] - 1]) + put(len(embedded)) + embedded + bytes(len(embedded) % 2)
        message = b"\x52" + HEADER + fixed + bytes([len(rest) // 2, 0]) + rest if rest else embedded
        return self.sent_on(up, hop, data[:2], data[place], None, message)

    def forward_open(self, up, data, service):
        # the network connection parameters have so many bytes, and all behind them moves by as many
        width = WIDTH[service]
        second, size, start = 26 + width, 31 + 2 * width, 32 + 2 * width

        def no(row, status=None):
            known = data[10:18] + data[size:start] + b"\x00" if len(data) >= start else b""
            return [self.replied(up, self.refused("open", row, service, known, status))]

        row = self.cut(data, size, start)
        if row:
            return no(row)
        path, triad = data[start:], (num(data, 10), num(data, 12), num(data, 14, 4))
        params, rpis = [num(data, 26, width), num(data, second + 4, width)], [num(data, 22, 4), num(data, second, 4)]
        transport = data[size - 1]
        if any(it >> 8 * width - 3 != 2 for it in params) or data[18] > 7:
            return no("connection type not supported")
        if 0 in rpis:
            return no("RPI of zero")
        if triad in self.hops or triad in self.openings:
            return no("triad in use")
        key, hop = first_hop(path)
        if self.key_fault(key):
            return no("key mismatch", self.key_fault(key))
        is_full, left = len(self.hops) + len(self.openings) >= self.hop_room, COUNT - self.id % 65536
        sizes = [it & (0x1FF if width == 2 else 0xFFFF) for it in params]
        made = {"up": up, "path": path, "sizes": sizes, "class": transport & 15, "their_up": num(data, 6, 4)}
        made.update(consumed=None, produced=0, watch=[rpi << data[18] + 2 for rpi in rpis], link=hop and hop[:2])
        if hop:
            row = self.link_row(hop) or self.wait_row(data[1])
            if row is None and (is_full or left < (1 if up[0] == "op" else 2)):
                row = "no room or ids left"
            if row:
                return no(row)
            self.hit("open", "forwarded")
            made["down"] = self.drawn()
            made["own"] = None if up[0] == "op" else self.drawn()
            self.openings[triad] = made
            rest = hop[2]
            fixed = bytes([data[0], data[1] - 1]) + data[2:6] + put(made["down"], 4) + data[10:19] + bytes(3) + data[22:size]
            message = bytes([service]) + HEADER + fixed + bytes([len(rest) // 2]) + rest
            return self.sent_on(up, hop, data[:2], data[size], (OPENING[service], triad), message)
        found = application(path)
        if up[0] == "op" or found is None:
            return no("not an application path")
        (config, consume, produce), written = found
        wanted = self.sizes.get(config, 0)
        fits = len(written) == wanted or wanted % 2 and len(written) == wanted + 1 and written[-1] == 0
        if not {config, consume, produce} <= set(self.sizes) or not fits:
            return no("no such instance or configuration")
        if made["class"] > 1:
            return no("transport class not supported")
        if sizes != [self.sizes[it] + 2 * made["class"] for it in (consume, produce)]:
            return no("size mismatch")
        if self.sizes[consume] and any(it["link"] is None and it["end"][1] == consume for it in self.hops.values()):
            return no("output owned")
        if is_full or left < 1:
            return no("no room or id left")
        self.hit("open", "accepted")
        made.update(end=(config, consume, produce), own=self.drawn(), due=[self.now + made["watch"][0], None])
        self.hops[triad] = made
        self.assemblies[config] = written[:wanted]
        intervals = data[22:26] + data[second : second + 4]
        return [self.replied(up, bytes([service | 0x80, 0, 0, 0]) + put(made["own"], 4) + data[6:18] + intervals + b"\0\0")]

    def drawn(self):
        self.id += 1
        return self.id

    def cut(self, data, place, fixed):
        """The row of data with a path of which this byte has the size, where it cannot be read."""
        if len(data) < fixed:
            return "cut in the fixed part"
        end = fixed + 2 * data[place]
        if len(data) != end:
            return "cut in the path" if len(data) < end else "bytes after the path"
        return None if is_path(data[fixed:]) else "path unreadable"

    def forward_close(self, up, data):
        def no(row):
            known = data[2:11] + b"\x00" if len(data) >= 12 else b""
            return [self.replied(up, self.refused("close", row, 0x4E, known))]

        row = self.cut(data, 10, 12)
        if row:
            return no(row)
        triad = (num(data, 2), num(data, 4), num(data, 6, 4))
        hop = self.hops.get(triad)
        if hop is None or hop["up"][0] != up[0] or up[0] == "link" and hop["up"][1:3] != up[1:3]:
            return no("not this sender's open triad")
        _, first = first_hop(data[12:])
        if (first and first[:2]) != hop["link"]:
            return no("path differs from the hop's")
        if first is None:
            self.hit("close", "closed at the end")
            del self.hops[triad]
            return [self.replied(up, b"\xce\0\0\0" + data[2:10] + b"\0\0")]
        row = self.wait_row(data[1])
        if row:
            return no(row)
        self.hit("close", "forwarded")
        del self.hops[triad]
        rest = first[2]
        message = b"\x4e" + HEADER + bytes([data[0], data[1] - 1]) + data[2:10] + bytes([len(rest) // 2, 0]) + rest
        return self.sent_on(up, first, data[:2], data[10], ("closing", triad), message)

    # replies, data, ticks

    def reply(self, port, sender, number, data):
        def no(row, reason):
            return self.hit("reply", row, [f"dropped {reason}"])

        if port not in self.ports or len(data) > MESSAGE:
            return no("unknown port or too long", "Malformed")
        pending = self.pendings.get(number)
        if pending is None or pending[1:3] != (port, sender):
            return no("late", "Late")
        up, kind = pending[0], pending[5]
        if not self.is_reply(kind, data):
            return no("malformed for its kind", "Malformed")
        del self.pendings[number]
        opening = self.openings.pop(kind[1]) if kind and kind[0] in OPENS else None
        if opening is None or data[2] != 0:
            return self.hit("reply", "passed up", [self.replied(up, data)])
        self.hit("reply", "open succeeded")
        due = [self.now + watch for watch in opening["watch"]]
        opening.update(their_down=num(data, 4, 4), due=[None if up[0] == "op" else due[0], due[1]])
        self.hops[kind[1]] = opening
        if up[0] == "link":
            ids = put(opening["own"], 4) + put(opening["their_up"], 4)
            data = data[:1] + b"\0\0\0" + ids + data[12:29] + b"\0" + data[30:]
        return [self.replied(up, data)]

    def is_reply(self, kind, data):
        """Whether bytes can be read as a reply to what was asked."""
        if len(data) < 4 or not data[0] & 0x80 or 4 + 2 * data[3] > len(data):
            return False
        if kind is None:
            return True
        service, at, fixed = (OPENS[kind[0]] | 0x80, 8, 26) if kind[0] in OPENS else (0xCE, 0, 10)
        triad = put(kind[1][0]) + put(kind[1][1]) + put(kind[1][2], 4)
        rest = data[4 + 2 * data[3] :]
        if data[0] != service:
            return False
        if data[2] == 0:
            is_whole = len(rest) >= fixed and len(rest) == fixed + 2 * rest[fixed - 2]
            return data[3] == 0 and is_whole and rest[at : at + 8] == triad
        return not rest or rest[:8] == triad

    def data(self, port, sender, number, data):
        for triad, hop in self.hops.items():
            by_up = hop["up"][0] == "link" and (hop["up"][1:3], hop["own"]) == ((port, sender), number)
            if port in self.ports and (by_up or hop["link"] == (port, sender) and hop["down"] == number):
                return self.datum(triad, hop, 0 if by_up else 1, data)
        return self.hit("data", "unknown id", ["dropped UnknownId"])

    def datum(self, triad, hop, side, data):
        if len(data) != hop["sizes"][side]:
            return self.hit("data", "wrong size", ["dropped WrongSize"])
        hop["due"][side] = self.now + hop["watch"][side]
        if side == 0 and hop["link"]:
            return self.hit("data", "passed on", [self.entered(hop, data)])
        if side == 1 and hop["up"][0] == "op":
            return self.hit("data", "arrived", [f"arrived {hop['up'][1]} {pairs(data)}"])
        if side == 1:
            return self.hit("data", "passed on", [self.produced(hop, data)])
        count, instance = data[: 2 * hop["class"]], hop["end"][1]
        self.hit("data", "repeated" if count and count == hop["consumed"] else "consumed")
        if not count or count != hop["consumed"]:
            self.assemblies[instance] = data[2 * hop["class"] :]
        hop["consumed"] = count
        return [f"consumed {' '.join(map(str, triad))} {instance} {pairs(data)}"]

    def entered(self, hop, data):
        return f"send {hop['link'][0]} {pairs(hop['link'][1])} data {hop['their_down']} {pairs(data)}"

    def produced(self, hop, data):
        return f"send {hop['up'][1]} {pairs(hop['up'][2])} data {hop['their_up']} {pairs(data)}"

    def tick(self, ms):
        if self.now + ms * 1000 > LAST:
            return self.hit("tick", "clock full", ["clock full"])
        self.now += ms * 1000
        outputs = []
        for number in sorted(number for number, it in self.pendings.items() if it[3] <= self.now):
            up, _, _, _, words, kind = self.pendings.pop(number)
            self.hit("tick", "pending due")
            if kind and kind[0] in OPENS:
                del self.openings[kind[1]]
            triad = put(kind[1][0]) + put(kind[1][1]) + put(kind[1][2], 4) if kind else b""
            service = 0x52 if kind is None else OPENS.get(kind[0], 0x4E)
            outputs.append(self.replied(up, failure(service, "0204", triad + bytes([words]) + (b"\0" if kind else b""))))
        lapsed = [triad for triad, it in self.hops.items() if any(due is not None and due <= self.now for due in it["due"])]
        for triad in sorted(lapsed):
            self.hit("tick", "hop due")
            del self.hops[triad]
            outputs.append(f"expired {' '.join(map(str, triad))}")
        return outputs

    # commands

    def no(self, row, reason):
        return self.hit("command", row, [f"refused {reason}"])

    def opened_by(self, op):
        return next(((triad, hop) for triad, hop in self.hops.items() if hop["up"] == ("op", op)), (None, None))

    def send(self, op, tick, ticks, path, request):
        if op in self.ops:
            return self.no("op used", "OpUsed")
        if request[:1] == b"\x52":
            return self.no("reserved service", "ReservedService")
        if len(request) > EMBEDDED:
            return self.no("wrong size", "WrongSize")
        data = bytes([tick, ticks]) + put(len(request)) + request + bytes(len(request) % 2)
        data += bytes([len(path) // 2, 0]) + path
        if len(data) + 6 > MESSAGE:
            return self.no("wrong size", "WrongSize")
        self.hit("command", "taken")
        self.ops.add(op)
        return self.unconnected(("op", op), data)

    def open(self, *words):
        return self.asked(0x54, *words)

    def large(self, *words):
        return self.asked(0x5B, *words)

    def asked(self, service, op, tick, ticks, path, serial, multiplier, transport, ot_rpi, ot_params, to_rpi, to_params):
        if op in self.ops:
            return self.no("op used", "OpUsed")
        self.hit("command", "taken")
        self.ops.add(op)
        ids = bytes([tick, ticks]) + bytes(8) + put(serial) + put(0x0101) + put(self.serial, 4) + bytes([multiplier, 0, 0, 0])
        width = WIDTH[service]
        asked = put(ot_rpi, 4) + put(ot_params, width) + put(to_rpi, 4) + put(to_params, width)
        return self.forward_open(("op", op), ids + asked + bytes([transport, len(path) // 2]) + path, service)

    def close(self, op, of, tick, ticks):
        if op in self.ops:
            return self.no("op used", "OpUsed")
        triad, hop = self.opened_by(of)
        if hop is None:
            return self.no("not open", "NotOpen")
        self.hit("command", "taken")
        self.ops.add(op)
        spelled = put(triad[0]) + put(triad[1]) + put(triad[2], 4) + bytes([len(hop["path"]) // 2, 0]) + hop["path"]
        return self.forward_close(("op", op), bytes([tick, ticks]) + spelled)

    def enter(self, of, data):
        _, hop = self.opened_by(of)
        if hop is None:
            return self.no("not open", "NotOpen")
        if len(data) != hop["sizes"][0]:
            return self.no("wrong size", "WrongSize")
        return self.hit("command", "taken", [self.entered(hop, data)])

    def set(self, instance, data):
        if instance not in self.assemblies:
            return self.no("no instance", "NoInstance")
        if len(data) != self.sizes[instance]:
            return self.no("wrong size", "WrongSize")
        self.assemblies[instance] = data
        return self.hit("command", "taken", [])

    def produce(self, instance):
        if instance not in self.assemblies:
            return self.no("no instance", "NoInstance")
        outputs = []
        for _, hop in sorted(self.hops.items()):
            if hop["link"] is None and hop["end"][2] == instance:
                hop["produced"] = (hop["produced"] + 1) % 65536 if hop["class"] else 0
                outputs.append(self.produced(hop, put(hop["produced"])[: 2 * hop["class"]] + self.assemblies[instance]))
        return self.hit("command", "taken", outputs)

    # lines

    def step(self, words):
        """The lines that come of an event: its name, and what stands behind it as numbers and bytes."""
        return getattr(self, words[0])(*words[1:])

    def tables(self):
        """The lines of the state. An opening has none, nor have the counts of a connection that ends here."""
        lines = [f"now {self.now} id {self.id} number {self.number}"]
        for number, (up, port, address, due, words, kind) in sorted(self.pendings.items()):
            asker = f"op {up[1]}" if up[0] == "op" else f"{up[1]} {pairs(up[2])} {up[3]}"
            asked = f"{kind[0]} {' '.join(map(str, kind[1]))}" if kind else "unconnected"
            lines.append(f"pending {number} up {asker} down {port} {pairs(address)} due {due} words {words} {asked}")
        for triad, hop in sorted(self.hops.items()):
            up, link, due = hop["up"], hop["link"], " ".join("-" if it is None else str(it) for it in hop["due"])
            above = f"op {up[1]}" if up[0] == "op" else f"{up[1]} {pairs(up[2])} own {hop['own']} their {hop['their_up']}"
            below = "end " + " ".join(map(str, hop["end"])) if link is None else f"{link[0]} {pairs(link[1])}"
            below += "" if link is None else f" their {hop['their_down']} own {hop['down']}"
            sizes = f"path {pairs(hop['path'])} sizes {hop['sizes'][0]} {hop['sizes'][1]}"
            lines.append(f"hop {' '.join(map(str, triad))} up {above} down {below} watch {due} {sizes}")
        lines += [f"assembly {instance} {pairs(data)}" for instance, data in sorted(self.assemblies.items())]
        return lines + [f"op {op}" for op in sorted(self.ops)]
