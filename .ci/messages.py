"""What requests and replies say, read by docs/FORMATS.md and shown as docs/VIEWS.md has it.

`read_request` and `read_reply` read bytes; of what can't be read they raise Unreadable, whose text
is the fault that a view tells. `shown` of what they give is its JSON, as dictionaries and lists. A
path is a list of segments, each as it stands in the JSON.
"""

import os
import re
from dataclasses import dataclass
from struct import Struct

TOP = os.path.dirname(os.path.dirname(os.path.realpath(__file__)))
WORD, DOUBLE = 2, 4
# bit 7 of a service, which a reply has set
REPLY = 0x80
UNCONNECTED_SEND, FORWARD_OPEN, LARGE_FORWARD_OPEN, FORWARD_CLOSE = 0x52, 0x54, 0x5B, 0x4E
GET_ALL, GET_SINGLE, SET_SINGLE = 0x01, 0x0E, 0x10
OPENS = (FORWARD_OPEN, LARGE_FORWARD_OPEN)
SERVICES = {
    GET_ALL: "Get_Attributes_All",
    0x05: "Reset",
    GET_SINGLE: "Get_Attribute_Single",
    SET_SINGLE: "Set_Attribute_Single",
    FORWARD_CLOSE: "Forward_Close",
    UNCONNECTED_SEND: "Unconnected_Send",
    FORWARD_OPEN: "Forward_Open",
    LARGE_FORWARD_OPEN: "Large_Forward_Open",
}
IDENTITY, ASSEMBLY, MANAGER = 1, 4, 6
ASSEMBLY_DATA = 3
# the general status of success, and that beside which an additional status has a name of its own
SUCCESS, CONNECTION_FAILURE = 0, 1
# a row of a table of five columns in docs/STATUSES.md, which are those of statuses: two digits of a
# general one, four of an additional one, and the name
STATUS = re.compile(r"^\| ([0-9A-F]{2}|[0-9A-F]{4}) \| ([^|]+) \|(?:[^|\n]*\|){3}$", re.M)
PRIORITIES = ("low", "high", "scheduled", "urgent")
TYPES = ("null", "multicast", "point to point", "reserved")
TRIGGERS = {0: "cyclic", 1: "change of state", 2: "application object"}
# bytes of a link address, and characters of a product name
LONGEST_ADDRESS, LONGEST_NAME = 16, 32
# segment bytes: the bound of port segments; the types of logical segments, by bits 4 to 2
PORT_BOUND, EXTENDED_PORT, SIZED_ADDRESS = 0x20, 15, 0x10
LOGICAL = {0x20: "class", 0x24: "instance", 0x28: "member", 0x2C: "point", 0x30: "attribute"}
# the two low bits of a logical segment byte, and the bytes of its number; 32 bits only of these
WIDTHS = {0: 1, 1: WORD, 2: DOUBLE}
HAS_DOUBLE = ("instance", "point")
KEY, KEY_FORMAT, INHIBIT, DATA, SYMBOL = 0x34, 4, 0x43, 0x80, 0x91
# the segments of a path that names an object, and perhaps an attribute behind them
OBJECT = ["class", "instance"]
# the fields of data in the order of docs/FORMATS.md, each a byte (B), a word (H), a double (I), or
# reserved (x); the last one counts the words behind them
OPEN, LARGE_OPEN = Struct("<BBIIHHIB3xIHIHBB"), Struct("<BBIIHHIB3xIIIIBB")
OPENED, CLOSE, CLOSED = Struct("<IIHHIIIBx"), Struct("<BBHHIBx"), Struct("<HHIBx")
# of an Unconnected_Send before what it carries, and behind it
UNCONNECTED, ROUTE_SIZE = Struct("<BBH"), Struct("<Bx")
TRIAD = Struct("<HHI")
CUT, CUT_SEND = "the data is cut off", "the data of Unconnected_Send is cut off"


class Unreadable(Exception):
    """Bytes that are not what they should be; its text says why."""


def number_at(data, place, size=WORD):
    """A number, the lowest byte first."""
    return int.from_bytes(data[place : place + size], "little")


def pairs(data):
    """Bytes as upper-case pairs, a dash for none."""
    return data.hex().upper() or "-"


def status_names():
    """The names of general statuses and of additional ones, by their numbers."""
    with open(f"{TOP}/docs/STATUSES.md", encoding="utf-8") as file:
        rows = STATUS.findall(file.read())
    general = {int(digits, 16): name for digits, name in rows if len(digits) == 2}
    return general, {int(digits, 16): name for digits, name in rows if len(digits) == 4}


GENERAL_STATUSES, ADDITIONAL_STATUSES = status_names()


class Cursor:
    """The bytes of a path, read from front to back."""

    def __init__(self, data):
        self.data, self.place = data, 0

    def is_at_end(self):
        return self.place == len(self.data)

    def take(self, count):
        begin, self.place = self.place, self.place + count
        if len(self.data) < self.place:
            raise Unreadable("the path ends within a segment")
        return self.data[begin : self.place]

    def number(self, size=1):
        return number_at(self.take(size), 0, size)

    def pad(self):
        if self.number():
            raise Unreadable("a pad byte is not 00")

    def padded(self, count):
        """So many bytes, and a pad behind an odd number of them."""
        taken = self.take(count)
        if count % 2:
            self.pad()
        return taken


def reserved(byte):
    return Unreadable(f"the byte {byte} is reserved")


def port_segment(cursor, head):
    """A port and the link address behind it."""
    port, size = head % SIZED_ADDRESS, None
    if not port:
        raise reserved(head)
    if head & SIZED_ADDRESS:
        size = cursor.number()
        if not 1 <= size <= LONGEST_ADDRESS:
            raise reserved(size)
    if port == EXTENDED_PORT:
        port = cursor.number(WORD)
        if not port:
            raise reserved(port)
    address = cursor.take(1) if size is None else cursor.padded(size)
    return {"port": port, "address": pairs(address)}


def key_segment(cursor):
    """An electronic key."""
    key_format = cursor.number()
    if key_format != KEY_FORMAT:
        raise reserved(key_format)
    key = {name: cursor.number(WORD) for name in ("vendor", "device_type", "product")}
    major, key["minor"] = cursor.number(), cursor.number()
    return {"key": {**key, "major": major & 0x7F, "compatible": major >= 0x80}}


def segment(cursor):
    """The next segment of a path."""
    head = cursor.number()
    if head < PORT_BOUND:
        return port_segment(cursor, head)
    name, width = LOGICAL.get(head & ~3), WIDTHS.get(head & 3)
    if name and width and (width < DOUBLE or name in HAS_DOUBLE):
        if width > 1:
            cursor.pad()
        return {name: cursor.number(width)}
    if head == KEY:
        return key_segment(cursor)
    if head == INHIBIT:
        return {"inhibit_ms": cursor.number()}
    if head == DATA:
        return {"data": pairs(cursor.take(WORD * cursor.number()))}
    if head == SYMBOL:
        return {"symbol": pairs(cursor.padded(cursor.number()))}
    raise reserved(head)


def read_path(data):
    """The segments of a path."""
    cursor, path = Cursor(data), []
    while not cursor.is_at_end():
        path.append(segment(cursor))
    return path


def object_of(path):
    """Class, instance and attribute that a path names, where it is exactly these; the attribute is
    None where it names none."""
    names = [name for part in path for name in part]
    numbers = [number for part in path for number in part.values()]
    if names == OBJECT:
        return (*numbers, None)
    return tuple(numbers) if names == [*OBJECT, "attribute"] else None


def counted(layout, data):
    """The fields of a layout with which data begins; and the bytes behind them, which must be as
    many words as the last field says."""
    if len(data) < layout.size:
        raise Unreadable(CUT)
    *fields, words = layout.unpack_from(data)
    rest = data[layout.size :]
    if len(rest) < WORD * words:
        raise Unreadable(CUT)
    if len(rest) > WORD * words:
        raise Unreadable("bytes stand after the data")
    return fields, rest


def counted_path(layout, data):
    """The same where these bytes are a path."""
    fields, path = counted(layout, data)
    try:
        return fields, read_path(path)
    except Unreadable as fault:
        raise Unreadable(f"the path in the data can't be read: {fault}") from None


@dataclass(frozen=True)
class Triad:
    """The three numbers that name a connection."""

    serial: int
    vendor: int
    originator: int

    def shown(self):
        return {"serial": self.serial, "vendor": self.vendor, "originator": self.originator}


@dataclass(frozen=True)
class Timing:
    """A time-out: so many ticks, each of 2 to the power of the low four bits of `tick`
    milliseconds."""

    tick: int
    ticks: int

    def shown(self):
        return {"tick": self.tick, "ticks": self.ticks, "tick_ms": 1 << self.tick % 16}


@dataclass(frozen=True)
class UnconnectedSend:
    """The data of an Unconnected_Send: the bytes that it carries, and the way that they take."""

    timing: Timing
    carried: bytes
    route: list

    @staticmethod
    def read(data):
        if len(data) < UNCONNECTED.size:
            raise Unreadable(CUT_SEND)
        tick, ticks, size = UNCONNECTED.unpack_from(data)
        # a pad stands behind an odd number of bytes, and then the size of the route
        carried, rest = data[UNCONNECTED.size :][:size], data[UNCONNECTED.size + size + size % 2 :]
        if len(rest) < ROUTE_SIZE.size:
            raise Unreadable(CUT_SEND)
        (words,) = ROUTE_SIZE.unpack_from(rest)
        route = rest[ROUTE_SIZE.size :]
        if len(route) < WORD * words:
            raise Unreadable(CUT_SEND)
        if len(route) > WORD * words:
            raise Unreadable("bytes stand after the route")
        try:
            return UnconnectedSend(Timing(tick, ticks), carried, read_path(route))
        except Unreadable as fault:
            raise Unreadable(f"the route can't be read: {fault}") from None

    def shown(self):
        carried = read_or_fault(read_plain, self.carried)
        shown = unreadable(carried) if isinstance(carried, Unreadable) else carried.plain()
        sent = {"carries": shown, "route": self.route, "timing": self.timing.shown()}
        return {"unconnected_send": sent}


@dataclass(frozen=True)
class Direction:
    """One direction of an open: its id, its interval and its network connection parameters."""

    is_large: bool
    id: int
    rpi: int
    params: int

    def shown(self):
        # of a double the high word is laid out as a word is, but for the size
        bits = self.params >> 16 if self.is_large else self.params
        return {
            "id": self.id,
            "rpi_us": self.rpi,
            "params": self.params,
            "size": self.params & (0xFFFF if self.is_large else 0x1FF),
            "variable": bool(bits >> 9 & 1),
            "priority": PRIORITIES[bits >> 10 & 3],
            "type": TYPES[bits >> 13 & 3],
            "redundant": bool(bits >> 15),
        }


@dataclass(frozen=True)
class Open:
    """The data of a Forward_Open, or of a Large_Forward_Open, whose parameters are doubles."""

    is_large: bool
    timing: Timing
    triad: Triad
    multiplier: int
    ot: Direction
    to: Direction
    transport: int
    path: list

    @staticmethod
    def read(is_large, data):
        fields, path = counted_path(LARGE_OPEN if is_large else OPEN, data)
        tick, ticks, ot_id, to_id, *triad, multiplier, ot_rpi, ot, to_rpi, to, transport = fields
        ot, to = Direction(is_large, ot_id, ot_rpi, ot), Direction(is_large, to_id, to_rpi, to)
        head = is_large, Timing(tick, ticks), Triad(*triad), multiplier
        return Open(*head, ot, to, transport, path)

    @property
    def transport_class(self):
        return self.transport % 16

    def intervals(self):
        """How many intervals the connection timeout multiplier means, None of a reserved one."""
        return 4 << self.multiplier if self.multiplier < 8 else None

    def shown(self):
        trigger = TRIGGERS.get(self.transport >> 4 & 7, "reserved")
        is_server = bool(self.transport >> 7)
        transport = {"byte": self.transport, "class": self.transport_class}
        return {
            "open": {
                "large": self.is_large,
                "timing": self.timing.shown(),
                "triad": self.triad.shown(),
                "multiplier": {"code": self.multiplier, "intervals": self.intervals()},
                "ot": self.ot.shown(),
                "to": self.to.shown(),
                "transport": {**transport, "trigger": trigger, "server": is_server},
                "path": self.path,
            }
        }


@dataclass(frozen=True)
class Close:
    """The data of a Forward_Close."""

    timing: Timing
    triad: Triad
    path: list

    @staticmethod
    def read(data):
        (tick, ticks, *triad), path = counted_path(CLOSE, data)
        return Close(Timing(tick, ticks), Triad(*triad), path)

    def shown(self):
        timing, triad = self.timing.shown(), self.triad.shown()
        return {"close": {"timing": timing, "triad": triad, "path": self.path}}


def unreadable(fault):
    return {"unreadable": str(fault)}


def read_or_fault(reader, *arguments):
    """What a reader gives, or the fault that it raises."""
    try:
        return reader(*arguments)
    except Unreadable as fault:
        return fault


def shown_or_fault(found):
    """The JSON of what was read, or of the fault; null of neither."""
    if isinstance(found, Unreadable):
        return unreadable(found)
    return found and found.shown()


# attributes 1 to 6 of the Identity, and the bytes of each; behind them stands the product name
SIZES = {1: WORD, 2: WORD, 3: WORD, 4: WORD, 5: WORD, 6: DOUBLE}
NUMBERS = {1: "vendor", 2: "device_type", 3: "product", 5: "status", 6: "serial"}
REVISION, PRODUCT_NAME = 4, 7


@dataclass(frozen=True)
class Asked:
    """Attributes that a request asks for: `attribute` of the Identity, all of them where it is
    None; or the data of the assembly of an instance."""

    attribute: int | None = None
    instance: int | None = None

    @staticmethod
    def of(service, path):
        """What a request of a service and a path asks for, None where it is no attributes."""
        found = object_of(path)
        if not found:
            return None
        of_class, instance, attribute = found
        is_identity = (of_class, instance) == (IDENTITY, 1)
        if service == GET_ALL and is_identity and attribute is None:
            return Asked()
        if service != GET_SINGLE or attribute is None:
            return None
        if is_identity and attribute in (*SIZES, PRODUCT_NAME):
            return Asked(attribute=attribute)
        if of_class == ASSEMBLY and attribute == ASSEMBLY_DATA:
            return Asked(instance=instance)
        return None

    def answered(self, reply):
        """What a reply says of them; None where it is no success of the service that gives them,
        or its data is not in the format."""
        is_all = self.attribute is None and self.instance is None
        if reply.service != (GET_ALL if is_all else GET_SINGLE) | REPLY or reply.general:
            return None
        if self.instance is not None:
            return assembly(self.instance, reply.data)
        found = read_identity(reply.data) if is_all else read_attribute(self.attribute, reply.data)
        return found and {"identity": found}


def assembly(instance, data):
    return {"assembly": {"instance": instance, "data": pairs(data)}}


def product_name(data):
    """A product name behind its length, None where the data is none."""
    length, name = data[:1], data[1:]
    if list(length) != [len(name)] or len(name) > LONGEST_NAME:
        return None
    if not all(0x20 <= byte <= 0x7E for byte in name):
        return None
    return {"name": name.decode("ascii")}


def revision(data):
    return {"major": data[0], "minor": data[1]} if data[0] < 0x80 else None


def read_attribute(attribute, data):
    """The members of one attribute of the Identity, None where the data is none of it."""
    if attribute == PRODUCT_NAME:
        return product_name(data)
    if len(data) != SIZES[attribute]:
        return None
    if attribute == REVISION:
        return revision(data)
    return {NUMBERS[attribute]: number_at(data, 0, len(data))}


def read_identity(data):
    """The members of all attributes of the Identity, one behind the other."""
    members = {}
    for attribute in (*SIZES, PRODUCT_NAME):
        size = SIZES.get(attribute, len(data))
        found = read_attribute(attribute, data[:size])
        if not found:
            return None
        members |= found
        data = data[size:]
    return members


@dataclass(frozen=True)
class Request:
    """A request; `meaning` is what its data says where it goes to the Connection Manager: a record,
    or the fault; None of another request."""

    service: int
    path: list
    data: bytes
    meaning: object = None

    def plain(self):
        """Its JSON without what its data says."""
        service = SERVICES.get(self.service)
        return {
            "code": self.service,
            "service": service,
            "path": self.path,
            "data": pairs(self.data),
        }

    def shown(self):
        return {**self.plain(), "means": shown_or_fault(self.meaning)}

    def asked(self):
        """The attributes that it asks for, or that the request does which it carries."""
        if self.meaning is None:
            return Asked.of(self.service, self.path)
        if not isinstance(self.meaning, UnconnectedSend):
            return None
        carried = read_or_fault(read_plain, self.meaning.carried)
        if isinstance(carried, Unreadable):
            return None
        return Asked.of(carried.service, carried.path)

    def set_assembly(self):
        """The assembly that it sets, and to what; None where it sets none."""
        found = object_of(self.path)
        if self.service != SET_SINGLE or not found:
            return None
        of_class, instance, attribute = found
        if (of_class, attribute) != (ASSEMBLY, ASSEMBLY_DATA):
            return None
        return assembly(instance, self.data)


def read_plain(data):
    """A request, without what its data says."""
    if len(data) < 2:
        raise Unreadable("a request has at least its service and its path size")
    service, words = data[:2]
    if service & REPLY:
        raise Unreadable("bit 7 of a request's service is clear")
    end = 2 + WORD * words
    if len(data) < end:
        raise Unreadable("the path size passes the end of the request")
    try:
        return Request(service, read_path(data[2:end]), data[end:])
    except Unreadable as fault:
        raise Unreadable(f"the path of the request can't be read: {fault}") from None


def meaning_of(service, data):
    """What the data of a request to the Connection Manager says."""
    if service in OPENS:
        return Open.read(service == LARGE_FORWARD_OPEN, data)
    if service == FORWARD_CLOSE:
        return Close.read(data)
    return UnconnectedSend.read(data) if service == UNCONNECTED_SEND else None


def read_request(data):
    """A request, and what its data says."""
    plain = read_plain(data)
    if object_of(plain.path) != (MANAGER, 1, None):
        return plain
    meaning = read_or_fault(meaning_of, plain.service, plain.data)
    return Request(plain.service, plain.path, plain.data, meaning)


@dataclass(frozen=True)
class Opened:
    """The data of a successful open: ids and intervals of both directions, and the application
    reply."""

    triad: Triad
    ot_id: int
    ot_api: int
    to_id: int
    to_api: int
    reply: bytes

    @staticmethod
    def read(data):
        (ot_id, to_id, *triad, ot_api, to_api), reply = counted(OPENED, data)
        return Opened(Triad(*triad), ot_id, ot_api, to_id, to_api, reply)

    def shown(self):
        return {
            "opened": {
                "triad": self.triad.shown(),
                "ot": {"id": self.ot_id, "api_us": self.ot_api},
                "to": {"id": self.to_id, "api_us": self.to_api},
                "reply": pairs(self.reply),
            }
        }


@dataclass(frozen=True)
class Closed:
    """The data of a successful close."""

    triad: Triad
    reply: bytes

    @staticmethod
    def read(data):
        triad, reply = counted(CLOSED, data)
        return Closed(Triad(*triad), reply)

    def shown(self):
        return {"closed": {"triad": self.triad.shown(), "reply": pairs(self.reply)}}


@dataclass(frozen=True)
class Failed:
    """The data of a failed open or close: the triad, and how many words of the path were left; each
    None where its bytes are missing."""

    triad: Triad | None = None
    words: int | None = None

    @staticmethod
    def read(data):
        if not data:
            return Failed()
        if len(data) < TRIAD.size:
            raise Unreadable(CUT)
        words = data[TRIAD.size] if len(data) > TRIAD.size else None
        return Failed(Triad(*TRIAD.unpack_from(data)), words)

    def shown(self):
        triad = self.triad and self.triad.shown()
        return {"failed": {"triad": triad, "words_left": self.words}}


@dataclass(frozen=True)
class RouteLeft:
    """The data of a failed Unconnected_Send: how many words of the route were left."""

    words: int

    def shown(self):
        return {"failed": {"words_left": self.words}}


def answer_of(service, is_success, data):
    """What the data of a reply of a service of the Connection Manager says; None of another."""
    if service in OPENS:
        return Opened.read(data) if is_success else Failed.read(data)
    if service == FORWARD_CLOSE:
        return Closed.read(data) if is_success else Failed.read(data)
    if service == UNCONNECTED_SEND and not is_success and len(data) == 1:
        return RouteLeft(data[0])
    return None


@dataclass(frozen=True)
class Reply:
    """A reply; `answer` is what its data says, by its service alone: a record, or the fault."""

    service: int
    general: int
    extra: int | None
    data: bytes
    answer: object

    @property
    def is_failure(self):
        return self.general != SUCCESS

    def status_name(self):
        if self.general == CONNECTION_FAILURE and self.extra is not None:
            return ADDITIONAL_STATUSES.get(self.extra)
        return GENERAL_STATUSES.get(self.general)

    def shown(self):
        name = self.status_name()
        return {
            "code": self.service,
            "service": SERVICES.get(self.service & ~REPLY),
            "status": {"general": self.general, "extra": self.extra, "name": name},
            "data": pairs(self.data),
            "means": shown_or_fault(self.answer),
        }


def read_reply(data):
    """A reply, and what its data says."""
    if len(data) < 4:
        raise Unreadable(
            "a reply has at least its service, a reserved byte, its status and the size of its "
            "additional status"
        )
    service, _, general, words = data[:4]
    if not service & REPLY:
        raise Unreadable("bit 7 of a reply's service is set")
    end = 4 + WORD * words
    if len(data) < end:
        raise Unreadable("the additional status passes the end of the reply")
    extra = number_at(data, 4) if words else None
    answer = read_or_fault(answer_of, service & ~REPLY, general == SUCCESS, data[end:])
    return Reply(service, general, extra, data[end:], answer)


def service_label(service):
    """A service in short: by its name, or by its number."""
    plain = service & ~REPLY
    return SERVICES.get(plain, f"service {plain:02X}")


def status_label(reply):
    """A status in short."""
    if reply.general == CONNECTION_FAILURE and reply.extra is not None:
        return f"{reply.extra:04X}"
    return f"{reply.general:02X}" if reply.is_failure else "ok"
