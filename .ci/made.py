"""Transcripts that look like those of runs, and some that do not; and plants of many modules, with
runs over them.

The dice are numbers that look like chance, the same at each run. A transcript over the chassis has
messages of each kind that is decoded, as often as not another one: a byte changed, cut, or too
long. One in some has a faulty line, or is cut within a line, or begins within an entry. A plant's
addresses are texts with characters that mean something in XML; over it go runs, whose frames arrive
long after they were sent, and cycles of data with something else between some of them, and ticks of
all modules.
"""

NAMES = ("S", "A", "B", "E")
ADDRESSES = ("01", "03", "05", "00", "07", "10", "FE", "31302E302E302E31")
COMMANDS = ("send", "open", "large", "close", "enter", "set", "produce")
REFUSALS = ("OpUsed", "NotOpen", "WrongSize", "ReservedService", "NoInstance")
DROPS = ("Malformed", "Late", "UnknownId", "WrongSize")
TRIADS = ("1 257 13697281", "3 257 12648430", "65535 65535 4294967295", "0 0 0")
# the ids of the opens among the messages, and others
IDS = ("0", "16384", "20480", "1027", "4294967295", "7")
NOTES = (
    "quiet",
    "limit",
    "trail 0 1 2",
    "trail",
    "chain S A B E 0 101",
    "not open",
    "broken A",
    "tables B now 12 id 34 number 56",
    "  pending 1 2 03 due 250 words 4 unconnected",
    "  pending 9 2 FE due 250 words 0 opening 1 257 13697281",
    "  hop 1 257 13697281 up 2 01 own 16 their 64 down 1 03 their - own - watch 40 -",
    "  hop 1 257 13697281 up op 9 down end 101 102 103 watch - -",
    "  assembly 101 AABB",
)
FAULTS = (
    "0 S send",
    "x",
    "",
    "  ",
    "  0 send 2 0 request 1 00",
    "  0 send 2 05 request 1 0",
    "  0 send 2 05 request 4294967296 00",
    "  0 send 65536 05 request 1 00",
    "  0 sent 2 05 request 1 00",
    "  0 dropped Early",
    "  hop 1 2",
    "chain S 1",
    "quiet quiet",
    "broken X",
    "7 lost 1",
    "7 X send 1",
    "7 S frame 1.",
    "7 S tick 0",
    "tables B now",
    "\u00e9",
)
# one of each kind that is decoded, and some that can't be: identities, resets, attributes with a
# path of each segment, Unconnected_Sends, opens and closes, and such as end too early
REQUESTS = (
    "010220012401",
    "050220012401",
    "0E03200124013006",
    "1003200424653003AABBCCDD00",
    "4B0221000601",
    "0E1C210006012500010226000403020128012C653006340401010C00A60082018002AABBCCDD91054272617665"
    "004307020712053132333435000102",
    "52022006240107F8060001022001240101000207",
    "52022006240107F90D001003200424653003AABBCCDD0000020001030207",
    "52022006240107F906000102200124010C00020202020202020202020202020202020202020202020202",
    "52022006240107F90400010520010100030205",
    "4E022006240107F7010001010100D1000400200424642C652C66",
    "4E022006240107F901000101EEFFC0000B00340401010C00A600820101030207200424642C652C66",
    "54022006240107F70000000000400000010001010100D100000000001027000006481027000004480104200424"
    "642C652C66",
    "54022006240100FAFFFFFFFF01000080FFFFFFFFFFFFFFFF0700000040420F00FFFF40420F00FFFFFF04200424"
    "642C652C66",
    "5B022006240107F7000000000403000003000101EEFFC00000000000A08601005A020048A08601000A00004801"
    "04200424642C6E2C6F",
    "5B022006240107F70000000004030000030001",
    "54022006240107F7",
    "010220",
    "0100",
    "-",
)
# successes and failures of each service, with additional statuses and without, and such as end too
# early
REPLIES = (
    "8100000001010C000200010300000B0B0000024252",
    "81000000010107005800020100000300A1001752656D6F746520492F4F20313620696E203136206F7574",
    "85000000",
    "8E0000000200A100",
    "90000500",
    "90001300",
    "D2000101040201",
    "D200010112040203",
    "D2000000",
    "CE000000010001010100D1000000",
    "CE0001010701010001010100D1000300",
    "D40000000050000000400000010001010100D10010270000102700000000",
    "D40000000050000000400000010001010100D100102700001027000002001122334455",
    "D40001010601020001010200D1000400",
    "D4000901020001010200D10004",
    "DB000000010400000403000003000101EEFFC000A0860100A08601000000",
    "DB000200",
    "CB00FF02341256780102",
    "D4000000000000",
    "810001",
    "01000000",
    "-",
)
# with a sequence count and without
DATA = ("0100AABBCCDD", "0F01", "07", "02" + 71 * "00", "-")
# behind the sequence count
COUNTED = ("AABBCCDD", "07", "", "00000000000000000000000000000000")
# of a plant, as texts: ampersands, angle brackets and quotation marks at the beginning, in the
# middle, at the end and one behind the other, and texts of one, two and more characters
TEXTS = (
    "3C6126",
    "3E273E",
    "22622263",
    "26",
    "6161",
    "612D62",
    "266C743B",
    "6D69642627",
    "27",
    "686D69",
    "3C3C3C3C3C3C3C3C3C3C3C3C3C3C3C3C",
    "61262662",
)
# requests with paths whose symbols have such characters
SYMBOLS = (
    "01049105263C3E276100",
    "01039104263C3E27",
    "0104910561263C276200",
    "010291022626",
    "0103910461626364",
)
# the numbers of first entries: on both sides of another digit
FIRSTS = (0, 0, 0, 5, 95, 990, 9_990, 99_990, 4_294_967_290, 18_446_744_073_709_550_000)
NUMBERS = ("0", "9", "10", "99", "100", "9999", "10000", "4294967295")
# by how many milliseconds all modules tick, and one time in how many something else is there
MILLISECONDS = (1, 5, 65535)
OFTEN = (4, 15, 60, 1_000)


class Dice:
    """Numbers that look like chance."""

    def __init__(self, seed):
        self.state = seed

    def below(self, bound):
        """A number below this bound, or 0."""
        self.state = (self.state * 6_364_136_223_846_793_005 + 1_442_695_040_888_963_407) % 2**64
        return (self.state >> 33) % bound if bound else 0

    def is_rare(self, many):
        """One time in so many."""
        return self.below(many) == 0

    def one_of(self, words):
        return words[self.below(len(words))]


def message(dice, words):
    """One of these messages, as often as not another one: a byte changed, cut, or too long."""
    word = dice.one_of(words)
    place = 2 * dice.below(len(word) // 2 + 1)
    kind = dice.below(8)
    if kind == 0 and place + 2 <= len(word):
        return f"{word[:place]}{dice.below(256):02X}{word[place + 2 :]}"
    if kind == 1 and place:
        return word[:place]
    if kind == 2 and word != "-":
        return f"{word}{dice.below(256):02x}"
    return word


def frame(dice):
    port, address, number = dice.below(3) + 1, dice.one_of(ADDRESSES), dice.below(9)
    kind = dice.below(5)
    if kind < 2:
        return f"send {port} {address} request {number} {message(dice, REQUESTS)}"
    if kind < 4:
        return f"send {port} {address} reply {number} {message(dice, REPLIES)}"
    return f"send {port} {address} data {dice.one_of(IDS)} {message(dice, DATA)}"


def output(dice):
    """An output: in half of the cases a frame that goes out."""
    op, kind = dice.below(6), dice.below(14)
    if kind < 2:
        return f"done {op} {message(dice, REPLIES)}"
    if kind == 2:
        return f"refused {dice.one_of(REFUSALS)}"
    if kind == 3:
        # a count of its own, as a view says which datum repeats the one before
        count = dice.below(65_536)
        return f"consumed {dice.one_of(TRIADS)} {op} {count:04X}{dice.one_of(COUNTED)}"
    if kind == 4:
        return f"arrived {op} {message(dice, DATA)}"
    if kind == 5:
        return f"expired {dice.one_of(TRIADS)}"
    if kind == 6:
        return f"ended {op}"
    return f"dropped {dice.one_of(DROPS)}" if kind == 7 else frame(dice)


def entry(dice, number):
    """The line of an entry, which may be given a frame of one of the entries before."""
    name, sent = dice.one_of(NAMES), max(number - dice.below(3) - 1, 0)
    place, op, kind = dice.below(3), dice.below(6), dice.below(12)
    if kind == 0:
        return f"{number} lost {sent}.{place}\n"
    if kind == 1:
        return f"{number} {name} tick {dice.below(65_535) + 1}\n"
    if kind < 5:
        return f"{number} {name} {dice.one_of(COMMANDS)} {op}\n"
    return f"{number} {name} frame {sent}.{place}\n"


def transcript(dice, entries):
    """A transcript of so many entries, over the chassis."""
    text, first = "", dice.below(1_000) if dice.is_rare(3) else 0
    faulty, begin = dice.below(4 * entries), 0 if dice.is_rare(4) else 1
    for i in range(entries):
        if begin <= i:
            text += entry(dice, first + i)
        for k in range(dice.below(4)):
            text += f"  {k} {output(dice)}\n"
        if dice.is_rare(6):
            text += f"{dice.one_of(NOTES)}\n"
        if i == faulty:
            text += f"{dice.one_of(FAULTS)}\n"
    return text + "  0 send 2 05 req" * dice.is_rare(3)


def plant(modules):
    """A topology of so many modules, at most as many as there are addresses. Every third one has a
    second port."""
    text = '[[link]]\nname = "net-1"\nkind = "text"\nlongest = 16\n'
    text += '[[link]]\nname = "net_2"\nkind = "byte"\nfirst = 0\nlast = 255\n'
    for i, address in enumerate(TEXTS[:modules]):
        text += f'[[module]]\nname = "M{i}"\nkind = "plain"\nvendor = 257\ndevice_type = 14\n'
        text += f'product = 7\nmajor = 2\nminor = 1\nserial = {i}\nproduct_name = "P"\n'
        text += "first_id = 16\n"
        text += f'[[module.port]]\nnumber = 2\nlink = "net-1"\naddress = "{address}"\n'
        if i % 3 == 0:
            text += f'[[module.port]]\nnumber = 65535\nlink = "net_2"\naddress = "{i:02X}"\n'
    return text


def first_of(dice):
    """The number of the first entry."""
    return dice.one_of(FIRSTS)


def tick_of(number):
    """The milliseconds of the tick of an entry, of one to five digits: of another entry of a run
    they are others, so that no ticks stand in one row and none are folded, which a chart did not do
    before."""
    return number % 65_535 * 7_919 % 65_535 + 1


def send(dice, to):
    """A frame that goes out to a module, or to an address that no module has."""
    address = TEXTS[to] if to < len(TEXTS) else "7A7A7A"
    number, kind = dice.one_of(NUMBERS), dice.below(7)
    if kind < 2:
        return f"send 2 {address} request {number} {message(dice, REQUESTS)}"
    if kind == 2:
        return f"send 2 {address} request {number} {dice.one_of(SYMBOLS)}"
    if kind < 5:
        return f"send 2 {address} reply {number} {message(dice, REPLIES)}"
    return f"send 2 {address} data {number} {message(dice, DATA)}"


class Run:
    """A run over a plant of so many modules. A frame arrives after about so many others, and one
    entry in so many sends itself one."""

    def __init__(self, dice, modules, late, loops):
        self.dice, self.modules, self.late, self.loops = dice, modules, late, loops
        # the frames on their way: entry, output, and the module to which they go
        self.flying = []

    def head(self, number):
        """The line of an entry: a frame that arrives or is lost, a tick or a command. Returns the
        module too."""
        dice, flying = self.dice, self.flying
        at = dice.below(self.modules)
        if self.late < len(flying) or dice.is_rare(3) and flying:
            sent, place, to = flying.pop(min(dice.below(len(flying)), dice.below(len(flying))))
            if dice.is_rare(9):
                return f"{number} lost {sent}.{place}\n", at
            return f"{number} M{to} frame {sent}.{place}\n", to
        if dice.is_rare(3):
            return f"{number} M{at} tick {tick_of(number)}\n", at
        word = dice.one_of(COMMANDS)
        return f"{number} M{at} {word} {dice.one_of(NUMBERS)}\n", at

    def output(self, number, k, at):
        """An output of an entry: one of any kind, or a frame that is then on its way."""
        dice = self.dice
        if dice.is_rare(3):
            return output(dice)
        # one address more than there are modules
        other = dice.below(self.modules + 1)
        to = at if dice.is_rare(self.loops) else other
        sent = send(dice, to)
        if to < self.modules:
            self.flying.append((number, k, to))
        return sent

    def text(self, first, entries):
        """The transcript of so many entries, from this number on."""
        text = ""
        for number in range(first, first + entries):
            line, at = self.head(number)
            text += line
            for k in range(self.dice.below(3)):
                text += f"  {k} {self.output(number, k, at)}\n"
        return text


def rounds(dice, length, count, first):
    """So many rounds of cyclic data, each of so many entries: a module is told to produce and
    sends, and the next ones pass it on. With something else between some of them."""
    text, number = "", first
    for _ in range(count):
        text += f"{number} M0 produce 101\n"
        text += f"  0 send 2 {TEXTS[1]} data 20480 {dice.below(65_536):04X}\n"
        for i in range(1, length):
            text += f"{number + i} M{i % 3} frame {number + i - 1}.0\n"
            text += f"  0 send 2 {TEXTS[(i + 1) % 3]} data {i % 5} 0{i % 10}00\n"
            if i % 4 == 3:
                text += "  1 consumed 1 257 13697281 101 AABB\n"
        number += length
        if dice.is_rare(6):
            text += f"{number} M2 tick {tick_of(number)}\n"
            number += 1
    return text


def burst(number, count):
    """A module sends itself so many data in one entry, which arrive in the next ones."""
    sent = [f"  {k} send 2 {TEXTS[0]} data 20480 0A\n" for k in range(count)]
    come = [f"{number + k + 1} M0 frame {number}.{k}\n" for k in range(count)]
    consumed = "  0 consumed 1 257 13697281 101 0A\n"
    return f"{number} M0 produce 101\n{''.join(sent)}{''.join(line + consumed for line in come)}"


def ticks(dice, modules, count, first):
    """A run in which all modules tick so many times, one behind the other and by the same
    milliseconds, mostly the same each time, with so many data between two times, or none. In some
    there is something else now and then: a command or another tick between, what comes of a tick,
    or the last module ticks on alone."""
    text, number, data = "", first, dice.below(5)
    often, milliseconds = dice.one_of(OFTEN), dice.one_of(MILLISECONDS)
    for _ in range(count):
        if dice.is_rare(often):
            milliseconds = dice.one_of(MILLISECONDS)
        for at in range(modules):
            if dice.is_rare(often):
                text += f"{number} M{at} {dice.one_of(('tick', 'send', 'set'))} 7\n"
                number += 1
            text += f"{number} M{at} tick {milliseconds}\n"
            text += f"  0 {output(dice)}\n" if dice.is_rare(often) else ""
            number += 1
        for _ in range(dice.below(4) if dice.is_rare(often) else 0):
            text += f"{number} M{modules - 1} tick {milliseconds}\n"
            number += 1
        if data:
            text += burst(number, data)
            number += data + 1
    return text
