"""Draws events for the modules of the chassis, from what they sent before and from the words of the rules, and looks at tables
by themselves. What comes of an event is said by the oracle alone."""

import re

from oracle import CHASSIS, COUNT, HEADER, MOST, frames_of, is_path, put
from worked import IDENTITY, PATH, RESET, TIMING


class Life:
    """Draws events for modules, from what they sent before and from the rules' own words."""

    def __init__(self, draw, script, guard=""):
        self.draw, self.script, self.guard, self.pool, self.past, self.op = draw, script, guard, [], [], 0

    def one(self, *of):
        return self.draw.choice(of)

    def address(self):
        return self.one(b"\x01", b"\x05", b"\x00", b"\x03", b"\x07", b"\x06", b"\x40", b"\xff", b"abc")

    def hop(self):
        any_hop = (self.one(1, 2, 9), self.address())
        port, to = self.one((2, b"\x05"), (1, b"\x03"), (2, b"\x07"), (1, b"\x00"), (2, b"\x01"), any_hop)
        if len(to) > 1:
            return bytes([0x10 | port, len(to)]) + to + bytes(len(to) % 2)
        short = bytes([port]) + to
        return self.one(short, short, bytes([0x10 | port, 1]) + to + b"\x00", b"\x0f" + put(port) + to)

    def key(self):
        one = self.one
        kind, product = one((12, 1), (12, 2), (12, 3), (14, 9), (0, 0), (7, 0), (0, 77))
        revision = bytes([one(1, 1, 0x81, 0, 2), one(3, 3, 2, 0, 4)])
        return b"\x34\x04" + put(one(0, 257, 257, 258)) + put(kind) + put(product) + revision

    def number(self, kind, value):
        wide = self.one(0, 0, 0, 1, 2) if kind in (0x24, 0x2C) else self.one(0, 0, 1)
        if value > 255:
            wide = max(wide, 1)
        return [bytes([kind, value & 0xFF]), bytes([kind | 1, 0]) + put(value), bytes([kind | 2, 0]) + put(value, 4)][wide]

    def end(self):
        """An application path, or nearly one."""
        one, path = self.one, b""
        for value in (one(100, 100, 101), one(101, 101, 103, 99), one(102, 102, 101, 100)):
            path += self.number(one(0x24, 0x2C, 0x2C), value) + one(b"", b"", b"", b"\x43\x05")
        config = one(b"", b"", b"", b"\x80\x00", b"\x80\x02abcd", b"\x80\x03abcde\x00", b"\x91\x02ab")
        return one(b"", b"", b"\x43\x09") + self.number(0x20, one(4, 4, 4, 4, 4, 5)) + path + config

    def path(self, hops=3):
        path = b"".join(self.one(b"", b"", b"", b"", self.key()) + self.hop() for _ in range(self.draw.randrange(hops + 1)))
        path += self.one(b"", self.key(), self.end(), self.end(), self.end())
        path = self.one(PATH, PATH[2:], PATH[4:], PATH[6:], path)
        return path + self.one(b"", b"", b"", b"\x80\x02abc\x00", b"\x80\x02abcd")

    def object(self):
        """A path to an object, or nearly one."""
        one = self.one
        of_class = one(1, 1, 4, 4, 4, 6, 5, 300)
        instance = one(1, 1, 100, 101, 102, 103, 0, 99, 70_000) if of_class == 4 else one(1, 1, 1, 1, 0, 2)
        path = self.number(0x20, of_class)
        path += b"\x26\x00" + put(instance, 4) if instance > 65_535 else self.number(0x24, instance)
        attribute = self.number(0x30, one(1, 2, 3, 3, 4, 5, 6, 7, 8))
        return path + one(b"", attribute, self.number(0x30, 3), b"\x30\x03\x30\x03", b"\x43\x01")

    def plain_request(self):
        path = self.object()
        service = self.one(0x01, 0x05, 0x0E, 0x0E, 0x10, 0x10, 0x10, 0x4B, 0x52, 0x54, 0x5B, 0x4E)
        return bytes([service, len(path) // 2]) + path + self.one(b"", b"", b"a", b"ab", b"abcd", b"abcd", b"abcdef")

    def timing(self):
        return self.one(TIMING, TIMING, TIMING, (7, 1), (0, 2), (0, 60), (0xF5, 3), (15, 255), (1, 0))

    def params(self):
        one = self.one
        size = one(4, 6, 2, 0, 4, 6, 511)
        return one(0x4800, 0x4800, 0x4800, 0x4A00, 0x5C00, 0x4000, 0x2800, 0x0800, 0x6000, 0xC800) | size

    def widened(self, params):
        """Parameters of a word in a double word, the size mostly as it is."""
        return (params & 0xFE00) << 16 | params & 0x1FF | self.one(0, 0, 0, 0, 0x200, 0xFE00, 0x10000)

    def triad(self):
        one = self.one
        return put(one(0x42, 0x43, 0x44)) + put(one(0x0101, 0x0101, 0x0101, 2)) + put(one(0x0A0B0C0D, 0x0A0B0C0D, 0x0A0A), 4)

    def manager_request(self):
        """A request to a Connection Manager."""
        one, (tick, ticks), path = self.one, self.timing(), self.path()
        timing = bytes([tick, ticks])
        kind = one("open", "open", "large", "close", "send")
        if kind in ("open", "large"):
            fields = self.triad() + bytes([one(0, 0, 0, 1, 7, 8)]) + bytes(3) + put(one(10_000, 10_000, 1, 0, MOST), 4)
            sizes = one((0x4806, 0x4804), (0x4804, 0x4802), (self.params(), self.params()))
            width, service = (2, b"\x54") if kind == "open" else (4, b"\x5b")
            words = sizes if kind == "open" else (self.widened(sizes[0]), self.widened(sizes[1]))
            fields += put(words[0], width) + put(one(10_000, 10_000, 10_000, 0, 777), 4) + put(words[1], width)
            transport = one(0, 1) if sizes != (0x4804, 0x4802) else 0
            ids = put(one(0, 0, 5), 4) + put(one(0x11, 0x21, 0x31, 77), 4)
            last = bytes([one(transport, 1, 1, 0x81, 2, 3), len(path) // 2])
            data = service + HEADER + timing + ids + fields + last + path
        elif kind == "close":
            data = b"\x4e" + HEADER + timing + self.triad() + bytes([len(path) // 2, one(0, 0, 9)]) + path
        else:
            request = one(self.plain_request(), self.plain_request(), IDENTITY, b"", b"\x01\x05")
            pad = bytes([one(0, 0, 7)] * (len(request) % 2))
            size = bytes([len(path) // 2, one(0, 0, 9)])
            data = b"\x52" + HEADER + timing + put(len(request)) + request + pad + size + path
        return data

    def mutated(self, data):
        """Bytes that are nearly these."""
        draw, data = self.draw, bytearray(data)
        for _ in range(self.one(1, 1, 1, 2, 3)):
            place = draw.randrange(len(data) + 1)
            how = self.one("cut", "more", "byte", "byte", "bit", "bit", "bit", "insert", "delete")
            if how == "cut":
                del data[place:]
            elif how == "more":
                data += bytes(self.one(0, 0xFF, 1) for _ in range(draw.randrange(1, 4)))
            elif how == "insert":
                data.insert(place, draw.randrange(256))
            elif place < len(data):
                if how == "delete":
                    del data[place]
                else:
                    data[place] = draw.randrange(256) if how == "byte" else data[place] ^ 1 << draw.randrange(8)
        return bytes(data)

    def command(self, name):
        one, path = self.one, self.one(PATH, PATH, self.path())
        self.op += 1
        op = one(*[self.op] * 9, max(1, self.op - 1))
        opened = [it["up"][1] for it in self.script.modules[name].hops.values() if it["up"][0] == "op"]
        of = one(*opened * 3, max(1, self.op - self.draw.randrange(8)))
        kind = one(*["send"] * 2, *["open"] * 2, "large", "close", *["enter"] * 4, "set", *["produce"] * 2)
        if kind in ("send", "open", "large") and not is_path(path):
            path = PATH
        if kind == "send":
            request = one(self.plain_request(), IDENTITY, b"", b"\x52", bytes(one(1_380, 1_384, 1_400)))
            return name, ("send", op, *self.timing(), path[:-8] if one(0, 1) and is_path(path[:-8]) else path, request)
        if kind in ("open", "large"):
            output, params = one((b"\x65", 0x4806), (b"\x67", 0x4806), (b"\x64", 0x4802)), (0x4806, 0x4804)
            if path == PATH:
                path, params = PATH[:11] + output[0] + PATH[12:], (output[1], 0x4804)
            opens = (one(0x42, 0x43, 0x44), one(0, 0, 0, 3), 1, one(10_000, 20_000), params[0], 10_000, params[1])
            odd = (one(0x42, 0x43), one(0, 9), one(1, 0, 3), one(10_000, 0, 777), self.params(), one(10_000, 0), self.params())
            asked = list(one(opens, opens, opens, odd))
            if kind == "large":
                asked[4], asked[6] = self.widened(asked[4]), self.widened(asked[6])
            return name, (kind, op, *self.timing(), path, *asked)
        if kind == "close":
            return name, ("close", op, of, *self.timing())
        if kind == "enter":
            return name, ("enter", of, put(one(1, 2, 3)) + bytes(one(4, 4, 4, 4, 4, 2, 3, 0)))
        instance = one(100, 101, 102, 102, 102, 103, 99, 70_000)
        return ("E" if one(0, 1, 1) else name), (kind, instance, *([bytes(one(0, 2, 4, 5))] if kind == "set" else []))

    def datum(self):
        """A datum under an id that a module may have."""
        one, name = self.one, self.one(*[name for name, it in self.script.modules.items() if it.hops], "A")
        module = self.script.modules[name]
        port, sender, number, size = one(*module.ports, 3), self.address(), module.id, 6
        if module.hops:
            hop = one(*module.hops.values())
            sides = [(*hop["up"][1:3], hop["own"], 0)] if hop["up"][0] == "link" else []
            sides += [(*hop["link"], hop["down"], 1)] if hop["link"] else []
            port, sender, number, side = one(*sides)
            size = hop["sizes"][side]
        size = one(*[size] * 5, size + 1, max(0, size - 1))
        number = max(0, one(*[number] * 8, number - 1, 0))
        return name, ("data", port, one(*[sender] * 8, self.address()), number, (put(one(1, 1, 2)) + bytes(600))[:size])

    def drawn(self):
        draw, chance = self.draw, self.draw.random()
        name = self.one("S", "S", "A", "A", "A", "B", "B", "E", "E")
        if self.pool and chance < 0.54:
            return self.pool.pop(draw.randrange(len(self.pool)) if chance < 0.2 else 0)
        if self.pool and chance < 0.60:
            name, words = draw.choice(self.pool)
            return name, (*words[:4], self.mutated(words[4]))
        if self.past and chance < 0.64:
            name, words = draw.choice(self.past[-40:])
            words = self.one(words, (*words[:2], self.address(), *words[3:]), (*words[:3], max(0, words[3] - 1), words[4]))
            return name, words
        if chance < 0.80:
            return self.command(self.one("S", "S", "S", "S", name))
        if chance < 0.83:
            return name, ("tick", self.one(1, 1, 1, 1, 9, 20, 39, 40, self.one(41, 500, 32_000, 65_535)))
        if chance < 0.92:
            return self.datum()
        strange = (name, self.one(1, 2, 3), self.address())
        name, port, sender = self.one(("A", 2, b"\x01"), ("B", 1, b"\x00"), *[("E", 2, b"\x01")] * 2, strange)
        request = self.one(self.manager_request(), self.manager_request(), self.plain_request())
        request = self.one(request, request, request, self.mutated(request))
        return name, ("request", port, sender, draw.randrange(20), request)

    def reset(self):
        """A Reset: by a link, carried by an Unconnected_Send, or to S from its own application."""
        request, number = RESET + self.one(b"", b"\x00", b"\x01", b"\xff"), self.draw.randrange(20)
        carried = b"\x52" + HEADER + bytes(TIMING) + put(len(request)) + request + bytes(len(request) % 2) + b"\0\0"
        name, port, sender = self.one(("A", 2, b"\x01"), ("B", 1, b"\x00"), ("E", 2, b"\x01"), ("S", 2, b"\x05"))
        if name == "S" and self.one(0, 1):
            self.op += 1
            return name, ("send", self.op, *TIMING, b"", request)
        return name, ("request", port, sender, number, self.one(request, carried))

    def step(self, resets=False):
        name, words = self.reset() if resets else self.drawn()
        lines = self.script.event(name, words, guard=self.guard)
        if words[0] in ("request", "reply", "data"):
            self.past.append((name, words))
        self.pool += [frame for frame in frames_of(name, lines) if frame]
        del self.pool[:-30]
        self.script.tables(name)


# how many events modules live
ROUND = 250
# which numbers few are left of, and how many
SETTINGS = [("pending_room", 1, 3), ("hop_room", 1, 3), ("first_id", MOST - 5, MOST), ("first_number", COUNT - 3, COUNT)]


def rooms(draw):
    """Settings for a round: most modules have none."""
    made = {}
    for name in CHASSIS:
        if draw.random() < 0.3:
            key, low, high = draw.choice(SETTINGS)
            made[name] = {key: draw.randrange(low, high + 1)}
    made["E"] = {**made.get("E", {}), "kind": draw.choice((0, 1, 2, 2)), "sizes": draw.choice((0, 0, 1))}
    return made


def lived(script, draw, count, guard=""):
    """Adds so many events of a life to a script, with modules that are made anew now and then."""
    for number in range(0, count, ROUND):
        script.fresh(**rooms(draw))
        life = Life(draw, script, guard)
        for _ in range(min(ROUND, count - number)):
            life.step()
    return script


def reset_often(script, draw, count, resets):
    """Adds so many events to a script, and among them so many resets of modules that are made once."""
    script.fresh(E={"kind": draw.choice((0, 1, 2))})
    life = Life(draw, script)
    for number in range(count):
        life.step(number % (count // resets) == count // resets - 1)
    return script


def broken(name, lines, seen):
    """What is wrong with a module's tables by themselves. `seen` has its last id and number before."""
    _, now, _, last_id, _, last_number = lines[0].split()
    found, ids, triads, outputs = [], [], [], []
    if any(int(it) < before for it, before in zip((now, last_id, last_number), seen.get(name, (0, 0, 0)))):
        found.append("time, an id or a number fell")
    seen[name] = int(now), int(last_id), int(last_number)
    pendings = [line.split() for line in lines if line.startswith("pending")]
    sizes = {words[1]: words[2] for words in (line.split() for line in lines) if words[0] == "assembly"}
    for words in pendings:
        if int(words[1]) > int(last_number):
            found.append("a pending has a number to come")
        if "opening" in words or "large" in words:
            triads.append(words[-3:])
    for line in lines:
        if line.startswith("hop"):
            triads.append(line.split()[1:4])
            ids += re.findall(r"\bown (\d+)", line)
            end = re.search(r" end \d+ (\d+) ", line)
            outputs += [end.group(1)] if end and sizes.get(end.group(1)) != "-" else []
    numbers = [words[1] for words in pendings]
    for what, them in (("number", numbers), ("id", ids), ("triad", list(map(tuple, triads))), ("output", outputs)):
        if len(set(them)) < len(them):
            found.append(f"one {what} stands twice")
    return found + ["an id to come"] * any(int(it) > int(last_id) for it in ids)
