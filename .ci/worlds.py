"""Calls of a world, and runs of modules on threads, that are refused memory: the lines of the driver crates/played_worlds, what must come
of each, and how it is played. And what is played once: boxes that count their steps, steps and commits that are held, the book by itself,
the console over boxes and readers with which it never runs a script, and what a screen beside a transcript shows."""

import os
import re
import subprocess
import threading
import time
from collections import Counter

from oracle import CHASSIS

# how long a script may take, and how long a thread may take to be gone once it was joined
SECONDS, GONE = 10, 1.0
TIMING, REQUEST, ANSWER = "7 250", "010220012401", "8100000001010C000200010300000B0B0000024252"
SEND = f"send S 1 {TIMING} 02050103 {REQUEST}"
OPEN = f"open S 1 {TIMING} 020501030207200424642C652C66 0x42 0 1 10000 0x4806 10000 0x4804"
NO_MODULE, NO_FRAME, FULL = ["no such module"], ["no such frame waits"], ["the clock is full"]
COUNT = ["there are not as many modules as in the topology"]
FRESH, QUIET, LIMIT = ["fresh"], ["quiet"], ["limit"]
NOT_OPEN, BROKEN = ["no connection of that op is open"], ["the chain is broken"]
SENT = ["0 S send 1", f"  0 send 2 05 request 1 52022006240107F90600{REQUEST}01000103"]
HOPS = [
    *("1 A frame 0.0", f"  0 send 1 03 request 1 {REQUEST}"),
    *("2 B frame 1.0", f"  0 send 1 00 reply 1 {ANSWER}"),
    *("3 A frame 2.0", f"  0 send 2 01 reply 1 {ANSWER}"),
    *("4 S frame 3.0", f"  0 done 1 {ANSWER}"),
]


def other(place):
    return [f"module {place} has another config than the topology says"]


def stale(place):
    return [f"module {place} is not as at the beginning"]


def entry(number):
    return [f"entry {number}"]


def tables(name, now=0, last=0, rows=()):
    """The tables of a module whose last number is this; E has its assemblies, of which nothing was consumed."""
    first_id = {"S": 0x11, "A": 0x21, "B": 0x31, "E": 0x41, "S2": 0x51}[name]
    zeros = [f"  assembly {instance} {'00' * size or '-'}" for instance, size in ((100, 0), (101, 4), (102, 2), (103, 4))]
    return [f"tables {name} now {now} id {first_id - 1} number {last}", *rows, *(zeros if name == "E" else [])]


# Worlds that are made, or not: there are too few modules, or others, or one took a step before.
MADE = [
    *(("new 0123", FRESH), ("new 012", COUNT), ("new 01233", COUNT), ("new 102", COUNT), ("new ", COUNT)),
    *(("new 1023", other(0)), ("new 0132", other(2)), ("new 0123 1", stale(1)), ("new 0123 3", stale(3))),
    *(("new 0132 1", other(2)), ("new 012 1", COUNT)),
    *(("check 0123", FRESH), ("check 012", COUNT), ("check 1023", other(0)), ("check 0123 1", stale(1)), ("check 0123 3", stale(3))),
]

# A request and its reply, with frames that do not wait, and modules that are not there.
ASKED = [
    *((SEND.replace("S", "X"), NO_MODULE), ("tick X 1", NO_MODULE), ("tables X", NO_MODULE), ("journal", []), ("run 5", QUIET)),
    *(("deliver 0.0", NO_FRAME), ("least", ["none"]), ("quiet", QUIET), ("waiting", ["waiting"]), ("trail S 1", ["trail"])),
    *((SEND, entry(0)), ("waiting", ["waiting 0.0"]), ("quiet", LIMIT), ("run 0", LIMIT), ("run 2", LIMIT), ("waiting", ["waiting 2.0"])),
    *(("deliver 0.0", NO_FRAME), ("lose 0.0", NO_FRAME), ("trail S 1", ["trail 0 1 2"])),
    ("tables S", tables("S", last=1, rows=["  pending 1 2 05 due 32000000 words 2 unconnected"])),
    *(("least", ["arrived"]), ("deliver 3.0", entry(4)), ("quiet", QUIET), ("run 10", QUIET), ("journal", SENT + HOPS)),
    *(("tick A 7", entry(5)), ("tables A", tables("A", 7_000, 1)), ("tables E", tables("E")), ("chain S 1", NOT_OPEN)),
    *((SEND.replace("S 1", "S 2"), entry(6)), ("lose 6.0", entry(7)), ("deliver 6.0", NO_FRAME), ("trail S 2", ["trail 6"])),
    *((SEND.replace("S 1", "S 3"), entry(8)), (SEND.replace("S 1", "S 4"), entry(9)), ("waiting", ["waiting 8.0 9.0"])),
    *(("deliver 9.0", entry(10)), ("deliver 9.0", NO_FRAME), ("lose 10.0", entry(11)), ("deliver 10.0", NO_FRAME)),
    *(("run 20", QUIET), ("tick S 65535", entry(16)), ("waiting", ["waiting"])),
]

# A connection that is opened, carries data both ways, is closed and opened again, and lapses at its end.
CONNECTED = [
    *((OPEN, entry(0)), ("chain S 1", NOT_OPEN), ("run 3", LIMIT), ("run 20", QUIET), ("trail S 1", ["trail 0 1 2 3"])),
    *(("chain S 1", ["chain S A B E end 101 102"]), ("enter S 1 0100AABBCCDD", entry(7)), ("run 20", QUIET)),
    *(("produce E 102", entry(11)), ("deliver 11.0", entry(12)), ("least", ["arrived"]), ("run 20", QUIET)),
    *((f"close S 2 1 {TIMING}", entry(15)), ("run 20", QUIET), ("chain S 1", NOT_OPEN), ("trail S 2", ["trail"])),
    *((OPEN.replace("S 1", "S 3"), entry(22)), ("run 20", QUIET), ("chain S 3", ["chain S A B E end 101 102"])),
    *(("tick E 1000", entry(29)), ("chain S 3", BROKEN)),
]

# Where each frame of that request came in, and from which entry others come; how runs end that deliver so many.
CAME = ["came 1 A 2 [1]", "came 2 B 1 [0]", "came 3 A 1 [3]", "came 4 S 2 [5]"]
ENDED = [
    *(("run 0", QUIET), (SEND, entry(0)), ("run 1", LIMIT), ("run 0", LIMIT), ("run 10", QUIET), ("run 0", QUIET)),
    *(("journal", SENT + HOPS), ("came", CAME), ("root 4", ["root Some(0)"]), ("root 5", ["root None"])),
]

# Frames one by one, of which the least is delivered, or one by its name.
ONE_BY_ONE = [
    *(("least", ["none"]), (SEND, entry(0)), ("least", ["arrived"]), ("deliver 1.0", entry(2)), ("deliver 2.0", entry(3))),
    *(("deliver 3.0", entry(4)), ("least", ["none"]), ("journal", SENT + HOPS), ("came", CAME)),
]

# What waits, in rising name, and a loss.
SENT_AGAIN = ["1 S send 2", f"  0 send 2 05 request 2 52022006240107F90600{REQUEST}01000103"]
PASSED_ON = ["2 A frame 1.0", f"  0 send 1 03 request 1 {REQUEST}"]
WAITING = [
    *(("waiting", ["waiting"]), (SEND, entry(0)), ("waiting", ["waiting 0.0"]), (SEND.replace("S 1", "S 2"), entry(1))),
    *(("waiting", ["waiting 0.0 1.0"]), ("deliver 1.0", entry(2)), ("waiting", ["waiting 0.0 2.0"]), ("lose 0.0", entry(3))),
    *(("waiting", ["waiting 2.0"]), ("journal", [*SENT, *SENT_AGAIN, *PASSED_ON, "3 lost 0.0"])),
]

# Time goes by at one module alone.
TICKED_ALONE = [
    *(("tick A 7", entry(0)), (SEND, entry(1)), ("tables A", tables("A", 7_000))),
    ("tables S", tables("S", last=1, rows=["  pending 1 2 05 due 32000000 words 2 unconnected"])),
]

# Addresses that lead back to the sender, or nowhere.
IDENTITY = "8100000001010E000900010300000D0C0B0A025343"
TO_ITSELF = [
    *((f"send S 1 {TIMING} 0201 {REQUEST}", entry(0)), ("run 10", QUIET), ("came", ["came 1 S 2 [1]", "came 2 S 2 [1]"])),
    (
        "journal",
        [
            *("0 S send 1", f"  0 send 2 01 request 1 {REQUEST}", "1 S frame 0.0", f"  0 send 2 01 reply 1 {IDENTITY}"),
            *("2 S frame 1.0", f"  0 done 1 {IDENTITY}"),
        ],
    ),
]
TO_NOBODY = [
    *((f"send S 1 {TIMING} 0209 {REQUEST}", entry(0)), ("waiting", ["waiting"]), ("deliver 0.0", NO_FRAME), ("lose 0.0", NO_FRAME)),
    *(("run 5", QUIET), ("tick S 32000", entry(1)), ("came", [])),
    ("journal", ["0 S send 1", f"  0 send 2 09 request 1 {REQUEST}", "1 S tick 32000", "  0 done 1 D2000101040201"]),
]
OUT_AND_IN = [
    *((f"send M 1 {TIMING} 0104 {REQUEST}", entry(0)), ("run 10", QUIET), ("came", ["came 1 M 2 [3]", "came 2 M 1 [4]"])),
    (
        "journal",
        [
            *("0 M send 1", f"  0 send 1 04 request 1 {REQUEST}", "1 M frame 0.0", f"  0 send 2 03 reply 1 {IDENTITY}"),
            *("2 M frame 1.0", f"  0 done 1 {IDENTITY}"),
        ],
    ),
]

# Op 1 is refused once, the request of op 3 is lost, and that of op 4 waits.
TRAILS = [
    *((SEND, entry(0)), (SEND.replace("S 1", "S 2"), entry(1)), (SEND, entry(2)), ("run 10", QUIET)),
    *((SEND.replace("S 1", "S 5"), entry(11)), (SEND.replace("S 1", "S 3"), entry(12)), ("deliver 11.0", entry(13))),
    *(("lose 12.0", entry(14)), ("run 10", QUIET), (SEND.replace("S 1", "S 4"), entry(18)), ("trail S 1", ["trail 0 3 5"])),
    ("trails", ["alike"]),
]

# The scanner's clock is at its end.
LATE = [("tick S 1", FULL), ("journal", []), ("tick A 1", entry(0)), ("journal", ["0 A tick 1"])]

# Where frames go: to an address of nobody, by a port that is not there, from a bridge to itself, to the adapter and back, and from the
# second bridge to nobody.
WAYS = [
    *((f"send S 1 {TIMING} 0203 {REQUEST}", entry(0)), (f"send S 2 {TIMING} 0105 {REQUEST}", entry(1)), ("waiting", ["waiting"])),
    *((f"send S 3 {TIMING} 02050100 {REQUEST}", entry(2)), ("run 10", QUIET)),
    *((f"send S 4 {TIMING} 020501030207 {REQUEST}", entry(7)), ("run 10", QUIET)),
    *((f"send S 5 {TIMING} 020501030200 {REQUEST}", entry(14)), ("run 10", QUIET)),
    (
        "came",
        [
            *("came 3 A 2 [1]", "came 4 A 1 [0]", "came 5 A 1 [0]", "came 6 S 2 [5]"),
            *("came 8 A 2 [1]", "came 9 B 1 [0]", "came 10 E 2 [1]", "came 11 B 2 [7]", "came 12 A 1 [3]", "came 13 S 2 [5]"),
            *("came 15 A 2 [1]", "came 16 B 1 [0]"),
        ],
    ),
]
BOTH_KINDS = [MADE, ASKED, CONNECTED, ENDED, ONE_BY_ONE, WAITING, TICKED_ALONE, TO_ITSELF, TO_NOBODY, WAYS, TRAILS]
PLAYED = {"plain": BOTH_KINDS, "indexed": BOTH_KINDS, "late": [LATE], "ports": [OUT_AND_IN]}


class Ran:
    """What a run on threads comes to: its end, how many feeds and frames are left, its entries in any order, and the tables; also of how
    many entries the way of the first request is, and whether its last came of its first."""

    def __init__(self, end, feeds, frames, entries, tables, way=0):
        self.told = end, feeds, frames, Counter(entries), tables, (way, way > 0)

    @staticmethod
    def of(block):
        end, feeds, waiting, *lines = block
        place = next(k for k, line in enumerate(lines) if line.startswith("tables "))
        last = next(k for k, line in enumerate(lines) if line.startswith("trail"))
        way, root = lines[last].split()[1:], "".join(lines[last + 1 :])
        # numbers of entries go by the order of the threads, and not what is told of each
        entries = re.split(r"\n(?! )", "\n".join(lines[:place])) if place else []
        entries = [re.sub(r" frame \d+\.\d+$", " frame", it.split(" ", 1)[1], flags=re.M) for it in entries]
        ran = Ran(end, int(feeds.split()[1]), len(waiting.split()) - 1, entries, lines[place:last])
        ran.told = *ran.told[:-1], (len(way), bool(way) and root == f"root Some({way[0]})")
        return ran


def request(scanner, address, entries):
    """The entries of a scanner's request by way of A to B, or the first of them."""
    done = [
        f"{scanner} send 1\n{SENT[1]}",
        f"A frame\n  0 send 1 03 request NUMBER {REQUEST}",
        f"B frame\n  0 send 1 00 reply NUMBER {ANSWER}",
        f"A frame\n  0 send 2 {address} reply 1 {ANSWER}",
        f"{scanner} frame\n  0 done 1 {ANSWER}",
    ]
    return [it.replace("NUMBER", "1" if scanner == "S" else "2") for it in done[:entries]]


def all_tables(names="SABE", **changed):
    return [line for name in [*names] for line in changed.get(name, tables(name))]


SECOND = f"{SEND.replace('S 1', 'S2 1')}"
TWO = ["S", "A", "B", "E", "S2"]
WAITS = ["  pending 1 2 05 due 32000000 words 2 unconnected"]
LATER = {name: tables(name, 1_000) for name in CHASSIS}
ONE_OF_TWO = [
    Ran("limit", 1, 1, request("S", "01", 1), all_tables(TWO, S=tables("S", last=1, rows=WAITS)), 1),
    Ran("limit", 1, 1, request("S2", "02", 1), all_tables(TWO, S2=tables("S2", last=1, rows=WAITS))),
]
BOTH = request("S", "01", 5) + request("S2", "02", 5)
ALL_OF_TWO = Ran("quiet", 0, 0, BOTH, all_tables(TWO, S=tables("S", last=1), A=tables("A", last=2), S2=tables("S2", last=1)), 3)
ALL_OF_ONE = Ran("quiet", 0, 0, request("S", "01", 5), all_tables(S=tables("S", last=1), A=tables("A", last=1)), 3)
NOTHING = Ran("quiet", 0, 0, [], all_tables())
UNTAKEN = Ran("limit", 1, 0, [], all_tables())
AT_ITS_END = Ran("quiet", 0, 0, [], all_tables(S=tables("S", 2**63 - 1)))
TICKED = Ran("quiet", 0, 0, [f"{name} tick 1" for name in CHASSIS], all_tables(**LATER))

# What modules on threads are given, how many turns they have, and what comes of it.
THREADS = {
    "two": [
        *((f"feed {SEND}", []), (f"feed {SECOND}", []), ("threads 100 01234", [ALL_OF_TWO])),
        *((f"feed {SEND}", []), (f"feed {SECOND}", []), ("threads 1 01234", ONE_OF_TWO)),
    ],
    "plain": [
        *((f"feed {SEND}", []), ("threads 100 0123", [ALL_OF_ONE]), ("threads 100 0123", [NOTHING])),
        *((f"feed {SEND}", []), ("threads 0 0123", [UNTAKEN])),
        *((f"feed tick {name} 1", []) for name in CHASSIS),
        *(("threads 100 0123", [TICKED]), (f"feed {SEND}", []), ("threads 100 012", COUNT), ("threads 100 1023", other(0))),
        ("threads 100 0123 1", stale(1)),
    ],
    "indexed": [(f"feed {SEND}", []), ("threads 100 0123", [ALL_OF_ONE])],
    "late": [("feed tick S 1", []), ("threads 100 0123", FULL), ("threads 100 0123", [AT_ITS_END])],
}

# Modules that wait for one another: how many steps and first commits found all come, and the run.
HELD = [
    # The commits of both scanners wait for one another.
    *((f"feed {SEND}", []), (f"feed {SECOND}", []), ("held 0 2 100", ["steps 10 entries 4", ALL_OF_TWO])),
    # So do the first steps of all five modules.
    *((f"feed tick {name} 1", []) for name in TWO),
    (
        "held 5 0 100",
        ["steps 5 entries 5", Ran("quiet", 0, 0, [f"{it} tick 1" for it in TWO], [line for it in TWO for line in tables(it, 1_000)])],
    ),
]

# Calls of a world whose boxes count their steps, and how many they took in the end.
COUNTED = [
    ([], 0),
    ([(SEND, entry(0))], 1),
    ([(SEND, entry(0)), ("run 10", QUIET), ("tables S", tables("S", last=1))], 5),
    # The boxes have no call of their own that finds a connection: their tables tell which one the op opened.
    ([(OPEN, entry(0)), ("run 100", QUIET), ("chain S 1", ["chain S A B E end 101 102"])], 7),
]

# The book of the chassis, in which the scanner is to send one request: how many turns may be taken, the calls and what they give.
BOOKS = [
    (
        100,
        [
            *(("hand 0", "work"), ("hand 0", "held"), ("hand 1", "not yet"), ("enter 1 -", "nothing in hand"), ("enter 0", "entered")),
            *(("hand 1", "work"), ("stop", "stopped"), ("hand 2", "stop")),
        ],
    ),
    # A module, and turns, that are not there.
    (
        1,
        [
            *(("hand 4", "stop"), ("enter 4 -", "nothing in hand"), ("hand 0", "work"), ("hand 1", "stop"), ("enter 0 -", "entered")),
            ("hand 0", "stop"),
        ],
    ),
    # Nothing was put out.
    (100, [("hand 0", "work"), ("enter 0 -", "entered"), ("hand 0", "stop")]),
]

# Runs beside a screen, and the lines that it shows. A telling reads the time again, and the next is due 100 ms later. On the screen of a
# transcript the line is taken away before each piece.
SECOND_PIECE, FOURTH_PIECE = (f"Progress {{ done: {done}, waiting: 7 }}" for done in (2, 4))
WATCHED = [
    ("alone 3 0 500 999", []),
    ("alone 4 999 1000 1010 1109 1110 1110", [SECOND_PIECE, FOURTH_PIECE, "Cleared"]),
    ("beside 4 999 1000 1010 1109 1110 1110", [SECOND_PIECE, "Cleared", FOURTH_PIECE, "Cleared"]),
    ("beside 1 999", []),
]

# Boxes that are handed to the console and are not those of the topology, scripts, and the fault; of which a faulty line comes first, and a
# reader that fails before both. Each with which reads of it fail, where one does.
TICK, LIMIT_OF_A_SCRIPT = "tick S 1\n", 1_048_576
FAULTY, UNREAD = ["line 2: unknown word"], ["the script can't be read"]
NEVER_RUN = [
    *(("012", TICK, 0, COUNT), ("1023", TICK, 0, other(0)), ("0123 1", TICK, 0, stale(1))),
    *((places, f"{TICK}next\n", 0, FAULTY) for places in ("012", "1023", "0123 1")),
    *(("012", TICK, 1, UNREAD), ("012", TICK, 2, UNREAD)),
    *(("012", "\n" * LIMIT_OF_A_SCRIPT, 0, COUNT), ("012", "\n" * (LIMIT_OF_A_SCRIPT + 1), 0, UNREAD)),
]


def is_wanted(given, wanted):
    """Whether a block is what a line must give: these lines, or one of these runs."""
    if not any(isinstance(it, Ran) for it in wanted):
        return given == wanted
    return given[:1] in (QUIET, LIMIT) and Ran.of(given).told in [it.told for it in wanted]


class Driver:
    """The driver, line by line, with the shim that refuses it memory."""

    def __init__(self, program, plant, number, room):
        self.told = open(f"{room}/told", "w+b")
        words = {"LD_PRELOAD": f"{room}/refuse.so", "REFUSE_TELL": str(self.told.fileno()), "REFUSE_STEP": str(number)}
        how = {"stdin": subprocess.PIPE, "stdout": subprocess.PIPE, "stderr": subprocess.PIPE, "encoding": "ascii"}
        self.ran = subprocess.Popen([program, plant], env=words, pass_fds=[self.told.fileno()], **how)
        self.clock = threading.Timer(SECONDS, self.ran.kill)
        self.clock.start()

    def play(self, line):
        """What comes of a line, and how many allocations were refused to it."""
        before, block = os.fstat(self.told.fileno()).st_size, []
        self.ran.stdin.write(line + "\n")
        self.ran.stdin.flush()
        while (told := self.ran.stdout.readline()) not in ("\n", ""):
            block.append(told[:-1])
        self.has_ended = not told
        return block, os.fstat(self.told.fileno()).st_size - before

    def left_running(self):
        """How many threads the driver has but its own, while it waits for a line."""
        until = time.monotonic() + GONE
        while (count := len(os.listdir(f"/proc/{self.ran.pid}/task")) - 1) and time.monotonic() < until:
            time.sleep(0.001)
        return count

    def end(self):
        """Returns what was wrong with its end."""
        said = self.ran.communicate()[1]
        self.clock.cancel()
        self.told.close()
        return [f"status {self.ran.returncode} {said}"] if self.ran.returncode or said else []


def refused_once(program, plant, script, number, room, counts):
    """Plays a script, with one allocation refused to each call. Returns whether any was, and what was wrong; none is tried behind a fault
    that ended the driver, or that kept it longer than it may be."""
    driver, faults, was_refused = Driver(program, plant, number, room), [], False
    for line, wanted in script:
        given, refused = driver.play(line)
        where = f"{plant}: allocation {number} refused, {line}:"
        if driver.has_ended:
            return False, [*faults, f"{where} the driver ended behind {given}: {driver.end()}"]
        was_refused |= refused > 0
        if not line.startswith("feed "):
            faults += [] if given[:1] == ["><"] else [f"{where} no marks"]
            given = given[1:]
        words = ["no memory", "same"]
        if line.startswith(("new ", "check ")):
            words = ["no memory", "anew"]
        elif line.startswith("threads "):
            words = [given[0] if given[:1] == ["no thread"] else "out of memory", "anew"]
        if given[:2] == words:
            counts[f"{line.split()[0]} without a thread" if words[0] == "no thread" else line.split()[0]] += 1
            faults += [] if refused else [f"{where} {words[0]} where nothing was refused"]
            given = given[2:]
        elif refused:
            counts["as ever"] += 1
        if not is_wanted(given, wanted):
            told = [it.told if isinstance(it, Ran) else it for it in wanted]
            faults.append(f"{where} {given} and not {told}")
        if line.startswith("threads ") and (left := driver.left_running()):
            faults.append(f"{where} {left} threads were left running")
    return was_refused, faults + [f"{plant}: allocation {number} refused: {it}" for it in driver.end()]


def each_refused(program, room, name, scripts):
    """Plays scripts with each allocation of each call refused in turn, prints how many, and returns what was wrong."""
    faults, counts = [], Counter()
    for plant, script in scripts:
        number, was_refused = 0, True
        while was_refused or number == 1:
            was_refused, wrong = refused_once(program, plant, script, number, room, counts)
            faults += wrong
            number += 1
    # memory was only asked ahead, or another module's clock was full
    ever = counts.pop("as ever", 0)
    told = ", ".join(f"{call} {count}" for call, count in sorted(counts.items()))
    print(f"played_worlds: {name} met {sum(counts.values())} refusals ({told}; {ever} more answered as ever), {len(faults)} faults")
    return faults


def ran_once(program, words, text, **how):
    """What the program writes, and what it says where it fails."""
    ran = subprocess.run([program, words], input=text, capture_output=True, timeout=60, encoding="ascii", **how)
    return ran.stdout, f"status {ran.returncode} {ran.stderr}" if ran.returncode or ran.stderr else ""


def text_of(*lines):
    return "".join(f"{line}\n" for line in lines)


def once(room):
    """What is played once: the words of the program, its input, what it must write, and how it is run."""
    for calls, steps in COUNTED:
        told = [line for _, answer in calls for line in ("><", *answer, "")]
        yield "counted", text_of(*(line for line, _ in calls)), text_of(*told, f"steps {steps}"), {}
    for turns, calls in BOOKS:
        yield f"book {turns}", text_of(*(call for call, _ in calls)), text_of(*(given for _, given in calls)), {}
    yield "progress", text_of(*(run for run, _ in WATCHED)), text_of(*(line for _, shown in WATCHED for line in (*shown, ""))), {}
    for places, script, failing, fault in NEVER_RUN:
        how = {"env": {"LD_PRELOAD": f"{room}/refuse.so", "REFUSE_READ": str(failing)}} if failing else {}
        for word in ("read", "live-read") if fault == UNREAD else ("turn", "read", "live", "live-read"):
            # what is not to be read again is run once
            times = 1 if word.endswith("read") else 2
            yield f"{word} {places}", script, text_of("><", *fault, "") * times, how


def blocks_of(text):
    """What comes of each line, as lists of lines."""
    blocks, block = [], []
    for line in text.split("\n")[:-1]:
        if line:
            block.append(line)
        else:
            blocks.append(block)
            block = []
    return blocks


def held(program):
    """Plays modules that wait for one another, and returns what was wrong."""
    given, said = ran_once(program, "two", text_of(*(line for line, _ in HELD)))
    blocks = blocks_of(given)
    faults = [f"held: {said}"] if said else []
    if len(blocks) != len(HELD):
        faults.append(f"held: {len(blocks)} answers to {len(HELD)} lines")
    for (line, wanted), block in zip(HELD, blocks):
        is_run = wanted and block[:1] == wanted[:1] and is_wanted(block[1:], wanted[1:])
        if not is_run and block != wanted:
            faults.append(f"{line}: {block} and not {[it.told if isinstance(it, Ran) else it for it in wanted]}")
    return faults


def played_once(program, room):
    """Plays what is refused no memory, prints how much that is, and returns what was wrong."""
    faults, count = held(program), 1
    for words, text, wanted, how in once(room):
        given, said = ran_once(program, words, text, **how)
        count += 1
        if said or given != wanted:
            faults.append(f"played_worlds {words}: {text[:200]!r}: {given[:400]!r} {said} and not {wanted[:400]!r}")
    print(f"played_worlds: {count} runs that are refused nothing, {len(faults)} faults")
    return faults


def all_calls_refused(program, room):
    """Plays calls of worlds, and runs on threads, with memory refused to each, and returns what was wrong."""
    if not os.path.isfile(program):
        return [f"there is no program {program}: `rt ci` makes it, or `rt run` in crates/played_worlds"]
    faults = []
    for plant, scripts in PLAYED.items():
        faults += each_refused(program, room, f"calls of worlds, {plant},", [(plant, script) for script in scripts])
    return faults + each_refused(program, room, "runs on threads", list(THREADS.items())) + played_once(program, room)
