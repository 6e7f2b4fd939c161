"""Refused memory, call by call, of the tables and codecs below a module.

The driver, crates/played_parts, asks the rows of its data files. The library call in a row that takes memory, or hands its argument back,
stands between marks. Each is refused its first allocation, its second, and so on, until none is refused. Each refusal has to be answered
with NoMemory. A call that is refused must leave its arguments and its table as they were; the same call, made again, must then give what
the row tells, and so must each call that was not refused. What the rows tell is typed from docs/FORMATS.md, by hand. A public call of
these crates that takes an allocator and is not made is a fault too.
"""

import glob
import os
import re
import subprocess
import tempfile
from collections import Counter

TOP = os.path.dirname(os.path.dirname(os.path.realpath(__file__)))
DATA = f"{TOP}/crates/played_parts/data"
# the one takes time alone, the other asks for room that no allocator has
LEFT_OUT = ("long_path.txt", "no_room.txt")
CRATES = "base segment message unconnected open close clock pending hops target"
# a public call that takes an allocator, or puts bytes into a vector
TAKES = re.compile(r"^ *pub fn (\w+)[^{;]*?\((?:[^)]*?\b)?(?:alloc: Global|out: &mut Vec<u8>)", re.M)

# each call that is given what it could change: the part that is asked, and the questions in which the call is made
KEPT = {
    "put_word": "messages put_word",
    "put_double": "messages put_double",
    "put_triad": "messages put_triad",
    "put_manager_header": "messages put_manager_header",
    "put_reply_header": "messages put_reply_header",
    "put_failure": "messages put_failure",
    "read_path": "paths read_path",
    "Path::copy": "paths copy",
    "PathView::to_path": "paths PathView::to_path",
    "segments": "paths segments",
    "write_path": "paths written spelled classes data",
    "Identity::copy": "target Identity::copy legal",
    "Target::answer": "target answer",
}
# each call that is given numbers and constants alone, or uses up what it is given
PLAIN = {
    "Row::with_room": "rooms Row::with_room",
    "NumberIndex::with_room": "rooms NumberIndex::with_room",
    "Deadlines::with_room": "rooms Deadlines::with_room",
    "PendingTable::with_room": "rooms PendingTable::with_room",
    "HopTable::with_room": "rooms HopTable::with_room",
    "write_request": "messages write_request",
    "write_reply": "messages write_reply",
    "write_failure": "messages write_failure",
    "write_unconnected": "messages write_unconnected",
    "write_open": "messages write_open write_large_open",
    "write_open_reply": "messages write_open_reply write_large_reply",
    "write_open_failure": "messages write_open_failure write_large_failure",
    "write_close": "messages write_close",
    "write_close_reply": "messages write_close_reply",
    "write_close_failure": "messages write_close_failure",
    "Target::new": "target Target::new",
}
# each call all of whose memory was taken with the room, and which hands its argument back where it gives no numbers
FREE = {
    "PendingTable::add": "waiting add add_link",
    "HopTable::begin": "connections begin",
}
GIVEN = re.compile(r"(\d+|none)( \d+)?")
# what is answered where the call is not reached
UNREACHED = ("TooLong", "for the device", "false")

CALL_OF = {(part, name): call for calls in (KEPT, PLAIN, FREE) for call, words in calls.items() for part, *names in [words.split()] for name in names}


def rows_of(file):
    """Each row of a data file: its question, its answer, and the call in it, if there is one."""
    with open(file, encoding="ascii") as it:
        text = it.read().replace("\\\n    ", "")
    rows = []
    for case in text.split("\n== ")[1:]:
        heading, *lines = case.split("\n")
        part = heading.split(":")[0].split()[0]
        for line in filter(None, map(str.strip, lines)):
            if not line.startswith("#"):
                question, told = line.split(" = ", 1)
                rows.append((f"{os.path.basename(file)}: {question}", told.replace("_", ""), CALL_OF.get((part, question.split()[0]))))
    return rows


def played(program, files, room, number):
    """Refuses each call its allocation of that number. Returns the lines, how many were refused, and what ended it early."""
    with tempfile.TemporaryFile(dir=room) as told:
        env = {"LD_PRELOAD": f"{room}/refuse.so", "REFUSE_TELL": str(told.fileno()), "REFUSE_STEP": str(number)}
        how = {"pass_fds": [told.fileno()], "capture_output": True, "timeout": 120, "encoding": "ascii"}
        ran = subprocess.run([program, "marked", *files], env=env, **how)
        refused = os.fstat(told.fileno()).st_size
    said = "" if ran.returncode == 0 else f"allocation {number} refused: status {ran.returncode} {ran.stderr!r}"
    return ran.stdout.splitlines(), refused, said


def unlisted():
    """The public calls of the crates that may take memory and are not made."""
    files = [it for name in CRATES.split() for it in sorted(glob.glob(f"{TOP}/crates/cip_{name}/src/*.rt"))]
    made, found = {call.split("::")[-1] for call in (*KEPT, *PLAIN, *FREE)}, []
    for file in files:
        with open(file, encoding="utf-8") as it:
            found += [f"parts: {name} of {os.path.relpath(file, TOP)} is not made" for name in TAKES.findall(it.read()) if name not in made]
    return found


def fronts(call, told):
    """What may stand before the answer of a row where its call is not refused."""
    if call is None:
        return [""]
    if call in FREE:
        return ["><" if GIVEN.fullmatch(told) else ">< back, same"]
    return ["><", ""] if told in UNREACHED else ["><"]


def refusals(call, number):
    """What may stand before the answer of a row where its call is refused."""
    if not number or call is None or call in FREE:
        return []
    return [">< no memory, same"] if call in KEPT else [">< no memory", ">< no memory, same"]


def differences(rows, lines, number):
    """Counts the calls that answered NoMemory where an allocation was refused, and returns these, and what was wrong."""
    counts, faults = Counter(), []
    if len(lines) != len(rows):
        faults.append(f"parts: allocation {number} refused: {len(lines)} lines came and not {len(rows)}")
    for (question, told, call), line in zip(rows, lines):
        front, _, given = line.partition(" = ")
        is_refused = front in refusals(call, number)
        counts[call] += is_refused
        if given != told or not is_refused and front not in fronts(call, told):
            faults.append(f"parts: allocation {number} refused, {question}: {line!r} and not {told!r}")
    return +counts, faults


def parts_refused(program, room):
    """Refuses each call its first allocation, its second, and so on, and returns what was wrong."""
    if not os.path.isfile(program):
        return [f"there is no program {program}: `rt ci` makes it, or `rt run` in crates/played_parts"]
    files = [it for it in sorted(glob.glob(f"{DATA}/*.txt")) if os.path.basename(it) not in LEFT_OUT]
    rows, counts, number = [row for file in files for row in rows_of(file)], Counter(), 0
    faults, made = unlisted(), Counter(call for _, _, call in rows if call)
    while True:
        lines, refused, said = played(program, files, room, number)
        met, wrong = differences(rows, lines, number)
        faults += wrong + ([f"parts: {said}"] if said else [])
        if refused != sum(met.values()):
            faults.append(f"parts: allocation {number} was refused {refused} times, and NoMemory answered {sum(met.values())} times")
        counts += met
        if said or number and not refused:
            break
        number += 1
    faults += [f"parts: {name} is not made" for name in sorted({*KEPT, *PLAIN, *FREE} - {*made})]
    faults += [f"parts: {name} takes no memory" for name in sorted({*KEPT, *PLAIN} - {*counts})]
    told = ", ".join(f"{name} {count}" for name, count in sorted(counts.items()))
    print(f"played_parts: {sum(made.values())} calls in {len(rows)} rows met {sum(counts.values())} refusals ({told}), {len(faults)} faults")
    return faults
