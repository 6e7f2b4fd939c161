"""Refused memory, allocation by allocation, of the console over boxes that are not the program's own.

The driver, crates/played_worlds, makes topology, boxes, reader and writer itself, and runs a script between marks: twice in turn, or twice
with each module on a thread, once where the script lies in memory and once where it is read. Each run is refused its first allocation, its
second, and so on, until none is refused. A run that is refused has to end with NoMemory, and has written a prefix of the transcript; or it
only asked ahead, and wrote it whole. On threads it may also end because no thread can be made.
"""

import os
import subprocess
import tempfile
from concurrent.futures import ThreadPoolExecutor

ENDS = {"turn": ("out of memory",), "live": ("out of memory", "no thread")}
RUNS = 2
GROUP = 64


class Console:
    """The driver, with the script of a case."""

    def __init__(self, program, room, case):
        self.program, self.room, self.word = program, room, "live" if case.has_threads else "turn"
        self.case, self.script, self.whole, self.prefixes = case.name, case.script, case.stdout.decode(), set()

    def played(self, number):
        """Refuses each run its allocation of that number. Returns how many ended so, how many were refused, and what was wrong."""
        with tempfile.TemporaryFile(dir=self.room) as told:
            env = {"LD_PRELOAD": f"{self.room}/refuse.so", "REFUSE_TELL": str(told.fileno()), "REFUSE_STEP": str(number)}
            how = {"env": env, "pass_fds": [told.fileno()], "capture_output": True, "timeout": 60}
            ran = subprocess.run([self.program, self.word], input=self.script, **how)
            refused = os.fstat(told.fileno()).st_size
        where = f"console: {self.case}, allocation {number} refused"
        if ran.returncode != 0:
            return 0, refused, [f"{where}: status {ran.returncode} {ran.stderr!r}"]
        marks, *texts = ran.stdout.decode().split("><\n")
        ends = [text.split("\n", 1) for text in texts]
        faults = [] if not marks and len(ends) == RUNS else [f"{where}: {len(ends)} runs came"]
        for end, transcript in ends:
            is_whole = end == "done" and transcript == self.whole + "\n"
            is_prefix = refused and end in ENDS[self.word] and self.whole.startswith(transcript[:-1])
            self.prefixes.add(len(transcript) - 1)
            if not is_whole and not is_prefix:
                faults.append(f"{where}: {end!r} and {transcript[-200:]!r}")
        failed = sum(end != "done" for end, _ in ends)
        if failed > refused:
            faults.append(f"{where}: {refused} runs were refused, and {failed} ended so")
        return failed, refused, faults

    def each_refused(self, pool):
        """Refuses each allocation in turn. Returns how many were refused, how many runs ended so, and what was wrong."""
        _, refused, faults = self.played(0)
        if refused:
            faults.append(f"console: {self.case}: something was refused unasked")
        count, ended, first = 0, 0, 1
        while True:
            for failed, refused, wrong in list(pool.map(self.played, range(first, first + GROUP))):
                count, ended, faults = count + refused, ended + failed, faults + wrong
            if not refused:
                return count, ended, faults
            first += GROUP


def consoles_refused(program, room, cases):
    """Runs the script of each case with memory refused, and returns what was wrong."""
    if not os.path.isfile(program):
        return [f"there is no program {program}: `rt ci` makes it, or `rt run` in crates/played_worlds"]
    faults = []
    with ThreadPoolExecutor(len(os.sched_getaffinity(0))) as pool:
        for case in cases:
            console = Console(program, room, case)
            count, ended, wrong = console.each_refused(pool)
            faults += wrong
            told = f"{count} refusals in turn, of which {count - ended} only asked ahead, and wrote {len(console.prefixes)} prefixes"
            print(f"played_worlds: the console, {case.name}, met {told}, {len(wrong)} faults")
    return faults
