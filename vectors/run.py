#!/usr/bin/env python3
"""Plays the cases of this folder on a device, and tells where it does something else.

usage: vectors/run.py [--kind plain|indexed|adapter] [--group NAME] [--frames] [--tables] [--ids] PROGRAM [WORD ..]

PROGRAM is what stands between this script and the device. It reads a line of JSON at a time and answers each with one line,
at once:

    {"config": {..}, "kind": "plain"}    make the module anew, as a case's config says      {}
    {"event": {..}}                      take the event, as it stands in the case           {"outputs": [..]}
    {"tables": null}                     with --tables alone: the state                     {"tables": {..}}

Members of the name `says` are left out on both sides. `--kind` plays the cases of modules of that kind (plain), `--group`
those of one group, by the name of its file or of its cases, `--frames` those in which no command stands, for a device that can
be reached by its links alone. `--ids` is for a device that draws other ids and numbers than a case has: a table of both is made
for each case, by which what the device gives is compared, and what it gets is written. With each case that differs stand the
pairs of that table, first what the case has.

The status is 0 if nothing differs, 1 if anything does, or the program ends early, 2 if the words are wrong. As a shell has it,
it is 127 if there is no such program, 126 if it cannot be started, and 141 if nobody reads any more what is printed.
"""

import argparse
import glob
import json
import os
import sys
from subprocess import PIPE, Popen

HERE = os.path.dirname(os.path.realpath(__file__))
FRAMES = ("request", "reply", "data", "tick")
SHOWN = 20
# the services of the opens, as a request has them and as a reply has them
OPENS, OPENED = ("54", "5B"), ("D4", "DB")
# where in the bytes of a message the ids stand. A device draws the T to O id of an open that it sends on, which comes back with
# the success; and the O to T id of the success that it answers
TO_OF_OPEN, OT_OF_OPENED, TO_OF_OPENED = 12, 4, 8


def bare(it):
    """What stands there without what its messages say."""
    if isinstance(it, dict):
        return {key: bare(value) for key, value in it.items() if key != "says"}
    return [bare(value) for value in it] if isinstance(it, list) else it


class Device:
    """The program, of which one asks a line and gets a line."""

    def __init__(self, words):
        try:
            self.program = Popen(words, stdin=PIPE, stdout=PIPE)
        except FileNotFoundError:
            stop(127, f"there is no program {words[0]}")
        except OSError as fault:
            stop(126, f"{words[0]} cannot be started: {fault.strerror}")

    def ask(self, what):
        asked = json.dumps(bare(what))
        try:
            self.program.stdin.write(asked.encode() + b"\n")
            self.program.stdin.flush()
            line = self.program.stdout.readline()
        except BrokenPipeError:
            line = b""
        if not line:
            self.program.stdin = None
            sys.exit(f"the program ended at {asked[:200]}")
        try:
            return bare(json.loads(line))
        except ValueError:
            sys.exit(f"no JSON comes at {asked}: {line[:200].decode(errors='replace')}")


def stop(status, text):
    print(f"vectors/run.py: {text}", file=sys.stderr)
    sys.exit(status)


class Same:
    """What stands in the place of a table where a device draws what a case has: everything stays as it is."""

    def event(self, event):
        return event

    def outputs(self, wanted, given):
        return given

    def told(self):
        return []


class Another(Exception):
    """The device draws one twice, or gives another than it drew."""


class Table:
    """What a device draws, beside what a case has there: the ids of connections, and the numbers of requests."""

    def __init__(self):
        self.ids, self.numbers = {}, {}

    def event(self, event):
        """An event of the case, as the device gets it."""
        kind, it = next(iter(event.items()))
        if kind == "reply":
            data = it["bytes"]
            if is_opened(data):
                number = id_at(data, TO_OF_OPENED)
                data = with_id(data, TO_OF_OPENED, self.ids.get(number, number))
            return {kind: {**it, "number": device_has(self.numbers, it["number"]), "bytes": data}}
        return {kind: {**it, "id": device_has(self.ids, it["id"])}} if kind == "data" else event

    def outputs(self, wanted, given):
        """The outputs that the device gives, as the case has them. What is drawn there for the first time is noted."""
        if not isinstance(given, dict) or not isinstance(given.get("outputs"), list):
            return given
        wanted, outputs = wanted["outputs"], given["outputs"]
        if len(wanted) != len(outputs):
            return given
        return {**given, "outputs": [self.output(*both) for both in zip(wanted, outputs)]}

    def output(self, wanted, given):
        try:
            if "done" in wanted:
                return {"done": {**given["done"], "bytes": self.opened(wanted["done"], given["done"], TO_OF_OPENED)}}
            if "send" not in wanted:
                return given
            ours, its = wanted["send"]["holds"], given["send"]["holds"]
            held = dict(its)
            if "request" in ours:
                held["request"] = self.noted(self.numbers, ours["request"], its["request"])
                if ours["bytes"][:2] in OPENS and len(ours["bytes"]) == len(its["bytes"]):
                    held["bytes"] = self.drawn(ours["bytes"], its["bytes"], TO_OF_OPEN)
            elif "reply" in ours:
                held["bytes"] = self.opened(ours, its, OT_OF_OPENED)
            return {"send": {**given["send"], "holds": held}}
        except (KeyError, TypeError, ValueError):
            # it is made otherwise than the output that is wanted, and so differs
            return given
        except Another as fault:
            return {**given, "another": str(fault)}

    def opened(self, ours, its, at):
        """The bytes of a reply as the case has them."""
        is_alike = is_opened(ours["bytes"]) and len(ours["bytes"]) == len(its["bytes"])
        return self.drawn(ours["bytes"], its["bytes"], at) if is_alike else its["bytes"]

    def drawn(self, ours, its, at):
        """Bytes in which the id there is as the case has it."""
        return with_id(its, at, self.noted(self.ids, id_at(ours, at), id_at(its, at)))

    def noted(self, table, ours, its):
        """What the case has where the device gave this."""
        if not isinstance(its, int):
            raise TypeError
        if ours not in table and its in table.values():
            raise Another(f"{its} was drawn before, and is drawn anew for {ours}")
        if table.setdefault(ours, its) != its:
            raise Another(f"{its} stands for {ours}, for which {table[ours]} was drawn")
        return ours

    def told(self):
        tables = {"ids": self.ids, "numbers": self.numbers}
        return [{name: [[ours, its] for ours, its in table.items()] for name, table in tables.items()}]


def device_has(table, number):
    """What the device has for a number of the case. One that was not drawn is one that the device did not draw either."""
    if number in table:
        return table[number]
    while number in table.values():
        number = (number + 1) % 2**32
    return number


def is_opened(data):
    """Whether bytes are those of a success of an open, as far as its ids."""
    return data[:2] in OPENED and data[4:8] == "0000" and "+" not in data[:24] and len(data) >= 24


def id_at(data, at):
    return int.from_bytes(bytes.fromhex(data[2 * at : 2 * at + 8]), "little")


def with_id(data, at, number):
    return data[: 2 * at] + number.to_bytes(4, "little").hex().upper() + data[2 * at + 8 :]


def played(device, case, words):
    """The first thing that differs in a case: what was asked, what was wanted, what came, and the table of ids with --ids."""
    device.ask({"config": case["config"], "kind": words.kind})
    table = Table() if words.ids else Same()
    for step in [*case["before"], case]:
        what, wanted = {"event": table.event(bare(step["event"]))}, bare({"outputs": step["outputs"]})
        given = table.outputs(wanted, device.ask(what))
        if given != wanted:
            return what, wanted, given, *table.told()
    if words.tables:
        what, wanted = {"tables": None}, bare({"tables": case["tables"]})
        given = device.ask(what)
        if given != wanted:
            return what, wanted, given
    return None


def groups_of(words):
    """The groups that are to be played, each as its file has it."""
    files = {os.path.basename(path)[: -len(".json")]: path for path in sorted(glob.glob(f"{HERE}/*.json"))}
    name = words.group and os.path.basename(words.group).removesuffix(".json").replace(" ", "_").replace("-", "_").lower()
    if name is not None and name not in files:
        stop(2, f"no group is named {words.group}; there are {', '.join(files)}")
    for group in files if name is None else [name]:
        with open(files[group], encoding="utf-8") as file:
            yield json.load(file)


def main():
    words = argparse.ArgumentParser(description=__doc__.split("\n")[0])
    words.add_argument("--kind", choices=("plain", "indexed", "adapter"), default="plain")
    words.add_argument("--group")
    words.add_argument("--frames", action="store_true")
    words.add_argument("--tables", action="store_true")
    words.add_argument("--ids", action="store_true")
    words.add_argument("program", nargs=argparse.REMAINDER)
    words = words.parse_args()
    if not words.program:
        stop(2, "which program? See the head of this file")
    if words.ids and words.tables:
        stop(2, "--ids and --tables do not go together: a state has ids and numbers that never went out")
    groups = list(groups_of(words))
    device, count, differ = Device(words.program), 0, 0
    for case in (case for group in groups for case in group["cases"]):
        steps = [*case["before"], case]
        is_asked = not words.frames or all(kind in FRAMES for step in steps for kind in step["event"])
        if words.kind not in case["kinds"] or not is_asked:
            continue
        count += 1
        found = played(device, case, words)
        differ += found is not None
        if found and differ <= SHOWN:
            print(case["name"], *(json.dumps(it) for it in found), sep="\n  ", flush=True)
    left = f", {differ - SHOWN} of them not shown" if differ > SHOWN else ""
    print(f"{count} cases, {differ} differ{left}", flush=True)
    return 1 if differ or not count else 0


if __name__ == "__main__":
    try:
        sys.exit(main())
    except BrokenPipeError:
        # nobody reads any more, and nothing is to be written at the end either
        os.dup2(os.open(os.devnull, os.O_WRONLY), sys.stdout.fileno())
        sys.exit(141)
