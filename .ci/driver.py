"""Scripts for the driver, crates/played: its lines, and what the oracle says that must come of each."""

import subprocess
from collections import Counter

from oracle import CHASSIS, Module, line_of

# which modules of a chassis are indexed
KINDS = {"plain": "", "indexed": "SAB", "mixed": "A"}
# how many differences of a script are told
SHOWN = 12


class Script:
    """Lines for the driver, and what must come of each."""

    def __init__(self, kind):
        self.kind, self.lines, self.wanted, self.hits, self.modules, self.settings = kind, [], [], {}, {}, {}

    def add(self, line, wanted):
        self.lines.append(line)
        self.wanted.append(wanted)

    def kind_of(self, name):
        kind = self.settings.get(name, {}).get("kind", 2 if name == "E" else name in KINDS[self.kind])
        return ("plain", "indexed", "adapter")[kind]

    def fresh(self, **settings):
        self.settings = settings
        self.modules = {name: Module(name, **settings.get(name, {})) for name in CHASSIS}
        self.add("fresh", [])
        for name, setting in settings.items():
            self.add(" ".join([name, "with", *(f"{key} {value}" for key, value in setting.items())]), [])

    def event(self, name, words, wanted=None, guard=""):
        """An event, and what comes of it: what the oracle says, unless it is given."""
        Module.hits = self.hits.setdefault(self.kind_of(name), Counter())
        lines = self.modules[name].step(words)
        self.add(guard + line_of(name, words), lines if wanted is None else wanted)
        return lines

    def tables(self, name):
        self.add(f"{name} tables", self.modules[name].tables())

    def played(self, program, **how):
        """What the driver gives for each line, as lists of lines, and what it said where it ended early."""
        text, how = "\n".join(self.lines) + "\n", {"capture_output": True, "timeout": 300, "encoding": "ascii", **how}
        ran = subprocess.run([program, self.kind], input=text, **how)
        blocks, block = [], []
        for line in ran.stdout.split("\n"):
            if line:
                block.append(line)
            else:
                blocks.append(block)
                block = []
        is_whole = ran.returncode == 0 and len(blocks) - 1 == len(self.lines)
        return blocks[:-1], "" if is_whole else f"status {ran.returncode} {ran.stderr}"

    def differences(self, program, blocks=None):
        """Each line whose outcome differs, with the lines since the modules were made."""
        blocks, told = blocks or self.played(program)
        faults = [f"{self.kind}: the driver ended early, at {self.lines[len(blocks):][:1]}: {told}"] if told else []
        begun, count = 0, 0
        for place, (line, wanted, given) in enumerate(zip(self.lines, self.wanted, blocks)):
            if line == "fresh":
                begun = place
            if wanted != given:
                count += 1
                if count <= SHOWN:
                    told = [f"{self.kind}:", *self.lines[begun : place + 1], f"wanted {wanted}", f"given  {given}"]
                    faults.append("\n  ".join(told))
        return faults + ([f"{self.kind}: {count} lines differ"] if count > SHOWN else [])
