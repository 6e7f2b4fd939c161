"""The topology file of the chassis that the program has when it is given no other: the text CHASSIS of cip_topology."""

import os
import re

TOP = os.path.dirname(os.path.dirname(os.path.realpath(__file__)))
TEXT = re.compile(r'^pub const CHASSIS: &str =\s*r#"(.*?)"#;$', re.M | re.S)


def chassis():
    """The lines of the file, each without its end."""
    with open(f"{TOP}/crates/cip_topology/src/chassis.rt", encoding="ascii") as file:
        found = TEXT.search(file.read())
    if not found:
        raise SystemExit("crates/cip_topology/src/chassis.rt has no text CHASSIS")
    return found.group(1).splitlines()
