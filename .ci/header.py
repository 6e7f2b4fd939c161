"""What the crate cip_device exports, as a C file that compiles only if cip_device.h says the same.

python3 .ci/header.py > check.c: each constant, the size of each struct and the place of each field, and each function. On standard
error it says which names the header has beyond them.
"""
import pathlib
import re
import sys

TOP = pathlib.Path(__file__).resolve().parent.parent
SOURCE = TOP / "crates" / "cip_device" / "src"
HEADER = TOP / "examples" / "device" / "cip_device.h"
# What the header alone has: the empty handle, a bound on the bytes of outputs, its guard, and a status in words.
OWN = {"CIP_DEVICE_EMPTY", "CIP_MOST_BYTES", "CIP_DEVICE_H", "cip_error_text"}
WORDS = {"u8": "uint8_t", "u16": "uint16_t", "u32": "uint32_t", "u64": "uint64_t", "usize": "size_t", "*mut u8": "void *"}


def in_c(name):
    """CipOpenParams as cip_open_params."""
    return re.sub(r"(?<!^)([A-Z])", r"_\1", name).lower()


def plain(rust):
    return WORDS.get(rust) or in_c(rust)


def parameter(rust):
    """The C types of one parameter: none for what takes no bytes, two for a slice."""
    if rust == "Global":
        return []
    if found := re.fullmatch(r"&(mut )?\[(\w+)\]", rust):
        return [("" if found[1] else "const ") + plain(found[2]) + " *", "size_t"]
    if found := re.fullmatch(r"&(mut )?(\w+)", rust):
        return [("" if found[1] else "const ") + plain(found[2]) + " *"]
    return [plain(rust)]


def field(name, rust):
    if found := re.fullmatch(r"\[(\w+); (\d+)\]", rust):
        return f"{plain(found[1])} {name}[{found[2]}];"
    return f"{plain(rust)} {name};"


def struct(name, body):
    fields = [(f, t) for f, t in re.findall(r"^    (?:pub )?(\w+): ([^,]+),$", body, re.M) if t != "Global"]
    fields = [(f, t) for f, t in fields if f != "ghost"]
    yield f"struct rattle_{name} {{ {' '.join(field(f, t) for f, t in fields)} }};"
    yield f'_Static_assert(sizeof({in_c(name)}) == sizeof(struct rattle_{name}), "{name}");'
    for f, t in fields:
        yield f'_Static_assert(offsetof({in_c(name)}, {f}) == offsetof(struct rattle_{name}, {f}), "{name}.{f}");'
        yield (f'_Static_assert(sizeof((({in_c(name)} *)0)->{f}) == sizeof(((struct rattle_{name} *)0)->{f}), '
               f'"{name}.{f}");')


def function(name, parameters, result):
    types = [c for rust in re.findall(r"\w+: ([^,]+)", parameters) for c in parameter(rust.strip())]
    return f"{plain(result) if result else 'void'} {name}({', '.join(types)});"


def header_check():
    """The text of that file."""
    text = {path.name: path.read_text() for path in sorted(SOURCE.glob("*.rt"))}
    lines = ['#include "cip_device.h"']
    for name, value in re.findall(r"^pub const (\w+): u32 = (\d+);$", text["numbers.rt"], re.M):
        lines.append(f'_Static_assert(CIP_{name} == {value}, "{name}");')
    for source in text.values():
        for name, body in re.findall(r"^#\[repr\(C\)\]\n(?:#\[.*\]\n)*pub struct (\w+) \{\n(.*?)^\}", source, re.M | re.S):
            lines += struct(name, body)
        for name, parameters, result in re.findall(
                r"^pub extern \"C\" fn (\w+)\((.*?)\)(?: -> (\w+))?\n", source, re.M | re.S):
            lines.append(f"enum {{ declared_{name} = sizeof(&{name}) }};")
            lines.append(function(name, parameters, result))
    return "\n".join(lines) + "\n"


def foreign_names():
    """The functions, constants and structs of the header that the crate does not export."""
    text = re.sub(r"/\*.*?\*/", "", HEADER.read_text(), flags=re.S)
    check = header_check()
    named = set(re.findall(r"\b(cip_\w+)\(", text)) | set(re.findall(r"\bCIP_\w+", text))
    named |= set(re.findall(r"\} (cip_\w+);", text))
    return sorted(named - set(re.findall(r"\w+", check)) - OWN)


if __name__ == "__main__":
    print(header_check(), end="")
    print("beyond the crate:", foreign_names(), file=sys.stderr)
