#!/usr/bin/env python3
"""Runs a built wcm on tables of core modules, each in a component, and compares what is refused, where and why.

    checks/cases.py crates/wcm/out/wcm

The tables are those of crates/module_tests/data: bodies in fixed modules, modules behind the preamble, and files. A
line is a case, worked out by hand: its title, the fixed module or the place of the module's first byte, hexadecimal bytes,
and the answer: `ok`, or the place and the reason, with the function in whose body it is. A line a table is printed, and one
for each case that fails. The status is 1 where one fails.
"""

import subprocess
import sys
import tempfile
from pathlib import Path

# No folder of compiled files is left beside the scripts.
sys.dont_write_bytecode = True

import formats

DATA = Path(__file__).resolve().parent.parent / "crates" / "module_tests" / "data"
# The files of the tables, and whether their modules stand in a frame, behind the preamble, or alone.
TABLES = {"bodies.txt": "framed", "modules.txt": "behind", "files.txt": "alone"}
# How many cases there are.
COUNT = 671

# Types from nothing to nothing, from i32 to i32, from i32 and i64 to i64 and i32, from nothing to i32, from two i32 to i32,
# from i64 to i32, and from i32 to i32 and i64.
TYPES = "01250760000060017f017f60027f7e027e7f6000017f60027f7f017f60017e017f60017f027f7e"
# An imported function of type 2 and an imported global, a constant of i32.
IMPORTS = "020e02016d01660002016d0167037f00"
# A table, a memory, and two globals that are set: an i32 and an i64.
PARTS = "0404017000010503010001060b027f0141000b7e0142000b"

# The fixed modules, without their code. The function that has the body is of type 0, but in `giving` of type 2. An export
# fills them up, so that the code begins at byte 110, in `bare` at byte 80.
FRAMES = {
    "full": formats.MODULE.hex() + TYPES + IMPORTS + "03020100" + PARTS + "0711010d" + 13 * "78" + "0000",
    "giving": formats.MODULE.hex() + TYPES + IMPORTS + "03020102" + PARTS + "0711010d" + 13 * "78" + "0000",
    "bare": formats.MODULE.hex() + TYPES + "03020100" + "071b0117" + 23 * "78" + "0000",
}

# The reasons of the reader and of validation. `Limit` is one of both.
READING = {"Truncated", "Leb", "Magic", "SectionOrder", "SectionSize", "Utf8", "Float", "Unsupported", "Count", "Limit"}
TYPING = {"Index", "Label", "Align", "Stack", "Typing", "Name", "Limit"}


def reason(text):
    """A reason as the program writes it: a byte in hexadecimal."""
    name, _, argument = text.partition("(")
    return name, f"{name}({int(argument[:-1]):02x})" if argument else name


def wanted(answer, shift):
    """The error lines that a case may have, of a module that stands so many bytes behind its place."""
    if answer == "ok":
        return {""}
    place, why = answer.split(" in ")[0].split(" ")
    name, text = reason(why)
    lines = set()
    if name in READING:
        lines.add(f"refused at {int(place) + shift}: Module({text})")
    if name in TYPING:
        lines.add(f"refused at {int(place) + shift}: Invalid({text})")
    return lines


def module_of(kind, start, digits):
    """The bytes of a case's module, and its place."""
    if kind == "framed":
        return bytes.fromhex(FRAMES[start] + digits), 0
    before = formats.MODULE if kind == "behind" else b""
    return before + bytes.fromhex(digits), int(start)


def passes(program, folder, kind, line):
    """Whether a case has the answer that is wanted."""
    parts = [part.strip() for part in line.split("|")]
    start, digits, answer = parts[-3], parts[-2], parts[-1]
    module, place = module_of(kind, start, digits)
    section = formats.section(1, module)
    component = formats.component(section)
    shift = len(component) - len(module) - place
    (Path(folder) / "file.wasm").write_bytes(component)
    done = subprocess.run([program, "run", "file.wasm", "script.txt"], cwd=folder, stdin=subprocess.DEVNULL, capture_output=True, timeout=60)
    lines = wanted(answer, shift)
    told = done.stderr.decode().strip()
    if told not in lines:
        print(f"failed: {line}: {told or 'no line'}")
    return told in lines


def main():
    if len(sys.argv) != 2:
        sys.exit(__doc__)
    program = str(Path(sys.argv[1]).resolve())
    passed, count = 0, 0
    with tempfile.TemporaryDirectory() as folder:
        (Path(folder) / "script.txt").write_bytes(b"")
        for name, kind in TABLES.items():
            lines = (DATA / name).read_text().splitlines()
            here = sum(passes(program, folder, kind, line) for line in lines)
            print(f"{here} of {len(lines)} in {name}")
            passed, count = passed + here, count + len(lines)
    print(f"{passed} of {count} passed" + ("" if count == COUNT else f", of {COUNT} cases"))
    sys.exit(0 if passed == count == COUNT else 1)


if __name__ == "__main__":
    main()
