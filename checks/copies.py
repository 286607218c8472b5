#!/usr/bin/env python3
"""Times copies of elements from one end of a stream to the other in a built wcm.

    checks/copies.py crates/wcm/out/wcm [FACTOR]

One task writes elements and reads them, in one memory: so many copies of so many elements each. The processor time of the same
run with no copy is taken off. A line a case is printed: the nanoseconds for each element, with the line of the trace in which it
stands, and the bytes of the trace for each. Each trace is compared with the one that is wanted. FACTOR, a number such as 0.01, makes
fewer copies. The status is 1 where a trace is another one.
"""

import resource
import subprocess
import sys
import tempfile
from pathlib import Path
from typing import NamedTuple

# No folder of compiled files is left beside the scripts.
sys.dont_write_bytecode = True

import formats

SCRIPT = "fuel 1000000000\ncall run ()\n"


class Case(NamedTuple):
    title: str
    # The byte of the elements' type, and how many bytes an element has.
    type_byte: int
    width: int
    # How many elements go over at once, and how often.
    elements: int
    copies: int


CASES = [
    Case("u8, one at a time", 0x7D, 1, 1, 100_000),
    Case("u8, 1,000 at a time", 0x7D, 1, 1_000, 10_000),
    Case("u32, 1,000 at a time", 0x79, 4, 1_000, 1_000),
    Case("u64, 1,000 at a time", 0x77, 8, 1_000, 1_000),
    Case("a million u32 at once", 0x79, 4, 1_000_000, 1),
]


def s32(number):
    """A number as a signed LEB128."""
    found = bytearray()
    while True:
        low, number = number & 127, number >> 7
        if (number, low & 64) in ((0, 0), (-1, 64)):
            return bytes(found + bytes([low]))
        found.append(low | 128)


def constant(number):
    return b"\x41" + s32(number)


def get(index):
    return b"\x20" + formats.u32(index)


def put(index):
    return b"\x21" + formats.u32(index)


def call(index):
    return b"\x10" + formats.u32(index)


def counted_down(body):
    """A loop that runs code until local 3, which is at least 1, has come down to 0."""
    return b"\x03\x40" + body + get(3) + constant(1) + b"\x6b\x22\x03\x0d\x00\x0b"


def places(case):
    """Where the elements stand that are written, and those that are read."""
    return 0, (case.width * case.elements + 15) // 16 * 16


def pages(case):
    return places(case)[1] * 2 // 65536 + 1


def filled(case):
    """Code that makes the byte at each place 77 times the place."""
    at = get(3) + constant(1) + b"\x6b"
    return constant(case.width * case.elements) + put(3) + counted_down(at + at + constant(77) + b"\x6c\x3a\x00\x00")


def copied(case, copies):
    """Code that so often writes the elements, reads them, and is told of the write by cancelling it."""
    start, end = places(case)
    count = constant(case.elements)
    write = get(2) + constant(start) + count + call(1) + b"\x1a"
    read = get(1) + constant(end) + count + call(2) + b"\x1a"
    told = get(2) + call(3) + b"\x1a"
    return constant(copies) + put(3) + counted_down(write + read + told) if copies else b""


# The built-ins that the code imports, each with the number of its type in the module.
BUILT_INS = [("new", 0), ("write", 1), ("read", 1), ("cancel", 2)]


def module(case, copies):
    """A core module whose `run` makes a stream, and copies."""
    types = [b"\x60\x00\x01\x7e", b"\x60\x03\x7f\x7f\x7f\x01\x7f", b"\x60\x01\x7f\x01\x7f", b"\x60\x00\x00"]
    c = formats.name("c")
    imports = [c + formats.name(text) + b"\x00" + formats.u32(number) for text, number in BUILT_INS]
    imports.append(c + formats.name("m") + b"\x02\x00" + formats.u32(pages(case)))
    ends = call(0) + put(0) + get(0) + b"\xa7" + put(1) + get(0) + b"\x42\x20\x88\xa7" + put(2)
    code = b"\x02\x01\x7e\x03\x7f" + ends + filled(case) + copied(case, copies) + b"\x0b"
    return (
        formats.MODULE
        + formats.section(1, formats.vec(types))
        + formats.section(2, formats.vec(imports))
        + formats.section(3, formats.vec([formats.u32(3)]))
        + formats.section(7, formats.vec([formats.name("run") + b"\x00" + formats.u32(4)]))
        + formats.section(10, formats.vec([formats.u32(len(code)) + code]))
    )


def component(case, copies):
    """A component that exports `run`, in an instance with the built-ins of a stream and a memory."""
    memory = (
        formats.MODULE
        + formats.section(5, formats.vec([b"\x00" + formats.u32(pages(case))]))
        + formats.section(7, formats.vec([formats.name("m") + b"\x02\x00"]))
    )
    options = formats.vec([b"\x03\x00", b"\x06"])
    canons = [b"\x0e\x00", b"\x10\x00" + options, b"\x0f\x00" + options, b"\x12\x00\x00"]
    given = [formats.name(text) + b"\x00" + formats.u32(at) for at, (text, _) in enumerate(BUILT_INS)]
    return formats.component(
        formats.section(1, memory),
        formats.instance(),
        formats.section(6, formats.vec([b"\x00\x02\x01\x00" + formats.name("m")])),
        formats.types([b"\x66\x01" + bytes([case.type_byte]), b"\x40\x00\x01\x00"]),
        formats.section(8, formats.vec(canons)),
        formats.section(2, formats.vec([b"\x01" + formats.vec([*given, formats.name("m") + b"\x02\x00"])])),
        formats.section(1, module(case, copies)),
        formats.instances(1, 1, ["c"], 1),
        formats.section(6, formats.vec([b"\x00\x00\x01\x02" + formats.name("run")])),
        formats.lifts([1], 4),
        formats.exports(["run"]),
    )


def wanted(case, copies):
    """The trace of a run."""
    start, end = places(case)
    data = bytes(77 * at % 256 for at in range(case.width * case.elements))
    values = ", ".join(
        str(int.from_bytes(data[at : at + case.width], "little")) for at in range(0, len(data), case.width)
    )
    payload = 16 * case.elements
    copy = [
        f"do T1 stream.write (2, {start}, {case.elements})",
        "got T1 (4294967295)",
        f"do T1 stream.read (1, {end}, {case.elements})",
        f"copy S1 {case.elements} ({values})",
        f"got T1 ({payload})",
        "do T1 stream.cancel-write (2)",
        f"got T1 ({payload})",
    ]
    front = ["take 1 T1 run ()", "enter T1", "do T1 stream.new ()", "got T1 (8589934593)"]
    return "".join(f"{line}\n" for line in [*front, *(copy * copies), "return T1 ()", "exit T1", "done"]).encode()


def used():
    """The seconds of processor time of all commands that have ended."""
    usage = resource.getrusage(resource.RUSAGE_CHILDREN)
    return usage.ru_utime + usage.ru_stime


def run(program, folder, case, copies):
    """The seconds of a run with so many copies, and its trace."""
    file, script = Path(folder) / "copies.component", Path(folder) / "copies.script"
    file.write_bytes(component(case, copies))
    script.write_text(SCRIPT)
    before = used()
    trace = subprocess.run([program, "run", str(file), str(script)], stdout=subprocess.PIPE, check=False).stdout
    return used() - before, trace


def main(words):
    program, factor = words[0], float(words[1]) if len(words) > 1 else 1.0
    failed = False
    with tempfile.TemporaryDirectory() as folder:
        for case in CASES:
            copies = max(1, int(case.copies * factor))
            seconds, trace = run(program, folder, case, copies)
            seconds -= run(program, folder, case, 0)[0]
            count = copies * case.elements
            if trace == wanted(case, copies):
                print(f"{case.title}: {seconds * 1e9 / count:.0f} ns an element, {len(trace) / count:.1f} bytes of the trace")
            else:
                failed = True
                print(f"{case.title}: another trace")
    return failed


if __name__ == "__main__":
    sys.exit(main(sys.argv[1:]))
