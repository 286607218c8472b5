#!/usr/bin/env python3
"""Times a built wcm on core modules that fill a component file.

    checks/modules.py crates/wcm/out/wcm [FACTOR]

Each file is nearly as long as a component file may be, and mostly one kind of item. An answer is wanted within 8 seconds
of processor time, with its reason. FACTOR, a number such as 0.1, makes all files smaller. A line a case is printed. The status is 1 where a
case fails.
"""

import resource
import subprocess
import sys
import tempfile
from pathlib import Path
from typing import Callable, NamedTuple

# No folder of compiled files is left beside the scripts.
sys.dont_write_bytecode = True

import formats

# Seconds of processor time within which an answer is wanted.
SECONDS = 8.0
# Seconds after which a run is stopped.
PATIENCE = 120
# Bytes of a file, but for its sections around the items.
BYTES = 16 * 1024 * 1024 - 4096

# A function type from nothing to nothing, a function of it, and a body that ends at once.
TYPE = b"\x60\x00\x00"
FUNC = b"\x00"
BODY = b"\x02\x00\x0b"
# An offset of 0.
OFFSET = b"\x41\x00\x0b"


def module(*sections):
    """A component with a core module of these sections."""
    return formats.component(formats.section(1, formats.MODULE + b"".join(sections)))


def many(number, item, size):
    """A section of so many bytes of one item."""
    return formats.section(number, formats.u32(size // len(item)) + item * (size // len(item)))


def body(code, locals_of=b"\x00"):
    """The sections of a module with one function of these locals and this code, up to its end."""
    inside = locals_of + code + b"\x0b"
    return (
        formats.section(1, formats.vec([TYPE]))
        + formats.section(3, formats.vec([FUNC]))
        + formats.section(5, b"\x01\x00\x01")
        + formats.section(6, b"\x01\x7f\x01\x41\x00\x0b")
        + formats.section(10, formats.u32(1) + formats.u32(len(inside)) + inside)
    )


def names(count, item):
    """So many items, each with a name of its own."""
    return formats.u32(count) + b"".join(item(formats.name(text)) for text in formats.short_names(count, 4))


def imports(size):
    return module(formats.section(1, formats.vec([TYPE])), formats.section(2, names(size // 9, lambda name: b"\x01m" + name + b"\x00\x00")))


def functions(size):
    count = size // 4
    return module(
        formats.section(1, formats.vec([TYPE])),
        formats.section(3, formats.u32(count) + FUNC * count),
        formats.section(10, formats.u32(count) + BODY * count),
    )


def exports(size):
    return module(
        formats.section(1, formats.vec([TYPE])),
        formats.section(3, formats.vec([FUNC])),
        formats.section(7, names(size // 7, lambda name: name + b"\x00\x00")),
        formats.section(10, formats.vec([BODY])),
    )


def elements(size):
    inside = formats.u32(size) + bytes(size)
    return module(
        formats.section(1, formats.vec([TYPE])),
        formats.section(3, formats.vec([FUNC])),
        formats.section(4, b"\x01\x70\x00\x01"),
        formats.section(9, b"\x01\x00" + OFFSET + inside),
        formats.section(10, formats.vec([BODY])),
    )


def element_segments(size):
    return module(formats.section(4, b"\x01\x70\x00\x01"), many(9, b"\x00" + OFFSET + b"\x00", size))


def data(size):
    return module(formats.section(5, b"\x01\x00\x01"), formats.section(11, b"\x01\x00" + OFFSET + formats.u32(size) + bytes(size)))


def data_segments(size):
    return module(formats.section(5, b"\x01\x00\x01"), many(11, b"\x00" + OFFSET + b"\x00", size))


def nested(size):
    return module(body(b"\x02\x40" * (size // 3) + b"\x0b" * (size // 3)))


def open_blocks(size):
    return module(body(b"\x02\x40" * (size // 2)))


def ifs(size):
    return module(body(b"\x41\x00\x04\x40\x05" * (size // 6) + b"\x0b" * (size // 6)))


def locals_each(size):
    """A function with 50,000 groups of one local, and code that reads the last of them."""
    count = 50_000
    get = b"\x20" + formats.u32(count - 1) + b"\x1a"
    left = max(0, size - 2 * count)
    return module(body(get * (left // len(get)), formats.u32(count) + b"\x01\x7f\x01\x7e" * (count // 2)))


def code(item):
    return lambda size: module(body(item * (size // len(item))))


# The first words of the error line, by the exit status.
REFUSED = {0: "", 3: "refused at ", 10: "link refused at "}


class Case(NamedTuple):
    title: str
    # The exit status, and what the error line ends with.
    status: int
    wanted: str
    # From a number of bytes to a component.
    make: Callable


CASES = [
    Case("function types", 0, "", lambda size: module(many(1, TYPE, size))),
    Case("imports", 0, "", imports),
    Case("functions", 0, "", functions),
    Case("globals", 0, "", lambda size: module(many(6, b"\x7f\x00" + OFFSET, size))),
    Case("exports", 0, "", exports),
    Case("an element segment of functions", 0, "", elements),
    Case("element segments", 0, "", element_segments),
    Case("a data segment of bytes", 0, "", data),
    Case("data segments", 0, "", data_segments),
    Case("custom sections", 0, "", lambda size: module(b"\x00\x02\x01a" * (size // 4))),
    Case("nested blocks", 0, "", nested),
    Case("blocks without an end", 3, ": Module(SectionSize)", open_blocks),
    Case("nested ifs with else", 0, "", ifs),
    Case("constants that are dropped", 0, "", code(b"\x41\x00\x1a")),
    Case("constants that are left", 3, ": Invalid(Typing)", code(b"\x41\x00")),
    Case("calls", 0, "", code(b"\x10\x00")),
    Case("loads and stores", 0, "", code(b"\x41\x00\x41\x00\x28\x02\x00\x36\x02\x00")),
    Case("globals that are read and set", 0, "", code(b"\x23\x00\x24\x00")),
    Case("the last of 50,000 locals", 0, "", locals_each),
    Case("labels of a table of branches", 0, "", lambda size: module(body(b"\x41\x00\x0e" + formats.u32(size) + bytes(size + 1)))),
    Case("tables of branches in dead code", 0, "", code(b"\x41\x00\x0e\x01\x00\x00")),
]


def answer(program, component):
    """The time of a run, its status, its error line."""
    with tempfile.TemporaryDirectory() as folder:
        (Path(folder) / "file.wasm").write_bytes(component)
        (Path(folder) / "script.txt").write_bytes(b"")
        before = resource.getrusage(resource.RUSAGE_CHILDREN)
        done = subprocess.run(
            [program, "run", "file.wasm", "script.txt"],
            cwd=folder,
            stdin=subprocess.DEVNULL,
            stdout=subprocess.DEVNULL,
            stderr=subprocess.PIPE,
            timeout=PATIENCE,
        )
        after = resource.getrusage(resource.RUSAGE_CHILDREN)
        took = after.ru_utime + after.ru_stime - before.ru_utime - before.ru_stime
        return took, done.returncode, done.stderr.decode().strip()


def check(program, case, factor):
    """Prints the line of a case, and answers whether it passed."""
    component = case.make(int(BYTES * factor))
    assert len(component) <= 16 * 1024 * 1024
    try:
        took, status, line = answer(program, component)
    except subprocess.TimeoutExpired:
        print(f"failed: {case.title}: no answer in {PATIENCE} s")
        return False
    told = status == case.status and line.startswith(REFUSED[status]) and line.endswith(case.wanted)
    passed = told and took <= SECONDS
    print(f"{'ok' if passed else 'failed'}: {case.title}: {len(component):,} bytes in {took:.2f} s, status {status}, {line or 'no line'}")
    return passed


def main():
    if len(sys.argv) not in (2, 3):
        sys.exit(__doc__)
    program = str(Path(sys.argv[1]).resolve())
    factor = float(sys.argv[2]) if len(sys.argv) == 3 else 1.0
    passed = [check(program, case, factor) for case in CASES]
    peak = resource.getrusage(resource.RUSAGE_CHILDREN).ru_maxrss / 1024
    print(f"{passed.count(True)} of {len(passed)} passed, at most {peak:,.0f} MiB of memory")
    sys.exit(0 if all(passed) else 1)


if __name__ == "__main__":
    main()
