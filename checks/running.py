#!/usr/bin/env python3
"""Times a built wcm on long runs, and tells how much memory it holds.

    checks/running.py crates/wcm/out/wcm [FACTOR]

Each run is made with its full number of what it repeats, and with twice that number; where that is past a limit, with half of it.
The full number is wanted within the seconds of its case, and the greater of the two in less than three times the time of the
smaller, within 2 GiB of memory. FACTOR, a number such as 0.01, makes all runs shorter. A line a case is printed. The status is 1
where a case fails.
"""

import sys

# No folder of compiled files is left beside the scripts.
sys.dont_write_bytecode = True

import formats
import speed
from formats import name, section, u32, vec
from speed import Case

# Core types, and the types of core functions from and to such.
I32, I64 = b"\x7f", b"\x7e"
# Instructions without immediates.
END, DROP, ADD, LESS, SHIFT, WRAP = b"\x0b", b"\x1a", b"\x6a", b"\x49", b"\x88", b"\xa7"
# The canonical functions of these runs.
YIELD, RETURN, PRESSURE, SET, JOIN = b"\x0c\x00", b"\x09\x01\x00\x00", b"\x24", b"\x1f", b"\x23"
ASYNC = b"\x06"


def func(params, results):
    """The type of a core function."""
    return b"\x60" + vec(params) + vec(results)


def constant(number):
    """i32.const of a number below 2^31."""
    found = bytearray()
    while number >= 64:
        found.append(number % 128 + 128)
        number //= 128
    return b"\x41" + bytes(found) + bytes([number])


def local(index):
    """local.get"""
    return b"\x20" + u32(index)


def set_local(index):
    """local.set"""
    return b"\x21" + u32(index)


def call(index):
    """call"""
    return b"\x10" + u32(index)


def times(count, counter, body):
    """A loop that runs a body so many times, at least once, and counts in a local of type i32."""
    again = local(counter) + constant(1) + ADD + b"\x22" + u32(counter) + constant(count) + LESS + b"\x0d\x00"
    return constant(0) + set_local(counter) + b"\x03\x40" + body + again + END


def coded(types, imports, body, local_types=(), pages=1):
    """A core module whose function `f`, of type 0, runs this body, with these locals, over functions that it imports as `m`.

    It has a memory `m` of so many pages. An import is the index of a type; its function has its place among them as its index."""
    imported = vec(name("m") + name(str(place)) + b"\x00" + u32(index) for place, index in enumerate(imports))
    code = vec(u32(1) + it for it in local_types) + body + END
    return (
        formats.MODULE
        + section(1, vec(types))
        + section(2, imported)
        + section(3, vec([u32(0)]))
        + section(5, vec([b"\x00" + u32(pages)]))
        + section(7, vec([name("f") + b"\x00" + u32(len(imports)), name("m") + b"\x02\x00"]))
        + section(10, vec([u32(len(code)) + code]))
    )


def running(canons, module, made=(), memory=False):
    """A component that exports `f`, an async function of nothing, which runs the function `f` of a module over canonical functions.

    The types of the component are these, and behind them that of `f`. With a memory the last canonical function is one that has it."""
    typed = formats.types([*made, b"\x40" + vec([]) + b"\x01\x00"])
    parts = [typed]
    given = len(canons)
    if memory:
        store = formats.MODULE + section(5, vec([b"\x00\x01"])) + section(7, vec([name("m") + b"\x02\x00"]))
        parts += [section(1, store), formats.instance(), section(6, vec([b"\x00\x02\x01" + u32(0) + name("m")]))]
    first = 1 if memory else 0
    inline = section(2, vec([b"\x01" + vec(name(str(place)) + b"\x00" + u32(place) for place in range(given))]))
    parts += [
        section(8, vec(canons)),
        inline,
        section(1, module),
        formats.instances(1, first, ["m"], first),
        section(6, vec([b"\x00\x00\x01" + u32(first + 1) + name("f")])),
        section(8, vec([b"\x00\x00" + u32(given) + vec([ASYNC]) + u32(len(made))])),
        formats.exports(["f"]),
    ]
    return formats.component(*parts)


def script(calls):
    """A script with all the fuel that there is, and so many calls."""
    return b"fuel 1000000000\n" + b"call f()\n" * calls


def yields(count):
    """A task that yields so many times."""
    body = times(count, 0, call(1) + DROP) + call(0)
    module = coded([func([], []), func([], [I32])], [0, 1], body, [I32])
    return running([RETURN, YIELD], module), script(1), 4 * count + 7


def waiting(count):
    """A task that keeps all others out, and so many that wait to enter: a deadlock."""
    module = coded([func([], [])], [0, 0], call(1) + call(0))
    return running([RETURN, PRESSURE], module), script(count + 1), 8 + 2 * count + 1


def handles(count):
    """A task that makes so many handles of a resource and drops them all."""
    made = times(count, 0, local(0) + call(1) + DROP) + times(count, 0, local(0) + constant(1) + ADD + call(2))
    module = coded([func([], []), func([I32], [I32]), func([I32], [])], [0, 1, 2], made + call(0), [I32])
    canons = [RETURN, b"\x02\x00", b"\x03\x00"]
    return running(canons, module, [b"\x3f\x7f\x00"]), script(1), 4 * count + 7


def polled(count):
    """A set with 65,000 members, the ends of 32,500 streams, that is polled so many times."""
    ends = 32_500
    body = call(1) + set_local(1)
    both = [local(2) + WRAP, local(2) + b"\x42\x20" + SHIFT + WRAP]
    body += times(ends, 0, call(2) + set_local(2) + b"".join(end + local(1) + call(3) for end in both))
    body += times(count, 0, local(1) + constant(0) + call(4) + DROP)
    types = [func([], []), func([], [I32]), func([], [I64]), func([I32, I32], []), func([I32, I32], [I32])]
    module = coded(types, [0, 1, 2, 3, 4], body + call(0), [I32, I32, I64])
    canons = [RETURN, SET, b"\x0e\x00", JOIN, b"\x21\x00\x00"]
    return running(canons, module, [b"\x66\x00"], memory=True), script(1), 2 * (1 + 3 * ends) + 3 * count + 7


def chained(count):
    """A call through so many component instances, each of which calls the one before."""
    typed = formats.types([b"\x40" + vec([]) + b"\x01\x00"])
    last = [
        typed,
        section(1, formats.module(["f"])),
        formats.instance(),
        formats.aliases(["f"]),
        formats.lift(),
        formats.exports(["f"]),
    ]
    each = [
        typed,
        section(10, vec([formats.ext("g") + b"\x01\x00"])),
        formats.lowers(1),
        section(2, vec([b"\x01" + vec([name("0") + b"\x00" + u32(0)])])),
        section(1, coded([func([], [])], [0], call(0))),
        formats.instances(1, 0, ["m"], 0),
        section(6, vec([b"\x00\x00\x01" + u32(1) + name("f")])),
        section(8, vec([b"\x00\x00" + u32(1) + vec([]) + u32(0)])),
        section(11, vec([formats.ext("f") + b"\x01" + u32(1) + b"\x00"])),
    ]
    parts = [formats.nested(*last), formats.nested(*each), formats.instantiated(0)]
    for index in range(count - 1):
        aliased = section(6, vec([b"\x01\x00" + u32(index) + name("f")]))
        given = section(5, vec([b"\x00\x01" + vec([name("g") + b"\x01" + u32(index)])]))
        parts += [aliased, given]
    parts += [section(6, vec([b"\x01\x00" + u32(count - 1) + name("f")]))]
    parts += [section(11, vec([formats.ext("f") + b"\x01" + u32(count - 1) + b"\x00"]))]
    return formats.component(*parts), script(1), 6 * count - 1


CASES = [
    Case("yields of one task", 1_000_000, yields, within=10.0),
    Case("tasks that wait to enter", 60_000, waiting, doubles=False, status=5, within=10.0),
    Case("handles of a resource that are made and dropped", 65_535, handles, doubles=False),
    Case("polls of a set with 65,000 members", 10_000, polled),
    Case("calls in one another, each in an instance of its own", 250, chained, doubles=False),
]


if __name__ == "__main__":
    speed.main(CASES, __doc__)
