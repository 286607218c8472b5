#!/usr/bin/env python3
"""Times a built wcm on large files of resources, streams, canonical functions and script lines, and tells how much memory it holds.

    checks/hostile.py crates/wcm/out/wcm [FACTOR]

The full number of each is wanted within the seconds of its case, and the greater of two sizes in less than three times the time of
the smaller, as in `speed.py`; some may come to want of memory (status 9) in place of an answer. FACTOR, a number such as 0.01, makes
all files smaller. A line a case is printed. The status is 1 where a case fails.
"""

import sys

# No folder of compiled files is left beside the scripts.
sys.dont_write_bytecode = True

import formats
import speed
from formats import ext, instance_type, name, section, types, u32, vec
from speed import Case

# Seconds for files that are nearly as long as a component file may be.
FULL = 10.0
# How many bytes a script may have.
SCRIPT = 1 << 20
# A resource whose representation is an i32, and what an export is to be that brings one.
RESOURCE, BROUGHT = b"\x3f\x7f\x00", b"\x03\x01"


def full_of_sets(count):
    """So many `waitable-set.new`, of one byte each."""
    return formats.component(section(8, vec([b"\x1f"] * count))), b"", 1


def streams_made(count):
    """So many `stream.new` of one type."""
    return formats.component(types([b"\x66\x00"]), section(8, vec([b"\x0e\x00"] * count))), b"", 1


def full_of_streams(count):
    """So many types of streams of nothing."""
    return formats.component(types([b"\x66\x00"] * count)), b"", 1


def resources(count):
    """So many types of resources."""
    return formats.component(types([RESOURCE] * count)), b"", 1


def resources_again(count):
    """The same in a component that is instantiated 255 times."""
    return formats.component(formats.nested(types([RESOURCE] * count)), *[formats.instantiated() for _ in range(255)]), b"", 1


def results_again(count):
    """A record of so many fields, and as many `task.return` of it."""
    made = types([formats.record(formats.short_names(count, 4))])
    returned = section(8, vec([b"\x09\x00" + u32(0) + vec([b"\x03" + u32(0)])] * count))
    return formats.component(formats.placing(), made, returned), b"", 1


def exported(text, desc):
    """The declaration of an export in an instance type."""
    return b"\x04" + ext(text) + desc


def outer_type(index):
    """A declaration of an instance type: the type of this index of what is around it."""
    return b"\x02\x03\x02" + u32(1) + u32(index)


def holding(index, names):
    """A type of instances that has instances of the type of this index under these names."""
    return instance_type([outer_type(index)] + [exported(text, b"\x05" + u32(0)) for text in names])


def bringing(count):
    """A type of instances that brings so many resources."""
    return instance_type([exported(text, BROUGHT) for text in formats.short_names(count, 4)])


def brought(count):
    """A type that brings so many resources, and one that has an instance of it."""
    return formats.component(types([bringing(count), holding(0, ["i"])])), b"", 1


def brought_twice(count):
    """So many types of instances, each with two instances of the one before it. The first brings a resource."""
    return formats.component(types([bringing(1)] + [holding(index, ["a", "b"]) for index in range(count)])), b"", 1


def handles_moved(count):
    """A type with so many functions over one type of as many labels and a handle, and one that has an instance of it."""
    labels = formats.short_names(count, 4)
    passed = [RESOURCE, b"\x69" + u32(0), b"\x6d" + vec(name(label) for label in labels), formats.tuple_of([u32(1), u32(2)])]
    funcs = [b"\x01\x40" + vec([name(label) + u32(0)]) + b"\x01\x00" for label in labels]
    exports = [exported(label, b"\x01" + u32(1 + index)) for index, label in enumerate(labels)]
    return formats.component(types(passed + [instance_type([outer_type(3)] + funcs + exports), holding(4, ["i"])])), b"", 1


def given_instances(depth):
    """Types and instances in one another, as deep as this: each type exports two instances of the one before, the first a resource.

    A component that imports an instance of the last type is given the last instance."""
    first = instance_type([exported("r", BROUGHT)])
    others = [
        instance_type([outer_type(index), exported("a", b"\x05\x00"), exported("b", b"\x05\x00")]) for index in range(depth)
    ]
    inner = formats.nested(types([first, *others]), section(10, vec([ext("x") + b"\x05" + u32(depth)])))
    made = [section(5, vec([b"\x01" + vec([ext("r") + b"\x03" + u32(0)])]))]
    for index in range(depth):
        made += [section(5, vec([b"\x01" + vec(ext(text) + b"\x05" + u32(index) for text in "ab")]))]
    given = section(5, vec([b"\x00\x00" + vec([name("x") + b"\x05" + u32(depth)])]))
    return formats.component(types([RESOURCE]), inner, *made, given), b"", 1


def functions_over(count, times=1):
    """An instance type of so many functions over its resource, imported so many times from one instance, by so many instances."""
    names = formats.short_names(count, 4)
    asked = [exported("r", BROUGHT), b"\x01\x69\x00", b"\x01\x40" + vec([name("a") + u32(1)]) + b"\x01\x00"]
    asked += [exported(text, b"\x01" + u32(2)) for text in names]
    imports = section(10, vec(ext(text) + b"\x05" + u32(0) for text in names))
    inner = formats.nested(types([instance_type(asked)]), imports)
    module = section(1, formats.module(["f"], 1))
    made = types([RESOURCE, b"\x69\x00", b"\x40" + vec([name("a") + u32(1)]) + b"\x01\x00"])
    parts = [made, inner, module, formats.instance(), formats.aliases(["f"]), formats.lifts([2])]
    parts += [section(5, vec([b"\x01" + vec([ext("r") + b"\x03" + u32(0), *(ext(text) + b"\x01" + u32(0) for text in names)])]))]
    given = section(5, vec([b"\x00\x00" + vec(name(text) + b"\x05" + u32(0) for text in names)]))
    return formats.component(*parts, *[given] * times), b"", 1


def functions_over_again(count):
    """The same, given to 255 instances."""
    return functions_over(count, 255)


def bringing_in_turn(count):
    """So many instance types, each of which exports an instance of the one before; the first brings a resource."""
    first = instance_type([exported("r", BROUGHT)])
    others = (instance_type([outer_type(index), exported("a", b"\x05\x00")]) for index in range(count - 1))
    return formats.component(types([first, *others])), b"", 1


def doubled_own(count):
    """An own handle under 30 pairs of pairs, which are filled in as often as a component is instantiated."""
    asked = [exported("r", BROUGHT), b"\x01\x69\x00"]
    asked += [b"\x01" + formats.tuple_of([u32(index + 1)] * 2) for index in range(30)] + [exported("t", b"\x03\x00" + u32(31))]
    made = [RESOURCE, b"\x69\x00"] + [formats.tuple_of([u32(index + 1)] * 2) for index in range(30)]
    inner = formats.nested(types([instance_type(asked)]), section(10, vec([ext("x") + b"\x05\x00"])))
    one = section(5, vec([b"\x01" + vec([ext("r") + b"\x03" + u32(0), ext("t") + b"\x03" + u32(31)])]))
    given = section(5, vec([b"\x00\x00" + vec([name("x") + b"\x05" + u32(0)])]))
    return formats.component(types(made), inner, one, *[given] * count), b"", 1


def deep_instance_types(count):
    """Instance types in one another, as deep as they may be; the innermost names the resource of the outermost, so many times."""
    levels = speed.LEVELS - 1
    inner = instance_type([b"\x02\x03\x02" + u32(levels - 1) + u32(0)] * count)
    for level in range(levels - 1):
        brings = [exported("r", BROUGHT)] if level == levels - 2 else []
        inner = instance_type([*brings, b"\x01" + inner])
    return formats.component(types([inner])), b"", 1


def one_call(lines):
    """A script that calls a function of nothing and then has these lines."""
    parts = [section(1, formats.module(["f"])), formats.instance(), formats.aliases(["f"]), formats.func_type([])]
    return formats.component(*parts, formats.lift(), formats.exports(["f"])), b"call f()\n" + lines


def cancels(count):
    """So many lines that cancel a call which is over."""
    return *one_call(b"cancel 1\n" * count), 5 + count


def pick_lines(count):
    """So many lines of one pick."""
    return *one_call(b"pick 0\n" * count), 5


def picks(count):
    """A line of so many picks."""
    return *one_call(b"pick" + b" 0" * count + b"\n"), 5


def full(title, number, make):
    """The case of a file that is nearly as long as a component file may be."""
    return Case(f"{title} in a file of 16 MiB", number, make, command="check", within=FULL, alone=True, lacking=True)


CASES = [
    full("waitable-set.new", 16_777_000, full_of_sets),
    full("types of streams of nothing", 8_388_000, full_of_streams),
    Case("stream.new of one type", 1_000_000, streams_made, command="check"),
    Case("types of resources", 1_000_000, resources, command="check"),
    Case("types of resources in a component with 255 instances", 4_000, resources_again, command="check", lacking=True),
    full("types of resources", 5_592_000, resources),
    Case("fields of a record, and as many task.return of it", 600_000, results_again, command="check"),
    Case("resources that an instance type brings", 500_000, brought, command="check", lacking=True),
    full("resources that an instance type brings", 1_048_576, brought),
    Case("instance types that double what they bring", 40, brought_twice, command="check", lacking=True),
    Case("functions over a type of as many labels and a handle, moved", 100_000, handles_moved, command="check", lacking=True),
    Case("instances in one another, two in each", 20, given_instances, command="check", lacking=True),
    Case("functions over a resource that an instance type brings, imported as many times", 200_000, functions_over, command="check", lacking=True),
    Case("the same of 255 instances", 2_000, functions_over_again, command="check", lacking=True),
    Case("instance types, each in the next, the first of which brings a resource", 500_000, bringing_in_turn, command="check", lacking=True),
    Case("instances for which an own handle in pairs of pairs is filled in", 127, doubled_own, command="check", lacking=True),
    Case("names of a resource that an instance type 15 levels out brings", 1_000_000, deep_instance_types, command="check", lacking=True),
    Case("cancellations of a script", 116_000, cancels, doubles=False),
    Case("lines of picks of a script", 149_000, pick_lines, doubles=False),
    Case("picks on a line of a script", 524_000, picks, doubles=False),
]


if __name__ == "__main__":
    speed.main(CASES, __doc__)
