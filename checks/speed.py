#!/usr/bin/env python3
"""Times a built wcm on large files, and tells how much memory it holds.

    checks/speed.py crates/wcm/out/wcm [FACTOR]

Each file is made at its full number of items, and at twice that number; where that is past a limit of the formats, at
half of it. The full number is wanted within 3 seconds, and the greater of the two in less than three times the time of the
smaller. Files of one kind of items that are nearly as long as a component file may be are made at that length alone, and wanted
within 4 seconds. Components that are instantiated level by level are wanted within one second. Each run is wanted within 2 GiB of
memory. FACTOR, a number such as 0.01, makes all files smaller or larger. A line a case is printed. The status is 1 where a case
fails.
"""

import subprocess
import sys
import tempfile
from pathlib import Path
from typing import Callable, NamedTuple

# No folder of compiled files is left beside the scripts.
sys.dont_write_bytecode = True

import formats

# Seconds for the full number of items.
SECONDS = 3.0
# Seconds for files that are nearly as long as a component file may be, and for components that are instantiated level by level.
FULL_SECONDS = 4.0
LEVEL_SECONDS = 1.0
# How many bytes of memory a run may hold.
MEMORY = 2 << 30
# How many components may be open at a place.
LEVELS = 16
# How much longer twice the number of items may take.
TIMES = 3.0
# The time in seconds that the start of a process and the clock may take: shorter times are not compared.
START = 0.1
# Seconds after which a run is stopped.
PATIENCE = 60


class Case(NamedTuple):
    title: str
    number: int
    # From a number of items to a component, a script and the lines of the trace.
    make: Callable
    # Whether twice the number is within the limits of the formats.
    doubles: bool = True
    # What is done with the component, and the status that is wanted.
    command: str = "run"
    status: int = 0
    # The seconds within which the full number is wanted.
    within: float = SECONDS
    # Whether no other number is tried.
    alone: bool = False
    # Whether want of memory is an answer too.
    lacking: bool = False


# The status of want of memory.
LACKING = 9


def full(items, number, make):
    """The case of a file that is nearly as long as a component file may be."""
    return Case(f"{items} in a file of 16 MiB", number, make, command="check", within=FULL_SECONDS, alone=True)


def module_exports(count):
    """A core module with so many exports."""
    return formats.component(formats.section(1, formats.module(formats.short_names(count, 4)))), b"", 1


def labels(count):
    """A function type with so many labels."""
    return formats.component(formats.func_type(formats.short_names(count, 4))), b"", 1


def aliases_of(count, exports):
    """So many aliases of one core instance, whose module has so many exports."""
    names = formats.short_names(exports, 4)
    module = formats.section(1, formats.module(names))
    # The last exports first, so that each look-up is as long as it can be.
    asked = [names[-1 - index % exports] for index in range(count)]
    return formats.component(module, formats.instance(), formats.aliases(asked)), b"", 1


def few_exports(count):
    """Aliases of a core instance with 1,000 exports at most."""
    return aliases_of(count, min(count, 1000))


def many_exports(count):
    """As many aliases as exports."""
    return aliases_of(count, count)


def imports(count):
    """So many imports of a core module, from one that exports as many."""
    names = formats.short_names(count, 4)
    modules = formats.section(1, formats.module(names)) + formats.section(1, formats.importing(reversed(names)))
    return formats.component(modules, formats.instance(), formats.instance(1, ["m"])), b"", 1


def arguments(count):
    """So many arguments of a core module that imports nothing."""
    module = formats.section(1, formats.module(["f"]))
    return formats.component(module, formats.instance(), formats.instance(0, formats.short_names(count, 4))), b"", 1


def inline_exports(count):
    """A core instance of so many inline exports, and as many aliases of them."""
    names = formats.short_names(count, 4)
    module = formats.section(1, formats.module(["f"]))
    asked = formats.section(6, formats.vec(b"\x00\x00\x01" + formats.u32(1) + formats.name(text) for text in reversed(names)))
    return formats.component(module, formats.instance(), formats.aliases(["f"]), formats.inline_instance(names), asked), b"", 1


def component_exports(count):
    """A component with so many exports."""
    names = formats.short_names(count, 4)
    parts = [
        formats.section(1, formats.module(["f"])),
        formats.instance(),
        formats.aliases(["f"]),
        formats.func_type([]),
        formats.lift(),
        formats.exports(names),
    ]
    return formats.component(*parts), b"", 1


def calls(count):
    """A script of so many calls, for a component with 1,000 exports."""
    names = formats.short_names(1000, 2)
    parts = [
        formats.section(1, formats.module(["f"])),
        formats.instance(),
        formats.aliases(["f"]),
        formats.func_type([]),
        formats.lift(),
        formats.exports(names),
    ]
    script = "".join(f"call {names[-1 - index % len(names)]}()\n" for index in range(count))
    return formats.component(*parts), script.encode(), 4 * count + 1


def types_in_types(count):
    """So many types of instances, each of which exports the one before twice: as trees they would double each time."""
    first = formats.instance_type([])
    outer = b"\x02\x03\x02" + formats.u32(1)
    others = (
        formats.instance_type([outer + formats.u32(index), *formats.type_exports(["a", "b"])])
        for index in range(count - 1)
    )
    return formats.component(formats.types([first, *others])), b"", 1


def instance_exports(count):
    """An instance of so many exports, and as many aliases of them."""
    names = formats.short_names(count, 4)
    parts = [formats.types([b"\x79"]), formats.inline_types(names), formats.type_aliases(reversed(names))]
    return formats.component(*parts), b"", 1


def component_arguments(count):
    """A component that imports so many types, and an instance of it that is given them in another order."""
    names = formats.short_names(count, 4)
    inner = formats.nested(formats.types([b"\x79"]), formats.type_imports(names))
    return formats.component(formats.types([b"\x79"]), inner, formats.instantiated(0, reversed(names))), b"", 1


def described_exports(count):
    """An instance of so many exports that is exported as one of a type that asks for them in another order."""
    names = formats.short_names(count, 4)
    asked = formats.instance_type([b"\x01\x79", *formats.type_exports(reversed(names))])
    told = formats.ext("i") + b"\x05" + formats.u32(0) + b"\x01\x05" + formats.u32(1)
    exported = formats.section(11, formats.vec([told]))
    return formats.component(formats.types([b"\x79", asked]), formats.inline_types(names), exported), b"", 1


def described_again(count):
    """An instance of so many exports that is exported as many times, each time as one of a type that asks for all of them."""
    names = formats.short_names(count, 4)
    asked = formats.instance_type([b"\x01\x79", *formats.type_exports(reversed(names))])
    exported = formats.instance_exports(names, described=1)
    return formats.component(formats.types([b"\x79", asked]), formats.inline_types(names), exported), b"", 1


def exported_again(count):
    """An instance of so many exports, none of them a function, that is exported as many times."""
    names = formats.short_names(count, 4)
    return formats.component(formats.types([b"\x79"]), formats.inline_types(names), formats.instance_exports(names)), b"", 1


def imported_again(count):
    """So many imports of instances of one type, which has as many exports."""
    names = formats.short_names(count, 4)
    asked = formats.instance_type([b"\x01\x79", *formats.type_exports(names)])
    return formats.component(formats.types([asked]), formats.instance_imports(names, 0)), b"", 1


def types_again(count):
    """A component with so many types of instances and of functions, which has 255 instances."""
    names = formats.short_names(count, 4)
    made = [formats.instance_type([b"\x01\x79", *formats.type_exports([text])]) for text in names]
    made += [b"\x40" + formats.vec([formats.name(text) + b"\x79"]) + b"\x01\x00" for text in names]
    return formats.component(formats.nested(formats.types(made)), *[formats.instantiated() for _ in range(255)]), b"", 1


def instances_again(count):
    """A component with so many instances, each of which is exported, which has 255 instances."""
    names = formats.short_names(count, 4)
    made = formats.section(5, formats.vec(b"\x01" + formats.vec([]) for _ in names))
    inner = formats.nested(made, formats.instance_exports(names))
    return formats.component(inner, *[formats.instantiated() for _ in range(255)]), b"", 1


def components(count):
    """So many components, each of which has nothing, and instances of the last one."""
    parts = [formats.nested() for _ in range(count)]
    return formats.component(*parts, *[formats.instantiated(count - 1) for _ in range(255)]), b"", 1


def doubling():
    """31 types, each a tuple of the one before, twice: as a tree the last has 2 to the 30th leaves."""
    return [b"\x77"] + [formats.tuple_of([formats.u32(index)] * 2) for index in range(30)]


def over_doubled(count):
    """So many types of functions over a type that doubles 30 times, each with a label of its own."""
    made = [b"\x40" + formats.vec([formats.name(text) + formats.u32(30)]) + b"\x01\x00" for text in formats.short_names(count, 4)]
    return formats.component(formats.types(doubling() + made)), b"", 1


def small_tuples(count):
    """So many tuples of eight earlier types, no two of them equal."""
    made = [b"\x7d", b"\x79"] + [formats.tuple_of([formats.u32(index % 2), formats.u32(index // 2 % 2)]) for index in range(4)]
    parts = [formats.u32(index) for index in range(6)]
    made += [formats.tuple_of([parts[index // 6 ** place % 6] for place in range(8)]) for index in range(count)]
    return formats.component(formats.types(made)), b"", 1


def fields(count):
    """A record, an enum and a tuple, each of so many parts."""
    names = formats.short_names(count, 4)
    made = [formats.record(names), b"\x6d" + formats.vec(map(formats.name, names)), formats.tuple_of([b"\x79"] * count)]
    return formats.component(formats.types(made)), b"", 1


def lifted_again(count):
    """A function type of so many parameters, and as many lifts to it."""
    parts = [formats.placing(), formats.func_type(formats.short_names(count, 4))]
    options = [b"\x03" + formats.u32(0), b"\x04" + formats.u32(1)]
    return formats.component(*parts, formats.lifts([0] * count, options=options)), b"", 1


def options_again(count):
    """A lift with so many options, all of one kind: it is refused."""
    parts = [formats.placing(), formats.func_type(["a"])]
    return formats.component(*parts, formats.lifts([0], options=[b"\x00"] * count)), b"", 0


def lowered_again(count):
    """So many lowers of one function of 16 parameters."""
    return formats.component(formats.wide(), formats.lowers(count)), b"", 1


def lowered_imports(count, instances=1):
    """A function that is lowered so many times, and instances of a core module that import all that it is lowered to."""
    names = formats.short_names(count, 4)
    parts = [
        formats.section(1, formats.module(["f"])),
        formats.instance(),
        formats.aliases(["f"]),
        formats.func_type([]),
        formats.lift(),
        formats.lowers(count),
        formats.inline_funcs(names, 1),
        formats.section(1, formats.importing(reversed(names))),
        formats.instances(instances, 1, ["m"], 1),
    ]
    return formats.component(*parts), b"", 1


def lowered_imports_again(count):
    """The same of 255 instances of the core module."""
    return lowered_imports(count, 255)


def imported_wide(count):
    """A core function of so many parameters, and as many imports of it."""
    modules = formats.section(1, formats.module(["f"], count)) + formats.section(1, formats.importing(["f"] * count, count))
    return formats.component(modules, formats.instance(), formats.instance(1, ["m"])), b"", 1


def imported_wide_inline(count):
    """The same through a core instance of inline exports."""
    parts = [
        formats.section(1, formats.module(["f"], count)) + formats.section(1, formats.importing(["f"] * count, count)),
        formats.instance(),
        formats.aliases(["f"]),
        formats.inline_instance(["f"]),
        formats.instances(1, 1, ["m"], 1),
    ]
    return formats.component(*parts), b"", 1


def level_by_level(count):
    """Components in one another, as many as may be, each of which is instantiated so many times in the one around it: refused."""
    levels = formats.component()
    for _ in range(LEVELS - 1):
        levels = formats.component(formats.section(4, levels), *[formats.instantiated()] * count)
    return levels, b"", 0


def instantiating_itself(count):
    """A component of so many types that instantiates itself, by an alias of it: refused."""
    alias = formats.section(6, formats.vec([b"\x04\x02" + formats.u32(1) + formats.u32(0)]))
    inner = formats.nested(formats.types([b"\x79"] * count), alias, formats.instantiated())
    return formats.component(inner, formats.instantiated()), b"", 0


# Files that are nearly as long as a component file may be.


def full_of_aliases(count):
    """So many aliases, by turns of a type and of the export of an instance."""
    aliased = [b"\x03\x02\x00\x00", b"\x03\x00\x00" + formats.name("")]
    aliases = formats.section(6, formats.vec(aliased[index % 2] for index in range(count)))
    return formats.component(formats.types([b"\x79"]), formats.inline_types([""]), aliases), b"", 1


def full_of_types(count):
    """So many types of values, each of one byte."""
    return formats.component(formats.types([b"\x79"] * count)), b"", 1


def full_of_tuples(count):
    """So many tuples of one number."""
    return formats.component(formats.types([formats.tuple_of([b"\x79"])] * count)), b"", 1


def full_of_instance_types(count):
    """So many types of instances without exports."""
    return formats.component(formats.types([formats.instance_type([])] * count)), b"", 1


def full_of_func_types(count):
    """So many types of functions from nothing to nothing."""
    return formats.component(formats.types([b"\x40" + formats.vec([]) + b"\x01\x00"] * count)), b"", 1


def full_of_instances(count):
    """So many instances without exports."""
    return formats.component(formats.section(5, formats.vec([b"\x01" + formats.vec([])] * count))), b"", 1


def full_of_core_instances(count):
    """So many core instances without exports."""
    return formats.component(formats.section(2, formats.vec([b"\x01" + formats.vec([])] * count))), b"", 1


def full_of_core_modules(count):
    """So many core modules that have nothing."""
    return formats.component(formats.section(1, formats.MODULE) * count), b"", 1


def full_of_components(count):
    """So many components that have nothing."""
    return formats.component(formats.nested() * count), b"", 1


def full_of_lifts(count):
    """So many lifts of one core function."""
    parts = [formats.section(1, formats.module(["f"])), formats.instance(), formats.aliases(["f"]), formats.func_type([])]
    return formats.component(*parts, formats.lifts([0] * count)), b"", 1


def full_of_exports(count):
    """So many exports of one type."""
    names = formats.short_names(count, 4)
    exports = formats.section(11, formats.vec(formats.ext(text) + b"\x03" + formats.u32(0) + b"\x00" for text in names))
    return formats.component(formats.types([b"\x79"]), exports), b"", 1


def full_of_imports(count):
    """So many imports of instances without exports."""
    names = formats.short_names(count, 4)
    return formats.component(formats.types([formats.instance_type([])]), formats.instance_imports(names, 0)), b"", 1


CASES = [
    Case("exports of a core module", 400_000, module_exports),
    Case("labels of a function type", 400_000, labels),
    Case("aliases of a core instance with 1,000 exports", 400_000, few_exports),
    Case("aliases of a core instance with as many exports", 400_000, many_exports),
    Case("imports of a core module", 400_000, imports),
    Case("imports of a core function of as many parameters", 400_000, imported_wide),
    Case("imports of a core function of as many parameters, by a core instance of inline exports", 400_000, imported_wide_inline),
    Case("arguments of a core module", 400_000, arguments),
    Case("inline exports of a core instance, and aliases of them", 300_000, inline_exports),
    Case("exports of a component", 400_000, component_exports),
    Case("types of instances, each of the one before twice", 350_000, types_in_types),
    Case("exports of an instance, and aliases of them", 400_000, instance_exports),
    Case("arguments of a component", 400_000, component_arguments),
    Case("exports of an instance that is exported as one of a type", 400_000, described_exports),
    Case("exports of an instance that is exported as many times as one of a type", 250_000, described_again),
    Case("exports of an instance, none a function, that is exported as many times", 400_000, exported_again),
    Case("imports of instances of a type with as many exports", 400_000, imported_again),
    Case("components, and 255 instances of the last one", 400_000, components),
    Case("types of instances and of functions in a component with 255 instances", 4_000, types_again),
    Case("instances in a component with 255 instances", 6_000, instances_again),
    Case("functions over a type that doubles 30 times", 400_000, over_doubled, command="check"),
    Case("types of tuples", 400_000, small_tuples, command="check"),
    Case("parts of a record, an enum and a tuple", 300_000, fields, command="check"),
    Case("lifts to a function of as many parameters", 400_000, lifted_again, command="check"),
    Case("options of a lift", 4_000_000, options_again, command="check", status=10),
    Case("imports of a core module that are lowered functions", 370_000, lowered_imports, command="check"),
    Case("imports of 255 core instances that are lowered functions", 6_000, lowered_imports_again, command="check"),
    Case("calls of a script, for a component with 1,000 exports", 60_000, calls, doubles=False),
    Case("types in a component that instantiates itself", 4_000, instantiating_itself, command="check", status=10),
    Case("instances of each of 16 levels of components", 2, level_by_level, command="check", status=10, within=LEVEL_SECONDS),
    full("aliases", 4_194_000, full_of_aliases),
    full("types", 16_777_000, full_of_types),
    full("types of tuples of one", 5_592_000, full_of_tuples),
    full("types of instances without exports", 8_388_000, full_of_instance_types),
    full("types of functions of nothing", 4_194_000, full_of_func_types),
    full("instances without exports", 8_388_000, full_of_instances),
    full("core instances without exports", 8_388_000, full_of_core_instances),
    full("core modules", 1_677_000, full_of_core_modules),
    full("components", 1_677_000, full_of_components),
    full("lifts", 3_355_000, full_of_lifts),
    full("lowers of a function of 16 parameters", 4_190_000, lowered_again),
    full("exports", 1_864_000, full_of_exports),
    full("imports of instances without exports", 2_097_000, full_of_imports),
]


class Run(NamedTuple):
    seconds: float
    # How many bytes of memory it held.
    memory: int


def run(program, case, size):
    """The shorter of two runs that come to what is wanted, or why there is none."""
    component, script, lines = case.make(size)
    files = ["file.wasm", "script.txt"] if case.command == "run" else ["file.wasm"]
    command = [sys.executable, str(Path(__file__).resolve().parent / "measured.py"), str(PATIENCE), program, case.command, *files]
    runs = []
    with tempfile.TemporaryDirectory() as folder:
        (Path(folder) / "file.wasm").write_bytes(component)
        (Path(folder) / "script.txt").write_bytes(script)
        del component, script
        for _ in range(2):
            told = subprocess.run(command, cwd=folder, capture_output=True, text=True, check=True).stdout.split()
            status, taken = int(told[0]), Run(float(told[1]), int(told[2]))
            written = (Path(folder) / "out").read_bytes().count(b"\n")
            if (status != case.status or written != lines) and not (case.lacking and status == LACKING):
                why = (Path(folder) / "err").read_bytes()
                raise ValueError(f"status {status} after {taken.seconds:.2f} s, {written} lines, {why!r}")
            runs.append(taken)
    return min(runs)


def sizes_of(case, number):
    """The numbers of items that are tried, of which one is this."""
    if case.alone:
        return [number]
    return [number, 2 * number] if case.doubles else [number // 2, number]


def check(program, case, factor):
    """Prints the line of a case, and answers whether it passed."""
    number = max(2, int(case.number * factor))
    sizes = sizes_of(case, number)
    try:
        runs = [run(program, case, size) for size in sizes]
    except ValueError as why:
        print(f"failed: {number:,} {case.title}: {why}")
        return False
    small, large = runs[0].seconds, runs[-1].seconds
    in_time = runs[sizes.index(number)].seconds <= case.within
    in_proportion = large <= START or case.alone or large < TIMES * max(small, START)
    in_memory = all(one.memory <= MEMORY for one in runs)
    passed = in_time and in_proportion and in_memory
    word = "ok" if passed else "failed"
    told = ", ".join(f"{size:,} in {one.seconds:.2f} s and {one.memory >> 20:,} MiB" for size, one in zip(sizes, runs))
    print(f"{word}: {number:,} {case.title}: {told}", flush=True)
    return passed


def main(cases, usage):
    """Checks the cases with the program that the command line names."""
    if len(sys.argv) not in (2, 3):
        sys.exit(usage)
    program = str(Path(sys.argv[1]).resolve())
    factor = float(sys.argv[2]) if len(sys.argv) == 3 else 1.0
    passed = [check(program, case, factor) for case in cases]
    print(f"{passed.count(True)} of {len(passed)} passed")
    sys.exit(0 if all(passed) else 1)


if __name__ == "__main__":
    main(CASES, __doc__)
