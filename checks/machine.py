#!/usr/bin/env python3
"""Times programs that run a core module, on the same module: wabt's `wasm-interp`, and those that are named.

    checks/machine.py [--factor FACTOR] [--wcm PROGRAM] [COMMAND..]

The module has three functions without parameters, each exported and of about 33 million instructions: `work`, a loop of
integer work; `calls`, a recursion 31 calls deep; and `bytes`, a loop of loads and stores. FACTOR, a number such as 0.01,
makes the loops shorter and leaves the recursion out. PROGRAM is a built wcm: it runs a component with the module in it, and
a script that calls the three. Each COMMAND is one word for the shell, behind which the module's path is put, and is to run
all three. A line a program is printed: its seconds of processor time, and those for a million instructions. `wat2wasm` and
`wasm-interp` of wabt are wanted.
"""

import resource
import shlex
import subprocess
import sys
import tempfile
from pathlib import Path

# No folder of compiled files is left beside the scripts.
sys.dont_write_bytecode = True

import formats

# Rounds of the loops, and the number whose Fibonacci number is computed by calls.
WORK_ROUNDS = 2_500_000
BYTE_ROUNDS = 2_200_000
FIBONACCI = 31
# The instructions of a round of each loop, those of a call that calls two others, and those of one that calls none, without
# ends.
WORK_ROUND = 13
BYTE_ROUND = 15
CALLING = 13
ENDING = 5

TEXT = """(module
  (memory 1)
  (func (export "work") (result i32) (local $n i32) (local $sum i32)
    i32.const {work}
    local.set $n
    loop
      local.get $sum
      i32.const 31
      i32.mul
      local.get $n
      i32.xor
      i32.const 7
      i32.rotl
      local.set $sum
      local.get $n
      i32.const 1
      i32.sub
      local.tee $n
      br_if 0
    end
    local.get $sum)
  (func $fibonacci (param $n i32) (result i32)
    local.get $n
    i32.const 2
    i32.lt_u
    if (result i32)
      local.get $n
    else
      local.get $n
      i32.const 1
      i32.sub
      call $fibonacci
      local.get $n
      i32.const 2
      i32.sub
      call $fibonacci
      i32.add
    end)
  (func (export "calls") (result i32)
    i32.const {fibonacci}
    call $fibonacci)
  (func (export "bytes") (result i32) (local $n i32)
    i32.const {bytes}
    local.set $n
    loop
      local.get $n
      i32.const 65532
      i32.and
      local.get $n
      i32.const 65532
      i32.and
      i32.load
      local.get $n
      i32.add
      i32.store
      local.get $n
      i32.const 1
      i32.sub
      local.tee $n
      br_if 0
    end
    i32.const 0
    i32.load)
)
"""


# The functions that are run, and a script that calls them.
NAMES = ["work", "calls", "bytes"]
SCRIPT = "fuel 1000000000\n" + "".join(f"call {text}()\n" for text in NAMES)


def component(module):
    """A component that exports the three functions of a core module, each from nothing to a u32."""
    lifts = (b"\x00\x00" + formats.u32(index) + b"\x00" + formats.u32(0) for index in range(len(NAMES)))
    exports = (b"\x00" + formats.name(text) + b"\x01" + formats.u32(index) + b"\x00" for index, text in enumerate(NAMES))
    return formats.component(
        formats.section(1, module),
        formats.instance(),
        formats.aliases(NAMES),
        formats.section(7, formats.vec([b"\x40\x00\x00\x79"])),
        formats.section(8, formats.vec(lifts)),
        formats.section(11, formats.vec(exports)),
    )


def fibonacci_calls(number):
    """How many calls that compute a Fibonacci number call two others, and how many call none."""
    calling, ending = [0, 0], [1, 1]
    for at in range(2, number + 1):
        calling.append(1 + calling[at - 1] + calling[at - 2])
        ending.append(ending[at - 1] + ending[at - 2])
    return calling[number], ending[number]


def used():
    """The seconds of processor time of all commands that have ended."""
    usage = resource.getrusage(resource.RUSAGE_CHILDREN)
    return usage.ru_utime + usage.ru_stime


def timed(words):
    """The seconds of processor time that a command takes."""
    before = used()
    subprocess.run(words, check=True, stdout=subprocess.DEVNULL)
    return used() - before


def main(words):
    factor, programs = 1.0, []
    while words[:1] in (["--factor"], ["--wcm"]):
        if words[0] == "--factor":
            factor = float(words[1])
        else:
            programs.append(words[1])
        words = words[2:]
    work, loads = int(WORK_ROUNDS * factor), int(BYTE_ROUNDS * factor)
    number = FIBONACCI if factor >= 1 else 1
    calling, ending = fibonacci_calls(number)
    count = work * WORK_ROUND + loads * BYTE_ROUND + calling * CALLING + ending * ENDING
    with tempfile.TemporaryDirectory() as folder:
        text, module = Path(folder) / "loops.wat", Path(folder) / "loops.wasm"
        text.write_text(TEXT.format(work=work, bytes=loads, fibonacci=number))
        subprocess.run(["wat2wasm", text, "-o", module], check=True)
        print(f"{count / 1e6:.1f} million instructions")
        for command in ["wasm-interp --run-all-exports", *words]:
            seconds = timed([*shlex.split(command), str(module)])
            print(f"{command}: {seconds:.2f} s, {seconds * 1e6 / count:.4f} s a million")
        file, script = Path(folder) / "loops.component", Path(folder) / "loops.script"
        file.write_bytes(component(module.read_bytes()))
        script.write_text(SCRIPT)
        for program in programs:
            seconds = timed([program, "run", str(file), str(script)])
            print(f"{program}: {seconds:.2f} s, {seconds * 1e6 / count:.4f} s a million")


if __name__ == "__main__":
    main(sys.argv[1:])
