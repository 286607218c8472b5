#!/usr/bin/env python3
"""Runs pipes by a built wcm, compares what they tell with a plain loop, and tells their time and memory.

    checks/pipes.py crates/wcm/out/wcm

Seeds and counts at the ends of their ranges and between, and words that are refused. A pipe of 1,000,000 numbers is wanted within 3
seconds, and in no more memory than one of 10,000, but for a MiB. A line a case is printed. The status is 1 where a case fails.
"""

import subprocess
import sys
import tempfile
from pathlib import Path

# No folder of compiled files is left beside the scripts.
sys.dont_write_bytecode = True

MEASURED = Path(__file__).resolve().parent / "measured.py"
SEEDS = (0, 1, 2, 7, 12345, 2**30, 2**31 - 2, 2**31 - 1)
COUNTS = (*range(41), 1000, 4095, 4096, 10_000)
# The pipe whose time is measured, and one with less through it.
SEED, MANY, FEW = 7, 1_000_000, 10_000
SECONDS, MORE_MEMORY = 3.0, 1 << 20
# Words that ask for no pipe.
REFUSED = ("", "1", "1 1000001", "2147483648 1", "-1 1", "1 -1", "1 2 3", "one 1", "1 2.0", "0x1 2", "1 2 --dump", "4294967296 1", "1 4294967296")


def told(seed, count):
    """The four lines of a pipe."""
    number, total = seed, 0
    for _ in range(count):
        number = (1_103_515_245 * number + 12_345) % 2**31
        total += number
    return f"seed {seed}\nelements {count}\nsum {total}\ndone\n".encode()


def report(title, passed):
    """Prints the line of a case, and answers whether it passed."""
    print(f"{'ok' if passed else 'failed'}: {title}")
    return passed


def pipe(program, *words):
    """The status of a pipe, and what it writes."""
    done = subprocess.run([program, "pipe", *words], stdin=subprocess.DEVNULL, capture_output=True, timeout=60)
    return done.returncode, done.stdout, done.stderr


def measured(program, seed, count):
    """The status of a pipe, its seconds, its bytes of memory, and what it writes."""
    with tempfile.TemporaryDirectory() as folder:
        command = [sys.executable, MEASURED, "60", program, "pipe", str(seed), str(count)]
        done = subprocess.run(command, cwd=folder, capture_output=True, check=True, text=True)
        status, took, memory = done.stdout.split()
        return int(status), float(took), int(memory), (Path(folder) / "out").read_bytes()


def main():
    if len(sys.argv) != 2:
        sys.exit(__doc__)
    program = str(Path(sys.argv[1]).resolve())
    passed = []
    for seed in SEEDS:
        wrong = [count for count in COUNTS if pipe(program, str(seed), str(count)) != (0, told(seed, count), b"")]
        passed.append(report(f"the seed {seed}, with {len(COUNTS)} counts{f', but for {wrong}' if wrong else ''}", not wrong))
    for words in REFUSED:
        status, out, err = pipe(program, *words.split())
        passed.append(report(f"no pipe: {words!r}", (status, out) == (2, b"") and err != b""))
    _, _, few_memory, _ = measured(program, SEED, FEW)
    status, took, memory, out = measured(program, SEED, MANY)
    figures = f"{took:.2f} s, {memory >> 10} KiB, with {FEW} numbers {few_memory >> 10} KiB"
    passed.append(report(f"{MANY} numbers: {figures}", status == 0 and out == told(SEED, MANY) and took < SECONDS and memory < few_memory + MORE_MEMORY))
    print(f"{passed.count(True)} of {len(passed)} passed")
    sys.exit(0 if all(passed) else 1)


if __name__ == "__main__":
    main()
