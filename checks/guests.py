#!/usr/bin/env python3
"""Runs a built wcm on components with their scripts, and compares the traces with those that are wanted.

    checks/guests.py crates/wcm/out/wcm [FOLDER..]

Each folder, or each folder in it, has `component.wasm`, `script.txt`, the wanted output `expect.out`, and the wanted exit status
`expect.status`; without folders those of `examples/` are taken. Where `component.hex` stands beside a component, its bytes are to be
those of the component; what stands behind a `;` in it is a remark. Nothing is built. A line a guest is printed. The status is 1
where one differs, or where there is none.
"""

import re
import subprocess
import sys
from pathlib import Path

# The seconds that a guest may take.
SECONDS = 60
EXAMPLES = Path(__file__).resolve().parent.parent / "examples"
NEEDED = ("component.wasm", "script.txt", "expect.out", "expect.status")


def guests_of(folder: Path) -> list:
    """The folder if it has a component, or else those in it that have one, by name."""
    if (folder / "component.wasm").is_file():
        return [folder]
    return sorted(inner for inner in folder.iterdir() if (inner / "component.wasm").is_file())


def bytes_of(text: str) -> bytes:
    """The bytes of hexadecimal text with remarks."""
    return bytes.fromhex(re.sub(r";.*", "", text))


def first_difference(wanted: str, found: str) -> str:
    """The first line that differs, as it is wanted and as it is found."""
    wanted_lines, found_lines = wanted.split("\n"), found.split("\n")
    for number, (one, other) in enumerate(zip(wanted_lines, found_lines), 1):
        if one != other:
            return f"line {number} of the output: wanted {one!r}, found {other!r}"
    return f"the output has {len(found_lines) - 1} lines, and {len(wanted_lines) - 1} are wanted"


def fault_of(program: Path, guest: Path) -> str:
    """What is wrong with a guest, or nothing."""
    for name in NEEDED:
        if not (guest / name).is_file():
            return f"{name} is missing"
    listing = guest / "component.hex"
    if listing.is_file() and bytes_of(listing.read_text()) != (guest / "component.wasm").read_bytes():
        return "component.hex has other bytes than component.wasm"
    words = [str(program), "run", str(guest / "component.wasm"), str(guest / "script.txt")]
    try:
        ran = subprocess.run(words, capture_output=True, timeout=SECONDS)
    except subprocess.TimeoutExpired:
        return f"no end within {SECONDS} seconds"
    found, wanted = ran.stdout.decode(errors="replace"), (guest / "expect.out").read_text()
    if found != wanted:
        told = ran.stderr.decode(errors="replace").strip()
        return first_difference(wanted, found) + (f"; the error output has {told!r}" if told else "")
    status = int((guest / "expect.status").read_text())
    return "" if ran.returncode == status else f"status {ran.returncode}, and {status} is wanted"


def main() -> int:
    if len(sys.argv) < 2:
        print(__doc__.strip(), file=sys.stderr)
        return 2
    program = Path(sys.argv[1]).resolve()
    folders = [Path(word) for word in sys.argv[2:]] or [EXAMPLES]
    guests = [guest for folder in folders for guest in guests_of(folder)]
    faults = 0
    for guest in guests:
        fault = fault_of(program, guest)
        faults += bool(fault)
        print(f"{guest.name}: {fault or 'as wanted'}")
    return 1 if faults or not guests else 0


if __name__ == "__main__":
    sys.exit(main())
