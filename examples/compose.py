#!/usr/bin/env python3
"""Puts components into one, whose instances are given what they import.

    examples/compose.py PLAN OUT

PLAN has a line for each instance, in order: its name, the component's file, and for each import `NAME=INSTANCE`, the instance of an
earlier line that exports what is asked for under the same name. Behind them stand lines `export INSTANCE NAME`: what the whole
exports. Files are looked for beside PLAN. A component that is asked for a resource's type beside an instance, or for a function or
an instance under another name, is not for this script.

    sensor sensor.wasm
    monitor monitor.wasm example:sensor/readings@0.1.0=sensor
    export monitor coldest
"""

import sys
from pathlib import Path

# No folder of compiled files is left beside the scripts.
sys.dont_write_bytecode = True

sys.path.insert(0, str(Path(__file__).resolve().parent.parent / "checks"))

from formats import component, ext, name, section, u32, vec

# The sorts that are exported and given: functions and instances.
FUNC, INSTANCE = 1, 5


class Reader:
    """Bytes, read from front to back."""

    def __init__(self, data):
        self.data, self.at = data, 0

    def byte(self):
        self.at += 1
        return self.data[self.at - 1]

    def number(self):
        value = shift = 0
        while True:
            byte = self.byte()
            value |= (byte & 127) << shift
            shift += 7
            if byte < 128:
                return value

    def take(self, length):
        self.at += length
        return self.data[self.at - length : self.at]


def exports_of(data):
    """The sort of each function and instance that a component exports, by its name."""
    found, reader = {}, Reader(data)
    reader.take(8)
    while reader.at < len(data):
        number, payload = reader.byte(), Reader(reader.take(reader.number()))
        if number == 11:
            for _ in range(payload.number()):
                payload.byte()
                text = payload.take(payload.number()).decode()
                sort, _, described = payload.byte(), payload.number(), payload.byte()
                if sort not in (FUNC, INSTANCE) or described:
                    break
                found[text] = sort
    return found


def alias(sort, instance, text):
    """The export of an instance."""
    return section(6, vec([bytes([sort, 0]) + u32(instance) + name(text)]))


def composed(plan, folder):
    """The bytes of a component, by the lines of a plan."""
    parts, names, exports = [], [], []
    # How many functions and instances there are so far.
    counts = {FUNC: 0, INSTANCE: 0}
    # The index of each instance of the plan.
    index = {}
    for line in plan:
        if line[0] == "export":
            sort = exports[names.index(line[1])][line[2]]
            parts.append(alias(sort, index[line[1]], line[2]))
            parts.append(section(11, vec([ext(line[2]) + bytes([sort]) + u32(counts[sort]) + b"\x00"])))
            counts[sort] += 2
            continue
        data = (folder / line[1]).read_bytes()
        parts.append(section(4, data))
        given = []
        for asked in line[2:]:
            text, giver = asked.rsplit("=", 1)
            sort = exports[names.index(giver)][text]
            parts.append(alias(sort, index[giver], text))
            given.append(name(text) + bytes([sort]) + u32(counts[sort]))
            counts[sort] += 1
        parts.append(section(5, vec([b"\x00" + u32(len(names)) + vec(given)])))
        index[line[0]] = counts[INSTANCE]
        counts[INSTANCE] += 1
        names.append(line[0])
        exports.append(exports_of(data))
    return component(*parts)


def main():
    if len(sys.argv) != 3:
        sys.exit(__doc__)
    plan = Path(sys.argv[1])
    lines = [line.split() for line in plan.read_text().splitlines() if line.strip() and not line.startswith("#")]
    Path(sys.argv[2]).write_bytes(composed(lines, plan.parent))


if __name__ == "__main__":
    main()
