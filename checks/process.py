#!/usr/bin/env python3
"""Runs a built wcm, and compares its exit status and what it writes.

    checks/process.py crates/wcm/out/wcm

A line a case is printed. The status is 1 where a case fails.
"""

import os
import resource
import shutil
import subprocess
import sys
import tempfile
from pathlib import Path
from typing import NamedTuple, Optional

# No folder of compiled files is left beside the scripts.
sys.dont_write_bytecode = True

import formats

MIB = 1024 * 1024
# The address space in which announced counts are read.
SPACE = 256 * MIB
ADD = Path(__file__).resolve().parent.parent / "crates" / "wcm" / "data" / "add.wasm"
SUM = "take 1 T1 add (2, 3)\nenter T1\nreturn T1 (5)\nexit T1\ndone\n"
# The words of a run whose dump is asked for.
DUMPING = ("run", "file.wasm", "script.txt", "--dump")
# How many calls the script has whose run wants more and more memory.
CALLS = 20_000
# A `write` that takes one byte a call, in place of the system's.
ONE_BYTE = """
#include <sys/syscall.h>
#include <unistd.h>
ssize_t write(int file, const void *bytes, size_t count) {
    return syscall(SYS_write, file, bytes, count > 1 ? 1 : count);
}
"""


class Case(NamedTuple):
    """A call of the program, and what is wanted of it. Files that are None are missing."""

    title: str
    status: int
    out: str = ""
    err: str = ""
    component: Optional[bytes] = None
    script: Optional[bytes] = b"call add (2, 3)\n"
    words: tuple = ("run", "file.wasm", "script.txt")
    space: Optional[int] = None
    # Devices in place of the output and the error output.
    out_to: Optional[str] = None
    err_to: Optional[str] = None
    # A library in front of the system's.
    preload: Optional[str] = None


class Found(NamedTuple):
    status: int
    out: bytes
    err: bytes


def run(program, case):
    """Makes the call in a folder of its own."""

    def limit():
        if case.space is not None:
            resource.setrlimit(resource.RLIMIT_AS, (case.space, case.space))

    with tempfile.TemporaryDirectory() as folder:
        for file, data in (("file.wasm", case.component), ("script.txt", case.script)):
            if data is not None:
                (Path(folder) / file).write_bytes(data)
        out = open(case.out_to, "wb") if case.out_to else subprocess.PIPE
        err = open(case.err_to, "wb") if case.err_to else subprocess.PIPE
        done = subprocess.run(
            [program, *case.words],
            cwd=folder,
            stdin=subprocess.DEVNULL,
            stdout=out,
            stderr=err,
            preexec_fn=limit,
            env={**os.environ, "LD_PRELOAD": case.preload} if case.preload else None,
            timeout=120,
        )
        for stream in (out, err):
            if stream is not subprocess.PIPE:
                stream.close()
        return Found(done.returncode, done.stdout or b"", done.stderr or b"")


def refused(title, text, line):
    """A component of these bytes behind its preamble, which is refused in this way in little space."""
    data = formats.COMPONENT + bytes.fromhex(text)
    return Case(title, 3, err=f"refused at {line}\n", component=data, space=SPACE)


def counts():
    """Components that announce 2^32 - 1 of something. Places are counted by hand from the formats."""
    core = "0061736d01000000"
    most = "ffffffff0f"
    return [
        refused("core instances", f"0205{most}", "15: SectionSize"),
        refused("arguments of a core instance", f"0208010000{most}", "18: SectionSize"),
        refused("aliases", f"0605{most}", "15: SectionSize"),
        refused("types", f"0705{most}", "15: SectionSize"),
        refused("parameters of a function type", f"07070140{most}", "17: SectionSize"),
        refused("canonical functions", f"0805{most}", "15: SectionSize"),
        refused("options of a lift", f"080901000000{most}", "19: SectionSize"),
        refused("exports", f"0b05{most}", "15: SectionSize"),
        refused("bytes of a section", f"07{most}", "14: Truncated"),
        refused("bytes of a core module", f"01{most}", "14: Truncated"),
        refused("bytes of a custom section's name", f"0005{most}", "15: SectionSize"),
        refused("bytes of an alias's name", f"060a0100000100{most}", "20: SectionSize"),
        refused("bytes of a label", f"0708014001{most}", "18: SectionSize"),
        refused("bytes of an export's name", f"0b070100{most}", "17: SectionSize"),
        refused("core types", f"010f{core}0105{most}", "25: Module(SectionSize)"),
        refused("core parameters", f"0111{core}01070160{most}", "27: Module(SectionSize)"),
        refused("core results", f"0112{core}0108016000{most}", "28: Module(SectionSize)"),
        refused("core functions", f"010f{core}0305{most}", "25: Module(SectionSize)"),
        refused("core exports", f"010f{core}0705{most}", "25: Module(SectionSize)"),
        refused("bytes of a core export's name", f"0110{core}070601{most}", "26: Module(SectionSize)"),
        refused("bodies without functions", f"010f{core}0a05{most}", "20: Module(Count)"),
        refused("bodies for one function", f"0113{core}030201000a05{most}", "24: Module(Count)"),
        refused("bytes of a body", f"0114{core}030201000a0601{most}", "30: Module(SectionSize)"),
        refused("groups of locals", f"0115{core}030201000a070105{most}", "31: Module(SectionSize)"),
        refused("locals", f"0118{core}030201000a0a010801{most}7f0b", "27: Module(Limit)"),
    ]


def calling(between, body):
    """A component that exports `f`, the one function of its module, from nothing to nothing; these sections stand before its body."""
    module = (
        formats.MODULE
        + formats.section(1, formats.vec([b"\x60\x00\x00"]))
        + formats.section(3, formats.vec([formats.u32(0)]))
        + formats.section(7, formats.vec([formats.name("f") + b"\x00" + formats.u32(0)]))
        + between
        + formats.section(10, formats.vec([formats.u32(len(body) + 1) + b"\x00" + body]))
    )
    return formats.component(
        formats.section(1, module), formats.instance(), formats.aliases(["f"]), formats.func_type([]), formats.lift(), formats.exports(["f"])
    )


def trapping(between):
    """One whose function is `unreachable`."""
    return calling(between, b"\x00\x0b")


def memories(*pages):
    """A component with an instance of a core module for each of these numbers of pages, which has a memory of so many."""
    modules = [formats.section(1, formats.MODULE + formats.section(5, formats.vec([b"\x00" + number]))) for number in pages]
    return formats.component(*modules, *(formats.instance(index) for index in range(len(pages))))


def looping():
    """One whose function loops for ever."""
    return calling(b"", b"\x03\x40\x0c\x00\x0b\x0b")


# What two calls of `f` of that component write: behind the first one none may enter.
HELD_BACK = """take 1 T1 f ()
enter T1
do T1 backpressure.inc ()
got T1 ()
return T1 ()
exit T1
take 2 T2 f ()
block T2 entry
deadlock T2
"""


def held_back():
    """A component whose `f` is `backpressure.inc`."""
    built_in = formats.section(8, formats.vec([b"\x24"]))
    return formats.component(built_in, formats.func_type([]), formats.lift(), formats.exports(["f"]))


def statuses(add):
    """A call for each status that can come."""
    float_type = formats.component(bytes.fromhex("07020176"))
    no_function = formats.component(bytes.fromhex("0806010000000000"))
    long = formats.COMPONENT + bytes(16 * MIB - 7)
    return [
        Case("done", 0, out=SUM, component=add),
        Case("a trap", 1, out="take 1 T1 f ()\nenter T1\ntrap T1 Unreachable\n", component=trapping(b""), script=b"call f ()\n"),
        Case("a trap in a start function", 1, out="trap T0 Unreachable\n", component=trapping(formats.section(8, formats.u32(0))), script=b"call f ()\n"),
        Case("a deadlock", 5, out=HELD_BACK, component=held_back(), script=b"call f ()\ncall f ()\n"),
        Case("no fuel in a loop", 6, out="take 1 T1 f ()\nenter T1\nfuel\n", component=looping(), script=b"call f ()\n"),
        Case("a dump", 0, out=SUM + "instance I1\n", component=add, words=DUMPING),
        Case("a dump behind a trap", 1, out="take 1 T1 f ()\nenter T1\ntrap T1 Unreachable\ninstance I1\n", component=trapping(b""), script=b"call f ()\n", words=DUMPING),
        Case("a dump of memories of no bytes and of zeros", 0, out="done\ninstance I1\nmemory M1 0\nmemory M2 1024\n", component=memories(b"\x00", b"\x80\x08"), script=b"", words=DUMPING),
        Case("a dump where the output is full", 8, component=add, words=DUMPING, out_to="/dev/full"),
        Case("a dump that is asked for twice", 2, component=add, words=DUMPING + ("--dump",)),
        Case("a dump of a component that is checked", 2, component=add, words=("check", "file.wasm", "--dump")),
        Case("no words", 2, component=add, words=()),
        Case("no script's name", 2, component=add, words=("run", "file.wasm")),
        Case("a name that begins with a minus", 2, component=add, words=("run", "-f", "script.txt")),
        Case("another command", 2, component=add, words=("walk", "file.wasm", "script.txt")),
        Case("a word too many", 2, component=add, words=("run", "file.wasm", "script.txt", "x")),
        Case("help", 2, component=add, words=("--help",)),
        Case("a component that is checked", 0, out="accepted\n", component=add, script=None, words=("check", "file.wasm")),
        Case("a component that is shown", 0, out="instances 1\nfunc add (u32, u32) -> u32\n", component=add, script=None, words=("show", "file.wasm")),
        Case("a pipe", 0, out="seed 1\nelements 2\nsum 1480929165\ndone\n", script=None, words=("pipe", "1", "2")),
        Case("a pipe of nothing", 0, out="seed 1\nelements 0\nsum 0\ndone\n", script=None, words=("pipe", "1", "0")),
        Case("a pipe of too many", 2, script=None, words=("pipe", "1", "1000001")),
        Case("a pipe where the output is full", 8, script=None, words=("pipe", "1", "2"), out_to="/dev/full"),
        Case("names behind --", 0, out=SUM, component=add, words=("run", "--", "file.wasm", "script.txt")),
        Case("a refused component", 3, err="refused at 11: Float\n", component=float_type),
        Case("a refused component without a script", 3, err="refused at 11: Float\n", component=float_type, script=None),
        Case("an empty component file", 3, err="refused at 0: Truncated\n", component=b""),
        Case("a component file of more than 16 MiB", 3, err="refused at 16777216: Limit\n", component=long),
        Case("a call of no export", 4, err="script refused at line 2: Export\n", component=add, script=b"\ncall sub (2, 3)\n"),
        Case("a script of more than 1 MiB", 4, err="script refused at line 0: Size\n", component=add, script=b"\n" * (MIB + 1)),
        Case("fuel for all but the last instruction", 6, out="take 1 T1 add (2, 3)\nenter T1\nfuel\n", component=add, script=b"fuel 3\ncall add (2, 3)\n"),
        Case("fuel for the whole call", 0, out=SUM, component=add, script=b"fuel 4\ncall add (2, 3)\n"),
        Case("a component file that is not there", 7, err="read fault\n"),
        Case("a script file that is not there", 7, err="read fault\n", component=add, script=None),
        Case("a folder in the place of a component file", 7, err="read fault\n", words=("run", ".", "script.txt")),
        Case("an output that is full", 8, component=add, out_to="/dev/full"),
        Case("an error output that is full", 8, component=float_type, err_to="/dev/full"),
        Case("an error output that is full, for words that are refused", 8, words=("run",), err_to="/dev/full"),
        Case("an item that is not linked", 10, err="link refused at 11: Index\n", component=no_function),
    ]


def failures(case, found):
    """What differs from what is wanted. With the status 2 the error output has some text, which is not compared."""
    if case.status == 2 and not found.err:
        return ["no text on the error output"]
    err = found.err if case.status == 2 else case.err.encode()
    wanted = Found(case.status, case.out.encode(), err)
    return [
        f"{part}: {got!r}, wanted {want!r}"
        for part, got, want in zip(Found._fields, found, wanted)
        if got != want
    ]


def report(title, differences):
    """Prints the line of a case, and answers whether it passed."""
    print(f"{'failed' if differences else 'ok'}: {title}")
    for difference in differences:
        print(f"    {difference}")
    return not differences


def calls(count):
    """A script of so many calls, and the text of its run."""
    script = f"fuel {10 * count}\n" + "call add (2, 3)\n" * count
    text = "".join(
        f"take {k} T{k} add (2, 3)\nenter T{k}\nreturn T{k} (5)\nexit T{k}\n" for k in range(1, count + 1)
    )
    return script.encode(), (text + "done\n").encode()


def want_of_memory(program, case, text):
    """Makes the call in less and less space. The status is 0, with the text, up to where it is 9."""
    for space in range(128, 0, -4):
        found = run(program, case._replace(space=space * MIB))
        if found.status == 0 and found.out == text:
            continue
        if found.status != 9:
            return [f"status {found.status} in {space} MiB: {found.err!r}"]
        if not text.startswith(found.out) or found.err != b"want of memory\n":
            return [f"in {space} MiB: {found.out[-80:]!r}, {found.err!r}"]
        return []
    return ["it never came"]


def memory_cases(add):
    """Calls that want more memory the less they are given, and the text of their run."""
    large = formats.component(formats.section(0, formats.name("") + bytes(15 * MIB)))
    script, text = calls(CALLS)
    return [
        (Case("in reading", 9, component=large, script=b""), b"done\n"),
        (Case("in a run", 9, component=add, script=script), text),
    ]


def one_byte_library(folder):
    """The library whose `write` takes one byte a call, or None where there is no compiler of C."""
    compiler = shutil.which("cc")
    if compiler is None:
        return None
    source, library = Path(folder) / "one_byte.c", Path(folder) / "one_byte.so"
    source.write_text(ONE_BYTE)
    subprocess.run([compiler, "-shared", "-fPIC", "-o", library, source], check=True)
    return str(library)


def one_byte_cases(program, add):
    """The answers where each output takes one byte a call: of whole runs, and where memory is wanting."""
    with tempfile.TemporaryDirectory() as folder:
        library = one_byte_library(folder)
        if library is None:
            return [report("one byte a call", ["there is no compiler of C"])]
        case = Case("one byte a call", 0, out=SUM, component=add, preload=library)
        passed = [report(case.title, failures(case, run(program, case)))]
        for case, text in memory_cases(add):
            found = want_of_memory(program, case._replace(preload=library), text)
            passed.append(report(f"want of memory {case.title}, one byte a call", found))
        return passed


def main():
    if len(sys.argv) != 2:
        sys.exit(__doc__)
    program = str(Path(sys.argv[1]).resolve())
    cases = statuses(ADD.read_bytes())
    cases += [case._replace(title=f"2^32 - 1 {case.title}") for case in counts()]
    passed = [report(case.title, failures(case, run(program, case))) for case in cases]
    for case, text in memory_cases(ADD.read_bytes()):
        passed.append(report(f"want of memory {case.title}", want_of_memory(program, case, text)))
    passed += one_byte_cases(program, ADD.read_bytes())
    print(f"{passed.count(True)} of {len(passed)} passed")
    sys.exit(0 if all(passed) else 1)


if __name__ == "__main__":
    main()
