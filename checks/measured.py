#!/usr/bin/env python3
"""Runs a command, and prints its status, how many seconds it took and how many bytes it held in memory at most.

    checks/measured.py SECONDS COMMAND..

It is stopped after so many seconds: its status is then negative. The command reads nothing; what it writes goes to the files `out`
and `err` of the folder in which this is run. It is a program of its own, since what a process held before it began a command is
counted as held by the command.
"""

import os
import subprocess
import sys
import threading
import time


def measured(patience, command):
    """The status, the seconds and the bytes of a command."""
    with open("out", "wb") as out, open("err", "wb") as err:
        began = time.monotonic()
        process = subprocess.Popen(command, stdin=subprocess.DEVNULL, stdout=out, stderr=err)
        timer = threading.Timer(patience, process.kill)
        timer.start()
        _, ended, used = os.wait4(process.pid, 0)
        took = time.monotonic() - began
        timer.cancel()
    process.returncode = os.waitstatus_to_exitcode(ended)
    return process.returncode, took, used.ru_maxrss * 1024


if __name__ == "__main__":
    print(*measured(float(sys.argv[1]), sys.argv[2:]))
