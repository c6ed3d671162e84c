#!/usr/bin/env python3
"""Times one query of the program polyover, for tables beside other libraries.

    timed.py [--program PROGRAM] --time N --quiet < INPUT     prints `median SECONDS` on standard error

The program reads no clock, so the time is taken from outside: the processor time of a run on the input, less that of a
run on the same lines with one more that is bad, which reads and parses all lines and then stops. What is left is the
query and printing its answer.
"""

import argparse
import os
import statistics
import subprocess
import sys

from build import add_program_option, program_of


def processor_time(program, text):
    """The processor time of one run, and its status."""
    with open(os.devnull, "wb") as nowhere:
        child = subprocess.Popen([program], stdin=subprocess.PIPE, stdout=nowhere, stderr=nowhere)
        child.stdin.write(text)
        child.stdin.close()
        _, status, usage = os.wait4(child.pid, 0)
    child.returncode = os.waitstatus_to_exitcode(status)
    return usage.ru_utime + usage.ru_stime, child.returncode


def main():
    parser = argparse.ArgumentParser(description=__doc__, formatter_class=argparse.RawDescriptionHelpFormatter)
    add_program_option(parser)
    parser.add_argument("--time", type=int, default=1, metavar="N", help="number of runs; the median counts")
    parser.add_argument("--quiet", action="store_true", help="print no answer (none is printed anyway)")
    given = parser.parse_args()
    program = program_of(parser, given)
    text = sys.stdin.buffer.read()
    runs, readings = [], []
    for _ in range(max(1, given.time)):
        seconds, status = processor_time(program, text)
        if status:
            return status
        runs.append(seconds)
        readings.append(processor_time(program, text + b"\nx\n")[0])
    print("median", max(1e-6, statistics.median(runs) - statistics.median(readings)), file=sys.stderr)
    return 0


if __name__ == "__main__":
    sys.exit(main())
