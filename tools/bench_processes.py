#!/usr/bin/env python3
"""Writes a trace of one zone whose processes make one kind of call over and over, or measures such calls.

    tools/bench_processes.py CALL PROCESSES [LINES] > bench.trace
    valgrind --tool=callgrind crates/zones_cli/out/zones_cli trace < bench.trace
    tools/bench_processes.py --measure [--program FILE]

CALL is one of these; the zone has so many PROCESSES, its first one included, before the LINES that are measured:

- pair: a `fork`, and the `exit` of the process that it made;
- kill: `kill 0 PID` by the first process, with each process of the zone in turn;
- session-kill: the same line typed in a session;
- privs: `privs` by each process in turn.

No line is refused. The lines before the measured ones are the same for every number of LINES, so the instructions of a
line are the difference of two lengths; `--measure` prints them for each call, with 10 and with 20,000 processes.
"""

import argparse
import pathlib
import sys

from arguments import PROGRAM
from measure import instructions, table
from zone_lines import running

FIRST, LAST = 2, 29999
SIZES = (10, 20000)
LENGTHS = (5000, 10000)


def pair(number, processes):
    free = FIRST + processes
    if number % 2 == 0:
        return "P z %d fork child" % FIRST
    return "P z %d exit" % (free + number // 2 % (LAST + 1 - free))


def one(number, processes):
    """Each process of the zone in turn."""
    return FIRST + number % processes


CALLS = {
    "pair": pair,
    "kill": lambda number, processes: "P z %d kill 0 %d" % (FIRST, one(number, processes)),
    "session-kill": lambda number, processes: "S 1 kill 0 %d" % one(number, processes),
    "privs": lambda number, processes: "P z %d privs" % one(number, processes),
}


def trace(call, processes, lines):
    """A zone with so many processes, and then so many lines of a call."""
    out = running("z") + ["P z %d fork child" % FIRST] * (processes - 1)
    out += [CALLS[call](number, processes) for number in range(lines)]
    return ("\n".join(out) + "\n").encode()


def measured(program):
    """A table of the instructions of a line."""
    rows = []
    for call in CALLS:
        counts = []
        for processes in SIZES:
            short, long = (instructions(program, "trace", trace(call, processes, lines)) for lines in LENGTHS)
            counts.append("{:,}".format(round((long - short) / (LENGTHS[1] - LENGTHS[0]))))
        rows.append([call] + counts)
    return table(["A line of"] + ["of {:,} processes".format(processes) for processes in SIZES], rows)


def main():
    parser = argparse.ArgumentParser(description=__doc__, formatter_class=argparse.RawDescriptionHelpFormatter)
    parser.add_argument("call", nargs="?", choices=CALLS)
    parser.add_argument("processes", nargs="?", type=int, default=SIZES[0])
    parser.add_argument("lines", nargs="?", type=int, default=LENGTHS[0])
    parser.add_argument("--measure", action="store_true")
    parser.add_argument("--program", metavar="FILE", default=str(PROGRAM), help="the native program")
    args = parser.parse_args()
    if args.measure:
        if not pathlib.Path(args.program).is_file():
            sys.exit("no program %s" % args.program)
        print(measured(args.program))
    elif args.call:
        sys.stdout.buffer.write(trace(args.call, args.processes, args.lines))
    else:
        parser.error("a CALL or --measure is needed")


if __name__ == "__main__":
    main()
