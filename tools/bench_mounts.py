#!/usr/bin/env python3
"""Writes a trace of one zone whose process looks where paths lie over and over, or measures such calls.

    tools/bench_mounts.py CALL MOUNTS [LINES] > bench.trace
    valgrind --tool=callgrind crates/zones_cli/out/zones_cli trace < bench.trace
    tools/bench_mounts.py --measure [--program FILE]

CALL is one of these; the zone has so many MOUNTS, its root included, at most 128, before the LINES that are measured:

- read: `read` of a path below each of the mounts in turn;
- root: `read` of a path that lies in the root alone;
- deep: `read` of a path of 200 components, all but the first of which lie below one mount;
- pair: a `mount`, and the `umount` of what it mounted; at most 127 others stand beside it.

Lines and replies of a call are as long for any number of MOUNTS, and no line is refused. The lines before the measured
ones are the same for every number of LINES, so the instructions of a line are the difference of two lengths;
`--measure` prints them for each call, with 1 and with 128 mounts, and how many times as many the latter are. It prints
too what a `Y` line of each kind takes among the first and among the last of 1,024 declared items of that kind.
"""

import argparse
import pathlib
import sys

from arguments import PROGRAM
from measure import instructions, table
from zone_lines import running

SPECIAL = "/here"
SIZES = (1, 128)
LENGTHS = (5000, 10000)
DECLARED = (0, 256, 768, 1024)
ITEMS = ["link net%02d.%02d", "address 10.0.1%02d.1%02d", "dataset tank/%02d%02d", "device /dev/%02d/%02d"]


def directory(number):
    """The directory of a mount; number 0 has the name of one, and none is mounted there."""
    return "/m%03d" % number


def read(number, mounts):
    return "P z 2 read %s/x" % directory(number % mounts)


def pair(number, _mounts):
    return "P z 2 mount lofs %s %s" % (SPECIAL, directory(999)) if number % 2 == 0 else "P z 2 umount " + directory(999)


CALLS = {
    "read": read,
    "root": lambda number, _mounts: "P z 2 read %s/x" % directory(900 + number % 99),
    "deep": lambda number, mounts: "P z 2 read %s%s" % (directory(number % mounts), "/x" * 199),
    "pair": pair,
}


def trace(call, mounts, lines):
    """A zone with so many mounts, and then so many lines of a call."""
    others = (mounts if call != "pair" else min(mounts, 127)) - 1
    out = running("z") + ["P z 2 mount lofs %s %s" % (SPECIAL, directory(number + 1)) for number in range(others)]
    out += [CALLS[call](number, mounts) for number in range(lines)]
    return ("\n".join(out) + "\n").encode()


def declarations(form, items):
    """So many items of a kind that are declared, in no order of their names, which are as long as one another."""
    places = [number * 389 % DECLARED[-1] for number in range(items)]
    return "".join("Y " + form % divmod(place, 32) + "\n" for place in places).encode()


def per_line(program, short, long, lines):
    """The instructions of a line, of which the longer trace has so many more."""
    return (instructions(program, "trace", long) - instructions(program, "trace", short)) / lines


def calls(program):
    """A table of the instructions of a line of each call."""
    rows = []
    for call in CALLS:
        counts = [per_line(program, *(trace(call, mounts, lines) for lines in LENGTHS), LENGTHS[1] - LENGTHS[0])
                  for mounts in SIZES]
        rows.append([call] + ["{:,}".format(round(it)) for it in counts] + ["%.2f" % (counts[1] / counts[0])])
    return table(["A line of", "with 1 mount", "with 128 mounts", "times"], rows)


def declared(program):
    """A table of the instructions of a declaration of each kind."""
    rows = []
    for form in ITEMS:
        first, last = (per_line(program, declarations(form, least), declarations(form, most), most - least)
                       for least, most in (DECLARED[:2], DECLARED[2:]))
        counts = ["{:,}".format(round(it)) for it in (first, last)]
        rows.append(["Y " + form.split()[0]] + counts + ["%.2f" % (last / first)])
    return table(["A line of", "among the first 256", "among the last 256", "times"], rows)


def main():
    parser = argparse.ArgumentParser(description=__doc__, formatter_class=argparse.RawDescriptionHelpFormatter)
    parser.add_argument("call", nargs="?", choices=CALLS)
    parser.add_argument("mounts", nargs="?", type=int, choices=range(1, 129), default=SIZES[0], metavar="MOUNTS")
    parser.add_argument("lines", nargs="?", type=int, default=LENGTHS[0])
    parser.add_argument("--measure", action="store_true")
    parser.add_argument("--program", metavar="FILE", default=str(PROGRAM), help="the native program")
    args = parser.parse_args()
    if args.measure:
        if not pathlib.Path(args.program).is_file():
            sys.exit("no program %s" % args.program)
        print(calls(args.program) + "\n\n" + declared(args.program))
    elif args.call:
        sys.stdout.buffer.write(trace(args.call, args.mounts, args.lines))
    else:
        parser.error("a CALL or --measure is needed")


if __name__ == "__main__":
    main()
