#!/usr/bin/env python3
"""Compares what a record costs `zones trace` with what its four calls of the disk cost a C program, bench_commit.c.

    tools/bench_commit.py [--rounds N] [--folder FOLDER] [--program FILE]

The records are those by which daemons note that an install is under way: each is a turn, the third of its request. A run
begins with a store of sixty zones, and brings each to its third turn; the time of the records is what a run with these turns
takes longer than one without. The C program writes as many and as long ones. They take turns, on a file in a new folder
within FOLDER, which should be on a disk, and on one in memory; of each the median of N rounds is taken. Since a disk's syncs
take now less and now more, the range is given too in which the factor lies for 95 of 100 choices of N rounds out of these,
each of which may come more than once. With valgrind the instructions of such a turn are counted too. It is no part of the
gate.
"""

import argparse
import os
import pathlib
import random
import shutil
import statistics
import subprocess
import sys
import tempfile
import time

from arguments import PROGRAM
from measure import instructions, table
from own_folder import IN_MEMORY, NAME
from store_reader import bodies
from zone_lines import made

HERE = pathlib.Path(__file__).resolve().parent
ZONES = ["z%02d" % number for number in range(60)]
# The turns of an install before the one that records.
BEFORE = 2


def text(lines):
    return "".join(line + "\n" for line in lines).encode()


def installs(turns):
    """Each zone is installed, as far as so many turns bring it."""
    asked = ["S %d zoneadm -z %s install" % (number, zone) for number, zone in enumerate(ZONES, 1)]
    return text(asked + ["D " + zone for _ in range(turns) for zone in ZONES])


def store_of_zones(program, folder):
    """The bytes of a store that holds the zones."""
    subprocess.run([program, "trace"], input=text(line for zone in ZONES for line in made(zone)), capture_output=True, cwd=folder, check=True)
    return (pathlib.Path(folder) / NAME).read_bytes()


def seconds_of_turns(program, folder, store, turns):
    """How long a run takes that begins with this store and takes so many turns of each zone."""
    with open(pathlib.Path(folder) / NAME, "wb") as file:
        file.write(store)
        file.flush()
        os.fsync(file.fileno())
    began = time.monotonic()
    subprocess.run([program, "trace"], input=installs(turns), stdout=subprocess.DEVNULL, cwd=folder, check=True)
    return time.monotonic() - began


def size_of_records(program, folder, store):
    """How long the bodies of the records are on the average."""
    seconds_of_turns(program, folder, store, BEFORE + 1)
    more = bodies((pathlib.Path(folder) / NAME).read_bytes())[len(ZONES):]
    if len(more) != len(ZONES):
        sys.exit("a run wrote %d records" % len(more))
    return sum(map(len, more)) // len(more)


def seconds_of_calls(bench, folder, size):
    """How long the C program takes for as many records."""
    words = [bench, str(pathlib.Path(folder) / "bench.store"), str(len(ZONES)), str(size)]
    return float(subprocess.run(words, capture_output=True, text=True, check=True).stdout)


def run(program, bench, parent, rounds):
    """Of each of so many rounds the seconds with the records, without them, and of the C program, in a folder within this one."""
    with tempfile.TemporaryDirectory(prefix="zones-", dir=parent) as folder:
        store = store_of_zones(program, folder)
        size = size_of_records(program, folder, store)
        return [
            (
                seconds_of_turns(program, folder, store, BEFORE + 1),
                seconds_of_calls(bench, folder, size),
                seconds_of_turns(program, folder, store, BEFORE),
            )
            for _ in range(rounds)
        ]


def per_record(rounds):
    """The seconds of a record, of the program and of the C program, by the medians of the rounds."""
    recording, calls, before = (statistics.median(it) for it in zip(*rounds))
    return (recording - before) / len(ZONES), calls / len(ZONES)


def factor(rounds):
    zones, calls = per_record(rounds)
    return zones / calls


def range_of_factor(rounds, choices=1000):
    """Between what the factor lies for 95 of 100 choices of as many rounds out of these."""
    chance = random.Random(1)
    factors = sorted(factor(chance.choices(rounds, k=len(rounds))) for _ in range(choices))
    return factors[choices // 40], factors[-1 - choices // 40]


def row(where, rounds):
    zones, calls = (it * 1e6 for it in per_record(rounds))
    return [where, "%.1f" % zones, "%.1f" % calls, "%.3f" % factor(rounds), "%.3f to %.3f" % range_of_factor(rounds)]


def main():
    parser = argparse.ArgumentParser(description=__doc__, formatter_class=argparse.RawDescriptionHelpFormatter)
    parser.add_argument("--rounds", type=int, default=200)
    parser.add_argument("--folder", default=".", help="a folder on a disk")
    parser.add_argument("--program", metavar="FILE", default=str(PROGRAM), help="the native program")
    args = parser.parse_args()
    program = pathlib.Path(args.program).resolve()
    with tempfile.TemporaryDirectory() as built:
        bench = built + "/bench_commit"
        subprocess.run(["gcc", "-O2", "-o", bench, HERE / "bench_commit.c"], check=True)
        rows = []
        for where, parent in (("a file", args.folder), ("in memory", IN_MEMORY)):
            if parent is not None:
                rows.append(row(where, run(program, bench, parent, args.rounds)))
    print(table(["A record on", "`zones`, microseconds", "the four calls", "times", "range"], rows))
    if shutil.which("valgrind"):
        try:
            made_first = text(line for zone in ZONES for line in made(zone))
            counts = [instructions(program, "trace", made_first + installs(turns)) for turns in range(BEFORE - 1, BEFORE + 2)]
            print("\n%d instructions a turn before it, %d a turn that records" % tuple((b - a) // len(ZONES) for a, b in zip(counts, counts[1:])))
        except OSError as fault:
            print("\nnot counted: %s" % fault)


if __name__ == "__main__":
    main()
