#!/usr/bin/env python3
"""Looks at the system calls of the test of `FileDisk`: that a sync is the system's, and that it is of the right file.

    tools/count_syncs.py [--program FILE]

The program is that of the tests of the store, as `rt test` in crates/store_tests or `rt ci` leaves it; strace runs its
one test of a real file. Where the file is opened, its folder must be synced, and so must the file after it is written
and before it is closed. It is no part of the gate.
"""

import argparse
import pathlib
import re
import subprocess
import sys
import tempfile

PROGRAM = pathlib.Path(__file__).resolve().parent.parent / "crates/store_tests/out/store_tests_tests"
TEST = "disks::writes_closes_opens_again_and_reads"
NAME = "file_disk_test.store"
CALL = re.compile(r"(?:\d+ +)?(\w+)\((.*)\) += (-?\d+)")


def calls_of(program):
    """The calls that open, write, sync and close files, each with its arguments and its answer."""
    with tempfile.TemporaryDirectory() as folder:
        log = pathlib.Path(folder) / "calls"
        traced = "trace=openat,open,pwrite64,write,fsync,fdatasync,close"
        subprocess.run(["strace", "-f", "-o", log, "-e", traced, program, TEST], cwd=folder, check=True, capture_output=True)
        found = [CALL.match(line) for line in log.read_text().splitlines()]
    return [(it[1], it[2], int(it[3])) for it in found if it]


def syncs(calls):
    """How often the file and its folder were synced; the run ends where a sync is missing."""
    names, unsynced, counts = {}, set(), {"file": 0, "folder": 0}
    for name, arguments, answer in calls:
        if name in ("openat", "open"):
            names[answer] = "file" if NAME in arguments else "folder" if '"."' in arguments else "other"
            if names[answer] == "file" and "O_CREAT" in arguments:
                unsynced.add("folder")
            continue
        number = int(arguments.split(",")[0])
        what = names.get(number, "other")
        if name in ("pwrite64", "write") and what == "file":
            if "folder" in unsynced:
                sys.exit("the file was written before its folder was synced")
            unsynced.add("file")
        elif name in ("fsync", "fdatasync") and answer == 0 and what in counts:
            counts[what] += 1
            unsynced.discard(what)
        elif name == "close":
            if what == "file" and "file" in unsynced:
                sys.exit("the file was closed before what was written was synced")
            names.pop(number, None)
    if unsynced or not counts["file"] or not counts["folder"]:
        sys.exit("a sync is missing: %r, of %r" % (counts, sorted(unsynced)))
    return counts


def main():
    parser = argparse.ArgumentParser(description=__doc__.split("\n")[0])
    parser.add_argument("--program", default=str(PROGRAM))
    counts = syncs(calls_of(parser.parse_args().program))
    print("the file was synced %(file)d times and its folder %(folder)d times, each where it must be" % counts)


if __name__ == "__main__":
    main()
