#!/usr/bin/env python3
"""Runs the gate and writes how many minutes of one processor each crate took.

    tools/time_gate.py LOG [WORD..]

LOG is what tools/measure.py --gate reads: a line `NAME MINUTES` a crate, and last `all MINUTES CLOCK`, where CLOCK is
minutes by the clock. Words go on to rt ci: `--anew` proves all from nothing, names of crates are these and those below
them. Each process of the run is looked at once a second and counts for the crate that it or its parent names, so what
lives for less than a second is counted as `other`. The status is that of rt ci.
"""

import collections
import pathlib
import re
import subprocess
import sys
import time

TICKS = 100


def processes():
    """Each process that runs now: its parent, its seconds of processor time, the time it began, and its command."""
    found = {}
    for folder in pathlib.Path("/proc").glob("[0-9]*"):
        try:
            fields = (folder / "stat").read_text().rsplit(")", 1)[1].split()
            command = (folder / "cmdline").read_text().replace("\0", " ")
        except OSError:
            continue
        found[int(folder.name)] = (int(fields[1]), (int(fields[11]) + int(fields[12])) / TICKS, fields[19], command)
    return found


def line_of(number, running, top):
    """A process and its parents up to the top of the run, or nothing where it is of no run of ours."""
    line = []
    while number in running:
        line.append(running[number][3])
        if number == top:
            return line
        number = running[number][0]
    return []


def look(top, seconds):
    running = processes()
    for number, (_, used, began, _) in running.items():
        line = line_of(number, running, top)
        if line:
            names = [name[1] for name in (re.search(r"--crate-name (\w+)", it) for it in line) if name]
            seconds[number, began] = (names[0] if names else "other", used)


def main():
    if len(sys.argv) < 2 or sys.argv[1].startswith("-"):
        sys.exit(__doc__)
    began, seconds = time.monotonic(), {}
    run = subprocess.Popen(["rt", "ci", *sys.argv[2:]])
    while run.poll() is None:
        look(run.pid, seconds)
        time.sleep(1)
    minutes = collections.Counter()
    for name, used in seconds.values():
        minutes[name] += used / 60
    lines = ["%s %.1f" % row for row in sorted(minutes.items())]
    lines.append("all %.1f %.1f" % (sum(minutes.values()), (time.monotonic() - began) / 60))
    pathlib.Path(sys.argv[1]).write_text("\n".join(lines) + "\n")
    sys.exit(run.returncode)


if __name__ == "__main__":
    main()
