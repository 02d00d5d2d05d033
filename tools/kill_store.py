#!/usr/bin/env python3
"""Kills `zones trace` at random moments, and looks at what its store has.

    tools/kill_store.py [--count N] [--seed S] [--folder FOLDER] [--program FILE]

Each run has a random trace in which zones are made and their states change, and SIGKILL ends it at a random moment, until
N runs were killed before their end. The replies of a run must be a front of what the plain model in trace_model.py says,
and its store must have, record by record, what docs/STORE.md says of the events up to the last one whose reply was
written, or of one event more. The next run opens that store, and is compared with the model over the same records; after
ten runs comes a new store. The stores lie in FOLDER, or in the system's temporary folder. It is no part of the gate.
"""

import pathlib
import random
import subprocess
import sys
import tempfile
import time

from arguments import arguments
from own_folder import image
from store_reader import bodies
from told_records import Told
from zone_lines import TURNS, made

ZONES = ["z%d" % number for number in range(12)]
REQUESTS = ["install", "attach", "detach", "uninstall -F", "mark incomplete", "boot", "halt"]
RUNS_OF_A_STORE = 10


def trace(rng):
    """A random trace in which most events store something or lead to it."""
    lines = []
    for _ in range(rng.choice([3, 10, 30, 60])):
        zone = rng.choice(ZONES)
        if rng.random() < 0.3:
            lines += made(zone, rng.randrange(1, 65), rng.choice(["ipkg", "ipkg", "lx"]))
        else:
            asked = rng.choice(REQUESTS)
            lines.append("S %d zoneadm -z %s %s" % (rng.randrange(1, 65), zone, asked))
            lines += ["D %s" % zone] * rng.choice([TURNS[asked.split(" ")[0]], rng.randrange(14)])
    return ("\n".join(lines) + "\n").encode()


def killed(program, folder, data, seconds):
    """What a run had written when it was killed, and its status, which is None where it was killed."""
    with tempfile.TemporaryFile() as given, tempfile.TemporaryFile() as out:
        given.write(data)
        given.seek(0)
        run = subprocess.Popen([program, "trace"], stdin=given, stdout=out, stderr=subprocess.DEVNULL, cwd=folder)
        time.sleep(seconds)
        run.kill()
        status = run.wait()
        out.seek(0)
        return out.read(), None if status < 0 else status


def duration(program, folder, data):
    """About how long a run takes that isn't killed."""
    with tempfile.TemporaryDirectory(dir=folder) as own:
        began = time.monotonic()
        subprocess.run([program, "trace"], input=data, capture_output=True, cwd=own)
        return time.monotonic() - began


class Counts:
    """What came of the runs."""

    def __init__(self):
        self.runs, self.killed, self.ahead, self.records = 0, 0, 0, 0

    def __str__(self):
        return "%d runs were killed, and %d came to their end; they stored %d records; %d were killed with a record stored " \
            "whose reply wasn't written" % (self.killed, self.runs - self.killed, self.records, self.ahead)


def runs_of_a_store(program, parent, rng, runs, counts):
    """Runs over one store, each killed; what is wrong after one, or None."""
    with tempfile.TemporaryDirectory(prefix="zones-", dir=parent) as folder:
        changes = []
        for _ in range(runs):
            data = trace(rng)
            told = Told(data, changes)
            text, status = killed(program, folder, data, rng.random() * 1.1 * duration(program, folder, data))
            found = bodies(image(folder))
            wrong = told.differs(text, found)
            if wrong is None and status is not None and text != told.text:
                wrong = "it ended with status %d before its text did" % status
            if wrong is not None:
                return wrong
            counts.runs += 1
            counts.killed += status is None
            counts.ahead += len(found) > told.answered(text)
            counts.records += len(found) - len(changes)
            changes = told.store.changes[:len(found)]
    return None


def main():
    args = arguments(__doc__, options=["folder"])
    program, rng, counts = pathlib.Path(args.program).resolve(), random.Random(args.seed), Counts()
    while counts.killed < args.count:
        wrong = runs_of_a_store(program, args.folder, rng, min(RUNS_OF_A_STORE, args.count - counts.killed), counts)
        if wrong is not None:
            print("run %d: %s" % (counts.runs, wrong))
            return 1
    print("%s; each store had what was answered, or one record more" % counts)
    return 0


if __name__ == "__main__":
    sys.exit(main())
