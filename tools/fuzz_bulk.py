#!/usr/bin/env python3
"""Compares `zones bulk` with the plain model in bulk_model.py on random stores, some of whose zones have the names or the
paths of those that it makes.

    tools/fuzz_bulk.py [--count N] [--seed S] [--program FILE]
    tools/fuzz_bulk.py --model-only [--count N] [--seed S]

A script makes the store, and `bulk` runs on it once or twice. The status, both texts and the records are compared. With
`--model-only`, which needs no program, it is shown what came how often. It is no part of the gate.
"""

import collections
import random
import sys

import bulk_model
import trace_model as model
from arguments import arguments
from own_folder import image, own_folder, ran
from store_reader import bodies
from told_records import LoggedStore
from trace_lines import ALL_LINES

NAMES = ["b1", "b2", "b3", "b4", "b5", "web", "b", "b01"]
PATHS = ["/zones/b1", "/zones/b2", "/zones/b3", "/x"]
# What is set in a zone: of the last ones its boot or its calls are denied.
SETTINGS = [
    "set bootargs=-s", "set pool=p", "set brand=lx", "set max-processes=1", "set max-processes=2",
    "set limitpriv=default,!proc_fork", "set limitpriv=default,!proc_exec", "add net; set address=10.0.0.1; set physical=e; end",
    "add dataset; set name=tank/a; end", "add fs; set dir=/usr; set special=/usr; set type=lofs; end",
]
WAYS = [[], ["attach"], ["install"], ["attach", "mark incomplete"], ["attach", "boot"], ["attach", "detach"], ["delete"]]
NO_COUNTS = ["0", "257", "01", "x", "1 1", "-1"]


def script(rng):
    """Lines that make some zones, each with its own session."""
    lines = []
    for session, name in enumerate(rng.sample(NAMES, rng.choice([0, 1, 2, 4, 8])), 1):
        path = rng.choice(PATHS) if rng.random() < 0.3 else "/zones/" + name
        settings = rng.sample(SETTINGS, rng.choice([0, 0, 1, 2]))
        typed = ["zonecfg -z %s %s" % (name, "; ".join(["create", "set zonepath=" + path, *settings]))]
        for way in rng.choice(WAYS):
            typed.append("zonecfg -z %s delete -F" % name if way == "delete" else "zoneadm -z %s %s" % (name, way))
        lines += ["S %d %s" % (session, text) for text in typed]
    return "".join(line + "\n" for line in lines).encode()


def told_of(data, words):
    """What the model says to each of these words after a script, and the records then."""
    store = LoggedStore()
    model.run(data, store, ALL_LINES, "script")
    return [bulk_model.run(word, store) for word in words] + [store.bodies]


def answer_of(program, data, words):
    """What the program does."""
    with own_folder() as folder:
        ran(program, "script", data, folder)
        said = [ran(program, "bulk " + word, b"S 1\n", folder) for word in words]
        return said + [bodies(image(folder))]


def main():
    args, counts = arguments(__doc__, "model-only"), collections.Counter()
    for number in range(args.count):
        rng = random.Random("%d %d" % (args.seed, number))
        data = script(rng)
        word = str(rng.choice([1, 2, 3, 4, 5, 5, 5, 9])) if rng.random() < 0.95 else rng.choice(NO_COUNTS + ["255", "256"])
        words = [word] * rng.choice([1, 2])
        want = told_of(data, words)
        counts.update((status, out.split(b"\n")[2:3] != [b"refused 0"]) for status, out, _ in want[:-1])
        got = want if args.model_only else answer_of(args.program, data, words)
        if got != want:
            print("`bulk %s` differs after %r\nmodel:   %r\nprogram: %r" % (word, data, want[:-1], got[:-1]))
            return 1
    print("%d stores %s; by status and whether anything is refused: %s" % (
        args.count, "made" if args.model_only else "agree", dict(counts)))
    return 0


if __name__ == "__main__":
    sys.exit(main())
