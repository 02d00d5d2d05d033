#!/usr/bin/env python3
"""Runs `zones live` on random inputs, and has each record that it writes judged by live_checker.py, which goes by the rules of
such a record and the plain model in trace_model.py.

    tools/fuzz_live.py [--count N] [--seed S] [--program FILE] [--busy]

Of each input the sessions run on threads over an empty store. The record has to be a legal one; the status and the message
have to be those of its entries, and the records in the store those that the entries made; and `zones given` over the entries' lines and
an empty store has to write their replies, and to store the same. With `--busy` as many processes as
there are processors do nothing but count meanwhile; `taskset -c 0 tools/fuzz_live.py` runs all on one. At the end it says in
how many records the entries of some session stand between those of another. It is no part of the gate.
"""

import collections
import multiprocessing
import random
import sys

import live_checker as checker
import live_laws
import trace_model as model
from arguments import arguments
from own_folder import image, own_folder, ran
from store_reader import bodies
from told_records import LoggedStore
from trace_lines import ALL_LINES
from trace_model import MOST_BYTES


def count_on():
    number = 0
    while True:
        number += 1


def answers_of(data, text):
    """The model's answers to the entries of a record, and the records that they stored."""
    store = LoggedStore()
    host = model.Host(store=store, known=ALL_LINES)
    said = [host.answer(checker.event_in(line, host.started)) for line, _ in checker.entries_of(text)]
    return said, store.bodies


def fault_of(data, status, text, message, stored):
    """What is wrong with a run, or None."""
    wrong = checker.fault(data, text)
    if wrong is not None:
        return wrong
    said, kept = answers_of(data, text)
    refused = [number for number, answer in enumerate(said, 1) if answer.is_refused()]
    want = (1, b"first refused entry: %d\n" % refused[0]) if refused else (0, b"")
    if (status, message) != want:
        return "status %d and %r, not %r" % (status, message, want)
    if stored != kept:
        return "other records are stored: %r, not %r" % (stored, kept)
    return None


def is_replayed(program, text, store):
    """Whether `given` answers a record's lines as it says, or one of them is past the limit behind its grant."""
    entries = checker.entries_of(text)
    if any(len(line) > MOST_BYTES for line, _ in entries):
        return True
    with own_folder() as folder:
        _, replies, _ = ran(program, "given", b"".join(line + b"\n" for line, _ in entries), folder)
        return replies == b"".join(reply for _, reply in entries) and image(folder) == store


def is_mixed(text):
    """Whether some session's entries stand between those of another."""
    numbers = [line.split(b" ")[2] for line, _ in checker.entries_of(text) if line.split(b" ")[1] == b"S"]
    runs = [number for at, number in enumerate(numbers) if at == 0 or numbers[at - 1] != number]
    return len(runs) != len(set(runs))


def main():
    args, counts = arguments(__doc__, "busy"), collections.Counter()
    busy = [multiprocessing.Process(target=count_on, daemon=True) for _ in range(multiprocessing.cpu_count() * args.busy)]
    for process in busy:
        process.start()
    for number in range(args.count):
        rng = random.Random("%d %d" % (args.seed, number))
        data = live_laws.input_of(rng)
        with own_folder() as folder:
            status, text, message = ran(args.program, "live", data, folder)
            store = image(folder)
        wrong = fault_of(data, status, text, message, bodies(store))
        if wrong is None and not is_replayed(args.program, text, store):
            wrong = "`given` answers it otherwise"
        if wrong is not None:
            print("input %d: %s\n%s\nrecord:\n%s" % (number, wrong, data.decode("latin-1"), text.decode("latin-1")))
            return 1
        counts["entries"] += len(checker.entries_of(text))
        counts["mixed"] += is_mixed(text)
        counts["refused"] += status
    for process in busy:
        process.terminate()
    print("%d records are legal, with %d entries; in %d sessions are mixed, and in %d an entry is refused" % (
        args.count, counts["entries"], counts["mixed"], counts["refused"]))
    return 0


if __name__ == "__main__":
    sys.exit(main())
