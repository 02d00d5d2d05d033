#!/usr/bin/env python3
"""Compares `zones trace`, `zones script`, `zones purge` or `zones given` with the plain model in trace_model.py over
random inputs.

    tools/fuzz_trace.py [--requests] [--twice] [--index] [--store] [--command script|purge|given] [--purged]
        [--lines KINDS] [--count N] [--seed S] [--program FILE]
    tools/fuzz_trace.py --self-test
    tools/fuzz_trace.py --model-only [--requests] [--twice] [--command script|purge|given] [--purged] [--lines KINDS]
        [--count N] [--seed S]

Traces are made along the grammar (trace_maker.py, process_maker.py, object_maker.py, request_maker.py), with the model
at hand so that most events do something, and then some are cut, joined or have bytes changed. With `--requests` they
are all of requests of zoneadm(8). The first input that differs is made as short as dropping lines and bytes makes it,
and kept in fuzz-trace.input. Each trace has a store of its own; with `--twice` it is run on it a second time, and
compared then. With `--index` what `zones index` tells of the store after that is compared too, and with `--store` the
records in it, as with `given` they always are. With `--command purge` the entries of one zone are purged, mostly of one
that the trace names. With `--command given` each line states a grant (grant_maker.py): mostly the one that is due, at
times another that fits, and in some traces one that doesn't. With `--purged` the inputs of `given` are what `purge`
makes of traces, by the program where there is one, some of them with other grants in a few lines. It is no part of the
gate.

`--lines` names kinds of lines that the program answers beside the older ones, with commas between them: zonecfg (a line
of subcommands that makes, edits or deletes a zone), edit (sessions that edit), list, verify, help, restart, zlogin
(logins, with `bootargs`), console (with `cons`) and enter (calls alone). `all` stands for all of them. Most of the traces
then have such lines (zonecfg_maker.py, login_maker.py), and without it none has.

`--self-test` compares the model with replies that are known, and looks at what holds of it in random systems
(data_rows.py, trace_rows.py, object_rows.py, request_rows.py, zonecfg_rows.py, call_rows.py, purge_rows.py,
given_rows.py, index_rows.py, request_laws.py, zonecfg_laws.py, given_laws.py); it needs no program. Nor does
`--model-only`, which shows what the traces would be answered, and ends at a line that has no form (reply_forms.py).
"""

import collections
import pathlib
import random
import re
import sys
import time

import call_rows
import data_rows
import given_laws
import given_rows
import index_model
import index_rows
import object_rows
import purge_rows
import request_laws
import request_rows
import trace_model as model
import trace_rows
import zonecfg_laws
import zonecfg_rows
from arguments import arguments
from grant_maker import StatedGrants, next_of, regranted, shorter
from login_maker import LoginMaker
from own_folder import SECONDS, image, own_folder, ran
from reply_forms import kind_of, kind_of_line, misformed, misgranted
from request_maker import RequestMaker
from store_reader import bodies
from told_records import LoggedStore
from trace_lines import ALL_LINES, KINDS_OF_LINES, is_zone_name
from zonecfg_maker import ZonecfgMaker


COMMANDS = ("trace", "script", "purge", "given")
NAMED = re.compile(rb"(?:-z|zlogin|^D|^P) +([^ \n]+)", re.M)


def answer_of(data, command, args):
    """The status and both texts of the program over an input, the last of its runs over one store, which is empty
    before; perhaps those of `index` after it; and perhaps the records."""
    with own_folder() as folder:
        runs = [(command, data)] * (2 if args.twice else 1) + [("index", b"")] * args.index
        said = [ran(args.program, words, text, folder) for words, text in runs]
        records = (bodies(image(folder)),) if args.store else ()
    return sum(said[-2:] if args.index else said[-1:], ()) + records


def told_of(data, command, args, known):
    """What the model says that is, where such kinds of lines are known."""
    store = LoggedStore()
    for _ in range(2 if args.twice else 1):
        said = model.run(data, store, known, command)
    index = (0, index_model.text_of(store), b"") if args.index else ()
    return said + index + ((store.bodies,) if args.store else ())


def words_of(rng, command, data):
    """The words of a command over an input: where a zone's entries are purged, mostly one that the input names."""
    if command != "purge":
        return command
    names = sorted(set(filter(is_zone_name, NAMED.findall(data))))
    return "purge " + (rng.choice(names).decode() if names and rng.random() < 0.95 else "nosuch")


def shortened(pieces, differs):
    """As few of the pieces as still differ when they are joined, found by dropping runs of them, for a while."""
    size, end = len(pieces), time.monotonic() + SECONDS
    while size:
        at = 0
        while at < len(pieces) and time.monotonic() < end:
            rest = pieces[:at] + pieces[at + size:]
            if differs(b"".join(rest)):
                pieces = rest
            else:
                at += size
        size //= 2
    return pieces


def shortest(data, differs):
    data = b"".join(shortened(data.splitlines(keepends=True), differs))
    if len(data) < 20000:
        data = b"".join(shortened([data[at:at + 1] for at in range(len(data))], differs))
    return data


def self_test():
    parts = [data_rows, trace_rows, object_rows, request_rows, zonecfg_rows, call_rows, purge_rows, given_rows,
             index_rows, request_laws, zonecfg_laws, given_laws]
    fault = next((it for it in (part.fault() for part in parts) if it is not None), None)
    print("the model answers as it is known to" if fault is None else "the model differs: %s" % fault)
    return 0 if fault is None else 1


class Counts:
    """How often each status, each line outside the grammar and each kind of reply came."""

    def __init__(self):
        self.statuses, self.faults, self.kinds = collections.Counter(), collections.Counter(), collections.Counter()

    def add(self, status, out, err):
        self.statuses[status] += 1
        if status == 3:
            self.faults[kind_of("err " + err.decode().strip().split(": ")[1])] += 1
        self.kinds.update(kind_of_line(line) for line in out.decode().splitlines())

    def show(self, what):
        print("%s; by status %s" % (what, dict(sorted(self.statuses.items()))))
        for title, counted in [("lines outside the grammar", self.faults), ("replies", self.kinds)]:
            print("%s:" % title)
            for kind, count in sorted(counted.items()):
                print("%10d %s" % (count, kind))


def difference(number, data, command, wanted, got):
    """Keeps the input that differs, as short as it gets, and tells of it."""
    data = shortest(data, lambda less: got(less, command) != wanted(less, command))
    pathlib.Path("fuzz-trace.input").write_bytes(data)
    return "input %d of `%s` differs, in short (kept in fuzz-trace.input): %r\nmodel:   %r\nprogram: %r" % (
        number, command, data, wanted(data, command), got(data, command))


def compared(maker, args, wanted, got):
    """What is wrong with the first trace of a run that isn't as it should be, or None, and what was counted."""
    traces, counts, zones = [], Counts(), random.Random("zones %d" % args.seed)

    def run(number, data, command):
        """What is wrong with the answer to an input, or None, and what is written."""
        want = wanted(data, command)
        fault = (misgranted if command.startswith("purge ") else misformed)(want[1])
        if fault is not None:
            return "input %d is answered by a line without a form: %r" % (number, fault), b""
        if got is not None and got(data, command) != want:
            return difference(number, data, command, wanted, got), b""
        if command.split(" ")[0] == args.command:
            counts.add(*want[:3])
        return None, want[1]

    for number in range(args.count):
        data = next_of(maker, traces)
        if 0 < len(data) < 20000:
            traces = (traces + [data])[-200:]
        fault = None
        if args.purged:
            fault, data = run(number, data, words_of(zones, "purge", data))
            data = shorter(data) if zones.random() < 0.8 else data
            data = regranted(zones, data) if zones.random() < 0.4 else data
        fault = fault or run(number, data, words_of(zones, args.command, data))[0]
        if fault is not None:
            return fault, counts
    return None, counts


def kinds_in(text):
    """The kinds of lines that are named."""
    named = frozenset(text.split(",") if text else [])
    known = named - {"all"} | (ALL_LINES if "all" in named else frozenset())
    if not known <= set(KINDS_OF_LINES):
        raise SystemExit("kinds of lines are %s" % ",".join(KINDS_OF_LINES))
    return known


def maker_of(rng, known, command="trace", share=0.3):
    """What makes the inputs of a command where such kinds of lines are known."""
    if known & {"zlogin", "console", "enter"}:
        maker = LoginMaker(rng, known, command)
    else:
        maker = ZonecfgMaker(rng, known) if known else RequestMaker(rng, share)
    maker.command = command
    if command == "given":
        maker.stated = StatedGrants(rng)
    return maker


def main():
    args = arguments(__doc__, "self-test", "model-only", "requests", "twice", "index", "store", "purged",
                     options=["lines", "command"])
    args.command, known = args.command or "trace", kinds_in(args.lines)
    if args.command not in COMMANDS:
        raise SystemExit("the command is one of %s" % ", ".join(COMMANDS))
    if args.purged and args.command != "given":
        raise SystemExit("what is purged is an input of `given`")
    args.store = args.store or args.command == "given"
    if args.self_test:
        return self_test()
    command = "trace" if args.purged else args.command
    maker = maker_of(random.Random(args.seed), known, command, 1 if args.requests else 0.3)
    got = None if args.model_only else (lambda data, command: answer_of(data, command, args))
    fault, counts = compared(maker, args, lambda data, command: told_of(data, command, args, known), got)
    if fault is not None:
        print(fault)
        return 1
    counts.show("%d traces %s" % (args.count, "made" if args.model_only else "agree"))
    return 0


if __name__ == "__main__":
    sys.exit(main())
