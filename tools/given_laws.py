#!/usr/bin/env python3
"""Looks whether what `zones purge` leaves of random traces is answered by `zones given` as it was there: for each zone
that a trace has something of, the replies of the zone and of the whole system, and what is stored of the zone.

    tools/given_laws.py [--stated] [--count N] [--seed S] [--program FILE]
    tools/given_laws.py --model-only [--stated] [--count N] [--seed S]

Half of the traces find what another trace has stored before. The lines of one zone are run over what was stored then,
and in the model also over what was stored of that zone alone. With `--stated` the traces are inputs of `given` already,
whose grants fit and aren't always those that are due (grant_maker.py), and the lines of other zones are taken out. With
`--model-only` the plain model in trace_model.py is looked at, and no program is needed; else the program is. Where a
purged line is longer than a line may be, the zone is passed over. It is no part of the gate.
"""

import copy
import pathlib
import random
import sys

import trace_model as model
from arguments import arguments
from export_model import lines_of
from grant_maker import StatedGrants, next_of
from login_maker import LoginMaker
from own_folder import NAME, image, own_folder, ran
from request_maker import RequestMaker
from store_model import MOST_ZONES, Store
from trace_lines import ALL_LINES, Outside, is_no_event
from trace_model import MOST_BYTES, MOST_LINES

WHOLE = b"*"
NO_ZONES = (WHOLE, b"global")


def ended(refused):
    """The status and the line of standard error where the events of these numbers are refused, from 1 on."""
    return (1, b"first refused line: %d\n" % refused[0]) if refused else (0, b"")


def is_purgeable(text):
    """Whether no purged line is longer than a line may be."""
    return all(len(line) <= MOST_BYTES for line in text.split(b"\n"))


# The model.

def answered(data, store, command):
    """What the events of an input are answered, up to its end or to the line that ends it."""
    host, said = model.Host(store=store, known=ALL_LINES), []
    for number, line in enumerate(lines_of(data), 1):
        if number > MOST_LINES or len(line) > MOST_BYTES:
            break
        try:
            found = model.read(host, line, command)
            said += [] if found is None else [host.answer(*found)]
        except Outside:
            break
    return said


def record_of(store, zone):
    """What is stored of a zone, or None."""
    record = store.records.get(zone)
    return record and (record.state, record.revision, record.uuid, record.config.text())


def stores_for(before, zone):
    """What may be stored where one zone's lines are run: all that was, or what was of that zone."""
    alone = Store()
    alone.records = {name: it for name, it in before.records.items() if name == zone}
    return [copy.deepcopy(store) for store in (before, alone) if len(store.records.keys() - {zone}) < MOST_ZONES]


def model_fault(data, earlier, command="trace"):
    """What a zone is answered otherwise in the model than by `trace` or `given`, or None."""
    before = Store()
    model.run(earlier, before, ALL_LINES, command)
    after = copy.deepcopy(before)
    said = answered(data, after, command)
    for zone in sorted({it.subject for it in said} - set(NO_ZONES)):
        kept = [it for it in said if it.subject in (zone, WHOLE)]
        text = b"".join(it.granted() for it in kept)
        status, err = ended([number for number, it in enumerate(kept, 1) if it.is_refused()])
        want = status, b"".join(it.reply() for it in kept), err
        for store in stores_for(before, zone) if is_purgeable(text) else []:
            got = model.run(text, store, ALL_LINES, "given")
            if got != want or record_of(store, zone) != record_of(after, zone):
                return "zone %s: %r, and in the trace %r" % (zone.decode(), got, want)
    return None


# The program.

def replies_in(text):
    """The replies of a text, each with its subject."""
    found = []
    for line in text.splitlines(keepends=True):
        if line.startswith(b"| "):
            found[-1][1] += line
        else:
            found.append([line.split(b" ")[0], line])
    return found


def is_refusal(reply):
    head = reply.split(b"\n")[0].split(b" ", 1)[1]
    return head.startswith((b"err ", b"failed ", b"stuck ")) or b" err " in head


def of_zone(index, zone):
    """The line of a zone in an index text."""
    return [line for line in index.split(b"\n") if line.startswith(zone + b":")]


def runs_on(program, store, words, data):
    """What the program says to an input over a store with these bytes, and what `index` tells then."""
    with own_folder() as folder:
        if store:
            (pathlib.Path(folder) / NAME).write_bytes(store)
        said = ran(program, words, data, folder)
        return said, ran(program, "index", b"", folder)[1]


def taken_out(data, replies, zone):
    """What `given` reads of one zone and of the whole system: each reply is to the next line that is an event."""
    events = [line for line in lines_of(data) if not is_no_event(line)]
    return b"".join(line + b"\n" for line, (subject, _) in zip(events, replies) if subject in (zone, WHOLE))


def program_fault(program, data, earlier, command="trace"):
    """What a zone is answered otherwise by the program than by `trace` or `given`, or None."""
    with own_folder() as folder:
        ran(program, command, earlier, folder)
        before = image(folder)
    (status, out, err), index = runs_on(program, before, command, data)
    replies = replies_in(out)
    for zone in sorted({subject for subject, _ in replies} - set(NO_ZONES)):
        if command == "given":
            purged, text, told = status, taken_out(data, replies, zone), err
        else:
            (purged, text, told), _ = runs_on(program, before, "purge " + zone.decode(), data)
        if (purged, told) != (status, err):
            return "purge %s: status %d, %r, and of the trace %d, %r" % (zone.decode(), purged, told, status, err)
        if not is_purgeable(text):
            continue
        kept = [reply for subject, reply in replies if subject in (zone, WHOLE)]
        wanted, line = ended([number for number, it in enumerate(kept, 1) if is_refusal(it)])
        got, after = runs_on(program, before, "given", text)
        if got != (wanted, b"".join(kept), line) or of_zone(after, zone) != of_zone(index, zone):
            return "zone %s: %r, and in the trace %r" % (zone.decode(), got, (wanted, b"".join(kept), line))
    return None


# Random traces.

def first_fault(count, seed, command, fault_in):
    """What fault_in(input, earlier input, command) tells of the first of some random inputs of which it tells something,
    with the two inputs; or None."""
    rng, traces = random.Random("given %d" % seed), []
    makers = [LoginMaker(rng, ALL_LINES, command), RequestMaker(rng)]
    for maker in makers if command == "given" else []:
        maker.stated = StatedGrants(rng, wrong=[0])
    for number in range(count):
        data = next_of(rng.choice(makers), traces)
        earlier = rng.choice(traces) if traces and rng.random() < 0.5 else b""
        if 0 < len(data) < 20000:
            traces = (traces + [data])[-200:]
        found = fault_in(data, earlier, command)
        if found is not None:
            return "trace %d: %s" % (number, found), data, earlier
    return None


def fault(count=60, seed=1):
    """What the model answers otherwise in one of some random traces, or None."""
    found = first_fault(count, seed, "trace", model_fault) or first_fault(count, seed, "given", model_fault)
    return found and found[0]


def main():
    args = arguments(__doc__, "model-only", "stated")
    fault_in = model_fault if args.model_only else (lambda *inputs: program_fault(args.program, *inputs))
    found = first_fault(args.count, args.seed, "given" if args.stated else "trace", fault_in)
    if found is None:
        print("%d traces: each zone is answered as it was" % args.count)
        return 0
    for name, text in zip(("given-laws.input", "given-laws.earlier"), found[1:]):
        pathlib.Path(name).write_bytes(text)
    print("%s (kept in given-laws.input and given-laws.earlier)" % found[0])
    return 1


if __name__ == "__main__":
    sys.exit(main())
