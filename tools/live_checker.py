#!/usr/bin/env python3
"""Says whether a text is a record of sessions that ran at once, as `zones live` is to write it for an input: by the rules
of such a record and the plain model in trace_model.py, and not by a program.

    tools/live_checker.py [--part] [--earlier TRACE] INPUT RECORD
    tools/live_checker.py --self-test [--count N] [--seed S]

INPUT has declarations, and then the lines that sessions type. RECORD has for each entry a line `> ` with its grant and
its event, and then its reply. It is one history: the declarations come first, in order; each session's entries are its
lines, in order and each once; every other entry is a turn of a zone's daemon, and none is idle; where a session was
answered a ticket, a turn that finishes it or a stuck turn of its zone stands before the session's next entry, and before
the end; and each grant and each reply is the model's, in the state that the entries before leave. With `--part` it may
end before all lines were typed, and before a ticket was answered. With `--earlier` it goes on from the store that a
trace leaves.

`--self-test` accepts records that sessions make which take their turns in any order (live_laws.py), and refuses the
same with one thing wrong.
"""

import argparse
import pathlib
import sys

import trace_model as model
from export_model import lines_of
from store_model import Store
from trace_lines import ALL_LINES, Outside
from trace_model import MOST_BYTES

MOST_LINES = 4000
ENTRY = b"> "
OTHER_TAGS = (b"D", b"P", b"R")


class Wrong(Exception):
    """A text is no record, or an input has none."""


# The input.

def event_of(line, typed):
    """The event of a line of an input, or None where it is none. `typed` is whether a session's line came before."""
    if line.split(b" ", 1)[0] in OTHER_TAGS:
        raise Outside("101 BadTag")
    return model.event_of(line, typed, ALL_LINES)


def read_input(data):
    """What is declared, and what each session types, by its number. An input that isn't run has no record."""
    declared, scripts = [], {}
    for number, line in enumerate(lines_of(data), 1):
        if number > MOST_LINES or len(line) > MOST_BYTES:
            raise Wrong("limit at line %d" % number)
        try:
            event = event_of(line, bool(scripts))
        except Outside as fault:
            raise Wrong("line %d: %s" % (number, fault)) from fault
        if event is None:
            continue
        if event[0] == "Y":
            declared.append(event)
        else:
            scripts.setdefault(event[1], []).append(event[2])
    return declared, scripts


# The record.

def entries_of(text):
    """The entries of a text: what stands behind `> `, and the reply."""
    if text and not text.endswith(b"\n"):
        raise Wrong("a last line without its newline")
    entries = []
    for line in text.split(b"\n")[:-1]:
        if line.startswith(ENTRY):
            entries.append([line[len(ENTRY):], b""])
        elif entries:
            entries[-1][1] += line + b"\n"
        else:
            raise Wrong("a reply to nothing")
    return entries


def event_in(line, started):
    """The event of an entry."""
    try:
        found = model.granted_event_of(line, started, ALL_LINES)
    except Outside as fault:
        raise Wrong("%s: %r" % (fault, line)) from fault
    if found is None:
        raise Wrong("no event: %r" % line)
    return found[0]


class Reader:
    """Reads a record from its first entry on, beside the system that it is of. `left` is what each session still has to
    type, and `waits` which ticket of which zone a session waits for."""

    def __init__(self, data, store=None):
        self.declared, self.left = read_input(data)
        self.host = model.Host(store=store, known=ALL_LINES)
        self.waits = {}

    def come(self, event):
        """Looks whether an event may come next, and counts it as come."""
        if self.declared or event[0] == "Y":
            if not self.declared or self.declared.pop(0) != event:
                raise Wrong("not what is declared next")
        elif event[0] == "S":
            _, number, text = event
            if number in self.waits:
                raise Wrong("session %d waits for %s %d" % (number, *self.waits[number]))
            if self.left.get(number, [])[:1] != [text]:
                raise Wrong("not the next line of session %d" % number)
            self.left[number].pop(0)
        elif event[0] != "D":
            raise Wrong("neither a session's line nor a turn")

    def note(self, answer):
        """Notes who waits after an answer: a ticket is waited for until it is finished or a turn of its zone is stuck."""
        head = answer.lines[0].split(" ")
        if answer.event[0] == "S" and head[0] == "ticket":
            self.waits[answer.event[1]] = (answer.subject.decode(), int(head[1]))
        if answer.event[0] == "D":
            if head[0] == "idle":
                raise Wrong("an idle turn")
            zone = answer.event[1].decode()
            ends = {"finished": lambda it: it == (zone, int(head[1])), "stuck": lambda it: it[0] == zone}
            ended = ends.get(head[0], lambda it: False)
            self.waits = {number: it for number, it in self.waits.items() if not ended(it)}

    def entry(self, line, reply):
        """One more entry."""
        event = event_in(line, self.host.started)
        self.come(event)
        answer = self.host.answer(event)
        self.note(answer)
        if answer.granted() != line + b"\n":
            raise Wrong("not written as %r" % answer.granted())
        if answer.reply() != reply:
            raise Wrong("another reply than %r" % answer.reply())

    def end(self):
        """All was declared and typed, and no session waits."""
        if self.declared or any(self.left.values()):
            raise Wrong("lines are left")
        if self.waits:
            raise Wrong("sessions wait: %s" % self.waits)


def fault(data, text, part=False, store=None):
    """What is wrong with a record of an input, or None. A part of a record may be empty."""
    at = 0
    try:
        reader = Reader(data, store)
        for at, entry in enumerate(entries_of(text), 1):
            reader.entry(*entry)
        if not part:
            reader.end()
        elif reader.declared and at:
            raise Wrong("something is left to declare")
    except Wrong as wrong:
        return "entry %d: %s" % (at, wrong) if at else str(wrong)
    return None


def main():
    parser = argparse.ArgumentParser(description=__doc__.split("\n")[0])
    parser.add_argument("files", nargs="*", metavar="INPUT RECORD")
    parser.add_argument("--part", action="store_true")
    parser.add_argument("--earlier")
    parser.add_argument("--self-test", action="store_true")
    parser.add_argument("--count", type=int, default=200)
    parser.add_argument("--seed", type=int, default=1)
    args = parser.parse_args()
    if args.self_test:
        import live_laws
        wrong = live_laws.fault(args.count, args.seed)
        print("records are told from what is none" if wrong is None else wrong)
        return 0 if wrong is None else 1
    if len(args.files) != 2:
        parser.error("an input and a record are needed")
    store = Store()
    if args.earlier:
        model.run(pathlib.Path(args.earlier).read_bytes(), store, ALL_LINES)
    data, text = (pathlib.Path(file).read_bytes() for file in args.files)
    wrong = fault(data, text, args.part, store)
    print("a record" if wrong is None else wrong)
    return 0 if wrong is None else 1


if __name__ == "__main__":
    sys.exit(main())
