"""What tools/live_checker.py says of records that are right, and of the same with one thing wrong.

fault(count, seed) makes so many inputs and runs their sessions over the model in trace_model.py, in any order: each
session types its next line, or takes a turn of the zone whose ticket it waits for. The record of that has to be
accepted, each front of it as a part, and each wrong one that is made of it refused.
"""

import random

import live_checker as checker
import trace_model as model
from login_maker import LoginMaker
from trace_lines import ALL_LINES, Outside, spelled

MOST_LINES = 150
ZONES = ["web", "db", "mail", "www"]
REQUESTS = ["install", "boot", "halt", "boot", "halt", "reboot", "ready", "uninstall -F", "detach", "attach",
            "mark incomplete", "clone web", "move /zones/else"]
CALLS = ["ps", "true", "false", "fork x", "mounts", "links", "zonename"]


# Inputs.

def line_about(rng, zone):
    """A line that a session may type about a zone."""
    chance = rng.random()
    if chance < 0.5:
        return "zoneadm -z %s %s" % (zone, rng.choice(REQUESTS))
    if chance < 0.65:
        return "zlogin %s %s" % (zone, rng.choice(CALLS))
    if chance < 0.75:
        return "%s -z %s %s" % (rng.choice(["fhold", "frelease"]), zone, rng.choice(["/", "/usr"]))
    if chance < 0.85:
        return "zonecfg -z %s %s" % (zone, rng.choice(["info", "set autoboot=true", "set pool=p%d" % rng.randrange(3)]))
    return rng.choice(["zoneadm list -cp", "zoneadm list", "", "zoneadm -z %s list -v" % zone, "kill 9 2"])


def of_zones(rng):
    """Sessions with a zone each, which they make, ask of and look at, and at times look at another's."""
    names = rng.sample(ZONES, rng.randrange(1, len(ZONES) + 1))
    lines = ["Y link net%d" % number for number in range(rng.randrange(4))]
    for session, name in enumerate(names, 1):
        add = "; add fs; set dir=/usr; set special=/usr; set type=lofs; end" * (rng.random() < 0.5)
        typed = ["zonecfg -z %s create -b; set zonepath=/zones/%s; set brand=ipkg%s" % (name, name, add)]
        typed += ["zoneadm -z %s install" % name, "zoneadm -z %s boot" % name][:rng.randrange(3)]
        typed += [line_about(rng, name if rng.random() < 0.8 else rng.choice(names)) for _ in range(rng.randrange(12))]
        lines += ["S %d %s" % (session, text) for text in typed]
    return lines


def of_a_trace(rng):
    """The declarations and the sessions' lines of a trace that something else makes."""
    maker = LoginMaker(rng, ALL_LINES, "script")
    text = rng.choice([maker.logins, maker.requests, maker.clones, maker.desks, maker.reboots])()
    lines = [line.decode("latin-1") for line in text.split(b"\n") if line[:2] in (b"S ", b"Y ")]
    return sorted(lines[:MOST_LINES], key=lambda line: line[:1] != "Y")


def input_of(rng):
    text = "\n".join((of_zones if rng.random() < 0.7 else of_a_trace)(rng) + [""]).encode("latin-1")
    try:
        checker.read_input(text)
    except checker.Wrong:
        return input_of(rng)
    return text


# Records.

class Sessions:
    """Sessions that are run in any order, and what they are answered. Where they don't wait, a session at times goes on
    before its ticket is answered; `early` tells whether one did."""

    def __init__(self, rng, data, waits=True):
        declared, self.scripts = checker.read_input(data)
        self.rng, self.waits, self.early = rng, waits, False
        self.host = model.Host(known=ALL_LINES)
        self.asking = {}
        self.said = [self.host.answer(event) for event in declared]
        while self.busy():
            self.go_on(rng.choice(self.busy()))

    def busy(self):
        return sorted(number for number, lines in self.scripts.items() if lines or number in self.asking)

    def go_on(self, number):
        """A session takes a turn of the zone that it asks, until that answers or is stuck, and else types a line."""
        if number in self.asking and number not in self.host.tickets:
            del self.asking[number]
        elif number in self.asking and (self.waits or not self.scripts[number] or self.rng.random() < 0.8):
            self.said.append(self.host.answer(("D", self.asking[number])))
            if self.said[-1].lines[0].startswith("stuck "):
                del self.asking[number]
        elif self.scripts[number]:
            self.type(number)

    def type(self, number):
        self.early = self.early or number in self.asking
        self.said.append(self.host.answer(("S", number, self.scripts[number].pop(0))))
        if self.said[-1].lines[0].startswith("ticket "):
            self.asking[number] = self.said[-1].subject


def text_of(said):
    """The record of what was answered."""
    return b"".join(b"> " + it.granted() + it.reply() for it in said)


# What is no record.

def is_stuck(answer):
    return answer.lines[0].startswith("stuck ")


def places(said, is_such):
    return [at for at, answer in enumerate(said) if is_such(answer)]


def one_of(rng, found):
    return rng.choice(found) if found else None


def dropped(rng, said):
    """An entry less. A stuck turn leaves no trace, so another one may stand for it."""
    at = one_of(rng, places(said, lambda it: not is_stuck(it)))
    return None if at is None else said[:at] + said[at + 1:]


def repeated(rng, said):
    at = one_of(rng, places(said, lambda it: not is_stuck(it)))
    return None if at is None else said[:at + 1] + said[at:]


def exchanged(rng, said):
    """Two lines of one session, or two turns of one zone, change places."""
    found = [(a, b) for a in range(len(said)) for b in range(a + 1, min(a + 30, len(said)))
             if said[a].event[:2] == said[b].event[:2] and (said[a].event, said[a].lines) != (said[b].event, said[b].lines)]
    pair = one_of(rng, found)
    if pair is None:
        return None
    less, more = pair
    return said[:less] + [said[more]] + said[less + 1:more] + [said[less]] + said[more + 1:]


def cut(rng, said):
    """No more than stands before some session's line."""
    at = one_of(rng, places(said, lambda it: it.event[0] == "S"))
    return None if at is None else said[:at]


def declared_late(rng, said):
    """A declaration behind a session's line."""
    count = len(places(said, lambda it: it.event[0] == "Y"))
    return None if count in (0, len(said)) else said[1:count + 1] + said[:1] + said[count + 1:]


def told_otherwise(rng, said):
    """A reply, a grant or whose it is differs by a letter."""
    if not said:
        return None
    at, copy = rng.randrange(len(said)), list(said)
    it = copy[at]
    copy[at] = rng.choice([
        model.Answer(it.event, it.subject, [it.lines[0] + "x"] + it.lines[1:], it.grant),
        model.Answer(it.event, it.subject, it.lines + ["x"], it.grant),
        model.Answer(it.event, it.subject + b"x", it.lines, it.grant),
        model.Answer(it.event, it.subject, it.lines, "%d" % (int(it.grant) + 1) if it.grant.isdigit() else "1"),
    ])
    return copy


def with_more(events):
    """At the end one entry more, which is answered as the model does."""
    def wrong(rng, said):
        host = model.Host(known=ALL_LINES)
        for it in said:
            host.answer(it.event)
        return said + [host.answer(rng.choice(events))]
    return wrong


WRONG = [
    dropped, repeated, exchanged, cut, declared_late, told_otherwise,
    with_more([("D", b"nosuch")]), with_more([("S", 64, b"zoneadm list"), ("S", 64, b"")]), with_more([("R",)]),
    with_more([("P", b"web", 2, ["ps"])]), with_more([("Y", "link", "net9")]),
]


# All of it.

def fault_in(rng, data, tried):
    """What the checker says that isn't so of the records of an input, or None. `tried` counts what was refused."""
    said = Sessions(rng, data).said
    wrong = checker.fault(data, text_of(said))
    if wrong is not None:
        return "a record is refused: %s\n%s" % (wrong, text_of(said).decode("latin-1"))
    declared = len(places(said, lambda it: it.event[0] == "Y"))
    front = said[:rng.randrange(declared, len(said) + 1)]
    wrong = checker.fault(data, text_of(front), part=True)
    if wrong is not None:
        return "a part is refused: %s" % wrong
    made = [(number, make(rng, said)) for number, make in enumerate(WRONG)]
    hasty = Sessions(rng, data, waits=False)
    made.append((len(WRONG), hasty.said if hasty.early else None))
    for number, wrong in made:
        if wrong is not None and checker.fault(data, text_of(wrong)) is None:
            name = WRONG[number].__name__ if number < len(WRONG) else "hasty"
            return "no record is accepted, %s:\n%s" % (name, text_of(wrong).decode("latin-1"))
        tried[number] += wrong is not None
    return None


def fault(count, seed):
    """What is wrong in one of so many inputs, or None. Each way to be wrong is tried."""
    rng, tried = random.Random(seed), [0] * (len(WRONG) + 1)
    for _ in range(count):
        wrong = fault_in(rng, input_of(rng), tried)
        if wrong is not None:
            return wrong
    return None if min(tried) else "some way to be wrong was not tried: %s" % tried
