"""What holds of the model in trace_model.py over random traces with configurations, editing sessions, lists, restarts,
logins and consoles, looked at after each of their lines.

fault(count, seed) gives what doesn't hold in one of so many traces, or None; tools/fuzz_trace.py --self-test does this.
The brands of these systems have hooks that refuse, which no program's brands have.
"""

import dataclasses
import random

import index_model
import login_laws
import trace_lines
import trace_model as model
from config_model import Config
from grant_laws import given_so_far, wrong_with_grant
from login_maker import LoginMaker
from request_laws import TABLE, Watched, brands_of, wrong_with
from store_model import AROUND, MOST_BYTES, removal_size
from store_reader import uuid_of
from trace_lines import KINDS_OF_LINES

MOST_TEXT = 32768


def record_of(host, name):
    """What is stored of a zone, or None."""
    record = host.store.records.get(name)
    if record is None:
        return None
    return (record.state, record.revision, record.uuid, record.config.text())


def sessions_of(host, name):
    """What sessions do with a zone: what each of them edits, and the tickets that they wait for."""
    edits = {number: repr((edit.config, edit.base, edit.seen, edit.scope))
             for number, edit in host.edits.items() if edit.name == name}
    return edits, {number: ticket for number, (zone, ticket) in host.tickets.items() if zone == name}


def world_of(host, name):
    """All that there is of a zone. A zone of which nothing was ever asked has the same as one without a daemon."""
    desk = host.desks.get(name, model.Daemon())
    asked = {it: value.text() if isinstance(value, Config) else repr(value) for it, value in vars(desk).items()}
    processes = {pid: dataclasses.astuple(it) for pid, it in host.processes.items() if it.zone == name}
    mounts = repr(host.mounts[name].by_directory) if name in host.mounts else "{}"
    tables = (host.active, host.zids, host.limits, host.bootargs, host.firsts, host.devices)
    held = [repr(it.get(name)) for it in tables] + [login_laws.held_of(host, name)]
    return (record_of(host, name), asked, processes, mounts, held, host.items.held(name), sessions_of(host, name))


class LawfulMaker(LoginMaker):
    """Makes traces, and looks after each line whether what it did may be."""

    def __init__(self, rng):
        self.wrong = None
        super().__init__(rng, frozenset(KINDS_OF_LINES))

    def begin(self, names, sessions):
        super().begin(names, sessions)
        self.host.brands = brands_of(self.rng)
        self.watched = {}

    def line(self, text):
        self.lines.append(text)
        try:
            event = self.host.read(text.encode("latin-1"))
        except trace_lines.Outside:
            return
        if event is None or self.wrong is not None:
            return
        host = self.host
        names = sorted({it.encode("latin-1") for it in self.names} | set(host.store.records) | set(host.desks))[:12]
        worlds = {name: world_of(host, name) for name in names}
        states = {name: host.state(name) for name in names}
        store = (host.store.serial, host.store.used, dict(host.store.records))
        processes, last = set(host.processes), host.last_pid
        in_a_login = login_laws.in_a_login(host, event)
        given = given_so_far(host)
        answer = host.answer(event)
        subject, lines = answer.subject, answer.lines
        self.wrong = (
            self.of_others(subject, worlds) or self.of_states(event, lines[0], states, subject)
            or self.of_records(event, lines[0], store, subject) or self.of_refusals(lines[0], worlds, subject)
            or self.of_turns(event, lines[0]) or self.of_restarts(event, store)
            or wrong_with_grant(given, host, answer) or wrong_with(host)
            or login_laws.wrong_with(host)
            or login_laws.wrong_with_processes(processes, last, host, event, lines[0])
            or login_laws.wrong_with_call(in_a_login, host, lines))
        if self.wrong is not None:
            self.wrong = "%s: %s: %s" % (self.wrong, text, " | ".join(lines))

    def of_others(self, subject, worlds):
        """A line changes nothing of another zone than its own; only what belongs to all of the system may."""
        if subject == b"*":
            return None
        other = [name for name, world in worlds.items() if name != subject and world_of(self.host, name) != world]
        return "something of another zone, %s" % other[0].decode() if other else None

    def of_states(self, event, head, states, subject):
        """Zones come and go by a commit and a delete, come down by a restart, and are else taken about by daemons."""
        for name, was in states.items():
            now = self.host.state(name)
            if now == was:
                continue
            if event[0] == "R":
                right = was in ("ready", "running", "shutting_down", "down") and now == "installed"
            elif event[0] == "S":
                right = subject == name and head == "ok" and (was, now) in ((None, "configured"), ("configured", None))
            else:
                right = event == ("D", name) and now in TABLE[was]
            if not right:
                return "from %s to %s" % (was, now)
        return None

    def of_records(self, event, head, store, subject):
        """At most one record an event, and none with a refusal. It takes as many bytes as it has, and the number of a
        changed configuration is its own."""
        serial, used, records = store
        now, name = self.host.store, subject
        if now.serial == serial:
            return None if (now.used, now.records) == (used, records) else "another record without a number"
        if now.serial != serial + 1 or head != "ok" and not head.startswith("step record ") or now.used > MOST_BYTES:
            return "a record that isn't due"
        record = now.records.get(name)
        size = removal_size(name) if record is None else record.size(name)
        if now.used != used + AROUND + size:
            return "a record of another size"
        if record is None:
            return None if event[0] == "S" else "a zone that a daemon removed"
        was = records.get(name)
        uuid = was.uuid if was else str(uuid_of(name.decode(), now.serial))
        if record.uuid != uuid or len(record.config.text()) > MOST_TEXT:
            return "a record that may not be"
        is_edited = event[0] == "S" or head == "step record moved"
        if record.revision != (now.serial if is_edited else was.revision):
            return "a revision that isn't due"
        if not is_edited and record.config != was.config:
            return "a configuration that a daemon changed"
        if event[0] == "S" and was is not None and record.config == was.config:
            return "a commit that changes nothing"
        if index_model.config_of(record.config.text().encode()) != record.config:
            return "a text that reads as another configuration"
        return None

    def of_refusals(self, head, worlds, subject):
        """What is refused changes nothing but what an editor has open."""
        if not head.startswith("err ") or subject not in worlds:
            return None
        *was, (_, tickets) = worlds[subject]
        *now, (_, left) = world_of(self.host, subject)
        return None if (was, tickets) == (now, left) else "a refused line changed something"

    def of_turns(self, event, head):
        """Turns of a daemon go on with what came before."""
        if event[0] == "R":
            self.watched = {}
        if event[0] != "D":
            return None
        return self.watched.setdefault(event[1], Watched()).turned(head)

    def of_restarts(self, event, store):
        """A restart leaves what is stored as it is, and nobody who edits or waits."""
        host = self.host
        if event[0] != "R":
            return None
        if (host.store.serial, host.store.used, host.store.records) != store:
            return "a restart that changed a record"
        left = [host.edits, host.tickets, host.logins, host.consoles, host.desks, host.processes, host.zids,
                host.items.claims, host.active]
        return "a restart that left something" if any(left) or (host.last_pid, host.last_zid) != (0, 0) else None


def fault(count=100, seed=1):
    """What doesn't hold in one of some random traces, or None."""
    for number in range(count):
        rng = random.Random("%d %d" % (seed, number))
        maker = LawfulMaker(rng)
        rng.choice([
            maker.wholes, maker.denied, maker.tuned, maker.edited, maker.comings, maker.lists, maker.restarts,
            maker.odd_lines, maker.logins, maker.written, maker.comes_and_goes, maker.bounded, maker.booted,
            maker.odd_logins, maker.called])()
        if maker.wrong is not None:
            return "trace %d: %s" % (number, maker.wrong)
    return None
