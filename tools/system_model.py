"""A plain, slow model of what the zones of one system have: records, states, ids, processes, mounts, claims, devices and
consoles (zones(7), processes as in fork(2) and kill(2)).

At most 256 zones are stored, and each holds one id at most, so the ids never come to their end. The numbers of
processes do.
"""

import collections
import dataclasses
import itertools

from claim_model import Items
from config_model import DEFAULT
from console_model import Console
from mount_model import Mounts
from plan_model import BRANDS
from pool_model import YES, Denied, Grants, Need
from store_model import Store
from trace_lines import Refused

PIDS = range(2, 30000)
ZIDS = range(1, 10000)


def next_number(numbers, last, used, pool):
    """The lowest free number above the last one given, or else the lowest free one."""
    if len(used) == len(numbers):
        raise Denied(pool)
    above = range(max(last + 1, numbers.start), numbers.stop)
    return next(number for number in itertools.chain(above, numbers) if number not in used)


def number_need(pool, numbers, last, used):
    """What asks for a number of a pool. One that is stated has to be in range and free."""
    def may_be(number):
        return number != YES and number in numbers and number not in used

    return Need([pool], lambda: next_number(numbers, last, used, pool), may_be)


@dataclasses.dataclass
class Limits:
    """What binds the processes of a zone: the privileges that they begin with, how many there may be, and what they
    may mount beside lofs."""

    privileges: frozenset = DEFAULT
    most: int = None
    fs_allowed: str = ""

    def may_mount(self, fstype):
        allowed = self.fs_allowed.split(",")
        return fstype == "lofs" or fstype in allowed or (
            fstype in ("hsfs", "nfs", "smbfs") and allowed[0] != "-")


@dataclasses.dataclass
class Process:
    """A process of a zone, with the number of its parent and the privileges that it has left."""

    zone: bytes
    parent: int
    name: str
    privileges: frozenset


class System:
    """The zones of one system and what they have, the last numbers given, and what pools gave to the event under
    way."""

    def __init__(self, brands=None, store=None):
        self.brands = BRANDS if brands is None else brands
        self.store, self.items, self.grants = store or Store(), Items(), Grants()
        self.restart()

    def restart(self):
        """Leaves nothing but what is stored and what is declared."""
        self.active, self.items.claims = {}, []
        self.zids, self.limits, self.bootargs = {}, {}, {}
        self.consoles = collections.defaultdict(Console)
        self.processes, self.firsts = {}, {}
        self.mounts, self.devices = collections.defaultdict(Mounts), {}
        self.last_zid, self.last_pid = 0, 0

    # Zones.

    def state(self, name):
        """The state of a zone, or None where it isn't stored."""
        if name in self.active:
            return self.active[name]
        return self.store.records[name].state if name in self.store.records else None

    def config(self, name):
        """The configuration that is stored of a zone."""
        return self.store.records[name].config

    def go_to(self, name, state):
        """Takes a zone to a state of those between ready and down, or back to installed."""
        self.active[name] = state
        if state == "installed":
            del self.active[name]

    def give_zid(self, name):
        self.last_zid = self.grants.ask(number_need("zids", ZIDS, self.last_zid, self.zids.values()))
        self.zids[name] = self.last_zid
        return self.last_zid

    def give_devices(self, name, patterns):
        """Gives a zone the declared devices of some patterns, and answers how many these are."""
        self.devices[name] = self.items.devices(patterns)
        return len(self.devices[name])

    def change(self, name, record, commit=False):
        """Stores a record of a zone, or where it is None removes the zone."""
        self.store.change(name, record, self.grants.ask(self.store.need(name, record)), commit)

    def claim(self, name, kind, item):
        self.grants.ask(self.items.need(kind, item))
        self.items.claim(name, kind, item)

    def ask_source(self, source):
        """Asks for a zone to be cloned, which is given where it is installed. A `yes` that is stated is always right."""
        def given():
            if self.state(source) != "installed":
                raise Denied("source")
            return YES

        self.grants.ask(Need(["source"], given, lambda it: it == YES))

    # Processes.

    def pids(self, zone):
        """The numbers of a zone's processes, in order."""
        return sorted(pid for pid, process in self.processes.items() if process.zone == zone)

    def enter(self, process):
        """Gives a new process its number."""
        most = self.limits[process.zone].most
        if most is not None and len(self.pids(process.zone)) == most:
            raise Refused("EAGAIN")
        self.last_pid = self.grants.ask(number_need("pids", PIDS, self.last_pid, self.processes))
        self.processes[self.last_pid] = process
        return self.last_pid

    def enter_first(self, zone):
        """Begins a zone's first process, from which all others come."""
        self.firsts[zone] = self.enter(Process(zone, 0, "init", self.limits[zone].privileges))
        return self.firsts[zone]

    def remove(self, pid):
        """Ends a process. Its children get the zone's first process as parent, or 0 where that is gone."""
        zone = self.processes.pop(pid).zone
        if self.firsts.get(zone) == pid:
            del self.firsts[zone]
        for process in self.processes.values():
            if process.parent == pid:
                process.parent = self.firsts.get(zone, 0)

    def kill(self, inside, signal, pid):
        """Sends a signal from the zone `inside`, or where that is None, from a session to any zone."""
        if pid not in self.processes or inside not in (None, self.processes[pid].zone):
            raise Refused("ESRCH")
        if signal != "0" and pid != self.firsts.get(inside):
            self.remove(pid)

    def kill_all(self, zone):
        """Ends all processes of a zone, and answers how many these are."""
        self.firsts.pop(zone, None)
        return len([self.processes.pop(pid) for pid in self.pids(zone)])
