"""What holds of the model in trace_model.py whatever the configurations and the hooks are, looked at over random
systems.

fault(count, seed) gives what doesn't hold in one of so many systems, or None; tools/fuzz_trace.py --self-test does
this. In these systems zones have whole configurations, which no line of a trace sets yet, and brands whose hooks
refuse.
"""

import random

import trace_model as model
from config_model import Config, address_of, dataset_of, device_of, fs_of, link_of, rctl_of
from object_rows import told
from plan_model import FROM
from trace_lines import Refused
from zone_lines import made

# How a zone may go from one state to another; None is a zone that isn't stored.
TABLE = {
    None: ["configured"],
    "configured": ["incomplete", "installed"],
    "incomplete": ["installed", "configured"],
    "installed": ["incomplete", "configured", "ready"],
    "ready": ["running", "shutting_down"],
    "running": ["shutting_down"],
    "shutting_down": ["down"],
    "down": ["installed"],
}
KINDS = ["install", "uninstall", "clone", "attach", "detach", "ready", "boot", "halt"]
WORDS = {"uninstall": "uninstall -F", "mark": "mark incomplete"}
LINKS, DATASETS = ["net0", "net1", "net2"], ["z/1", "z/2"]
ADDRESSES, DEVICES = ["10.0.0.1", "10.0.0.2"], ["/dev/dsk", "/dev/d/a", "/dev/e"]
LIMITS = ["", "", "", "default,sys_time", "default,!proc_audit", "default,!proc_fork", "all", "x"]
ZONES = ["a", "b", "c"]


def declared(rng):
    """Lines that declare most of the items, so that some of the claims are denied."""
    items = [("link", it) for it in LINKS] + [("dataset", it) for it in DATASETS]
    items += [("address", it) for it in ADDRESSES] + [("device", it) for it in DEVICES]
    return ["Y %s %s" % item for item in items if rng.random() < 0.85]


def some(rng, items):
    return rng.sample(items, rng.choice([0, 0, 1, len(items)]))


def config_of(rng):
    """A whole configuration without a flaw, though its limitpriv may have one."""
    is_exclusive = rng.random() < 0.5
    nets = [link_of(it) for it in some(rng, LINKS)] if is_exclusive else [
        address_of(it + rng.choice(["", "/8"])) for it in some(rng, ADDRESSES)]
    return Config.of(
        ip_type="exclusive" if is_exclusive else "shared", net=nets, limitpriv=rng.choice(LIMITS),
        bootargs=rng.choice(["", "-s"]), dataset=[dataset_of(it) for it in some(rng, DATASETS)],
        fs=[fs_of(it, "/x", "lofs", *rng.choice([[], ["ro"]])) for it in some(rng, ["/b", "/a", "/a/b", "/a-"])],
        device=[device_of(it) for it in some(rng, ["/dev/d*", "/dev/?", "/dev/[!e]*"])],
        rctl=[rctl_of("zone.max-lwps", it) for it in some(rng, [2])])


def brands_of(rng):
    """Brands of which some hooks refuse."""
    changes = ["%s %s" % (when, kind) for when in ("before", "after") for kind in KINDS]
    refuse = rng.choice([0, 0, 0.1])
    return {name: {it: rng.randrange(1, 100) for it in changes if rng.random() < refuse} for name in ("ipkg", "lx")}


class Watched:
    """The turns of one zone's daemon, each of which has to go on with what came before."""

    def __init__(self):
        self.ticket = self.kind = self.want = None
        self.done, self.undone, self.failed = [], [], None

    def turned(self, said):
        """What is wrong with a turn, or None."""
        word, _, rest = said.partition(" ")
        if word in ("idle", "stuck"):
            return "idle amid a request" if word == "idle" and self.ticket is not None else None
        return getattr(self, "turn_" + word)(rest)

    def turn_began(self, rest):
        ticket, kind = rest.split(" ")
        if self.ticket is not None and (self.kind, kind, self.ticket, self.failed) != ("reboot", "boot", ticket, None):
            return "a second begin"
        self.ticket, self.kind, self.done, self.undone = ticket, kind, [], []
        return None

    def turn_step(self, rest):
        self.done.append(rest)
        return None if self.ticket is not None and self.failed is None else "a step out of its place"

    def turn_failed(self, rest):
        place, _, self.failed = rest.partition(": ")
        getting_ready = "hook before ready" in self.done and "state ready" not in self.done
        steps = [it for it in reversed(self.done) if not it.startswith("hook ")]
        self.undone = steps if getting_ready else []
        return None if int(place) == len(self.done) + 1 else "a place that isn't the next one"

    def turn_undone(self, rest):
        return None if self.undone and self.undone.pop(0) == rest else "what is undone isn't the latest"

    def turn_finished(self, rest):
        ticket, _, outcome = rest.partition(" ")
        wrong = self.ticket not in (None, ticket) or self.undone or (
            self.failed is not None and outcome != "err " + self.failed) or (
            outcome == "ok" and not self.done)
        self.ticket = self.kind = self.failed = None
        self.done = []
        return "an end that isn't due" if wrong else None


def is_bare(host, name):
    """Whether a zone has nothing of what zones have between ready and down."""
    holds = [name in it for it in (host.zids, host.limits, host.devices, host.bootargs, host.firsts)]
    return not any(holds + [host.pids(name), host.items.held(name), host.mounts[name].by_directory])


def wrong_with(host):
    """What doesn't hold of a system, or None."""
    items = [claim[1:] for claim in host.items.claims]
    paths = [it.config.path for it in host.store.records.values()]
    if len(set(items)) < len(items) or len(set(paths)) < len(paths):
        return "an item or a path of two zones"
    if len(set(host.zids.values())) < len(host.zids):
        return "an id of two zones"
    for process in host.processes.values():
        if host.state(process.zone) not in ("ready", "running", "shutting_down"):
            return "a process of a zone that isn't up"
        if not process.privileges <= host.limits[process.zone].privileges:
            return "a privilege that the zone hasn't"
    for name in host.store.records:
        desk = host.desks.get(name)
        if name not in host.active and (desk is None or desk.ticket is None) and not is_bare(host, name):
            return "a zone that is down and has something"
    return None


def line_of(rng, host):
    """A line that asks for something, or gives a daemon a turn."""
    name = rng.choice(ZONES)
    busy = [it.decode() for it, desk in host.desks.items() if desk.is_busy()]
    pids = host.pids(name.encode())
    chance = rng.random()
    if chance < 0.75 and (busy or chance < 0.05):
        return "D " + rng.choice(busy or ZONES)
    if chance < 0.90:
        state = host.state(name.encode())
        kinds = [kind for kind in FROM if state in FROM[kind]] + ["boot", "ready"] * (state == "installed")
        kind = rng.choice(kinds or list(FROM))
        words = {"move": "move /m%d" % rng.randrange(3), "clone": "clone " + rng.choice(ZONES)}
        return "S %d zoneadm -z %s %s" % (rng.choice([1, 2, 3]), name, words.get(kind) or WORDS.get(kind, kind))
    if chance < 0.96 and pids:
        call = rng.choice(["fork x", "mount nfs x /m", "umount /m", "exit", "drop proc_info"])
        return "P %s %d %s" % (name, rng.choice(pids), call)
    return "S 4 %s -z %s %s" % (rng.choice(["fhold", "frelease", "frelease"]), name, rng.choice(["/", "/a", "/m"]))


def edited(rng, host, name):
    """A later commit of a zone's configuration."""
    config, was = config_of(rng), host.config(name.encode())
    try:
        host.commit(name.encode(), config.with_values(zonepath=was.path, brand=was.brand))
    except Refused:
        pass


def walk_fault(rng, steps):
    """What doesn't hold in one random system, or None."""
    host, watched = model.Host(brands_of(rng)), {name: Watched() for name in ZONES}
    before = declared(rng) + [line for name in ZONES for line in made(name, brand=rng.choice(["ipkg", "lx"]))]
    told({name: config_of(rng) for name in ZONES}, before, [], host)
    for _ in range(steps):
        if rng.random() < 0.02:
            edited(rng, host, rng.choice(ZONES))
        line = line_of(rng, host)
        states = {name: host.state(name.encode()) for name in ZONES}
        configs = {name: host.config(name.encode()) for name in ZONES}
        said = host.answer(host.read(line.encode())).lines[0]
        wrong = watched[line[2:]].turned(said) if line.startswith("D ") else None
        for name in ZONES:
            was, now = states[name], host.state(name.encode())
            if now != was and (now not in TABLE[was] or line != "D " + name):
                wrong = "from %s to %s" % (was, now)
            if host.config(name.encode()) != configs[name] and said != "step record moved":
                wrong = "another configuration"
        wrong = wrong or wrong_with(host)
        if wrong:
            return "%s: %s: %s" % (wrong, line, said)
    return None


def fault(count=200, seed=1):
    """What doesn't hold in one of some random systems, or None."""
    for number in range(count):
        found = walk_fault(random.Random("%d %d" % (seed, number)), 400)
        if found is not None:
            return "system %d: %s" % (number, found)
    return None
