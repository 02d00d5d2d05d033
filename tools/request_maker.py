"""Random traces for tools/fuzz_trace.py in which zones are asked for all requests of zoneadm(8)."""

from config_model import Config
from object_maker import ObjectMaker
from plan_model import FROM
from store_model import AROUND, MOST_BYTES, Record
from trace_maker import BRANDED, NAMES, NO_NAMES, PATHS
from zone_lines import done, installed, made, running

# Paths that zones are moved to, so few that they meet.
PLACES = ["/m", "/m/n", "/zones/web", "/zones/a", "/z", "/~", "/" + "p" * 1022]
NO_PLACES = ["/", "x", "/x/", "//", "/.", "/a/..", "/" + "p" * 1023, "/p" * 512, "/\"", ".", "/x/y//", "-z", "*", "/./"]
ARGUMENTS = [
    "-s", "-i /", "-i /sbin/init", "-m x", "-m verbose", "-m -s", "-m -m", "-m --", "-m /x", "-s -i /x -m y",
    "-m y -i /x -s", "-i /x -s", "-m \"x", "-i /" + "p" * 1022, "-m " + "w" * 400, "-m ~;#", "-s -m =",
]
NO_ARGUMENTS = [
    "-x", "s", "--", "-s -s", "-s x", "-i", "-m", "-i x", "-i /x/", "-m x -m x", "-i /x -i /y", "-s -i", "-sm x", "-S",
    "-i /" + "p" * 1023, "-i -s", "-m x y", "-- -s", "-s --", "-v", "-a", "-i /\"", "-s,", "-m x -s -s", "-mx", "-i=/",
]
BRANDS = ["ipkg", "lx"]
ODD_BRANDS = [
    "solaris", "ipk", "ipkgs", "IPKG", "Lx", "l", "x", "lx.", "s.1", "_", "-", ".", "b" * 31, "b" * 32, "b" * 33, "a/b",
    "b" * 300, "#", "ip,kg", "lx:", "", "\"lx\"", "lx;", "lx ipkg", "[lx]", "lx]", "(lx)", "lx)", "l=x", "{lx}", "'lx'",
    "0", "\\", "lx[a", "*",
]
FORMS = [
    "uninstall", "uninstall -f", "uninstall -F -F", "uninstall -F x", "-F uninstall", "uninstall-F", "uninstall  -F",
    "mark", "mark installed", "mark incomplete x", "mark Incomplete", "mark -F incomplete", "incomplete", "move",
    "clone", "clone a b", "clone -m x a", "ready x", "ready -F", "halt -F", "halt x", "attach -F", "attach -u",
    "attach -n x", "detach -n", "detach x", "install x", "install -x y", "reboot x", "reboot -s", "reboot --",
    "reboot -- --", "boot --", "boot -- --", "boot -s", "boot -s --", "boot --s", "boot-- -s", "boot - -s", "Ready",
    "READY", "Reboot", "move-", "clones a", "moves /x", "installs", "at", "attach;", "detach;", "boot;",
    "ready attach", "list", "list -p", "verify", "help", "shutdown", "shutdown -r", "-z a ready", "ready -z a",
    "clone -z", "clone -z a", "move -z", "mark -z a",
]
HEADS = ["S 1 zoneadm -z web move /", "S 1 zoneadm -z web clone ", "S 1 zoneadm -z web boot -- -m "]


class RequestMaker(ObjectMaker):
    """Makes traces with all requests, most of which begin."""

    heads = ObjectMaker.heads + HEADS

    def __init__(self, rng, share=0.3):
        super().__init__(rng)
        # how many of the traces are of requests
        self.requested = share

    def begin(self, names, sessions):
        super().begin(names, sessions)
        # paths that zones have or had
        self.paths_so_far = set()

    # Words of a request.

    def place(self):
        """Where a zone is moved to: a free path, one that a zone has or had, or one that is none."""
        rng = self.rng
        held = {it.config.path for it in self.host.store.records.values()}
        left = sorted(self.paths_so_far - held)
        self.paths_so_far |= held
        chance = rng.random()
        if chance < 0.02:
            return rng.choice(NO_PLACES)
        if chance < 0.3 and held:
            return rng.choice(sorted(held))
        if chance < 0.5 and left:
            return rng.choice(left)
        return rng.choice(PLACES) if chance < 0.9 else rng.choice(PATHS[:3])

    def source(self):
        """A zone that is cloned, for the most part one that is stored."""
        rng = self.rng
        names = list(self.host.store.records)
        fitting = [name for name in names if self.host.state(name) == "installed"]
        chance = rng.random()
        if fitting and chance < 0.8:
            return rng.choice(fitting).decode()
        if names and chance < 0.94:
            return rng.choice(names).decode()
        return rng.choice(NAMES if chance < 0.98 else NO_NAMES)

    def arguments(self):
        """What stands after a boot or a reboot."""
        rng = self.rng
        if rng.random() < 0.6:
            return rng.choice(["", "", " --"])
        return " -- " + rng.choice(NO_ARGUMENTS if rng.random() < 0.1 else ARGUMENTS)

    def asked(self, kind):
        if kind == "move":
            return "move " + self.place()
        if kind == "clone":
            return "clone " + self.source()
        if kind in ("boot", "reboot"):
            return kind + self.arguments()
        if kind == "uninstall" and self.rng.random() < 0.1:
            return kind
        return super().asked(kind)

    def brand(self):
        return self.rng.choice(ODD_BRANDS if self.rng.random() < 0.03 else BRANDS)

    # Lines.

    def create(self, name):
        self.type(BRANDED % (name, self.path(name), self.brand()))

    def makes(self, names):
        """Makes zones, each with a path of its own, and the most of them of the first brand."""
        for name in names:
            self.type_lines(made(name, self.sessions[0], self.rng.choice(["ipkg", "ipkg", "lx"])))

    def is_busy(self, name):
        desk = self.host.desks.get(name.encode())
        return desk is not None and desk.is_busy()

    def finish(self, name, most=120):
        """Gives a daemon its turns until it has nothing to do, and releases what is held in its way."""
        for _ in range(most):
            if not self.is_busy(name):
                return
            self.line("D %s" % name)
            if self.rng.random() < 0.5:
                self.let_go(name)

    def fitting(self, name):
        """A request that the zone's state allows, or any."""
        state = self.host.state(name.encode())
        kinds = [kind for kind in FROM if state in FROM[kind]]
        return self.rng.choice(kinds if kinds and self.rng.random() < 0.9 else list(FROM))

    def ask(self, name, kind=None):
        self.type("zoneadm -z %s %s" % (name, self.asked(kind or self.fitting(name))))

    def bring(self, name, state):
        """Brings a zone that is made to a state."""
        first = self.sessions[0]
        ways = {
            "configured": [], "incomplete": ["install", "mark incomplete"], "installed": ["install"],
            "ready": ["attach", "ready"], "running": ["install", "boot"],
        }
        for asked in ways[state]:
            self.type_lines(done(name, asked, first))

    def between(self, name):
        """What else happens while a daemon works."""
        rng = self.rng
        chance = rng.random()
        if self.host.pids(name.encode()) and chance < 0.5:
            self.process_line(name, rng.choice([["fork", "a"], ["mount", "nfs", "h", "/n"], ["ps"], ["read", "/x"]]))
        elif chance < 0.7:
            self.hold(name)
        elif chance < 0.8:
            self.line("S %d" % rng.choice(self.sessions))
        elif chance < 0.85:
            self.create(name)
        else:
            self.ask(rng.choice(self.names))

    # Traces.

    def requests(self):
        """Several zones and sessions, which ask for all that there is."""
        rng = self.rng
        self.begin(rng.sample(NAMES, rng.choice([1, 2, 3, 5])), rng.choice([1, 2, 4, 9]))
        self.makes(self.names if rng.random() < 0.8 else self.names[1:])
        for _ in range(rng.choice([5, 20, 60])):
            chance = rng.random()
            if chance < 0.35:
                self.ask(rng.choice(self.names))
            elif chance < 0.85:
                self.turns(self.busy())
            elif chance < 0.93:
                self.between(rng.choice(self.names))
            else:
                self.move()
        return self.data()

    def walk(self):
        """Zones that go about all states, one request after the other."""
        rng = self.rng
        self.begin(rng.sample(NAMES, rng.choice([1, 1, 2, 3])), 3)
        self.makes(self.names)
        for _ in range(rng.choice([3, 8, 20, 50])):
            name = rng.choice(self.names)
            self.ask(name)
            self.finish(name)
            if rng.random() < 0.2:
                self.between(name)
        return self.data()

    def clones(self):
        """Sources in every state, and zones that are cloned from them while the sources go on."""
        rng = self.rng
        self.begin(rng.sample(NAMES, rng.choice([2, 3, 5])), rng.choice([2, 4]))
        self.makes(self.names)
        for name in self.names[1:]:
            self.bring(name, rng.choice(["configured", "incomplete", "installed", "installed", "ready", "running"]))
        for _ in range(rng.choice([1, 3, 8])):
            self.ask(self.names[0], rng.choice(["clone", "clone", "clone", "uninstall", "detach"]))
            for _ in range(rng.choice([1, 2, 3, 12])):
                self.line("D %s" % self.names[0])
                if rng.random() < 0.3:
                    other = rng.choice(self.names[1:])
                    self.ask(other)
                    self.turns(other)
        return self.data()

    def moves_about(self):
        """Zones that are moved to paths that others have, had or are about to get."""
        rng = self.rng
        self.begin(rng.sample(NAMES, rng.choice([1, 2, 3, 5])), rng.choice([1, 3]))
        self.makes(self.names)
        for name in self.names:
            self.type_lines(done(name, rng.choice(["attach", "install"]), self.sessions[0]))
        for _ in range(rng.choice([2, 6, 20])):
            name = rng.choice(self.names)
            chance = rng.random()
            if chance < 0.7:
                self.ask(name, "move")
            elif chance < 0.8:
                self.ask(name)
            elif chance < 0.9:
                self.type(BRANDED % (rng.choice(NAMES), self.place(), "ipkg"))
            for _ in range(rng.choice([0, 1, 3, 3, 3])):
                self.line("D %s" % self.busy())
        return self.data()

    def roots_move(self):
        """A zone that is moved, and then shows where its root lies."""
        rng = self.rng
        self.begin(rng.sample(NAMES, 1), 1)
        name, first = self.names[0], self.sessions[0]
        self.type_lines(installed(name, first))
        for _ in range(rng.choice([1, 2, 3])):
            self.ask(name, "move")
            self.finish(name)
            for asked in rng.choice([["boot"], ["ready", "boot"], ["boot", "reboot"], ["ready", "reboot"]]):
                self.ask(name, asked)
                self.finish(name)
            pid = self.host.firsts.get(name.encode(), 2)
            self.line("P %s %d %s" % (name, pid, rng.choice(["read /x", "mounts", "read /", "mount lofs /a /b"])))
            self.ask(name, "halt")
            self.finish(name)
        return self.data()

    def desks(self):
        """Requests that wait one after the other, so that each begins in the state that the one before left."""
        rng = self.rng
        self.begin(rng.sample(NAMES, rng.choice([1, 1, 2])), rng.choice([9, 10, 12]))
        self.makes(self.names)
        chains = [
            ["install", "ready", "boot", "reboot", "halt", "uninstall"], ["attach", "boot", "reboot", "halt", "detach"],
            ["install", "mark", "uninstall", "attach", "move", "ready", "halt"], ["attach", "move", "move", "boot"],
            ["install", "mark", "mark", "ready", "uninstall", "uninstall", "clone"],
        ]
        for _ in range(rng.choice([1, 2, 4])):
            name = rng.choice(self.names)
            for kind in rng.choice(chains)[rng.choice([0, 0, 1]):]:
                self.ask(name, kind if rng.random() < 0.9 else None)
            if rng.random() < 0.3:
                for _ in range(rng.choice([3, 9])):
                    self.ask(name)
            if rng.random() < 0.7:
                self.finish(name)
            else:
                self.turns(name)
        return self.data()

    def reboots(self):
        """Zones that are rebooted from ready and from running while processes, mounts and holds come and go."""
        rng = self.rng
        self.begin(rng.sample(NAMES, rng.choice([1, 1, 2])), rng.choice([2, 3]))
        for name in self.names:
            self.type_lines(rng.choice([installed, running, running])(name, self.sessions[0]))
        for _ in range(rng.choice([1, 2, 4])):
            name = rng.choice(self.names)
            if self.host.state(name.encode()) == "installed":
                self.ask(name, rng.choice(["ready", "boot"]))
                self.finish(name)
            for _ in range(rng.choice([0, 2, 5])):
                self.between(name)
                if self.host.pids(name.encode()):
                    self.process_line(name)
            self.ask(name, "reboot")
            for _ in range(rng.choice([5, 24, 30])):
                self.line("D %s" % name)
                if rng.random() < 0.15:
                    self.between(name)
                if rng.random() < 0.4:
                    self.let_go(name)
        return self.data()

    def one_request_line(self):
        """A line that may be wrong in any of the known ways, where zones are in some states."""
        rng = self.rng
        self.begin(rng.sample(NAMES, 3), 2)
        self.makes(self.names[:2])
        for name in self.names[:2]:
            self.bring(name, rng.choice(["configured", "incomplete", "installed", "ready"]))
        name = rng.choice(self.names + self.names + NO_NAMES)
        which = rng.randrange(7)
        if which == 0:
            asked = rng.choice(FORMS)
        elif which == 1:
            asked = "move " + rng.choice(PATHS + NO_PLACES)
        elif which == 2:
            asked = "clone " + rng.choice(NAMES + NO_NAMES)
        elif which == 3:
            asked = "%s -- %s" % (rng.choice(["boot", "reboot"]), rng.choice(ARGUMENTS + NO_ARGUMENTS + NO_ARGUMENTS))
        elif which == 4:
            asked = " ".join(self.spoilt(self.asked(rng.choice(list(FROM))).split(" ")))
        elif which == 5:
            asked = self.near(self.asked(rng.choice(list(FROM))))
        else:
            asked = self.asked(rng.choice(list(FROM)))
        self.type("zoneadm -z %s %s" % (name, asked))
        for _ in range(rng.choice([0, 1, 3])):
            self.line("D %s" % self.busy())
        return self.data()

    def branded(self):
        """Zones of all kinds of brands, and what they are asked for."""
        rng = self.rng
        self.begin(rng.sample(NAMES, rng.choice([1, 3])), 1)
        self.makes(self.names[1:2])
        for name in self.names + self.names[:1]:
            brand = rng.choice(ODD_BRANDS + BRANDS * 5)
            brand = self.near(brand) if rng.random() < 0.2 else brand
            path = rng.choice([self.path(name), self.path(name), self.place(), rng.choice(PATHS)])
            self.type(BRANDED % (name, path, brand))
            self.ask(name)
            self.turns(name)
        return self.data()

    def full_store(self):
        """A store that fills up to its last byte, or nearly so, and what it denies then."""
        rng = self.rng
        self.begin(rng.sample(NAMES[:4], 3), 2)
        name, first = self.names[0], self.sessions[0]
        self.line("S %d %s" % (first, BRANDED % (name, "/" + "p" * 1022, "ipkg")))
        self.makes(self.names[1:2])
        while MOST_BYTES - self.host.store.used > 2500:
            self.type_lines(done(name, "attach", first) + done(name, "detach", first))
        self.fill(self.names[2], rng.choice([-1, 0, 0, 1, 170, 185]))
        for _ in range(rng.choice([3, 10])):
            zone = rng.choice(self.names)
            self.ask(zone)
            self.finish(zone)
        self.create("more")
        return self.data()

    def fill(self, name, left):
        """Makes a zone whose record leaves so many bytes of the store, or takes that many more than there are."""
        room = MOST_BYTES - self.host.store.used - left
        for zone in ["f0", "f1", name]:
            least = AROUND + Record("configured", Config.of(zonepath="/", brand="lx")).size(zone.encode())
            length = room - least if zone == name else min(1022, room // 2 - least)
            if 0 < length <= 1022:
                self.type(BRANDED % (zone, "/" + zone[-1] * length, "lx"))
                room = MOST_BYTES - self.host.store.used - left

    def no_pids(self):
        """No number of a process is left as zones boot and reboot, and then there is one again."""
        rng = self.rng
        self.begin(rng.sample(NAMES[:4], 3), 3)
        a, b, c = self.names
        self.type_lines(running(a, self.sessions[0]) + installed(b, self.sessions[0]) + running(c, self.sessions[0]))
        first = self.host.firsts[a.encode()]
        for _ in range(29998 - len(self.host.processes)):
            self.line("P %s %d fork x" % (a, first))
        for _ in range(rng.choice([3, 10])):
            name = rng.choice([b, b, c])
            self.ask(name)
            for _ in range(rng.choice([9, 11, 13])):
                self.line("D %s" % name)
            if rng.random() < 0.5:
                self.line("P %s %d fork y" % (a, first))
            self.finish(name)
            if rng.random() < 0.3:
                self.line("P %s %d exit" % (a, rng.randrange(9, 29999)))
        return self.data()

    def next(self, traces):
        if self.rng.random() >= self.requested:
            return super().next(traces)
        chance = self.rng.random()
        for bound, make in [
            (0.22, self.requests), (0.38, self.walk), (0.47, self.clones), (0.55, self.moves_about),
            (0.60, self.roots_move), (0.68, self.desks), (0.76, self.reboots), (0.90, self.one_request_line),
            (0.95, self.branded), (0.9505, self.full_store), (0.952, self.no_pids),
        ]:
            if chance < bound or not traces:
                return make()
        return self.mutated(traces)
