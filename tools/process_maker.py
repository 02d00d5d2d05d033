"""Random traces for tools/fuzz_trace.py in which zones run and their processes make calls."""

import trace_lines
from trace_maker import HEADS, NAMES, NO_NAMES, Maker
from zone_lines import TURNS, done, installed, running

CALLS = {
    "fork": 30, "kill": 18, "ps": 14, "exec": 9, "drop": 9, "privs": 8, "exit": 6, "zonename": 2, "true": 2, "false": 2,
}
PROCESS_NAMES = ["a", "sh", "x.y-z_0", "n" * 15, "n" * 16, "-", ".", "...", "_", "init", "0", "fork", "Z"]
NO_PROCESS_NAMES = [
    "n" * 17, "n" * 300, "a/b", "a~", "a:b", "a,b", "*", "\"a\"", "a\tb", "a\x7f", "\xe9", "a\x00", "a\r", "@a", "`",
]
SIGNALS = ["0", "9", "15"]
NO_SIGNALS = [
    "1", "2", "00", "09", "015", "+9", "-9", "9.", "150", "91", "KILL", "4294967305", "18446744073709551625", "\xb2",
]
ODD_PIDS = ["0", "1", "2", "3", "29999", "30000", "65538", "2147483650", "4294967294", "4294967295"]
NO_PIDS = [
    "4294967296", "4294967298", "9999999999", "10000000002", "18446744073709551618", "9" * 400, "00", "01", "02", "002",
    "+2", "-2", "2x", "0x2", "2.0", "2,3", "\xb2", "init",
]
EDGES = ["4294967295", "4294967296", "4294967298", "0", "02"]
PRIVILEGES = list(trace_lines.PRIVILEGES)
NO_PRIVILEGES = [
    "basic", "zone", "all", "default", "none", "proc", "proc_fork,proc_exec", "PROC_FORK", "!proc_fork", "proc_forks",
    "proc-fork", "{zone}", "sys_tim", "sys_time\r", "0", "21",
]
LATER_CALLS = [call.decode() for call in trace_lines.LATER_CALLS]
LATER_FORMS = [
    "%s", "%s ", "%s /x", "%s lofs /export /mnt ro", "%s /usr/bin x", "%s  text", "%s" + " x" * 40, "%s \xff",
]
WORDS = [
    "x", "Ps", "PS", "psx", "fork1", "forks", "exec,", "quit", "true;", "\xff", "\t", "sh", "0", "-", "zlogin", "#", "",
]
JUNK = [
    "P", "P ", "P  2 ps", "P web", "P web ", "P web 2", "P web 2 ", "P web  ps", "P web 2  ps", "P web 2 ps ",
    "p web 2 ps", "P\tweb 2 ps", "PP web 2 ps", " P web 2 ps", "@- P web 2 ps", "@5 P web 2 fork x",
    "@no pids P web 2 fork x", "P global 2 ps", "P SUNW 2 ps", "P -z 2 ps", "P web 2 ps\r", "P,web", "P \xff 2 ps",
    "P web \xff ps", "P web 2 \xff", "P web 2 ps \xff", "P web 2 fork a\x7f", "P web 2 kill\t9 2",
    "P web 4294967296 ps", "P web 2 kill 9 4294967296",
    "P web 2 kill 09 2", "P web 2 kill 9 02", "P web 02 ps", "P web 0 ps", "P web 0 x", "P web 2 fork", "P web 2 fork ",
    "P web 2 kill", "P web 2 kill ", "P web 2 kill 9", "P web 2 kill 9 ", "P web 2 kill 9 2 ", "P web 2 kill 9 2 3",
    "P web 2 drop", "P web 2 drop x", "P web 2 exec a b", "P web 2 privs x", "P nosuch 2 ps", "P nosuch 2 x",
    "P -a x y", "D P web 2 ps", "#P web 2 ps", "S P web 2 ps", "S 1 P web 2 ps", "P 2 web ps", "P web ps", "Pweb 2 ps",
    "P#web 2 ps",
]
KILLS = [
    "kill", "kill 9", "kill %s", "kill 9 %s x", "kill %s 9", "Kill 9 %s", "kill -9 %s", "kill -z web 9 %s",
    "kill 9 -z web", "kill 9 %s -z web", "kill -z 9 %s", "-z kill 9 %s", "kill -z web", "kill 9,%s", "kill 9 %s;",
    "kill9 %s", "kill\t9 %s", "kill  9  %s", "kill 9 %s ps", "kill %s", "kill 9 %s %s",
]


class ProcessMaker(Maker):
    """Makes traces with processes' calls, most of which succeed."""

    heads = HEADS + [
        "P ", "P web ", "P web 2 ", "P web 2 fork ", "P web 2 kill 9 ", "P web 2 x", "S 1 kill 9 ", "S 1 kill ",
    ]

    def begin(self, names, sessions):
        super().begin(names, sessions)
        # how many of the moves are of processes, and how many of their words are wrong: one of those ends a trace
        self.share = self.rng.choice([0.3, 0.7, 0.9, 1.0])
        self.slips = self.rng.choice([0, 0, 0, 0.005, 0.02])

    def type_lines(self, lines):
        for line in lines:
            self.line(line)

    # Words of a call.

    def pid(self, zone):
        """A number, for the most part one of the zone's processes."""
        return self.rng.choice(NO_PIDS) if self.rng.random() < self.slips else self.some_pid(zone)

    def some_pid(self, zone):
        rng, host = self.rng, self.host
        mine = host.pids(zone.encode("latin-1"))
        others = sorted(host.processes.keys() - set(mine))
        chance = rng.random()
        if mine and chance < 0.12:
            return str(host.firsts.get(zone.encode("latin-1"), mine[0]))
        if mine and chance < 0.85:
            return str(rng.choice(mine))
        if others and chance < 0.90:
            return str(rng.choice(others))
        return str(rng.randrange(2, host.last_pid + 3)) if chance < 0.96 else rng.choice(ODD_PIDS)

    def odd_pid(self):
        return self.rng.choice(self.rng.choice([EDGES, ODD_PIDS, NO_PIDS]))

    def one_of(self, right, wrong):
        return self.rng.choice(wrong if self.rng.random() < self.slips else right)

    def privilege(self):
        if self.rng.random() < 0.25:
            return self.rng.choice(["proc_fork", "proc_exec"])
        return self.one_of(PRIVILEGES, NO_PRIVILEGES)

    def later(self):
        """The words of a call that isn't read, but where its kind of lines is known."""
        return (self.rng.choice(LATER_FORMS) % self.rng.choice(LATER_CALLS)).split(" ")

    def call(self, zone):
        """The words of a call."""
        rng = self.rng
        if rng.random() < self.slips / 4:
            return self.later()
        call = rng.choices(list(CALLS), CALLS.values())[0]
        if call in ("fork", "exec"):
            return [call, self.one_of(PROCESS_NAMES, NO_PROCESS_NAMES)]
        if call == "kill":
            return [call, self.one_of(SIGNALS, NO_SIGNALS), self.pid(zone)]
        if call == "drop":
            return [call, self.privilege()]
        return [call]

    def spoilt(self, words):
        """The words with one of them gone, doubled, changed or put elsewhere, or with one more."""
        rng = self.rng
        at = rng.randrange(len(words))
        which = rng.randrange(8)
        if which == 0:
            return words[:at] + words[at + 1:]
        if which == 1:
            return words[:at] + [words[at]] + words[at:]
        if which == 2:
            return words[:at] + [""] + words[at:]
        if which == 3:
            return words + [rng.choice(WORDS)]
        if which == 4:
            return words[:at] + [rng.choice(WORDS)] + words[at + 1:]
        if which == 5:
            return words[:at] + [words[at].swapcase() + rng.choice(["", "", "x", "\xff", "\t"])] + words[at + 1:]
        if which == 6:
            return words[:at]
        return rng.sample(words, len(words))

    # Lines.

    def zone(self):
        """A zone, for the most part one that has processes."""
        alive = sorted({process.zone for process in self.host.processes.values()})
        if alive and self.rng.random() < 0.93:
            return self.rng.choice(alive).decode()
        return self.name()

    def process_line(self, zone=None, call=None):
        zone = zone or self.zone()
        words = ["P", zone, self.pid(zone)] + (call or self.call(zone))
        self.line(" ".join(self.spoilt(words) if self.rng.random() < self.slips / 2 else words))

    def session_kill(self):
        rng = self.rng
        pid = self.pid(self.zone())
        if rng.random() < 0.85:
            self.type("kill %s %s" % (rng.choice(SIGNALS), pid))
        elif rng.random() < 0.5:
            self.type("kill %s %s" % (rng.choice(SIGNALS + NO_SIGNALS), rng.choice([pid, self.odd_pid()])))
        else:
            self.type(rng.choice(KILLS).replace("%s", pid))

    def wake(self):
        """Brings a zone nearer to running."""
        name = self.rng.choice(self.names)
        state = self.host.state(name.encode())
        session = self.session()
        if name.encode() in [zone for zone, _ in self.host.tickets.values()] or session in self.host.tickets:
            self.turns(name)
        elif state is None:
            self.type_lines(running(name, session))
        else:
            kind = {"configured": "install", "incomplete": "uninstall -F", "installed": "boot", "ready": "boot"}.get(
                state, "halt")
            self.type_lines(done(name, kind, session))

    def move(self):
        if not self.host.processes and self.rng.random() < 0.5:
            self.wake()
        elif self.rng.random() >= self.share:
            super().move()
        elif self.rng.random() < 0.9:
            self.process_line()
        else:
            self.session_kill()

    # Traces.

    def alive(self):
        """Zones that run, and what their processes do."""
        rng = self.rng
        self.begin(rng.sample(NAMES, rng.choice([1, 1, 2, 2, 3])), rng.choice([1, 2, 3]))
        for name in self.names:
            if rng.random() < 0.9:
                self.type_lines(running(name, self.sessions[0]))
        for _ in range(rng.choice([1, 5, 20, 60, 150])):
            self.move()
        return self.data()

    def family(self):
        """One zone whose processes come and go, looked at over and over."""
        rng = self.rng
        self.begin([rng.choice(NAMES)], 1)
        name = self.names[0]
        self.type_lines(running(name, self.sessions[0]))
        for _ in range(rng.choice([5, 20, 60])):
            chance = rng.random()
            if not self.host.processes:
                self.type_lines(done(name, "halt", self.sessions[0]) + done(name, "boot", self.sessions[0]))
            elif chance < 0.5:
                self.process_line(name, ["fork", rng.choice(PROCESS_NAMES)])
            elif chance < 0.7:
                self.process_line(name, ["exit"])
            elif chance < 0.85:
                self.process_line(name, ["kill", rng.choice(SIGNALS), self.pid(name)])
            else:
                self.session_kill()
            self.process_line(name, ["ps"])
        return self.data()

    def stripped(self):
        """Processes that drop privileges, one, several or all of them, and what they may do then."""
        rng = self.rng
        self.begin([rng.choice(NAMES)], 1)
        name = self.names[0]
        self.type_lines(running(name, self.sessions[0]))
        for privilege in rng.sample(PRIVILEGES, rng.choice([1, 5, 20, 40])):
            pid = rng.choice(self.host.pids(name.encode()) or [2])
            tried = [["drop", privilege], ["drop", self.privilege()], ["privs"], ["fork", "a"], ["exec", "b"], ["ps"]]
            for words in [["drop", privilege]] + rng.sample(tried, rng.choice([0, 1, 3])):
                self.line(" ".join(["P", name, str(pid)] + words))
        self.process_line(name, ["privs"])
        return self.data()

    def nothing_left(self):
        """A process that drops all privileges, and in the end has none, nor has its child."""
        rng = self.rng
        self.begin([rng.choice(NAMES)], 1)
        name = self.names[0]
        self.type_lines(running(name, self.sessions[0]))
        last = rng.choice(["proc_fork", "proc_fork", "proc_exec", "sys_mount"])
        for privilege in rng.sample([it for it in PRIVILEGES if it != last], len(PRIVILEGES) - 1):
            self.line("P %s 2 drop %s" % (name, privilege))
        for call in ["fork a", "privs", "drop %s" % last, "privs", "fork b", "exec c", "ps", "true"]:
            self.line("P %s %d %s" % (name, rng.choice([2, 2, 3]), call))
        return self.data()

    def up_and_down(self):
        """Zones whose processes make calls while they come up and go down."""
        rng = self.rng
        self.begin(rng.sample(NAMES, rng.choice([1, 1, 2])), rng.choice([1, 2]))
        for name in self.names:
            self.type_lines(installed(name, self.sessions[0]))
        for _ in range(rng.choice([1, 2, 5])):
            name = rng.choice(self.names)
            for kind in ["boot", "halt"]:
                self.line("S %d zoneadm -z %s %s" % (self.session(), name, kind))
                for _ in range(TURNS[kind] - rng.choice([0, 0, 0, 1, 3])):
                    self.line("D %s" % name)
                    while rng.random() < 0.5:
                        self.move()
        return self.data()

    def one_call(self):
        """A line that may be wrong in any of the known ways, where zones run."""
        rng = self.rng
        self.begin(NAMES, 2)
        for name in rng.sample(NAMES, rng.choice([0, 1, 1, 2])):
            self.type_lines(running(name, self.sessions[0]))
        for _ in range(rng.choice([0, 2])):
            self.process_line(None, ["fork", "a"])
        which = rng.randrange(5)
        zone = self.zone()
        pid = self.pid(zone)
        if which == 0:
            self.line(rng.choice(JUNK).replace("web", zone))
        elif which == 1:
            zone = rng.choice([zone, zone, zone] + NO_NAMES)
            self.line(" ".join(self.spoilt(["P", zone, pid] + self.call(zone))))
        elif which == 2:
            self.type(rng.choice(KILLS).replace("%s", pid))
        else:
            words = rng.choice([
                ["fork", rng.choice(NO_PROCESS_NAMES)], ["exec", rng.choice(NO_PROCESS_NAMES)],
                ["kill", rng.choice(NO_SIGNALS), pid], ["kill", "9", self.odd_pid()], ["kill", "0", self.odd_pid()],
                ["drop", rng.choice(NO_PRIVILEGES)], self.later(),
            ])
            self.line(" ".join(["P", zone, rng.choice([pid, pid, pid, self.odd_pid()])] + words))
        if rng.random() < 0.5:
            self.process_line()
        return self.data()

    def many_lines(self):
        """About as many lines as an input may have, most of them of one process."""
        rng = self.rng
        if rng.random() < 0.5:
            return super().many_lines()
        self.begin([rng.choice(NAMES)], 1)
        name, session = self.names[0], self.sessions[0]
        self.type_lines(running(name, session))
        filler = rng.choice(["P %s 2 fork x" % name, "P %s 2 true" % name, "S %d kill 0 2" % session])
        self.lines += [self.headed(filler)] * (rng.choice([199999, 200000, 200001]) - len(self.lines))
        return self.data()

    def next(self, traces):
        chance = self.rng.random()
        for bound, make in [
            (0.26, self.alive), (0.34, self.family), (0.39, self.stripped), (0.40, self.nothing_left),
            (0.48, self.up_and_down), (0.62, self.one_call),
        ]:
            if chance < bound:
                return make()
        return super().next(traces)
