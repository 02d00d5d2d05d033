"""Random lines for login_maker.py: of zlogin(1), of sessions that are logged in or have a console, and of those that
write to a console, end a login or leave what was written.
"""

from console_model import MOST_OUTPUT
from process_maker import PRIVILEGES, PROCESS_NAMES, SIGNALS
from request_maker import ARGUMENTS
from system_model import PIDS, next_number
from trace_model import MOST_BYTES
from zonecfg_maker import ZonecfgMaker

OPTIONS = ["-E"] * 4 + ["-e x", "-e ~", "-e .", "-e -", "-e e", "-e #", "-e \"", "-e C"]
NO_OPTIONS = [
    "-e", "-e xy", "-e -E", "-e -C", "-e -e", "-E -E", "-E -e x", "-e x -e y", "-C -C", "-x", "-ex", "-e~", "-CE", "-z",
    "-l", "-C -E -e x", "-E -C -E", "-c", "--", "-e x -C -e x", "-e -C -C", "-e -e -e",
]
# Texts of any session that isn't idle, beside calls and what begins with its escape byte.
TYPED = [
    "", "", " ", "  ", "exit", "exit ", " exit", "nonsense", "ps ", " ps", "Ps", "fork", "fork a b", "kill 1 2",
    "kill 9", "zlogin web", "zoneadm list", "exit -F", "#", "~", ".", "~~.", "a~.", "cons", "cons ", "bootargs ",
    "bootargs x", "zonecfg -z web", "mount lofs /a /b rw", "kill 9  2", "drop sys", "true false",
]
NO_CALLS = [
    "nonsense", "ps x", "fork", "kill 1 2", "kill  9 2", "cons", "ps ", "Ps", "zlogin", "fork a b", "-z web", "-E",
]
SIZES = [0, 1, 2, 40, 500, 1400, 2047, 3000, 4000, 4079, 4080]
HEADS = [
    "S 1 zlogin ", "S 1 zlogin -C ", "S 1 zlogin -e x ", "S 1 zlogin web cons ", "S 1 zlogin web ", "P web 2 cons ",
    "S 2 ~.",
]


class LoginLines(ZonecfgMaker):
    """Makes lines of logins and consoles, most of which come about, as far as their kinds are known."""

    heads = ZonecfgMaker.heads + HEADS

    # Sessions.

    def first(self):
        """A session that is idle, where there is one; one that is logged in or has a console leaves for it."""
        host = self.host
        for number in self.sessions if not any(host.is_idle(it) for it in self.sessions) else []:
            if number in host.logins:
                self.line("S %d exit" % number)
                return number
            if self.escape(number) is not None:
                self.line("S %d %s." % (number, self.escape(number)))
                return number
        return super().first()

    def escape(self, number):
        """The escape byte of a session, or None."""
        host = self.host
        held = host.logins.get(number) or next((it for it in host.consoles.values() if it.holder == number), None)
        return held.escape.decode() if held is not None and held.escape is not None else None

    def at_work(self):
        """The sessions that are logged in or have a console."""
        holders = [it.holder for it in self.host.consoles.values() if it.holder is not None]
        return list(self.host.logins) + holders

    def running(self):
        """A zone that runs, where there is one."""
        names = [it for it in self.names if self.host.state(it.encode()) == "running"]
        return self.rng.choice(names) if names and self.rng.random() < 0.93 else self.name()

    # Words.

    def call(self, zone):
        rng = self.rng
        if rng.random() < 0.12 and self.has("console"):
            return ["cons", self.text(len("P %s 29999 cons " % zone))]
        if rng.random() < 0.1 and self.has("zlogin"):
            return rng.choice([["bootargs"], ["false"]])
        return super().call(zone)

    def text(self, head):
        """A text that a line goes on with after so many bytes: a short one, or one that fills a console, or nearly
        so."""
        rng, held = self.rng, [len(it.output) for it in self.host.consoles.values()]
        size = rng.choice([0, 3, 3, 3, 9, 30] if rng.random() < 0.7 else SIZES)
        if held and rng.random() < 0.3:
            size = MOST_OUTPUT - rng.choice(held) - 1 + rng.choice([-1, 0, 1])
        size = max(0, min(size, MOST_BYTES - head))
        if size < 40 and rng.random() < 0.5:
            return "".join(rng.choice("ab ~.=x\\|#\"") for _ in range(size))
        return rng.choice("abcdefgh ") * size

    def options(self, console):
        """What stands before the name in a line of zlogin(1)."""
        rng = self.rng
        if rng.random() < 0.04:
            return rng.choice(NO_OPTIONS)
        words = ["-C"] if console else []
        if rng.random() < 0.4:
            words.insert(rng.choice([0, 1]), rng.choice(OPTIONS))
        return " ".join(words)

    # Lines of idle sessions.

    def log_in(self, name=None):
        words = ["zlogin", self.options(False), name or self.running()]
        self.type(" ".join(it for it in words if it))

    def next_pid(self):
        """The number of the process that comes next, or the first number where none is free."""
        host = self.host
        is_full = len(host.processes) == len(PIDS)
        return PIDS.start if is_full else next_number(PIDS, host.last_pid, host.processes, "pids")

    def call_alone(self, zone):
        """The words of a call that a process of its own makes: any one, or one that has to do with that process."""
        rng = self.rng
        if rng.random() < 0.6:
            return self.call(zone)
        return rng.choice([
            ["kill", rng.choice(SIGNALS), str(self.next_pid() + rng.choice([0, 0, 0, -1, 1]))],
            ["fork", rng.choice(PROCESS_NAMES)], ["exec", rng.choice(PROCESS_NAMES)], ["drop", rng.choice(PRIVILEGES)],
            ["exit"], ["ps"], ["privs"], ["true"], ["false"],
        ])

    def run_call(self, name=None):
        """A call alone, for the most part one that is read."""
        rng, zone = self.rng, name or self.running()
        words = self.call_alone(zone) if rng.random() < 0.93 else self.spoilt(self.call_alone(zone))
        text = rng.choice(NO_CALLS) if rng.random() < 0.04 else " ".join(words)
        space = rng.choice(["", "", "", "", "  "])
        self.line(("S %d zlogin %s %s%s" % (self.first(), zone, space, text))[:MOST_BYTES])

    def take_console(self, name=None):
        rng = self.rng
        rest = " " + rng.choice(["ps", "-E", "x"]) if rng.random() < 0.02 else ""
        self.type("zlogin %s %s%s" % (self.options(True), name or self.rng.choice(self.names), rest))

    # Lines of sessions that aren't idle.

    def work_line(self):
        """A line of a session that is logged in or has a console; or one that asks for that."""
        rng, numbers = self.rng, self.at_work()
        if not numbers:
            return self.any_login()
        number = rng.choice(numbers)
        login, escape = self.host.logins.get(number), self.escape(number) or "~"
        chance = rng.random()
        if chance < 0.05:
            text = rng.choice([escape + ".", escape + ".", escape + ".x", " " + escape + ".", escape, "~."])
        elif chance < 0.25:
            text = rng.choice(TYPED)
        elif login is None:
            text = self.text(len("S 64 "))
        elif chance < 0.27:
            text = rng.choice(["kill 9 %d", "kill 0 %d", "kill 15 %d"]) % login.pid
        else:
            text = " ".join(self.call(login.zone.decode()))
        return self.line(("S %d %s" % (number, text))[:MOST_BYTES])

    def any_login(self):
        """A login, a call alone or a console, as far as such lines are known."""
        kinds = [self.log_in, self.log_in] if self.has("zlogin") else []
        kinds += [self.run_call] if self.has("enter") else []
        kinds += [self.take_console] if self.has("console") else []
        self.rng.choice(kinds)()

    # Lines of others.

    def any_call(self, name=None):
        """A call that a process of its own makes, or one of the zone's, where no other lines are known."""
        self.run_call(name) if self.has("enter") else self.process_line(name)

    def write(self, zone=None):
        """A process that writes to its console."""
        zone = zone or self.zone()
        head = "P %s %s cons " % (zone, self.pid(zone))
        self.line(head + self.text(len(head)))

    def left_behind(self, name):
        """Output that is there as its session leaves, or as nobody has the console; and who takes it then."""
        rng, console = self.rng, self.host.consoles.get(name.encode())
        if self.host.pids(name.encode()):
            self.write(name)
        if console is not None and console.holder is not None and console.escape is not None and rng.random() < 0.7:
            self.line("S %d %s." % (console.holder, console.escape.decode()))
        if rng.random() < 0.7:
            self.take_console(name)

    def end_login(self):
        """Something that ends the process of a login, or only renames it."""
        rng, logins = self.rng, list(self.host.logins.values())
        if not logins:
            return self.any_login()
        login = rng.choice(logins)
        zone, pid = login.zone.decode(), login.pid
        ends = [
            "S %d kill 9 %d" % (self.first(), pid), "S %d kill 0 %d" % (self.first(), pid),
            "P %s %d exit" % (zone, pid), "P %s %d exec sh" % (zone, pid),
            "P %s %s kill 15 %d" % (zone, self.some_pid(zone), pid),
        ]
        ends += ["S %d zlogin %s kill 9 %d" % (self.first(), zone, pid)] if self.has("enter") else []
        return self.line(rng.choice(ends))

    def sets_bootargs(self, name):
        """Sets what a zone is booted with where a boot has no arguments of its own, as far as such lines are known."""
        if self.has("zonecfg"):
            arguments = self.rng.choice(ARGUMENTS + [""])
            self.line("S %d zonecfg -z %s set bootargs=\"%s\"" % (self.first(), name, arguments))

    def known_line(self):
        """A line of one of the kinds that are known."""
        rng = self.rng
        if not self.known - {"zlogin", "console", "enter"} or rng.random() < 0.5:
            return rng.choice([self.any_login, self.work_line])()
        return super().known_line()

    def login_move(self):
        """A move of a trace of logins and consoles."""
        chance = self.rng.random()
        if chance < 0.18:
            self.any_login()
        elif chance < 0.62:
            self.work_line()
        elif chance < 0.67:
            self.write() if self.has("console") else self.any_call()
        elif chance < 0.70:
            self.left_behind(self.rng.choice(self.names)) if self.has("console") else self.any_call()
        elif chance < 0.74:
            self.end_login() if self.has("zlogin") else self.write()
        elif chance < 0.82:
            self.process_line()
        elif chance < 0.88:
            self.works(self.busy(), self.rng.choice([1, 3, 12]))
        elif chance < 0.91:
            self.ask(self.rng.choice(self.names))
        elif chance < 0.95:
            self.known_line()
        else:
            self.move()
