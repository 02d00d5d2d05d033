"""Random traces and scripts for tools/fuzz_trace.py in which sessions log in to zones, run calls there and have their
consoles, while processes write to these, are ended, and zones come up and go down.

Which of these lines a trace has is told by the kinds that are known.
"""

from login_lines import NO_CALLS, NO_OPTIONS, LoginLines
from process_maker import PROCESS_NAMES
from request_maker import ARGUMENTS, NO_ARGUMENTS
from system_model import PIDS
from trace_maker import NAMES, NO_NAMES
from trace_model import MOST_BYTES
from zone_lines import done, made


class LoginMaker(LoginLines):
    """Makes traces with logins and consoles."""

    def __init__(self, rng, known, command="trace", share=0.7):
        self.command = command
        # how many of the traces are of logins and consoles
        self.of_logins = share
        super().__init__(rng, known)

    # Traces.

    def begin_running(self, count):
        """Zones of which most run, and some sessions."""
        rng = self.rng
        self.begin(rng.sample(NAMES, count), rng.choice([2, 3, 4, 6]))
        for name in self.names:
            self.type_lines(made(name, self.first()))
            self.bring(name, rng.choice(["running"] * 8 + ["installed", "ready", "incomplete"]))

    def logins(self):
        """Running zones, sessions that log in and have consoles, and what else there is."""
        self.begin_running(self.rng.choice([1, 1, 2, 3]))
        for _ in range(self.rng.choice([5, 20, 60])):
            self.login_move()
        return self.data()

    def written(self):
        """One console to which much is written, and two or three sessions that want it."""
        rng = self.rng
        self.begin(rng.sample(NAMES, 1), 3)
        name = self.names[0]
        self.type_lines(made(name, self.first()))
        self.bring(name, "running")
        for _ in range(rng.choice([5, 15, 40])):
            chance = rng.random()
            if chance < 0.35:
                self.write(name)
            elif chance < 0.5:
                self.take_console(name)
            elif chance < 0.9:
                self.work_line()
            else:
                self.any_call(name)
        return self.data()

    def comes_and_goes(self):
        """Zones that go up, down and out of installed while sessions are in them."""
        rng = self.rng
        self.begin_running(rng.choice([1, 2]))
        for _ in range(rng.choice([2, 4, 10])):
            name = rng.choice(self.names)
            for _ in range(rng.choice([1, 2, 4])):
                self.any_login()
            if self.has("console") and rng.random() < 0.6:
                self.left_behind(name)
            self.ask(name, self.leaving(name))
            for _ in range(rng.choice([4, 12, 25])):
                self.works(name, 1)
                if rng.random() < 0.3:
                    self.work_line()
                if rng.random() < 0.03:
                    self.hold(name)
            if rng.random() < 0.7:
                self.finish(name)
            if "restart" in self.known and rng.random() < 0.05:
                self.line("R")
        return self.data()

    def leaving(self, name):
        """A request that takes a zone away from where it is."""
        state = self.host.state(name.encode())
        return self.rng.choice({
            "running": ["halt", "halt", "reboot"], "installed": ["boot", "boot", "mark", "detach", "uninstall", "move"],
            "ready": ["boot", "halt"], "configured": ["attach", "install"], "incomplete": ["uninstall"],
        }.get(state, ["halt"]))

    def called(self):
        """Calls alone in one or two zones, of which one may have many mounts or long places, and what they leave."""
        rng = self.rng
        self.begin_running(rng.choice([1, 1, 2]))
        name = self.names[0]
        first = self.host.firsts.get(name.encode())
        if first is not None and rng.random() < 0.1:
            for number in range(rng.choice([126, 127])):
                self.line("P %s %d mount nfs x /m%d" % (name, first, number))
        for _ in range(rng.choice([5, 20, 60])):
            zone = rng.choice(self.names)
            chance = rng.random()
            if chance < 0.55:
                self.run_call(zone)
            elif chance < 0.7:
                self.process_line(zone, rng.choice([["ps"], ["mounts"], ["fork", "x"], ["exit"]]))
            elif chance < 0.8 and self.has("console"):
                self.take_console(zone)
            elif chance < 0.9:
                self.any_login()
            else:
                rng.choice([self.work_line, self.end_login, self.hold, self.login_move])()
        return self.data()

    def bounded(self):
        """A zone that may have few processes, and logins that are one too many."""
        rng = self.rng
        if not self.has("zonecfg", "zlogin"):
            return self.logins()
        self.begin(rng.sample(NAMES, 1), 4)
        name = self.names[0]
        self.line("S %d zonecfg -z %s create; set zonepath=/z; set max-processes=%d" % (
            self.sessions[0], name, rng.choice([1, 2, 3, 4])))
        self.bring(name, "running")
        for _ in range(rng.choice([6, 20])):
            chance = rng.random()
            if chance < 0.5:
                self.any_login()
            elif chance < 0.7:
                self.process_line(name, rng.choice([["fork", rng.choice(PROCESS_NAMES)], ["ps"], ["exit"]]))
            else:
                self.work_line() if chance < 0.9 else self.end_login()
        return self.data()

    def emptied(self):
        """A zone that is made anew, or marked, after output was left, and its console then."""
        rng = self.rng
        if not self.has("console"):
            return self.logins()
        self.begin(rng.sample(NAMES, rng.choice([1, 2])), 3)
        for name in self.names:
            self.type_lines(made(name, self.first()))
            self.bring(name, "running")
        for _ in range(rng.choice([1, 3])):
            name = rng.choice(self.names)
            self.left_behind(name)
            ways = ["halt", rng.choice(["mark", "uninstall", "detach", "move"]), "uninstall", "attach", "boot"]
            for kind in ways[rng.choice([0, 0, 0, 1]):]:
                self.ask(name, kind)
                self.finish(name)
                if rng.random() < 0.25:
                    self.take_console(name)
                if rng.random() < 0.25:
                    self.work_line()
            self.take_console(name)
        return self.data()

    def booted(self):
        """What zones were booted with, and what they are booted with next."""
        rng = self.rng
        if not self.has("zlogin"):
            return self.written()
        self.begin(rng.sample(NAMES, 1), 2)
        name, number = self.names[0], self.sessions[0]
        self.type_lines(made(name, number) + done(name, "attach", number))
        for _ in range(rng.choice([2, 5])):
            if rng.random() < 0.6:
                self.sets_bootargs(name)
            arguments = rng.choice(ARGUMENTS * 6 + NO_ARGUMENTS)
            state = self.host.state(name.encode())
            asked = "reboot" if state == "running" else "boot"
            self.type("zoneadm -z %s %s%s" % (name, asked, rng.choice(["", " --", " -- " + arguments])))
            for _ in range(30):
                self.works(name, 1)
                if rng.random() < 0.05:
                    self.process_line(name, ["bootargs"])
                if rng.random() < 0.03:
                    self.sets_bootargs(name)
            if self.has("enter"):
                self.line("S %d zlogin %s bootargs" % (self.first(), name))
            else:
                self.process_line(name, ["bootargs"])
            if rng.random() < 0.3:
                self.login_move()
        return self.data()

    def odd_logins(self):
        """Lines of zlogin(1) that may be wrong in any of the known ways, where a zone is in some state."""
        rng = self.rng
        self.begin(rng.sample(NAMES, 2), 2)
        self.type_lines(made(self.names[0], self.first()))
        self.bring(self.names[0], rng.choice(["configured", "incomplete", "installed", "ready", "running", "running"]))
        for _ in range(rng.choice([1, 4, 12, 30])):
            name = rng.choice(self.names[:1] * 5 + self.names + [rng.choice(NO_NAMES)])
            words = ["zlogin"] + rng.choice([self.options(False), self.options(True), rng.choice(NO_OPTIONS)]).split()
            words += [name] * (rng.random() < 0.95)
            if rng.random() < 0.4:
                words += rng.choice([self.call(name), self.spoilt(self.call(name)), rng.choice(NO_CALLS).split(" ")])
            if rng.random() < 0.15:
                words = self.spoilt(words)
            text = "".join(it if " " <= it <= "~" else "~" for it in " ".join(words))
            self.line(("S %d %s" % (self.first(), self.spaced(text)))[:MOST_BYTES])
        return self.data()

    def no_numbers_left(self):
        """Logins and calls where all numbers of processes are in use, and where one is free."""
        rng = self.rng
        self.begin(rng.sample(NAMES[:4], 1), 3)
        name = self.names[0]
        self.type_lines(made(name, self.sessions[0]))
        self.bring(name, "running")
        if not self.has("zlogin") or name.encode() not in self.host.firsts:
            return self.logins()
        first = self.host.firsts[name.encode()]
        self.log_in(name)
        for _ in range(len(PIDS) - len(self.host.processes) - rng.choice([0, 1, 2])):
            self.line("P %s %d fork x" % (name, first))
        for _ in range(rng.choice([5, 15])):
            rng.choice([self.log_in, self.run_call] if self.has("enter") else [self.log_in])(name)
            if rng.random() < 0.4:
                self.line("P %s %d exit" % (name, rng.randrange(9, 29999)))
            if self.host.logins and rng.random() < 0.5:
                self.line("S %d fork y" % list(self.host.logins)[0])
            if self.host.logins and rng.random() < 0.5:
                self.given_again(name, first)
        return self.data()

    def given_again(self, name, first):
        """The number of a login's process goes to another one, and the session types on."""
        number = self.rng.choice(list(self.host.logins))
        self.line("P %s %d kill 9 %d" % (name, first, self.host.logins[number].pid))
        if self.has("enter") and self.rng.random() < 0.5:
            self.run_call(name)
        else:
            self.line("P %s %d fork z" % (name, first))
        self.line("S %d ps" % number)

    def next(self, traces):
        rng = self.rng
        if rng.random() >= self.of_logins:
            return super().next(traces)
        chance = rng.random()
        for bound, make in [
            (0.28, self.logins), (0.40, self.written if self.has("console") else self.logins),
            (0.50 if self.has("enter") else 0, self.called),
            (0.57, self.comes_and_goes), (0.63, self.bounded), (0.69, self.booted), (0.74, self.emptied),
            (0.85, self.odd_logins), (0.8505, self.no_numbers_left),
        ]:
            if chance < bound or not traces:
                return make()
        return self.mutated(traces)
