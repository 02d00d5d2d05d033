"""A plain model of zoneadmd(8): the requests that wait for one zone's daemon, and what each of its turns does.

Daemon.turn(name, system) takes one turn, and answers it as it is printed. What it changes are the tables of
system_model.py; what the steps of a request are is told by plan_model.py.
"""

import dataclasses

from mount_model import Mount
from plan_model import plan
from system_model import Limits
from trace_lines import LAST_NUMBER, Refused

MOST_WAITING = 8
MOST_TEXT = 32768


@dataclasses.dataclass
class Request:
    """What is asked of a daemon: install, clone and so on, with what is cloned, where the zone is moved, or the
    arguments of a boot."""

    kind: str
    detail: str = None


class Daemon:
    """The daemon of one zone. `steps` are those of the request under way that are to come, `done` those since it last
    began, as they were printed, and `undo` those of them that are still to be undone."""

    def __init__(self):
        self.last = 0
        self.waiting = []
        self.ticket = self.request = self.config = None
        self.is_halting = False
        self.steps, self.done, self.undo = [], [], []
        self.outcome = "ok"

    def put(self, request):
        """Takes one more request, and answers its ticket."""
        if len(self.waiting) == MOST_WAITING or self.last == LAST_NUMBER:
            raise Refused("92 DeskFull")
        self.last += 1
        self.waiting.append((self.last, request))
        return self.last

    def is_busy(self):
        return bool(self.waiting) or self.ticket is not None

    def turn(self, name, system):
        """One turn."""
        if self.ticket is None:
            if not self.waiting:
                return "idle"
            self.ticket, self.request = self.waiting.pop(0)
            self.is_halting = self.request.kind == "reboot"
            return self.begin(name, system, self.request.kind)
        if self.undo:
            return self.undo_one(name, system)
        self.leave_out(name, system)
        if self.steps:
            return self.go_on(name, system)
        if self.is_halting and self.outcome == "ok":
            self.is_halting = False
            return self.begin(name, system, "boot")
        return self.finish()

    def begin(self, name, system, kind):
        """Begins a request, or the boot that a reboot ends with."""
        self.config, self.done, self.steps, self.outcome = system.config(name), [], [], "ok"
        try:
            self.steps = plan(kind, system.state(name), self.config, list(system.brands), self.request.detail)
        except Refused as refused:
            self.outcome = "err %s" % refused
            return self.finish()
        return "began %d %s" % (self.ticket, kind)

    def finish(self):
        ticket, self.ticket = self.ticket, None
        return "finished %d %s" % (ticket, self.outcome)

    def leave_out(self, name, system):
        """Drops the steps that unmount and release, where there is no more of the kind."""
        left = {"unmount": system.mounts[name].by_directory, "release": system.items.held(name)}
        while self.steps and self.steps[0] in left and not left[self.steps[0]]:
            self.steps.pop(0)

    def go_on(self, name, system):
        """Does the next step of the request under way. Where one fails before the zone is ready, what was done is
        undone after it, the latest first."""
        step = self.steps[0]
        if step == "unmount" and system.mounts[name].is_held(system.mounts[name].last()):
            return "stuck unmount"
        try:
            said = self.step(name, system, step)
        except Refused as refused:
            if "state ready" in self.steps:
                self.undo = [it for it in reversed(self.done) if not it.startswith("hook ")]
            self.steps, self.outcome = [], "err %s" % refused
            return "failed %d: %s" % (len(self.done) + 1, refused)
        if step not in ("unmount", "release"):
            self.steps.pop(0)
        self.done.append(said)
        return "step %s" % said

    def step(self, name, system, step):
        """Does one step of a request, and answers it as it is printed."""
        kind, _, rest = step.partition(" ")
        if kind in ("link", "address", "dataset"):
            system.claim(name, kind, rest)
        elif kind == "state":
            system.go_to(name, rest)
        elif kind not in ("copy", "erase"):
            shown = getattr(self, "step_" + kind)(name, system, rest)
            return step if shown is None else "%s %s" % (kind, shown)
        return step

    # The steps, each with what it shows beside its name and what stands in the plan.

    def step_hook(self, name, system, change):
        """Asks the brand's hook. A brand that isn't there is asked nothing."""
        code = system.brands.get(self.config.brand, {}).get(change)
        if code is not None:
            raise Refused("83 HookRefused %d" % code)

    def step_record(self, name, system, state):
        """Stores another state of the zone, or another path, of what is stored now. Once it isn't installed any more
        nobody has its console, and its output is gone."""
        record = system.store.records[name]
        if state != "moved":
            system.change(name, dataclasses.replace(record, state=state))
            if record.state == "installed":
                system.consoles.pop(name, None)
            return
        config = record.config.with_values(zonepath=self.request.detail)
        if len(config.text()) > MOST_TEXT:
            raise Refused("29 TooLarge %d" % len(config.text()))
        system.change(name, dataclasses.replace(record, config=config), commit=True)

    def step_source(self, name, system, source):
        system.ask_source(source.encode())

    def step_zid(self, name, system, _):
        return system.give_zid(name)

    def step_limits(self, name, system, _):
        config = self.config
        system.limits[name] = Limits(config.privileges(), config.most(), config.fs_allowed)

    def step_devices(self, name, system, _):
        return system.give_devices(name, self.config.patterns())

    def step_root(self, name, system, _):
        system.mounts[name].mount("/", Mount("root", self.config.path + "/root"))

    def step_mount(self, name, system, directory):
        found = next(it for it in self.config.filesystems() if it["dir"] == directory)
        system.mounts[name].mount(directory, Mount(found["type"], found["special"], "ro" in found["options"]))

    def step_init(self, name, system, _):
        pid = system.enter_first(name)
        system.bootargs[name] = self.config.bootargs if self.request.detail is None else self.request.detail
        return pid

    def step_kill(self, name, system, _):
        return system.kill_all(name)

    def step_unmount(self, name, system, _):
        directory = system.mounts[name].last()
        system.mounts[name].remove(directory)
        return directory

    def step_release(self, name, system, _):
        return system.items.release_last(name)

    def step_clear(self, name, system, _):
        del system.limits[name], system.devices[name]
        system.bootargs.pop(name, None)

    def step_zidback(self, name, system, _):
        return system.zids.pop(name)

    def undo_one(self, name, system):
        """Undoes the latest step that was done; a mount that is held stays until it is released."""
        kind, _, rest = self.undo[0].partition(" ")
        directory = "/" if kind == "root" else rest
        if kind in ("root", "mount"):
            if system.mounts[name].is_held(directory):
                return "stuck unmount"
            system.mounts[name].remove(directory)
        elif kind in ("link", "address", "dataset"):
            system.items.release_last(name)
        else:
            del {"zid": system.zids, "limits": system.limits, "devices": system.devices}[kind][name]
        return "undone %s" % self.undo.pop(0)
