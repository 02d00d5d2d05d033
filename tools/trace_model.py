"""A plain, slow model of `zones trace`, `zones script`, `zones purge` and `zones given`, written from their rules, and
not from the program.

run(data) gives (status, standard output, standard error) for a whole input. It shares no code with the
program and is meant for comparing the two; tools/fuzz_trace.py does that, and tools/trace_rows.py,
tools/object_rows.py, tools/request_rows.py and tools/purge_rows.py compare the model with replies and grants that are
known. Lines are read by trace_lines.py and typed_lines.py; what zones have is kept by system_model.py, their daemons
are daemon_model.py's, and what shared pools give to an event is noted by pool_model.py.

`known` are the kinds of lines that are read beside those that always are (trace_lines.KINDS_OF_LINES). Without
`zonecfg` and `edit` no line sets anything of a zone's configuration but its zonepath and its brand: so each zone that a
line makes mounts its root alone, claims nothing and is given no device, and its processes may mount lofs, hsfs, nfs and
smbfs. What such zones don't reach is reached by the rows, which hand a `Config` in, and most of it by request_laws.py.
"""

import dataclasses

import edit_model
import export_model
import list_model
import login_model
from config_model import Config
from daemon_model import Daemon, Request
from edit_model import Edit
from mount_model import Mount
from pool_model import allowed
from store_model import Record
from system_model import Process, System
from trace_lines import (OLD_LINES, PRIVILEGES, Outside, Refused, event_of, granted_event_of, name_fault,
                         spelled)
from typed_lines import typed

MOST_LINES = 200000
MOST_BYTES = 4096

NEEDED = {"fork": "proc_fork", "exec": "proc_exec", "mount": "sys_mount", "umount": "sys_mount"}


@dataclasses.dataclass
class Answer:
    """An event, its subject, the lines of its reply (the first is the head), and its grant."""

    event: tuple
    subject: bytes
    lines: list
    grant: str

    def is_refused(self):
        head = self.lines[0]
        return head.startswith(("err ", "failed ", "stuck ")) or " err " in head

    def reply(self):
        return self.subject + b" " + "\n| ".join(self.lines).encode() + b"\n"

    def granted(self):
        """The event with its grant, as a line states it."""
        return b"@" + self.grant.encode() + b" " + spelled(self.event) + b"\n"


class Host(System):
    """The zones of one system, their daemons, and the sessions that ask them: a session edits a zone, is logged in to
    it, has its console, waits for a ticket, or is idle."""

    def __init__(self, brands=None, store=None, known=OLD_LINES):
        super().__init__(brands, store)
        self.known = known
        self.started = False

    def read(self, line):
        """The event of a line that comes next, or None where it is none."""
        return event_of(line, self.started, self.known)

    def read_granted(self, line):
        """The event of a line that comes next with the grant that the line states, or None where it is none."""
        return granted_event_of(line, self.started, self.known)

    def answer(self, event, choose=allowed):
        """What an event is answered under the grant that is chosen where it asks for one: the one that is due, or one
        that is stated. Where that doesn't fit, Misfit is raised, and no record was stored."""
        self.started = self.started or event[0] != "Y"
        subject = self.subject(event)
        self.grants.begin(choose)
        try:
            lines = self.obey(event)
        except Refused as refused:
            lines = ["err %s" % refused, *refused.shown]
        self.logins = {number: it for number, it in self.logins.items() if it.pid in self.processes}
        return Answer(event, subject, lines, self.grants.grant())

    def subject(self, event):
        """The zone that an event belongs to, `global`, or `*` for all of the system. A session that isn't idle gives
        all its lines to its zone."""
        if event[0] in ("Y", "R"):
            return b"*"
        if event[0] != "S":
            return event[1]
        _, number, text = event
        if not self.is_idle(number):
            return self.zone_of(number)
        what, name, rest = typed(text, self.known)
        if what == "kill" and rest[1] in self.processes:
            return self.processes[rest[1]].zone
        return b"global" if name is None or name_fault(name) else name

    def obey(self, event):
        """Does what an event asks for."""
        if event[0] == "Y":
            self.items.declare(*event[1:])
            return ["ok"]
        if event[0] == "R":
            self.restart()
            return ["ok"]
        if event[0] == "D":
            return [self.turn(event[1])]
        if event[0] == "P":
            return self.call(*event[1:])
        _, number, text = event
        if number in self.tickets:
            raise Refused("91 Waiting %d" % self.tickets[number][1])
        if number in self.edits:
            return self.edited(number, text)
        if number in self.logins:
            return login_model.logged_in(self, number, text)
        if not self.is_idle(number):
            return login_model.at_console(self, self.zone_of(number), text)
        return self.line(number, *typed(text, self.known))

    def restart(self):
        """Begins anew with what is stored and what is declared. All sessions are idle, and nothing is asked of a
        daemon; tickets, ids and processes are numbered from their first number on."""
        super().restart()
        self.desks, self.tickets, self.edits, self.logins = {}, {}, {}, {}

    # Sessions.

    def zone_of(self, number):
        """The zone that a session edits, is logged in to, has the console of or waits for, or None."""
        if number in self.tickets:
            return self.tickets[number][0]
        if number in self.edits:
            return self.edits[number].name
        if number in self.logins:
            return self.logins[number].zone
        return next((zone for zone, console in self.consoles.items() if console.holder == number), None)

    def is_idle(self, number):
        return self.zone_of(number) is None

    def line(self, number, what, name, rest):
        """Obeys the line of a session that is idle: first its form, then the names in it, and then what it asks for."""
        if what == "nothing":
            return ["ok"]
        if what == "unknown":
            raise Refused("93 Usage")
        if what == "kill":
            self.kill(None, *rest)
            return ["ok"]
        if what in ("list", "help") and name is None:
            return ["ok"] + (list_model.zones(self, rest) if what == "list" else [list_model.HELP])
        if name_fault(name):
            raise Refused(name_fault(name))
        if what == "create":
            return [self.create(name, *rest)]
        if what == "zonecfg":
            return ["ok"] + edit_model.run(Edit(name, self), rest, is_whole=True)[0]
        if what == "edit":
            self.edits[number] = Edit(name, self)
            return ["ok"]
        if what == "help":
            return ["ok", list_model.HELP]
        if what == "request" and rest[0] == "clone" and name_fault(rest[1]):
            raise Refused(name_fault(rest[1]))
        if what == "unforced":
            raise Refused("34 NeedForce")
        return self.line_of_zone(number, what, name, rest)

    def line_of_zone(self, number, what, name, rest):
        """Obeys a line that is about a zone that has to be stored."""
        if self.state(name) is None:
            raise Refused("90 NoZone")
        if what == "request":
            return [self.request(number, name, *rest)]
        if what == "list":
            return ["ok"] + list_model.zone(self, name, rest)
        if what == "zlogin":
            return login_model.log_in(self, number, name, rest)
        if what == "call":
            return login_model.run_call(self, name, rest)
        if what == "console":
            return login_model.take_console(self, number, name, rest)
        if what == "verify":
            self.verify(self.config(name).values)
            self.config(name).privileges()
        else:
            self.mounts[name].set_held(rest, what == "fhold")
        return ["ok"]

    def edited(self, number, line):
        """Obeys the line of a session that edits a zone. It is idle again once it left."""
        shown, last = edit_model.run(self.edits[number], line)
        if last in ("delete", "exit"):
            del self.edits[number]
        return ["ok"] + shown

    def create(self, name, path, brand):
        """Makes a zone. What is typed is looked at from left to right, and then the configuration as it is left."""
        if self.state(name) is not None:
            raise Refused("34 NeedForce")
        if path == "/" or not export_model.is_path(path) or not export_model.is_short(brand):
            raise Refused("23 BadValue")
        return self.commit(name, Config.of(zonepath=path, brand=brand))

    def verify(self, values):
        """Looks for a flaw in a configuration."""
        flaw = Config(values).flaw(list(self.brands))
        if flaw is not None:
            raise Refused(flaw)

    def commit(self, name, config, seen=None):
        """Stores a zone's configuration, of which `seen` was the revision that it was edited from."""
        self.verify(config.values)
        old = self.store.records.get(name)
        now = old.revision if old else 0
        if seen not in (None, now):
            raise Refused("94 Changed %d %d" % (seen, now))
        if old is None:
            self.change(name, Record("configured", config), commit=True)
        elif old.config != config:
            state, was = self.state(name), old.config
            if state != "configured" and (was.path, was.brand) != (config.path, config.brand):
                raise Refused("81 WrongState %s" % state)
            self.change(name, dataclasses.replace(old, config=config), commit=True)
        return "ok"

    def commit_edited(self, name, values, seen):
        """Stores what an editor has, which it keeps for itself."""
        self.commit(name, Config(export_model.copy(values)), seen)

    def delete(self, name, seen):
        """Removes a zone that is configured alone, and of whose daemon nothing is asked."""
        old = self.store.records.get(name)
        if old is None:
            raise Refused("90 NoZone")
        if old.revision != seen:
            raise Refused("94 Changed %d %d" % (seen, old.revision))
        if self.state(name) != "configured":
            raise Refused("81 WrongState %s" % self.state(name))
        if name in self.desks and self.desks[name].is_busy():
            raise Refused("97 DeskInUse")
        self.change(name, None)

    def request(self, number, name, kind, detail):
        """Gives a request to the zone's daemon, and the session its ticket."""
        detail = detail.decode() if isinstance(detail, bytes) else detail
        ticket = self.desks.setdefault(name, Daemon()).put(Request(kind, detail))
        self.tickets[number] = (name, ticket)
        return "ticket %d" % ticket

    # Daemons.

    def turn(self, name):
        """One turn of a zone's daemon. The session that waits for what is finished waits no longer."""
        said = self.desks.get(name, Daemon()).turn(name, self)
        if said.startswith("finished "):
            held = (name, int(said.split(" ")[1]))
            self.tickets = {number: it for number, it in self.tickets.items() if it != held}
        return said

    # Processes.

    def call(self, zone, pid, words):
        """Makes the call of a process."""
        if pid not in self.processes or self.processes[pid].zone != zone:
            raise Refused("98 NoProcess")
        process = self.processes[pid]
        call, rest = words[0], words[1:]
        if call in NEEDED and NEEDED[call] not in process.privileges:
            raise Refused("EPERM")
        shown = self.shown(zone, process, call, rest)
        if shown is not None:
            return ["ok"] + shown
        if call == "fork":
            return ["ok", "child %d" % self.enter(Process(zone, pid, rest[0], process.privileges))]
        if call == "exec":
            process.name = rest[0]
        elif call == "exit":
            self.remove(pid)
        elif call == "kill":
            self.kill(zone, rest[0], int(rest[1]))
        elif call == "drop":
            process.privileges -= {rest[0]}
        elif call == "mount":
            self.mount(zone, *rest)
        elif call == "umount":
            self.mounts[zone].unmount_by_process(rest[0])
        elif call == "cons":
            self.consoles[zone].write(rest[0].encode())
        return ["ok"]

    def shown(self, zone, process, call, rest):
        """The lines of a call that changes nothing, or None where it is another one."""
        if call == "ps":
            rows = [(number, self.processes[number]) for number in self.pids(zone)]
            return ["%d %d %s" % (number, row.parent, row.name) for number, row in rows]
        if call == "privs":
            return [",".join(name for name in PRIVILEGES if name in process.privileges)]
        if call in ("zonename", "bootargs"):
            return [zone.decode() if call == "zonename" else self.bootargs[zone]]
        if call in ("read", "write"):
            return [self.mounts[zone].place(rest[0], call == "write")]
        if call == "mounts":
            return self.mounts[zone].rows()
        if call == "links":
            return ["%s %s" % it for kind in ("link", "address") for it in self.items.held(zone, kind)]
        if call == "datasets":
            return [name for _, name in self.items.held(zone, "dataset")]
        return self.devices[zone] if call == "devices" else None

    def mount(self, zone, fstype, special, directory, *options):
        """Mounts what a process asks for. What lofs shows is where the special lies now."""
        if not self.limits[zone].may_mount(fstype):
            raise Refused("EPERM")
        if fstype == "lofs":
            special = self.mounts[zone].place(special)
        self.mounts[zone].mount(directory, Mount(fstype, special, "ro" in options, by_process=True))


# The whole run.

def read(host, line, command):
    """The event of a line and what tells its grant, or None where the line is none."""
    if command != "given":
        event = host.read(line)
        return None if event is None else (event, allowed)
    found = host.read_granted(line)
    return None if found is None else (found[0], lambda need: found[1])


def answers(host, event, command, choose=allowed):
    """What an event is answered. In a script a daemon that is asked takes turns, until it has answered or is stuck."""
    said = [host.answer(event, choose)]
    if command == "script" and said[0].lines[0].startswith("ticket "):
        _, number, _ = event
        while number in host.tickets and not said[-1].lines[0].startswith("stuck "):
            said.append(host.answer(("D", said[0].subject)))
    return said


def written(answer, command):
    """What a command writes of an event: its reply, or where the entries of one zone are purged, its line with its
    grant where the event is of that zone or of all of the system."""
    if not command.startswith("purge "):
        return answer.reply()
    return answer.granted() if answer.subject in (b"*", command.split(" ")[1].encode()) else b""


def run(data, store=None, known=OLD_LINES, command="trace"):
    """The status and both texts of a command over an input, on a store that it changes or, without one, on an empty
    one. The command is `trace`, `script`, `purge ZONE` or `given`."""
    host = Host(store=store, known=known)
    out, first = [], None
    for number, line in enumerate(export_model.lines_of(data), 1):
        if number > MOST_LINES or len(line) > MOST_BYTES:
            return 8, b"".join(out), b"limit at line %d\n" % number
        try:
            found = read(host, line, command)
            said = [] if found is None else answers(host, found[0], command, found[1])
        except Outside as fault:
            return 3, b"".join(out), ("line %d: %s\n" % (number, fault)).encode()
        for answer in said:
            out.append(written(answer, command))
            if answer.is_refused() and first is None:
                first = number
    if first is not None:
        return 1, b"".join(out), b"first refused line: %d\n" % first
    return 0, b"".join(out), b""
