"""A plain model of zlogin(1): how sessions log in to a zone, run a call in it or take its console, and the lines that
they type there.

A `host` is the one of trace_model.py. Its logins and consoles are changed here; processes, their calls and their
numbers are its own. Each answer is the lines of a reply, of which the first is the head.
"""

import dataclasses

from system_model import Process
from trace_lines import Outside, Refused, Words, call_of


@dataclasses.dataclass
class Login:
    """A session that is logged in: the zone, its process there, and the escape byte, or None."""

    zone: bytes
    pid: int
    escape: bytes


def is_left(escape, line):
    """Whether a line begins with the escape byte and a dot."""
    return escape is not None and line.startswith(escape + b".")


# Lines of an idle session.

def enter(host, zone, name):
    """Enters a process of the session's own into a zone that runs, and answers its number."""
    if host.state(zone) != "running":
        raise Refused("95 NotRunning %s" % host.state(zone))
    return host.enter(Process(zone, 0, name, host.limits[zone].privileges))


def log_in(host, number, zone, escape):
    host.logins[number] = Login(zone, enter(host, zone, "login"), escape)
    return ["ok"]


def run_call(host, zone, words):
    """Lets a process of its own, which has the call's name, make one call, and removes it, unless the call did. What
    the call did to others stays, and so do the mounts that it made. The line has one number, and the process has that:
    so a fork, for which the process has the privilege, gets none."""
    pid = enter(host, zone, words[0])
    said = forked_alone(host.processes[pid]) if words[0] == "fork" else status(host, zone, pid, words)
    if pid in host.processes:
        host.remove(pid)
    return said


def forked_alone(process):
    return ["status 1", "EAGAIN" if "proc_fork" in process.privileges else "EPERM"]


def take_console(host, number, zone, escape):
    """Gives the console of a zone to a session, with the output that is there."""
    if host.state(zone) in ("configured", "incomplete"):
        raise Refused("95 NotRunning %s" % host.state(zone))
    console = host.consoles[zone]
    if console.holder is not None:
        raise Refused("75 Taken")
    console.holder, console.escape = number, escape
    return ["ok"] + console.take()


# Lines of a session that isn't idle.

def status(host, zone, pid, words):
    """What the call of a process is answered in a session. What refuses it is the line that is shown."""
    try:
        lines = host.call(zone, pid, words)
    except Refused as refused:
        return ["status 1", str(refused)]
    return ["status 1" if words == ["false"] else "status 0"] + lines[1:]


def logged_in(host, number, line):
    """Answers a line of a session that is logged in. What is no call is answered as a shell answers a command that it
    doesn't find."""
    login = host.logins[number]
    if is_left(login.escape, line):
        host.remove(login.pid)
        return ["status 0"]
    if not line:
        return ["status 0"]
    try:
        words = call_of(Words(line), host.known)
    except Outside:
        return ["status 127"]
    return status(host, login.zone, login.pid, words)


def at_console(host, zone, line):
    """Answers a line of the session that has a zone's console."""
    console = host.consoles[zone]
    if is_left(console.escape, line):
        console.holder = console.escape = None
        return ["status 0"]
    if line:
        console.write(line)
    return ["ok"] + console.take()
