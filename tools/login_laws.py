"""What holds of logins, consoles and calls alone in the model in trace_model.py; zonecfg_laws.py looks at it after each
line of random traces.
"""

import copy

from console_model import MOST_OUTPUT
from system_model import PIDS, next_number
from typed_lines import typed

NO_CONSOLE = ("configured", "incomplete", None)


def held_of(host, name):
    """The logins to a zone, and its console. A console that nobody has and that has no output is as good as none."""
    logins = {number: repr(login) for number, login in host.logins.items() if login.zone == name}
    console = host.consoles.get(name)
    is_there = console is not None and (console.output or console.holder is not None)
    return logins, repr(vars(console)) if is_there else None


def wrong_with(host):
    """What doesn't hold of a system, or None."""
    for login in host.logins.values():
        if login.pid not in host.processes or host.processes[login.pid].zone != login.zone:
            return "a login without its process"
    for name, console in host.consoles.items():
        if len(console.output) > MOST_OUTPUT:
            return "too much output"
        if host.state(name) in NO_CONSOLE and held_of(host, name)[1] is not None:
            return "the console of a zone that isn't installed"
    modes = [*host.tickets, *host.edits, *host.logins]
    modes += [console.holder for console in host.consoles.values() if console.holder is not None]
    return "a session that does two things" if len(set(modes)) < len(modes) else None


def wrong_with_processes(before, last, host, event, head):
    """What is wrong with the processes that there are after an event, or None. `before` are their numbers before it,
    and `last` was the last one given. One process comes at most, with the next number. A call alone leaves none, though
    its process had that number, too."""
    new = host.processes.keys() - before
    if len(new) > 1:
        return "two processes at once"
    if event[0] == "R":
        return None
    if host.last_pid == last:
        return "a process without the next number" if new and len(before) < len(PIDS) - 1 else None
    if host.last_pid != next_number(PIDS, last, before, "pids"):
        return "a number that isn't the next"
    if new:
        is_alone = event[0] == "S" and host.is_idle(event[1])
        return "a process that an idle session left" if is_alone or new != {host.last_pid} else None
    is_called = event[0] == "S" and host.is_idle(event[1]) and head in ("status 0", "status 1")
    return None if is_called else "a number that no process had"


# Calls alone.

def left_of(host):
    """What there is of processes, and what they leave."""
    mounts = {name: repr(it.by_directory) for name, it in host.mounts.items() if it.by_directory}
    consoles = {name: held_of(host, name)[1] for name in host.consoles}
    consoles = {name: held for name, held in consoles.items() if held is not None}
    return host.processes, host.firsts, mounts, consoles, host.logins, host.last_pid


def in_a_login(host, event):
    """What a call alone is answered where a login makes it and ends then, and what this leaves; or None where an event
    is no such call. A fork isn't told of: a login has another number for its child."""
    if event[0] != "S" or not host.is_idle(event[1]):
        return None
    _, number, text = event
    what, name, words = typed(text, host.known)
    if what != "call" or words[0] == "fork":
        return None
    host = copy.deepcopy(host)
    lines = host.answer(("S", number, b"zlogin " + name)).lines
    if number in host.logins:
        pid = host.logins[number].pid
        lines = host.answer(("S", number, " ".join(words).encode())).lines
        if words == ["ps"]:
            lines[lines.index("%d 0 login" % pid)] = "%d 0 ps" % pid
    if number in host.logins:
        host.answer(("S", number, b"exit"))
    return lines, left_of(host)


def wrong_with_call(wanted, host, lines):
    """What is wrong with the answer to a call alone and what it left, or None. `wanted` is what in_a_login() told."""
    return "a call alone that isn't as in a login" if wanted not in (None, (lines, left_of(host))) else None
