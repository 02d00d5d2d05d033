"""Traces whose replies are known, with which the model in trace_model.py is compared.

fault() gives what it answers otherwise, or None; tools/fuzz_trace.py --self-test does this.
"""

import trace_model as model
from config_model import Config, rctl_of
from object_rows import told
from zone_lines import done, installed, made, running

A_LIFE = """\
a ok
a ticket 1
a began 1 install
a step hook before install
a step record incomplete
a step copy 1
a step copy 2
a step copy 3
a step copy 4
a step record installed
a step hook after install
a finished 1 ok
a ticket 2
a began 2 boot
a step hook before ready
a step zid 1
a step limits
a step devices 0
a step root
a step state ready
a step hook after ready
a step hook before boot
a step init 2
a step state running
a step hook after boot
a finished 2 ok
a ticket 3
a began 3 halt
a step hook before halt
a step state shutting_down
a step kill 1
a step unmount /
a step clear
a step state down
a step zidback 1
a step state installed
a step hook after halt
a finished 3 ok
"""

SIGNALS = [
    "P b 3 fork x", "P a 2 kill 9 4", "P a 2 kill 9 100", "P a 2 kill 9 2", "P a 2 ps", "S 1 kill 9 4",
]
AFTER_SIGNALS = """\
b ok
| child 4
a err ESRCH
a err ESRCH
a ok
a ok
| 2 0 init
b ok
"""

IN_TURN = (
    made("a") + made("b") + done("a", "install") + done("b", "install", 2) + done("a", "boot") + done("b", "boot", 2)
    + ["P a 2 fork x", "P b 3 fork y", "P b 3 ps"]
)
AFTER_IN_TURN = """\
b ok
| child 5
b ok
| 3 0 init
| 5 3 y
"""

DEFAULT = """\
web ok
| contract_event,contract_identity,contract_observer,file_chown,file_chown_self,file_dac_execute,file_dac_read,\
file_dac_search,file_dac_write,file_link_any,file_owner,file_setid,ipc_dac_read,ipc_dac_write,ipc_owner,net_icmpaccess,\
net_privaddr,proc_audit,proc_chroot,proc_exec,proc_fork,proc_info,proc_owner,proc_session,proc_setid,proc_taskid,\
sys_acct,sys_admin,sys_mount
"""

# What a row shows; its lines; the status; how the replies end, where there are any; and the line of standard error.
ROWS = [
    ("one zone's life", running("a") + done("a", "halt"), 0, A_LIFE, ""),
    ("a zone that isn't stored", ["S 1 zoneadm -z a boot"], 1, "a err 90 NoZone\n", "first refused line: 1\n"),
    ("a session above 64", ["S 65 x"], 3, "", "line 1: 102 BadWord 2\n"),
    ("a daemon without a request", ["D a"], 0, "a idle\n", ""),
    ("signals between two zones", running("a") + running("b") + SIGNALS, 1, AFTER_SIGNALS, "first refused line: 54\n"),
    ("two zones that fork in turn", IN_TURN, 0, AFTER_IN_TURN, ""),
    ("a process that isn't there", ["P b 3 ps"], 1, "b err 98 NoProcess\n", "first refused line: 1\n"),
    ("a call without its name", installed("b") + ["P b 3 fork"], 3, "b finished 1 ok\n", "line 13: 102 BadWord 10\n"),
    ("a line that is no event", ["Q"], 3, "", "line 1: 101 BadTag\n"),
    ("the privileges of a first process", running("web") + ["P web 2 privs"], 0, DEFAULT, ""),
]

# With three processes at most, and with one.
THREE = ["P web 2 fork a", "P web 2 fork b", "P web 2 fork c", "P web 4 exit", "P web 2 fork c"]
AFTER_THREE = ["web ok | child 3", "web ok | child 4", "web err EAGAIN", "web ok", "web ok | child 5"]
BOUNDED = [
    ("three processes at most", [rctl_of("zone.max-processes", 3)], THREE, AFTER_THREE),
    ("one process at most", [rctl_of("zone.max-lwps", 9, 1, -7), rctl_of("zone.max-processes", 2)],
     ["P web 2 fork a"], ["web err EAGAIN"]),
    ("bounds that are only noted", [rctl_of("zone.max-lwps", -1), rctl_of("zone.max-msg-ids", 1)],
     ["P web 2 fork a"], ["web ok | child 3"]),
]


def fault():
    """What the model answers otherwise than it is known, or None."""
    for title, lines, status, end, fault_line in ROWS:
        got = model.run("\n".join(lines + [""]).encode())
        said = got[1][-len(end):] if end else got[1]
        if (got[0], said, got[2]) != (status, end.encode(), fault_line.encode()):
            return "%s: %r" % (title, got)
    for title, rctl, lines, want in BOUNDED:
        got = told({"web": Config.of(rctl=rctl)}, running("web"), lines)
        if got != want:
            return "%s: %r" % (title, got)
    return None
