"""Traces with calls alone by zlogin(1) whose replies are known, with which the model in trace_model.py is compared. They
are too long to be rows of crates/zones_docs/data/rows.

fault() gives what it answers otherwise, or None; tools/fuzz_trace.py --self-test does this.
"""

import login_model
import trace_model as model
from object_rows import row_fault
from system_model import Process
from trace_lines import KINDS_OF_LINES
from zone_lines import running

# The first process of the only zone has the number 2, so these leave no number of the pool.
NO_NUMBER = running("a") + ["P a 2 fork x"] * 29997
# With its root the zone has as many mounts as it may have.
NO_MOUNT = running("a") + ["P a 2 mount nfs x /m%d" % number for number in range(127)]
FAR = "h" * 4050
LONGEST = "/l/" + "p" * 39

# What a row shows; the lines before; the lines that are looked at, each with its reply.
ROWS = [
    ("no number is left for the process of a call", NO_NUMBER, [
        ("S 1 zlogin a true", "a err 82 Denied pids"),
        ("S 1 zlogin a fork y", "a err 82 Denied pids"),
        ("S 1 zlogin a nonsense", "a err 93 Usage"),
        ("P a 2 fork y", "a err 82 Denied pids"),
    ]),
    ("the last number that is left goes to the process of a call, and comes back", NO_NUMBER, [
        ("P a 100 exit", "a ok"),
        ("S 1 zlogin a fork y", "a status 1 | EAGAIN"),
        ("S 1 zlogin a kill 9 100", "a status 0"),
        ("S 1 zlogin a exit", "a status 0"),
        ("S 1 zlogin a kill 9 29999", "a status 0"),
        ("S 1 zlogin a kill 0 100", "a status 1 | ESRCH"),
        ("S 1 zlogin a kill 0 29999", "a status 1 | ESRCH"),
        ("P a 2 fork y", "a ok | child 29999"),
        ("S 2 zlogin a", "a ok"),
        ("S 1 zlogin a ps", "a err 82 Denied pids"),
        ("S 2 kill 15 100", "a status 0"),
        ("S 2", "global ok"),
        ("S 1 zlogin a kill 0 100", "a status 0"),
    ]),
    ("a call alone is one mount too many", NO_MOUNT, [
        ("S 1 zlogin a mount nfs x /m0", "a status 1 | EBUSY"),
        ("S 1 zlogin a mount nfs x /new", "a status 1 | 71 TooManyMounts"),
        ("S 1 zlogin a umount /m0", "a status 0"),
        ("S 1 zlogin a mount nfs x /new", "a status 0"),
        ("S 1 zlogin a mount nfs x /m0", "a status 1 | 71 TooManyMounts"),
    ]),
    ("calls alone look at a place that is too long", running("a") + ["P a 2 mount nfs %s /l" % FAR], [
        ("S 1 zlogin a read " + LONGEST, "a status 0 | <nfs:%s>%s" % (FAR, LONGEST[2:])),
        ("S 1 zlogin a read %sp" % LONGEST, "a status 1 | ENAMETOOLONG"),
        ("S 1 zlogin a write %sp" % LONGEST, "a status 1 | ENAMETOOLONG"),
        ("S 1 zlogin a mount lofs %sp /l" % LONGEST, "a status 1 | ENAMETOOLONG"),
        ("S 1 zlogin a mount lofs %s /l" % LONGEST, "a status 1 | EBUSY"),
        ("S 1 zlogin a mount lofs %s /q" % LONGEST, "a status 0"),
    ]),
]


def fault():
    """What the model answers otherwise than it is known, or None."""
    for title, before, pairs in ROWS:
        found = row_fault(title, {}, before, pairs, model.Host(known=frozenset(KINDS_OF_LINES)))
        if found is not None:
            return found
    # no zone boots with a limit set without this privilege
    said = login_model.forked_alone(Process(b"a", 0, "fork", frozenset()))
    return None if said == ["status 1", "EPERM"] else "a fork alone without its privilege: %s" % said
