"""What holds of the grants of events: each is what an event took of the shared pools, or the pool that its reply tells
of. tools/zonecfg_laws.py looks at it after each line of its traces.

The model notes a grant where a pool is asked (pool_model.py); here it is found in what the system has afterwards. No
number may be given twice in a row, so these traces don't use the numbers up.
"""

import re

from pool_model import NOTHING

DENIAL = re.compile(r"(?:(?:err|failed \d+:) )?82 Denied ([a-z]+)")


def given_so_far(host):
    """How many records there are, the last numbers given, and how many claims there are."""
    return host.store.serial, host.last_pid, host.last_zid, len(host.items.claims)


def denial_in(lines):
    """The pool that a reply tells of, which to a session in a zone is told by the line below the status."""
    found = DENIAL.fullmatch(lines[-1] if lines[0] == "status 1" else lines[0])
    return found and found.group(1)


def taken(before, host):
    """What an event took of each of the pools, as its grant has it. A restart takes no number, and gives all back."""
    serial, pid, zid, claims = before
    now = given_so_far(host)
    found = [str(number) for number, was in zip(now, (serial, pid, zid)) if number not in (was, 0)]
    return found + ["yes"] * (now[3] > claims)


def wrong_with_grant(before, host, answer):
    """What is wrong with the grant of an event, or None. `before` is what given_so_far() told before it."""
    wanted, denial = taken(before, host), denial_in(answer.lines)
    wanted += ["no %s" % denial] if denial else []
    wanted += ["yes"] if answer.lines[0].startswith("step source ") else []
    return None if [answer.grant] == (wanted or [NOTHING]) else "a grant that isn't due, %s" % answer.grant
