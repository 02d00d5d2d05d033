"""A plain model of `zones bulk N`: the script that it makes of a number, which is run as `zones script` runs its input,
and the summary that it writes.

run(word, store) gives the status and both texts of the command with this word, on a store that it changes or, without
one, on an empty one.
"""

import re

import trace_model as model
from trace_lines import ALL_LINES

MOST_ZONES = 256
CALLS = 50
USAGE = b"usage: zones export|script|trace|given|purge ZONE|index|bulk N|live\n"


def count_of(word):
    """The number of zones that a word asks for, or None where it is none."""
    right = re.fullmatch(r"[1-9][0-9]{0,2}", word) is not None and int(word) <= MOST_ZONES
    return int(word) if right else None


def lines_for(number):
    """What session 1 types for the zone of a number: each comes up, and those of even numbers go down again."""
    zone = "b%d" % number
    typed = ["zonecfg -z %s create -b; set zonepath=/zones/%s; set brand=ipkg" % (zone, zone)]
    typed += ["zoneadm -z %s install" % zone, "zoneadm -z %s boot" % zone, "zlogin %s ps" % zone]
    typed += ["zlogin %s true" % zone] * CALLS + ["zoneadm -z %s halt" % zone] * (number % 2 == 0)
    return ["S 1 " + text for text in typed]


def script(count):
    """The lines for so many zones."""
    return [line for number in range(1, count + 1) for line in lines_for(number)]


def run(word, store=None):
    count = count_of(word)
    if count is None:
        return 2, b"", USAGE
    host, events, refused = model.Host(store=store, known=ALL_LINES), 0, []
    for number, line in enumerate(script(count), 1):
        said = model.answers(host, host.read(line.encode()), "script")
        events += len(said)
        refused += [number] * sum(it.is_refused() for it in said)
    states = [host.state(name) for name in host.store.records]
    told = [count, events, len(refused), states.count("running"), states.count("installed")]
    out = "zones %d\nevents %d\nrefused %d\nrunning %d\ninstalled %d\n" % tuple(told)
    err = b"first refused line: %d\n" % refused[0] if refused else b""
    return 1 if refused else 0, out.encode(), err
