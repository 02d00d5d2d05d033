#!/usr/bin/env python3
"""Times `zones live` with four zones, by four sessions that each have one of them against one session that has all, in turn.

    tools/bench_live.py [--program FILE] [--rounds N] [--mounts N]

Each zone is installed and uninstalled over and over, of whose turns six in eleven are local, and need the zone's lock alone. With --mounts
it boots and halts, with so many mounts, each of which is a local turn. The input has some 3,850 lines in both runs, and the record as many
entries. It says the least times of both, and their factor. It wants an idle machine with four processors, and a folder in memory; it is no
part of the gate.
"""

import argparse
import os
import time

from arguments import PROGRAM
from own_folder import own_folder, ran

ZONES = ["a", "b", "c", "d"]
ROUNDS_OF_A_ZONE = 480


def lines_of(zone, mounts):
    yield "zonecfg -z %s create -b; set zonepath=/zones/%s; set brand=ipkg" % (zone, zone)
    # No line holds more than so many.
    for first in range(0, mounts or 0, 50):
        added = ["add fs; set dir=/m%d; set special=/usr/m%d; set type=lofs; end" % (it, it) for it in range(first, min(mounts, first + 50))]
        yield "zonecfg -z %s %s" % (zone, "; ".join(added))
    if mounts is not None:
        yield "zoneadm -z %s install" % zone
    for _ in range(ROUNDS_OF_A_ZONE):
        for request in ("install", "uninstall -F") if mounts is None else ("boot", "halt"):
            yield "zoneadm -z %s %s" % (zone, request)


def script(sessions, mounts):
    """The lines of all zones, each zone's by a session of its own, or all by one."""
    lines = ["S %d %s" % (number if sessions > 1 else 1, line) for number, zone in enumerate(ZONES, 1) for line in lines_of(zone, mounts)]
    return "".join(line + "\n" for line in lines).encode()


def seconds(program, data):
    with own_folder() as folder:
        begun = time.perf_counter()
        status, out, err = ran(program, "live", data, folder)
        taken = time.perf_counter() - begun
    assert status == 0, (status, err)
    return taken, out.count(b"\n> ") + 1


def main():
    parser = argparse.ArgumentParser(description=__doc__.split("\n")[0])
    parser.add_argument("--program", default=str(PROGRAM))
    parser.add_argument("--rounds", type=int, default=5)
    parser.add_argument("--mounts", type=int)
    args = parser.parse_args()
    one, four = [], []
    for _ in range(args.rounds):
        one.append(seconds(args.program, script(1, args.mounts)))
        four.append(seconds(args.program, script(4, args.mounts)))
    least_one, least_four = min(one)[0], min(four)[0]
    print("%d entries on %d processors: one session %.3f s, four sessions %.3f s, a factor of %.2f" % (
        one[0][1], os.cpu_count(), least_one, least_four, least_one / least_four))


if __name__ == "__main__":
    main()
