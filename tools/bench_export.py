#!/usr/bin/env python3
"""Writes a script for `zones export` that edits a configuration of 256 resources.

    tools/bench_export.py [LINES] > bench.zonecfg
    valgrind --tool=callgrind crates/zones_cli/out/zones_cli export < bench.zonecfg
"""

import sys


def main():
    lines = int(sys.argv[1]) if len(sys.argv) > 1 else 200000
    out = ["create", "set zonepath=/zones/web"]
    for number in range(256):
        out += ["add attr", "set name=a%d" % number, "set type=string", "set value=v", "end"]
    # one goes, so that the rctl of cpu-shares has its place
    out.append("remove attr name=a255")
    number = 0
    while len(out) + 5 <= lines:
        out += [
            "select attr name=a%d" % (number % 255),
            "set value=v%d" % number,
            "end",
            "set pool=p%d" % (number % 100),
            "set cpu-shares=%d" % (number + 1) if number % 2 else "set bootargs=\"-m v%d\"" % number,
        ]
        number += 1
    out += ["# done"] * (lines - len(out))
    sys.stdout.write("\n".join(out) + "\n")


if __name__ == "__main__":
    main()
