#!/usr/bin/env python3
"""Runs the native program over random and damaged inputs and stores, and looks only at how it ends.

    tools/break.py [--count N] [--seed S] [--program FILE]

Each run must end with a status that docs/COMMANDS.md states and the line on standard error that belongs to it; no
run may crash, hang, or take more memory for a longer input. A run with status 7 leaves its store as it was, and so does
`export`. It is no part of the gate.
"""

import pathlib
import random
import re
import subprocess
import sys

from arguments import arguments
from own_folder import NAME, image, own_folder
from store_reader import HEADER, body, uuid_of

LINES = {
    0: rb"",
    1: rb"(line \d+: [1-5]\d [A-Z]\w*( .*)?|end: [3-5]\d [A-Z]\w*( .*)?|first refused line: \d+)\n",
    2: rb"usage: zones [^\n]*\n",
    3: rb"line \d+: 10[1-4] \w+( \d+)?\n",
    4: rb"read fault\n",
    5: rb"write fault\n",
    7: rb"not a store: (61 NotAStore|62 BadRecord|65 RecordForm) \d+\n",
    8: rb"limit at line \d+\n",
    9: rb"no memory\n",
}
EXPORTS = [
    b"create; set zonepath=/zones/web\nadd fs; set dir=/a; set special=/b; set type=lofs; add options [ro,nodevices]; end\n",
    b"create -b\nset zonepath=/z\nset brand=lx\nadd rctl\nset name=zone.x\nadd value (priv=privileged,limit=1,action=deny)\nend\nverify\n",
    b"create\nadd attr; set name=a; set type=string; set value=\"x y\"; end\nselect attr name=a; cancel\nremove -F attr\n",
]
TRACES = [
    b"S 1 zonecfg -z a create -b; set zonepath=/zones/a; set brand=ipkg\nS 1 zoneadm -z a install\n" + b"D a\n" * 10,
    b"S 1 zonecfg -z b create -b; set zonepath=/zones/b; set brand=ipkg\nS 2 zoneadm -z b install\n" + b"D b\n" * 10
    + b"S 2 zoneadm -z b boot\n" + b"D b\n" * 13 + b"S 3 zoneadm -z b halt\n" + b"D b\n" * 11,
    b"Y link net0\nY address 10.0.0.1\nY dataset tank/a\nY device /dev/dsk\n"
    b"S 1 zonecfg -z c create -b; set zonepath=/zones/c; set brand=ipkg\nS 1 zoneadm -z c install\n" + b"D c\n" * 10
    + b"S 1 zoneadm -z c boot\n" + b"D c\n" * 13 + b"P c 2 mount lofs /export /m ro\nP c 2 mount nfs h:/x /m/n\n"
    b"S 2 fhold -z c /m/n\nP c 2 umount /m\nP c 2 read /m/n/x\nP c 2 write /m/x\nP c 2 mounts\n"
    b"S 1 zoneadm -z c halt\n" + b"D c\n" * 5 + b"S 2 frelease -z c /m/n\n" + b"D c\n" * 9,
]
PIECES = [
    b"\n", b";", b"\"", b"(", b"]", b"=", b"\0", b"\xff", b"S 64 ", b"@pids 7 ", b"D ", b" zonecfg -z ", b"set ", b"#",
    b"\r\n", b"Y ", b"P c 2 ", b"/",
]


EXPORT = "create -b\nset zonepath=/zones/%s\nset brand=ipkg\nset autoboot=false\nset ip-type=shared\n"
STORES = [
    HEADER + b"\0",
    HEADER + b"".join(
        b"\1" + len(it).to_bytes(4, "big") + it
        for it in (body(zone, "installed", uuid_of(zone, number), number, EXPORT % zone) for number, zone in enumerate("abc", 1))
    ) + b"\0",
]


def damaged(rng, seeds):
    data = bytearray(rng.choice(seeds) * rng.choice([1, 1, 1, 3]))
    for _ in range(rng.choice([1, 2, 3, 8, 30])):
        at = rng.randrange(len(data) + 1)
        chance = rng.random()
        if chance < 0.3 and data:
            data[at % len(data)] ^= 1 << rng.randrange(8)
        elif chance < 0.5:
            del data[at:at + rng.choice([1, 3, 20, 100])]
        elif chance < 0.75:
            data[at:at] = rng.choice(PIECES)
        else:
            other = rng.choice(seeds)
            cut = rng.randrange(len(other))
            data[at:at] = other[cut:cut + rng.choice([5, 50, 500])]
    return bytes(data)


def made(rng, word):
    seeds = EXPORTS if word == "export" else TRACES
    chance = rng.random()
    if chance < 0.15:
        return bytes(rng.randrange(256) for _ in range(rng.randrange(300)))
    if chance < 0.25:
        start = rng.choice([b"create -b\n", b"D a\n", b""])
        return start + rng.choice([b"#", b"a", b"S 1 ", b"\""]) * rng.choice([1, 4095, 4096, 4097]) + rng.choice([b"", b"\n"])
    return damaged(rng, seeds)


def stored(rng):
    """What a store has before a run: mostly nothing, else a store, which may be damaged."""
    chance = rng.random()
    return b"" if chance < 0.6 else rng.choice(STORES) if chance < 0.7 else damaged(rng, STORES)


def run(program, words, data, store=b""):
    with own_folder() as folder:
        (pathlib.Path(folder) / NAME).write_bytes(store)
        done = subprocess.run([program] + words, input=data, capture_output=True, timeout=60, cwd=folder)
        left = image(folder)
    line = LINES.get(done.returncode)
    if line is None or not re.fullmatch(line, done.stderr):
        pathlib.Path("break.input").write_bytes(data)
        sys.exit("%r ended with status %d and %r (input kept in break.input, over the store %r)"
                 % (words, done.returncode, done.stderr, store))
    if words == ["export"] and done.returncode not in (0, 5) and done.stdout:
        sys.exit("export wrote a text though it ended with status %d" % done.returncode)
    if (words != ["trace"] or done.returncode == 7) and left != store:
        sys.exit("%r ended with status %d and changed the store %r" % (words, done.returncode, store))
    return done.returncode


def peak(program, words, data):
    """The most memory in KiB that a run took."""
    code = "import resource,subprocess,sys; subprocess.run(sys.argv[1:], stdin=sys.stdin, capture_output=False, stdout=subprocess.DEVNULL, stderr=subprocess.DEVNULL); print(resource.getrusage(resource.RUSAGE_CHILDREN).ru_maxrss)"
    with own_folder() as folder:
        done = subprocess.run([sys.executable, "-c", code, program] + words, input=data, capture_output=True, cwd=folder)
    return int(done.stdout)


def main():
    args = arguments(__doc__)
    rng, program = random.Random(args.seed), pathlib.Path(args.program).resolve()
    statuses = {}
    for _ in range(args.count):
        word = rng.choice(["export", "trace"])
        status = run(program, [word], made(rng, word), stored(rng))
        statuses[word, status] = statuses.get((word, status), 0) + 1
    for words in ([], ["x"], ["export", "x"], ["--help", "x"], [""], ["--"]):
        assert run(program, list(words), b"") == 2
    for word, line in (("export", b"\n"), ("trace", b"D a\n"), ("trace", b"#\n")):
        assert run(program, [word], line * 200000) in (0, 1)
        assert run(program, [word], line * 200001) == 8
    short, long = (peak(program, ["trace"], b"D a\n" * count) for count in (1000, 200000))
    if long > short + 1024:
        sys.exit("%d KiB for 1,000 lines and %d KiB for 200,000" % (short, long))
    print("%d runs ended as stated: %s; %d and %d KiB for 1,000 and 200,000 lines" % (args.count, dict(sorted(statuses.items())), short, long))


if __name__ == "__main__":
    main()
