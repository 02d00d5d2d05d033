#!/usr/bin/env python3
"""Writes a trace in which the numbers of processes come to their end, and what the plain model answers to it.

    tools/pid_pool_trace.py FOLDER [--lines N] [--seed S]
    zones trace < FOLDER/trace | cmp - FOLDER/replies

A zone forks until the last number is given. From then on processes of any number end, one by one and in groups, and
new ones take the numbers that are free, above the last one given and then from the lowest; zones boot in between, some
with no number left. The zones are halted at the end. The status and the line of standard error are printed.
"""

import argparse
import pathlib
import random

import trace_model as model
from system_model import PIDS
from zone_lines import done, installed, running

ROUNDS = [1, 1, 2, 5, 50, 300]


class Pool:
    """A trace over three zones, each line of which the model has run."""

    def __init__(self, rng):
        self.rng, self.host, self.lines = rng, model.Host(), []
        for line in running("a") + installed("b") + running("c"):
            self.line(line)

    def line(self, line):
        """Adds a line, and answers the head of its reply."""
        self.lines.append(line)
        return self.host.answer(self.host.read(line.encode())).lines[0]

    def pid(self, zone):
        """Some process of a zone, its first ones more often than others."""
        pids = self.host.pids(zone.encode())
        return self.rng.choice(pids[:3] if self.rng.random() < 0.1 else pids)

    def fork(self):
        """A fork in zone a by its first process, which no line of this trace ends."""
        return self.line("P a %d fork p%d" % (self.host.firsts[b"a"], len(self.lines) % 1000))

    def fork_to_the_end(self):
        """Forks until that is denied, at times from the youngest process, so that there are lines of descent."""
        while True:
            pid = self.host.last_pid
            if self.rng.random() < 0.3 and self.host.processes[pid].zone == b"a":
                head = self.line("P a %d fork deep" % pid)
            else:
                head = self.fork()
            if head != "ok":
                return

    def end(self, pid):
        """Ends a process of zone a other than its first one, in one of three ways."""
        if pid != self.host.firsts[b"a"]:
            self.line(self.rng.choice(["P a %d exit", "S 1 kill 9 %d", "P a 2 kill 15 %d"]) % pid)

    def some_end(self):
        """Some processes end: any, or those of the highest or the lowest numbers."""
        count = self.rng.choice(ROUNDS)
        pids = self.host.pids(b"a")
        which = self.rng.randrange(4)
        chosen = pids[-count:] if which == 0 else pids[:count + 1] if which == 1 else self.rng.sample(pids, count)
        for pid in chosen:
            self.end(pid)

    def boots(self):
        """Zone b comes up, as far as there is a number for it, at times is asked to once more, and goes down again."""
        for line in done("b", "boot"):
            self.line(line)
        if self.rng.random() < 0.5:
            self.some_end()
        for line in done("b", "boot") * self.rng.choice([0, 1]) + done("b", "halt"):
            self.line(line)

    def go_on(self, lines):
        """The pool is filled, emptied in part and filled again."""
        self.fork_to_the_end()
        self.line("S 1 kill 0 %d" % (PIDS.stop - 1))
        self.line("P a 2 kill 0 %d" % PIDS.stop)
        self.boots()
        while len(self.lines) < lines:
            self.some_end()
            if self.rng.random() < 0.2:
                self.boots()
            if self.rng.random() < 0.2:
                self.line("P c %d exec c" % self.pid("c"))
            for _ in range(self.rng.choice(ROUNDS)):
                if self.fork() != "ok":
                    break
            if self.rng.random() < 0.3:
                self.fork_to_the_end()
                self.boots()
        self.line("P a 2 ps")

    def data(self):
        for line in done("a", "halt") + done("c", "halt") + done("c", "boot"):
            self.line(line)
        self.line("P c %d ps" % self.host.firsts[b"c"])
        return ("\n".join(self.lines) + "\n").encode()


def main():
    parser = argparse.ArgumentParser(description=__doc__, formatter_class=argparse.RawDescriptionHelpFormatter)
    parser.add_argument("folder", type=pathlib.Path, metavar="FOLDER")
    parser.add_argument("--lines", type=int, default=60000, help="about how many lines, at most 190000")
    parser.add_argument("--seed", type=int, default=1)
    args = parser.parse_args()
    pool = Pool(random.Random(args.seed))
    pool.go_on(min(args.lines, 190000))
    data = pool.data()
    status, replies, fault = model.run(data)
    args.folder.mkdir(parents=True, exist_ok=True)
    (args.folder / "trace").write_bytes(data)
    (args.folder / "replies").write_bytes(replies)
    print("%d lines; status %d; %s" % (len(pool.lines), status, fault.decode().strip()))


if __name__ == "__main__":
    main()
