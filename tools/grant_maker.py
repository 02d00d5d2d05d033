"""Random grants for tools/fuzz_trace.py: lines of `zones given`, whose grants are those that are due, others that fit,
or some that don't.

`StatedGrants` runs lines by the model and writes each with a grant; `regranted` changes grants of a text.
"""

import re

import trace_model as model
from pool_model import allowed, fits
from store_model import MOST_ZONES
from system_model import PIDS, ZIDS
from trace_lines import LAST_NUMBER, POOLS, Outside, Refused, is_no_event
from trace_model import MOST_BYTES

# What doesn't begin a line as a grant does.
ODD = [
    "", "@ ", "@", "@-", "@- @- ", "@-  ", " @- ", "@--", "@-- ", "@-1 ", "@+1 ", "@01 ", "@00 ", "@1", "@1,", "@1x ", "@ 1 ",
    "@4294967296 ", "@99999999999999999999 ", "@1.0 ", "@0x1 ", "@yes", "@Yes ", "@yess ", "@ye ", "@yes yes ", "@no ", "@no",
    "@no  pids ", "@no pids", "@no pid ", "@nopids ", "@no Pids ", "@no pids,zids ", "@no links addresses ", "@no @- ",
    "@no devices ", "@@- ", "-", "- ", "5 ", "@\t", "@-\t", "@-\r ", "@\xff ", "@5\x00 ", "#@- ", "@# ", "@- # ", "@-   ",
]
WRITTEN = re.compile(rb"@(?:-|yes|no [a-z]+|[0-9]+) ")
# What makes lines may wait for what a grant denied, or go on where nothing is run any more.
MOST_LINES, MOST_AFTER = 40000, 30
LONGEST = len("@no addresses ")


class Ended(Exception):
    """A trace has as many lines as it gets."""


def near(rng, numbers):
    """Numbers at the ends of a range and about them, and one inside."""
    first, last = numbers.start, numbers.stop - 1
    return [first - 1, first, first + 1, last - 1, last, last + 1, rng.randrange(first, last + 1)]


def some_grants(rng, host=None):
    """Grants of all kinds, in no order: with a system those too that are next, and those that it has given."""
    numbers = near(rng, PIDS) + near(rng, ZIDS) + [0, MOST_ZONES, rng.randrange(1, 40), LAST_NUMBER]
    if host is not None:
        last = [host.last_pid, host.last_zid, host.store.serial]
        numbers += [it + more for it in last for more in (-1, 0, 1, 2, 9) if it + more > 0]
        numbers += [next(iter(it)) for it in (host.processes, host.zids.values()) if it]
    grants = ["-", "yes"] + ["no " + pool for pool in POOLS] + [str(it) for it in numbers]
    rng.shuffle(grants)
    return grants


class StatedGrants:
    """Writes lines with their grants. How many of these are others than are due, and how many don't fit, differs from
    trace to trace; at the first one that doesn't fit a trace ends."""

    def __init__(self, rng, wrong=(0, 0, 0, 0.003, 0.03, 0.2)):
        self.rng, self.shares = rng, wrong
        self.begin()

    def begin(self):
        self.other = self.rng.choice([0, 0.02, 0.1, 0.5])
        self.wrong = self.rng.choice(self.shares)
        self.left = MOST_LINES

    def choose(self, host, need):
        """A grant where this is asked, or nothing is."""
        chance = self.rng.random()
        if chance < self.wrong:
            return next(it for it in some_grants(self.rng, host) if not fits(need, it))
        if need is None or chance > self.wrong + self.other:
            return allowed(need)
        return self.other_of(host, need)

    def other_of(self, host, need):
        """A grant that fits, a denial the less often: what is denied doesn't come."""
        denials = self.rng.random() < 0.2
        grants = [it for it in some_grants(self.rng, host) if fits(need, it)]
        return next((it for it in grants if it.startswith("no ") == denials), grants[0])

    def head(self):
        """What a line may begin with that isn't run."""
        if self.rng.random() < 0.9:
            return "@- "
        return self.rng.choice(ODD + ["@%s " % it for it in some_grants(self.rng)[:20]])

    def line(self, host, text):
        """A line with its grant, after the system has done what it asks."""
        if self.left == 0:
            raise Ended
        self.left -= 1
        if len(text) > MOST_BYTES - LONGEST and self.rng.random() < 0.9:
            text = text[:MOST_BYTES - self.rng.choice([2] + [3, LONGEST] * 5)]
        if is_no_event(text.encode("latin-1")):
            return text if self.rng.random() < 0.97 else self.head() + text
        try:
            event = host.read(text.encode("latin-1"))
        except Outside:
            self.left = min(self.left, MOST_AFTER)
            return self.head() + text
        if self.rng.random() < self.wrong / 10:
            return self.head() + text
        try:
            model.answers(host, event, "given", lambda need: self.choose(host, need))
        except Outside:
            self.left = min(self.left, MOST_AFTER)
        return "@%s %s" % (host.grants.said[-1], text)


def next_of(maker, traces):
    """The next input of a maker. Where lines state grants, it ends where it would go on with what a grant denied."""
    try:
        return maker.next(traces)
    except (Ended, LookupError, Refused):
        if maker.stated is None:
            raise
        return maker.data()


def shorter(text):
    """A text without the lines that are too long with their grants."""
    return b"".join(line for line in text.splitlines(keepends=True) if len(line) <= MOST_BYTES)


def regranted(rng, text):
    """A text in which the grants of some lines are others."""
    lines = text.split(b"\n")
    for _ in range(rng.choice([1, 1, 2, 5])):
        at = rng.randrange(len(lines))
        grant = rng.choice(ODD) if rng.random() < 0.1 else "@%s " % some_grants(rng)[0]
        lines[at] = WRITTEN.sub(lambda _: grant.encode("latin-1"), lines[at], count=1)
    return b"\n".join(lines)
