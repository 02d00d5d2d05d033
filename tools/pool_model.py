"""A plain model of what shared pools give to an event: its grant, which `zones purge` writes before its line, and
`zones given` takes from there.

The pools are numbers of processes and of zones, the store with its zones and paths, what is declared, and the zones
that may be cloned. What asks one of them asks by `Grants.ask`, so that each grant is noted where it is given.
"""

import dataclasses
import typing

from trace_lines import Outside, Refused

NOTHING = "-"
YES = "yes"
DENIED = "no "


class Denied(Refused):
    """A pool doesn't give what it is asked for."""

    def __init__(self, pool):
        super().__init__("82 Denied %s" % pool)
        self.pool = pool


class Misfit(Outside):
    """A grant is stated that doesn't fit what its event asks."""

    def __init__(self):
        super().__init__("105 BadGrant")


@dataclasses.dataclass
class Need:
    """What an event asks: of which pools, in their order; what gives the number or `yes` that is due, or raises Denied;
    and whether a number or `yes` may be stated."""

    pools: list
    given: typing.Callable
    may_be: typing.Callable


def allowed(need):
    """The grant that is due where this is asked, or nothing is."""
    if need is None:
        return NOTHING
    try:
        return str(need.given())
    except Denied as denied:
        return DENIED + denied.pool


def fits(need, grant):
    """Whether a grant may be stated where this is asked, or nothing is."""
    if need is None or grant == NOTHING:
        return need is None and grant == NOTHING
    if grant.startswith(DENIED):
        return grant[len(DENIED):] in need.pools
    return need.may_be(grant if grant == YES else int(grant))


class Grants:
    """What an event asks since it began, and what it is given for that. `choose` is what tells its grant where a need,
    or None, is told: the one that is due, or one that is stated."""

    def __init__(self):
        self.begin()

    def begin(self, choose=allowed):
        self.choose, self.said = choose, []

    def say(self, need):
        grant = self.choose(need)
        self.said.append(grant)
        if not fits(need, grant):
            raise Misfit()
        return grant

    def ask(self, need):
        """The number or `yes` that is given, where it isn't denied."""
        grant = self.say(need)
        if grant.startswith(DENIED):
            raise Denied(grant[len(DENIED):])
        return grant if grant == YES else int(grant)

    def grant(self):
        """The grant of the event, at its end. No event has more than one."""
        if not self.said:
            self.say(None)
        [said] = self.said
        return said
