"""A plain, slow model of what is declared, and of who has it: links, addresses and datasets, each of which one zone at
most holds, and devices, which any number of zones may be given (zonecfg(8), net, dataset and device).

Claims stand in one list, in the order in which they were made; each question looks at all of it.
"""

import re

from pool_model import YES, Denied, Need
from trace_lines import Refused

MOST_DECLARED = 1024
POOLS = {"link": "links", "address": "addresses", "dataset": "datasets"}


def bracket(listed):
    """The bytes that a bracket of a pattern stands for, as a regular expression."""
    left_out = listed.startswith("!")
    listed = listed[1:] if left_out else listed
    found, at = set(), 0
    while at < len(listed):
        if listed[at + 1:at + 2] == "-" and at + 2 < len(listed):
            found |= {chr(byte) for byte in range(ord(listed[at]), ord(listed[at + 2]) + 1)}
            at += 3
        else:
            found.add(listed[at])
            at += 1
    right = [byte for byte in map(chr, range(256)) if byte != "/" and (byte in found) != left_out]
    return "(?:%s)" % "|".join(map(re.escape, right)) if right else "(?!)"


def is_matched(pattern, path):
    """Whether a path is of a pattern of zonecfg(8): `*`, `?`, and brackets, none of which stands for `/`."""
    found, at = "", 0
    while at < len(pattern):
        end = pattern.find("]", at + 1)
        if pattern[at] == "[" and end > 0:
            found += bracket(pattern[at + 1:end])
            at = end
        else:
            found += {"*": "[^/]*", "?": "[^/]"}.get(pattern[at], re.escape(pattern[at]))
        at += 1
    return re.fullmatch(found, path, re.S) is not None


class Items:
    """The declared items by their kind, and the claims of all zones."""

    def __init__(self):
        self.declared = {kind: {} for kind in [*POOLS, "device"]}
        self.claims = []

    def declare(self, kind, item):
        """Declares an item. One that is there is told as such, also where there may be no more."""
        if item in self.declared[kind]:
            raise Refused("24 Duplicate")
        if len(self.declared[kind]) == MOST_DECLARED:
            raise Refused("27 TooMany %d" % MOST_DECLARED)
        self.declared[kind][item] = True

    def need(self, kind, item):
        """What a claim asks, which is given where the item is declared and no zone has it. A `yes` that is stated has to
        be right."""
        is_free = item in self.declared[kind] and all(claim != [kind, item] for _, *claim in self.claims)

        def given():
            if not is_free:
                raise Denied(POOLS[kind])
            return YES

        return Need([POOLS[kind]], given, lambda it: it == YES and is_free)

    def claim(self, zone, kind, item):
        """Gives a zone an item."""
        self.claims.append((zone, kind, item))

    def held(self, zone, kind=None):
        """(kind, item) of each claim of a zone, in the order of claim; of one kind, or of all of them."""
        return [(it[1], it[2]) for it in self.claims if it[0] == zone and kind in (None, it[1])]

    def release_last(self, zone):
        """Ends the latest claim of a zone, and answers it as it is printed."""
        place = max(place for place, it in enumerate(self.claims) if it[0] == zone)
        return "%s %s" % self.claims.pop(place)[1:]

    def devices(self, patterns):
        """The declared devices that one of the patterns matches, in the order of declaration."""
        return [path for path in self.declared["device"] if any(is_matched(it, path) for it in patterns)]
