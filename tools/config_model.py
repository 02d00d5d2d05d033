"""A plain, slow model of what a zone's configuration asks of the system: its flaw, its privileges, what is mounted,
claimed and given as the zone gets ready, and what binds its processes (zonecfg(8), privileges(7) and
resource_controls(7)).

A configuration is the one that export_model.py edits and exports. Config.of() makes one from what is set in it; fs_of()
and its like make its resources.
"""

import export_model
from trace_lines import PRIVILEGES, Refused

DEFAULT = frozenset(name for name, kind in PRIVILEGES.items() if kind in "DR")
BOUNDS = ("zone.max-processes", "zone.max-lwps")


# Privileges.

def limit_of(text):
    """The set of privileges that a limitpriv stands for, or the refusal of it."""
    held, place = set(), 0
    for number, token in enumerate((text or "default").split(",")):
        taken = token[:1] in ("!", "-")
        named = token[1:] if taken else token
        if named == "all":
            covered = set(PRIVILEGES)
        elif named in PRIVILEGES:
            covered = {named}
        elif token == "default" and number == 0:
            covered = DEFAULT
        else:
            raise Refused("47 PrivWord %d" % place)
        held = held - covered if taken else held | covered
        place += len(token) + 1
    for name, kind in PRIVILEGES.items():
        if kind == "R" and name not in held:
            raise Refused("48 PrivRequired %s" % name)
    for name, kind in PRIVILEGES.items():
        if kind == "P" and name in held:
            raise Refused("49 PrivProhibited %s" % name)
    return frozenset(held)


# Resources.

def resource(kind, **given):
    """A resource of a kind, with these properties set; `_` in a name stands for `-`."""
    made = export_model.empty(kind)
    made.update({name.replace("_", "-"): value for name, value in given.items()})
    return made


def fs_of(directory, special, fstype, *options):
    return resource("fs", dir=directory, special=special, type=fstype, options=list(options))


def link_of(name):
    return resource("net", physical=name)


def address_of(address, link="net0"):
    return resource("net", address=address, physical=link)


def device_of(pattern):
    return resource("device", match=pattern)


def dataset_of(name):
    return resource("dataset", name=name)


def rctl_of(name, *limits):
    """A resource control with these limits, each of which is denied, or, where it is below zero, only noted."""
    return resource("rctl", name=name, value=[(str(abs(it)), "deny" if it > 0 else "none") for it in limits])


class Config:
    """A zone's configuration. It is never changed; what is edited is another one."""

    def __init__(self, values):
        self.values = values

    @classmethod
    def of(cls, **given):
        """A configuration with these properties and resources."""
        return cls({**export_model.blank(), **{name.replace("_", "-"): value for name, value in given.items()}})

    def __eq__(self, other):
        return self.values == other.values

    def with_values(self, **given):
        """The same, with other properties."""
        return Config({**self.values, **given})

    @property
    def path(self):
        return self.values["zonepath"]

    @property
    def brand(self):
        return self.values["brand"]

    @property
    def bootargs(self):
        return self.values["bootargs"]

    @property
    def fs_allowed(self):
        return self.values["fs-allowed"]

    def text(self):
        """The export text."""
        return export_model.export_text(self.values)

    def flaw(self, brands):
        """The first flaw, where these brands are there, or None."""
        return export_model.flaw(self.values, brands)

    def privileges(self):
        """The privileges that its processes may have, or the refusal of its limitpriv."""
        return limit_of(self.values["limitpriv"])

    def filesystems(self):
        """Its fs, in byte order of their directories."""
        return sorted(self.values["fs"], key=lambda it: it["dir"])

    def claims(self):
        """("dataset" or "link" or "address", the item) for each that it asks for, in the order in which they are
        asked for."""
        datasets = [("dataset", it["name"]) for it in self.values["dataset"]]
        if self.values["ip-type"] == "exclusive":
            return datasets + [("link", it["physical"]) for it in self.values["net"]]
        return datasets + [("address", it["address"].partition("/")[0]) for it in self.values["net"]]

    def patterns(self):
        """The patterns of the devices that it asks for."""
        return [it["match"] for it in self.values["device"]]

    def most(self):
        """How many processes it allows, or None where it says nothing of that."""
        bounds = [int(limit) for it in self.values["rctl"] if it["name"] in BOUNDS
                  for limit, action in it["value"] if action == "deny"]
        return min(bounds, default=None)
