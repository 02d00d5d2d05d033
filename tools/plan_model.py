"""A plain model of the requests of zoneadm(8): from which states each begins, what is looked at before, and its steps.

plan(kind, state, config, brands) gives the steps of a request as they are printed, but for the numbers that come only
as a step is done, after zid, devices, init, kill and zidback. `unmount` and `release` stand for as many steps as there
are mounts and claims. A reboot is planned as the halt that it begins with; the boot is planned once that is done.
"""

from trace_lines import Refused

# What the hooks of the program's brands refuse, by the change and the code; all else proceeds.
BRANDS = {"ipkg": {}, "lx": {"before clone": 7}}

FROM = {
    "install": ["configured"],
    "clone": ["configured"],
    "attach": ["configured"],
    "detach": ["installed"],
    "uninstall": ["installed", "incomplete"],
    "mark": ["installed"],
    "move": ["installed"],
    "ready": ["installed"],
    "boot": ["installed", "ready"],
    "halt": ["ready", "running"],
    "reboot": ["ready", "running"],
}
# The requests before which a zone's configuration is looked at, and those before which its privileges are, too. A
# zone that is ready has had that done.
VERIFIED = ["install", "clone", "attach", "ready", "boot"]
PRIVILEGED = ["ready", "boot"]

COPIES = ["copy 1", "copy 2", "copy 3", "copy 4"]
ERASURES = ["erase 1", "erase 2", "erase 3", "erase 4"]
HALTED = [
    "state shutting_down", "kill", "unmount", "release", "clear", "state down", "zidback", "state installed",
]


def hooked(kind, steps):
    """Steps between the hooks of a change."""
    return ["hook before " + kind] + steps + ["hook after " + kind]


def ready_part(config):
    """The steps by which a zone gets ready."""
    mounts = ["mount %s" % it["dir"] for it in config.filesystems()]
    claims = ["%s %s" % claim for claim in config.claims()]
    return hooked("ready", ["zid", "limits", "devices", "root"] + mounts + claims + ["state ready"])


def steps_of(kind, state, config, source):
    """The steps of a request that begins."""
    if kind == "install":
        return hooked(kind, ["record incomplete"] + COPIES + ["record installed"])
    if kind == "clone":
        return hooked(kind, ["source %s" % source, "record incomplete"] + COPIES + ["record installed"])
    if kind == "attach":
        return hooked(kind, ["record installed"])
    if kind == "detach":
        return hooked(kind, ["record configured"])
    if kind == "uninstall":
        marked = ["record incomplete"] if state == "installed" else []
        return hooked(kind, marked + ERASURES + ["record configured"])
    if kind in ("mark", "move"):
        return ["record incomplete" if kind == "mark" else "record moved"]
    if kind in ("halt", "reboot"):
        return hooked("halt", HALTED)
    ready = ready_part(config) if state == "installed" else []
    return ready if kind == "ready" else ready + hooked(kind, ["init", "state running"])


def plan(kind, state, config, brands, source=None):
    """The steps of a request in this state, or why it doesn't begin. `source` is what is cloned."""
    if state not in FROM[kind]:
        raise Refused("81 WrongState %s" % state)
    if kind in VERIFIED and state != "ready":
        flaw = config.flaw(brands)
        if flaw is not None:
            raise Refused("85 NotVerified %s" % flaw)
    if kind in PRIVILEGED and state != "ready":
        try:
            config.privileges()
        except Refused as fault:
            raise Refused("84 Privilege %s" % fault) from fault
    return steps_of(kind, state, config, source)
