"""Lines of a trace that bring zones up and down, for the scripts that make traces."""

TURNS = {
    "install": 10, "boot": 13, "halt": 11, "clone": 11, "attach": 5, "detach": 5, "uninstall": 10, "mark": 3, "move": 3,
    "ready": 9, "reboot": 23,
}


def made(zone, session=1, brand="ipkg"):
    """The line that makes a zone, in a list."""
    return ["S %d zonecfg -z %s create -b; set zonepath=/zones/%s; set brand=%s" % (session, zone, zone, brand)]


def done(zone, asked, session=1):
    """A request, and as many turns as it takes where nothing refuses it; a boot is one from installed, a reboot one of
    a zone that runs."""
    return ["S %d zoneadm -z %s %s" % (session, zone, asked)] + ["D %s" % zone] * TURNS[asked.split(" ")[0]]


def installed(zone, session=1):
    return made(zone, session) + done(zone, "install", session)


def running(zone, session=1):
    return installed(zone, session) + done(zone, "boot", session)
