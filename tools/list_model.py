"""A plain model of the lists of zones that zoneadm(8) shows: which zones they have, and in which columns.

A list of all zones has the running ones; with -i those too that are installed, ready or going down; with -c all of
them. The global zone comes first, unless -n leaves it out, and the others stand in the order in which they were made.
"""

HELP = "attach boot clone detach halt help install list mark move ready reboot uninstall verify"
HEADER = ("ID", "NAME", "STATUS", "PATH", "BRAND", "IP")
WIDTHS = (4, 16, 10, 30, 8, 6)
# The number, name, state, path, UUID, brand and kind of network of the global zone.
GLOBAL = ("0", "global", "running", "/", "", "ipkg", "shared")
INSTALLED = ("installed", "ready", "running", "shutting_down", "down")


def row_of(host, name):
    """What is known of a zone, as of the global zone."""
    record = host.store.records[name]
    network = "excl" if record.config.values["ip-type"] == "exclusive" else "shared"
    return (str(host.zids.get(name, "-")), name.decode(), host.state(name), record.config.path,
            record.uuid, record.config.brand, network)


def columns(row):
    """A row of a table: the number at the right of its column, all else at the left. What is longer than its column
    isn't cut."""
    number, rest = row[0].rjust(WIDTHS[0]), zip(row[1:], WIDTHS[1:])
    return " ".join([number] + [text.ljust(width) for text, width in rest])


def escaped(path):
    """A path between colons: its own have a backslash before them, and so have backslashes."""
    return path.replace("\\", "\\\\").replace(":", "\\:")


def fields(row):
    """A row with colons between its fields."""
    return ":".join(row[:3] + (escaped(row[3]),) + row[4:])


def printed(rows, options):
    if "p" in options:
        return [fields(row) for row in rows]
    if "v" in options:
        return [columns(row) for row in [HEADER] + [row[:4] + row[5:] for row in rows]]
    return [row[1] for row in rows]


def zones(host, options):
    """A list of all zones."""
    states = INSTALLED if "i" in options else ("running",)
    rows = [row_of(host, name) for name in host.store.records if "c" in options or host.state(name) in states]
    return printed(rows if "n" in options else [GLOBAL] + rows, options)


def zone(host, name, options):
    """The list of one zone."""
    return printed([row_of(host, name)], options)
