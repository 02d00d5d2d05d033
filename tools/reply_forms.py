"""The forms that replies of `zones trace` and lines of `zones purge` have, and the kinds that tools/fuzz_trace.py
counts them by.

misformed(text) gives the first line of replies that has no form, or None, and misgranted(text) the same of events with
their grants; kind_of_line(line) names a line's form without what differs from trace to trace.
"""

import re

from trace_lines import ALL_LINES, Outside, event_of, spelled

NUMBER = r"(0|[1-9][0-9]*)"
ZONE = r"[A-Za-z0-9][A-Za-z0-9_.-]{0,62}"
PATH = r"/[!-~]*"
ITEM = r"(link [\w./-]{1,63}|address [0-9.]{7,15}|dataset [\w./-]{1,63})"
STATE = "(configured|incomplete|installed|ready|running|shutting_down|down)"
POOL = "(pids|zids|zones|paths|store|links|addresses|datasets|source)"
BRAND = r"[\w.-]{0,32}"
# A flaw of a configuration, which may end with an empty text, and one of its privileges.
FLAW = "(%s)" % "|".join([
    "41 NoZonepath", "42 MissingProperty [a-z]+ [a-z]+", "43 NetForm N", "44 BadAddress [ -~]*", "45 SameDir PATH",
    "46 UnknownBrand BRAND", r"50 AttrForm [\w.-]{1,63}",
])
PRIVILEGE = "(47 PrivWord N|48 PrivRequired [a-z_]+|49 PrivProhibited [a-z_]+)"
CODE = "|".join([
    "1 Empty", "2 TooLong", "3 BadByte N", "4 Reserved", "11 OpenQuote N", "12 StrayByte N", "13 OpenBracket N",
    "14 NoValue N", "22 UnknownProperty", "23 BadValue", "24 Duplicate", "25 NoMatch", "26 SeveralMatch N",
    "27 TooMany N", "28 AliasHeld", "29 TooLarge N", "31 UnknownCommand",
    "32 WrongScope (global|fs|net|device|rctl|attr|dataset)", "33 NothingOpen", "34 NeedForce", "35 Usage",
    FLAW, PRIVILEGE, "71 TooManyMounts", "75 Taken", "81 WrongState " + STATE, "82 Denied " + POOL, "83 HookRefused N",
    "84 Privilege " + PRIVILEGE, "85 NotVerified " + FLAW, "90 NoZone", "91 Waiting N", "92 DeskFull",
    "93 Usage", "94 Changed N N", "95 NotRunning " + STATE, "96 HoldState", "97 DeskInUse", "98 NoProcess",
    "99 NoMount",
])
ERRNO = "ESRCH|EPERM|EAGAIN|EINVAL|ENOENT|EROFS|EBUSY|ENAMETOOLONG"
STEP = "|".join([
    "hook (before|after) (install|uninstall|clone|attach|detach|ready|boot|halt)",
    "record (configured|incomplete|installed|moved)", "copy [1-4]", "erase [1-4]", "source ZONE", "zid N", "limits",
    "devices N", "root", "mount PATH", "ITEM", "state " + STATE, "init N", "kill N", "unmount PATH", "release ITEM",
    "clear", "zidback N",
])
KIND = "install|uninstall|clone|attach|detach|mark|move|ready|boot|halt|reboot"
HEAD = "|".join([
    "ok", "ticket N", "status (0|1|127)", "err (%s|%s)" % (CODE, ERRNO), "idle", "began N (%s)" % KIND,
    "step (%s)" % STEP, "failed N: (%s)" % CODE, "undone (%s)" % STEP, "stuck unmount",
    "finished N (ok|err (%s))" % CODE,
])
MADE = [("N", NUMBER), ("PATH", PATH), ("ITEM", ITEM), ("ZONE", ZONE), ("BRAND", BRAND)]

# What a line of a body is, the narrower forms first. The last one is what was written to a console.
BODIES = [
    ("| REFUSAL", "%s|%s" % (CODE, ERRNO)),
    ("| ID:NAME:STATE:PATH:UUID:BRAND:IP", r"(N|-):[!-~]+:%s:PATH:[0-9a-f-]*:[\w.-]*:(shared|excl)" % STATE),
    ("| ID NAME STATUS PATH BRAND IP", r" *(N|-) [!-~]+ +%s +PATH +[\w.-]* +(shared|excl) *" % STATE),
    ("| ID NAME STATUS PATH BRAND IP", r"  ID NAME +STATUS +[P]ATH +[B]RAND +IP +"),
    ("| KIND:", r"(fs|net|device|rctl|attr|dataset):"),
    ("| PROPERTY: VALUE", r"(    )?[a-z-]+: [ -~]*"),
    ("| SUBCOMMAND", r"create -b|(set|add) [ -~]+|end"),
    ("| WORD WORD WORD", r"[a-z]+( [a-z]+){13,15}"),
    ("| child N", r"child N"),
    ("| DIR TYPE ro or rw", r"PATH [A-Za-z0-9]{1,15} r[ow]"),
    ("| N N NAME", r"N N [A-Za-z0-9_.-]{1,16}"),
    ("| ITEM", r"ITEM"),
    ("| PRIVILEGES", r"|[a-z_]+(,[a-z_]+)+"),
    ("| PLACE", r"/[ -~]*"),
    ("| <TYPE:PLACE>", r"<[A-Za-z0-9]{1,15}:[ -~]+>[!-~]*"),
    ("| WORD", r"[!-~]+"),
    ("| TEXT", r"[ -~]*"),
]


def whole(form):
    """A form whose words in capitals stand for what is made."""
    for name, pattern in MADE:
        form = re.sub(r"\b%s\b" % name, lambda _: pattern, form)
    return re.compile("(?:%s)\\Z" % form)


# The grants that an event of each kind may have.
GRANTS = {
    "S": "-|N|no (pids|zones|paths|store)", "P": "-|N|no pids", "Y": "-", "R": "-",
    "D": "-|N|yes|no (pids|zids|paths|store|links|addresses|datasets|source)",
}
GRANTED_LINE = whole("|".join("@(%s) (?P<%s>%s( [ -~]+)?)" % (grants, tag, tag) for tag, grants in GRANTS.items()))

HEAD_LINE = whole(r"(?P<subject>\*|%s) (?P<head>%s)" % (ZONE, HEAD))
BODY_LINES = [(kind, whole(form)) for kind, form in BODIES]


def body_kind(said):
    """The first form that a line of a body has, or None."""
    return next((kind for kind, form in BODY_LINES if form.match(said)), None)


def misformed(text):
    """The first line of an output that has no form, that isn't ended, or that is a body without `ok`, a status or a
    refusal above it."""
    lines = text.decode("latin-1").split("\n")
    if lines.pop():
        return "a last line without its newline"
    has_body = False
    for line in lines:
        if line.startswith("| "):
            if not has_body or body_kind(line[2:]) is None:
                return line
            continue
        if not HEAD_LINE.match(line):
            return line
        has_body = line.split(" ")[1] in ("ok", "status", "err")
    return None


def misgranted(text):
    """The first line of events with their grants that has no form, that isn't ended, or whose event is written
    otherwise."""
    lines = text.decode("latin-1").split("\n")
    if lines.pop():
        return "a last line without its newline"
    started = False
    for line in lines:
        found = GRANTED_LINE.match(line)
        if found is None or not is_spelled(found.group(found.lastgroup).encode(), started):
            return line
        started = started or found.lastgroup != "Y"
    return None


def is_spelled(line, started):
    """Whether a line is as its event is written."""
    try:
        return spelled(event_of(line, started, ALL_LINES)) == line
    except Outside:
        return False


def kind_of(said):
    """What is said, without the numbers, directories, names and items that differ from trace to trace; codes and
    statuses stay."""
    said = re.sub(r"\b(source|UnknownBrand|AttrForm|BadAddress) .*", r"\1 NAME", said)
    said = re.sub(r"(?<!status )\b\d+\b(?! [A-Z])", "N", said)
    said = re.sub(r"\b(mount|unmount|SameDir) /.*", r"\1 DIR", said)
    return re.sub(r"\b(link|address|dataset) .*", r"\1 ITEM", said)


def kind_of_line(line):
    """The same of a line of the replies, without its subject and what a body shows, or of an event with its grant,
    without what stands behind its tag."""
    granted = GRANTED_LINE.match(line)
    if granted is not None:
        tag = granted.lastgroup
        grant = line[1:granted.start(tag) - 1]
        return "@%s %s" % ("N" if grant.isdigit() else grant, tag)
    subject, said = line.split(" ", 1)
    if subject == "|":
        kind = body_kind(said)
        return "| " + kind_of(said) if kind == "| REFUSAL" else kind or line
    return kind_of(said)
