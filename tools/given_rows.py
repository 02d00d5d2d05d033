"""What may be stated of an event, and what may not, where no row of crates/zones_docs/data/rows can go: at the end of a
pool, and with the hooks of other brands. The model in trace_model.py is compared with it.

fault() gives what it answers otherwise, or None; tools/fuzz_trace.py --self-test does this.
"""

import copy

import trace_model as model
from call_rows import NO_NUMBER
from config_model import Config, resource
from object_rows import hand_in
from pool_model import Misfit
from purge_rows import all_ids_are_held
from request_rows import left
from trace_lines import ALL_LINES
from zone_lines import done, installed, made

MISFIT = None
# The bodies: of a zone that is made with a name and a path like these, of one that gets a pool, and of one that goes.
MADE, WITH_POOL, REMOVED = 171, 182, 18
MAKES_B, MAKES_AT_A = ("S 1 zonecfg -z b create; set zonepath=%s" % path for path in ("/zones/b", "/zones/a"))
POOL, ELSEWHERE, GONE = ("S 1 zonecfg -z a " + it for it in ("set pool=p", "set zonepath=/x", "delete -F"))
LARGE = Config.of(attr=[resource("attr", name="n%d" % at, type="string", value="v" * 1000) for at in range(31)])


def asked(zone, what, turns):
    """A request, and so many of its turns."""
    return ["S 1 zoneadm -z %s %s" % (zone, what)] + ["D " + zone] * turns


# What a row shows; the configurations that its zones are handed; what is done before, under the grants that are due;
# and what is tried then: a line, what is stated of it, and its reply, or MISFIT. What fits goes on to the next ones.
ROWS = [
    ("a store without room", {}, made("a") + [left(0)], [
        (MAKES_B, "2", MISFIT), (MAKES_B, "-", MISFIT), (MAKES_B, "no zones", "b err 82 Denied zones"),
        (MAKES_B, "no paths", "b err 82 Denied paths"), (MAKES_B, "no store", "b err 82 Denied store"),
        (POOL, "2", MISFIT), (POOL, "no paths", MISFIT), (POOL, "no store", "a err 82 Denied store"),
        (ELSEWHERE, "2", MISFIT), (ELSEWHERE, "no paths", "a err 82 Denied paths"),
        (ELSEWHERE, "no store", "a err 82 Denied store"), (GONE, "2", MISFIT), (GONE, "no store", "a err 82 Denied store"),
    ]),
    ("a record of a request that has no room", {}, made("a") + asked("a", "install", 2) + [left(0)], [
        ("D a", "2", MISFIT), ("D a", "-", MISFIT), ("D a", "no paths", MISFIT),
        ("D a", "no store", "a failed 2: 82 Denied store"),
    ]),
    ("room that is just enough, and too little by one byte", {}, made("a"), [
        (left(5 + WITH_POOL - 1), None, None), (POOL, "2", MISFIT), (left(5 + WITH_POOL), None, None), (POOL, "2", "a ok"),
        (left(5 + MADE - 1), None, None), (MAKES_B, "3", MISFIT), (left(5 + MADE), None, None), (MAKES_AT_A, "3", "b ok"),
        (left(5 + REMOVED - 1), None, None), (GONE, "4", MISFIT), (left(5 + REMOVED), None, None), (GONE, "4", "a ok"),
    ]),
    ("no number of a process is left", {}, installed("b") + NO_NUMBER + asked("b", "boot", 9), [
        ("P a 2 fork x", "3", MISFIT), ("P a 2 fork x", "29999", MISFIT), ("P a 2 fork x", "30000", MISFIT),
        ("P a 2 fork x", "-", MISFIT), ("P a 2 fork x", "no pids", "a err 82 Denied pids"),
        ("S 2 zlogin a", "100", MISFIT), ("S 2 zlogin a", "no pids", "a err 82 Denied pids"),
        ("S 2 zlogin a true", "100", MISFIT), ("S 2 zlogin a true", "no pids", "a err 82 Denied pids"),
        ("D b", "2", MISFIT), ("P a 100 exit", "-", "a ok"), ("D b", "101", MISFIT), ("D b", "100", "b step init 100"),
        ("P a 2 fork x", "100", MISFIT),
    ]),
    ("no number of a zone is left", {}, installed("a") + [all_ids_are_held] + asked("a", "boot", 2), [
        ("D a", "1", MISFIT), ("D a", "9999", MISFIT), ("D a", "10000", MISFIT), ("D a", "-", MISFIT),
        ("D a", "no zids", "a failed 2: 82 Denied zids"),
    ]),
    ("a move that makes the export text too large asks no pool", {"a": LARGE},
     made("a") + done("a", "attach") + asked("a", "move /" + "p" * 1022, 1), [
         ("D a", "3", MISFIT), ("D a", "no paths", MISFIT), ("D a", "no store", MISFIT),
         ("D a", "-", "a failed 1: 29 TooLarge 33733"),
     ]),
    ("a hook that refuses asks no pool", {}, installed("s") + made("x", brand="lx") + asked("x", "clone s", 1), [
        ("D x", "yes", MISFIT), ("D x", "no source", MISFIT), ("D x", "5", MISFIT),
        ("D x", "-", "x failed 1: 83 HookRefused 7"), ("D x", "yes", MISFIT),
    ]),
    ("what waits for a ticket asks no pool", {}, made("a") + ["S 1 zoneadm -z a attach"], [
        (POOL, "2", MISFIT), (POOL, "no store", MISFIT), (POOL, "-", "a err 91 Waiting 1"),
    ]),
    ("a commit that comes too late asks no pool", {}, made("a") + [
        "S 1 zonecfg -z a", "S 2 zonecfg -z a set pool=p", "S 1 set pool=q"], [
            ("S 1 commit", "3", MISFIT), ("S 1 commit", "no store", MISFIT), ("S 1 commit", "-", "a err 94 Changed 1 2"),
            ("S 1 delete -F", "3", MISFIT), ("S 1 delete -F", "-", "a err 94 Changed 1 2"),
        ]),
    ("a deletion asks once the daemon has nothing to do", {}, made("a") + ["S 2 zoneadm -z a halt"], [
        (GONE, "2", MISFIT), (GONE, "-", "a err 97 DeskInUse"), ("D a", "-", "a finished 1 err 81 WrongState configured"),
        (GONE, "-", MISFIT), (GONE, "2", "a ok"),
    ]),
    ("a zone that isn't configured stays where it is, and isn't deleted", {}, installed("a"), [
        (ELSEWHERE, "4", MISFIT), (ELSEWHERE, "no paths", MISFIT), (ELSEWHERE, "-", "a err 81 WrongState installed"),
        (GONE, "4", MISFIT), (GONE, "-", "a err 81 WrongState installed"), (POOL, "4", "a ok"),
    ]),
]


def tried(host, line, grant):
    """What a line is answered under a stated grant, or MISFIT; a system that it doesn't fit stays as it was."""
    is_kept = copy.deepcopy(host)
    try:
        answer = is_kept.answer(is_kept.read(line.encode()), lambda need: grant)
    except Misfit:
        return MISFIT, host
    return answer.reply().decode().rstrip("\n"), is_kept


def row_fault(title, configs, before, tries):
    """The first line of a row that is answered otherwise, or None."""
    host, configs = model.Host(known=ALL_LINES), dict(configs)
    for line in before:
        if callable(line):
            line(host)
            continue
        host.answer(host.read(line.encode()))
        hand_in(host, configs)
    for line, grant, want in tries:
        if callable(line):
            line(host)
            continue
        got, host = tried(host, line, grant)
        if got != want:
            return "%s: %s under @%s: %s" % (title, line, grant, got)
    return None


def fault():
    """What the model answers otherwise than it is known, or None."""
    return next((it for it in (row_fault(*row) for row in ROWS) if it is not None), None)
