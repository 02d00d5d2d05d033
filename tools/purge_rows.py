"""Traces whose grants are known, and what is known to be left of them where the entries of one zone are purged, with
which the model in trace_model.py is compared.

fault() gives what it answers otherwise, or None; tools/fuzz_trace.py --self-test does this.
"""

import trace_model as model
from call_rows import NO_NUMBER
from config_model import Config, resource
from object_rows import hand_in
from request_rows import left
from system_model import ZIDS
from trace_lines import ALL_LINES
from trace_rows import IN_TURN
from zone_lines import TURNS, done, installed, made, running


def granted(zone, asked, grants=(), count=None):
    """Pairs of a line and its grant: a request and its turns, of which those of some numbers have a grant."""
    turns = ["D %s" % zone] * (count or TURNS[asked.split(" ")[0]])
    given = dict(grants)
    lines = [("S 1 zoneadm -z %s %s" % (zone, asked), "-")]
    return lines + [(line, given.get(number, "-")) for number, line in enumerate(turns, 1)]


def typed(zone, edits):
    """Pairs of a line of subcommands, typed as a whole, and its grant."""
    return [("S 1 zonecfg -z %s %s" % (zone, edit), grant) for edit, grant in edits]


def commits(zone, *edits):
    """A zone that is made with more than its zonepath, and attached."""
    return ["S 1 zonecfg -z %s %s" % (zone, "; ".join(["create", "set zonepath=/zones/" + zone, *edits]))] + done(
        zone, "attach")


def link(name):
    return "add net; set physical=%s; end" % name


def address(text):
    return "add net; set address=%s; set physical=n; end" % text


def dataset(name):
    return "add dataset; set name=%s; end" % name


def all_ids_are_held(host):
    host.zids = {b"z%d" % number: number for number in ZIDS}


EXCLUSIVE = "set ip-type=exclusive"
DECLARED = ["Y link net0", "Y address 10.0.0.1", "Y dataset tank/a"]

# What a row shows; the configurations that its zones are handed; the lines before; the lines that are looked at, each
# with its grant. Among the lines before may be what is done with the system.
RECORDS = [
    ("records are numbered from the first one on, whatever zone they are of", {}, [], [
        (made("a")[0], "1"), (made("b")[0], "2")] + typed("a", [
            ("set pool=p", "3"), ("set pool=p", "-"), ("info", "-"), ("set pool=q; commit", "4"),
            ("set pool=r; exit -F", "-"), ("set pool=r; exit", "5"), ("delete", "-"), ("delete -F", "6"),
            ("delete -F", "-")]) + [(made("a")[0], "7"), ("R", "-"), (made("c")[0], "8")]),
    ("what is refused before a pool is asked takes nothing", {}, made("a"), typed("a", [
        ("create -b; set zonepath=/b", "-"), ("set zonepath=b", "-"), ("clear zonepath", "-"),
        ("set brand=none", "-"), ("commit; set pool=p", "-"), ("set pool=\"p", "-")])),
    ("a path of another zone is denied", {}, made("a"), typed("b", [("create; set zonepath=/zones/a", "no paths")])
     + typed("a", [("set zonepath=/zones/c", "2")]) + typed("b", [("create; set zonepath=/zones/a", "3")])
     + typed("a", [("set zonepath=/zones/a; commit", "no paths"), ("info pool; set zonepath=/zones/a", "no paths"),
                   ("set zonepath=/zones/c", "-"), ("set pool=p", "4")])),
    ("sessions that edit a zone", {}, made("a"), [
        ("S 1 zonecfg -z a", "-"), ("S 2 zonecfg -z a", "-"), ("S 1 set pool=p", "-"), ("S 2 set pool=q", "-"),
        ("S 1 verify", "-"), ("S 1 commit", "2"), ("S 1 commit", "-"), ("S 2 commit", "-"), ("S 2 revert -F", "-"),
        ("S 2 set pool=q; exit", "3"), ("S 2 x", "-"), ("S 1 set pool=x", "-"), ("S 1 exit", "-"),
        ("S 1 revert -F", "-"), ("S 1 exit", "-"), ("S 1 zonecfg -z a", "-"), ("S 1 delete -F", "4"),
        ("S 1 zonecfg -z b", "-"), ("S 1 create; set zonepath=/b", "-"), ("S 1 commit", "5"),
        ("S 1 set zonepath=/c", "-"), ("S 1 exit", "6")]),
    ("requests that record", {}, made("a"), granted("a", "install", {3: "2", 8: "3"})
     + granted("a", "mark incomplete", {2: "4"}) + granted("a", "uninstall -F", {7: "5"}, 9)
     + granted("a", "attach", {3: "6"}) + granted("a", "move /z", {2: "7"}) + granted("a", "move /z", {2: "8"})
     + granted("a", "detach", {3: "9"}) + granted("a", "attach", {3: "10"})
     + granted("a", "uninstall -F", {3: "11", 8: "12"}) + [("D a", "-")]),
    ("requests that don't begin, and brands that refuse", {}, made("a") + made("x", brand="lx"),
     granted("a", "halt", count=1) + granted("a", "ready", count=1) + granted("x", "clone a", count=3)),
    ("a move to a path of another zone", {}, installed("a") + made("b"),
     granted("a", "move /zones/b", {2: "no paths"}) + granted("a", "move /zones/c", {2: "5"})),
    ("a move that makes the export text too large asks no pool",
     {"a": Config.of(attr=[resource("attr", name="n%d" % at, type="string", value="v" * 1000) for at in range(31)])},
     made("a") + done("a", "attach"),
     granted("a", "move /" + "p" * 1022) + granted("a", "move /" + "p" * 57, {2: "4"})),
    ("sources of clones", {}, installed("s") + made("a") + made("b"),
     granted("a", "clone nosuch", {3: "no source"}, 4) + granted("a", "clone a", {3: "no source"}, 4)
     + granted("a", "clone s", {3: "yes", 4: "6", 9: "7"}) + granted("s", "ready", {3: "1"})
     + granted("b", "clone s", {3: "no source"}, 4)),
    ("a store that is full", {}, installed("a") + made("b") + [left(0)], typed("b", [
        ("set pool=p", "no store"), ("set zonepath=/zones/a", "no paths"), ("set zonepath=/zones/c", "no store"),
        ("delete -F", "no store")]) + typed("c", [
            ("create; set zonepath=/zones/a", "no paths"), ("create; set zonepath=/c", "no store")])
     + granted("b", "install", {3: "no store"}, 4) + granted("a", "mark incomplete", {2: "no store"})
     + granted("a", "move /x", {2: "no store"}) + granted("a", "move /zones/b", {2: "no paths"})
     + granted("a", "boot", {3: "1", 10: "2"})),
    ("as many zones as there may be", {}, ["S 1 zonecfg -z z%d create; set zonepath=/z%d" % (it, it)
                                           for it in range(256)], typed("z", [
        ("create; set zonepath=/z", "no zones"), ("create; set zonepath=/z0", "no zones"),
        ("create; set zonepath=z", "-"), ("create", "-")]) + typed("z9", [
            ("set zonepath=/z0", "no paths"), ("delete -F", "257")]) + typed("z", [
                ("create; set zonepath=/z0", "no paths"), ("create; set zonepath=/z9", "258")])),
]

OBJECTS = [
    ("ids and first processes", {}, installed("a"), granted("a", "boot", {3: "1", 10: "2"}) + granted("a", "halt")
     + granted("a", "boot", {3: "2", 10: "3"}) + granted("a", "halt") + granted("a", "ready", {3: "3"})
     + granted("a", "boot", {3: "4"}, 6) + granted("a", "reboot", {13: "4", 20: "5"}) + [("R", "-")]
     + granted("a", "boot", {3: "1", 10: "2"})),
    ("no id is left", {}, installed("a") + [all_ids_are_held], granted("a", "boot", {3: "no zids"}, 4)),
    ("what is declared asks nothing", {}, [], [
        ("Y link net0", "-"), ("Y link net0", "-"), ("Y device /dev/dsk", "-"), ("Y address 10.0.0.1", "-")]),
    ("items that are given, and items that another zone has", {}, DECLARED
     + commits("a", EXCLUSIVE, link("net0"), dataset("tank/a")) + commits("b", EXCLUSIVE, link("net0"))
     + commits("c", address("10.0.0.1")) + commits("d", address("10.0.0.1/24")) + commits("e", dataset("tank/a")),
     granted("a", "boot", {3: "1", 7: "yes", 8: "yes", 12: "2"}, 15)
     + granted("b", "boot", {3: "2", 7: "no links"}, 12) + granted("c", "ready", {3: "3", 7: "yes"}, 10)
     + granted("d", "ready", {3: "4", 7: "no addresses"}, 12) + granted("e", "boot", {3: "5", 7: "no datasets"}, 12)
     + granted("a", "halt", count=13) + granted("b", "boot", {3: "6", 7: "yes", 11: "3"}, 14)),
    ("items that aren't declared", {}, commits("a", EXCLUSIVE, dataset("tank/a"), link("net0"))
     + commits("b", EXCLUSIVE, link("net0")) + commits("c", address("10.0.0.1")),
     granted("a", "ready", {3: "1", 7: "no datasets"}, 12) + granted("b", "ready", {3: "2", 7: "no links"}, 12)
     + granted("c", "ready", {3: "3", 7: "no addresses"}, 12)),
    ("calls of processes", {}, running("a") + running("b"), [
        ("P a 2 fork x", "4"), ("P b 3 fork x", "5"), ("P a 4 fork y", "6"), ("P a 5 fork x", "-"),
        ("P a 2 exec sh", "-"), ("P a 2 ps", "-"), ("P a 2 mount nfs h /m", "-"), ("P a 2 umount /m", "-"),
        ("P a 2 read /x", "-"), ("P a 2 cons x", "-"), ("P a 2 kill 9 4", "-"), ("P a 6 exit", "-"),
        ("P a 2 drop proc_fork", "-"), ("P a 2 fork x", "-"), ("S 1 kill 9 5", "-"), ("P b 3 fork x", "7")]),
    ("logins and their lines", {}, running("a") + made("b"), [
        ("S 1 zlogin a", "3"), ("S 1 ps", "-"), ("S 1 fork x", "4"), ("S 1 kill 9 4", "-"), ("S 1 drop proc_fork", "-"),
        ("S 1 fork x", "-"), ("S 1 nonsense", "-"), ("S 1", "-"), ("S 1 ~.", "-"), ("S 1 zlogin -E a", "5"),
        ("S 1 exit", "-"), ("S 1 zlogin b", "-"), ("S 1 zlogin c", "-"), ("S 1 zlogin global", "-"),
        ("S 1 zlogin -C a", "-"), ("S 1 x", "-"), ("S 1 ~.", "-"), ("S 2 fhold -z a /", "-"),
        ("S 2 frelease -z a /", "-")]),
    ("calls alone", {}, running("a") + made("b"), [
        ("S 1 zlogin a ps", "3"), ("S 1 zlogin a false", "4"), ("S 1 zlogin a exit", "5"), ("S 1 zlogin a fork x", "6"),
        ("S 1 zlogin a kill 9 99", "7"), ("S 1 zlogin a nonsense", "-"), ("S 1 zlogin b ps", "-"),
        ("S 1 zlogin c ps", "-"), ("S 1 zlogin a drop proc_fork", "8"), ("P a 2 fork x", "9")]),
    ("one process at most", {}, commits("a", "set max-processes=1"), granted("a", "boot", {3: "1", 10: "2"}) + [
        ("P a 2 fork x", "-"), ("S 1 zlogin a", "-"), ("S 1 zlogin a true", "-")]),
    ("no number of a process is left", {}, installed("b") + NO_NUMBER, [
        ("P a 2 fork x", "no pids"), ("S 1 zlogin a", "no pids"), ("S 1 zlogin a true", "no pids"),
        ("S 1 zlogin a fork x", "no pids"), ("P a 100 exit", "-"), ("S 2 zlogin a", "100"), ("S 2 fork x", "no pids"),
        ("S 2 ~.", "-"), ("S 1 zlogin a fork x", "100"), ("P a 2 fork x", "100")]
     + granted("b", "boot", {3: "2", 10: "no pids"}, 11) + granted("b", "boot", {3: "no pids"}, 4)
     + [("S 1 kill 15 29999", "-")] + granted("b", "boot", {3: "29999"}, 6)),
]


# The whole of what is written.

def with_grants(pairs):
    return ["@%s %s" % (grant, line) for line, grant in pairs]


MADE_B = "S 1 zonecfg -z b create -b; set zonepath=/zones/b; set brand=ipkg"
OF_B = with_grants(
    [(MADE_B, "2"), ("S 2 zoneadm -z b install", "-")] + [("D b", it) for it in "- - 5 - - - - 6 - -".split()]
    + [("S 2 zoneadm -z b boot", "-")] + [("D b", it) for it in "- - 2 - - - - - - 3 - - -".split()]
    + [("P b 3 fork y", "5"), ("P b 3 ps", "-")])
INSTALLED_B = with_grants(
    [(MADE_B, "4"), ("S 1 zoneadm -z b install", "-")] + [("D b", it) for it in "- - 5 - - - - 6 - -".split()])

CALLS = ["P a 2 " + it for it in [
    "fork x", "cons ", "cons  a  b ", "kill 15 0", "drop proc_fork", "mount lofs /x /m ro", "mount nfs h:/x /m", "ps"]]

# What a row shows; the zone; the lines; what is written; the status; the line of standard error.
WRITTEN = [
    ("two zones in turn", "b", IN_TURN, OF_B, 0, ""),
    ("a line of a session that waits for another zone's ticket", "b", installed("a") + installed("b")
     + ["S 1 zoneadm -z a boot", "S 1 zoneadm -z b boot"], INSTALLED_B, 1, "first refused line: 26\n"),
    ("what a session types that waits for the zone's ticket", "a",
     made("a") + ["S 1 zoneadm -z a halt", "S 1 zoneadm -z b boot", "S 1"],
     ["@1 " + made("a")[0], "@- S 1 zoneadm -z a halt", "@- S 1 zoneadm -z b boot", "@- S 1"], 1,
     "first refused line: 3\n"),
    ("a zone of which no line is", "c", ["Y link net0", "Y link net0"] + made("a") + ["R"] + made("b"),
     ["@- Y link net0", "@- Y link net0", "@- R"], 1, "first refused line: 2\n"),
    ("each line of all of the system", "a", DECLARED + ["Y device /dev/dsk"] + made("a") + ["R", "R"],
     with_grants([(line, "-") for line in DECLARED + ["Y device /dev/dsk"]] + [(made("a")[0], "1")])
     + ["@- R", "@- R"], 0, ""),
    ("lines of the global zone", "a", [
        "S 1", "S 1 zoneadm list", "S 2 nonsense", "S 1 kill 9 2", "S 1 zoneadm -z -a halt",
        "S 1 zonecfg -z global info", "S 1 zlogin -C", "S 1 zoneadm help"], [], 1, "first refused line: 3\n"),
    ("lines that are no event", "a", ["", "# S 1", "   ", "#@- D a", "D a", "  "], ["@- D a"], 0, ""),
    ("a zone that isn't stored", "a",
     ["D a", "P a 2 ps", "S 1 zoneadm -z a halt", "S 1 zlogin a", "S 1 x -z a -z b", "D b"],
     ["@- D a", "@- P a 2 ps", "@- S 1 zoneadm -z a halt", "@- S 1 zlogin a", "@- S 1 x -z a -z b"], 1,
     "first refused line: 2\n"),
    ("texts as they are typed", "a",
     ["S 1   zoneadm  -z a   list ", "S 1 zonecfg -z a", "S 1 ", "S 1", "S 1  ", "S 1  info ", "S 1 @5 # x", "S 1 exit",
      "S 1 "],
     ["@- S 1   zoneadm  -z a   list ", "@- S 1 zonecfg -z a", "@- S 1", "@- S 1", "@- S 1  ", "@- S 1  info ",
      "@- S 1 @5 # x", "@- S 1 exit"], 1, "first refused line: 1\n"),
    ("calls as they are written", "a", CALLS, with_grants([(call, "-") for call in CALLS]), 1,
     "first refused line: 1\n"),
    ("a session that edits one zone types of another one", "a", made("b") + ["S 1 zonecfg -z a"] + made("b") + [
        "S 1 zoneadm -z b install", "S 1 create; set zonepath=/a", "S 1 exit", "S 1 zoneadm -z b halt", "S 2 info"],
     ["@- S 1 zonecfg -z a", "@- " + MADE_B, "@- S 1 zoneadm -z b install", "@- S 1 create; set zonepath=/a",
      "@2 S 1 exit"], 1, "first refused line: 3\n"),
    ("a signal belongs to the zone of the process", "b", running("a") + made("b") + done("b", "attach")
     + done("b", "boot") + ["S 1 kill 0 2", "S 2 kill 9 3", "S 2 kill 9 3", "S 2 kill 9 3 -z b"],
     with_grants([(MADE_B, "4"), ("S 1 zoneadm -z b attach", "-")] + [("D b", it) for it in "- - 5 - -".split()]
                 + [("S 1 zoneadm -z b boot", "-")] + [("D b", it) for it in "- - 2 - - - - - - 3 - - -".split()]
                 + [("S 2 kill 9 3", "-"), ("S 2 kill 9 3 -z b", "-")]), 1, "first refused line: 50\n"),
    ("a line outside the grammar", "a", ["Y link net0", "D a", "D b", "Y link net1", "D a"],
     ["@- Y link net0", "@- D a"], 3, "line 4: 104 SysAfterStart\n"),
    ("a grant in a line", "a", ["D a", "@- D a"], ["@- D a"], 3, "line 2: 103 GrantForm\n"),
    ("a line of the most bytes, and a longer one", "a", ["D a", "S 1 x -z a " + "y" * 4085, "S 1 x -z a " + "y" * 4086],
     ["@- D a", "@- S 1 x -z a " + "y" * 4085], 8, "limit at line 3\n"),
    ("nothing", "a", [], [], 0, ""),
]


# How the model is asked.

def grants_fault(title, configs, before, pairs):
    """The first line of a row that has another grant, or None."""
    host, configs = model.Host(known=ALL_LINES), dict(configs)
    for line, want in [(line, None) for line in before] + pairs:
        if callable(line):
            line(host)
            continue
        answer = host.answer(host.read(line.encode()))
        hand_in(host, configs)
        if want not in (None, answer.grant):
            return "%s: %s: @%s, %s" % (title, line, answer.grant, answer.lines)
    return None


def written_fault(title, zone, lines, wanted, status, error):
    """What is written otherwise, or None. The last newline may be missing."""
    want = status, "".join(line + "\n" for line in wanted).encode(), error.encode()
    for end in ["\n", ""] if lines else [""]:
        got = model.run(("\n".join(lines) + end).encode(), known=ALL_LINES, command="purge " + zone)
        if got != want:
            return "%s: %r" % (title, got)
    return None


def fault():
    """What the model answers otherwise than it is known, or None."""
    faults = [grants_fault(*row) for row in RECORDS + OBJECTS] + [written_fault(*row) for row in WRITTEN]
    return next((it for it in faults if it is not None), None)
