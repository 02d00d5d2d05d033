"""Traces with all requests of zoneadm(8) whose replies are known, with which the model in trace_model.py is compared.

fault() gives what it answers otherwise, or None; tools/fuzz_trace.py --self-test does this. Some of the zones have a
configuration that no line of a trace sets yet, and some of the systems other brands: they are handed to the model.
"""

import dataclasses

import trace_model as model
from config_model import (
    DEFAULT, Config, address_of, dataset_of, device_of, fs_of, limit_of, link_of, rctl_of, resource,
)
from object_rows import ANY, row_fault
from plan_model import FROM
from store_model import MOST_BYTES, Store
from trace_lines import PRIVILEGES, Refused
from zone_lines import done, installed, made, running


# What is done with a system, or looked at in it, between two lines.

def commit(zone, **given):
    """Commits a configuration of which these properties are other ones than before."""
    named = {name.replace("_", "-"): value for name, value in given.items()}
    return lambda host: committed(host, zone.encode(), named)


def committed(host, name, named, seen=None):
    """What a commit is answered."""
    try:
        return host.commit(name, host.config(name).with_values(**named), seen)
    except Refused as refusal:
        return str(refusal)


def brands(**known):
    """Other brands than there were; each hook that refuses is named with `_` before its code."""
    hooks = {name: {change.replace("_", " "): code for change, code in table.items()} for name, table in known.items()}
    return lambda host: host.__setattr__("brands", hooks)


def state(zone):
    return lambda host: host.state(zone.encode())


def stored(zone):
    """State, zonepath, pool and number of a zone's record."""
    def shown(host):
        record = host.store.records[zone.encode()]
        return "%s %s %s %d" % (record.state, record.config.path, record.config.values["pool"], record.revision)
    return shown


def boot_arguments(zone):
    return lambda host: host.bootargs.get(zone.encode())


def left(size):
    """Leaves so many bytes in the store."""
    return lambda host: host.store.__setattr__("used", MOST_BYTES - size)


def used(host):
    return host.store.used


def no_pid_left(host):
    """Another zone has each number that a process may have."""
    process = model.Process(b"z", 0, "x", DEFAULT)
    host.processes.update({pid: dataclasses.replace(process) for pid in range(2, 30000) if pid not in host.processes})


def one_pid_less(host):
    del host.processes[29999]


# How rows are written.

def trail(zone, asked, steps, outcome="ok", session=1, ticket=2):
    """The pairs of a request, with the daemon's turns by what they are answered: steps, and in one of more words what
    isn't a step."""
    kind = asked.split(" ")[0]
    said = ["began %d %s" % (ticket, kind)] + [
        it[1:] if it.startswith("!") else "step " + it for it in steps] + ["finished %d %s" % (ticket, outcome)]
    return [("S %d zoneadm -z %s %s" % (session, zone, asked), "%s ticket %d" % (zone, ticket))] + [
        ("D " + zone, "%s %s" % (zone, it)) for it in said]


def refused(zone, asked, outcome, ticket=2, session=1):
    """The pairs of a request that doesn't begin."""
    return [("S %d zoneadm -z %s %s" % (session, zone, asked), "%s ticket %d" % (zone, ticket)),
            ("D " + zone, "%s finished %d err %s" % (zone, ticket, outcome))]


def failing(steps, outcome, undone=()):
    """The steps up to the one that fails, and what is undone."""
    return steps + ["!failed %d: %s" % (len(steps) + 1, outcome)] + ["!undone " + it for it in undone]


COPIES = ["copy 1", "copy 2", "copy 3", "copy 4"]
ERASED = ["erase 1", "erase 2", "erase 3", "erase 4"]
INSTALL = ["hook before install", "record incomplete"] + COPIES + ["record installed", "hook after install"]
CLONE = ["hook before clone", "source s", "record incomplete"] + COPIES + ["record installed", "hook after clone"]
ATTACH = ["hook before attach", "record installed", "hook after attach"]
DETACH = ["hook before detach", "record configured", "hook after detach"]
UNINSTALL = ["hook before uninstall", "record incomplete"] + ERASED + ["record configured", "hook after uninstall"]
FROM_INCOMPLETE = ["hook before uninstall"] + ERASED + ["record configured", "hook after uninstall"]
READY = ["hook before ready", "zid 1", "limits", "devices 0", "root", "state ready", "hook after ready"]
BOOT = ["hook before boot", "init 2", "state running", "hook after boot"]
HALT = ["hook before halt", "state shutting_down", "kill 1", "unmount /", "clear", "state down", "zidback 1",
        "state installed", "hook after halt"]
AGAIN = ["zid 2" if it == "zid 1" else it for it in READY] + ["init 3" if it == "init 2" else it for it in BOOT]

LIVES = [
    ("a zone is attached, detached, attached and uninstalled", {}, made("a"),
     trail("a", "attach", ATTACH, ticket=1) + trail("a", "detach", DETACH) + trail("a", "attach", ATTACH, ticket=3)
     + trail("a", "uninstall -F", UNINSTALL, ticket=4) + [(state("a"), "configured")]),
    ("a zone is marked, uninstalled and installed", {}, installed("a"),
     trail("a", "mark incomplete", ["record incomplete"]) + [(state("a"), "incomplete")]
     + trail("a", "uninstall -F", FROM_INCOMPLETE, ticket=3) + trail("a", "install", INSTALL, ticket=4)),
    ("a zone is cloned", {}, made("a") + installed("s"),
     trail("a", "clone s", CLONE, ticket=1) + [(stored("a"), "installed /zones/a  1")]),
    ("a zone is made ready, boots and is rebooted", {}, installed("a"),
     trail("a", "ready", READY) + [("P a 2 ps", "a err 98 NoProcess"), (state("a"), "ready")]
     + trail("a", "boot", BOOT, ticket=3) + trail("a", "reboot", HALT + ["!began 4 boot"] + AGAIN, ticket=4)
     + [("P a 3 ps", "a ok | 3 0 init"), (state("a"), "running")]),
    ("a zone that is ready is rebooted, and then halted", {}, installed("a") + done("a", "ready"),
     trail("a", "reboot", [it.replace("kill 1", "kill 0") for it in HALT] + ["!began 3 boot"]
           + [it.replace("init 3", "init 2") for it in AGAIN], ticket=3)
     + trail("a", "halt", [it.replace("zidback 1", "zidback 2") for it in HALT], ticket=4)),
    ("a zone that is ready is halted", {}, installed("a") + done("a", "ready"),
     trail("a", "halt", [it.replace("kill 1", "kill 0") for it in HALT], ticket=3)),
]

MOVES = [
    ("a zone is moved, and its root with it", {}, installed("a"),
     trail("a", "move /new/a", ["record moved"]) + [(stored("a"), "installed /new/a  4")]
     + trail("a", "boot", READY + BOOT, ticket=3) + [("P a 2 read /x", "a ok | /new/a/root/x")]),
    ("a path that another zone has is denied, one that it had is free", {}, installed("a") + made("b"),
     trail("a", "move /zones/b", failing([], "82 Denied paths"), "err 82 Denied paths")
     + trail("a", "move /zones/a", ["record moved"], ticket=3) + trail("a", "move /x", ["record moved"], ticket=4)
     + [("S 1 zonecfg -z c create -b; set zonepath=/x; set brand=lx", "c err 82 Denied paths"),
        ("S 1 zonecfg -z c create -b; set zonepath=/zones/a; set brand=lx", "c ok")]),
    ("a move from another state", {}, made("a"), refused("a", "move /x", "81 WrongState configured", 1)),
    ("a move that makes the export text too large",
     {"a": Config.of(attr=[resource("attr", name="n%d" % at, type="string", value="v" * 1000) for at in range(31)])},
     made("a") + done("a", "attach"),
     trail("a", "move /" + "p" * 1022, failing([], "29 TooLarge 33733"), "err 29 TooLarge 33733")
     + trail("a", "move /" + "p" * 57, ["record moved"], ticket=3)
     + trail("a", "move /" + "q" * 58, failing([], "29 TooLarge 32769"), "err 29 TooLarge 32769", ticket=4)
     + [(lambda host: len(host.config(b"a").text()), 32768)]),
]

CLONES = [
    ("a brand that refuses a clone, and a source that isn't there", {}, made("c", brand="lx") + made("d"),
     trail("c", "clone web", failing([], "83 HookRefused 7"), "err 83 HookRefused 7", ticket=1)
     + trail("d", "clone nosuch", failing(["hook before clone"], "82 Denied source"), "err 82 Denied source", ticket=1)
     + [(state("c"), "configured"), (state("d"), "configured"), (brands(ipkg={}), None)]
     + refused("c", "install", "85 NotVerified 46 UnknownBrand lx")),
    ("a source that isn't installed, and one that is the zone itself", {}, made("a") + made("s"),
     trail("a", "clone s", failing(["hook before clone"], "82 Denied source"), "err 82 Denied source", ticket=1)
     + trail("a", "clone a", failing(["hook before clone"], "82 Denied source"), "err 82 Denied source")),
    ("a source that is incomplete, ready or running, and then halted", {},
     made("a") + installed("s") + done("s", "mark incomplete") + [
         line for name in ("r", "t") for line in installed(name)] + done("r", "ready") + done("t", "boot"),
     [pair for ticket, source in enumerate("srt", 1) for pair in trail(
         "a", "clone " + source, failing(["hook before clone"], "82 Denied source"), "err 82 Denied source",
         ticket=ticket)]
     + [(line, ANY) for line in done("t", "halt")]
     + trail("a", "clone t", [it.replace("source s", "source t") for it in CLONE], ticket=4)),
    ("a source is looked for at its own step", {}, made("a") + installed("s"), [
        ("S 1 zoneadm -z a clone s", "a ticket 1"), ("D a", "a began 1 clone"), ("D a", "a step hook before clone"),
        ("S 2 zoneadm -z s mark incomplete", "s ticket 2"), ("D s", "s began 2 mark"),
        ("D s", "s step record incomplete"), ("D a", "a failed 2: 82 Denied source"),
        ("D a", "a finished 1 err 82 Denied source"),
    ]),
]

# What begins where, by state; the lines that bring zone a there, and the tickets that they take.
BEGINS = {
    "configured": (made("a"), 0, "install clone attach"),
    "incomplete": (installed("a") + done("a", "mark incomplete"), 2, "uninstall"),
    "installed": (installed("a"), 1, "detach uninstall mark move ready boot"),
    "ready": (installed("a") + done("a", "ready"), 2, "boot halt reboot"),
    "running": (running("a"), 2, "halt reboot"),
}
WORDS = {"uninstall": "uninstall -F", "mark": "mark incomplete", "move": "move /x", "clone": "clone s"}


def begun():
    """A row for each request in each state."""
    rows = []
    for where, (before, tickets, begin) in BEGINS.items():
        for kind in FROM:
            asked, ticket = WORDS.get(kind, kind), tickets + 1
            said = "began %d %s" % (ticket, kind)
            if kind not in begin.split(" "):
                said = "finished %d err 81 WrongState %s" % (ticket, where)
            rows.append(("%s from %s" % (kind, where), {}, before, [
                ("S 1 zoneadm -z a " + asked, "a ticket %d" % ticket), ("D a", "a " + said)]))
    return rows


LINK = Config.of(ip_type="exclusive", net=[link_of("net0")])
WHOLE = Config.of(
    limitpriv="default,sys_time,!proc_info", fs=[fs_of("/b", "/x", "lofs", "ro"), fs_of("/a-", "d", "ufs"),
                                                 fs_of("/a/b", "/y", "lofs", "nodevices", "ro", "ro")],
    net=[address_of("10.0.0.1/24"), address_of("10.0.0.2")], dataset=[dataset_of("z/2"), dataset_of("z/1")],
    device=[device_of("/dev/d*"), device_of("/dev/dsk"), device_of("/dev/[!d]")],
    rctl=[rctl_of("zone.max-lwps", 9, 2)], bootargs="-m whole",
)
DECLARED = ["Y address 10.0.0.1", "Y address 10.0.0.2", "Y dataset z/1", "Y dataset z/2", "Y device /dev/dsk",
            "Y device /dev/e", "Y device /dev/rdsk"]
WHOLE_READY = [
    "hook before ready", "zid 1", "limits", "devices 2", "root", "mount /a-", "mount /a/b", "mount /b", "dataset z/2",
    "dataset z/1", "address 10.0.0.1", "address 10.0.0.2",
]
WHOLE_HALT = [
    "hook before halt", "state shutting_down", "kill 2", "unmount /b", "unmount /a/b", "unmount /a-", "unmount /",
    "release address 10.0.0.2", "release address 10.0.0.1", "release dataset z/1", "release dataset z/2", "clear",
    "state down", "zidback 1", "state installed", "hook after halt",
]

WHOLES = [
    ("a whole configuration boots, binds its processes and is halted", {"a": WHOLE}, DECLARED + installed("a"),
     trail("a", "boot", WHOLE_READY + ["state ready", "hook after ready"] + BOOT) + [
         ("P a 2 mounts", "a ok | / root rw | /a- ufs rw | /a/b lofs ro | /b lofs ro"),
         ("P a 2 privs", "a ok | " + ",".join(
             name for name in PRIVILEGES if name in DEFAULT | {"sys_time"} and name != "proc_info")),
         ("P a 2 devices", "a ok | /dev/dsk | /dev/e"), ("P a 2 datasets", "a ok | z/2 | z/1"),
         ("P a 2 links", "a ok | address 10.0.0.1 | address 10.0.0.2"), ("P a 2 fork x", "a ok | child 3"),
         ("P a 2 fork x", "a err EAGAIN"), ("P a 2 write /b/c", "a err EROFS"),
         ("P a 2 read /a-/c", "a ok | <ufs:d>/c"), (boot_arguments("a"), "-m whole")]
     + trail("a", "halt", WHOLE_HALT, ticket=3) + [(boot_arguments("a"), None)]),
    ("what fails last is undone whole", {"a": WHOLE}, [DECLARED[0]] + DECLARED[2:] + installed("a"),
     trail("a", "ready", failing(WHOLE_READY[:-1], "82 Denied addresses", WHOLE_READY[-2:0:-1]),
           "err 82 Denied addresses") + [
         (state("a"), "installed"),
         (lambda host: [host.zids, host.limits, host.devices, host.items.claims, host.mounts[b"a"].by_directory],
          [{}, {}, {}, [], {}]),
         ("S 1 fhold -z a /", "a err 99 NoMount")] + refused("a", "halt", "81 WrongState installed", 3)),
    ("a later commit is not undone by what began before it", {}, made("web") + done("web", "install")[:2], [
        (commit("web", pool="p1"), "ok")] + [("D web", ANY)] * 8 + [
        ("D web", "web finished 1 ok"), (stored("web"), "installed /zones/web p1 2")]
     + trail("web", "move /x", ["record moved"]) + [(stored("web"), "installed /x p1 5")]),
    ("a move keeps a later commit", {}, installed("a") + done("a", "move /x")[:2], [
        (commit("a", pool="p1"), "ok"), ("D a", "a step record moved"), (stored("a"), "installed /x p1 5"),
        ("D a", "a finished 2 ok")]),
    ("the configuration is the one of the begin", {"a": LINK}, ["Y link net0"] + installed("a"), [
        ("S 1 zoneadm -z a boot", "a ticket 2"), ("D a", "a began 2 boot"), (commit(
            "a", net=[], rctl=[rctl_of("zone.max-processes", 1)], bootargs="-s"), "ok")]
     + [("D a", ANY)] * 5 + [("D a", "a step link net0")] + [("D a", ANY)] * 7 + [
         ("P a 2 fork x", "a ok | child 3"), (boot_arguments("a"), "")]
     + trail("a", "reboot", [it.replace("kill 1", "kill 2") for it in HALT[:4]] + ["release link net0"] + HALT[4:]
             + ["!began 3 boot"] + [it.replace("init 3", "init 4") for it in AGAIN], ticket=3) + [
         ("P a 4 fork x", "a err EAGAIN"), (boot_arguments("a"), "-s")]),
    ("a commit that changes nothing stores nothing, and one of path or brand is for a configured zone", {},
     installed("a"), [
         (commit("a", pool=""), "ok"), (stored("a"), "installed /zones/a  1"), (commit("a", pool="p"), "ok"),
         (stored("a"), "installed /zones/a p 4"), (commit("a", zonepath="/x"), "81 WrongState installed"),
         (commit("a", brand="lx"), "81 WrongState installed"), (commit("a", brand="x"), "46 UnknownBrand x"),
         (lambda host: committed(host, b"a", {"pool": "q"}, 3), "94 Changed 3 4"),
         (lambda host: committed(host, b"a", {"zonepath": "/x"}, 3), "94 Changed 3 4"),
         (lambda host: committed(host, b"a", {"pool": "q"}, 4), "ok"), (stored("a"), "installed /zones/a q 5")]
     + trail("a", "detach", DETACH) + [
         (commit("a", zonepath="/x", brand="lx"), "ok"), (stored("a"), "configured /x q 7")]),
    ("a commit of a path that another zone has", {}, made("a") + made("b"), [
        (commit("a", zonepath="/zones/b"), "82 Denied paths"), (commit("a", zonepath="/b"), "ok"),
        (stored("a"), "configured /b  3"),
        ("S 1 zonecfg -z c create -b; set zonepath=/zones/a; set brand=lx", "c ok")]),
]

PRIVILEGED = [
    ("a limitpriv that may not be", {}, running("a") + installed("web"), [
        (commit("web", limitpriv="default,!proc_fork"), "ok")]
     + refused("web", "boot", "84 Privilege 48 PrivRequired proc_fork") + [
         (commit("web", limitpriv="default,zone"), "ok")] + refused("web", "ready", "84 Privilege 47 PrivWord 8", 3)
     + [(commit("web", limitpriv="all"), "ok")] + refused("web", "boot", "84 Privilege 49 PrivProhibited dtrace_kernel",
                                                        4)
     + [(commit("a", limitpriv="x"), "ok")]
     + trail("a", "reboot", HALT, "err 84 Privilege 47 PrivWord 0", ticket=3) + [(state("a"), "installed")]
     + trail("a", "detach", DETACH, ticket=4) + trail("a", "attach", ATTACH, ticket=5)),
    ("a zone that is ready boots whatever its configuration is now", {}, installed("a") + done("a", "ready"), [
        (commit("a", limitpriv="x"), "ok"), (brands(lx={}), None)] + trail("a", "boot", BOOT, ticket=3)),
    ("a brand that isn't there any more is told before the privileges, and asked nothing", {}, running("a"), [
        (commit("a", limitpriv="x"), "ok"), (brands(lx={"before_halt": 9}), None)]
     + trail("a", "reboot", HALT, "err 85 NotVerified 46 UnknownBrand ipkg", ticket=3)
     + refused("a", "boot", "85 NotVerified 46 UnknownBrand ipkg", 4)
     + refused("a", "ready", "85 NotVerified 46 UnknownBrand ipkg", 5)
     + trail("a", "detach", DETACH, ticket=6) + refused("a", "clone s", "85 NotVerified 46 UnknownBrand ipkg", 7)
     + refused("a", "attach", "85 NotVerified 46 UnknownBrand ipkg", 8)),
]


def hooked(change, before, asked, ticket, steps, then):
    """A row in which one hook of ipkg refuses, with the steps before it and the state after it."""
    title = "a hook that refuses %s" % change.replace("_", " ")
    return (title, {}, before + [brands(ipkg={change: 9})], trail(
        "a", asked, failing(steps, "83 HookRefused 9"), "err 83 HookRefused 9", ticket=ticket) + [(state("a"), then)])


HOOKS = [
    hooked("before_install", made("a"), "install", 1, [], "configured"),
    hooked("after_install", made("a"), "install", 1, INSTALL[:-1], "installed"),
    hooked("before_clone", made("a"), "clone s", 1, [], "configured"),
    hooked("after_clone", made("a") + installed("s"), "clone s", 1, CLONE[:-1], "installed"),
    hooked("before_attach", made("a"), "attach", 1, [], "configured"),
    hooked("after_attach", made("a"), "attach", 1, ATTACH[:-1], "installed"),
    hooked("before_detach", installed("a"), "detach", 2, [], "installed"),
    hooked("after_detach", installed("a"), "detach", 2, DETACH[:-1], "configured"),
    hooked("before_uninstall", installed("a"), "uninstall -F", 2, [], "installed"),
    hooked("after_uninstall", installed("a"), "uninstall -F", 2, UNINSTALL[:-1], "configured"),
    hooked("before_ready", installed("a"), "boot", 2, [], "installed"),
    hooked("after_ready", installed("a"), "ready", 2, READY[:-1], "ready"),
    hooked("after_ready", installed("a"), "boot", 2, READY[:-1], "ready"),
    hooked("before_boot", installed("a"), "boot", 2, READY, "ready"),
    hooked("before_boot", installed("a") + done("a", "ready"), "boot", 3, [], "ready"),
    hooked("after_boot", installed("a"), "boot", 2, READY + BOOT[:-1], "running"),
    hooked("before_halt", running("a"), "halt", 3, [], "running"),
    hooked("before_halt", running("a"), "reboot", 3, [], "running"),
    hooked("after_halt", running("a"), "halt", 3, HALT[:-1], "installed"),
    hooked("after_halt", running("a"), "reboot", 3, HALT[:-1], "installed"),
    ("a hook that refuses in the boot of a reboot", {}, running("a") + [brands(ipkg={"before_ready": 9})],
     trail("a", "reboot", HALT + ["!began 3 boot", "!failed 1: 83 HookRefused 9"], "err 83 HookRefused 9", ticket=3)),
]

REBOOTS = [
    ("a reboot loses its link to another zone, and is undone since it began again", {"a": LINK, "b": LINK},
     ["Y link net0"] + installed("b") + running("a") + ["D a"], [
         ("S 1 zoneadm -z a reboot", "a ticket 3"), ("D a", "a began 3 reboot")]
     + [("D a", "a step " + it) for it in HALT[:4] + ["release link net0"]]
     + [(line, ANY) for line in done("b", "boot", 2)] + [("D b", "b finished 2 ok")]
     + [("D a", "a step " + it) for it in HALT[4:]] + [
         ("D a", "a began 3 boot"), ("D a", "a step hook before ready"), ("D a", "a step zid 3"),
         ("D a", "a step limits"), ("D a", "a step devices 0"), ("D a", "a step root"),
         ("D a", "a failed 6: 82 Denied links"), ("S 3 fhold -z a /", "a ok"), ("D a", "a stuck unmount"),
         ("S 3 frelease -z a /", "a ok"), ("D a", "a undone root"), ("D a", "a undone devices 0"),
         ("D a", "a undone limits"), ("D a", "a undone zid 3"), ("D a", "a finished 3 err 82 Denied links"),
         ("D a", "a idle"), (state("a"), "installed")]),
    ("a reboot waits for a held mount, and ends all processes", {}, running("a") + [
        "P a 2 fork x", "P a 3 fork y", "P a 2 mount nfs h /m", "S 2 fhold -z a /m"], [
        ("S 1 zoneadm -z a reboot -- -m x -s", "a ticket 3"), ("D a", "a began 3 reboot"),
        ("D a", "a step hook before halt"), ("D a", "a step state shutting_down"), ("D a", "a step kill 3"),
        ("D a", "a stuck unmount"), ("S 1 frelease -z a /m", "a err 91 Waiting 3"),
        ("S 2 frelease -z a /m", "a ok"), ("D a", "a step unmount /m"), ("D a", "a step unmount /"),
        ("D a", "a step clear"), ("D a", "a step state down"), ("D a", "a step zidback 1"),
        ("D a", "a step state installed"), ("D a", "a step hook after halt"), ("D a", "a began 3 boot")]
     + [("D a", ANY)] * 8 + [("D a", "a step init 5"), ("D a", "a step state running"),
                              ("D a", "a step hook after boot"), ("D a", "a finished 3 ok"),
                              (boot_arguments("a"), "-m x -s"), ("P a 5 mounts", "a ok | / root rw")]),
    ("no number for a first process is left", {}, installed("a") + [no_pid_left],
     trail("a", "boot", failing(READY + ["hook before boot"], "82 Denied pids"), "err 82 Denied pids")
     + trail("a", "boot", failing(["hook before boot"], "82 Denied pids"), "err 82 Denied pids", ticket=3)
     + [(state("a"), "ready"), (one_pid_less, None)]
     + trail("a", "boot -- -s", [it.replace("init 2", "init 29999") for it in BOOT], ticket=4)
     + [(boot_arguments("a"), "-s")]),
    ("arguments of a boot come before the configuration's", {"a": Config.of(bootargs="-m own")}, installed("a"),
     trail("a", "boot -- -i /sbin/init  -s", READY + BOOT) + [(boot_arguments("a"), "-i /sbin/init -s")]
     + trail("a", "reboot --", HALT + ["!began 3 boot"] + AGAIN, ticket=3) + [(boot_arguments("a"), "-m own")]),
]

# A zone's record has 175 bytes as it is made, with a zonepath of ten bytes.
FULL = [
    ("what records take", {}, [], [
        (used, 1), (made("web")[0], "web ok"), (used, 181), (made("web")[0], "web err 34 NeedForce"), (used, 181)]
     + trail("web", "attach", ATTACH, ticket=1) + [(used, 360)]
     + trail("web", "move /zones/webs", ["record moved"]) + [(used, 540)]),
    ("a store that is full", {}, [left(180)], [
        ("S 1 zonecfg -z webs create -b; set zonepath=/zones/web; set brand=ipkg", "webs err 82 Denied store"),
        (made("web")[0], "web ok"), ("S 1 zonecfg -z w create -b; set zonepath=/w; set brand=ipkg",
                                     "w err 82 Denied store"),
        ("S 1 zonecfg -z w create -b; set zonepath=/zones/web; set brand=ipkg", "w err 82 Denied paths"),
        ("S 1 zonecfg -z w create -b; set zonepath=/zones/web; set brand=ipkgs", "w err 46 UnknownBrand ipkgs")]
     + trail("web", "install", failing(["hook before install"], "82 Denied store"), "err 82 Denied store", ticket=1)
     + trail("web", "attach", failing(["hook before attach"], "82 Denied store"), "err 82 Denied store")
     + [(state("web"), "configured"), (left(180), None)]
     + trail("web", "install", failing(INSTALL[:6], "82 Denied store"), "err 82 Denied store", ticket=3)
     + [(state("web"), "incomplete"), (left(179), None)]
     + trail("web", "uninstall -F", failing(FROM_INCOMPLETE[:5], "82 Denied store"), "err 82 Denied store", ticket=4)
     + [(left(180), None)] + trail("web", "uninstall -F", FROM_INCOMPLETE, ticket=5)),
    ("a full store and the requests of an installed zone", {}, installed("a") + made("b") + [left(0)],
     trail("a", "mark incomplete", failing([], "82 Denied store"), "err 82 Denied store")
     + trail("a", "move /x", failing([], "82 Denied store"), "err 82 Denied store", ticket=3)
     + trail("a", "move /zones/b", failing([], "82 Denied paths"), "err 82 Denied paths", ticket=4)
     + trail("a", "detach", failing(["hook before detach"], "82 Denied store"), "err 82 Denied store", ticket=5)
     + trail("a", "boot", READY + BOOT, ticket=6) + trail("a", "halt", HALT, ticket=7)),
]

# Lines on a system in which a and b are stored, each with its answer.
LINES = [
    ("uninstall", "a err 34 NeedForce"), ("uninstall -f", "a err 93 Usage"), ("uninstall -F x", "a err 93 Usage"),
    ("mark", "a err 93 Usage"), ("mark installed", "a err 93 Usage"), ("mark incomplete x", "a err 93 Usage"),
    ("move", "a err 93 Usage"), ("move /", "a err 93 Usage"), ("move x", "a err 93 Usage"),
    ("move /x/", "a err 93 Usage"), ("move /x /y", "a err 93 Usage"), ("move /" + "p" * 1023, "a err 93 Usage"),
    ("clone", "a err 93 Usage"), ("clone b c", "a err 93 Usage"), ("clone global", "a err 4 Reserved"),
    ("clone -z", "a err 3 BadByte 0"), ("clone " + "n" * 64, "a err 2 TooLong"), ("boot -s", "a err 93 Usage"),
    ("boot -- -x", "a err 93 Usage"), ("boot -- -s -s", "a err 93 Usage"), ("boot -- -i x", "a err 93 Usage"),
    ("boot -- -i", "a err 93 Usage"), ("boot -- -m", "a err 93 Usage"), ("boot -- -m x -m y", "a err 93 Usage"),
    ("boot -- --", "a err 93 Usage"), ("reboot -s", "a err 93 Usage"), ("reboot -- -S", "a err 93 Usage"),
    ("ready x", "a err 93 Usage"), ("halt -F", "a err 93 Usage"), ("attach -F", "a err 93 Usage"),
    ("detach x", "a err 93 Usage"), ("install x", "a err 93 Usage"), ("reboot x", "a err 93 Usage"),
    ("-F uninstall", "a err 93 Usage"), ("", "a err 93 Usage"), ("verify", "a err 93 Usage"),
    ("shutdown", "a err 93 Usage"), ("clone nosuch", "a ticket 1"), ("boot -- -m -m", "a ticket 1"),
    ("boot -- -i / -m \"x -s", "a ticket 1"), ("reboot --", "a ticket 1"), ("move /" + "p" * 1022, "a ticket 1"),
    ("clone a", "a ticket 1"),
]
OTHERS = [
    ("SUNW uninstall", "global err 4 Reserved"), ("c uninstall", "c err 34 NeedForce"),
    ("SUNW uninstall -x", "global err 93 Usage"), ("c move /x", "c err 90 NoZone"),
    ("c clone global", "c err 4 Reserved"), ("c clone b", "c err 90 NoZone"),
    ("-a clone global", "global err 3 BadByte 0"), ("global clone -a", "global err 4 Reserved"),
    ("-a move x", "global err 93 Usage"), ("c reboot -- -s", "c err 90 NoZone"),
]
BRANDS = [
    ("lx", "c ok"), ("ipkg", "c ok"), ("solaris", "c err 46 UnknownBrand solaris"),
    ("s.1", "c err 46 UnknownBrand s.1"), ("b" * 32, "c err 46 UnknownBrand " + "b" * 32),
    ("b" * 33, "c err 23 BadValue"), ("a/b", "c err 23 BadValue"), ("", "c err 93 Usage"), ("\"lx\"", "c err 93 Usage"),
    ("lx;", "c err 93 Usage"), ("lx x", "c err 93 Usage"), ("[lx]", "c err 93 Usage"),
    ("LX", "c err 46 UnknownBrand LX"), ("#", "c err 23 BadValue"), ("l=x", "c err 93 Usage"),
]
TYPED = [("line %s" % said, {}, made("a") + made("b"), [("S 1 zoneadm -z a " + said, want)]) for said, want in LINES]
TYPED += [("line %s" % said, {}, made("a") + made("b"), [("S 1 zoneadm -z " + said, want)]) for said, want in OTHERS]
TYPED += [("brand %s" % brand, {}, made("a"), [
    ("S 1 zonecfg -z c create -b; set zonepath=/c; set brand=" + brand, want)]) for brand, want in BRANDS]
TYPED += [
    ("what a line of a new zone is refused for first", {}, made("a"), [
        ("S 1 zonecfg -z c create -b; set zonepath=c; set brand=solaris", "c err 23 BadValue"),
        ("S 1 zonecfg -z c create -b; set zonepath=/zones/a; set brand=solaris", "c err 46 UnknownBrand solaris"),
        ("S 1 zonecfg -z a create -b; set zonepath=c; set brand=/", "a err 34 NeedForce"),
        ("S 1 zonecfg -z SUNW create -b; set zonepath=c; set brand=/", "global err 4 Reserved")]),
    ("eight requests wait, and no more", {}, made("a"), [
        ("S %d zoneadm -z a %s" % (at, asked), "a ticket %d" % at) for at, asked in enumerate(
            ["install", "ready", "boot", "reboot", "halt", "move /x", "mark incomplete", "uninstall -F"], 1)] + [
        ("S 9 zoneadm -z a attach", "a err 92 DeskFull"), ("S 9 zoneadm -z a uninstall", "a err 34 NeedForce"),
        ("S 9 zoneadm -z a clone global", "a err 4 Reserved"), ("S 8 zoneadm -z b ready", "a err 91 Waiting 8"),
        ("D a", "a began 1 install"), ("S 9 zoneadm -z a attach", "a ticket 9"),
        ("S 10 zoneadm -z a detach", "a err 92 DeskFull")] + [("D a", ANY)] * 9 + [
        ("S 1", "global ok"), ("S 2", "a err 91 Waiting 2"), ("D a", "a began 2 ready")]),
]

ROWS = LIVES + MOVES + CLONES + begun() + WHOLES + PRIVILEGED + HOOKS + REBOOTS + FULL + TYPED

# What a limitpriv stands for, or why it is none.
LIMITS = [
    ("", DEFAULT), ("default", DEFAULT), ("default,default", "47 PrivWord 8"), ("proc_fork,default", "47 PrivWord 10"),
    ("proc_audit,!proc_audit", "48 PrivRequired proc_exec"), ("default,!proc_fork", "48 PrivRequired proc_fork"),
    ("default,-sys_mount", "48 PrivRequired sys_mount"), ("default,zone", "47 PrivWord 8"), ("basic", "47 PrivWord 0"),
    ("all", "49 PrivProhibited dtrace_kernel"), ("!default", "47 PrivWord 0"), ("default,", "47 PrivWord 8"),
    ("default,,proc_fork", "47 PrivWord 8"), ("all,!all", "48 PrivRequired proc_exec"),
    ("default,proc_zone", "49 PrivProhibited proc_zone"), ("none", "47 PrivWord 0"), ("default, x", "47 PrivWord 8"),
    ("proc_exec,proc_fork,sys_mount", {"proc_exec", "proc_fork", "sys_mount"}), ("default,!!all", "47 PrivWord 8"),
    ("all,!dtrace_kernel,-proc_zone,!sys_config,!sys_devices", {
        name for name, kind in PRIVILEGES.items() if kind != "P"}),
    ("default,!proc_audit,proc_audit", DEFAULT), ("default,proc_audit,!proc_audit", DEFAULT - {"proc_audit"}),
]


def limited(text):
    """The set that a limitpriv stands for, or the refusal as a text."""
    try:
        return set(limit_of(text))
    except Refused as fault:
        return str(fault)


# Traces that are run one after the other on one store, each with its replies but those of turns that are steps.
RUNS = [
    (made("a") + done("a", "attach") + done("a", "boot") + made("b") + done("b", "install")[:4],
     "a ok|a ticket 1|a began 1 attach|a finished 1 ok|a ticket 2|a began 2 boot|a finished 2 ok|b ok|b ticket 1|"
     "b began 1 install"),
    (["D b", "P a 2 ps"] + done("a", "halt")[:2] + done("b", "uninstall -F")[:8] + made("a"),
     "b idle|a err 98 NoProcess|a ticket 1|a finished 1 err 81 WrongState installed|b ticket 1|b began 1 uninstall|"
     "b err 91 Waiting 1"),
    (made("a") + done("b", "uninstall -F") + done("a", "ready") + ["S 1 zoneadm -z c halt"],
     "a err 34 NeedForce|b ticket 1|b finished 1 err 81 WrongState configured|b idle|a ticket 1|a began 1 ready|"
     "a finished 1 ok|c err 90 NoZone"),
]


def runs_fault():
    """The first of some runs on one store that is answered otherwise, or None."""
    store = Store()
    for number, (lines, want) in enumerate(RUNS):
        told = model.run("\n".join(lines).encode(), store)[1].decode().split("\n")[:-1]
        heads = [line for at, line in enumerate(told) if " step " not in line and line not in told[:at]]
        if heads != want.split("|"):
            return "run %d: %s" % (number, "|".join(heads))
    return None


def fault():
    """What the model answers otherwise than it is known, or None."""
    faults = [row_fault(*row) for row in ROWS] + [runs_fault()]
    faults += ["%r: %s" % (text, limited(text)) for text, want in LIMITS if limited(text) != want]
    return next((it for it in faults if it is not None), None)
