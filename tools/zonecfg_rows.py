"""Traces with whole configurations, editing sessions, lists and restarts whose replies are known, with which the model
in trace_model.py is compared.

fault() gives what it answers otherwise, or None; tools/fuzz_trace.py --self-test does this.
"""

import trace_model as model
from object_rows import ANY, row_fault
from request_rows import left
from store_reader import uuid_of
from trace_lines import ALL_LINES
from zone_lines import done, installed, made, running

HELP = "add cancel clear commit create delete end exit export help info remove revert select set verify"
ZONEADM = "attach boot clone detach halt help install list mark move ready reboot uninstall verify"
OF_GLOBAL = "| 0:global:running:/::ipkg:shared"


def turns(zone, count):
    return ["D %s" % zone] * count


def said(zone, steps):
    """The pairs of some turns, each by what it is answered."""
    return [("D " + zone, "%s %s" % (zone, it)) for it in steps]


def steps(*names):
    return ["step " + it for it in names]


def typed(zone, pairs, session=1):
    """The pairs of lines that one session types, each with what stands after the zone in the reply."""
    return [("S %d %s" % (session, line), "%s %s" % (zone, it)) for line, it in pairs]


def edits(zone, pairs, session=1):
    """The pairs of lines of subcommands, each typed as a whole."""
    return typed(zone, [("zonecfg -z %s %s" % (zone, line), it) for line, it in pairs], session)


def row(name, number, state="configured", path=None, network="shared", zid="-", brand="ipkg"):
    """A row of -p, of a zone that the record of this number made."""
    path = path or "/zones/" + name
    return "| %s:%s:%s:%s:%s:%s:%s" % (zid, name, state, path, uuid_of(name, number), brand, network)


def shown(*lines):
    return " | ".join(("ok",) + lines)


COPIES = ["copy 1", "copy 2", "copy 3", "copy 4"]
INSTALL = steps("hook before install", "record incomplete", *COPIES, "record installed", "hook after install")
DOWN = steps("clear", "state down", "zidback 1", "state installed", "hook after halt")

# One zone with an fs, a link and an attr, from its first line to its halt.
EDITED = [
    "zonecfg -z web", "create -b", "set zonepath=/zones/web", "set brand=ipkg", "set ip-type=exclusive", "add fs",
    "set dir=/usr", "set special=/usr", "set type=lofs", "add options [ro,nodevices]", "end",
    "add net; set physical=net0; end", 'add attr; set name=owner; set type=string; set value="web team"; end', "exit",
]
WEB = ["Y link net0"] + ["S 1 " + line for line in EDITED]
WEB_RUNS = WEB + done("web", "install") + done("web", "boot") + turns("web", 2)
A_LIFE = ("a session makes a zone, which boots and is halted", {}, [], [("Y link net0", "* ok")] + typed(
    "web", [(line, "ok") for line in EDITED] + [("zoneadm -z web install", "ticket 1")])
    + said("web", ["began 1 install"] + INSTALL + ["finished 1 ok"])
    + typed("web", [("zoneadm -z web boot", "ticket 2")])
    + said("web", ["began 2 boot"] + steps(
        "hook before ready", "zid 1", "limits", "devices 0", "root", "mount /usr", "link net0", "state ready",
        "hook after ready", "hook before boot", "init 2", "state running", "hook after boot") + ["finished 2 ok"])
    + typed("web", [("zoneadm -z web halt", "ticket 3")])
    + said("web", ["began 3 halt"] + steps(
        "hook before halt", "state shutting_down", "kill 1", "unmount /usr", "unmount /", "release link net0")
        + DOWN + ["finished 3 ok"])
    + [("S 1 zoneadm list -cp", "global ok %s %s" % (OF_GLOBAL, row("web", 1, "installed", network="excl")))])

# What is wrong with names, and what is looked at before.
NAMES = [
    ("names of zones", {}, [], [("S 1 zoneadm -z %s verify" % name, want) for name, want in [
        ("global", "global err 4 Reserved"), ("SUNWx", "global err 4 Reserved"),
        ("a" * 64, "global err 2 TooLong"), ("-a", "global err 3 BadByte 0"),
        ("a" * 63, "%s err 90 NoZone" % ("a" * 63)),
    ]]),
    ("a name is looked at before subcommands are", {}, made("a"), [
        ("S 1 zonecfg -z global commit; info", "global err 4 Reserved"),
        ("S 1 zonecfg -z -a set pool=\"", "global err 3 BadByte 0"), ("S 1 zonecfg -z SUNW", "global err 4 Reserved"),
        ("S 1 zonecfg -z", "global err 93 Usage"), ("S 1 zonecfg", "global err 93 Usage"),
        ("S 1 zonecfg info -z a", "a err 93 Usage"), ("S 1 zonecfg -zz a info", "global err 93 Usage"),
        ("S 1 -z a zonecfg info", "a err 93 Usage"), ("S 1 zonecfg -z -z info", "global err 3 BadByte 0"),
    ]),
]

REFUSALS = [
    ("what an editor refuses", {}, made("web") + ["S 1 zonecfg -z web"], typed("web", [
        ("end", "err 32 WrongScope global"), ("delete", "err 34 NeedForce"), ("add fs", "ok"),
        ("verify", "err 32 WrongScope fs"), ('set pool="a', "err 11 OpenQuote 9"), ("revert", "err 32 WrongScope fs"),
        ("create", "err 32 WrongScope fs"), ("exit", "err 32 WrongScope fs"), ("info pool", "err 32 WrongScope fs"),
        ("info pools", "err 35 Usage"), ("delete x", "err 35 Usage"), ("frob", "err 31 UnknownCommand"),
        ("zoneadm list", "err 31 UnknownCommand"), ("set dir=", "err 14 NoValue 8"),
        ("set dir=\"\"", "err 23 BadValue"), ("set foo=a", "err 22 UnknownProperty"),
        ("set dir=[a", "err 13 OpenBracket 8"), ("cancel", "ok"), ("cancel", "err 32 WrongScope global"),
        ("set pool=", "err 14 NoValue 9"), ("  set pool= ; info", "err 14 NoValue 12"),
        ("info pool;  set pool=a b", "err 14 NoValue 13 | pool: "), ("info) x", "err 12 StrayByte 4"),
        ("   # x; frob \"", "ok"), ("; ;;", "ok"), ("", "ok"), ("; # x", "err 31 UnknownCommand"),
        ("revert", "err 34 NeedForce"), ("create", "err 34 NeedForce"), ("create -b -F", "err 35 Usage"),
        ("exit", "ok")])),
    ("nothing is open", {}, ["S 2 zonecfg -z new"], typed("new", [
        ("set autoboot=true", "err 33 NothingOpen"), ("info", "err 33 NothingOpen"), ("export", "err 33 NothingOpen"),
        ("commit", "err 33 NothingOpen"), ("verify", "err 33 NothingOpen"), ("revert", "err 33 NothingOpen"),
        ("delete", "err 33 NothingOpen"), ("end", "err 33 NothingOpen"), ("help", "ok | " + HELP),
        ("help x", "err 35 Usage"), ("set autoboot", "err 35 Usage"), ("create", "ok"), ("revert -F", "err 90 NoZone"),
        ("delete -F", "err 90 NoZone"), ("info brand", "ok | brand: ipkg"), ("commit", "err 41 NoZonepath"),
        ("exit", "err 41 NoZonepath"), ("exit -F", "ok")], 2) + [("S 2", "global ok")]),
    ("a line is refused as a whole, or up to its first refusal", {}, made("web"), edits("web", [
        ("set pool=a; commit; info", "err 93 Usage"), ("info pool", "ok | pool: "),
        ("set pool=a; commit x; info pool", "err 93 Usage"), ("exit; exit", "err 93 Usage"),
        ("delete; info", "err 93 Usage"), ("delete -F; exit", "err 93 Usage"),
        ("commit; set pool=\"", "err 11 OpenQuote 17"), (" ;set pool=[a;b]; x", "err 12 StrayByte 12"),
        ("info pool; info brand; frob; info", "err 31 UnknownCommand | pool:  | brand: ipkg"),
        ("set pool=a; info pool; set zonepath=/", "err 23 BadValue | pool: a"), ("info pool", "ok | pool: "),
        ("set pool=a; info pool; exit -F", "ok | pool: a"), ("info pool", "ok | pool: "),
        ("set pool=a; commit", "ok"), ("info pool", "ok | pool: a"), ("set pool=b; exit", "ok"),
        ("set pool=c; info pool", "ok | pool: c"), ("info pool;", "ok | pool: c"), ("# frob; \"", "ok"), (";", "ok"),
        ("info pool; add fs", "err 32 WrongScope fs | pool: c"), ("add fs; info", "err 32 WrongScope fs | fs:"),
        ("info pool; clear zonepath", "err 41 NoZonepath | pool: c"), ("clear zonepath; commit", "err 41 NoZonepath"),
        ("clear zonepath; exit -F", "ok"), ("\"commit\"; info", "err 31 UnknownCommand"),
        ("commit; # x", "err 93 Usage"),
        ("delete", "err 34 NeedForce"), ("add net; delete -F", "err 32 WrongScope net"),
        ("set brand=s.1", "err 46 UnknownBrand s.1"), ("verify; set brand=\"\"; verify; info", "err 46 UnknownBrand "),
    ]) + [("S 1 zoneadm list -c", "global ok | global | web")]),
    ("a new zone in one line", {}, [], edits("web", [
        ("info", "err 33 NothingOpen"), ("exit", "ok"), ("help", "ok | " + HELP), ("# x", "ok"),
        ("commit", "err 33 NothingOpen"),
        ("delete -F", "err 33 NothingOpen"), ("create -b", "err 41 NoZonepath"), ("create; exit -F", "ok"),
        ("create; set zonepath=/zones/web; export", shown(
            "create -b", "set zonepath=/zones/web", "set brand=ipkg", "set autoboot=false", "set ip-type=shared")),
        ("create; set zonepath=/y", "err 34 NeedForce"), ("create -F -b; set zonepath=/zones/web; set brand=ipkg",
        "ok"),
    ]) + edits("two", [
        ("create -b; set zonepath=/zones/web; set brand=ipkg", "err 82 Denied paths"),
        ("create; set zonepath=/zones/web; info zonepath; delete -F", "err 90 NoZone | zonepath: /zones/web"),
    ]) + [("S 1 zoneadm list -cp", "global ok %s %s" % (OF_GLOBAL, row("web", 1)))]),
]

PLACES = [
    ("places in a line count from the first byte of the subcommands", {}, made("web"), [
        ("S 1   zonecfg   -z  web   set pool=(a ", "web err 13 OpenBracket 9"),
        ("S 1 zonecfg -z web set pool= ", "web err 14 NoValue 10"),
        ("S 1 zonecfg -z web set pool= ; x", "web err 14 NoValue 10"),
        ("S 1 zonecfg -z web   info pool ;  set pool=[a b] ", "web err 14 NoValue 14 | pool: "),
        ("S 1 zonecfg -z web set pool=[a] \"b\"", "web err 14 NoValue 13"),
        ("S 1 zonecfg -z web ; ) ; \"", "web err 12 StrayByte 2"),
        ("S 1 zonecfg -z web set pool=[a;b]; \"", "web err 12 StrayByte 11"),
        ("S 1 zonecfg -z web set pool=(a; \"", "web err 13 OpenBracket 9"),
        ("S 1 zonecfg -z web;info", "global err 3 BadByte 3"),
        ("S 1 zonecfg -z web -z db info", "web err 31 UnknownCommand"),
        ("S 1 zonecfg -z web info pool -z db", "web err 35 Usage"),
        ("S 1 zonecfg -z web -F", "web err 31 UnknownCommand"),
        ("S 1 zonecfg -z \"web\" info", "global err 3 BadByte 0"), ("S 1 zonecfg -z web  ", "web ok"),
        ("S 1    set pool=(a ", "web err 13 OpenBracket 12"), ("S 1   set pool= ; x", "web err 14 NoValue 12"),
        ("S 1 info pool;  # x", "web err 31 UnknownCommand | pool: "), ("S 1  # \"", "web ok"), ("S 1   ", "web ok"),
        ("S 1 info pool; exit -F; ; ", "web ok | pool: "), ("S 1   ", "global ok"),
    ]),
]

SHOWN = [
    ("what info and export show", {}, made("web") + [
        "S 1 zonecfg -z web",
        "S 1 add fs; set dir=/usr; set special=\"/my usr\"; set type=nfs; set options=[ro,x.y]; end",
        "S 1 add net; set physical=net0; set address=10.0.0.1/24; end; add device; set match=/dev/d*; end",
        "S 1 set cpu-shares=7; set max-lwps=3; add rctl; set name=zone.x; end; set bootargs=\"-m verbose\"",
        "S 1 add dataset; end",
        "S 1 add attr; set name=a; set value=\"a b\"; end; add fs; end"], typed("web", [
            ("info", shown(
                "zonename: web", "zonepath: /zones/web", "brand: ipkg", "autoboot: false", "bootargs: -m verbose",
                "pool: ", "limitpriv: ", "scheduling-class: ", "ip-type: shared", "hostid: ", "fs-allowed: ", "fs:",
                "    dir: /usr", "    special: /my usr", "    type: nfs", "    options: [ro,x.y]", "fs:", "net:",
                "    address: 10.0.0.1/24", "    physical: net0", "device:", "    match: /dev/d*", "rctl:",
                "    name: zone.cpu-shares", "    value: (priv=privileged,limit=7,action=none)", "rctl:",
                "    name: zone.max-lwps", "    value: (priv=privileged,limit=3,action=deny)", "rctl:",
                "    name: zone.x", "attr:", "    name: a", "    value: a b", "dataset:")),
            ("info max-lwps; info max-processes; info cpu-shares", shown(
                "rctl:", "    name: zone.max-lwps", "    value: (priv=privileged,limit=3,action=deny)", "rctl:",
                "    name: zone.cpu-shares", "    value: (priv=privileged,limit=7,action=none)")),
            ("info dataset; info zonepath; info device", shown(
                "dataset:", "zonepath: /zones/web", "device:", "    match: /dev/d*")),
            ("export", shown(
                "create -b", "set zonepath=/zones/web", "set brand=ipkg", "set autoboot=false",
                "set bootargs=\"-m verbose\"", "set ip-type=shared", "add fs", "set dir=/usr",
                "set special=\"/my usr\"", "set type=nfs", "add options [ro,x.y]", "end", "add fs", "end", "add net",
                "set address=10.0.0.1/24", "set physical=net0", "end", "add device", "set match=/dev/d*", "end",
                "add rctl", "set name=zone.cpu-shares", "add value (priv=privileged,limit=7,action=none)", "end",
                "add rctl", "set name=zone.max-lwps", "add value (priv=privileged,limit=3,action=deny)", "end",
                "add rctl", "set name=zone.x", "end", "add attr", "set name=a", "set value=\"a b\"", "end",
                "add dataset", "end")),
            ("select rctl name=zone.max-lwps; add value (priv=privileged,limit=9,action=none); info", shown(
                "rctl:", "    name: zone.max-lwps", "    value: (priv=privileged,limit=3,action=deny)",
                "    value: (priv=privileged,limit=9,action=none)")),
            ("end; info max-lwps; set max-lwps=4", "err 28 AliasHeld | rctl: |     name: zone.max-lwps"
             " |     value: (priv=privileged,limit=3,action=deny) |     value: (priv=privileged,limit=9,action=none)"),
            ("verify", "err 42 MissingProperty fs dir"), ("remove fs dir=\"\"", "ok"),
            ("verify", "err 42 MissingProperty rctl value"), ("remove rctl name=zone.x; verify",
                                                              "err 42 MissingProperty attr type"),
            ("remove fs type=nfs type=nfs; info fs", "ok"), ("remove fs", "err 25 NoMatch"), ("revert -F", "ok"),
            ("info rctl; info attr; info brand; verify", "ok | brand: ipkg"),
        ])),
    ("values of the global scope", {}, made("web"), edits("web", [
        ("set limitpriv=\"default,!proc_fork\"; info limitpriv", "ok | limitpriv: default,!proc_fork"),
        ("set limitpriv=default,!proc_info; set hostid=0a; info", shown(
            "zonename: web", "zonepath: /zones/web", "brand: ipkg", "autoboot: false", "bootargs: ", "pool: ",
            "limitpriv: default,!proc_info", "scheduling-class: ", "ip-type: shared", "hostid: 0a", "fs-allowed: ")),
        ("set hostid=ffffffff", "err 23 BadValue"), ("set pool=[a]", "err 23 BadValue"),
        ("set dir=/a", "err 22 UnknownProperty"),
        ("set pool=\"a b\"", "err 23 BadValue"), ("set zonepath=\"\"", "err 23 BadValue"),
        ("set hostid=\"\"; clear limitpriv; set max-processes=0", "err 23 BadValue"),
        ("add dataset; set name=d; end; add dataset; set name=d; info; end",
        "err 24 Duplicate | dataset: |     name: d"),
    ])),
]

# Two sessions that edit one zone.
TOGETHER = [
    ("what another session committed", {}, made("web") + ["S 1 zonecfg -z web", "S 2 zonecfg -z web"], [
        ("S 1 set autoboot=true", "web ok"), ("S 2 set pool=p1", "web ok"), ("S 1 commit", "web ok"),
        ("S 2 commit", "web err 94 Changed 1 2"), ("S 2 exit", "web err 94 Changed 1 2"), ("S 2 revert -F", "web ok"),
        ("S 2 info autoboot", "web ok | autoboot: true"), ("S 2 info pool", "web ok | pool: "), ("S 1 exit", "web ok"),
        ("S 2 set pool=p2; exit", "web ok"), ("S 1 zonecfg -z web info pool", "web ok | pool: p2"),
    ]),
    ("nothing is changed, and so nothing is told", {}, made("web") + ["S 1 zonecfg -z web", "S 2 zonecfg -z web"], [
        ("S 1 set pool=p1", "web ok"), ("S 1 commit; ", "web ok"), ("S 1 commit", "web ok"), ("S 2 exit", "web ok"),
        ("S 2 zonecfg -z web", "web ok"), ("S 2 set pool=p2; set pool=p1", "web ok"), ("S 2 commit", "web ok"),
        ("S 1 set pool=p3", "web ok"), ("S 1 commit", "web ok"), ("S 2 commit", "web err 94 Changed 2 3"),
        ("S 2 clear pool; exit -F", "web ok"), ("S 2 info", "global err 93 Usage"),
    ]),
    ("a zone is deleted, and made again, while others edit it", {}, made("web") + made("db") + [
        "S 2 zonecfg -z web", "S 3 zonecfg -z web"], [
            ("S 1 zonecfg -z web info pool; delete -F", "web ok | pool: "),
            ("S 1 zonecfg -z web info", "web err 33 NothingOpen"),
            ("S 2 info pool", "web ok | pool: "), ("S 2 revert -F", "web err 90 NoZone"),
            ("S 2 delete -F", "web err 90 NoZone"), ("S 2 commit", "web err 94 Changed 1 0"),
            ("S 2 set pool=a; exit", "web err 94 Changed 1 0"), ("S 2 exit -F", "web ok"), ("S 3 exit", "web ok"),
            ("S 2 zonecfg -z web", "web ok"), ("S 3 zonecfg -z web", "web ok"),
            ("S 2 create; set zonepath=/zones/web; commit", "web ok"),
            ("S 3 create; set zonepath=/zones/db; commit", "web err 94 Changed 0 4"),
            ("S 3 delete -F", "web err 94 Changed 0 4"), ("S 3 revert -F; info zonepath",
            "web ok | zonepath: /zones/web"),
            ("S 1 zoneadm list -cp", "global ok %s %s %s" % (OF_GLOBAL, row("db", 2), row("web", 4))),
            ("S 3 delete -F", "web ok"), ("S 3", "global ok"), ("S 2 exit", "web ok"),
            ("S 1 zoneadm list -cn", "global ok | db"),
        ]),
]

MODES = [
    ("every line of a session that edits is of its zone", {}, made("a") + made("b"), [
        ("S 1 zonecfg -z a", "a ok"), ("S 1 zonecfg -z b", "a err 31 UnknownCommand"), ("S 1", "a ok"),
        ("S 1 kill 9 2", "a err 31 UnknownCommand"), ("S 1 zoneadm -z global list", "a err 31 UnknownCommand"),
        ("S 1 # -z b", "a ok"), ("S 2 zoneadm -z a install", "a ticket 1"), ("S 2 exit", "a err 91 Waiting 1"),
        ("S 1 delete -F", "a err 97 DeskInUse"), ("D a", "a began 1 install"), ("S 1 delete -F", "a err 97 DeskInUse"),
        ("D a", "a step hook before install"), ("S 1 delete -F", "a err 97 DeskInUse"),
        ("S 1 set zonepath=/y; commit", "a ok"), ("D a", "a step record incomplete"),
        ("S 1 delete -F", "a err 81 WrongState incomplete"),
        ("S 1 set zonepath=/x; commit", "a err 81 WrongState incomplete"),
        ("S 1 set brand=lx; set zonepath=/y; commit", "a err 81 WrongState incomplete"),
        ("S 1 set brand=ipkg; set pool=x; commit", "a ok"), ("S 1 exit", "a ok"), ("S 1 info", "global err 93 Usage"),
    ]),
    ("a session edits on while its zone runs", {}, running("a") + ["S 1 zonecfg -z a"], typed("a", [
        ("set zonepath=/y; exit", "err 81 WrongState running"), ("info zonepath", "ok | zonepath: /y"),
        ("set zonepath=/zones/a; set bootargs=-s; exit", "ok"), ("zonecfg -z a delete -F", "err 81 WrongState running"),
        ("zonecfg -z a set brand=lx", "err 81 WrongState running"),
        ("zonecfg -z a set brand=\"\"", "err 46 UnknownBrand "),
        ("zonecfg -z a set limitpriv=all", "ok"), ("zoneadm -z a verify", "err 49 PrivProhibited dtrace_kernel"),
    ])),
    ("a daemon's record keeps what was committed while it worked", {}, made("web") + done("web", "install")[:2], [
        ("S 2 zonecfg -z web set pool=p1", "web ok")] + said("web", INSTALL + ["finished 1 ok"]) + [
            ("S 2 zonecfg -z web info pool", "web ok | pool: p1")]),
]

PRIVILEGES = [
    ("privileges are looked at by verify and boot, and not by a commit", {}, installed("web"), typed("web", [
        ("zonecfg -z web set limitpriv=default,!proc_fork", "ok"),
        ("zoneadm -z web verify", "err 48 PrivRequired proc_fork"),
        ("zoneadm -z web boot", "ticket 2")]) + said("web", ["finished 2 err 84 Privilege 48 PrivRequired proc_fork"])
     + typed("web", [
         ("zonecfg -z web set limitpriv=default,zone", "ok"), ("zoneadm -z web verify", "err 47 PrivWord 8"),
         ("zonecfg -z web set limitpriv=all", "ok"), ("zoneadm -z web verify", "err 49 PrivProhibited dtrace_kernel"),
         ("zonecfg -z web clear limitpriv", "ok"), ("zoneadm -z web verify", "ok")])),
    ("three processes at most", {}, made("web") + ["S 1 zonecfg -z web set max-processes=3"] + done("web", "install")
     + done("web", "boot"), [
         ("P web 2 fork a", "web ok | child 3"), ("P web 2 fork b", "web ok | child 4"),
         ("P web 2 fork c", "web err EAGAIN"), ("P web 4 exit", "web ok"), ("P web 2 fork c", "web ok | child 5"),
         ("S 1 zonecfg -z web set max-processes=2", "web ok"), ("P web 5 exit", "web ok"),
         ("P web 2 fork d", "web ok | child 6")]),
]

A_LINK = "add net; set physical=%s; end"
EXCLUSIVE = "S 1 zonecfg -z %s set ip-type=exclusive; %s"
OBJECTS = [
    ("a link that another zone holds is denied, and what was done is undone", {},
     ["Y link net0", "Y link net1", "Y link net2"] + made("a") + [EXCLUSIVE % ("a", A_LINK % "net0")]
     + done("a", "install") + done("a", "boot") + turns("a", 1) + made("b")
     + [EXCLUSIVE % ("b", "; ".join(A_LINK % it for it in ("net1", "net2", "net0")))] + done("b", "install"), [
         ("S 1 zoneadm -z b boot", "b ticket 2")] + said("b", ["began 2 boot"] + steps(
             "hook before ready", "zid 2", "limits", "devices 0", "root", "link net1", "link net2") + [
                 "failed 8: 82 Denied links", "undone link net2", "undone link net1", "undone root",
                 "undone devices 0", "undone limits", "undone zid 2", "finished 2 err 82 Denied links"]) + [
                     ("S 1 zoneadm -z b list", "b ok | b"), ("S 1 zoneadm list -i", "global ok | global | a | b")]),
    ("paths lie in mounts of the zone", {}, made("web") + [
        "S 1 zonecfg -z web add fs; set dir=/usr; set special=/usr; set type=lofs; add options [ro]; end",
        "S 1 zonecfg -z web add fs; set dir=/usr/local; set special=/export/local; set type=lofs; end"]
     + done("web", "install") + done("web", "boot") + turns("web", 2), [
         ("P web 2 read /usr/bin", "web ok | /usr/bin"), ("P web 2 read /usrx/a", "web ok | /zones/web/root/usrx/a"),
         ("P web 2 read /usr/local/a", "web ok | /export/local/a"), ("P web 2 write /usr/bin", "web err EROFS"),
         ("P web 2 write /usr/local/a", "web ok | /export/local/a"), ("P web 2 umount /usr", "web err EPERM")]),
    ("a halt waits for a held mount", {}, WEB_RUNS, [
        ("S 2 fhold -z web /usr", "web ok"), ("S 1 zoneadm -z web halt", "web ticket 3")]
     + said("web", ["began 3 halt"] + steps("hook before halt", "state shutting_down", "kill 1") + [
         "stuck unmount", "stuck unmount"]) + [
             ("S 2 zoneadm -z web list -p", "web ok " + row("web", 1, "shutting_down", network="excl", zid="1")),
             ("S 2 frelease -z web /usr", "web ok")] + said("web", steps(
                 "unmount /usr", "unmount /", "release link net0") + DOWN + ["finished 3 ok"]) + [
                     ("S 2 frelease -z web /usr", "web err 99 NoMount")]),
    ("what types a zone may mount", {}, made("a") + ["S 1 zonecfg -z a set fs-allowed=-,ufs"] + made("b")
     + ["S 1 zonecfg -z b set fs-allowed=ufs,pcfs"] + done("a", "install") + done("a", "boot") + done("b", "install")
     + done("b", "boot"), [
         ("P a 2 mount ufs x /m", "a ok"), ("P a 2 mount nfs x /n", "a err EPERM"), ("P a 2 mount lofs /m /o", "a ok"),
         ("P b 3 mount nfs x /m", "b ok"), ("P b 3 mount pcfs x /n", "b ok"), ("P b 3 mount zfs x /o", "b err EPERM"),
         ("S 1 zonecfg -z b clear fs-allowed", "b ok"), ("P b 3 mount pcfs x /o", "b ok")]),
    ("addresses, datasets and devices", {}, [
        "Y address 10.0.0.1", "Y dataset tank/a", "Y device /dev/d0", "Y device /dev/e0"] + made("a") + [
            "S 1 zonecfg -z a add net; set physical=x; set address=10.0.0.1/8; end; add dataset; set name=tank/a; end",
            "S 1 zonecfg -z a add device; set match=/dev/d?; end"] + done("a", "install") + done("a", "boot")
     + turns("a", 2), [
         ("P a 2 links", "a ok | address 10.0.0.1"), ("P a 2 datasets", "a ok | tank/a"),
         ("P a 2 devices", "a ok | /dev/d0"),
         ("S 1 zonecfg -z a remove dataset; remove net; remove device", "a ok"), ("P a 2 datasets", "a ok | tank/a")]),
]

V_HEAD = "|   ID NAME             STATUS     PATH                           BRAND    IP    "
V_GLOBAL = "|    0 global           running    /                              ipkg     shared"
V_WEB = "|    - web              installed  /zones/web                     ipkg     excl  "
V_LONG = "|    - %s configured /%s lx       shared" % ("n" * 63, "p" * 40)
LISTS = [
    ("lists where no zone is stored", {}, [], [
        ("S 1 zoneadm list", "global ok | global"), ("S 1 zoneadm list -cnv", "global ok " + V_HEAD),
        ("S 1 zoneadm list -n", "global ok"),
        ("S 1 zoneadm list -cip", "global ok " + OF_GLOBAL), ("S 1 zoneadm -z web list", "web err 90 NoZone")]),
    ("a zone in all its states", {}, made("a"), [
        (line, want) for asked, turns_of, state in [
            ("attach", 5, "installed"), ("mark incomplete", 3, "incomplete"), ("uninstall -F", 9, "configured"),
            ("attach", 5, "installed"), ("ready", 9, "ready"), ("boot", 6, "running"), ("halt", 4, "shutting_down"),
        ] for line, want in [("S 1 zoneadm -z a " + asked, ANY)] + [("D a", ANY)] * turns_of + [
            ("S 2 zoneadm -z a list -v", ANY), ("S 2 zoneadm list -cv", ANY),
            ("S 2 zoneadm -z a list -p", "a ok " + row(
                "a", 1, state, zid="1" if state in ("ready", "running", "shutting_down") else "-"))]] + [
                    ("D a", "a step unmount /"), ("D a", "a step clear"), ("D a", "a step state down"),
                    ("S 2 zoneadm list -in", "global ok | a"), ("S 2 zoneadm list -n", "global ok"),
                    ("S 2 zoneadm -z a list -p", "a ok " + row("a", 1, "down", zid="1")), ("D a", "a step zidback 1"),
                    ("S 2 zoneadm -z a list -p", "a ok " + row("a", 1, "down"))]),
    ("lists of all zones", {}, WEB + done("web", "install") + made("b") + running("a") + [
        "S 1 zonecfg -z %s create -b; set zonepath=/%s; set brand=lx" % ("n" * 63, "p" * 40)], [
            ("S 1 zoneadm list", "global ok | global | a"), ("S 1 zoneadm list -i", "global ok | global | web | a"),
            ("S 1 zoneadm list -n", "global ok | a"), ("S 1  zoneadm   list  -ccn ",
            "global ok | web | b | a | " + "n" * 63),
            ("S 1 zoneadm list -ic", "global ok | global | web | b | a | " + "n" * 63),
            ("S 1 zoneadm list -v", "global ok %s %s %s" % (
                V_HEAD, V_GLOBAL, "|    1 a                running    /zones/a                       ipkg     shared")),
            ("S 1 zoneadm -z web list -v", "web ok %s %s" % (V_HEAD, V_WEB)),
            ("S 1 zoneadm -z %s list -v" % ("n" * 63), "%s ok %s %s" % ("n" * 63, V_HEAD, V_LONG)),
            ("S 1 zoneadm list -npi", "global ok %s %s" % (
                row("web", 1, "installed", network="excl"), row("a", 5, "running", zid="1"))),
            ("S 1 zoneadm -z a list -p", "a ok " + row("a", 5, "running", zid="1")),
            ("S 1 zoneadm -z b list", "b ok | b"),
        ] + [("S 1 zoneadm " + line, want) for line, want in [
            ("list -pv", "global err 93 Usage"), ("list -vcp", "global err 93 Usage"),
            ("list -", "global err 93 Usage"),
            ("list -x", "global err 93 Usage"), ("list -c -p", "global err 93 Usage"),
            ("list c", "global err 93 Usage"),
            ("list -z a", "a err 93 Usage"), ("-z a list -c", "a err 93 Usage"), ("-z a list -pp", "a err 93 Usage"),
            ("-z a list -p -v", "a err 93 Usage"), ("-z c list", "c err 90 NoZone"),
            ("-z -c list -v", "global err 3 BadByte 0"),
            ("help", "global ok | " + ZONEADM), ("-z a help", "a ok | " + ZONEADM), ("-z c help", "c ok | " + ZONEADM),
            ("-z global help", "global err 4 Reserved"), ("help x", "global err 93 Usage"),
            ("-z a help x", "a err 93 Usage"),
            ("-z a verify x", "a err 93 Usage"), ("verify", "global err 93 Usage"), ("-z a", "a err 93 Usage"),
            ("", "global err 93 Usage"), ("-z c verify", "c err 90 NoZone"), ("-z a verify", "a ok"),
        ]]),
    ("fields with colons and backslashes", {}, [
        "S 1 zonecfg -z a create; set zonepath=/a:b\\c:", "S 1 zonecfg -z b create; set zonepath=/\\:"], [
            ("S 1 zoneadm list -cnp", "global ok %s %s" % (row("a", 1, path="/a\\:b\\\\c\\:"),
            row("b", 2, path="/\\\\\\:"))),
            ("S 1 zoneadm -z a list -v", "a ok %s %s" % (
                V_HEAD, "|    - a                configured /a:b\\c:                        ipkg     shared"))]),
    ("an id that is given while a zone is still installed", {}, installed("a") + done("a", "boot")[:4], [
        ("S 2 zoneadm -z a list -p", "a ok " + row("a", 1, "installed", zid="1")),
        ("S 2 zoneadm list", "global ok | global")]
     + said("a", steps("limits", "devices 0", "root", "state ready")) + [
         ("S 2 zoneadm list -ni", "global ok | a"), ("S 2 zoneadm list -n", "global ok")]),
]

RESTARTS = [
    ("a restart amid an install", {}, made("web") + done("web", "install")[:5], [
        ("R", "* ok"), ("S 1 zoneadm list -cp", "global ok %s %s" % (OF_GLOBAL, row("web", 1, "incomplete"))),
        ("D web", "web idle"), ("S 1 zoneadm -z web uninstall -F", "web ticket 1")]),
    ("a restart ends what a zone has, and keeps what is declared", {},
    WEB_RUNS + ["P web 2 fork x", "S 2 fhold -z web /"], [
        ("R", "* ok"), ("S 1 zoneadm list -cp", "global ok %s %s" % (OF_GLOBAL,
        row("web", 1, "installed", network="excl"))),
        ("P web 2 ps", "web err 98 NoProcess"), ("S 1 kill 0 2", "global err ESRCH"),
        ("S 2 frelease -z web /", "web err 99 NoMount"), ("S 1 zoneadm -z web boot", "web ticket 1")]
     + said("web", ["began 1 boot"] + steps(
         "hook before ready", "zid 1", "limits", "devices 0", "root", "mount /usr", "link net0", "state ready",
         "hook after ready", "hook before boot", "init 2")) + [("R", "* ok"), ("R", "* ok"), ("D web", "web idle")]),
    ("a restart ends sessions that edit or wait", {}, made("a") + [
        "S 1 zonecfg -z a", "S 1 set pool=p", "S 2 zoneadm -z a install", "D a"], [
            ("R", "* ok"), ("S 1 info", "global err 93 Usage"), ("S 2", "global ok"),
            ("S 1 zonecfg -z a info pool", "a ok | pool: "),
            ("S 1 zonecfg -z a delete -F", "a ok"), ("R", "* ok"), ("S 1 zoneadm list -c", "global ok | global")]),
]

# Traces that end at a line outside the grammar, each with the line of standard error.
ENDS = [
    (["R", "Y link net0"], "line 2: 104 SysAfterStart"), (["R x"], "line 1: 102 BadWord 2"),
    (["R "], "line 1: 102 BadWord 2"),
    (["RR"], "line 1: 101 BadTag"), ([" R"], "line 1: 101 BadTag"), (["r"], "line 1: 101 BadTag"),
    (["Y link a", "R", "Y link a"], "line 3: 104 SysAfterStart"), (["R", "Y link a b"], "line 2: 102 BadWord 9"),
    (["R\t"], "line 1: 101 BadTag"), (["R R"], "line 1: 102 BadWord 2"), (["@- R"], "line 1: 103 GrantForm"),
]


# Bounds of a configuration, of a desk and of the store.

def committed(zone, lines):
    return edits(zone, [(line, "ok") for line in lines])


def attr(number, length):
    return "add attr; set name=a%02d; set type=string; set value=%s; end" % (number, "v" * length)


def edged():
    """Lines by which an export text has nearly as many bytes as it may have, and the longest value of one more attr: 87
    are those of a zone without an attr, with a path of ten bytes, and 53 of an attr those beside its value."""
    full = made("web") + ["S 1 zonecfg -z web " + attr(number, 1000) for number in range(30)]
    return full + ["S 1 zonecfg -z web set bootargs=%s" % ("b" * 100)], 32768 - 87 - 30 * 1053 - 114 - 53


def big():
    """Rows at the bounds of one configuration."""
    full, most = edged()
    several = ["add dataset; set name=d%d; end" % number for number in range(256)]
    hundred = ["add fs; set dir=/%d; set special=x; set type=nfs; end" % number for number in range(100)]
    return [
        ("the longest export text", {}, full, edits("web", [
            (attr(99, most + 1), "err 29 TooLarge 32769"), (attr(99, most), "ok"),
            ("set autoboot=true; info autoboot; set autoboot=false", "ok | autoboot: true"),
            ("set autoboot=true; select attr name=a99; set value=%s; end; clear autoboot" % ("w" * (most + 1)),
             "err 29 TooLarge 32769"), ("set ip-type=exclusive", "err 29 TooLarge 32771"),
            ("set pool=a", "err 29 TooLarge 32779"), ("clear pool; add fs; end", "err 29 TooLarge 32779")])),
        ("256 resources", {}, made("web"), committed("web", several) + edits("web", [
            ("add dataset; set name=x; end", "err 27 TooMany 256"), ("set cpu-shares=1", "err 27 TooMany 256"),
            ("add dataset; set name=d0; end", "err 24 Duplicate"), ("add fs; end", "err 27 TooMany 256"),
            ("remove dataset name=d7; set cpu-shares=1; set cpu-shares=2; info cpu-shares",
             "ok | rctl: |     name: zone.cpu-shares |     value: (priv=privileged,limit=2,action=none)"),
            ("remove dataset", "err 26 SeveralMatch 255"), ("remove -F dataset; info dataset", "ok"),
        ])),
        ("100 fs", {}, made("web"), committed("web", hundred) + edits("web", [
            ("add fs; end", "err 27 TooMany 100"), ("add dataset; set name=d; end", "ok"),
            ("select fs dir=/7; set options=[%s]" % ",".join(["o"] * 33), "err 27 TooMany 32"),
            ("select fs dir=/7; set options=[%s]; add options p; end" % ",".join(["o"] * 32), "err 27 TooMany 32"),
            ("select fs type=nfs", "err 26 SeveralMatch 100"), ("select fs dir=/7 type=lofs", "err 25 NoMatch"),
            ("select fs dir=/7; set dir=/8; end", "err 45 SameDir /8"),
        ])),
        ("a move after which the export text would be too long", {}, full + ["S 1 zonecfg -z web " + attr(99, most)]
         + done("web", "attach"), typed("web", [("zoneadm -z web move /zones/webs", "ticket 2")])
         + said("web", ["began 2 move", "failed 1: 29 TooLarge 32769", "finished 2 err 29 TooLarge 32769"])),
    ]


# A removal has 18 bytes for a name of one letter, and five about them.
ROOM = [
    ("a removal takes room", {}, made("a") + made("b") + [left(22)], edits("a", [
        ("delete -F", "err 82 Denied store"), ("info pool; delete -F", "err 82 Denied store | pool: ")])
     + [(left(23), None)] + edits("a", [("delete -F", "ok")]) + edits("b", [
         ("delete -F", "err 82 Denied store"), ("set pool=p", "err 82 Denied store"),
         ("set pool=p; set pool=\"\"", "ok"),
         ("set zonepath=/zones/a", "err 82 Denied store")])),
    ("paths come before room", {}, made("a") + made("b") + [left(0)], edits("b", [
        ("set zonepath=/zones/a", "err 82 Denied paths"), ("set zonepath=/zones/c", "err 82 Denied store")])),
    ("as many zones as there may be", {}, [
        "S 1 zonecfg -z z%d create; set zonepath=/z%d" % (it, it) for it in range(256)], edits("z", [
            ("create; set zonepath=/z0", "err 82 Denied zones"),
            ("create; set zonepath=/z; commit", "err 82 Denied zones")])
     + edits("z9", [("set zonepath=/z0", "err 82 Denied paths"), ("delete -F", "ok")])
     + edits("z", [("create; set zonepath=/z0", "err 82 Denied paths"), ("create; set zonepath=/z9", "ok")])
     + edits("z9", [("create; set zonepath=/z9", "err 82 Denied zones")])),
]

ROWS = [A_LIFE] + NAMES + REFUSALS + PLACES + SHOWN + TOGETHER + MODES + PRIVILEGES + OBJECTS + LISTS + RESTARTS
ROWS += big() + ROOM

# With lines of these kinds alone.
FEWER = [
    (("zonecfg",), "S 1 zonecfg -z a", "a err 93 Usage"), (("zonecfg",), "S 1 zonecfg -z a info pool", "a ok | pool: "),
    (("edit",), "S 1 zonecfg -z a", "a ok"), (("edit",), "S 1 zonecfg -z a info pool", "a err 93 Usage"),
    (("list",), "S 1 zoneadm -z a list", "a ok | a"), (("verify",), "S 1 zoneadm -z a list", "a err 93 Usage"),
    (("verify",), "S 1 zoneadm -z a verify", "a ok"), (("help",), "S 1 zoneadm help", "global ok | " + ZONEADM),
    (("restart",), "R", "* ok"), ((), "S 1 zoneadm help", "global err 93 Usage"),
    (("zlogin",), "S 1 zlogin a", "a err 95 NotRunning configured"), (("zlogin",), "S 1 zlogin a ps", "a err 93 Usage"),
    (("enter",), "S 1 zlogin a ps", "a err 95 NotRunning configured"), (("enter",), "S 1 zlogin a", "a err 93 Usage"),
    (("enter",), "S 1 zlogin a cons x", "a err 93 Usage"), ((), "S 1 zlogin a ps", "global err 93 Usage"),
    ((), "S 1 zonecfg -z b create -b; set zonepath=/b; set brand=lx", "b ok"),
]


def end_fault(lines, want):
    got = model.run("\n".join(lines).encode(), known=ALL_LINES)
    return None if (got[0], got[2].decode()) == (3, want + "\n") else "%r: %r" % (lines, got)


def fault():
    """What the model answers otherwise than it is known, or None."""
    faults = [row_fault(*it, host=model.Host(known=ALL_LINES)) for it in ROWS]
    faults += [row_fault("only %s" % ", ".join(known), {}, made("a"), [(line, want)],
        model.Host(known=frozenset(known)))
               for known, line, want in FEWER]
    faults += [end_fault(*end) for end in ENDS]
    return next((it for it in faults if it is not None), None)
