"""Random traces for tools/fuzz_trace.py in which zones have whole configurations, which lines of zonecfg(8) and
sessions that edit make, change and delete; with lists, and with restarts.

Which of these lines a trace has is told by the kinds that are known.
"""

import copy

import edit_model
import export_model
import fuzz_export
from daemon_model import MOST_TEXT
from edit_model import Edit
from export_model import Refused
from request_maker import RequestMaker
from store_model import AROUND, MOST_BYTES, Record, removal_size
from trace_maker import NAMES, NO_NAMES, PATHS
from zone_lines import done, made

# Few enough items for zones to ask for the same ones.
ITEMS = {
    "link": ["net0", "net1", "net2", "e1000g0"], "address": ["10.0.0.1", "10.0.0.2", "10.0.0.30"],
    "dataset": ["tank/a", "tank/b", "z"], "device": ["/dev/dsk", "/dev/d/a", "/dev/e", "/dev/rdsk", "/devx"],
}
LIMITPRIVS = [
    "default", "default,!proc_info", "default,sys_time", "default,!file_chown,net_rawaccess", "default,-proc_audit",
    "all,!dtrace_kernel,-proc_zone,!sys_config,!sys_devices", "proc_exec,proc_fork,sys_mount",
    "default,!proc_audit,proc_audit",
]
BAD_LIMITPRIVS = [
    "default,!proc_fork", "default,-sys_mount", "all", "default,zone", "basic", "none", "default,", ",", "default,,x",
    "sys_time,default", "!default", "default,!all", "default,proc_zone", "proc_exec", "DEFAULT", "default,!!proc_info",
    "default,x,!proc_fork", "default,default",
]
SETTINGS = {
    "limitpriv": LIMITPRIVS * 2 + BAD_LIMITPRIVS,
    "fs-allowed": ["-", "ufs", "-,ufs", "ufs,pcfs", "ufs,-", "-x,ufs", "UFS"],
    "bootargs": ["-s", "-m verbose", "-i /sbin/init -s", "x"],
    "pool": ["p1", "p2", "p3", "p" * 32],
    "scheduling-class": ["FSS", "TS"],
    "hostid": ["80f0c086", "0", "fffffffe"],
    "autoboot": ["true", "false"],
    "ip-type": ["shared", "exclusive"],
    "max-processes": ["1", "2", "3", "9"],
    "max-lwps": ["1", "2", "4"],
    "cpu-shares": ["1", "20", "18446744073709551615"],
    "brand": ["ipkg", "ipkg", "lx", "s.1"],
}
ZONEPATHS = PATHS[:3] + ["/m", "/zones/a", "/a:b\\c", "/\\", "/zones/web"]
DIRECTORIES = ["/usr", "/usr/local", "/usr-x", "/opt", "/a", "/a/b", "/ab", "/mnt", "/" + "d" * 200]
SPECIALS = {
    "lofs": ["/export", "/", "/usr", "/x/y", "/zones/web/root"],
    "nfs": ["host:/x", "h o s t", "/"],
    "root": ["/r", "r"],
    "ufs": ["/dev/dsk/c0", "x"],
    "smbfs": ["//server/share"],
}
OPTIONS = ["[]", "[ro]", "[ro,nodevices]", "[rw]", "ro", "[x,ro,y]", "[a/b,x.y]"]
MATCHES = ["/dev/d*", "/dev/?sk", "/dev/[!e]*", "/dev/*/a", "/dev/e", "*", "/dev/[d", "/dev/r[a-z]sk"]
RCTLS = ["zone.max-lwps", "zone.max-processes", "zone.cpu-shares", "zone.x", "zone.max-msg-ids"]
LISTS = [
    "", "-c", "-i", "-n", "-ci", "-cn", "-in", "-p", "-v", "-cp", "-cv", "-ip", "-iv", "-np", "-nv", "-cnp", "-icvn",
    "-cc", "-pcp",
]
NO_LISTS = ["-", "-pv", "-cpnv", "-x", "-c -p", "c", "--", "-C", "-c x", "-p -p", "-cp,", "cp", "-c-p", "-z"]
ONE_LISTS = ["", "", "-p", "-p", "-v", "-v", "-c", "-pp", "-pv", "-vp", "-n", "-p -v", "x", "-"]
ENDS = ["", "", "", "", "commit", "exit", "exit -F", "delete -F", "delete", "revert -F", "exit ; ", ";"]
# What a session that edits types besides.
EDITING = [
    "revert -F", "revert -F; info", "exit", "exit", "exit -F", "delete -F", "cancel", "", "info", "# x", "verify",
    "zoneadm list", "zonecfg -z web", "kill 9 2",
]
# What stands in a line and isn't right, or isn't where it may be.
ODD = [
    "commit; info", "exit; info", "delete -F; info", "commit; exit", "delete; delete", "set pool=\"a", "set pool=[a",
    "set pool=(a", "set pool=a)", "frob", "info x", "info pool brand", "info zonename", "info options", "help x", "# x",
    "\"help\"", "export x", "export -F", "revert", "revert -f", "delete -f", "exit -f", "commit -F", "create -b -F",
    "create -F -b", "verify; x", "[a]", "set", "set pool", "set pool=", "clear", "clear pool brand", "add", "add zone",
    "add fs net", "select fs", "select fs dir", "select fs dir=", "remove", "remove -F", "end x", "cancel x", "=",
    "add fs;", "set pool=[a;b]", "set pool=(a;b)", "add options ro", "add value x", "remove options", "commit x; info",
    "exit=; info", "set pool=a,b", "set bootargs=\"a;b\"", "set bootargs=\"a\"\"b\"", "delete -F -F", "info info",
    "commit;;", "exit ; ;", "commit # x", "commit; # x", "info;# x", "set pool=a-z b", "-z x", "set zonepath=/a;b",
    "select rctl value=x", "set pool=(=a)", "set pool=(a)", "set pool=(a=)", "set pool=(a=b c)", "set pool=(a=b,)",
    "set pool=(a=b)x", "set pool=()", "set pool=[a b]", "set pool=[a,]", "set pool=[,a]", "set pool=[a]b",
    "set pool=[\"a\"]", "set pool==", "set \"pool\"=a", "clear \"pool\"", "info \"pool\"", "remove fs dir",
    "remove fs =a", "remove fs dir=(a)", "select fs dir=/a type=", "remove -F -F fs", "select fs options=x",
    "set max-lwps=(a=b)", "set cpu-shares=\"1\"", "add fs; revert -F", "add fs; add net", "add fs; delete",
]
# The same in a scope of a kind.
A_LIMIT = "(priv=privileged,limit=1,action=deny)"
ODD_IN = {
    "fs": [
        "set options=\"\"", "add options \"\"", "remove options ro", "remove options [ro,nodevices]",
        "remove options [x,x]", "add options [%s]" % ",".join(["o"] * 31), "set options=[%s]" % ",".join(["o"] * 33),
        "set options=(a=b)", "clear options", "clear type", "clear options; set type=lofs", "set type=\"\"",
        "add value x", "set dir=(a=b)", "set raw=\"\"", "set dir=/", "set special=s", "add options [ro]; info",
        "set options=[a,b;c]", "add options [ro,x]; remove options ro",
        "set options=[a,b,a]; remove options [a,a]; info", "set options=[a,b]; remove options [b,c]; info",
        "add options a; add options [a,b]; remove options a; info",
    ],
    "net": [
        "clear physical", "clear address", "set address=10.0.0.300", "set allowed-address=x",
        "set defrouter=10.0.0.1/8", "set physical=[a]", "add options ro", "set address=\"\"", "set physical=\"\"",
    ],
    "device": ["set match=\"\"", "clear match", "set dir=/a"],
    "rctl": [
        "remove value " + A_LIMIT, "set value=" + A_LIMIT, "clear value", "add value [a]", "add value x", "clear name",
        "add value (limit=1)", "set value=\"\"", "set value=[]", "set name=\"\"", "remove value x",
        "add value (priv=privileged,limit=0,action=deny)", "set name=zone.max-lwps", "add value " + A_LIMIT,
        "add value %s; add value %s; remove value %s; info" % (A_LIMIT, A_LIMIT.replace("1", "2"), A_LIMIT),
    ],
    "attr": [
        "set name=zonex", "set type=int", "set value=\"\"", "clear value", "clear type", "set value=x", "add value x",
    ],
    "dataset": ["set name=\"\"", "clear name", "set name=\"a b\"", "remove options x"],
}
# Resources in which something is missing.
PARTIAL = [
    "add fs; set dir=/q; set special=/x; end", "add fs; set dir=/q; end", "add fs; end",
    "add fs; set special=/x; set type=nfs; end", "add fs; set dir=/q; set special=x; set type=lofs; end",
    "add fs; set dir=/; set special=x; set type=nfs; end", "add net; set address=10.0.0.1; end",
    "add net; set physical=net0; end", "add device; end", "add dataset; end", "add rctl; set name=zone.y; end",
    "add rctl; add value (priv=privileged,limit=1,action=none); end", "add attr; end",
    "add attr; set name=z; set type=string; end", "add attr; set name=z; set type=uint; set value=-1; end",
]
FORMS_OF_ZONECFG = [
    "zonecfg", "zonecfg -z", "zonecfg -zz %s info", "zonecfg info", "zonecfg %s info", "zonecfg -z %s",
    "zonecfg info -z %s", "Zonecfg -z %s info", "zonecfg  -z   %s   info   ", "zonecfg -z %s;info",
    "zonecfg -z %s -z x info", "zonecfg -f x -z %s", "-z %s zonecfg info", "zonecfg -z %s info -z x",
    "zonecfgs -z %s info", "zonecfg -z \"%s\" info",
]
HEADS = [
    "S 1 zonecfg -z web set pool=", "S 1 zonecfg -z web ", "S 1 zonecfg -z web set bootargs=\"", "S 1 zonecfg -z web ;",
    "S 1 zonecfg -z web info;", "S 1 zonecfg -z web create; set zonepath=/", "S 1 zonecfg -z web #", "R", "R ",
    "S 1 zonecfg -z web add fs; set options=[a,", "S 1 zoneadm list -c", "S 1 zoneadm -z web list ",
]


def quoted(text):
    return text if export_model.setting("", text) == "set =%s\n" % text and text else '"%s"' % text


class ZonecfgMaker(RequestMaker):
    """Makes traces with configurations, most of which verify."""

    heads = RequestMaker.heads + HEADS

    def __init__(self, rng, known, share=0.75):
        self.known = known
        # how many of the traces are of the lines that are known
        self.configured = share
        self.words = fuzz_export.Maker(rng)
        super().__init__(rng)

    # Subcommands.

    def setting(self):
        """A property of the global scope that is set or cleared."""
        rng = self.rng
        chance = rng.random()
        if chance < 0.1:
            return "clear %s" % rng.choice(list(SETTINGS) + ["zonepath"])
        if chance < 0.15:
            return "set zonepath=%s" % quoted(rng.choice(ZONEPATHS))
        if chance < 0.2:
            return rng.choice(["set %s=\"\"", "set %s=[]", "set %s=(a=b)", "set %s=x y"]) % rng.choice(list(SETTINGS))
        name = rng.choice(list(SETTINGS) + ["limitpriv", "limitpriv", "fs-allowed", "max-processes"])
        if name in ("brand", "ip-type") and chance < 0.7:
            name = "pool"
        return "set %s=%s" % (name, quoted(rng.choice(SETTINGS[name])))

    def filesystem(self):
        rng = self.rng
        fstype = rng.choice(["lofs", "lofs", "lofs", *SPECIALS])
        special = rng.choice(SPECIALS[fstype])
        texts = ["set dir=" + rng.choice(DIRECTORIES), "set special=" + quoted(special), "set type=" + fstype]
        texts += ["set raw=x"] if rng.random() < 0.1 else []
        options = rng.choice(OPTIONS)
        return texts + ([rng.choice(["add options ", "set options="]) + options] if rng.random() < 0.6 else [])

    def network(self, config):
        """A net that fits the zone's kind of network, for the most part."""
        rng = self.rng
        is_exclusive = (config["ip-type"] == "exclusive") != (rng.random() < 0.03)
        texts = ["set physical=" + rng.choice(ITEMS["link"])]
        if not is_exclusive:
            texts.append("set address=" + rng.choice(ITEMS["address"]) + rng.choice(["", "/24", "/0", "/32"]))
        elif rng.random() < 0.3:
            texts.append("set allowed-address=%s/8" % rng.choice(ITEMS["address"]))
        return texts + (["set defrouter=10.0.0.254"] if rng.random() < 0.2 else [])

    def control(self):
        rng = self.rng
        limits = ["add value (priv=privileged,limit=%d,action=%s)" % (
            rng.randrange(1, 5), rng.choice(["deny", "deny", "none"])) for _ in range(rng.choice([1, 1, 2, 3]))]
        return ["set name=" + rng.choice(RCTLS)] + limits

    def attribute(self):
        rng = self.rng
        form, value = rng.choice([("string", "web team"), ("int", "-5"), ("uint", "7"), ("boolean", "true"),
                                  ("string", "v" * 900), ("int", "x")])
        return ["set name=" + rng.choice(["owner", "n0", "n1", "n2"]), "set type=" + form, "set value=" + quoted(value)]

    def fields(self, kind, config):
        """Subcommands that fill a resource."""
        rng = self.rng
        if kind in ("fs", "rctl", "attr"):
            return {"fs": self.filesystem, "rctl": self.control, "attr": self.attribute}[kind]()
        if kind == "net":
            return self.network(config)
        if kind == "device":
            return ["set match=" + quoted(rng.choice(MATCHES))]
        return ["set name=" + rng.choice(ITEMS["dataset"])]

    def resource(self, config):
        """A resource that is added, selected and changed, or removed."""
        rng = self.rng
        kind = rng.choice(export_model.KINDS)
        chance = rng.random()
        if chance < 0.75 or not config[kind]:
            return "; ".join(["add " + kind] + self.fields(kind, config) + [rng.choice(["end"] * 9 + ["cancel"])])
        pairs = self.words.pairs(kind, config)
        if chance < 0.85:
            return "remove %s%s %s" % (rng.choice(["", "", "-F "]), kind, pairs)
        others = ["info", self.words.resource_edit(kind), rng.choice(ODD_IN[kind])]
        change = rng.choice(self.fields(kind, config) + others)
        return "select %s %s; %s; end" % (kind, pairs, change)

    def looking(self):
        rng = self.rng
        part = "info " + rng.choice(export_model.GLOBAL + list(export_model.ALIASES) + export_model.KINDS)
        return rng.choice(["info", "info", part, part, "export", "help", "verify"])

    def subcommands(self, edit):
        """Some subcommands that have a point in what is open."""
        rng = self.rng
        chance = rng.random()
        if chance < 0.03:
            return rng.choice(ODD)
        if edit.config is None:
            made = "set zonepath=%s" % quoted(self.path(edit.name.decode()))
            brand = ["set brand=%s" % quoted(self.brand())]
            made += rng.choice(["", "; set ip-type=exclusive"])
            return "; ".join(rng.choice([["create"], ["create -b"] + brand, ["create -F -b"] + brand]) + [made])
        if chance < 0.13:
            return self.words.subcommand(edit)
        if edit.scope is not None:
            if rng.random() < 0.3:
                return self.looking() if rng.random() < 0.3 else rng.choice(ODD_IN[edit.scope[0]])
            return "; ".join(self.words.missing(edit.scope[0], edit.scope[1], edit.config) + ["end"])
        if chance < 0.3:
            return self.looking()
        if chance < 0.33:
            return rng.choice(PARTIAL) if rng.random() < 0.2 else "add " + rng.choice(export_model.KINDS)
        return self.setting() if chance < 0.6 else self.resource(edit.config)

    def tried(self, edit, text):
        """Whether nothing refuses these subcommands; those that ask something of the system are left out."""
        try:
            for part in export_model.subcommands(text.encode("latin-1")):
                if edit_model.first_word(part) not in edit_model.GLOBAL_ONLY + ("exit",):
                    edit.obey(export_model.command_of(part))
        except Refused:
            return False
        return True

    def text_of(self, edit, count):
        """A line of subcommands, most of which aren't refused, and what its editor then has."""
        rng = self.rng
        edit, texts = copy.copy(edit), []
        for _ in range(count):
            text, twin = self.subcommands(edit), copy.copy(edit)
            if self.tried(twin, text):
                edit = twin
            elif rng.random() < 0.8:
                continue
            if len("; ".join(texts + [text])) < 3900:
                texts.append(text)
        return rng.choice(["; ", "; ", ";", " ; "]).join(texts), edit

    def mending(self, edit, flaw):
        """A subcommand that does away with a flaw."""
        code, _, rest = flaw.partition(" ")
        args = rest.split(" ")[1:]
        if code == "41":
            return "set zonepath=/zones/%s" % edit.name.decode()
        if code == "46":
            return "set brand=ipkg"
        if code == "43":
            net = edit.config["net"][int(args[0])]
            return "remove -F net physical=%s address=%s" % (quoted(net["physical"]), quoted(net["address"]))
        if code == "45":
            return "remove -F fs dir=%s" % args[0]
        return "remove -F %s" % {"44": "net", "50": "attr name=" + args[0]}.get(code, args[0])

    def mended(self, edit):
        """Subcommands that do away with the flaws of what is open, for the most part."""
        if edit.config is None or self.rng.random() < 0.1:
            return ""
        edit, texts = copy.copy(edit), ["cancel"] if edit.scope is not None else []
        edit.scope = None
        for _ in range(12):
            flaw = export_model.flaw(edit.config, list(self.host.brands))
            if flaw is None:
                break
            texts.append(self.mending(edit, flaw))
            self.tried(edit, texts[-1])
        return "; ".join(texts)

    # Lines.

    def has(self, *kinds):
        return all(kind in self.known for kind in kinds)

    def first(self):
        """A session that is idle, where there is one; one that edits leaves for it."""
        host = self.host
        idle = [number for number in self.sessions if host.is_idle(number)]
        if not idle and host.edits:
            idle = list(host.edits)[:1]
            self.line("S %d exit -F" % idle[0])
        return (idle or self.sessions)[0]

    def session(self):
        """A session, for the most part one that is idle."""
        chance = self.rng.random()
        return self.rng.choice(self.sessions) if chance < 0.04 else self.first() if chance < 0.5 else super().session()

    def works(self, name, count):
        """Gives a daemon so many turns, and fewer, for the most part, where it has less to do."""
        for _ in range(count):
            if not self.is_busy(name) and self.rng.random() < 0.8:
                return
            self.line("D %s" % name)

    def turns(self, name):
        self.works(name, self.rng.choice([1, 1, 2, 3, 5, 10, 11, 13]))

    def makes(self, names):
        """Makes zones, as other makers do."""
        for name in names:
            self.create(name) if self.rng.random() < 0.2 else self.type_lines(
                made(name, self.first(), self.rng.choice(["ipkg", "ipkg", "lx"])))

    def does(self, name, asked):
        """A request, with its turns."""
        self.type_lines(done(name, asked, self.first()))

    def bring(self, name, state):
        """Brings a zone that is made to a state."""
        ways = {"incomplete": ["install", "mark incomplete"], "installed": ["install"], "ready": ["attach", "ready"],
                "running": ["install", "boot"]}
        for asked in ways.get(state, []):
            self.does(name, asked)
            self.finish(name)

    def zonecfg(self, name, count=None, end=None):
        """A line of subcommands, typed as a whole."""
        rng = self.rng
        text, edit = self.text_of(Edit(name.encode("latin-1"), self.host), count or rng.choice([1, 1, 2, 4, 8]))
        texts = [text, self.mended(edit), rng.choice(ENDS) if end is None else end]
        self.type("zonecfg -z %s %s" % (name, "; ".join(it for it in texts if it)))

    def editing(self):
        """A session that edits, and its zone."""
        number = self.rng.choice(list(self.host.edits))
        return number, self.host.edits[number].name.decode()

    def edit_line(self):
        """A line of a session that edits; or one begins to, now and then."""
        rng, host = self.rng, self.host
        if not host.edits or len(host.edits) < len(self.sessions) and rng.random() < 0.1:
            return self.type("zonecfg -z %s" % self.name())
        number, _ = self.editing()
        edit = host.edits[number]
        chance = rng.random()
        if chance < 0.62:
            text, edit = self.text_of(edit, rng.choice([1, 1, 1, 2, 4]))
            if rng.random() < 0.2:
                text = "; ".join(it for it in (text, self.mended(edit), rng.choice(ENDS)) if it)
        elif chance < 0.67:
            text = rng.choice(ODD)
        elif chance < 0.83:
            text = "; ".join(it for it in (self.mended(edit), "commit") if it)
        else:
            text = rng.choice(EDITING)
        return self.line("S %d %s%s" % (number, rng.choice(["", "", "", " "]), text))

    def list_line(self):
        rng = self.rng
        if rng.random() < 0.6:
            form = rng.choice(NO_LISTS) if rng.random() < 0.15 else rng.choice(LISTS)
            return self.type("zoneadm list %s" % form)
        return self.type("zoneadm -z %s list %s" % (self.name(), rng.choice(ONE_LISTS)))

    def known_line(self):
        """A line of one of the kinds that are known."""
        rng = self.rng
        kinds = {"zonecfg": 10, "edit": 14, "list": 4, "verify": 3, "help": 0.4, "restart": 0.25}
        kinds = {kind: weight for kind, weight in kinds.items() if kind in self.known}
        kind = rng.choices(list(kinds), kinds.values())[0]
        if kind == "zonecfg":
            self.zonecfg(self.name())
        elif kind == "edit":
            self.edit_line()
        elif kind == "list":
            self.list_line()
        elif kind == "verify":
            self.type("zoneadm -z %s verify%s" % (self.name(), rng.choice(["", "", "", "", " x"])))
        elif kind == "help":
            form = rng.choice(["zoneadm help", "zoneadm -z %s help", "zoneadm -z %s help x", "zoneadm help -z"])
            self.type(form.replace("%s", self.name()))
        else:
            self.line(rng.choice(["R"] * 40 + ["R ", "R x", "RR", "r"]))

    def declares(self):
        """Declares most of the items."""
        for kind, items in ITEMS.items():
            for item in self.rng.sample(items, len(items)):
                if self.rng.random() < 0.8:
                    self.line("Y %s %s" % (kind, item))

    def configures(self, name, count=6):
        """Makes a zone with a whole configuration, in a line or in a session, as far as such lines are known."""
        if not self.has("zonecfg") and not self.has("edit"):
            return self.makes([name])
        if not self.has("edit") or self.has("zonecfg") and self.rng.random() < 0.6:
            return self.zonecfg(name, count, "")
        number = self.first()
        self.line("S %d zonecfg -z %s" % (number, name))
        for _ in range(4):
            if number in self.host.edits:
                self.line("S %d %s" % (number, self.text_of(self.host.edits[number], 1 + count // 3)[0]))
        if number in self.host.edits:
            self.line("S %d %s" % (number, self.mended(self.host.edits[number])))
            self.line("S %d exit" % number)
        return None

    def makes_sure(self, names):
        """Makes zones with configurations, and those that didn't come about without one."""
        for name in names:
            self.configures(name, self.rng.choice([1, 6, 12]))
            if self.host.state(name.encode()) is None:
                self.makes([name])

    # Traces.

    def call_of_configured(self):
        """A call of a process that shows something of its zone's configuration, or None for any call."""
        rng = self.rng
        if rng.random() < 0.6:
            return rng.choice([None, ["links"], ["datasets"], ["devices"], ["mounts"], ["privs"], ["fork", "x"]])
        if rng.random() < 0.5:
            return [rng.choice(["read", "write"]), rng.choice(DIRECTORIES) + rng.choice(["", "/x"])]
        fstype = rng.choice(["ufs", "pcfs", "nfs", "smbfs", "lofs", "UFS"])
        return ["mount", fstype, "/x", "/m%d" % rng.randrange(9)]

    def wholes(self):
        """Zones with configurations that come up and go down, and what their processes have then."""
        rng = self.rng
        self.begin(rng.sample(NAMES, rng.choice([1, 2, 3, 4])), rng.choice([1, 2, 3]))
        self.declares()
        self.makes_sure(self.names)
        for name in self.names:
            self.does(name, rng.choice(["attach", "install"]))
        for _ in range(rng.choice([2, 4, 8])):
            name = rng.choice(self.names)
            state = self.host.state(name.encode())
            self.ask(name, {"installed": rng.choice(["boot", "boot", "ready"]), "ready": "boot"}.get(state))
            for _ in range(rng.choice([6, 12, 20])):
                self.works(name, 1)
                if rng.random() < 0.1:
                    self.known_line()
                if rng.random() < 0.06:
                    self.hold(name)
            self.finish(name)
            for _ in range(rng.choice([0, 4, 12])):
                alive = [it for it in self.names if self.host.pids(it.encode())]
                if alive:
                    self.process_line(rng.choice(alive), self.call_of_configured())
            if rng.random() < 0.5:
                self.known_line()
        return self.data()

    def claiming(self, config):
        """Subcommands after which a configuration asks for some of the few items."""
        rng = self.rng
        texts = ["remove -F " + kind for kind in ("net", "dataset") if config[kind]]
        if rng.random() < 0.5:
            texts.append("set ip-type=exclusive")
            texts += ["add net; set physical=%s; end" % it for it in rng.sample(ITEMS["link"], rng.choice([1, 3]))]
        else:
            texts.append("set ip-type=shared")
            texts += ["add net; set physical=x; set address=%s/9; end" % it for it in rng.sample(
                ITEMS["address"], rng.choice([1, 3]))]
        texts += ["add dataset; set name=%s; end" % it for it in rng.sample(ITEMS["dataset"], rng.choice([0, 1, 3]))]
        return texts + ["set limitpriv=default"]

    def denied(self):
        """Zones that ask for the same items, so that some get ready only in part, and have it undone."""
        rng = self.rng
        self.begin(rng.sample(NAMES, rng.choice([2, 3])), 3)
        self.declares()
        self.makes_sure(self.names)
        for name in self.names:
            if self.has("zonecfg") and self.host.state(name.encode()) is not None:
                self.type("zonecfg -z %s %s" % (name, "; ".join(self.claiming(self.host.config(name.encode()).values))))
            self.does(name, "attach")
        for _ in range(rng.choice([2, 5])):
            name = rng.choice(self.names)
            self.ask(name, rng.choice(["ready", "boot", "boot", "halt", "reboot"]))
            for _ in range(rng.choice([8, 20, 40])):
                self.works(name, 1)
                if rng.random() < 0.06:
                    self.hold(name)
                if rng.random() < 0.3:
                    self.let_go(name)
                if rng.random() < 0.03:
                    self.known_line()
            if rng.random() < 0.8:
                self.finish(name)
        return self.data()

    def tuned(self):
        """Configurations that are changed in all states, while daemons work."""
        rng = self.rng
        self.begin(rng.sample(NAMES, rng.choice([1, 2, 3])), rng.choice([1, 2, 4]))
        if rng.random() < 0.5:
            self.declares()
        self.makes_sure(self.names if rng.random() < 0.7 else self.names[1:])
        for _ in range(rng.choice([5, 20, 50])):
            chance = rng.random()
            if chance < 0.45:
                self.known_line()
            elif chance < 0.6:
                self.ask(rng.choice(self.names))
            elif chance < 0.9:
                self.turns(self.busy())
            elif chance < 0.95:
                self.between(rng.choice(self.names))
            else:
                self.move()
        return self.data()

    def edited(self):
        """Several sessions that edit the same few zones."""
        rng = self.rng
        self.begin(rng.sample(NAMES, rng.choice([1, 1, 2])), rng.choice([2, 3, 4]))
        self.makes_sure(self.names if rng.random() < 0.6 else self.names[1:])
        for number in self.sessions[1:]:
            if rng.random() < 0.8:
                self.line("S %d zonecfg -z %s" % (number, rng.choice(self.names)))
        for _ in range(rng.choice([5, 20, 60])):
            chance = rng.random()
            if chance < 0.75:
                self.edit_line()
            elif chance < 0.88:
                self.known_line()
            elif chance < 0.93:
                self.ask(rng.choice(self.names))
            else:
                self.turns(self.busy())
        return self.data()

    def deletes(self, name):
        """A line that deletes a zone, or makes it where there is none."""
        rng, host = self.rng, self.host
        editing = [number for number, edit in host.edits.items() if edit.name == name.encode()]
        if editing and rng.random() < 0.4:
            text = rng.choice(["delete -F", "delete -F", "create -F; info"])
            return self.line("S %d %s" % (rng.choice(editing), text))
        if host.state(name.encode()) is None and self.has("zonecfg"):
            return self.zonecfg(name, 2, "")
        if self.has("zonecfg"):
            return self.type("zonecfg -z %s %s" % (name, rng.choice(["delete -F", "delete -F", "info; delete -F"])))
        return self.configures(name, 1)

    def comings(self):
        """Zones that are deleted and made again, while sessions edit them and daemons work."""
        rng = self.rng
        self.begin(rng.sample(NAMES, rng.choice([1, 2, 2])), 4)
        self.makes_sure(self.names)
        for _ in range(rng.choice([8, 20, 50])):
            name = rng.choice(self.names)
            chance = rng.random()
            if chance < 0.35:
                self.deletes(name)
            elif chance < 0.55:
                self.edit_line() if self.has("edit") else self.known_line()
            elif chance < 0.65:
                self.ask(name)
            elif chance < 0.9:
                self.works(name, rng.choice([1, 2, 10]))
            elif self.has("list"):
                self.type("zoneadm list -cp")
        return self.data()

    def lists(self):
        """Zones in all states, and lists of them."""
        rng = self.rng
        self.begin(rng.sample(NAMES, rng.choice([1, 3, 6])), rng.choice([1, 2]))
        for name in self.names:
            if rng.random() < 0.2:
                path = rng.choice(["/a:b", "/\\:\\", "/" + "l" * 40])
                self.type("zonecfg -z %s create; set zonepath=%s" % (name, path))
            if self.host.state(name.encode()) is None:
                self.configures(name, 2)
            if self.host.state(name.encode()) is not None:
                self.bring(name, rng.choice(["configured", "incomplete", "installed", "ready", "running"]))
        for _ in range(rng.choice([3, 10, 25])):
            chance = rng.random()
            if chance < 0.6:
                self.known_line() if chance < 0.2 or not self.has("list") else self.list_line()
            elif chance < 0.75:
                self.ask(rng.choice(self.names))
            else:
                self.works(self.busy(), rng.choice([1, 1, 4]))
        return self.data()

    def restarts(self):
        """Restarts amid what goes on."""
        rng = self.rng
        if not self.has("restart"):
            return self.tuned()
        self.begin(rng.sample(NAMES, rng.choice([1, 2, 3])), rng.choice([2, 3]))
        self.declares()
        self.makes_sure(self.names)
        for _ in range(rng.choice([2, 4, 8])):
            for name in rng.sample(self.names, rng.choice([1, len(self.names)])):
                for _ in range(rng.choice([1, 2, 3])):
                    self.ask(name)
                    self.works(name, rng.choice([1, 4, 12, 24]))
                if rng.random() < 0.5:
                    self.between(name)
                if rng.random() < 0.6:
                    self.known_line()
            self.line("R")
            after = ["S 1 zoneadm list -cp", "R", "D %s" % name, "S %d info" % self.sessions[0]]
            self.type_lines(rng.sample(after, rng.choice([0, 2])))
            if rng.random() < 0.05:
                self.declare()
        return self.data()

    def odd_subcommands(self, name):
        """Subcommands that may be wrong in any of the known ways."""
        rng, host = self.rng, self.host
        kind = rng.choice(export_model.KINDS)
        text = rng.choice([
            self.text_of(Edit(name.encode(), host), 3)[0], rng.choice(ODD), rng.choice(ODD) + "; " + rng.choice(ODD),
            rng.choice(PARTIAL) + "; verify", "add %s; %s; info" % (kind, rng.choice(ODD_IN[kind])),
            self.words.subcommand(Edit(name.encode(), host))])
        which = rng.randrange(5)
        if which == 0 and text:
            at = rng.randrange(len(text))
            return text[:at] + rng.choice("\"[](){};,=# -~") + text[at + rng.choice([0, 1]):]
        if which == 1:
            return " ".join(self.spoilt(text.split(" "))).replace("\xff", "~").replace("\t", "")
        if which == 2:
            return text + rng.choice([
                "; commit", "; exit", "; delete -F", ";;", "; #x", ";info", "; revert -F", "; exit -F"])
        return rng.choice(["info pool; ", "set pool=q;", "add fs; ", "create; ", "", ";", " # "]) + text

    def odd_line(self, name):
        """A line of an idle session that may be wrong in any of the known ways."""
        rng = self.rng
        which = rng.randrange(8)
        if which == 0:
            form = rng.choice([
                "zoneadm -z %s verify", "zoneadm list -cp", "zoneadm -z %s list -p", "zoneadm -z %s help"])
            return " ".join(self.spoilt(form.replace("%s", name).split(" "))).replace("\xff", "~").replace("\t", "")
        if which == 1:
            return rng.choice(FORMS_OF_ZONECFG).replace("%s", name)
        if which == 2:
            return rng.choice(["zoneadm list " + rng.choice(LISTS + NO_LISTS),
                               "zoneadm -z %s list %s" % (name, rng.choice(ONE_LISTS))])
        return "zonecfg -z %s %s" % (name, self.odd_subcommands(name))

    def odd_lines(self):
        """Lines that may be wrong in any of the known ways, where a zone is in some state."""
        rng = self.rng
        self.begin(rng.sample(NAMES, 2), 2)
        self.makes_sure(self.names[:1])
        if rng.random() < 0.3:
            self.bring(self.names[0], rng.choice(["incomplete", "installed", "ready", "running"]))
        if self.has("edit") and rng.random() < 0.6:
            self.line("S %d zonecfg -z %s" % (self.sessions[1], rng.choice([self.names[0]] * 3 + self.names)))
        for _ in range(rng.choice([1, 4, 12, 30])):
            name = rng.choice(self.names + self.names[:1] * 3 + ([rng.choice(NO_NAMES)] if rng.random() < 0.2 else []))
            if self.sessions[1] in self.host.edits and rng.random() < 0.6:
                self.line("S %d %s" % (self.sessions[1], self.odd_subcommands(name)))
            else:
                self.line("S %d %s" % (self.first(), self.spaced(self.odd_line(name))))
        if rng.random() < 0.05:
            self.line("S 1 zonecfg -z web set pool=%s" % rng.choice(["\t", "\x7f", "\xe9", "a\r"]))
        return self.data()

    def commits(self, name, texts):
        """Commits subcommands on a zone, some at a time."""
        while texts:
            count = self.rng.choice([1, 3, 10])
            while len("; ".join(texts[:count])) > 4000:
                count -= 1
            self.line("S %d zonecfg -z %s %s" % (self.sessions[0], name, "; ".join(texts[:count])))
            texts = texts[count:]

    def bounds(self):
        """A configuration that comes near one of its bounds, or passes it."""
        rng = self.rng
        self.begin(rng.sample(NAMES[:4], 1), 2)
        self.makes(self.names)
        name, which = self.names[0], rng.randrange(3)
        if which == 0:
            texts = ["add attr; set name=a%d; set type=string; set value=%s; end" % (
                it, "v" * rng.choice([1000, 1010, 1023])) for it in range(rng.randrange(29, 33))]
            texts += ["set bootargs=%s" % ("b" * rng.randrange(1, 1000)) for _ in range(6)]
            texts += ["set autoboot=true", "set limitpriv=%s" % ("l" * 300), "clear autoboot", "clear bootargs"]
        elif which == 1:
            texts = ["add fs; set dir=/m%d; set special=/s; set type=lofs; end" % it
                     for it in range(rng.randrange(98, 103))]
            texts += ["add dataset; set name=x; end", "add fs; end", "remove fs dir=/m7", "add fs; end; verify"]
        else:
            texts = ["add dataset; set name=d%d; end" % it for it in range(rng.randrange(254, 259))]
            texts += ["set cpu-shares=1", "set max-lwps=2", "set cpu-shares=3", "add fs; end", "remove -F dataset"]
        self.commits(name, texts)
        if name.encode() not in self.host.store.records:
            return self.data()
        size = len(self.host.config(name.encode()).text()) + len("set bootargs=\n")
        left = MOST_TEXT - size - rng.choice([0, 0, 1, 4])
        if 0 < left < 1024:
            self.commits(name, ["set bootargs=" + "b" * left])
        self.does(name, rng.choice(["attach", "install"]))
        self.ask(name, rng.choice(["move", "boot", "boot"] if which else ["move"]))
        self.finish(name, 140)
        self.type("zonecfg -z %s info" % name)
        return self.data()

    def full_of_configurations(self):
        """A store that long records fill up to its last byte, or nearly so, and what may then be committed or
        deleted."""
        rng = self.rng
        self.begin(rng.sample(NAMES[:4], 2), 2)
        self.makes(self.names)
        name, other = self.names
        if name.encode() not in self.host.store.records:
            return self.data()
        texts = ["add attr; set name=a%d; set type=string; set value=%s; end" % (it, "v" * 1000) for it in range(30)]
        self.commits(name, texts)
        while self.room() > 33000:
            self.commits(name, ["set pool=p%d" % (self.host.store.serial % 2)])
        self.commits(name, ["remove -F attr"])
        while self.room() > 1150:
            length = max(1, min(1000, self.room() - 1400))
            self.commits(name, ["set bootargs=%s%d" % ("b" * length, self.host.store.serial % 10)])
        left = removal_size(other.encode()) + AROUND + rng.choice([-1, 0, 0, 1])
        record = self.host.store.records[name.encode()]
        for length in range(1, 1000):
            changed = Record(record.state, record.config.with_values(bootargs="c" * length))
            if self.room() - AROUND - changed.size(name.encode()) == left:
                self.commits(name, ["set bootargs=" + "c" * length])
                break
        for _ in range(rng.choice([2, 5])):
            self.type("zonecfg -z %s %s" % (rng.choice(self.names), rng.choice([
                "delete -F", "set pool=x", "set pool=p1; set pool=p0", "set zonepath=/zones/" + name,
                "info; delete -F"])))
            self.known_line()
        return self.data()

    def room(self):
        """The bytes that are left in the store."""
        return MOST_BYTES - self.host.store.used

    def crowded(self):
        """About as many zones as may be stored, of which some go and others come."""
        rng = self.rng
        count = rng.choice([255, 256, 257])
        self.begin(["z%d" % number for number in range(count)], rng.choice([1, 3]))
        for name in self.names:
            self.line("S %d zonecfg -z %s create; set zonepath=/%s" % (self.sessions[0], name, name))
        for _ in range(rng.choice([5, 20])):
            name = rng.choice(self.names[-3:] + self.names)
            form = rng.choice([
                "zonecfg -z %s delete -F", "zonecfg -z %s create; set zonepath=/%s", "zoneadm -z %s list",
                "zonecfg -z %s set zonepath=/z0", "zonecfg -z x%s create; set zonepath=/%s"])
            self.type(form.replace("%s", name))
        self.known_line()
        self.type("zoneadm list -cp")
        return self.data()

    def next(self, traces):
        rng = self.rng
        if rng.random() >= self.configured:
            return super().next(traces)
        chance = rng.random()
        for bound, make in [
            (0.16, self.wholes), (0.22, self.denied), (0.38, self.tuned),
            (0.52, self.edited if self.has("edit") else self.tuned), (0.56, self.comings), (0.61, self.lists),
            (0.67, self.restarts), (0.83, self.odd_lines),
            (0.835, self.bounds), (0.8355, self.full_of_configurations), (0.838, self.crowded),
        ]:
            if chance < bound or not traces:
                return make()
        return self.mutated(traces)
