"""Random traces for tools/fuzz_trace.py in which items are declared, processes mount, unmount and look where paths lie,
and the global zone holds mounts."""

from process_maker import ProcessMaker
from trace_maker import FORM, NAMES, NO_NAMES
from zone_lines import TURNS, done, installed, running

CALLS = {"mount": 24, "read": 22, "umount": 16, "write": 14, "mounts": 14, "links": 2, "datasets": 2, "devices": 2}
TYPES = ["lofs"] * 12 + ["nfs", "nfs", "hsfs", "smbfs"]
ODD_TYPES = [
    "ufs", "root", "LOFS", "Nfs", "proc", "0", "lofs1", "lof", "nf", "t" * 14, "t" * 15, "zfs", "dev", "ro",
]
NO_TYPES = ["t" * 16, "t" * 300, "lo-fs", "lo_fs", "lofs,", "lofs.", "/lofs", "", "\xe9", "lofs\t", "lofs\x00", "<nfs>"]

# Directories near to one another: as bytes one begins another, as components it doesn't; and in byte order what lies
# below a directory doesn't stand right after it.
DIRECTORIES = [
    "/a", "/a/b", "/ab", "/a-b", "/a.b", "/a!", "/a/b/c", "/a/bc", "/a0", "/A", "/b", "/b/a", "/usr", "/usrx",
    "/usr/local", "/usr/localx", "/usr-x/a", "/usr/local/a", "/z", "/~", "/a/~", "/a/!", "/a~/b",
]
RESTS = ["", "", "/x", "/b", "/b/c", "x", "/x/y/z", "-b", "/...", "/~!@#$%^&*()", "/local", "0", "/" + "y" * 300]
ODD_PATHS = [
    "/", "/root", "/zones/web/root", "/" + "p" * 1022, "/p" * 511, "/..a", "/a'b", "/<nfs:x>", "/[a]", "/a=b", "/#",
]
NO_PATHS = [
    "", "a", "usr/local", "//", "/a/", "//a", "/a//b", "/.", "/..", "/a/.", "/a/../b", "/./a", ".", "..", "~", "/a\"b",
    "/" + "p" * 1023, "/p" * 512, "/" + "q" * 3500, "/a\tb", "/a\x7f", "/\xe9", "/a\x00", "/a\r", "-z", "\\", "/a/./",
]
SPECIALS = ["host:/x", "/", "x", "/dev/dsk/c0", "//server/share", "\"x\"", "<nfs:x>", "-", "ro", "#", "a=b;c", "." * 70]
NO_SPECIALS = ["", "\xe9", "x\x7f", "x\ty", "x\x00", "x\r", "\x1f"]
NO_RO = ["rw", "Ro", "RO", "ro,rw", "", "r", "roo", "\xff", "/x", "ro\r"]

KINDS = ["link", "address", "dataset", "device"]
ITEMS = {
    "link": ["net0", "net1", "a", "0", "-", "_./-", "n" * 62, "n" * 63, "...", "Net0", "e1000g0", "/"],
    "address": ["10.0.0.1", "0.0.0.0", "255.255.255.255", "1.2.3.4", "10.0.0.10", "249.250.199.200", "9.99.100.109"],
    "dataset": ["rpool/zones", "tank", "a/b/c", "n" * 63, "net0", "0", "-", "a//b", "/"],
    "device": ["/dev/dsk", "/", "/dev/d/a", "/dev/rdsk/c0t0d0s0", "/" + "p" * 1022, "/p" * 511, "/dev/*", "/dev/[a]"],
}
NO_ITEMS = {
    "link": ["n" * 64, "n" * 300, "", "net,0", "net~", "net:0", "a*", "\xe9", "net0\t", "net0\r", "@", "\"a\"", "a=b"],
    "address": [
        "10.0.0.1/24", "10.0.0", "10.0.0.1.1", "256.0.0.1", "01.0.0.1", "1.0.0.00", "1..2.3", ".1.2.3", "1.2.3.",
        "a.b.c.d", "", "-1.2.3.4", "+1.2.3.4", "1.2.3.4\r", "1.2.3.\xb2", "1,2,3,4", "1.2.3.1000", "host", "::1",
        "999.1.1.1", "300.1.1.1",
    ],
    "dataset": ["n" * 64, "", "a b", "tank@snap", "tank:x", "\xe9", "a\x00", "tank\t", "a+b"],
    "device": NO_PATHS,
}
OCTETS = ["0", "1", "9", "10", "19", "25", "99", "100", "109", "199", "200", "249", "250", "254", "255"]
NO_OCTETS = ["256", "259", "260", "300", "999", "1000", "00", "01", "010", "025", "0255", "", "-1", "a", "1a"]
EDGE_BYTES = "abzAZ0189__--..//!!~~" + ":;@[`{,+*\"' \t\x1f\x7f\x80\xff\x00\r"
# What a zone's root may lie in.
ZONEPATHS = ["/z", "/zones/web", "/zones/web/x", "/...", "/" + "z" * 500, "/" + "z" * 1000, "/~!@#$%^&*", "/[a]"]
# Words as long as they may be, and one byte longer.
EDGES = [form % (letter * length) for form, letter, most in [
    ("Y link %s", "n", 63), ("Y dataset %s", "n", 63), ("Y device /%s", "p", 1022), ("P web 2 mount %s /x /m", "t", 15),
    ("P web 2 mount lofs /%s /m", "p", 1022), ("P web 2 mount nfs x /%s", "p", 1022), ("P web 2 read /%s", "p", 1022),
    ("P web 2 umount /%s", "p", 1022), ("S 1 fhold -z web /%s", "p", 1022),
] for length in (most, most + 1)]
DECLARATIONS = [
    "Y", "Y ", "Y  link a", "Y link", "Y link ", "Y link a b", "Y link a ", "Y Link a", "Y links a", "Y lin a",
    "Y net a", "Y fs /a", "Y zone a", "y link a", "YY link a", " Y link a", "Y\tlink a", "Y,link", "Y link\ta",
    "@- Y link a", "@yes Y link a", "Y address", "Y dataset", "Y device", "Y device ", "Y address 1.2.3.4 ",
    "Y dataset a b", "Y link \xff", "Y \xff", "Y link a\x7f", "#Y link a", "S Y link a", "S 1 Y link a", "D Y",
    "P Y 2 ps", "Y link a\r", "Y 1 link a",
]
HOLDS = [
    "fhold", "frelease", "fhold -z", "fhold -z %s", "frelease -z %s", "fhold -z %s %d x", "fhold %s %d",
    "fhold %d -z %s", "fhold -z %d %s", "frelease %d -z %s", "-z %s fhold %d", "fhold -zz %s %d", "Fhold -z %s %d",
    "FRELEASE -z %s %d", "fholds -z %s %d", "freleas -z %s %d", "fhold -f -z %s %d", "fhold -z -z %d",
    "fhold  -z  %s  %d", "fhold -z %s %d;", "fhold\t-z %s %d", "fhold -z %s  ", "zoneadm -z %s fhold %d",
    "fhold -z %s,%d", "frelease -z %s -z %d", "hold -z %s %d",
]


class ObjectMaker(ProcessMaker):
    """Makes traces with mounts, holds and declarations, most of which succeed."""

    heads = ProcessMaker.heads + [
        "Y link ", "Y dataset ", "Y device /", "Y address 1", "P web 2 read /", "P web 2 mount nfs ",
        "P web 2 mount lofs /", "P web 2 mount nfs x /", "P web 2 umount /", "S 1 fhold -z web /", "S 1 fhold ",
    ]

    def begin(self, names, sessions):
        super().begin(names, sessions)
        # how many of the calls are of objects, and the directories that this trace has to do with
        self.weight = self.rng.choice([0.2, 0.5, 0.8, 1.0])
        self.directories = self.rng.sample(DIRECTORIES, self.rng.choice([2, 4, 8, len(DIRECTORIES)]))

    # Words of a call.

    def mounted(self, zone):
        """A directory that is mounted in a zone."""
        mounts = self.host.mounts.get(zone.encode("latin-1"))
        return self.rng.choice(list(mounts.by_directory)) if mounts and mounts.by_directory else "/"

    def path(self, zone):
        """A path, for the most part a directory of a mount, or one below or beside it."""
        rng = self.rng
        if rng.random() < self.slips:
            return rng.choice(NO_PATHS)
        chance = rng.random()
        if chance < 0.05:
            return rng.choice(ODD_PATHS)
        base = self.mounted(zone) if chance < 0.6 else rng.choice(self.directories)
        rest = rng.choice(RESTS)
        return base + rest if base != "/" else "/" + rest.lstrip("/")

    def directory(self, zone, new):
        """The directory of a mount to be, or of one that is there."""
        chance = self.rng.random()
        if chance < 0.08:
            return self.path(zone)
        return self.rng.choice(self.directories) if new or chance < 0.25 else self.mounted(zone)

    def mount(self, zone):
        rng = self.rng
        fstype = self.one_of(ODD_TYPES if rng.random() < 0.06 else TYPES, NO_TYPES)
        special = self.path(zone) if fstype == "lofs" else self.one_of(SPECIALS, NO_SPECIALS)
        words = ["mount", fstype, special, self.directory(zone, True)]
        return words + ([self.one_of(["ro"], NO_RO)] if rng.random() < 0.35 else [])

    def privilege(self):
        return "sys_mount" if self.rng.random() < 0.1 else super().privilege()

    def object_call(self, zone):
        call = self.rng.choices(list(CALLS), CALLS.values())[0]
        if call == "mount":
            return self.mount(zone)
        if call == "umount":
            return [call, self.directory(zone, False)]
        return [call, self.path(zone)] if call in ("read", "write") else [call]

    def call(self, zone):
        return self.object_call(zone) if self.rng.random() < self.weight else super().call(zone)

    def item(self, kind):
        """An item of a kind, now and then one that is declared already."""
        return self.one_of(ITEMS[kind], NO_ITEMS[kind])

    # Lines.

    def declare(self, kind=None):
        kind = kind or self.rng.choice(KINDS)
        self.line("Y %s %s" % (kind, self.item(kind)))

    def hold(self, zone=None):
        """A hold or a release, for the most part of a mount that is there, and one that does something."""
        rng = self.rng
        zone = zone or self.zone()
        directory = self.mounted(zone) if rng.random() < 0.8 else self.directory(zone, False)
        if rng.random() < 2 * self.slips:
            return self.type(rng.choice(HOLDS).replace("%s", zone).replace("%d", directory))
        mounts = self.host.mounts.get(zone.encode("latin-1"))
        is_held = bool(mounts) and directory in mounts.by_directory and mounts.is_held(directory)
        verb = "frelease" if is_held != (rng.random() < 0.2) else "fhold"
        return self.type("%s -z %s %s" % (verb, rng.choice(NO_NAMES) if rng.random() < 0.02 else zone, directory))

    def move(self):
        chance = self.rng.random()
        if chance < 0.07 * self.weight:
            self.hold()
        elif chance < 0.075 * self.weight:
            self.declare()
        else:
            super().move()

    def make_running(self, zone):
        """A zone that runs, with its root now and then in another place than others'."""
        lines = running(zone, self.sessions[0])
        if self.rng.random() < 0.3:
            lines[0] = "S %d %s" % (self.sessions[0], FORM % (zone, self.rng.choice(ZONEPATHS)))
        self.type_lines(lines)

    def let_go(self, zone):
        """Releases what keeps a zone's daemon from going on."""
        mounts = self.host.mounts[zone.encode()]
        if mounts.by_directory and mounts.is_held(mounts.last()):
            self.line("S %d frelease -z %s %s" % (self.session(), zone, mounts.last()))

    # Traces.

    def declared(self):
        """Items that are declared, some twice, and then perhaps a zone, and one more item."""
        rng = self.rng
        self.begin(rng.sample(NAMES, 1), 1)
        for _ in range(rng.choice([1, 3, 10, 40])):
            self.declare()
        if rng.random() < 0.5:
            self.type_lines(running(self.names[0], self.sessions[0]))
            for call in rng.sample(["links", "datasets", "devices", "mounts"], rng.choice([1, 4])):
                self.process_line(self.names[0], [call])
        if rng.random() < 0.5:
            self.line(rng.choice(["S 1", "D a", "P a 2 true", "S 1 fhold", "#", "", "S 1 x"]))
            self.declare()
        return self.data()

    def many_declared(self):
        """About as many items of a kind as may be declared."""
        rng = self.rng
        self.begin(rng.sample(NAMES, 1), 1)
        kind = rng.choice(KINDS)
        form = {"address": "10.1.%d.%d", "device": "/dev/%d/%d"}.get(kind, "n%d/%d")
        for number in range(rng.choice([1022, 1023, 1024, 1025, 1030])):
            self.line("Y %s %s" % (kind, form % divmod(number, 256)))
            if rng.random() < 0.003:
                self.declare()
        for _ in range(rng.choice([1, 5])):
            self.line("Y %s %s" % (kind, form % divmod(rng.randrange(1030), 256)))
            self.declare()
        self.type_lines(running(self.names[0], self.sessions[0]) if rng.random() < 0.3 else [])
        return self.data()

    def mounts(self):
        """One or two zones in which one thing is mounted over another, looked at over and over."""
        rng = self.rng
        self.begin(rng.sample(NAMES, rng.choice([1, 1, 2])), rng.choice([1, 2]))
        for name in self.names:
            self.make_running(name)
        for _ in range(rng.choice([5, 20, 60, 150])):
            zone = rng.choice(self.names)
            if rng.random() < 0.1:
                self.hold(zone)
            else:
                self.process_line(zone, self.object_call(zone))
            if rng.random() < 0.3:
                self.process_line(zone, [rng.choice(["read", "write"]), self.path(zone)])
                self.process_line(zone, ["mounts"])
        return self.data()

    def looked_at(self, name, directories):
        """Looks where each of some directories lies, and paths below and beside them."""
        for directory in directories:
            path = directory + self.rng.choice(RESTS)
            self.line("P %s 2 %s %s" % (name, self.rng.choice(["read", "read", "write"]), path))

    def tree(self):
        """Mounts below mounts below mounts, that come in one order and go in another."""
        rng = self.rng
        self.begin(rng.sample(NAMES, 1), 2)
        name = self.names[0]
        self.make_running(name)
        roots = rng.sample(["/a", "/ab", "/a-b", "/a/b", "/usr", "/b"], rng.choice([1, 2]))
        step = rng.choice(["/a", "/b", "/-", "/~", "/a.b"])
        directories = [root + step * depth for root in roots for depth in range(rng.choice([2, 4, 8, 40]))]
        for directory in rng.sample(directories, len(directories)):
            special = rng.choice([rng.choice(directories), self.path(name)])
            words = rng.choice([["lofs", special], ["lofs", special], ["nfs", "x"], ["hsfs", "/"]])
            self.line(" ".join(["P", name, "2", "mount"] + words + [directory] + rng.choice([[], [], ["ro"]])))
            if rng.random() < 0.05:
                self.hold(name)
        self.looked_at(name, directories[:20])
        self.line("P %s 2 mounts" % name)
        for directory in rng.sample(directories, rng.randrange(len(directories) + 1)):
            self.line("P %s 2 umount %s" % (name, directory))
            self.looked_at(name, rng.sample(directories, 1))
        self.line("P %s 2 mounts" % name)
        if rng.random() < 0.5:
            self.halt_with_holds(name)
        return self.data()

    def halt_with_holds(self, name):
        """Halts a zone, and releases what is held as its daemon comes to it."""
        for directory in list(self.host.mounts[name.encode()].by_directory):
            if self.rng.random() < 0.15:
                self.line("S %d fhold -z %s %s" % (self.sessions[1], name, directory))
        self.type_lines(done(name, "halt", self.sessions[0]))
        for _ in range(len(self.host.mounts[name.encode()].by_directory) + 8):
            self.line("D %s" % name)
            if self.rng.random() < 0.8:
                self.let_go(name)

    def chain(self):
        """Mounts of lofs, each of the one before, of which some go and come anew."""
        rng = self.rng
        self.begin(rng.sample(NAMES, 1), 1)
        name = self.names[0]
        self.make_running(name)
        directories = rng.sample(DIRECTORIES, rng.choice([3, 6, 12]))
        under = rng.choice(["/", "/x"])
        for directory in directories:
            rest = rng.choice(["", "/y", "/y/z", "/b"])
            special = under + rest if under != "/" else rest or "/"
            self.line("P %s 2 mount lofs %s %s%s" % (name, special, directory, rng.choice(["", "", " ro"])))
            under = directory
        for _ in range(rng.choice([3, 10, 30])):
            directory = rng.choice(directories)
            self.line("P %s 2 umount %s" % (name, directory))
            self.looked_at(name, rng.sample(directories, 2))
            if rng.random() < 0.7:
                self.line("P %s 2 mount lofs %s %s" % (name, rng.choice(directories + ["/"]), directory))
                self.looked_at(name, [directory])
        self.line("P %s 2 mounts" % name)
        return self.data()

    def full(self):
        """A zone with about as many mounts as it may have."""
        rng = self.rng
        self.begin(rng.sample(NAMES, 1), 2)
        name = self.names[0]
        self.type_lines(running(name, self.sessions[0]))
        form = rng.choice(["/m%d", "/d" * 40 + "/%d", "/a/%d/b"])
        for number in rng.sample(range(140), rng.choice([125, 126, 127, 128, 130])):
            self.line("P %s 2 mount %s /x %s" % (name, rng.choice(["lofs", "nfs"]), form % number))
        for _ in range(rng.choice([3, 10])):
            self.process_line(name, self.object_call(name))
            directory = self.mounted(name)
            self.process_line(name, rng.choice([
                ["mount", "nfs", "x", "/new"], ["mount", "nfs", "x", directory], ["umount", directory], ["mounts"],
            ]))
        if rng.random() < 0.4:
            self.halt_with_holds(name)
        return self.data()

    def of_length(self, zone, directory, length):
        """A path below a mount that lies at a place of so many bytes, as far as a path may be so long."""
        left = length - len(self.host.mounts[zone.encode()].place(directory)) - 1
        return directory.rstrip("/") + "/" + "p" * max(1, min(left, 1022 - len(directory)))

    def far(self, name):
        """Mounts one over the other, until places are long; the directory of the last."""
        rng = self.rng
        under, mounts = "/", self.host.mounts[name.encode()]
        while len(mounts.place(under)) < 3200:
            directory = "/l%d" % len(mounts.by_directory)
            special = self.of_length(name, under, len(mounts.place(under)) + rng.choice([800, 1000]))
            words = rng.choice([["lofs", special], ["lofs", special], ["nfs", "h" * rng.choice([3500, 4000, 4050])]])
            self.line(" ".join(["P", name, "2", "mount"] + words + [directory] + rng.choice([[], ["ro"]])))
            under = directory
        return under

    def long_places(self):
        """Places that are about as long as they may be."""
        rng = self.rng
        self.begin(rng.sample(NAMES, 1), 1)
        name = self.names[0]
        self.make_running(name)
        under = self.far(name)
        for _ in range(rng.choice([1, 3, 5])):
            path = self.of_length(name, under, rng.choice([4094, 4095, 4096, 4096, 4097, 4097, 4098]))
            mount = ["mount", "lofs", path, rng.choice(["/q", "/r", under])]
            words = rng.choice([["read", path], ["write", path], mount])
            self.line(" ".join(["P", name, "2"] + words))
            self.line("P %s 2 %s" % (name, rng.choice(["mounts", "read /q", "read /q/x", "write /r/y", "umount /q"])))
        return self.data()

    def held(self):
        """Zones that come up and go down while their mounts are held."""
        rng = self.rng
        self.begin(rng.sample(NAMES, rng.choice([1, 1, 2])), rng.choice([2, 3]))
        for name in self.names:
            self.type_lines(installed(name, self.sessions[0]))
        for _ in range(rng.choice([1, 2, 4])):
            zone = rng.choice(self.names)
            for kind in ["boot", "halt"]:
                self.line("S %d zoneadm -z %s %s" % (self.session(), zone, kind))
                for _ in range(TURNS[kind] + rng.choice([0, 0, 2, 8])):
                    self.line("D %s" % zone)
                    if rng.random() < 0.2:
                        self.hold(zone)
                    while self.host.pids(zone.encode()) and rng.random() < 0.4:
                        self.process_line(zone, self.object_call(zone))
                    if rng.random() < 0.5:
                        self.let_go(zone)
        return self.data()

    def stuck(self):
        """A halt that waits for a held mount, and that nothing else refuses."""
        rng = self.rng
        self.begin(rng.sample(NAMES, 1), 2)
        name = self.names[0]
        self.type_lines(running(name, self.sessions[0]))
        for directory in rng.sample(self.directories, rng.choice([0, 1, 2])):
            self.line("P %s 2 mount nfs x %s" % (name, directory))
        held = [it for it in self.host.mounts[name.encode()].by_directory if rng.random() < 0.6]
        for directory in held:
            self.line("S %d fhold -z %s %s" % (self.session(), name, directory))
        self.type_lines(done(name, "halt", self.sessions[0]))
        for directory in rng.sample(held, len(held)):
            self.line("S %d frelease -z %s %s" % (self.sessions[1], name, directory))
            self.line("D %s" % name)
        self.turns(name)
        return self.data()

    def unprivileged(self):
        """Processes that give up sys_mount, and what they may do with mounts then."""
        rng = self.rng
        self.begin(rng.sample(NAMES, 1), 1)
        name = self.names[0]
        self.type_lines(running(name, self.sessions[0]))
        self.line("P %s 2 mount %s /x /a" % (name, rng.choice(["lofs", "nfs"])))
        for line in rng.sample(["P %s 2 fork a", "P %s 2 drop sys_mount", "P %s 2 fork b", "P %s 3 drop sys_mount"], 3):
            self.line(line % name)
        for _ in range(rng.choice([2, 6])):
            call = rng.choice([["umount", "/a"], ["umount", "/b"], ["mount", "ufs", "x", "/b"], self.object_call(name)])
            self.line(" ".join(["P", name, rng.choice("234")] + call))
        return self.data()

    def odd_mount(self):
        """The words after a `mount`, one of which is wrong or an odd one."""
        rng = self.rng
        return rng.choice([
            [rng.choice(NO_TYPES), "/x", "/m"], ["lofs", rng.choice(NO_PATHS), "/m"],
            ["lofs", "/x", rng.choice(NO_PATHS)], ["nfs", rng.choice(NO_SPECIALS + NO_PATHS), "/m"],
            ["nfs", "x", "/m", rng.choice(NO_RO)], ["lofs", "/x", "/m", "ro", rng.choice(NO_RO + ["ro"])],
            [rng.choice(ODD_TYPES), "x", "/m"],
        ])

    def one_object_line(self):
        """A line that may be wrong in any of the known ways, where a zone runs with a mount."""
        rng = self.rng
        self.begin(NAMES, 2)
        zone = rng.choice(self.names)
        if rng.random() < 0.7:
            self.type_lines(running(zone, self.sessions[0]))
            self.line("P %s 2 mount lofs /x /a" % zone)
        which = rng.randrange(7)
        if which == 0:
            self.begin_anew()
            self.line(rng.choice(rng.choice([DECLARATIONS, EDGES])).replace("web", zone))
        elif which == 1:
            self.begin_anew()
            kind = rng.choice(KINDS)
            self.line("Y %s %s" % (kind, rng.choice(ITEMS[kind] + NO_ITEMS[kind])))
        elif which == 2:
            self.type(rng.choice(HOLDS).replace("%s", zone).replace("%d", rng.choice(["/", "/a", "/b"] + NO_PATHS)))
        elif which == 3:
            self.line(" ".join(self.spoilt(["P", zone, "2"] + self.object_call(zone))))
        elif which == 4:
            self.line("P %s 2 mount %s" % (zone, " ".join(self.odd_mount())))
        elif which == 5:
            self.line(rng.choice(EDGES).replace("web", zone))
        else:
            call = rng.choice(["read", "write", "umount"])
            self.line("P %s 2 %s %s" % (zone, call, rng.choice(NO_PATHS + ODD_PATHS)))
        if rng.random() < 0.5:
            self.process_line(zone, self.object_call(zone))
        return self.data()

    def near(self, word):
        """A word with a byte gone, put in or changed, for the most part to one beside those that words may have."""
        rng = self.rng
        at = rng.randrange(len(word) + 1)
        return word[:at] + rng.choice(["", rng.choice(EDGE_BYTES)]) + word[at + rng.choice([0, 1]):]

    def near_item(self, kind):
        rng = self.rng
        if kind == "address":
            return ".".join(rng.choice(OCTETS if rng.random() < 0.97 else NO_OCTETS) for _ in range(4))
        return self.near(rng.choice(ITEMS[kind]))

    def near_words(self):
        """Lines whose words are right or nearly so, up to a wrong one."""
        rng = self.rng
        self.begin(rng.sample(NAMES, 1), 1)
        name = self.names[0]
        for _ in range(rng.choice([1, 5, 20])):
            kind = rng.choice(KINDS)
            self.line("Y %s %s" % (kind, self.near_item(kind)))
        if rng.random() < 0.3:
            return self.data()
        self.make_running(name)
        for _ in range(rng.choice([1, 5, 20])):
            words = rng.choice([
                ["mount", "nfs", self.near("h:/~!x"), rng.choice(DIRECTORIES)],
                ["mount", self.near(rng.choice(TYPES + ["t" * 15])), "/x", "/" + self.near("m")],
                ["mount", "lofs", self.near("/a/b"), self.near("/m/n")],
                [rng.choice(["read", "write", "umount"]), self.near("/a/b!~")],
            ])
            self.line(" ".join(["P", name, "2"] + words))
        return self.data()

    def begin_anew(self):
        """Forgets the lines, for the most part."""
        if self.rng.random() < 0.6:
            self.begin(self.names, 2)

    def next(self, traces):
        chance = self.rng.random()
        for bound, make in [
            (0.04, self.declared), (0.05, self.many_declared), (0.14, self.mounts), (0.16, self.full),
            (0.20, self.tree), (0.23, self.chain), (0.27, self.long_places), (0.33, self.held), (0.35, self.stuck),
            (0.38, self.unprivileged), (0.52, self.one_object_line), (0.58, self.near_words),
        ]:
            if chance < bound:
                return make()
        return super().next(traces)
