"""Random traces for tools/fuzz_trace.py: made along the grammar, and some of them cut, joined or with bytes changed."""

import trace_lines
import trace_model as model
from plan_model import FROM

FORM = "zonecfg -z %s create -b; set zonepath=%s; set brand=ipkg"
BRANDED = "zonecfg -z %s create -b; set zonepath=%s; set brand=%s"
NAMES = ["web", "db", "a", "0", "Z9", "a.b-c_d", "x-", "n" * 62, "n" * 63, "sunw", "SUNx", "Global", "globals"]
NO_NAMES = [
    "global", "SUNW", "SUNWx", "-a", ".a", "_a", "n" * 64, "!" * 64, "a/b", "a~", "ab:", "-z", "a;", "#", "\"a\"",
]
PATHS = [
    "/z", "/zones/web", "/zones/web/x", "/", "zones", "//", "/a//b", "/a/", "/.", "/..", "/...", "/a/./b", "/a/..",
    "/.a", "/" + "p" * 1021, "/" + "p" * 1022, "/" + "p" * 1023, "/p" * 511, "/p" * 512, "/" + "q" * 3500,
    "/a,b", "/a#b", "#a", "/[a]", "/a]b[", "[a", "]a", "]", "", "/a(b", "/a)b", "/a=b", "/a;b", "/a\"b", "\"/a\"",
    "/~!@$%^&*_+{}|:<>?`-\\'", "'/a'", "/a;", "set",
]
NUMBERS = [
    "0", "65", "01", "", "1x", "+1", "-1", "064", "1.0", "99", "640", "4294967297", "18446744073709551617", "1\r",
    "\xb2",
]
TEXTS = [
    "", " ", "   ", "install", "zoneadm", "zoneadm list", "zoneadm list -cp", "zoneadm -z", "zoneadm -z %s",
    "zoneadm -z %s verify", "zoneadm -z %s install x", "zoneadm -z %s boot --", "zoneadm -z %s boot -- -s",
    "zoneadm -z %s Install", "zoneadm %s install", "zoneadm -z  install", "zoneadm -zz %s install", "zoneadm help",
    "x zoneadm -z %s install", "zoneadm -z -z %s install", "zoneadm -z %s halt;", "zoneadm -z %s uninstall",
    "zoneadm -z %s ready", "zoneadm -z %s reboot", "zoneadm -z %s mark incomplete", "zlogin %s ps", "zlogin -C %s",
    "foo -z %s -z web", "foo -z", "-z", "-z %s", "kill 9 2", "fhold -z %s /usr", "frelease -z %s /",
    "set pool=a -z %s", "exit", "~.", "# -z %s", "@- x", "zoneadm\t-z %s install", "zoneadm -z %s install\r",
    "zoneadm -z %s\x00 install", "zo\xc3\xa9 -z %s",
]
EDITS = [
    "", "info", "create", "create -b", "create -b; set brand=ipkg; set zonepath=/z", "create -b; set zonepath=/z",
    "create; set zonepath=/z; set brand=ipkg", "create -b; set zonepath=/z; set brand=lx",
    "create -b; set zonepath=/z; set brand=ipkg;", "create -b;set zonepath=/z;set brand=ipkg",
    "create -b ; set zonepath=/z; set brand=ipkg", "create -b; set zonepath=/z ; set brand=ipkg",
    "create -b; set zonepath=/z; set brand=ipkg x", "create -b; set zonepath= /z; set brand=ipkg",
    "create -b; set zonepath=/z; set brand=ipkgs", "create -b; set zonepath=/z; set brand=",
    "create -F -b; set zonepath=/z; set brand=ipkg", "create -b; set zonepath=/z set brand=ipkg",
    "create -b; set zonepath; set brand=ipkg", "-z x create -b; set zonepath=/z; set brand=ipkg",
    "Create -b; set zonepath=/z; set brand=ipkg", "create -b; set zonepath==/z; set brand=ipkg",
    "create -b; set zonepath=/z;; set brand=ipkg", "create -b; set zonepath=/z /y; set brand=ipkg",
]
TEXTS += ["zonecfg -z %s " + edit for edit in EDITS] + ["zonecfg %s " + EDITS[8], "zonecfg -z " + EDITS[8]]
JUNK = [
    "S", "S ", "D", "D ", "R", "Y link net0", "P web 2 ps", "P", "Q", "s 1 x", "d web", "SS 1", "DD web", "S1",
    "S\t1 x", " S 1 x", " D web", " # x", "\t# x", "@- D web", "@", "@5 S 1", "@\xff", " @- D web", "D web ", "D web x",
    "D  web", "D web\r", "D web \r", "S\r", "\r", "\t", "D \x7f", "D w\x00b", "\xff", "S \xff", "S 1\xff", "S 1 \xff",
    "S 1 a\x7fb", "S 65 \xff", "S 1 ~\x1f", "-", "S,1", "D,web", "\xef\xbb\xbfS 1",
]
QUIET = ["", " ", "     ", "#", "# web", "#\x00\xff\r", "##", "#@- D web", "#S 65 x"]
KINDS = {
    "install": 8, "boot": 8, "halt": 6, "ready": 3, "reboot": 3, "attach": 2, "detach": 2, "uninstall": 2, "mark": 2,
    "move": 2, "clone": 2,
}
HEADS = [
    "#", " ", "S 1 ", "S 1", "S 1 foo -z web ", "S 1 zoneadm -z ", "D ", "D web ", "@", "x", "\xff",
    "S 1 zonecfg -z long create -b; set brand=ipkg; set zonepath=/",
    "S 1 zonecfg -z long create -b; set zonepath=/",
]


class Maker:
    """Makes traces without processes' calls. It runs each line by the model, to know what has a point next."""

    heads = HEADS
    # The kinds of lines that are known beside those that always are, and the command whose input is made.
    known = trace_lines.OLD_LINES
    command = "trace"
    # What states the grant of each line, where lines state them.
    stated = None

    def __init__(self, rng):
        self.rng = rng
        self.begin(["web"], 1)

    def begin(self, names, sessions):
        self.host = model.Host(known=self.known)
        self.lines = []
        if self.stated is not None:
            self.stated.begin()
        self.names = names
        self.sessions = self.rng.sample(range(1, 65), sessions)

    def line(self, text):
        if self.is_needless(text):
            return
        if self.stated is not None:
            self.lines.append(self.stated.line(self.host, text))
            return
        self.lines.append(text)
        try:
            event = self.host.read(text.encode("latin-1"))
        except trace_lines.Outside:
            return
        if event is not None:
            model.answers(self.host, event, self.command)

    def is_needless(self, text):
        """Whether a line is one of the turns, most of them, that a daemon has had already in a script."""
        desk = self.host.desks.get(text[2:].encode("latin-1"))
        is_idle = self.command == "script" and text[:2] == "D " and not (desk and desk.is_busy())
        return is_idle and self.rng.random() < 0.95

    def data(self):
        text = "\n".join(self.lines).encode("latin-1")
        return text + self.rng.choice([b"\n", b"\n", b""])

    def name(self):
        return self.rng.choice(NO_NAMES if self.rng.random() < 0.03 else self.names)

    def session(self):
        """A session, for the most part one that is idle."""
        idle = [number for number in self.sessions if self.host.is_idle(number)]
        return self.rng.choice(idle if idle and self.rng.random() < 0.9 else self.sessions)

    def spaced(self, text):
        """The same words, at times with more spaces about them."""
        if self.rng.random() < 0.9:
            return text
        return "".join(self.rng.choice(["  ", "   ", " "]) if c == " " else c for c in " " + text + " ")

    def type(self, text):
        self.line("S %d %s" % (self.session(), self.spaced(text)))

    def path(self, name):
        """A zonepath, for the most part one that only this zone has."""
        chance = self.rng.random()
        if chance < 0.8:
            return "/zones/%s" % name
        held = [it.config.path for it in self.host.store.records.values()]
        return self.rng.choice(held if held and chance < 0.9 else PATHS)

    def create(self, name):
        self.type(FORM % (name, self.path(name)))

    def request(self, name):
        """A request, for the most part one that the zone's state allows."""
        state = self.host.state(name.encode("latin-1"))
        fitting = {kind: weight for kind, weight in KINDS.items() if state in FROM[kind]}
        kinds = fitting if fitting and self.rng.random() < 0.8 else KINDS
        self.type("zoneadm -z %s %s" % (name, self.asked(self.rng.choices(list(kinds), kinds.values())[0])))

    def asked(self, kind):
        """The words of a request."""
        name = self.rng.choice(self.names)
        return {
            "uninstall": "uninstall -F", "mark": "mark incomplete", "move": "move " + self.path(name),
            "clone": "clone " + name, "boot": self.rng.choice(["boot", "boot", "boot -- -s"]),
        }.get(kind, kind)

    def turns(self, name):
        for _ in range(self.rng.choice([1, 1, 2, 3, 5, 10, 11, 13])):
            self.line("D %s" % name)

    def busy(self):
        """A zone whose daemon has something to do, where there is one."""
        names = [name for name, desk in self.host.desks.items() if desk.is_busy()]
        return self.rng.choice(names).decode() if names else self.name()

    def move(self):
        chance = self.rng.random()
        name = self.name()
        if self.host.state(name.encode("latin-1")) is None and chance < 0.7:
            self.create(name)
        elif chance < 0.25:
            self.request(name)
        elif chance < 0.80:
            self.turns(self.busy())
        elif chance < 0.83:
            good = self.rng.choice(self.names)
            self.line("D %s" % good)
        elif chance < 0.88:
            self.create(name)
        elif chance < 0.95:
            text = self.rng.choice(TEXTS).replace("%s", name)
            if all(32 <= ord(c) <= 126 for c in text) or self.rng.random() < 0.1:
                self.type(text)
        elif chance < 0.99:
            self.line(self.rng.choice(QUIET))
        elif chance < 0.993:
            self.line("S %s %s" % (self.rng.choice(NUMBERS), self.rng.choice(TEXTS[:8])))
        elif chance < 0.996:
            self.line("S %d" % self.session())
        elif chance < 0.9975:
            self.line("D %s" % self.rng.choice(NO_NAMES + ["", "web x", "web "]))
        else:
            self.line(self.rng.choice(JUNK))

    def trace(self):
        rng = self.rng
        self.begin(rng.sample(NAMES, rng.choice([1, 1, 2, 3, 6])), rng.choice([1, 1, 2, 3, 8]))
        for _ in range(rng.choice([1, 3, 10, 30, 60])):
            self.move()
        return self.data()

    def one_line(self):
        """A line that may be wrong in any of the known ways, after a zone that is made."""
        rng = self.rng
        self.begin(NAMES, 3)
        for _ in range(rng.choice([0, 1, 2])):
            self.create(rng.choice(NAMES))
        which = rng.randrange(5)
        name = rng.choice(NAMES + NO_NAMES)
        if which == 0:
            self.line(rng.choice(JUNK))
        elif which == 1:
            self.line("S %s %s" % (rng.choice(NUMBERS + ["1", "64"]), rng.choice(TEXTS).replace("%s", name)))
        elif which == 2:
            self.line("D %s" % name)
        elif which == 3:
            self.type(FORM % (name, rng.choice(PATHS)))
        else:
            self.type("zoneadm -z %s %s" % (name, self.asked(rng.choice(list(KINDS)))))
        return self.data()

    def queue(self):
        """Many sessions that ask few daemons, so that desks fill."""
        rng = self.rng
        self.begin(rng.sample(NAMES, rng.choice([1, 1, 2])), rng.choice([9, 10, 20, 64]))
        for name in self.names:
            self.create(name)
        for _ in range(rng.choice([20, 100])):
            name = rng.choice(self.names)
            if rng.random() < 0.7:
                self.request(name)
            else:
                self.turns(name)
        for _ in range(rng.choice([0, 100])):
            self.line("D %s" % self.busy())
        return self.data()

    def crowd(self):
        """About as many zones as may be stored, or more, and some that run."""
        rng = self.rng
        count = rng.choice([254, 255, 256, 257, 260])
        self.begin(["z%d" % number for number in range(count)], rng.choice([1, 3, 64]))
        for name in self.names:
            self.type(FORM % (name, "/" + name))
            if rng.random() < 0.02:
                self.move()
        for _ in range(5):
            self.type(FORM % (rng.choice(self.names[-2:] + NAMES + NO_NAMES), rng.choice(PATHS + ["/z0", "/z1"])))
        for name in rng.sample(self.names, rng.choice([0, 3, 10])) + self.names[-3:]:
            self.create(name)
            for _ in range(3):
                self.request(name)
                for _ in range(rng.choice([1, 10, 13])):
                    self.line("D %s" % name)
        return self.data()

    def lives(self):
        """Zones that come up and go down many times, so that replies fill the program's pieces."""
        rng = self.rng
        self.begin(rng.sample(NAMES, rng.choice([1, 3, 8])), 4)
        for _ in range(rng.choice([100, 300])):
            name = rng.choice(self.names)
            if self.host.state(name.encode()) is None:
                self.create(name)
                continue
            self.request(name)
            for _ in range(13):
                self.line("D %s" % (name if rng.random() < 0.9 else rng.choice(self.names)))
        if rng.random() < 0.5:
            self.line(rng.choice(JUNK))
        return self.data()

    def long_line(self):
        """A line of about the most bytes that a line may have, somewhere in a trace."""
        rng = self.rng
        most = rng.choice([4095, 4096, 4097, 4098, 8192])
        self.trace()
        head = self.headed(rng.choice(self.heads))
        fill = rng.choice([" ", "a", "#", "/", "\xff"]) if rng.random() < 0.5 else head[-1]
        tail = rng.choice(["", "", "; set brand=ipkg", "zoneadm -z web install"])
        line = head + fill * (most - len(head) - len(tail)) + tail
        self.lines.insert(rng.randrange(len(self.lines) + 1), line)
        return self.data()

    def many_lines(self):
        """About as many lines as an input may have, most of them cheap."""
        rng = self.rng
        count = rng.choice([199999, 200000, 200001])
        filler = rng.choice(["", "#", "D web", "S 1"])
        self.queue()
        room = count - len(self.lines)
        place = rng.choice([0, len(self.lines)])
        self.lines[place:place] = [self.headed(filler)] * room
        return self.data()

    def headed(self, text):
        """The beginning of a line that isn't run, with what stands before it where lines state grants."""
        return text if self.stated is None or text in ("", "#") else self.stated.head() + text

    def mutated(self, traces):
        rng = self.rng
        data = bytearray(rng.choice(traces))
        for _ in range(rng.choice([1, 1, 2, 5])):
            at = rng.randrange(len(data) + 1)
            chance = rng.random()
            if chance < 0.2 and at < len(data):
                data[at] ^= 1 << rng.randrange(8)
            elif chance < 0.4:
                data[at:at + 1] = bytes([rng.choice(b" \n\r\t#@SD016;=[]()/-.\"\x00\x7f\x80\xff")])
            elif chance < 0.6:
                del data[at:at + rng.choice([1, 2, 5, 40])]
            elif chance < 0.7:
                other = rng.choice(traces)
                cut = rng.randrange(len(other) + 1)
                data[at:at] = other[cut:cut + rng.choice([5, 60, 600])]
            else:
                data[:] = b"\n".join(self.moved(data.split(b"\n")))
        return bytes(data)

    def moved(self, lines):
        """The lines with one of them gone, doubled, joined with the next one or cut in two, or two exchanged."""
        rng = self.rng
        at, other = rng.randrange(len(lines)), rng.randrange(len(lines))
        which = rng.randrange(5)
        if which == 0:
            del lines[at]
        elif which == 1:
            lines[at:at] = [lines[at]] * rng.choice([1, 1, 12])
        elif which == 2:
            lines[at:at + 2] = [b"".join(lines[at:at + 2])]
        elif which == 3:
            cut = rng.randrange(len(lines[at]) + 1)
            lines[at:at + 1] = [lines[at][:cut], lines[at][cut:]]
        else:
            lines[at], lines[other] = lines[other], lines[at]
        return lines

    def noise(self):
        """Bytes of no meaning, or of few meanings."""
        rng = self.rng
        if rng.random() < 0.5:
            return bytes(rng.randrange(256) for _ in range(rng.randrange(60)))
        pieces = b"S|D| | |1|64|65|\n|\n|web|#|@-|-z|zoneadm|install".split(b"|")
        return b"".join(rng.choice(pieces) for _ in range(rng.randrange(40)))

    def next(self, traces):
        chance = self.rng.random()
        for bound, make in [
            (0.40, self.trace), (0.55, self.one_line), (0.63, self.queue), (0.66, self.crowd), (0.68, self.lives),
            (0.74, self.long_line), (0.77, self.noise), (0.773, self.many_lines),
        ]:
            if chance < bound or not traces:
                return make()
        return self.mutated(traces)
