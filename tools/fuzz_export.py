#!/usr/bin/env python3
"""Compares `zones export` with the plain model in export_model.py over random scripts.

    tools/fuzz_export.py [--count N] [--seed S] [--program FILE]

Scripts are made along the grammar, so that most of them get far, and then some are cut, joined or have bytes
changed. The first input that differs is kept in fuzz-export.input. It is no part of the gate.
"""

import pathlib
import random
import subprocess
import sys

import export_model as model
from arguments import arguments

TEXTS = ["a", "web", "", "net0", "x y", "rpool/a", "-m verbose", "~", "a" * 63, "a" * 64, "a" * 1023, "a" * 1024]
VALUES = {
    "zonepath": ["/zones/web", "/z", "/", "zones", "/a/../b", "/a//b", "/" + "p" * 1022, "/" + "p" * 1023],
    "autoboot": ["true", "false", "yes", ""],
    "brand": ["ipkg", "lx", "solaris10", "", "b" * 32, "b" * 33, "a b"],
    "ip-type": ["shared", "exclusive", ""],
    "hostid": ["80f0c086", "0", "ffffffff", "123456789", "", "A"],
    "cpu-shares": ["1", "20", "0", "18446744073709551615", "18446744073709551616", "07", ""],
    "max-lwps": ["1", "300", "x"],
    "max-processes": ["2", ""],
    ("fs", "dir"): ["/usr", "/opt", "/", "usr", ""],
    ("fs", "special"): ["/export", "disk", ""],
    ("fs", "type"): ["lofs", "ufs", "tmp-fs", "a" * 15, "a" * 16],
    ("net", "address"): ["10.0.0.1/24", "10.0.0.1", "10.0.0.2/33", "10.0.0.01", "256.1.1.1", "1.2.3", "1.2.3.4/0", ""],
    ("net", "allowed-address"): ["10.0.0.9/8", "x", ""],
    ("net", "physical"): ["net0", "net1", ""],
    ("net", "defrouter"): ["10.0.0.254", "10.0.0.254/24", ""],
    ("device", "match"): ["/dev/d*", "/dev/[a-c]", ""],
    ("rctl", "name"): ["zone.cpu-shares", "zone.max-lwps", "zone.x", "", "a/b"],
    ("attr", "name"): ["owner", "team", "zonex", "-a", ""],
    ("attr", "type"): ["int", "uint", "boolean", "string", "text"],
    ("attr", "value"): ["1", "-1", "true", "web team", "9" * 18, "9" * 19, ""],
    ("dataset", "name"): ["tank/a", "tank/b", ""],
}
OPTIONS = ["ro", "nodevices", "a/b", "x.y", "o" * 63, "o" * 64, "a,b", ""]
LIMITS = [
    "(priv=privileged,limit=10,action=deny)", "(priv=privileged,limit=20,action=none)",
    "(priv=basic,limit=1,action=deny)", "(limit=1,priv=privileged,action=deny)",
    "(priv=privileged,limit=0,action=deny)", "(priv=privileged)", "()", "(a=", "[a]",
]
JUNK = [
    "frob", "create -b -F", "set", "set =a", "set a", "add", "add zone", "select fs", "remove", "info",
    "commit", "delete -F", "exit", "export", "help", "revert -F", "verify now", "create \"-b\"",
    "set pool=(a", "set pool=\"a", "set pool=a]b", "set pool=)", "add fs net", "select fs dir=", "select fs options=a",
    "remove fs x", "#x", "set pool=[a,b]", "clear nothing", "set a=b c", "select attr name=a=b", "\x01", "a\tb", "(;)", "[;]",
    "set pool=\"\"", "set bootargs=\"a;b\"", "remove -F fs dir=\"\"", "cancel x", "set brand=\xff",
]


class Maker:
    """Makes scripts, with a model of what is open so that most subcommands fit."""

    def __init__(self, rng):
        self.rng = rng

    def quoted(self, text):
        bare = text and all(c.isalnum() or c in "_-./:,*?!@+%" for c in text)
        return text if bare and self.rng.random() < 0.9 else '"%s"' % text

    def value(self, key):
        return self.quoted(self.rng.choice(VALUES.get(key, TEXTS)))

    def good(self, key):
        values = VALUES.get(key, TEXTS)
        return self.quoted(values[0] if self.rng.random() < 0.6 else self.rng.choice(values[:2]))

    def pick(self, key):
        return self.good(key) if self.rng.random() < 0.95 else self.value(key)

    def pairs(self, kind, config):
        known = config[kind] if config else []
        pairs = []
        for _ in range(self.rng.choice([1, 1, 1, 2])):
            name = self.rng.choice(model.FIELDS[kind])
            if known and self.rng.random() < 0.9:
                text = self.rng.choice(known)[name]
                pairs.append("%s=%s" % (name, '"%s"' % text if not text else self.quoted(text)))
            else:
                pairs.append("%s=%s" % (name, self.pick((kind, name))))
        return " ".join(pairs)

    def resource_edit(self, kind):
        name = self.rng.choice(model.FIELDS[kind] + ([model.LISTS[kind]] if kind in model.LISTS else []))
        chance = self.rng.random()
        if model.LISTS.get(kind) == name:
            if chance < 0.05:
                return "clear %s" % name
            if kind == "rctl":
                value = self.rng.choice(LIMITS[:2] if self.rng.random() < 0.95 else LIMITS)
            else:
                source = OPTIONS[:4] if self.rng.random() < 0.95 else OPTIONS
                count = self.rng.choice([0, 1, 2, 3, 3, 31])
                value = "[%s]" % ",".join(self.quoted(self.rng.choice(source)) for _ in range(count))
                if self.rng.random() < 0.4:
                    value = self.quoted(self.rng.choice(source))
            if chance < 0.15:
                return "remove %s %s" % (name, value)
            if chance < 0.3:
                return "set %s=%s" % (name, value)
            return "add %s %s" % (name, value)
        if chance < 0.05:
            return "clear %s" % name
        return "set %s=%s" % (name, self.pick((kind, name)))

    def missing(self, kind, resource, config):
        """What a resource still needs, for the most part."""
        sets = []
        needed = {"net": ["physical", "address"], "fs": ["dir", "special", "type"]}
        for name in needed.get(kind, model.FIELDS[kind]):
            if not resource[name] and self.rng.random() < 0.97:
                text = VALUES[(kind, name)][0]
                if name == model.KEYS.get(kind) or name in ("dir", "address", "physical"):
                    count = len(config[kind])
                    text = {"address": "10.0.%d.1", "dir": "/m%d", "match": "/dev/x%d"}.get(name, "n%d") % count
                sets.append("set %s=%s" % (name, text))
        if kind == "rctl" and not resource["value"]:
            sets.append("add value %s" % LIMITS[0])
        return sets

    def subcommand(self, editor):
        rng = self.rng
        chance = rng.random()
        if chance < 0.015:
            return rng.choice(JUNK)
        if chance < 0.02:
            return rng.choice(["create", "create -F", "create -F -b"])
        if editor.config is None:
            return rng.choice(["create", "create -b", "create -F -b", "create -F"])
        if editor.scope is not None:
            kind = editor.scope[0]
            if chance < 0.6:
                return self.resource_edit(kind)
            if chance < 0.63:
                return "cancel"
            return "; ".join(self.missing(kind, editor.scope[1], editor.config) + ["end"])
        if chance < 0.35:
            name = rng.choice(model.GLOBAL + list(model.ALIASES))
            return "set %s=%s" % (name, self.pick(name))
        if chance < 0.40:
            return "clear %s" % rng.choice(model.GLOBAL[1:] + list(model.ALIASES))
        kind = rng.choice(model.KINDS)
        if chance < 0.80 or not editor.config[kind]:
            return "add %s" % kind
        if chance < 0.92:
            return "select %s %s" % (kind, self.pairs(kind, editor.config))
        return "remove %s%s %s" % (rng.choice(["", "-F ", "-F "]), kind, self.pairs(kind, editor.config))

    def script(self):
        rng = self.rng
        editor = model.Editor()
        lines, line = [], []
        for _ in range(rng.choice([3, 10, 30, 60])):
            text = self.subcommand(editor)
            line.append(text)
            try:
                for part in model.subcommands(text.encode("latin-1")):
                    editor.obey(model.command_of(part))
            except model.Refused:
                if rng.random() < 0.7:
                    line.pop()
            if rng.random() < 0.6:
                lines.append(rng.choice([";", "; ", " ; "]).join(line) + rng.choice(["", "", "", ";", " "]))
                line = []
            if rng.random() < 0.03:
                lines.append(rng.choice(["", "# a comment; with \"", "  \t", "\t# x"]))
        lines.append(";".join(line))
        if editor.scope is not None and rng.random() < 0.9:
            lines.append("end")
        if rng.random() < 0.9:
            lines.append("set zonepath=/zones/web; set brand=ipkg")
        if rng.random() < 0.1:
            lines.append("verify")
        return ("\n".join(lines) + rng.choice(["\n", ""])).encode("latin-1")

    def full(self):
        """A script that comes near one of the bounds of a configuration, or passes it."""
        rng = self.rng
        which = rng.randrange(3)
        lines = ["create", "set zonepath=/zones/web"]
        if which == 0:
            for number in range(rng.randrange(28, 36)):
                value = "v" * rng.choice([1000, 1010, 1023])
                lines.append("add attr; set name=a%d; set type=string; set value=%s; end" % (number, value))
            lines += ["set bootargs=%s" % ("b" * rng.randrange(1000)) for _ in range(4)]
            lines += ["set autoboot=true", "clear autoboot", "clear bootargs"]
        elif which == 1:
            for number in range(rng.randrange(98, 103)):
                lines.append("add fs; set dir=/m%d; set special=/s; set type=lofs; end" % number)
        else:
            for number in range(rng.randrange(254, 259)):
                lines.append("add dataset; set name=d%d; end" % number)
            lines += ["set cpu-shares=1", "set max-lwps=2", "set cpu-shares=3"]
        return ("\n".join(lines) + "\n").encode()

    def mutated(self, scripts):
        rng = self.rng
        data = bytearray(rng.choice(scripts))
        for _ in range(rng.choice([1, 1, 2, 5])):
            if not data:
                break
            at = rng.randrange(len(data))
            chance = rng.random()
            if chance < 0.4:
                data[at] = rng.choice(b'"[](){};,=#\n\t \r\x00\xff-aF0/' )
            elif chance < 0.6:
                del data[at:at + rng.choice([1, 5, 40])]
            elif chance < 0.8:
                other = rng.choice(scripts)
                cut = rng.randrange(len(other) + 1)
                data[at:at] = other[cut:cut + 60]
            else:
                data[at:at] = bytes(rng.randrange(256) for _ in range(3))
        return bytes(data)

    def special(self):
        rng = self.rng
        chance = rng.random()
        if chance < 0.5:
            return bytes(rng.randrange(256) for _ in range(rng.randrange(200)))
        pad = rng.choice([4095, 4096, 4097])
        head = b"create -b\n"
        return head + b"#" * pad + rng.choice([b"\n", b""])


def main():
    args = arguments(__doc__)
    rng = random.Random(args.seed)
    maker = Maker(rng)
    statuses, codes, scripts = {}, {}, []
    for number in range(args.count):
        chance = rng.random()
        if chance < 0.02:
            data = maker.full()
        elif chance < 0.65 or not scripts:
            data = maker.script()
            scripts = (scripts + [data])[-200:]
        elif chance < 0.95:
            data = maker.mutated(scripts)
        else:
            data = maker.special()
        want = model.run(data)
        done = subprocess.run([args.program, "export"], input=data, capture_output=True, timeout=20)
        got = (done.returncode, done.stdout, done.stderr)
        if got != want:
            pathlib.Path("fuzz-export.input").write_bytes(data)
            print("input %d differs (kept in fuzz-export.input)\nmodel:   %r\nprogram: %r" % (number, want, got))
            return 1
        statuses[got[0]] = statuses.get(got[0], 0) + 1
        code = got[2].split(b": ")[-1].split(b" ")[0].decode() if got[0] == 1 else ""
        codes[code] = codes.get(code, 0) + 1
    print("%d inputs agree; by status %s; by code %s" % (args.count, dict(sorted(statuses.items())), dict(sorted(codes.items()))))
    return 0


if __name__ == "__main__":
    sys.exit(main())
