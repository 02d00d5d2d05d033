"""Traces with mounts, holds and declared items whose replies are known, with which the model in trace_model.py is
compared.

fault() gives what it answers otherwise, or None; tools/fuzz_trace.py --self-test does this. Some of the zones have a
configuration that no line of a trace sets yet: it is handed to the model.
"""

import mount_model
import trace_model as model
from claim_model import is_matched
from config_model import Config, address_of, dataset_of, device_of, fs_of, link_of
from trace_lines import Refused
from zone_lines import done, installed, made, running

FILESYSTEMS = [fs_of("/usr/local", "/export/local", "lofs"), fs_of("/usr", "/usr", "lofs", "ro")]
TEAM = Config.of(ip_type="exclusive", fs=FILESYSTEMS[1:], net=[link_of("net0")])
ANY = object()
ASKED_AGAIN = "S 1 zoneadm -z web halt"


def turns(zone, count):
    return ["D %s" % zone] * count


def deep(depth):
    """A directory of so many components."""
    return "/d" * depth


# What a row shows; the configurations of its zones; the lines before; the lines that are looked at; their replies, with
# the lines of a body after ` | `.
ROWS = [
    ("a process mounts, and the global zone holds its mount", {}, running("a"), [
        ("P a 2 mount lofs /export /mnt ro", "a ok"),
        ("P a 2 read /mnt/x", "a ok | /zones/a/root/export/x"),
        ("P a 2 write /mnt/x", "a err EROFS"),
        ("P a 2 read /mntx", "a ok | /zones/a/root/mntx"),
        ("P a 2 mounts", "a ok | / root rw | /mnt lofs ro"),
        ("S 2 fhold -z a /mnt", "a ok"),
        ("P a 2 umount /mnt", "a err EBUSY"),
        ("S 2 frelease -z a /mnt", "a ok"),
        ("P a 2 umount /mnt", "a ok"),
        ("P a 2 umount /mnt", "a err EINVAL"),
    ]),
    ("a path lies in the mount with most components over it", {"web": Config.of(fs=FILESYSTEMS)},
     installed("web") + done("web", "boot") + turns("web", 2), [
         ("P web 2 read /usr/bin", "web ok | /usr/bin"),
         ("P web 2 read /usrx/a", "web ok | /zones/web/root/usrx/a"),
         ("P web 2 read /usr/local/a", "web ok | /export/local/a"),
         ("P web 2 write /usr/bin", "web err EROFS"),
         ("P web 2 write /usr/local/a", "web ok | /export/local/a"),
         ("P web 2 umount /usr", "web err EPERM"),
         ("P web 2 read /usr", "web ok | /usr"),
         ("P web 2 mounts", "web ok | / root rw | /usr lofs ro | /usr/local lofs rw"),
     ]),
    ("a zone with an fs and a link boots and is halted", {"web": TEAM}, ["Y link net0"] + installed("web"), [
        ("S 1 zoneadm -z web boot", "web ticket 2"), ("D web", "web began 2 boot"),
        ("D web", "web step hook before ready"), ("D web", "web step zid 1"), ("D web", "web step limits"),
        ("D web", "web step devices 0"), ("D web", "web step root"), ("D web", "web step mount /usr"),
        ("D web", "web step link net0"), ("D web", "web step state ready"), ("D web", "web step hook after ready"),
        ("D web", "web step hook before boot"), ("D web", "web step init 2"), ("D web", "web step state running"),
        ("D web", "web step hook after boot"), ("D web", "web finished 2 ok"),
        ("P web 2 links", "web ok | link net0"),
        (ASKED_AGAIN, "web ticket 3"), ("D web", "web began 3 halt"), ("D web", "web step hook before halt"),
        ("D web", "web step state shutting_down"), ("D web", "web step kill 1"), ("D web", "web step unmount /usr"),
        ("D web", "web step unmount /"), ("D web", "web step release link net0"), ("D web", "web step clear"),
        ("D web", "web step state down"), ("D web", "web step zidback 1"), ("D web", "web step state installed"),
        ("D web", "web step hook after halt"), ("D web", "web finished 3 ok"),
    ]),
    ("a halt waits for a held mount", {"web": TEAM},
     ["Y link net0"] + installed("web") + done("web", "boot") + turns("web", 2), [
         ("S 2 fhold -z web /usr", "web ok"), (ASKED_AGAIN, "web ticket 3"), ("D web", "web began 3 halt"),
         ("D web", "web step hook before halt"), ("D web", "web step state shutting_down"),
         ("D web", "web step kill 1"), ("D web", "web stuck unmount"), ("D web", "web stuck unmount"),
         ("S 2 frelease -z web /usr", "web ok"), ("D web", "web step unmount /usr"), ("D web", "web step unmount /"),
         ("D web", "web step release link net0"), ("D web", "web step clear"), ("D web", "web step state down"),
         ("D web", "web step zidback 1"), ("D web", "web step state installed"),
         ("D web", "web step hook after halt"), ("D web", "web finished 3 ok"),
         ("S 2 frelease -z web /usr", "web err 99 NoMount"),
     ]),
    ("a link that another zone holds is denied, and what was done is undone",
     {"a": Config.of(ip_type="exclusive", net=[link_of("net0")]),
      "b": Config.of(ip_type="exclusive", net=[link_of("net1"), link_of("net2"), link_of("net0")])},
     ["Y link net0", "Y link net1", "Y link net2"] + installed("a") + done("a", "boot") + turns("a", 1)
     + installed("b"), [
         ("S 1 zoneadm -z b boot", "b ticket 2"), ("D b", "b began 2 boot"), ("D b", "b step hook before ready"),
         ("D b", "b step zid 2"), ("D b", "b step limits"), ("D b", "b step devices 0"), ("D b", "b step root"),
         ("D b", "b step link net1"), ("D b", "b step link net2"), ("D b", "b failed 8: 82 Denied links"),
         ("D b", "b undone link net2"), ("D b", "b undone link net1"), ("D b", "b undone root"),
         ("D b", "b undone devices 0"), ("D b", "b undone limits"), ("D b", "b undone zid 2"),
         ("D b", "b finished 2 err 82 Denied links"), ("S 1 zoneadm -z b halt", "b ticket 3"),
         ("D b", "b finished 3 err 81 WrongState installed"),
     ]),
    ("a zone has its root mounted, no item and no device", {}, running("b"), [
        ("P b 2 mounts", "b ok | / root rw"), ("P b 2 links", "b ok"), ("P b 2 datasets", "b ok"),
        ("P b 2 devices", "b ok"),
    ]),
    ("items are shown by kind, in the order of claim, and given back, the latest first",
     {"a": Config.of(
         ip_type="exclusive", dataset=[dataset_of("z/2"), dataset_of("z/1")], net=[link_of("n"), link_of("m")],
         device=[device_of("/dev/d*"), device_of("/dev/dsk")]),
      "b": Config.of(net=[address_of("10.0.0.2"), address_of("10.0.0.1/8", "n")])},
     ["Y dataset z/1", "Y address 10.0.0.1", "Y address 10.0.0.2", "Y dataset z/2", "Y link m", "Y link n",
      "Y device /dev/dsk", "Y device /dev/d/a", "Y device /dev/da"] + running("a") + turns("a", 4) + running("b")
     + turns("b", 2), [
         ("P a 2 links", "a ok | link n | link m"), ("P a 2 datasets", "a ok | z/2 | z/1"),
         ("P a 2 devices", "a ok | /dev/dsk | /dev/da"),
         ("P b 3 links", "b ok | address 10.0.0.2 | address 10.0.0.1"),
         ("S 1 zoneadm -z a halt", "a ticket 3"), ("D a", "a began 3 halt"), ("D a", "a step hook before halt"),
         ("D a", "a step state shutting_down"), ("D a", "a step kill 1"), ("D a", "a step unmount /"),
         ("D a", "a step release link m"), ("D a", "a step release link n"), ("D a", "a step release dataset z/1"),
         ("D a", "a step release dataset z/2"), ("D a", "a step clear"),
     ]),
    ("an item that isn't declared is denied",
     {"a": Config.of(fs=FILESYSTEMS[1:], dataset=[dataset_of("z")])}, installed("a"), [
         ("S 1 zoneadm -z a boot", "a ticket 2"), ("D a", "a began 2 boot"), ("D a", "a step hook before ready"),
         ("D a", "a step zid 1"), ("D a", "a step limits"), ("D a", "a step devices 0"), ("D a", "a step root"),
         ("D a", "a step mount /usr"), ("S 2 fhold -z a /usr", "a ok"), ("D a", "a failed 7: 82 Denied datasets"),
         ("D a", "a stuck unmount"), ("S 2 frelease -z a /usr", "a ok"), ("S 2 fhold -z a /", "a ok"),
         ("D a", "a undone mount /usr"), ("D a", "a stuck unmount"), ("S 2 frelease -z a /", "a ok"),
         ("D a", "a undone root"), ("D a", "a undone devices 0"), ("D a", "a undone limits"), ("D a", "a undone zid 1"),
         ("D a", "a finished 2 err 82 Denied datasets"),
     ]),
    ("what is declared", {}, [], [
        ("Y link net0", "* ok"), ("Y link net0", "* err 24 Duplicate"), ("Y dataset net0", "* ok"),
        ("Y device /", "* ok"), ("Y device /", "* err 24 Duplicate"), ("Y address 255.0.10.1", "* ok"),
    ]),
    ("so many items of a kind and no more", {}, ["Y link n%d" % number for number in range(1023)], [
        ("Y link n0", "* err 24 Duplicate"), ("Y link last", "* ok"), ("Y link more", "* err 27 TooMany 1024"),
        ("Y link n0", "* err 24 Duplicate"), ("Y dataset more", "* ok"),
    ]),
    ("a directory that a mount lies below isn't unmounted, nor is the root", {}, running("a"), [
        ("P a 2 mount lofs /x /m", "a ok"), ("P a 2 mount lofs /y /m/n", "a ok"), ("P a 2 mount lofs /z /mn", "a ok"),
        ("P a 2 mount lofs /z /m", "a err EBUSY"), ("P a 2 umount /m", "a err EBUSY"),
        ("P a 2 umount /", "a err EPERM"),
        ("P a 2 umount /m/o", "a err EINVAL"), ("P a 2 umount /m/n", "a ok"), ("P a 2 umount /m", "a ok"),
        ("P a 2 mounts", "a ok | / root rw | /mn lofs rw"), ("P a 2 mount lofs /z /", "a err EBUSY"),
    ]),
    ("holds that are there already, or not", {}, running("a") + made("b"), [
        ("S 1 fhold -z a /", "a ok"), ("S 2 fhold -z a /", "a err 96 HoldState"), ("S 2 frelease -z a /", "a ok"),
        ("S 1 frelease -z a /", "a err 96 HoldState"), ("S 1 fhold -z a /m", "a err 99 NoMount"),
        ("S 1 fhold -z b /", "b err 99 NoMount"), ("S 1 fhold -z c /", "c err 90 NoZone"),
        ("S 1 fhold -z SUNW /", "global err 4 Reserved"), ("S 1 fhold -z a m", "a err 93 Usage"),
        ("S 1 fhold -z SUNW m", "global err 93 Usage"), ("S 1 fhold / -z a", "a err 93 Usage"),
        ("S 1   fhold  -z a  / ", "a ok"),
    ]),
    ("what lofs shows stays, whatever is mounted or unmounted later", {}, running("a"), [
        ("P a 2 mount lofs /x /m", "a ok"), ("P a 2 mount lofs /m/y /n", "a ok"), ("P a 2 umount /m", "a ok"),
        ("P a 2 read /n/z", "a ok | /zones/a/root/x/y/z"), ("P a 2 mount lofs /n /n/o", "a ok"),
        ("P a 2 read /n/o/o", "a ok | /zones/a/root/x/y/o"), ("P a 2 write /n/o", "a ok | /zones/a/root/x/y"),
    ]),
    ("other types than lofs", {}, running("a"), [
        ("P a 2 mount nfs host:/x /m", "a ok"), ("P a 2 mount hsfs / /n", "a ok"),
        ("P a 2 mount smbfs \"a\" /o ro", "a ok"),
        ("P a 2 mount ufs /x /p", "a err EPERM"), ("P a 2 mount root /x /p", "a err EPERM"),
        ("P a 2 mount NFS /x /p", "a err EPERM"), ("P a 2 read /m/y", "a ok | <nfs:host:/x>/y"),
        ("P a 2 read /n/y", "a ok | <hsfs:/>/y"), ("P a 2 read /n", "a ok | <hsfs:/>"),
        ("P a 2 mount lofs /m/y /q", "a ok"), ("P a 2 read /q/z", "a ok | <nfs:host:/x>/y/z"),
        ("P a 2 mounts", "a ok | / root rw | /m nfs rw | /n hsfs rw | /o smbfs ro | /q lofs rw"),
    ]),
    ("types that a configuration allows, or all but lofs not",
     {"a": Config.of(fs_allowed="ufs,root"), "b": Config.of(fs_allowed="-,pcfs")}, running("a") + running("b"), [
         ("P a 2 mount ufs / /m", "a ok"), ("P a 2 mount nfs / /n", "a ok"), ("P a 2 mount root / /o", "a ok"),
         ("P a 2 read /m/x", "a ok | <ufs:/>/x"), ("P a 2 read /o/x", "a ok | /x"), ("P a 2 read /o", "a ok | /"),
         ("P b 3 mount nfs / /m", "b err EPERM"), ("P b 3 mount pcfs / /m", "b ok"), ("P b 3 mount lofs / /n", "b ok"),
     ]),
    ("a zone's own filesystem from the root", {"a": Config.of(fs=[fs_of("/g", "/", "lofs")])},
     running("a") + turns("a", 1), [
         ("P a 2 read /g", "a ok | /"), ("P a 2 read /g/x/y", "a ok | /x/y"), ("P a 2 mount lofs /g /h", "a ok"),
         ("P a 2 read /h/z", "a ok | /z"), ("P a 2 umount /g", "a err EPERM"),
     ]),
    ("what a process without sys_mount may do", {}, running("a"), [
        ("P a 2 mount lofs /x /m", "a ok"), ("P a 2 drop sys_mount", "a ok"), ("P a 2 mount ufs x /n", "a err EPERM"),
        ("P a 2 umount /n", "a err EPERM"), ("P a 2 umount /m", "a err EPERM"),
        ("P a 2 read /m", "a ok | /zones/a/root/x"),
        ("P a 2 write /m", "a ok | /zones/a/root/x"), ("P a 3 read /m", "a err 98 NoProcess"),
        ("P b 2 mounts", "b err 98 NoProcess"),
    ]),
    ("a halt unmounts what processes mounted, the greatest in byte order first", {}, running("a") + [
        "P a 2 mount lofs /x %s" % it for it in ["/m", "/m/n", "/m-n", "/m.n", "/M"]] + ["S 1 zoneadm -z a halt"]
     + turns("a", 3), [
         ("P a 2 umount /M", "a ok"), ("D a", "a step kill 1"), ("D a", "a step unmount /m/n"),
         ("D a", "a step unmount /m.n"), ("S 2 fhold -z a /", "a ok"), ("S 2 fhold -z a /m-n", "a ok"),
         ("D a", "a stuck unmount"), ("S 2 frelease -z a /m-n", "a ok"), ("D a", "a step unmount /m-n"),
         ("D a", "a step unmount /m"), ("D a", "a stuck unmount"), ("S 2 frelease -z a /", "a ok"),
         ("D a", "a step unmount /"), ("D a", "a step clear"),
     ]),
    ("a mount is free again once it is made anew, and a zone's mounts go with its halt", {}, running("a") + [
        "P a 2 mount nfs x /m", "S 1 fhold -z a /", "S 1 frelease -z a /"] + done("a", "halt") + turns("a", 1)
     + done("a", "boot"), [
         ("S 1 fhold -z a /m", "a err 99 NoMount"), ("S 1 frelease -z a /", "a err 96 HoldState"),
         ("P a 3 mounts", "a ok | / root rw"),
     ]),
    ("128 mounts and no more", {}, running("a") + ["P a 2 mount nfs x %s" % deep(it) for it in range(1, 128)], [
        ("P a 2 mount nfs x /d", "a err EBUSY"), ("P a 2 mount nfs x /e", "a err 71 TooManyMounts"),
        ("P a 2 umount %s" % deep(127), "a ok"), ("P a 2 mount nfs x /e", "a ok"),
        ("P a 2 read %s/y" % deep(126), "a ok | <nfs:x>/y"), ("P a 2 read /dd", "a ok | /zones/a/root/dd"),
    ]),
]


def nfs_word(length):
    """A special that a mount of type nfs shows in so many bytes."""
    return "h" * (length - len("<nfs:>"))


# The longest place, and one byte more; a mount of lofs keeps no longer one.
LONG = running("a") + ["P a 2 mount nfs %s /m ro" % nfs_word(4000), "P a 2 mount nfs %s /n" % nfs_word(4000)]
LONGEST, TOO_LONG = "/" + "p" * 95, "/" + "p" * 96
AT_MOST = "<nfs:%s>%s" % (nfs_word(4000), LONGEST)
ROWS += [
    ("places of 4,096 bytes and of one more", {}, LONG, [
        ("P a 2 read /m" + LONGEST, "a ok | " + AT_MOST), ("P a 2 read /m" + TOO_LONG, "a err ENAMETOOLONG"),
        ("P a 2 write /m" + TOO_LONG, "a err EROFS"), ("P a 2 write /n" + TOO_LONG, "a err ENAMETOOLONG"),
        ("P a 2 mount lofs /m%s /o" % TOO_LONG, "a err ENAMETOOLONG"),
        ("P a 2 mount lofs /m%s /m" % TOO_LONG, "a err ENAMETOOLONG"), ("P a 2 mount lofs /m%s /o" % LONGEST, "a ok"),
        ("P a 2 read /o", "a ok | " + AT_MOST), ("P a 2 read /o/p", "a err ENAMETOOLONG"),
        ("P a 2 mounts", "a ok | / root rw | /m nfs ro | /n nfs rw | /o lofs rw"),
    ]),
]

# Lines that end a trace, and how.
ENDS = [
    (["Y link net0", "S 1", "Y link net1"], "line 3: 104 SysAfterStart"),
    (["D a", "Y link net0"], "line 2: 104 SysAfterStart"),
    (["P a 2 true", "Y link net0"], "line 2: 104 SysAfterStart"),
    (["D a", "Y link net 0"], "line 2: 102 BadWord 11"),
    (["Y"], "line 1: 102 BadWord 1"),
    (["Y "], "line 1: 102 BadWord 2"),
    (["Y net net0"], "line 1: 102 BadWord 2"),
    (["Y link"], "line 1: 102 BadWord 6"),
    (["Y link a,b"], "line 1: 102 BadWord 7"),
    (["Y link " + "n" * 63, "Y link " + "n" * 64], "line 2: 102 BadWord 7"),
    (["Y link a "], "line 1: 102 BadWord 9"),
    (["Y address 10.0.0.1/24"], "line 1: 102 BadWord 10"),
    (["Y address 10.0.0.01"], "line 1: 102 BadWord 10"),
    (["Y address 10.0.0.256"], "line 1: 102 BadWord 10"),
    (["Y address 10.0.0"], "line 1: 102 BadWord 10"),
    (["Y device dev"], "line 1: 102 BadWord 9"),
    (["@- Y link a"], "line 1: 103 GrantForm"),
    (["P a 2 mount"], "line 1: 102 BadWord 11"),
    (["P a 2 mount lo-fs /x /m"], "line 1: 102 BadWord 12"),
    (["P a 2 mount %s /x /m" % ("t" * 15), "P a 2 mount %s /x /m" % ("t" * 16)], "line 2: 102 BadWord 12"),
    (["P a 2 mount nfs x /m", "P a 2 mount lofs x /m"], "line 2: 102 BadWord 17"),
    (["P a 2 mount nfs  /m"], "line 1: 102 BadWord 16"),
    (["P a 2 mount lofs /x m"], "line 1: 102 BadWord 20"),
    (["P a 2 mount lofs /x"], "line 1: 102 BadWord 19"),
    (["P a 2 mount lofs /x /m rw"], "line 1: 102 BadWord 23"),
    (["P a 2 mount lofs /x /m ro ro"], "line 1: 102 BadWord 26"),
    (["P a 2 mount lofs /x /m "], "line 1: 102 BadWord 23"),
    (["P a 2 umount /m/"], "line 1: 102 BadWord 13"),
    (["P a 2 read ."], "line 1: 102 BadWord 11"),
    (["P a 2 mounts x"], "line 1: 102 BadWord 13"),
]

PATTERNS = [
    ("/dev/d*", "/dev/dsk", True), ("/dev/d*", "/dev/d/a", False), ("[!a]", "b", True), ("[!a]", "/", False),
    ("/d[a-c]", "/db", True), ("/d[a-c]", "/d-", False), ("/d[a-]", "/d-", True), ("/d[ab", "/d[ab", True),
    ("/d?", "/d/", False), ("/d[]x", "/dx", False), ("*", "/d", False),
]


# How a model is asked.

def hand_in(host, configs):
    """Commits these configurations of zones, as far as the zones are stored and have no such one yet. Zonepath and
    brand are kept, unless others are handed in."""
    for name in [it for it in configs if host.state(it.encode()) is not None]:
        was, config = host.config(name.encode()), configs.pop(name)
        host.commit(name.encode(), config.with_values(
            zonepath=config.path or was.path, brand=config.brand or was.brand))


def told(configs, before, lines, host=None):
    """The replies to lines after others, in a system whose zones get these configurations as they are made. Among the
    lines may be what is done with the system, or looked at in it, in place of a line."""
    host, configs, replies = host or model.Host(), dict(configs), []
    for line in before + lines:
        if callable(line):
            replies.append(line(host))
            continue
        answer = host.answer(host.read(line.encode()))
        replies.append("%s %s" % (answer.subject.decode(), " | ".join(answer.lines)))
        hand_in(host, configs)
    return replies[len(before):]


def row_fault(title, configs, before, pairs, host=None):
    """The first line of a row that is answered otherwise, or None. What is ANY may be anything."""
    replies = told(configs, before, [line for line, _ in pairs], host)
    for (line, want), got in zip(pairs, replies):
        if want is not ANY and got != want:
            return "%s: %s: %s" % (title, line, got)
    return None


def end_fault(lines, want):
    got = model.run("\n".join(lines).encode())
    return None if (got[0], got[2].decode()) == (3, want + "\n") else "%r: %r" % (lines, got)


def without_mounts():
    """Where a path lies in a zone without mounts, by the errno."""
    try:
        return mount_model.Mounts().place("/a")
    except Refused as refused:
        return str(refused)


def fault():
    """What the model answers otherwise than it is known, or None."""
    faults = [row_fault(*row) for row in ROWS] + [end_fault(*end) for end in ENDS]
    faults += ["%s of %s" % (path, pattern) for pattern, path, want in PATTERNS if is_matched(pattern, path) != want]
    if without_mounts() != "ENOENT":
        faults.append("a path in a zone without mounts")
    return next((it for it in faults if it is not None), None)
