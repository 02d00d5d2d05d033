"""The lines of a trace, as the model in trace_model.py reads them: events and calls of processes. What an idle session
types is read by typed_lines.py.

event_of(line, started, known) reads one line, granted_event_of() one that states the grant of its event, and
spelled(event) writes it. `known` are the kinds of lines that are read beside those that always are; a line of a kind
that isn't among them is none of the grammar, or is no line that a session may type.
"""

import re

import export_model
from export_model import Refused

# zonecfg: subcommands after `zonecfg -z ZONE`; edit: sessions that edit, `zonecfg -z ZONE` alone; list, verify and
# help: these of zoneadm(8); restart: the line `R`; zlogin: `zlogin ZONE` and the call `bootargs`; console: `zlogin -C
# ZONE` and the call `cons`; enter: `zlogin ZONE CALL`. Without zonecfg one line makes a zone, and no other edits one.
KINDS_OF_LINES = ("zonecfg", "edit", "list", "verify", "help", "restart", "zlogin", "console", "enter")
ALL_LINES = frozenset(KINDS_OF_LINES)
OLD_LINES = frozenset()

LAST_NUMBER = 4294967295
POOLS = ("pids", "zids", "zones", "paths", "store", "links", "addresses", "datasets", "source")
# What an event was given, where its line states it.
GRANT = re.compile(rb"@(?P<grant>-|yes|no (?:%s)|(?P<number>0|[1-9][0-9]*)) " % "|".join(POOLS).encode())
SESSIONS = {b"%d" % number: number for number in range(1, 65)}

# The privileges in their order, each with its class: D default, R required, O optional, P prohibited.
PRIVILEGES = dict(named.split(":") for named in """
    contract_event:D contract_identity:D contract_observer:D cpc_cpu:O dtrace_kernel:P dtrace_proc:O dtrace_user:O
    file_chown:D file_chown_self:D file_dac_execute:D file_dac_read:D file_dac_search:D file_dac_write:D
    file_link_any:D file_owner:D file_setid:D ipc_dac_read:D ipc_dac_write:D ipc_owner:D net_icmpaccess:D
    net_privaddr:D net_rawaccess:O proc_audit:D proc_chroot:D proc_clock_highres:O proc_exec:R proc_fork:R proc_info:D
    proc_lock_memory:O proc_owner:D proc_session:D proc_setid:D proc_taskid:D proc_zone:P sys_acct:D sys_admin:D
    sys_config:P sys_devices:P sys_mount:R sys_time:O
""".split())


class Outside(Exception):
    """A line outside the grammar, as the program prints it after `line N: `."""


# Words.

def name_fault(name):
    """The first fault of a zone's name, or None."""
    if not name:
        return "1 Empty"
    if len(name) > 63:
        return "2 TooLong"
    for place in range(len(name)):
        letter = name[place:place + 1]
        if not letter.isalnum() and (place == 0 or letter not in (b"_", b"-", b".")):
            return "3 BadByte %d" % place
    if name == b"global" or name[:4] == b"SUNW":
        return "4 Reserved"
    return None


def bad_word(place):
    raise Outside("102 BadWord %d" % place)


class Words:
    """The words of a line from a place on, read one after the other, each after one space."""

    def __init__(self, line, place=0):
        self.line, self.place = line, place

    def next(self, is_right):
        """The next word, which has to be there and to be a right one."""
        if self.place > len(self.line):
            bad_word(len(self.line))
        word = self.line[self.place:].split(b" ", 1)[0]
        if not is_right(word):
            bad_word(self.place)
        self.place += len(word) + 1
        return word

    def more(self):
        """Whether a word follows, be it an empty one."""
        return self.place <= len(self.line)

    def text(self):
        """All that is left, which has to be printable."""
        for place in range(self.place, len(self.line)):
            if not 32 <= self.line[place] <= 126:
                bad_word(place)
        return self.line[self.place:]

    def end(self):
        if self.more():
            bad_word(self.place)


def form(pattern):
    """Whether a word is wholly of a form."""
    return lambda word: re.fullmatch(pattern, word) is not None


is_process_name = form(rb"[A-Za-z0-9_.-]{1,16}")
is_mount_type = form(rb"[A-Za-z0-9]{1,15}")
is_word = form(rb"[!-~]+")
is_item_name = form(rb"[A-Za-z0-9_./-]{1,63}")
is_address = form(rb"(%s)(\.(%s)){3}" % ((rb"25[0-5]|2[0-4][0-9]|1[0-9]{2}|[1-9]?[0-9]",) * 2))


def is_zone_name(word):
    return name_fault(word) is None


def is_number(word):
    return re.fullmatch(rb"0|[1-9][0-9]{0,9}", word) is not None and int(word) <= LAST_NUMBER


def is_signal(word):
    return word in (b"0", b"9", b"15")


def is_privilege(word):
    return word.decode("latin-1") in PRIVILEGES


def is_path(word):
    return export_model.is_path(word.decode("latin-1"))


# Calls of processes, each with what its other words have to be; `mount` and `cons` have readers of their own. Those of
# LATER_CALLS are wrong words where their kind of lines isn't known.
CALLS = {
    b"fork": [is_process_name],
    b"exec": [is_process_name],
    b"exit": [],
    b"kill": [is_signal, is_number],
    b"ps": [],
    b"privs": [],
    b"drop": [is_privilege],
    b"zonename": [],
    b"true": [],
    b"false": [],
    b"mount": None,
    b"umount": [is_path],
    b"read": [is_path],
    b"write": [is_path],
    b"mounts": [],
    b"links": [],
    b"datasets": [],
    b"devices": [],
    b"bootargs": [],
    b"cons": None,
}
LATER_CALLS = {b"bootargs": "zlogin", b"cons": "console"}
ITEMS = {b"link": is_item_name, b"address": is_address, b"dataset": is_item_name, b"device": is_path}


def mount_of(words):
    """TYPE SPECIAL DIR, and perhaps `ro`. SPECIAL is a word, so a byte that it may not have makes it a wrong one."""
    fstype = words.next(is_mount_type)
    special = words.next(is_path if fstype == b"lofs" else is_word)
    rest = [fstype, special, words.next(is_path)]
    return rest + [words.next(lambda word: word == b"ro")] if words.more() else rest


def cons_of(words):
    """The text of `cons`, which is all that follows the space after it."""
    if not words.more():
        bad_word(len(words.line))
    return [words.text()]


def call_of(words, known=OLD_LINES):
    """The words of the call that a line goes on with."""
    call = words.next(lambda word: word in CALLS and (word not in LATER_CALLS or LATER_CALLS[word] in known))
    if call == b"cons":
        return [word.decode() for word in [call] + cons_of(words)]
    rest = mount_of(words) if call == b"mount" else [words.next(is_right) for is_right in CALLS[call]]
    words.end()
    return [word.decode() for word in [call] + rest]


def declaration_of(words, started):
    """What is declared. A wrong word is told before the line's being too late."""
    kind = words.next(lambda word: word in ITEMS)
    item = words.next(ITEMS[kind])
    words.end()
    if started:
        raise Outside("104 SysAfterStart")
    return ("Y", kind.decode(), item.decode())


def is_no_event(line):
    """Whether a line is blank or a comment."""
    return line.strip(b" ") == b"" or line[:1] == b"#"


def event_of(line, started=False, known=OLD_LINES):
    """("S", number, text), ("D", name), ("P", name, pid, words of the call), ("Y", kind, item), ("R",) for a restart,
    or None for a line that is no event. `started` is whether an event other than a declaration came before."""
    return None if is_no_event(line) else event_at(line, 0, started, known)


def granted_event_of(line, started=False, known=OLD_LINES):
    """The event of a line and its grant, or None for a line that is no event. The grant begins the line, a space comes
    behind it, and then an event."""
    if is_no_event(line):
        return None
    found = GRANT.match(line)
    if found is None or int(found.group("number") or 0) > LAST_NUMBER:
        raise Outside("103 GrantForm")
    return event_at(line, found.end(), started, known), found.group("grant").decode()


def event_at(line, place, started, known):
    """The event that a line has from a place on. Places of wrong words count from the beginning of the line."""
    if line[place:place + 1] == b"@":
        raise Outside("103 GrantForm")
    tags = (b"S", b"D", b"P", b"Y", b"R") if "restart" in known else (b"S", b"D", b"P", b"Y")
    if line[place:].split(b" ", 1)[0] not in tags:
        raise Outside("101 BadTag")
    words = Words(line, place)
    tag = words.next(lambda word: True)
    if tag == b"Y":
        return declaration_of(words, started)
    if tag == b"R":
        words.end()
        return ("R",)
    if tag == b"S":
        number = words.next(lambda word: word in SESSIONS)
        return ("S", SESSIONS[number], words.text())
    name = words.next(is_zone_name)
    if tag == b"D":
        words.end()
        return ("D", name)
    pid = words.next(is_number)
    return ("P", name, int(pid), call_of(words, known))


def spelled(event):
    """The line of an event, as it is written where nothing is left out. An empty text has no space before it."""
    tag, *rest = event
    if tag == "S":
        number, text = rest
        return b"S %d %s" % (number, text) if text else b"S %d" % number
    if tag == "P":
        name, pid, words = rest
        return b"P %s %d %s" % (name, pid, " ".join(words).encode())
    return b" ".join([tag.encode()] + [it if isinstance(it, bytes) else it.encode() for it in rest])
