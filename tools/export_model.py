"""A plain, slow model of `zones export`, written from docs/COMMANDS.md and docs/ZONECFG.md alone.

run(data) gives (status, standard output, standard error) for a whole input. It shares no code with the
program and is meant for comparing the two; tools/fuzz_export.py does that.
"""

BLANKS = b" \t"
KINDS = ["fs", "net", "device", "rctl", "attr", "dataset"]
FIELDS = {
    "fs": ["dir", "special", "raw", "type"],
    "net": ["address", "allowed-address", "physical", "defrouter"],
    "device": ["match"],
    "rctl": ["name"],
    "attr": ["name", "type", "value"],
    "dataset": ["name"],
}
LISTS = {"fs": "options", "rctl": "value"}
KEYS = {"device": "match", "rctl": "name", "attr": "name", "dataset": "name"}
ALIASES = {
    "cpu-shares": ("zone.cpu-shares", "none"),
    "max-lwps": ("zone.max-lwps", "deny"),
    "max-processes": ("zone.max-processes", "deny"),
}
GLOBAL = [
    "zonepath", "brand", "autoboot", "bootargs", "pool", "limitpriv",
    "scheduling-class", "ip-type", "hostid", "fs-allowed",
]
BARE = set(b"_-./:,*?!@+%")
LETTERS = set(b"abcdefghijklmnopqrstuvwxyzABCDEFGHIJKLMNOPQRSTUVWXYZ")
DIGITS = set(b"0123456789")


class Refused(Exception):
    """A refusal, as the program prints it after `line N: `, `end: ` or `err `. `shown` are the lines that were told
    before it."""

    shown = ()


# Tokens, subcommands and values.

def is_comment(line):
    rest = line.lstrip(BLANKS)
    return rest[:1] == b"#"


def tokens(line):
    """(kind, start, end) of each token; a quoted one begins at its quote and ends before the other."""
    found, faults = [], []
    place, bracket, opened = 0, None, None
    while place < len(line):
        byte = line[place]
        if byte in BLANKS:
            place += 1
        elif byte == ord('"'):
            end = line.find(b'"', place + 1)
            for at in range(place + 1, len(line) if end < 0 else end):
                if not 32 <= line[at] <= 126:
                    faults.append((at, "12 StrayByte"))
            if end < 0:
                faults.append((place, "11 OpenQuote"))
                break
            found.append(("quoted", place, end))
            place = end + 1
        elif byte == ord("="):
            found.append(("=", place, place + 1))
            place += 1
        elif not 33 <= byte <= 126:
            faults.append((place, "12 StrayByte"))
            place += 1
        elif bracket is None and byte in b";([":
            if byte in b"([":
                bracket, opened = chr(byte), place
            found.append((chr(byte), place, place + 1))
            place += 1
        elif bracket is None and byte in b")]":
            faults.append((place, "12 StrayByte"))
            place += 1
        elif bracket is not None and byte in b",;()[]":
            closing = ")" if bracket == "(" else "]"
            if byte == ord(","):
                found.append((",", place, place + 1))
            elif chr(byte) == closing:
                found.append((closing, place, place + 1))
                bracket = None
            else:
                faults.append((place, "12 StrayByte"))
            place += 1
        else:
            end = place + 1
            ends = b' \t"=;()' if bracket is None else b' \t"=,;()[]'
            while end < len(line) and line[end] not in ends and 33 <= line[end] <= 126:
                end += 1
            found.append(("word", place, end))
            place = end
            # a round bracket that closes nothing is stray inside a word too
    if bracket is not None:
        faults.append((opened, "13 OpenBracket"))
    if faults:
        at, name = min(faults)
        raise Refused("%s %d" % (name, at))
    return found


def text_of(line, token):
    start = token[1] + (1 if token[0] == "quoted" else 0)
    return line[start:token[2]].decode("ascii")


def subcommands(line):
    """The parts of a line between its semicolons that hold a token."""
    if is_comment(line):
        return []
    all_tokens = tokens(line)
    parts, start, filled = [], 0, False
    for token in all_tokens + [(";", len(line), len(line))]:
        if token[0] == ";":
            if filled:
                parts.append(line[start:token[1]])
            start, filled = token[2], False
        else:
            filled = True
    return parts


def no_value(part, rest):
    raise Refused("14 NoValue %d" % (rest[0][1] if rest else len(part)))


def items_in(part, rest, closing, paired):
    """The items of a bracket whose opening token was taken."""
    items = []
    if not paired and rest and rest[0][0] == closing:
        return items, rest[1:]
    while True:
        name = None
        if paired:
            if not rest or rest[0][0] != "word":
                no_value(part, rest)
            name, rest = text_of(part, rest[0]), rest[1:]
            if not rest or rest[0][0] != "=":
                no_value(part, rest)
            rest = rest[1:]
        if not rest or rest[0][0] not in ("word", "quoted"):
            no_value(part, rest)
        item, rest = text_of(part, rest[0]), rest[1:]
        items.append((name, item) if paired else item)
        if rest and rest[0][0] == closing:
            return items, rest[1:]
        if not rest or rest[0][0] != ",":
            no_value(part, rest)
        rest = rest[1:]


def value_of(part, rest):
    """("simple", text), ("list", texts) or ("pairs", pairs)."""
    if not rest:
        no_value(part, rest)
    first = rest[0]
    if first[0] in ("word", "quoted"):
        value, rest = ("simple", text_of(part, first)), rest[1:]
    elif first[0] == "(":
        items, rest = items_in(part, rest[1:], ")", True)
        value = ("pairs", items)
    elif first[0] == "[":
        items, rest = items_in(part, rest[1:], "]", False)
        value = ("list", items)
    else:
        no_value(part, rest)
    if rest:
        no_value(part, rest)
    return value


VERBS = {
    "add", "cancel", "clear", "commit", "create", "delete", "end", "exit", "export", "help",
    "info", "remove", "revert", "select", "set", "verify",
}


def word_at(part, rest):
    return text_of(part, rest[0]) if rest and rest[0][0] == "word" else None


def flag(part, rest, name):
    if word_at(part, rest) == name:
        return True, rest[1:]
    return False, rest


def matching(part, rest):
    """A kind and wanted pairs."""
    if not rest:
        raise Refused("35 Usage")
    kind, rest = word_at(part, rest), rest[1:]
    for at in range(len(rest) - 1):
        if rest[at][0] == "word" and rest[at + 1][0] == "=":
            value = rest[at + 2:at + 3]
            if not value or value[0][0] not in ("word", "quoted"):
                no_value(part, value)
    if kind not in KINDS:
        raise Refused("35 Usage")
    pairs = []
    while rest:
        kinds = [token[0] for token in rest[:3]]
        if len(rest) < 3 or kinds[:2] != ["word", "="] or kinds[2] not in ("word", "quoted"):
            raise Refused("35 Usage")
        name = text_of(part, rest[0])
        if name in ("options", "value"):
            raise Refused("35 Usage")
        pairs.append((name, text_of(part, rest[2])))
        rest = rest[3:]
    return kind, pairs


def command_of(part):
    """A subcommand as a tuple, or a refusal."""
    all_tokens = tokens(part)
    verb, rest = word_at(part, all_tokens), all_tokens[1:]
    if verb not in VERBS:
        raise Refused("31 UnknownCommand")
    usage = Refused("35 Usage")
    if verb in ("cancel", "commit", "end", "export", "help", "verify"):
        if rest:
            raise usage
        return (verb,)
    if verb in ("delete", "exit", "revert"):
        force, rest = flag(part, rest, "-F")
        if rest:
            raise usage
        return (verb, force)
    if verb == "create":
        force, rest = flag(part, rest, "-F")
        bare, rest = flag(part, rest, "-b")
        if rest:
            raise usage
        return (verb, force, bare)
    if verb == "info":
        known = GLOBAL + list(ALIASES) + KINDS
        if rest and (len(rest) > 1 or word_at(part, rest) not in known):
            raise usage
        return (verb, word_at(part, rest))
    if verb == "clear":
        if len(rest) != 1 or rest[0][0] != "word":
            raise usage
        return (verb, text_of(part, rest[0]))
    if verb == "set":
        if len(rest) < 2 or rest[0][0] != "word" or rest[1][0] != "=":
            raise usage
        return (verb, text_of(part, rest[0]), value_of(part, rest[2:]))
    if verb in ("add", "remove") and word_at(part, rest) in ("options", "value"):
        return (verb + " item", word_at(part, rest), value_of(part, rest[1:]))
    if verb == "add":
        if word_at(part, rest) not in KINDS or len(rest) > 1:
            raise usage
        return (verb, word_at(part, rest))
    if verb == "remove":
        force, rest = flag(part, rest, "-F")
        kind, pairs = matching(part, rest)
        return (verb, force, kind, pairs)
    kind, pairs = matching(part, rest)
    if not pairs:
        raise usage
    return (verb, kind, pairs)


# Rules.

def all_in(text, extra):
    return all(byte in LETTERS or byte in DIGITS or byte in extra for byte in text.encode())


def is_path(text):
    if len(text) > 1023 or not text.startswith("/"):
        return False
    if text == "/":
        return True
    for component in text[1:].split("/"):
        if component in ("", ".", "..") or any(not 33 <= ord(c) <= 126 or c == '"' for c in component):
            return False
    return True


def is_simple(text):
    return len(text) <= 1023 and '"' not in text


def is_short(text):
    return 1 <= len(text) <= 32 and all_in(text, b"_-.")


def is_number(text):
    return text.isdigit() and text[0] != "0" and int(text) < 1 << 64


def is_attr_name(text):
    return (1 <= len(text) <= 63 and all_in(text, b"_-.") and all_in(text[0], b"")
            and not text.startswith("zone"))


RULES = {
    "zonepath": lambda t: is_path(t) and t != "/",
    "autoboot": lambda t: t in ("true", "false"),
    "brand": is_short, "pool": is_short, "scheduling-class": is_short,
    "bootargs": is_simple, "limitpriv": is_simple, "fs-allowed": is_simple,
    "ip-type": lambda t: t in ("shared", "exclusive"),
    "hostid": lambda t: 1 <= len(t) <= 8 and all(c in "0123456789abcdef" for c in t) and t != "ffffffff",
    ("fs", "dir"): is_path,
    ("fs", "type"): lambda t: 1 <= len(t) <= 15 and all_in(t, b""),
    ("rctl", "name"): lambda t: 1 <= len(t) <= 63 and all_in(t, b"_-."),
    ("attr", "name"): is_attr_name,
    ("attr", "type"): lambda t: t in ("int", "uint", "boolean", "string"),
}
UNSET_BY_EMPTY = {"brand", "pool", "scheduling-class", "hostid", "bootargs", "limitpriv", "fs-allowed"}


def is_option(text):
    return 1 <= len(text) <= 63 and all_in(text, b"_-./")


def field_allows(kind, name, text):
    rule = RULES.get((kind, name))
    if rule is None:
        return is_simple(text)
    return rule(text)


def limit_of(value):
    """An rctl value as (limit, action), or None."""
    if value[0] != "pairs" or [name for name, _ in value[1]] != ["priv", "limit", "action"]:
        return None
    priv, limit, action = [text for _, text in value[1]]
    if priv != "privileged" or not is_number(limit) or action not in ("deny", "none"):
        return None
    return (limit, action)


# Configurations.

def blank():
    config = {name: "" for name in GLOBAL}
    config.update({kind: [] for kind in KINDS})
    config["autoboot"], config["ip-type"] = "false", "shared"
    return config


def copy(config):
    twin = dict(config)
    for kind in KINDS:
        twin[kind] = [copy_resource(r) for r in config[kind]]
    return twin


def empty(kind):
    resource = {name: "" for name in FIELDS[kind]}
    if kind in LISTS:
        resource[LISTS[kind]] = []
    return resource


def copy_resource(resource):
    return {name: list(v) if isinstance(v, list) else v for name, v in resource.items()}


def setting(name, text):
    bare = all(b in LETTERS or b in DIGITS or b in BARE for b in text.encode())
    return "set %s=%s\n" % (name, text if bare else '"%s"' % text)


def resource_text(kind, resource):
    out = ["add %s\n" % kind]
    out += [setting(name, resource[name]) for name in FIELDS[kind] if resource[name]]
    if kind == "fs" and resource["options"]:
        out.append("add options [%s]\n" % ",".join(resource["options"]))
    if kind == "rctl":
        out += ["add value (priv=privileged,limit=%s,action=%s)\n" % v for v in resource["value"]]
    return "".join(out) + "end\n"


def export_text(config):
    out = ["create -b\n"]
    out += [setting(name, config[name]) for name in GLOBAL if config[name]]
    for kind in KINDS:
        out += [resource_text(kind, resource) for resource in config[kind]]
    return "".join(out)


def check_size(config):
    size = len(export_text(config))
    if size > 32768:
        raise Refused("29 TooLarge %d" % size)


def check_room(config, kind, more):
    if sum(len(config[k]) for k in KINDS) + more > 256:
        raise Refused("27 TooMany 256")
    if kind == "fs" and len(config["fs"]) + more > 100:
        raise Refused("27 TooMany 100")


def alias_place(config, name):
    """The place of the alias's rctl, or None; 28 where it has another form."""
    rctl, action = ALIASES[name]
    for place, resource in enumerate(config["rctl"]):
        if resource["name"] == rctl:
            if [a for _, a in resource["value"]] != [action]:
                raise Refused("28 AliasHeld")
            return place
    return None


def set_property(config, name, value):
    if name not in GLOBAL and name not in ALIASES:
        raise Refused("22 UnknownProperty")
    if value[0] != "simple":
        raise Refused("23 BadValue")
    text = value[1]
    if name in ALIASES:
        if not is_number(text):
            raise Refused("23 BadValue")
        place = alias_place(config, name)
        rctl, action = ALIASES[name]
        resource = {"name": rctl, "value": [(text, action)]}
        new = copy(config)
        if place is None:
            check_room(config, "rctl", 1)
            new["rctl"].append(resource)
        else:
            new["rctl"][place] = resource
        check_size(new)
        return new
    if not (text == "" and name in UNSET_BY_EMPTY) and not RULES[name](text):
        raise Refused("23 BadValue")
    new = copy(config)
    new[name] = text
    check_size(new)
    return new


def clear_property(config, name):
    if name not in GLOBAL and name not in ALIASES:
        raise Refused("22 UnknownProperty")
    new = copy(config)
    if name in ALIASES:
        place = alias_place(config, name)
        if place is not None:
            del new["rctl"][place]
        return new
    new[name] = blank()[name]
    check_size(new)
    return new


def items_of(kind, value, empty_is_none):
    """The items that a value of a list property stands for; None where it may not be one."""
    if kind == "rctl":
        limit = limit_of(value)
        return None if limit is None else [limit]
    if value[0] == "simple":
        if value[1] == "" and empty_is_none:
            return []
        texts = [value[1]]
    elif value[0] == "list":
        texts = value[1]
    else:
        return None
    return texts if all(is_option(text) for text in texts) else None


def edit_resource(kind, resource, verb, name, value):
    new = copy_resource(resource)
    is_list = LISTS.get(kind) == name
    if verb != "set" and verb != "clear" and not is_list or not is_list and name not in FIELDS[kind]:
        raise Refused("22 UnknownProperty")
    if verb == "clear":
        new[name] = [] if is_list else ""
        return new
    if not is_list:
        text = value[1]
        unset = value == ("simple", "") and (kind, name) not in RULES
        if value[0] != "simple" or not unset and not field_allows(kind, name, text):
            raise Refused("23 BadValue")
        new[name] = text
        return new
    items = items_of(kind, value, verb == "set")
    if items is None:
        raise Refused("23 BadValue")
    if verb == "remove item":
        for item in items:
            if item not in new[name]:
                raise Refused("25 NoMatch")
            new[name].remove(item)
        return new
    new[name] = items if verb == "set" else new[name] + items
    if kind == "fs" and len(new[name]) > 32:
        raise Refused("27 TooMany 32")
    return new


def put_back(config, kind, resource, place):
    key = KEYS.get(kind)
    others = [r for at, r in enumerate(config[kind]) if at != place]
    if key and any(r[key] == resource[key] for r in others):
        raise Refused("24 Duplicate")
    new = copy(config)
    if place is None:
        check_room(config, kind, 1)
        new[kind].append(resource)
    else:
        new[kind][place] = resource
    check_size(new)
    return new


def matches(kind, resource, pairs):
    return all(name in FIELDS[kind] and resource[name] == text for name, text in pairs)


def places(config, kind, pairs):
    found = [at for at, r in enumerate(config[kind]) if matches(kind, r, pairs)]
    if not found:
        raise Refused("25 NoMatch")
    return found


def the_place(config, kind, pairs):
    found = places(config, kind, pairs)
    if len(found) > 1:
        raise Refused("26 SeveralMatch %d" % len(found))
    return found[0]


# Flaws.

def is_plain_address(text):
    parts = text.split(".")
    return len(parts) == 4 and all(
        p.isdigit() and len(p) <= 3 and int(p) <= 255 and (p == "0" or p[0] != "0") for p in parts)


def is_address(text):
    address, slash, prefix = text.partition("/")
    if not is_plain_address(address):
        return False
    if not slash:
        return True
    return prefix.isdigit() and len(prefix) <= 2 and int(prefix) <= 32 and (prefix == "0" or prefix[0] != "0")


def is_of_form(form, text):
    digits = text[1:] if form == "int" and text.startswith("-") else text
    if form in ("int", "uint"):
        return digits.isdigit() and len(digits) <= 18
    if form == "boolean":
        return text in ("true", "false")
    return True


def flaw(config, brands=("ipkg", "lx")):
    """The first flaw, where these brands are there, or None."""
    def missing(kind, resource, names):
        for name in names:
            if not resource[name]:
                return "42 MissingProperty %s %s" % (kind, name)
        return None

    if not config["zonepath"]:
        return "41 NoZonepath"
    if config["brand"] not in brands:
        return "46 UnknownBrand %s" % config["brand"]
    dirs = []
    for fs in config["fs"]:
        if not fs["dir"]:
            return "42 MissingProperty fs dir"
        if not fs["special"] or fs["type"] == "lofs" and not is_path(fs["special"]):
            return "42 MissingProperty fs special"
        if not fs["type"]:
            return "42 MissingProperty fs type"
        if fs["dir"] == "/" or fs["dir"] in dirs:
            return "45 SameDir %s" % fs["dir"]
        dirs.append(fs["dir"])
    shared = config["ip-type"] == "shared"
    claims = []
    for place, net in enumerate(config["net"]):
        if not net["physical"]:
            return "42 MissingProperty net physical"
        claim = net["address"].partition("/")[0] if shared else net["physical"]
        formed = (net["address"] and not net["allowed-address"]) if shared else not net["address"]
        if not formed or claim and claim in claims:
            return "43 NetForm %d" % place
        claims.append(claim)
        for name, rule in (("address", is_address), ("allowed-address", is_address), ("defrouter", is_plain_address)):
            if net[name] and not rule(net[name]):
                return "44 BadAddress %s" % net[name]
    for device in config["device"]:
        if not device["match"]:
            return "42 MissingProperty device match"
    for rctl in config["rctl"]:
        found = missing("rctl", rctl, ["name", "value"])
        if found:
            return found
    for attr in config["attr"]:
        found = missing("attr", attr, ["name", "type", "value"])
        if found:
            return found
        if not is_of_form(attr["type"], attr["value"]):
            return "50 AttrForm %s" % attr["name"]
    for dataset in config["dataset"]:
        if not dataset["name"]:
            return "42 MissingProperty dataset name"
    return None


# The editor.

class Editor:
    def __init__(self):
        self.config, self.scope = None, None

    def obey(self, command):
        verb = command[0]
        if verb in ("commit", "delete", "exit", "export", "help", "info", "revert"):
            raise Refused("36 NotHere")
        if self.config is None and verb != "create":
            raise Refused("33 NothingOpen")
        if self.scope is None:
            self.obey_global(verb, command)
        else:
            self.obey_scope(verb, command)

    def obey_global(self, verb, command):
        config = self.config
        if verb == "create":
            if config is not None and not command[1]:
                raise Refused("34 NeedForce")
            self.config = blank()
            if not command[2]:
                self.config["brand"] = "ipkg"
        elif verb == "set":
            self.config = set_property(config, command[1], command[2])
        elif verb == "clear":
            self.config = clear_property(config, command[1])
        elif verb == "add":
            self.scope = (command[1], empty(command[1]), None)
        elif verb == "select":
            place = the_place(config, command[1], command[2])
            self.scope = (command[1], copy_resource(config[command[1]][place]), place)
        elif verb == "remove":
            _, force, kind, pairs = command
            gone = places(config, kind, pairs) if force else [the_place(config, kind, pairs)]
            new = copy(config)
            new[kind] = [r for at, r in enumerate(config[kind]) if at not in gone]
            self.config = new
        elif verb == "verify":
            found = flaw(config)
            if found:
                raise Refused(found)
        else:
            raise Refused("32 WrongScope global")

    def obey_scope(self, verb, command):
        kind, resource, place = self.scope
        if verb in ("set", "clear", "add item", "remove item"):
            value = command[2] if len(command) > 2 else None
            self.scope = (kind, edit_resource(kind, resource, verb, command[1], value), place)
        elif verb == "end":
            self.config = put_back(self.config, kind, resource, place)
            self.scope = None
        elif verb == "cancel":
            self.scope = None
        else:
            raise Refused("32 WrongScope %s" % kind)

    def end(self):
        if self.scope is not None:
            raise Refused("32 WrongScope %s" % self.scope[0])
        if self.config is None:
            raise Refused("33 NothingOpen")
        found = flaw(self.config)
        if found:
            raise Refused(found)
        return export_text(self.config)


def lines_of(data):
    lines = data.split(b"\n")
    return lines if lines[-1] else lines[:-1]


def run(data):
    """The status and both texts of `zones export` over an input."""
    editor = Editor()
    for number, line in enumerate(lines_of(data), 1):
        if number > 200000 or len(line) > 4096:
            return 8, b"", b"limit at line %d\n" % number
        try:
            for part in subcommands(line):
                editor.obey(command_of(part))
        except Refused as refused:
            return 1, b"", ("line %d: %s\n" % (number, refused)).encode("ascii")
    try:
        return 0, editor.end().encode("ascii"), b""
    except Refused as refused:
        return 1, b"", ("end: %s\n" % refused).encode("ascii")
