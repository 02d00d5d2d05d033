"""What an idle session types, as the model in trace_model.py reads it: lines of zonecfg(8), zoneadm(8) and zlogin(1),
and `kill`, `fhold` and `frelease`.

typed(text, known) reads one line. `known` are the kinds of lines of trace_lines.py.
"""

import re

import export_model
from trace_lines import OLD_LINES, Outside, Words, call_of, is_number, is_path, is_signal


def is_one_word(text):
    """Whether a text is one word of a line of zonecfg(8)."""
    try:
        return [token[0] for token in export_model.tokens(text)] == ["word"]
    except export_model.Refused:
        return False


def made_zone(words):
    """Zonepath and brand of the zone that these words make, or None where they are no such line."""
    if len(words) != 9 or words[6][:9] != b"zonepath=" or words[6][-1:] != b";" or words[8][:6] != b"brand=":
        return None
    path, brand = words[6][9:-1], words[8][6:]
    right = [b"zonecfg", b"-z", words[2], b"create", b"-b;", b"set", words[6], b"set", words[8]]
    return (path.decode(), brand.decode()) if words == right and is_one_word(path) and is_one_word(brand) else None


def boot_arguments(words):
    """Whether these words are arguments of a boot: -s, -i PATH and -m WORD, each once at most."""
    options, left = set(), list(words)
    while left:
        option = left.pop(0)
        if option in options or option not in (b"-s", b"-i", b"-m"):
            return False
        options.add(option)
        if option != b"-s" and (not left or option == b"-i" and not is_path(left[0])):
            return False
        left = left if option == b"-s" else left[1:]
    return True


def request_of(words):
    """(kind, detail) of the request that the words after `zoneadm -z Z` make, where the detail is the path of a move,
    the zone that is cloned or the arguments of a boot; or None where they make none."""
    kind, rest = words[0].decode(), words[1:]
    if kind in ("install", "attach", "detach", "ready", "halt") and not rest:
        return (kind, None)
    if kind == "uninstall" and rest == [b"-F"] or kind == "mark" and rest == [b"incomplete"]:
        return (kind, None)
    if kind == "move" and len(rest) == 1 and is_path(rest[0]) and rest[0] != b"/":
        return (kind, rest[0])
    if kind == "clone" and len(rest) == 1:
        return (kind, rest[0])
    if kind in ("boot", "reboot") and rest[:1] in ([], [b"--"]) and boot_arguments(rest[1:]):
        return (kind, b" ".join(rest[1:]) or None)
    return None


def zonecfg_of(text, words, known):
    """What a line of zonecfg(8) asks for, as typed() tells it, or None where it is none that is known. Subcommands are
    taken as they stand, from the first byte after the spaces behind the zone's name to the end of the line."""
    if words[:2] != [b"zonecfg", b"-z"] or len(words) < 3:
        return None
    if len(words) == 3:
        return ("edit", words[2], None) if "edit" in known else None
    if "zonecfg" in known:
        return ("zonecfg", words[2], re.fullmatch(rb" *zonecfg +-z +[^ ]+ +(.*)", text, re.S).group(1))
    return ("create", words[2], made_zone(words)) if made_zone(words) is not None else None


def is_options(word):
    """Whether a word is the options of a list of all zones: letters in any order, also repeated. A list is short, or
    has the columns of -p or those of -v, but not of both."""
    return re.fullmatch(rb"-[cinpv]+", word) is not None and not (b"p" in word and b"v" in word)


def zoneadm_of(words, known):
    """What a line of zoneadm(8) asks for, as typed() tells it, or None where it is none that is known."""
    if "list" in known and words[1:2] == [b"list"] and (len(words) == 2 or len(words) == 3 and is_options(words[2])):
        return ("list", None, words[2].decode() if words[2:] else "")
    if "help" in known and words[1:] == [b"help"]:
        return ("help", None, None)
    if len(words) < 4 or words[1] != b"-z":
        return None
    name, rest = words[2], words[3:]
    if "help" in known and rest == [b"help"]:
        return ("help", name, None)
    if "verify" in known and rest == [b"verify"]:
        return ("verify", name, None)
    if "list" in known and rest in ([b"list"], [b"list", b"-p"], [b"list", b"-v"]):
        return ("list", name, b"".join(rest[1:]).decode())
    if rest == [b"uninstall"]:
        return ("unforced", name, None)
    return ("request", name, request_of(rest)) if request_of(rest) is not None else None


def of_zlogin(words):
    """What stands before the zone in a line of zlogin(1), each -e with the byte after it, and the words from the zone
    on."""
    options, left = [], words[1:]
    while left and left[0] in (b"-C", b"-E", b"-e"):
        size = 2 if left[0] == b"-e" else 1
        options.append(left[:size])
        left = left[size:]
    return options, left


def zlogin_of(text, words, known):
    """What a line of zlogin(1) asks for, as typed() tells it, or None where it is none that is known. A call is taken
    as it stands, from the first byte after the spaces behind the zone's name to the end of the line."""
    options, left = of_zlogin(words)
    if len(left) > 1 and not options and "enter" in known:
        try:
            rest = re.fullmatch(rb" *zlogin +[^ ]+ +(.*)", text, re.S).group(1)
            return ("call", left[0], call_of(Words(rest), known))
        except Outside:
            return None
    escapes = [it for it in options if it != [b"-C"]]
    consoles = len(options) - len(escapes)
    what = "console" if consoles else "zlogin"
    if len(left) != 1 or consoles > 1 or len(escapes) > 1 or what not in known:
        return None
    option = escapes[0] if escapes else [b"-e", b"~"]
    if option == [b"-E"]:
        return (what, left[0], None)
    return (what, left[0], option[1]) if len(option[1]) == 1 else None


def name_in(words, known):
    """The zone that a line names, or None."""
    if words[0] == b"zlogin" and known & {"zlogin", "console", "enter"}:
        return next(iter(of_zlogin(words)[1]), None)
    return words[words.index(b"-z") + 1] if b"-z" in words[:-1] else None


def asked_for(text, words, known):
    """What a line of one of the three programs asks for, or None where it is none of theirs that is known."""
    if words[0] == b"zonecfg":
        return zonecfg_of(text, words, known)
    if words[0] == b"zlogin":
        return zlogin_of(text, words, known)
    return zoneadm_of(words, known) if words[0] == b"zoneadm" else None


def typed(text, known=OLD_LINES):
    """What an idle session's line asks for: (what, name, rest), where name may be None. The rest is the path and brand
    of a zone that is made, subcommands of zonecfg(8), kind and detail of a request, the options of a list, the escape
    byte of a login or a console (None for no escape), the words of a call, signal and number of `kill`, or the
    directory of a hold."""
    words = text.split()
    if not words:
        return ("nothing", None, None)
    name = name_in(words, known)
    asked = asked_for(text, words, known)
    if asked is not None:
        return asked
    if len(words) == 3 and words[0] == b"kill" and is_signal(words[1]) and is_number(words[2]):
        return ("kill", name, (words[1].decode(), int(words[2])))
    if len(words) == 4 and words[0] in (b"fhold", b"frelease") and words[1] == b"-z" and is_path(words[3]):
        return (words[0].decode(), name, words[3].decode())
    return ("unknown", name, None)
