"""Stores whose index text is known, with which the model in index_model.py is compared.

fault() gives what it answers otherwise, or None; tools/fuzz_trace.py --self-test does this.
"""

import index_model
from config_model import Config
from store_reader import body, removal, uuid_of

NAMES = ["z%d" % number for number in range(257)]


def configured(name, number, path=None, state="configured"):
    """The body of a zone that the record of a number made."""
    config = Config.of(zonepath=path or "/zones/" + name, brand="ipkg")
    return body(name, state, uuid_of(name, number), number, config.text())


def line(name, number, path=None, state="configured"):
    """Its line in the index text."""
    return "%s:%s:%s:%s\n" % (name, state, path or "/zones/" + name, uuid_of(name, number))


WEB = configured("web", 1)
WEB_LINE = "web:configured:/zones/web:8a2e61b6-8ea3-5b49-9719-c91d461d9a87\n"

# What a row shows; the bodies of the records; the index text, or the refusal.
ROWS = [
    ("no record", [], ""),
    ("one record", [WEB], WEB_LINE),
    ("a later record of the same zone", [WEB, configured("web", 1, state="installed")],
     "web:installed:/zones/web:8a2e61b6-8ea3-5b49-9719-c91d461d9a87\n"),
    ("a zone that is made again", [WEB, configured("a", 2), removal("web"), configured("web", 4)],
     line("a", 2) + line("web", 4)),
    ("colons and backslashes", [configured("web", 1, "/a:b\\c")], line("web", 1, "/a\\:b\\\\c")),
    ("256 zones", [configured(it, at) for at, it in enumerate(NAMES[:256], 1)],
     "".join(line(it, at) for at, it in enumerate(NAMES[:256], 1))),
    ("257 zones", [configured(it, at) for at, it in enumerate(NAMES, 1)], "65 RecordForm 257"),
    ("a zone that isn't there is removed", [WEB, removal("a")], "65 RecordForm 2"),
    ("no body", [b""], "65 RecordForm 1"),
    ("a state of a zone that runs", [configured("web", 1, state="running")], "65 RecordForm 1"),
    ("a reserved name", [configured("global", 1)], "65 RecordForm 1"),
    ("a line too many", [WEB + b"end\n"], "65 RecordForm 1"),
    ("without its last newline", [WEB[:-1]], "65 RecordForm 1"),
    ("no zonepath", [WEB.replace(b"set zonepath=/zones/web\n", b"")], "65 RecordForm 1"),
    ("revision 0", [WEB.replace(b"revision 0000000001", b"revision 0000000000")], "65 RecordForm 1"),
    ("a value in needless quotes", [WEB.replace(b"/zones/web", b"\"/zones/web\"")], "65 RecordForm 1"),
]


def cut(length):
    """What is told of the first bytes of a store with one record."""
    if length < 2:
        return ""
    return "61 NotAStore %d" % length if length < 17 else "62 BadRecord 16"


def images():
    """Pairs of an image and the index text or the refusal."""
    web = index_model.image_of([WEB])
    yield from ((web[:length], cut(length)) for length in range(197))
    yield web[:17] + b"\x7f" + web[18:], "62 BadRecord 16"
    yield b"x" * 20, "61 NotAStore 0"
    yield b"\x00" * 17, ""
    yield b"\x00" * 18, "61 NotAStore 0"
    yield web[:9] + b"B" + web[10:], "61 NotAStore 9"
    yield web[:9] + b"C" + web[10:], WEB_LINE
    yield web[:10] + b"\x01" + web[11:], "61 NotAStore 10"
    yield web[:16] + b"\x02" + web[17:], ""
    yield web + b"rest", WEB_LINE


def fault():
    """What the model answers otherwise than it is known, or None."""
    rows = [(title, index_model.image_of(bodies), want) for title, bodies, want in ROWS]
    for title, image, want in rows + [("%r" % image, image, want) for image, want in images()]:
        status, out, err = index_model.run(image)
        told = err.decode()[len("not a store: "):-1] if status == 7 else out.decode()
        if told != want:
            return "%s: %r" % (title, told)
    return None
