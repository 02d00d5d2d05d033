"""A plain model of `zones index`, and of the image of a disk that it reads.

run(image) gives the status, standard output and standard error of the command on a disk with these bytes.
"""

import re

import export_model
from config_model import Config
from list_model import escaped
from store_model import AROUND, MOST_BYTES, MOST_ZONES, Record, Store
from store_reader import HEADER, body, is_unformatted
from trace_lines import LAST_NUMBER, name_fault

BEGIN = len(HEADER)
# What of the header may be another byte: it names the bank, of which there is one.
BANK = 9
SECOND_BANK = 0x42

BODY = re.compile(
    rb"zone ([^\n]*)\nstate ([a-z]+)\nuuid ([0-9a-f]{8}(?:-[0-9a-f]{4}){3}-[0-9a-f]{12})\nrevision ([0-9]{10})\n(.*)", re.S)
REMOVAL = re.compile(rb"zone ([^\n]*)\nstate none\n")
STORED = (b"configured", b"incomplete", b"installed")


class NoStore(Exception):
    """Why an image is no store, as it is printed."""


def wrong_offset(image):
    """The first offset at which the header of an image is wrong, its length where it is too short, or None."""
    for place, (byte, wanted) in enumerate(zip(image, HEADER)):
        if byte == SECOND_BANK if place == BANK else byte != wanted:
            return place
    return len(image) if len(image) <= BEGIN else None


def bodies_of(image):
    """The bodies of an image's records."""
    if is_unformatted(image):
        return []
    if wrong_offset(image) is not None:
        raise NoStore("61 NotAStore %d" % wrong_offset(image))
    found, place, end = [], BEGIN, min(len(image), BEGIN + MOST_BYTES)
    while image[place] == 1:
        following = place + AROUND + int.from_bytes(image[place + 1:place + AROUND], "big")
        if place + AROUND > end or following >= end:
            raise NoStore("62 BadRecord %d" % place)
        found.append(image[place + AROUND:following])
        place = following
    return found


def config_of(text):
    """The configuration of an export text, or None where it is none."""
    editor = export_model.Editor()
    try:
        for line in text.splitlines():
            for part in export_model.subcommands(line):
                editor.obey(export_model.command_of(part))
    except export_model.Refused:
        return None
    return None if editor.config is None or editor.scope is not None else Config(editor.config)


def record_of(found):
    """The record of a body, or None where the body has another form."""
    name, state, uuid, revision, text = found.groups()
    config = config_of(text)
    if state not in STORED or not 1 <= int(revision) <= LAST_NUMBER or config is None or not config.path:
        return None
    record = Record(state.decode(), config, int(revision), uuid.decode())
    whole = body(name.decode(), record.state, record.uuid, record.revision, config.text())
    return record if whole == found.group(0) else None


def take(store, body_text):
    """Takes one more body into a store, and answers whether it has the form of one."""
    gone, found = REMOVAL.fullmatch(body_text), BODY.fullmatch(body_text)
    name = (gone or found).group(1) if gone or found else b""
    if name_fault(name) is not None:
        return False
    store.serial += 1
    if gone:
        return store.records.pop(name, None) is not None
    record = record_of(found)
    if record is None or name not in store.records and len(store.records) == MOST_ZONES:
        return False
    store.records[name] = record
    return True


def store_of(image):
    """The store that an image is. A zone's UUID is the one that its last record has."""
    store = Store()
    for serial, body_text in enumerate(bodies_of(image), 1):
        if not take(store, body_text):
            raise NoStore("65 RecordForm %d" % serial)
        store.used += AROUND + len(body_text)
    return store


def image_of(bodies):
    """The image of a disk with these records."""
    records = b"".join(b"\x01" + len(it).to_bytes(4, "big") + it for it in bodies)
    return HEADER + records + b"\x00"


def text_of(store):
    """The index text of a store: its zones in the order in which they were made."""
    lines = []
    for name, record in store.records.items():
        head = (name.decode(), record.state, escaped(record.config.path))
        lines.append("%s:%s:%s:%s\n" % (*head, record.uuid))
    return "".join(lines).encode()


def opened(image, then):
    """What a command does with the store that an image is: then(store), or the status and both texts of a refusal."""
    try:
        store = store_of(image)
    except NoStore as fault:
        return 7, b"", ("not a store: %s\n" % fault).encode()
    return then(store)


def run(image):
    """The status and both texts of `zones index`."""
    return opened(image, lambda store: (0, text_of(store), b""))
