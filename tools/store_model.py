"""A plain model of the records of zones: what is stored of each, and which record the store takes (zonecfg(8) and
zones(7)).

A record has the zone's name, state and UUID, the number of its configuration's last change, and the export text. The
bytes of all records stay, also of those that a later one replaces, so that the store fills.
"""

import dataclasses

from config_model import Config
from pool_model import YES, Denied, Need
from store_reader import uuid_of
from trace_lines import LAST_NUMBER

MOST_ZONES = 256
MOST_BYTES = 33554432
# Beside its body a record has a mark and four bytes of its length; after the last one stands one more mark.
AROUND = 5


@dataclasses.dataclass
class Record:
    """What is stored of a zone: beside its state and configuration the number of the configuration's last change, and
    the zone's UUID."""

    state: str
    config: Config
    revision: int = 0
    uuid: str = ""

    def size(self, name):
        """The bytes of its body, in which a UUID has 36 and a revision ten digits."""
        head = "zone %s\nstate %s\nuuid %s\nrevision %s\n" % (name.decode(), self.state, "u" * 36, "0" * 10)
        return len(head) + len(self.config.text())


def removal_size(name):
    """The bytes of the body by which a zone is removed."""
    return len("zone %s\nstate none\n" % name.decode())


def size_of(name, record):
    """The bytes of a record's body, or where it is None, of the zone's removal."""
    return removal_size(name) if record is None else record.size(name)


class Store:
    """The zones that are stored, and the bytes that are used."""

    def __init__(self):
        self.records, self.serial, self.used = {}, 0, 1

    def need(self, name, record):
        """What a record asks, which is None where the zone is removed: the number of zones where it makes one, the path
        where that is a new one, and the room. Its number counts all records from the first one on; one that is stated
        may be any that the form of a record has, and the path isn't looked at."""
        old = self.records.get(name)
        is_new = record is not None and old is None
        is_elsewhere = is_new or record is not None and old.config.path != record.config.path
        is_full = is_new and len(self.records) == MOST_ZONES
        has_room = self.used + AROUND + size_of(name, record) <= MOST_BYTES

        def given():
            if is_full:
                raise Denied("zones")
            if is_elsewhere and self.is_taken(record.config.path, name):
                raise Denied("paths")
            if not has_room:
                raise Denied("store")
            return self.serial + 1

        pools = ["zones"] * is_new + ["paths"] * is_elsewhere + ["store"]
        return Need(pools, given, lambda it: it != YES and 1 <= it <= LAST_NUMBER and has_room and not is_full)

    def is_taken(self, path, name):
        """Whether a zone other than the named one has a path."""
        return any(it.config.path == path for other, it in self.records.items() if other != name)

    def change(self, name, record, number, commit=False):
        """Stores a record that was given a number; None removes the zone. A commit and a move count as a change of the
        configuration, which has then this number, and the number of a new zone's first record goes into its UUID."""
        self.used += AROUND + size_of(name, record)
        self.serial += 1
        if record is None:
            del self.records[name]
            return
        old = self.records.get(name)
        uuid = str(uuid_of(name.decode(), number)) if old is None else old.uuid
        self.records[name] = dataclasses.replace(record, uuid=uuid, revision=number if commit else record.revision)
