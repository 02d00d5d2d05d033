"""Reads a store as docs/STORE.md says, and not as the program does; and writes the bodies that the model's records have."""

import uuid

HEADER = b"\x01ZNSTORE1A" + bytes(6)
NAMESPACE = uuid.UUID("6ba7b810-9dad-11d1-80b4-00c04fd430c8")


def is_unformatted(image):
    return len(image) < 2 or (len(image) < 18 and image[0] != 1)


def bodies(image):
    """The bodies of the records, in order. What is no store ends the run."""
    if is_unformatted(image):
        return []
    if image[:16] != HEADER:
        raise ValueError("no store: %r" % image[:16])
    found, place = [], 16
    while image[place] == 1:
        end = place + 5 + int.from_bytes(image[place + 1:place + 5], "big")
        if end >= len(image):
            raise ValueError("a record at %d isn't whole" % place)
        found.append(image[place + 5:end])
        place = end
    return found


def uuid_of(zone, number):
    """The UUID of a zone that the record of a number made."""
    return uuid.uuid5(NAMESPACE, "%s:%d" % (zone, number))


def body(zone, state, uuid, revision, export):
    """The body of a record."""
    return ("zone %s\nstate %s\nuuid %s\nrevision %010d\n%s" % (zone, state, uuid, revision, export)).encode()


def removal(zone):
    """The body that removes a zone."""
    return ("zone %s\nstate none\n" % zone).encode()
