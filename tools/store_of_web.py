#!/usr/bin/env python3
"""Writes a store of one zone to standard output, by docs/STORE.md and by nothing else.

    tools/store_of_web.py [ZONE STATE]

Without words it is `web`, which is configured.
"""

import sys

from store_reader import HEADER, body, uuid_of

EXPORT = "create -b\nset zonepath=/zones/%s\nset brand=ipkg\nset autoboot=false\nset ip-type=shared\n"


def store(bodies):
    return HEADER + b"".join(b"\x01" + len(it).to_bytes(4, "big") + it for it in bodies) + b"\x00"


def main():
    zone, state = sys.argv[1:] or ("web", "configured")
    sys.stdout.buffer.write(store([body(zone, state, uuid_of(zone, 1), 1, EXPORT % zone)]))


if __name__ == "__main__":
    main()
