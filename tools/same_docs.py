#!/usr/bin/env python3
"""Compares examples/ and docs/CODES.md with the copies that the gate reads in crates/zones_docs/data.

    tools/same_docs.py [--write]

The gate runs a program over the files of its own crate alone, so these stand twice. --write copies them anew; without it
each file that differs is named, and the status is 1.
"""

import pathlib
import shutil
import sys

TOP = pathlib.Path(__file__).resolve().parent.parent
DATA = TOP / "crates/zones_docs/data"


def pairs():
    """Each file that people read, with its copy."""
    yield TOP / "docs/CODES.md", DATA / "CODES.md"
    own = {path.name for path in (TOP / "examples").iterdir()} - {"README.md"}
    copied = {path.name for path in (DATA / "examples").iterdir()}
    for name in sorted(own | copied):
        yield TOP / "examples" / name, DATA / "examples" / name


def is_same(own, copy):
    return own.is_file() and copy.is_file() and own.read_bytes() == copy.read_bytes()


def main():
    if sys.argv[1:] not in ([], ["--write"]):
        sys.exit(__doc__)
    differing = [(own, copy) for own, copy in pairs() if not is_same(own, copy)]
    for own, copy in differing:
        if sys.argv[1:]:
            copy.unlink(missing_ok=True)
            if own.is_file():
                shutil.copyfile(own, copy)
        else:
            print(f"{own.relative_to(TOP)} differs from {copy.relative_to(TOP)}")
    return 1 if differing and not sys.argv[1:] else 0


if __name__ == "__main__":
    sys.exit(main())
