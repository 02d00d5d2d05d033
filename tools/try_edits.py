#!/usr/bin/env python3
"""Tries the edits of the program that the gate doesn't try: those in crates/NAME/more-edits/.

    tools/try_edits.py [NAME..]

The prover must refuse each, as it must those in crates/NAME/must-fail/, which `rt ci` tries itself. This copies the
checkout to a temporary folder, has more-edits/ stand there in the place of must-fail/, and runs `rt must-fail` for the
crates that are named, or for each that has such edits. It prints a line for each edit and a summary, and ends with
status 1 where one isn't refused. The checkout stays as it is, and what the gate keeps is neither read nor written.
"""

import argparse
import collections
import pathlib
import re
import shutil
import subprocess
import sys
import tempfile

ROOT = pathlib.Path(__file__).resolve().parent.parent
KINDS = [
    ("bad", re.compile(r"BAD EDIT")),
    ("not refused", re.compile(r"NOT REFUSED")),
    ("not tried", re.compile(r"NOT TRIED")),
    ("refused", re.compile(r"refused, as it must be")),
]


def copied(room):
    """A copy of the checkout in which each crate's more-edits/ is its must-fail/."""
    top = room / "copy"
    ignored = shutil.ignore_patterns("out", "must-fail", ".git")
    shutil.copytree(ROOT, top, ignore=ignored, symlinks=True)
    subprocess.run(["git", "init", "-q", top], check=True)
    for folder in top.glob("crates/*/more-edits"):
        folder.rename(folder.with_name("must-fail"))
    return top


def tried(top, name, edits):
    """What becomes of each edit of a crate, by what `rt must-fail` says of it."""
    run = subprocess.run(["rt", "must-fail", name], cwd=top, capture_output=True, text=True)
    lines = (run.stdout + run.stderr).splitlines()
    found = {}
    for line in lines:
        for edit in edits:
            kind = next((kind for kind, said in KINDS if said.search(line)), None)
            if kind and "%s/%s.edit:" % (name, edit) in line:
                found[edit] = kind
    if len(found) < len(edits):
        sys.stderr.write("\n".join(lines[-5:]) + "\n")
    return [(edit, found.get(edit, "not tried")) for edit in edits]


def main():
    parser = argparse.ArgumentParser(description=__doc__, formatter_class=argparse.RawDescriptionHelpFormatter)
    parser.add_argument("names", nargs="*", metavar="NAME", help="a crate with edits in more-edits/")
    names = parser.parse_args().names
    all_edits = collections.defaultdict(list)
    for edit in sorted(ROOT.glob("crates/*/more-edits/*.edit")):
        all_edits[edit.parent.parent.name].append(edit.stem)
    for name in names:
        if name not in all_edits:
            sys.exit("no crate %s has more-edits/" % name)
    counts = collections.Counter()
    with tempfile.TemporaryDirectory() as room:
        top = copied(pathlib.Path(room))
        for name in names or sorted(all_edits):
            for edit, kind in tried(top, name, all_edits[name]):
                counts[kind] += 1
                print("%s/%s: %s" % (name, edit, kind), flush=True)
    print(", ".join("%d %s" % (counts[kind], kind) for kind in sorted(counts)))
    sys.exit(0 if set(counts) <= {"refused"} else 1)


if __name__ == "__main__":
    main()
