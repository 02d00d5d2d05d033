#!/usr/bin/env python3
"""Writes the tables of docs/MEASURES.md, each between its two markers; the prose around them stays.

    tools/measure.py [--gate LOG] [--program FILE]

- sizes: counted in crates/, always.
- speed: instructions of the native program by valgrind's callgrind, as the difference of two lengths, over the script
  that tools/bench_export.py writes, over a trace of a zone that boots and halts over and over, and over a script of calls
  alone; and of two numbers of zones that `bulk` makes.
- gate: minutes of one processor, from the LOG that tools/time_gate.py writes of a run from nothing.

What this run can't measure (no LOG, a crate that it lacks, no program, no valgrind) stays as the file has it, and a
line on standard output says so. A second run changes nothing.
"""

import argparse
import pathlib
import re
import subprocess
import sys
import tempfile

from arguments import PROGRAM
from own_folder import own_folder

ROOT = pathlib.Path(__file__).resolve().parent.parent
PAGE = ROOT / "docs/MEASURES.md"
LENGTHS = (20000, 40000)
BULKS = ((1, 64), (128, 256))
SESSION_MAX = 64
CLAUSE = re.compile(r"(ensures|requires|ghost)\b")


def crates():
    """The crates of crates.txt in its order, each with the libraries of the repository that it stands on."""
    lines = [line for line in (ROOT / "crates.txt").read_text().splitlines() if line and not line.startswith("#")]
    named = {line.split(":")[0].split()[0]: line.split(":")[1].split() for line in lines}
    return {name: [it for it in below if it in named] for name, below in named.items()}


def table(heads, rows):
    lines = ["| %s |" % " | ".join(heads), "|%s" % ("---|" * len(heads))]
    return "\n".join(lines + ["| %s |" % " | ".join(row) for row in rows])


def rows_of(text):
    """The rows of a table that was written before, by their first word."""
    lines = [line.strip("| ").split(" | ") for line in text.splitlines() if line.startswith("| ")]
    return {line[0]: line[1:] for line in lines[1:]}


# Sizes.

def written(folder, ending, comment):
    """The lines of each file below a folder that are neither blank nor a comment."""
    for path in sorted(folder.rglob("*" + ending)):
        lines = [line.strip() for line in path.read_text().splitlines()]
        yield path.relative_to(folder), [line for line in lines if line and not line.startswith(comment)]


def depth(line):
    return sum(line.count(it) for it in "{([") - sum(line.count(it) for it in "})]")


def source_lines(lines):
    """How many lines are code, clauses and tests: a clause goes on until its brackets close, a test module to the end."""
    code = clauses = 0
    is_open, place = 0, 0
    while place < len(lines) and not (lines[place] == "#[cfg(test)]" and lines[place + 1].endswith("{")):
        if is_open > 0 or CLAUSE.match(lines[place]):
            clauses += 1
            is_open += depth(lines[place])
        else:
            code += 1
        place += 1
    return code, clauses, len(lines) - place


def size(name):
    folder = ROOT / "crates" / name
    code = clauses = tests = 0
    for path, lines in written(folder / "src", ".rt", "//"):
        if name.endswith("_tests") or path.parts[0] in ("tests", "tests.rt"):
            tests += len(lines)
            continue
        sums = source_lines(lines)
        code, clauses, tests = code + sums[0], clauses + sums[1], tests + sums[2]
    formal = [sum(len(lines) for _, lines in written(folder / it, ".antt", "--")) for it in ("specs", "proofs")]
    edits = [len(list(folder.glob(it + "/*.edit"))) for it in ("must-fail", "more-edits")]
    return [code, clauses, tests] + formal + edits


def sizes(_text, _args):
    found = {name: size(name) for name in crates()}
    found["all"] = [sum(column) for column in zip(*found.values())]
    heads = ["Crate", "Code", "Clauses", "Tests", "Specs", "Proofs", "Edits", "More edits"]
    return table(heads, [[name] + ["{:,}".format(it) for it in row] for name, row in found.items()])


# Speed.

def script(lines):
    made = subprocess.run([sys.executable, ROOT / "tools/bench_export.py", str(lines)], capture_output=True, check=True)
    return made.stdout


BOOT_AND_HALT = ["zoneadm -z %s boot"] + [None] * 13 + ["zoneadm -z %s halt"] + [None] * 11


def line_of(zone, session, typed):
    return "S %d %s" % (session, typed % zone) if typed else "D %s" % zone


def trace(zones):
    """Zones are made and installed, and then boot and halt over and over: as many as there are sessions take turns line by
    line, and more of them one after the other; the last turns find nothing to do."""
    made = ["z%d" % number for number in range(zones)]

    def text(lines):
        out = []
        for zone in made:
            out.append(line_of(zone, 1, "zonecfg -z %%s create -b; set zonepath=/zones/%s; set brand=ipkg" % zone))
            out += [line_of(zone, 1, "zoneadm -z %s install")] + [line_of(zone, 1, None)] * 10
        if zones <= SESSION_MAX:
            cycle = [line_of(zone, place + 1, it) for it in BOOT_AND_HALT for place, zone in enumerate(made)]
        else:
            cycle = [line_of(zone, 1, it) for zone in made for it in BOOT_AND_HALT]
        out += cycle * ((lines - len(out)) // len(cycle))
        return ("\n".join(out + [line_of(made[0], 1, None)] * (lines - len(out))) + "\n").encode()

    return text


def calls(lines):
    """A zone comes up, and processes enter it for one call over and over."""
    made = ["zonecfg -z %s create -b; set zonepath=/zones/z; set brand=ipkg", "zoneadm -z %s install", "zoneadm -z %s boot"]
    typed = made + ["zlogin %s true"] * (lines - len(made))
    return ("\n".join(line_of("z", 1, it) for it in typed) + "\n").encode()


def purged(program):
    """What `purge` writes of the trace of one zone."""
    def text(lines):
        with own_folder() as folder:
            run = subprocess.run([pathlib.Path(program).resolve(), "purge", "z0"], input=trace(1)(lines), capture_output=True,
                                 cwd=folder, check=True)
        return run.stdout

    return text


def instructions(program, command, data):
    with tempfile.TemporaryFile() as given, own_folder() as folder:
        given.write(data)
        given.seek(0)
        words = ["valgrind", "--tool=callgrind", "--callgrind-out-file=/dev/null", pathlib.Path(program).resolve()]
        run = subprocess.run(words + command.split(), stdin=given, stdout=subprocess.DEVNULL, stderr=subprocess.PIPE,
                             text=True, cwd=folder)
    counted = re.search(r"Collected : (\d+)", run.stderr)
    if run.returncode or not counted:
        raise OSError("%s %s under callgrind ended with status %d" % (program, command, run.returncode))
    return int(counted[1])


def events(zones):
    """The events of `bulk` over no store: 77 for each zone, and 12 more for one of an even number."""
    return 77 * zones + 12 * (zones // 2)


def event_of_bulk(program, few, many):
    """The instructions of one event of `bulk`, between two numbers of zones."""
    short, long = (instructions(program, "bulk %d" % zones, b"") for zones in (few, many))
    return round((long - short) / (events(many) - events(few)))


def speed(text, args):
    rows = [
        ("a line of `export`, over a configuration of 256 resources", "export", script),
        ("a line of `trace`, with its reply, of a zone that boots and halts over and over", "trace", trace(1)),
        ("the same of 60 zones that take turns", "trace", trace(60)),
        ("the same of 250 zones, one after the other", "trace", trace(250)),
        ("a line of `purge` of the trace of one zone, all of whose lines it keeps", "purge z0", trace(1)),
        ("the same of `given`, of what that writes", "given", purged(args.program)),
        ("a line of `script` in which a process enters a zone for the call `true`", "script", calls),
    ]
    made = []
    try:
        for what, command, make in rows:
            if not pathlib.Path(args.program).is_file():
                raise OSError("no program %s" % args.program)
            short, long = (instructions(args.program, command, make(lines)) for lines in LENGTHS)
            made.append([what, "{:,}".format(round((long - short) / (LENGTHS[1] - LENGTHS[0])))])
        for few, many in BULKS:
            what = "an event of `bulk %d`, from `bulk %d` on" % (many, few)
            made.append([what, "{:,}".format(event_of_bulk(args.program, few, many))])
    except OSError as why:
        print("speed: kept as it was (%s)" % why)
        return text
    return table(["What", "Instructions"], made)


# The gate.

def timed(log):
    """The minutes of each crate in a log, and of the whole run, which has those by the clock too."""
    rows = [line.split() for line in pathlib.Path(log).read_text().splitlines()]
    return {row[0]: [float(it) for it in row[1:]] for row in rows if row}


def above(name, all_crates):
    return [it for it, below in all_crates.items() if it == name or name in below]


def gate(text, args):
    if not args.gate:
        print("gate: kept as it was (no --gate LOG)")
        return text
    found, before, all_crates = timed(args.gate), rows_of(text), crates()
    minutes = {}
    for name in all_crates:
        if name in found:
            minutes[name] = "%.1f" % found[name][0]
        elif name in before:
            minutes[name] = before[name][0]
            print("gate: %s kept as it was (no run of it in %s)" % (name, args.gate))
        else:
            minutes[name] = "?"
            print("gate: %s was never measured" % name)
    known = {name: float(it) for name, it in minutes.items() if it != "?"}
    rows = [[name, minutes[name], "%.0f" % sum(known.get(it, 0) for it in above(name, all_crates))] for name in all_crates]
    rows.append(["all", "%.0f" % sum(known.values()), ""])
    whole = re.search(r"^A whole run .*$", text, flags=re.M)
    said = whole[0] if whole else ""
    if "all" in found:
        said = "A whole run from nothing: %.0f minutes of one processor, %.0f by the clock." % tuple(found["all"])
    elif said:
        print("gate: the whole run kept as it was (no '== all' in %s)" % args.gate)
    return table(["Crate", "Minutes", "After a change"], rows) + ("\n\n" + said if said else "")


def main():
    parser = argparse.ArgumentParser(description=__doc__, formatter_class=argparse.RawDescriptionHelpFormatter)
    parser.add_argument("--gate", metavar="LOG", help="what tools/time_gate.py wrote")
    parser.add_argument("--program", metavar="FILE", default=str(PROGRAM), help="the native program")
    args = parser.parse_args()
    page = PAGE.read_text()
    for make in (gate, sizes, speed):
        marked = re.compile(r"(<!-- %s: .*?-->\n)(.*?)(<!-- end of %s -->)" % (make.__name__, make.__name__), re.S)
        found = marked.search(page)
        if not found:
            sys.exit("no markers of %s in %s" % (make.__name__, PAGE))
        page = page[:found.start(2)] + make(found[2].rstrip("\n"), args).rstrip("\n") + "\n" + page[found.start(3):]
    PAGE.write_text(page)


if __name__ == "__main__":
    main()
