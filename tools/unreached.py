#!/usr/bin/env python3
"""Lists the lines of the model in trace_model.py that no random trace of tools/fuzz_trace.py reaches.

    tools/unreached.py [--lines KINDS] [--count N] [--seed S]

`--lines` is as in tools/fuzz_trace.py. A line counts as reached where it is run as a trace is answered, and not as one
is made. The longest traces are left out: under watch they would take hours. It is no part of the gate.
"""

import dis
import pathlib
import random
import sys

import trace_model
from arguments import arguments
from fuzz_trace import kinds_in, maker_of

MOST_BYTES = 50000
MODEL = [
    "trace_model.py", "trace_lines.py", "typed_lines.py", "login_model.py", "console_model.py", "system_model.py", "daemon_model.py", "plan_model.py", "config_model.py",
    "store_model.py", "pool_model.py", "claim_model.py", "mount_model.py", "edit_model.py", "list_model.py", "export_model.py",
]


def lines_of(code):
    """The lines of a function's code, and of those within it."""
    found = {line for _, line in dis.findlinestarts(code) if line}
    for inner in code.co_consts:
        if hasattr(inner, "co_code"):
            found |= lines_of(inner)
    return found


def lines_of_functions(path):
    """The lines of a file that belong to functions, but for those at which one begins."""
    module = compile(path.read_text(), str(path), "exec")
    found, left = set(), [module]
    while left:
        code = left.pop()
        left += [inner for inner in code.co_consts if hasattr(inner, "co_code")]
        # a function's own lines: its code is optimized, that of a module or a class isn't
        if code.co_flags & 1:
            found |= {line for line in lines_of(code) if line > code.co_firstlineno}
    return found


def watched(files, reached):
    """What notes which lines of some files are run."""
    def inside(frame, event, _):
        if event == "line":
            reached[frame.f_code.co_filename].add(frame.f_lineno)
        return inside

    def begins(frame, event, _):
        if frame.f_code.co_filename not in files:
            return None
        reached[frame.f_code.co_filename].add(frame.f_lineno)
        return inside
    return begins


def main():
    args = arguments(__doc__, options=["lines"])
    known, rng, traces = kinds_in(args.lines), random.Random(args.seed), []
    maker = maker_of(rng, known)
    files = {str(pathlib.Path(__file__).parent / name): pathlib.Path(__file__).parent / name for name in MODEL}
    reached = {name: set() for name in files}
    for _ in range(args.count):
        data = maker.next(traces)
        if 0 < len(data) < 20000:
            traces = (traces + [data])[-200:]
        if len(data) > MOST_BYTES:
            continue
        sys.settrace(watched(files, reached))
        trace_model.run(data, None, known)
        sys.settrace(None)
    for name, path in files.items():
        wanted = lines_of_functions(path)
        print("%s: %d of %d lines" % (path.name, len(wanted & reached[name]), len(wanted)))
        text = path.read_text().splitlines()
        for line in sorted(wanted - reached[name]):
            print("%8d %s" % (line, text[line - 1].strip()))
    return 0


if __name__ == "__main__":
    sys.exit(main())
