#!/usr/bin/env python3
"""Refuses each allocation, each read, each write and each call of the disk of the native program in turn, and looks how
the run ends.

    tools/refuse.py [--program FILE]

A small library stands before the C library and lets the call with a given number fail; gcc builds it in a temporary
folder. A run must end as docs/COMMANDS.md states: status 9, 4, 5 or 6 with its line, `export` with nothing written,
`bulk` too, `trace` with whole replies, and where nothing was refused with its text. The records that `trace` leaves must be
those of the replies that it has written; but for a read that was refused, there may be one more. Those of `bulk` must be the
first ones of its whole run. Of `live` one session runs, so its record is one alone: what is written must be a front of that, and what
is stored the first records of it, those of the entries that are written among them. The calls of the disk are those
that open, measure, read, write and sync the store, the one that syncs its folder too. The same is done to each allocation
of the test programs that `rt test` left in crates/*/out: a test must end with success, an error or a failed assertion. It
is no part of the gate.
"""

import os
import pathlib
import subprocess
import sys
import tempfile

from arguments import arguments
from fuzz_live import answers_of
from own_folder import image, own_folder
from store_reader import bodies
from told_records import Told

SHIM = r"""
#define _GNU_SOURCE
#include <dlfcn.h>
#include <errno.h>
#include <fcntl.h>
#include <stdio.h>
#include <stdlib.h>
#include <string.h>
#include <sys/stat.h>
#include <sys/types.h>
#include <unistd.h>

static long turn(const char *name) { const char *text = getenv(name); return text ? atol(text) : 0; }
static int refused(const char *name, long *count) { return ++*count == turn(name); }
static long allocations, reads, writes, calls;

#define REAL(type, name, ...) ((type (*)(__VA_ARGS__))dlsym(RTLD_NEXT, name))

__attribute__((destructor)) static void tell(void) {
    const char *name = getenv("REFUSE_COUNTS");
    FILE *file = name ? fopen(name, "w") : 0;
    if (file) { fprintf(file, "%ld %ld %ld %ld", allocations, reads, writes, calls); fclose(file); }
}

/* A program with threads ends so. */
__attribute__((noreturn)) void _exit(int status) {
    static void (*real)(int);
    if (!real) real = REAL(void, "_exit", int);
    tell();
    real(status);
    __builtin_unreachable();
}
void *malloc(size_t size) {
    static void *(*real)(size_t);
    if (!real) real = REAL(void *, "malloc", size_t);
    if (refused("REFUSE_ALLOCATION", &allocations)) { errno = ENOMEM; return 0; }
    return real(size);
}
void *realloc(void *old, size_t size) {
    static void *(*real)(void *, size_t);
    if (!real) real = REAL(void *, "realloc", void *, size_t);
    if (refused("REFUSE_ALLOCATION", &allocations)) { errno = ENOMEM; return 0; }
    return real(old, size);
}
void *aligned_alloc(size_t alignment, size_t size) {
    static void *(*real)(size_t, size_t);
    if (!real) real = REAL(void *, "aligned_alloc", size_t, size_t);
    if (refused("REFUSE_ALLOCATION", &allocations)) { errno = ENOMEM; return 0; }
    return real(alignment, size);
}
int posix_memalign(void **result, size_t alignment, size_t size) {
    static int (*real)(void **, size_t, size_t);
    if (!real) real = REAL(int, "posix_memalign", void **, size_t, size_t);
    if (refused("REFUSE_ALLOCATION", &allocations)) return ENOMEM;
    return real(result, alignment, size);
}
ssize_t read(int file, void *bytes, size_t count) {
    static ssize_t (*real)(int, void *, size_t);
    if (!real) real = REAL(ssize_t, "read", int, void *, size_t);
    if (file == 0 && refused("REFUSE_READ", &reads)) { errno = EIO; return -1; }
    return real(file, bytes, count);
}
ssize_t write(int file, const void *bytes, size_t count) {
    static ssize_t (*real)(int, const void *, size_t);
    if (!real) real = REAL(ssize_t, "write", int, const void *, size_t);
    if (refused("REFUSE_WRITE", &writes)) { errno = ENOSPC; return -1; }
    return real(file, bytes, count);
}

static int fails(void) { return refused("REFUSE_CALL", &calls) ? (errno = EIO) : 0; }

int open(const char *name, int flags, ...) {
    static int (*real)(const char *, int, mode_t);
    if (!real) real = REAL(int, "open", const char *, int, mode_t);
    if ((!strcmp(name, "zones.store") || !strcmp(name, ".")) && fails()) return -1;
    return real(name, flags, 0666);
}
int fsync(int file) {
    static int (*real)(int);
    if (!real) real = REAL(int, "fsync", int);
    return fails() ? -1 : real(file);
}
int statx(int folder, const char *name, int flags, unsigned mask, struct statx *into) {
    static int (*real)(int, const char *, int, unsigned, struct statx *);
    if (!real) real = REAL(int, "statx", int, const char *, int, unsigned, struct statx *);
    return fails() ? -1 : real(folder, name, flags, mask, into);
}
#define PLACED(name, type) \
    ssize_t name(int file, type bytes, size_t count, off_t at) { \
        static ssize_t (*real)(int, type, size_t, off_t); \
        if (!real) real = REAL(ssize_t, #name, int, type, size_t, off_t); \
        return fails() ? -1 : real(file, bytes, count, at); \
    }
PLACED(pread, void *)
PLACED(pread64, void *)
PLACED(pwrite, const void *)
PLACED(pwrite64, const void *)
"""
ROOT = pathlib.Path(__file__).resolve().parent.parent
EXAMPLES = ROOT / "examples"
# success, an error that the test answers, and a failed assertion
TEST_ENDS = (0, 101, -6)
FAULTS = {
    "ALLOCATION": (9, b"no memory\n"),
    "READ": (4, b"read fault\n"),
    "WRITE": (5, b"write fault\n"),
    "CALL": (6, b"disk fault\n"),
}


# One session makes a zone, and brings it up and down.
LIVE = b"""Y link net0
S 1 zonecfg -z web create -b; set zonepath=/zones/web; set brand=ipkg
S 1 zoneadm -z web install
S 1 zoneadm -z web boot
S 1 zlogin web ps
S 1 zoneadm -z web halt
S 1 zoneadm list -cp
"""


class Run:
    """What a run of the program ended with, and what it left in its folder."""

    def __init__(self, program, command, data, environment):
        with own_folder() as folder:
            done = subprocess.run([program, *command.split()], input=data, capture_output=True, timeout=60, cwd=folder,
                                  env=dict(os.environ, **environment))
            self.end, self.store = (done.returncode, done.stdout, done.stderr), image(folder)


def counted(counts):
    """How many calls of each kind the last run with REFUSE_COUNTS made."""
    return [int(count) for count in pathlib.Path(counts).read_text().split()]


def fault_of_live(whole, run):
    """What is wrong with what `live` wrote and stored where a call was refused, or None."""
    text, kept, all_kept = run.end[1], bodies(run.store), bodies(whole.store)
    if not whole.end[1].startswith(text) or kept != all_kept[:len(kept)]:
        return "it wrote %r, and %r on the disk" % (text, kept)
    entries = text[:text.rfind(b"\n> ") + 1]
    stored = answers_of(LIVE, entries)[1]
    return None if stored == kept[:len(stored)] else "records are missing of %r" % entries


def fault_of(kind, command, told, whole, run):
    """What is wrong with a run in which a call was refused, or None."""
    status, line = FAULTS[kind]
    if (run.end[0], run.end[2]) != (status, line):
        return "it ended with %r" % (run.end,)
    if command == "live":
        return fault_of_live(whole, run)
    if command == "trace":
        return told.differs(run.end[1], bodies(run.store), 0 if kind == "READ" else 1)
    if command.startswith("bulk") and run.end[1] == b"":
        kept = bodies(run.store)
        return None if kept == bodies(whole.store)[:len(kept)] else "other records are left"
    return None if run.end[1] == run.store == b"" else "it wrote %r, and %r on the disk" % (run.end[1], run.store)


def refuse_each(program, shim, command, data, counts):
    """How many calls of each kind a run makes, each of which was refused in a run of its own."""
    whole = Run(program, command, data, {"LD_PRELOAD": shim, "REFUSE_COUNTS": counts})
    assert whole.end[0] in (0, 1), whole.end
    told, made = Told(data) if command == "trace" else None, counted(counts)
    for kind, count in zip(FAULTS, made):
        for number in range(1, count + 1):
            run = Run(program, command, data, {"LD_PRELOAD": shim, "REFUSE_" + kind: str(number)})
            fault = fault_of(kind, command, told, whole, run)
            if run.end != whole.end and fault is not None:
                sys.exit("%s with refused %s %d: %s" % (command, kind, number, fault))
    return made


def refuse_each_of_tests(program, shim, counts):
    """How many allocations the tests of a program make, each of which was refused in a run of its own."""
    listed = subprocess.run([program, "--list"], capture_output=True, text=True, check=True).stdout
    total = 0
    for test in (line.removesuffix(": test") for line in listed.splitlines() if line.endswith(": test")):
        environment = dict(os.environ, LD_PRELOAD=shim, REFUSE_COUNTS=counts)
        subprocess.run([program, test], capture_output=True, timeout=600, env=environment, check=True)
        count = counted(counts)[0]
        for number in range(1, count + 1):
            environment = dict(os.environ, LD_PRELOAD=shim, REFUSE_ALLOCATION=str(number))
            done = subprocess.run([program, test], capture_output=True, timeout=600, env=environment)
            if done.returncode not in TEST_ENDS:
                sys.exit("%s %s with refused allocation %d: status %d" % (program, test, number, done.returncode))
        total += count
    return total


def main():
    args = arguments(__doc__)
    with tempfile.TemporaryDirectory() as folder:
        source, shim, counts = folder + "/refuse.c", folder + "/refuse.so", folder + "/counts"
        pathlib.Path(source).write_text(SHIM)
        subprocess.run(["gcc", "-shared", "-fPIC", "-O1", "-o", shim, source, "-ldl"], check=True)
        for command, name in (("export", "full.zonecfg"), ("trace", "web.trace"), ("trace", "mounts.trace"), ("bulk 2", "web.trace"),
                              ("live", "a session")):
            data = LIVE if command == "live" else (EXAMPLES / name).read_bytes()
            made = refuse_each(pathlib.Path(args.program).resolve(), shim, command, data, counts)
            print("%s of %s: refused %d allocations, %d reads, %d writes and %d calls of the disk, each in a run of its own; "
                  "all ended as stated" % (command, name, *made))
        for program in sorted(ROOT.glob("crates/*/out/*_tests")):
            count = refuse_each_of_tests(str(program), shim, counts)
            print("%s: refused %d allocations, each in a run of its own; all ended as stated" % (program.name, count))


if __name__ == "__main__":
    main()
