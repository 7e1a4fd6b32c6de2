#!/usr/bin/env python3
"""Lets each allocation of the program fail in turn, alone and with all after it: allocations.py [PROGRAM]

Needs a C compiler as `cc`, for a library that stands before the C library's `malloc` and `realloc`. Each run has to
answer as the whole run does, or with want of memory (1) and its line; in the latter case, and in that of another
refusal, nothing may be written to standard output. A line for each main row says how many allocations it makes and how
many were let fail; the last line is 'N found', and the status 1 where N is not 0."""
import os, subprocess, sys, tempfile
from compact import PROGRAM

HERE = os.path.dirname(os.path.abspath(__file__))
EXAMPLES = os.path.join(HERE, "..", "examples")
MOST = 4000  # of a row with more allocations all before this one are tried, and then so many more, evenly

SHIM = r"""
#define _GNU_SOURCE
#include <dlfcn.h>
#include <stdlib.h>
#include <sys/syscall.h>
#include <unistd.h>
static unsigned long count, first, last;
static void *(*next_malloc)(size_t);
static void *(*next_realloc)(void *, size_t);
__attribute__((constructor)) static void begin(void) {
    next_malloc = dlsym(RTLD_NEXT, "malloc");
    next_realloc = dlsym(RTLD_NEXT, "realloc");
    first = strtoul(getenv("FAIL_FIRST"), 0, 10);
    last = strtoul(getenv("FAIL_LAST"), 0, 10);
    count = 0;
}
static int fails(void) { count++; return first <= count && count <= last; }
void *malloc(size_t n) { return next_malloc ? fails() ? 0 : next_malloc(n) : 0; }
void *realloc(void *p, size_t n) { return fails() ? 0 : next_realloc(p, n); }
static void tell(void) {
    char b[24]; int k = 24;
    do b[--k] = '0' + count % 10; while (count /= 10);
    write(3, b + k, 24 - k);
}
/* A program that may have threads ends by _exit, which runs no destructor. */
void _exit(int status) { tell(); syscall(SYS_exit_group, status); __builtin_unreachable(); }
__attribute__((destructor)) static void end(void) { tell(); }
"""

CELL = "sticks 1\ncell t\n%send\ngrid\nrow t\nend\n"
TWO = "joint a metal 0 0\njoint b metal 1 0\n"
FAR = [("b", "c2", 2), ("b", "c3", 3), ("c3", "e4", 4), ("e4", "f5", 5)]  # joints a million u to the right of others
FAR += [("f%d" % (k - 1), "f%d" % k, k) for k in range(6, 11)]
ROWS = [
    # What it shows, the status, the words and the files besides the shipped technology t.
    ("compact an inverter", 0, "compact d --tech t", "inverter.sticks"),
    ("compact two masters in two grids", 0, "compact d --tech t", "library.sticks"),
    ("compact with four passes", 0, "compact d --tech t --passes xyyx --split 2", CELL % TWO),
    ("check an inverter", 0, "check d --tech t", "inverter.cif"),
    ("breaks of an inverter", 0, "breaks d --tech t", "inverter.cif"),
    ("breaks, more than are listed", 0, "breaks d --tech t --most 40",
     "DS 1; L NM; B 900 900 0 0; DF; C 1; %s E" % "".join("C 1 T %d 0;" % (1000 * k) for k in range(60))),
    ("extract an inverter", 0, "extract d --tech t", "inverter.cif"),
    ("extract a grid", 0, "extract d --tech t", "library.cif"),
    ("nets of an inverter", 0, "nets d --tech t", "inverter.sticks"),
    ("nets of two grids", 0, "nets d --tech t", "library.sticks"),
    ("fmt two grids", 0, "fmt d", "library.sticks"),
    ("bench", 0, "bench 2", ""),
    ("slack of two masters in two grids", 0, "slack d --tech t", "library.sticks"),
    ("jogs, one accepted", 0, "jog d --tech t --script s",
     CELL % "joint u metal 0 0\njoint a metal 1 0\njoint b metal 1 1\njoint v metal 2 1\nwire metal a b\n"),
    ("refuse a script", 16, "jog d --tech t --script t", CELL % TWO),
    ("refuse words", 2, "compact d --tech t --passes x", ""),
    ("refuse a missing file", 3, "compact none --tech t", ""),
    ("refuse a long file", 5, "compact --tech d d", "#" * 65537),
    ("refuse a technology", 6, "compact d --tech d", "version = 1\na.b = [1, {c = 2}]\n"),
    ("refuse a line", 7, "compact d --tech t", CELL % "joint a metal 0 0\nwire metal a b\n"),
    ("refuse a grid", 8, "compact d --tech t", "sticks 1\ncell t\nend\ngrid\nrow t\nrow t t\nend\n"),
    ("refuse many items", 9, "compact d --tech t",
     "sticks 1\ncell a\n" + "".join("joint j%d metal %d 0\n" % (k, k) for k in range(256)) + "end\ncell b\n"
     + "".join("use u%d a 0 %d\n" % (k, k) for k in range(256)) + "end\ngrid\nrow b\nend\n"),
    ("refuse many boxes", 9, "check d --tech t", "DS 1; L NI; %s DF; %s E" % ("B 2 2 0 0;" * 1025, "C 1;" * 1024)),
    ("refuse an extent", 9, "compact d --tech t", CELL % (TWO + "".join(
        "joint %s metal %d 0\nlimit x %s %s >= 1000000\n" % (name, k, low, name) for low, name, k in FAR))),
    ("refuse a clash", 10, "compact d --tech t",
     CELL % "joint a metal 0 0\njoint c metal 2 0\njoint b metal 1 0\nwire metal a c\n"),
    ("refuse a cycle", 11, "compact d --tech t", CELL % (TWO + "limit x a b <= 11\n")),
    ("refuse a CIF text", 12, "check d --tech t", "DS 1 75 1; L NM; B 12 12 18 18; DF; C 1 T 0 0; E L"),
    ("refuse a broken rule", 13, "check d --tech t", "DS 1 75 1; L NM; B 12 12 18 18; B 12 12 40 18; DF; C 1 T 0 0; E"),
    ("refuse what does not cross", 14, "extract d --tech t", "L ND; B 1200 1200 0 0; L NP; B 1200 1200 300 0; E"),
]


class Tries:
    """Runs the program with allocations that fail, in a folder of its own."""

    def __init__(self, folder):
        self.shim = os.path.join(folder, "shim.so")
        with open(os.path.join(folder, "shim.c"), "w") as file:
            file.write(SHIM)
        subprocess.run(["cc", "-O1", "-w", "-shared", "-fPIC", "-o", self.shim, os.path.join(folder, "shim.c"),
                        "-ldl"], check=True)
        self.streams = [os.open(os.path.join(folder, name), os.O_RDWR | os.O_CREAT) for name in ("out", "err", "count")]
        self.actions = [(os.POSIX_SPAWN_DUP2, stream, number) for stream, number in zip(self.streams, (1, 2, 3))]

    def run(self, words, first, last):
        """The status, the output, the report, and how many allocations there were."""
        for stream in self.streams:
            os.ftruncate(stream, 0)
            os.lseek(stream, 0, os.SEEK_SET)
        env = {"LD_PRELOAD": self.shim, "FAIL_FIRST": str(first), "FAIL_LAST": str(last)}
        pid = os.posix_spawn(PROGRAM, ["sticks", *words], env, file_actions=self.actions)
        status = os.waitstatus_to_exitcode(os.waitpid(pid, 0)[1])
        out, err, count = (os.pread(stream, os.fstat(stream).st_size, 0) for stream in self.streams)
        return status, out, err, int(count or 0)


def main():
    found, every = 0, 0
    with tempfile.TemporaryDirectory() as folder:
        os.chdir(folder)
        tries = Tries(folder)
        with open(os.path.join(EXAMPLES, "nmos.toml")) as file, open("t", "w") as copy:
            copy.write(file.read())
        with open("s", "w") as file:
            file.write("jog t 0 0 left\njog t 9 0 left\n")
        for name, wanted, words, text in ROWS:
            if os.path.isfile(os.path.join(EXAMPLES, text)):
                with open(os.path.join(EXAMPLES, text)) as file:
                    text = file.read()
            with open("d", "w") as file:
                file.write(text)
            *whole, count = tries.run(words.split(), 0, 0)
            if whole[0] != wanted:
                print("%s: status %d in place of %d" % (name, whole[0], wanted))
                found += 1
                continue
            places = (list(range(1, min(count, MOST) + 1))
                      + list(range(MOST + 1, count + 1, max(1, (count - MOST) // MOST))))
            unchanged = 0
            for place in places:
                for last in (place, 2 ** 62):
                    *answer, _ = tries.run(words.split(), place, last)
                    if answer == whole and last == place:
                        unchanged += 1
                    elif answer != whole and answer != [1, b"", b"sticks: out of memory\n"]:
                        found += 1
                        how, told = "" if last == place else " and all after it", [it[:80] for it in answer[1:]]
                        print("%s, allocation %d%s: %r" % (name, place, how, [answer[0], *told]))
            every += len(places)
            print("%s: status %d, %d allocations, %d let fail, after %d of which alone the answer was unchanged"
                  % (name, wanted, count, len(places), unchanged), flush=True)
    print("%d allocations let fail, each alone and with all after it" % every)
    print("%d found" % found)
    return 1 if found else 0


if __name__ == "__main__":
    if sys.argv[1:2] in (["--help"], ["-h"]):
        print(__doc__.strip())
        sys.exit()
    sys.exit(main())
