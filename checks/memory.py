#!/usr/bin/env python3
"""memory.py [--jobs N] [--seconds N] [--only PATTERN]

Runs the proved programs, which ./build makes, and lets their allocations fail: in one run the first, in the next the second,
and so on to the last; once only that allocation, and once that one and all after it. Each run must end with status 9, its
line and no output, or with the right status and the right bytes. A few lines of C replace the C library's functions for
memory; `cc` compiles them into a temporary folder.

For each of the runs below it prints the number of allocations, how many trials ran out of memory, and what was wrong. The
exit status is 0 only if nothing was wrong, and if each kind of trial ran out of memory at least once.
"""
import argparse
import fnmatch
import os
import struct
import subprocess
import sys
import tempfile
from concurrent.futures import ThreadPoolExecutor

sys.dont_write_bytecode = True
import cases

PROVED, PROVED_STUDY = (os.path.join(cases.TOP, "crates", name, "out", name) for name in ("alphamu", "alphamu_study"))
NO_MEMORY = b"", b"alphamu: out of memory\n", 9
# The case of each run, and the words that are added to it.
RUNS = {
    "solve": ("queen-two-ways", ()),
    "solve with workers": ("queen-two-ways", ("--workers", "4")),
    "solve without table": ("queen-two-ways", ("--no-table",)),
    "solve without cuts": ("queen-two-ways", ("--no-cuts",)),
    "solve with a table of one entry": ("queen-two-ways", ("--shards", "1", "--room", "1")),
    "card": ("card", ()),
    "match": ("match-won", ()),
    "match with a third defender": ("match-third-defender", ()),
    "check": ("check-a-good-report", ()),
    "list": ("list-of-an-ending", ()),
    "fusion": ("fusion", ()),
    "solve with weights": ("weights-turn-the-order", ()),
    "check with weights": ("weights-check", ()),
    "prove": ("prove-two-moves", ()),
    "audit": ("audit-two-moves", ()),
    "boards": ("boards", ()),
    "made": ("made-of-0", ()),
    "made with workers": ("made-of-2-with-workers", ()),
    "cards": ("study/cards-queen-two-ways", ()),
    "cards with weights": ("study/cards-restricted-choice", ("--no-cuts", "--no-table")),
    "words": ("study/words-queen-two-ways", ()),
    "lines": ("study/lines-queen-two-ways", ()),
    "review of all games": ("study/review-games", ("--workers", "2")),
}
SHIM = r"""
#include <errno.h>
#include <fcntl.h>
#include <stdatomic.h>
#include <stddef.h>
#include <stdlib.h>
#include <sys/mman.h>
#include <unistd.h>

void *__libc_malloc(size_t), *__libc_calloc(size_t, size_t), *__libc_realloc(void *, size_t), *__libc_memalign(size_t, size_t);

// The number of allocations so far, in a file that the caller reads after the end.
static atomic_ulong *asked;
static unsigned long first, last;

__attribute__((constructor)) static void begin(void) {
    int file = open(getenv("REFUSED_COUNT"), O_RDWR);
    void *place = mmap(NULL, sizeof *asked, PROT_READ | PROT_WRITE, MAP_SHARED, file, 0);
    if (place == MAP_FAILED) _exit(99);
    close(file);
    first = strtoul(getenv("REFUSED_FIRST"), NULL, 10);
    last = strtoul(getenv("REFUSED_LAST"), NULL, 10);
    asked = place;
}

static int is_refused(void) {
    if (!asked) return 0;
    unsigned long number = atomic_fetch_add(asked, 1) + 1;
    if (number < first || last < number) return 0;
    errno = ENOMEM;
    return 1;
}

void *malloc(size_t size) { return is_refused() ? NULL : __libc_malloc(size); }
void *calloc(size_t count, size_t size) { return is_refused() ? NULL : __libc_calloc(count, size); }
void *realloc(void *old, size_t size) { return is_refused() ? NULL : __libc_realloc(old, size); }
void *memalign(size_t line, size_t size) { return is_refused() ? NULL : __libc_memalign(line, size); }
void *aligned_alloc(size_t line, size_t size) { return is_refused() ? NULL : __libc_memalign(line, size); }
int posix_memalign(void **place, size_t line, size_t size) {
    if (is_refused()) return ENOMEM;
    return (*place = __libc_memalign(line, size)) ? 0 : ENOMEM;
}
"""


def compile_shim(room):
    source, shim = os.path.join(room, "shim.c"), os.path.join(room, "shim.so")
    with open(source, "w", encoding="ascii") as file:
        file.write(SHIM)
    subprocess.run(["cc", "-O1", "-fPIC", "-shared", "-o", shim, source], check=True)
    return shim


def run(shim, name, first, last, seconds):
    """The outcome of a run in which the allocations with these numbers fail, and how many there were."""
    case, more = RUNS[name]
    with tempfile.NamedTemporaryFile() as count:
        count.write(bytes(8))
        count.flush()
        env = {**os.environ, "LD_PRELOAD": shim, "REFUSED_COUNT": count.name, "REFUSED_FIRST": str(first),
               "REFUSED_LAST": str(last)}
        program = PROVED_STUDY if case.startswith(cases.OF_STUDY + "/") else PROVED
        found = cases.run(program, case, seconds, env, [word.encode() for word in more])
        count.seek(0)
        return found, struct.unpack("=Q", count.read(8))[0]


def judge(shim, name, given, pool):
    """The line about a run, and what was wrong."""
    right = cases.expected(RUNS[name][0])
    found, count = run(shim, name, 0, 0, given.seconds)
    told = [] if found == right else [f"with all memory: {found!r}"]
    ended = {}
    for kind, reach in (("alone", 0), ("with all that follow", 1 << 62)):
        def trial(number, reach=reach):
            try:
                return run(shim, name, number, number + reach, given.seconds)[0]
            except subprocess.TimeoutExpired:
                return "no end"
        tried = range(1, count + 1)
        came = list(pool.map(trial, tried))
        told += [f"allocation {number} {kind}: {it!r}" for number, it in zip(tried, came) if it not in (right, NO_MEMORY)]
        ended[kind] = came.count(NO_MEMORY)
        if not ended[kind]:
            told.append(f"no trial {kind} was out of memory")
    counts = ", ".join(f"{number} times {kind}" for kind, number in ended.items())
    return f"{name}: {count} allocations; out of memory {counts}", told


def main():
    parser = argparse.ArgumentParser(description="Lets each of alphamu's allocations fail in turn.", allow_abbrev=False)
    parser.add_argument("--jobs", type=int, default=len(os.sched_getaffinity(0)))
    parser.add_argument("--seconds", type=float, default=120)
    parser.add_argument("--only", default="*", metavar="PATTERN")
    given = parser.parse_args()
    lacking = cases.lacks_proved()
    if lacking:
        print(f"memory: {lacking}")
        return 1
    chosen, wrong = fnmatch.filter(RUNS, given.only), 0
    with tempfile.TemporaryDirectory() as room, ThreadPoolExecutor(given.jobs) as pool:
        shim = compile_shim(room)
        for name in chosen:
            line, told = judge(shim, name, given, pool)
            print(line, *("    " + it for it in told), sep="\n")
            wrong += len(told)
    print(f"memory: {len(chosen)} runs, {wrong} wrong")
    return 0 if chosen and not wrong else 1


if __name__ == "__main__":
    sys.exit(main())
