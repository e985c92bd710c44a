#!/usr/bin/env python3
"""Refuses each allocation of the built program in turn.

tools/refused.py [PROGRAM [COMMAND]] counts the allocations of each command on a small index, and then runs it once for
each of them, with that one refused. Each run has to end as memory that runs out ends it: status 6 and the line
`memory`, nothing printed and OUT as before; or with its own status and all of its own result, where the memory isn't
needed for it. The real host takes memory for the name of each file that it opens, and tells a read or a write that
failed where it is refused: once for each file, and no more, where one thread works. A C compiler makes the library
that refuses, which the system puts between the program and its own library; without one nothing is run. With a
COMMAND that command alone is run. The last line is 'refused: N runs, M bad'. It is no part of the gate.
"""
import os
import shutil
import subprocess
import sys
import tempfile

TOP = os.path.dirname(os.path.dirname(os.path.abspath(__file__)))
REFUSING = r"""
#define _GNU_SOURCE
#include <dlfcn.h>
#include <errno.h>
#include <fcntl.h>
#include <stdatomic.h>
#include <stdlib.h>
#include <sys/mman.h>

static atomic_ulong none, *asked = &none;
static unsigned long refused;

/* The count stands in a file, since the program may end without a word to this library. */
__attribute__((constructor)) static void begin(void) {
    const char *number = getenv("REFUSED"), *name = getenv("ASKED");
    int file = name ? open(name, O_RDWR) : -1;
    void *place = file < 0 ? MAP_FAILED : mmap(0, sizeof *asked, PROT_READ | PROT_WRITE, MAP_SHARED, file, 0);
    if (place != MAP_FAILED) asked = place;
    refused = number ? strtoul(number, 0, 10) : 0;
}

static int refuses(void) {
    if (atomic_fetch_add(asked, 1) + 1 != refused) return 0;
    errno = ENOMEM;
    return 1;
}

void *malloc(size_t size) {
    static void *(*real)(size_t);
    if (!real) real = dlsym(RTLD_NEXT, "malloc");
    return refuses() ? 0 : real(size);
}

void *realloc(void *block, size_t size) {
    static void *(*real)(void *, size_t);
    if (!real) real = dlsym(RTLD_NEXT, "realloc");
    return refuses() ? 0 : real(block, size);
}

int posix_memalign(void **block, size_t align, size_t size) {
    static int (*real)(void **, size_t, size_t);
    if (!real) real = dlsym(RTLD_NEXT, "posix_memalign");
    return refuses() ? ENOMEM : real(block, align, size);
}

void *aligned_alloc(size_t align, size_t size) {
    static void *(*real)(size_t, size_t);
    if (!real) real = dlsym(RTLD_NEXT, "aligned_alloc");
    return refuses() ? 0 : real(align, size);
}
"""
# Two lists over six documents, and one list over one, as they stand in tools/program.sh and the rows of the gate.
SIX = bytes.fromhex(
    """
    06 08 01 10 02 18 06
    17 0a 01 61 10 03 18 03 22 02 10 01 22 04 08 01 10 01 22 04 08 02 10 01
    19 0a 01 62 10 03 18 03 22 04 08 02 10 01 22 04 08 02 10 01 22 04 08 01 10 01
    06 12 02 64 30 18 01
    08 08 01 12 02 64 31 18 01
    08 08 02 12 02 64 32 18 01
    08 08 03 12 02 64 33 18 01
    08 08 04 12 02 64 34 18 01
    08 08 05 12 02 64 35 18 01
    """
)
ONE = bytes.fromhex("06 08 01 10 01 18 01 0b 0a 01 61 10 01 18 02 22 02 10 02 05 12 01 78 18 02")
QUERIES = b"a AND NOT b\nNOT a\nzzz OR (b AND \"AND\")\n"
# Each command, and how many files it opens to read and to write.
COMMANDS = [
    ("copy one out", 1, 1),
    ("copy six out", 1, 1),
    ("report six", 1, 0),
    ("report six --workers 4", 1, 0),
    ("reorder six out --depth 1 --leaf 1", 1, 1),
    ("reorder six out --depth 2 --leaf 1 --workers 4 --step 1", 1, 1),
    ("reorder six out --depth 2 --leaf 1 --start name --min-df 2", 1, 1),
    ("query six queries", 2, 0),
    ("make 3 out", 0, 1),
    ("make 3 out --workers 4 --start name", 0, 1),
    ("live six out queries --depth 2 --leaf 1 --step 1", 2, 1),
    ("live six out queries --depth 2 --leaf 1 --step 1 --workers 4 --readers 3 --start name", 2, 1),
]


def run(program, words, work, library, refused):
    """The status, both outputs and OUT of a run in which the allocation of this number is refused (0: none)."""
    with open(os.path.join(work, "out"), "wb") as file:
        file.write(b"before")
    told = os.path.join(work, "asked")
    with open(told, "wb") as file:
        file.write(bytes(8))
    environment = dict(os.environ, LD_PRELOAD=library, REFUSED=str(refused), ASKED=told)
    ended = subprocess.run([program] + words, cwd=work, env=environment, capture_output=True, timeout=120)
    with open(os.path.join(work, "out"), "rb") as file:
        left = file.read()
    with open(told, "rb") as file:
        asked = int.from_bytes(file.read(), sys.byteorder)
    return (ended.returncode, ended.stdout, ended.stderr, left), asked


def is_live_text(printed, whole):
    """Whether two texts differ in the versions of live blocks and what they show alone."""
    first = lambda text: text.split(b"\nlive ")[0]
    last = lambda text: text.split(b"\nfinal ", 1)[-1]
    return first(printed) == first(whole) and last(printed) == last(whole)


def is_good(words, found, whole):
    """Whether the run ended as it may."""
    nothing_done = (found[1], found[3]) == (b"", b"before")
    if nothing_done and (found[0], found[2]) in ((6, b"memory\n"), (4, b"read fault\n"), (5, b"write fault\n")):
        return True
    if found == whole:
        return True
    if words[0] != "live" or (found[0], found[2:]) != (whole[0], whole[2:]):
        return False
    return is_live_text(found[1], whole[1])


def main():
    program = os.path.abspath(sys.argv[1] if len(sys.argv) > 1 else os.path.join(TOP, "crates/rgb/out/rgb"))
    compiler = shutil.which("cc") or shutil.which("gcc")
    if not compiler:
        print("refused: 0 runs, 0 bad (there is no C compiler)")
        return
    work = tempfile.mkdtemp()
    library = os.path.join(work, "refusing.so")
    subprocess.run([compiler, "-shared", "-fPIC", "-O1", "-o", library, "-x", "c", "-", "-ldl"],
                   input=REFUSING.encode(), check=True)
    for name, data in (("one", ONE), ("six", SIX), ("queries", QUERIES)):
        with open(os.path.join(work, name), "wb") as file:
            file.write(data)
    runs, bad = 0, 0
    for line, read, written in COMMANDS:
        words = line.split()
        if len(sys.argv) > 2 and words[0] != sys.argv[2]:
            continue
        whole, asked = run(program, words, work, library, 0)
        if whole[0] == 2:
            continue
        ends = {}
        for number in range(1, asked + 1):
            found, _ = run(program, words, work, library, number)
            runs += 1
            ends[found[0]] = ends.get(found[0], 0) + 1
            if not is_good(words, found, whole):
                bad += 1
                print(f"{line}: allocation {number} of {asked} refused: {found}")
        # Where threads allocate, one number may stand for different allocations in different runs.
        alone = "--workers" not in words and words[0] != "live"
        if alone and (ends.get(4, 0), ends.get(5, 0)) != (read, written):
            bad += 1
            print(f"{line}: a read or a write failed for another reason than a name")
        print(f"{line}: {asked} allocations; statuses and how often they came: {ends}", flush=True)
    shutil.rmtree(work)
    print(f"refused: {runs} runs, {bad} bad")
    sys.exit(1 if bad else 0)


main()
