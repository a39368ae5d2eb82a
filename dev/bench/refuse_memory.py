#!/usr/bin/env python3
"""Runs a job once for each allocation that the program makes, and refuses that one. Each run has to end with the job's own status and
listing, or with status 28 and a prefix of that listing, which STOP 28 MEMORY may end. With LISTING the program is mps360check, of which the
same is asked of its one line.
usage: refuse_memory.py PROGRAM JOB [LISTING]. It wants a C compiler, for an allocator that is loaded before the C library's."""
import os
import pathlib
import shutil
import subprocess
import sys
import tempfile

ALLOCATOR = r"""
#define _GNU_SOURCE
#include <dlfcn.h>
#include <errno.h>
#include <stdio.h>
#include <stdlib.h>

static unsigned long calls, refused;

static int is_refused(void) {
    if (++calls != refused) return 0;
    errno = ENOMEM;
    return 1;
}

void *malloc(size_t size) {
    static void *(*given)(size_t);
    if (!given) given = (void *(*)(size_t))dlsym(RTLD_NEXT, "malloc");
    return is_refused() ? NULL : given(size);
}

void *realloc(void *place, size_t size) {
    static void *(*given)(void *, size_t);
    if (!given) given = (void *(*)(void *, size_t))dlsym(RTLD_NEXT, "realloc");
    return is_refused() ? NULL : given(place, size);
}

__attribute__((constructor)) static void begin(void) { refused = strtoul(getenv("REFUSED"), 0, 10); calls = 0; }

__attribute__((destructor)) static void end(void) {
    FILE *told = fopen(getenv("TOLD"), "w");
    if (told) { fprintf(told, "%lu", calls); fclose(told); }
}
"""

if len(sys.argv) not in (3, 4):
    print(__doc__)
    sys.exit(0 if sys.argv[1:] in (["-h"], ["--help"]) else 64)
program, job = os.path.abspath(sys.argv[1]), pathlib.Path(sys.argv[2]).read_bytes()
with tempfile.TemporaryDirectory() as folder:
    for other in sys.argv[3:]:
        shutil.copyfile(other, f"{folder}/LISTING")
    made, told = f"{folder}/allocator.so", f"{folder}/told"
    subprocess.run(["cc", "-x", "c", "-", "-shared", "-fPIC", "-O1", "-ldl", "-o", made], input=ALLOCATOR.encode(), check=True)

    def run(refused: int) -> tuple[int, bytes, int]:
        "the status, the listing and the number of allocations of a run that is refused one of them"
        words = {**os.environ, "LD_PRELOAD": made, "REFUSED": str(refused), "TOLD": told}
        ended = subprocess.run([program], input=job, stdout=subprocess.PIPE, env=words, cwd=folder)
        return ended.returncode, ended.stdout, int(pathlib.Path(told).read_text())

    status, listing, count = run(0)
    wrong = cut = 0
    for number in range(1, count + 1):
        ended, printed, _ = run(number)
        prefix = printed.removesuffix(b"STOP 28 MEMORY\n")
        is_cut = ended == 28 and listing.startswith(prefix)
        cut += is_cut
        if not is_cut and (ended, printed) != (status, listing):
            wrong += 1
            print(f"allocation {number}: status {ended}, {len(printed)} bytes printed", file=sys.stderr)
    print(f"{count} allocations: {cut} refused with status 28, {count - cut - wrong} with the job's own answer, {wrong} with another")
    sys.exit(1 if wrong or not count else 0)
