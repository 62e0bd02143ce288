#!/usr/bin/env python3
"""Refuses each allocation of a run in turn, from outside, once `main` has begun: refused_memory.py [PROGRAM]

`explain`, `check`, `solve` and `make` run on the examples with an allocator that is loaded before the C library, and
that refuses the allocation of one number. A run has to end with status 7 or 6 and say nothing on standard output, or
with the status and the text of the run in which nothing is refused; notes on standard error do not count. Prints how many runs it made of each command, and how they ended;
fails at the first that ended otherwise. It wants gcc. The program is the one that `./roster`
would run, or the one that is named.
"""
import collections
import os
import pathlib
import shutil
import subprocess
import sys
import tempfile

sys.dont_write_bytecode = True
from built import program_path

TOP = pathlib.Path(__file__).resolve().parent.parent
SECONDS = 60
# Each run, after which the texts that it stored are there for the next.
RUNS = [
    ["explain", "g1.rules", ".aa."],
    ["solve", "g1.rules", "g1.demand", "g1.proof", "10"],
    ["check", "g1.rules", "g1.demand", "g1.proof"],
    ["make", "7", "made.proof", "1"],
]
ALLOCATOR = r"""
#define _GNU_SOURCE
#include <dlfcn.h>
#include <errno.h>
#include <fcntl.h>
#include <stddef.h>
#include <stdlib.h>
#include <unistd.h>

extern void *__libc_malloc(size_t);
extern void *__libc_calloc(size_t, size_t);
extern void *__libc_realloc(void *, size_t);
extern void *__libc_memalign(size_t, size_t);

typedef int (*entry)(int, char **, char **);

static entry program;
static int has_begun;
static long made, refused;

/* Whether this allocation is to be refused; a file then says that it was. */
static int is_refused(void) {
    if (!has_begun || ++made != refused)
        return 0;
    const char *mark = getenv("REFUSED_MARK");
    if (mark != NULL)
        close(open(mark, O_CREAT | O_WRONLY, 0600));
    errno = ENOMEM;
    return 1;
}

void *malloc(size_t size) { return is_refused() ? NULL : __libc_malloc(size); }

void *calloc(size_t count, size_t size) { return is_refused() ? NULL : __libc_calloc(count, size); }

void *realloc(void *at, size_t size) { return is_refused() ? NULL : __libc_realloc(at, size); }

void *memalign(size_t align, size_t size) { return is_refused() ? NULL : __libc_memalign(align, size); }

void *aligned_alloc(size_t align, size_t size) { return memalign(align, size); }

int posix_memalign(void **at, size_t align, size_t size) {
    void *given = memalign(align, size);
    if (given == NULL)
        return ENOMEM;
    *at = given;
    return 0;
}

static int begin(int count, char **words, char **environment) {
    const char *number = getenv("REFUSED_ALLOCATION");
    refused = number == NULL ? 0 : atol(number);
    has_begun = 1;
    int status = program(count, words, environment);
    has_begun = 0;
    return status;
}

int __libc_start_main(entry main, int count, char **words, void (*init)(void), void (*fini)(void),
                      void (*end)(void), void *stack) {
    int (*start)(entry, int, char **, void (*)(void), void (*)(void), void (*)(void), void *) =
        dlsym(RTLD_NEXT, "__libc_start_main");
    program = main;
    return start(begin, count, words, init, fini, end, stack);
}
"""


def allocator(folder):
    """The library, compiled into a folder."""
    source, library = folder / "allocator.c", folder / "allocator.so"
    source.write_text(ALLOCATOR)
    subprocess.run(["gcc", "-O1", "-shared", "-fPIC", "-fno-builtin", "-o", library, source, "-ldl"], check=True)
    return library


def texts(folder):
    """A folder with the texts of the examples."""
    folder.mkdir()
    for name in ("g1.rules", "g1.demand"):
        shutil.copy(TOP / "examples" / name, folder / name)
    return folder


def ran(program, words, folder, library=None, number=0):
    """How a run ended, what it said on standard output, and whether an allocation was refused."""
    mark = folder.parent / "refused"
    mark.unlink(missing_ok=True)
    environment = dict(os.environ)
    if library is not None:
        environment |= {"LD_PRELOAD": str(library), "REFUSED_ALLOCATION": str(number), "REFUSED_MARK": str(mark)}
    run = subprocess.run([program, *words], cwd=folder, env=environment, capture_output=True, timeout=SECONDS)
    return (run.returncode, run.stdout), mark.exists()


def refuse_each(program, words, folder, library):
    """How often the runs ended with each status, an allocation of each being refused."""
    whole, _ = ran(program, words, folder)
    ends, number = collections.Counter(), 1
    while True:
        end, was_refused = ran(program, words, folder, library, number)
        if not was_refused:
            if end != whole:
                sys.exit(f"{' '.join(words)}: with nothing refused {end}, and without the allocator {whole}")
            return ends
        if end != whole and not (end[0] in (6, 7) and end[1] == b""):
            sys.exit(f"{' '.join(words)}: allocation {number} refused: {end}")
        ends["the answer" if end == whole else f"status {end[0]}"] += 1
        number += 1


def main():
    program = program_path(given=sys.argv[1] if len(sys.argv) > 1 else None)
    total = 0
    with tempfile.TemporaryDirectory() as name:
        room = pathlib.Path(name)
        library, folder = allocator(room), texts(room / "texts")
        for words in RUNS:
            ends = refuse_each(program, words, folder, library)
            total += sum(ends.values())
            print(f"{' '.join(words)}: {sum(ends.values())} runs: " +
                  ", ".join(f"{count} {end}" for end, count in sorted(ends.items())), flush=True)
    print(f"{total} runs")


if __name__ == "__main__":
    main()
