#!/usr/bin/env python3
"""Makes each allocation of the program fail in turn, by a library that is loaded before the C library's `malloc`.

Each run must answer as the run in which just one line is answered `no memory`, or it ends with status 5, before anything was written. It takes some
seconds, and is skipped where there is no C compiler.
"""
import os
import pathlib
import shutil
import subprocess
import sys
import tempfile

from tally import Tally

TOP = pathlib.Path(__file__).resolve().parent.parent
PROGRAM = TOP / "crates/evm_tool/out/evm_tool"

LIBRARY = r"""
#define _GNU_SOURCE
#include <dlfcn.h>
#include <errno.h>
#include <stdio.h>
#include <stdlib.h>

static long calls = -1, failing = -1;

__attribute__((constructor)) static void begin(void) {
    const char *number = getenv("FAILING_ALLOCATION");
    failing = number ? atol(number) : -1;
    calls = 0;
}

__attribute__((destructor)) static void end(void) {
    const char *path = getenv("COUNT_OF_ALLOCATIONS");
    long made = calls;
    calls = -1;
    FILE *file = path ? fopen(path, "w") : 0;
    if (file) { fprintf(file, "%ld", made); fclose(file); }
}

static int fails(void) { return calls >= 0 && calls++ == failing; }

extern void *__libc_malloc(size_t), *__libc_calloc(size_t, size_t), *__libc_realloc(void *, size_t), *__libc_memalign(size_t, size_t);

void *malloc(size_t size) { return fails() ? 0 : __libc_malloc(size); }
void *calloc(size_t count, size_t size) { return fails() ? 0 : __libc_calloc(count, size); }
void *realloc(void *old, size_t size) { return fails() ? 0 : __libc_realloc(old, size); }
void *aligned_alloc(size_t align, size_t size) { return fails() ? 0 : __libc_memalign(align, size); }
int posix_memalign(void **made, size_t align, size_t size) {
    if (fails()) return ENOMEM;
    *made = __libc_memalign(align, size);
    return *made ? 0 : ENOMEM;
}
"""

SCRIPTS = [
    ["input a 2", "toggle a 0 0 2 3", "show a"],
    ["input a 2", "add a 0 0 2 2", "input b 2", "add b 1 1 3 3", "def c and a b", "cut b 1 1 2 2", "content c", "list"],
    ["input a 2", "add a 0 0 2 1", "save a evm f", "cut a 0 0 1 1", "load a evm f", "boundary a", "load a evm g"],
    ["input a 3", "add a 0 0 0 1 1 1", "add a 0 0 5 1 1 6", "def l mirror a 1", "project a 3", "section a 3 5", "point l 0 0 0"],
    ["input a 2", "# note", "", "add zz 0 0 1 1", "add a 0 0 1", "fly", "def s shift a 5 0", "def s shift s 1 0", "drop s", "drop a", "list"],
]


def run(lines, folder, library=None, failing=None) -> tuple[int, str, int]:
    """The exit status, what was written, and how many allocations were made."""
    with tempfile.TemporaryDirectory(dir=folder) as here:
        environment = dict(os.environ)
        counts = pathlib.Path(here) / "count.txt"
        if library:
            environment |= {"LD_PRELOAD": str(library), "COUNT_OF_ALLOCATIONS": str(counts)}
            if failing is not None:
                environment["FAILING_ALLOCATION"] = str(failing)
        script = "".join(line + "\n" for line in lines)
        done = subprocess.run([str(PROGRAM), "run"], input=script, text=True, capture_output=True, cwd=here, env=environment)
        return done.returncode, done.stdout, int(counts.read_text()) if counts.exists() else 0


def with_one_missing(lines, folder):
    """What is written where just one line is answered `no memory`, for each of them."""
    for at in range(len(lines)):
        before = run(lines[:at], folder)[1]
        without = run(lines[:at] + lines[at + 1 :], folder)[1]
        yield before + "no memory\n" + without[len(before) :]


def main() -> int:
    compiler = shutil.which("cc") or shutil.which("gcc") or shutil.which("clang")
    if not compiler:
        print("failing_allocations: skipped, there is no C compiler")
        return 0
    subprocess.run([str(TOP / "evm"), "run"], stdin=subprocess.DEVNULL, check=True)
    tally = Tally("failing allocations")
    with tempfile.TemporaryDirectory() as folder:
        source, library = pathlib.Path(folder) / "failing.c", pathlib.Path(folder) / "failing.so"
        source.write_text(LIBRARY)
        subprocess.run([compiler, "-shared", "-fPIC", "-O1", "-o", str(library), str(source)], check=True)
        for number, lines in enumerate(SCRIPTS, 1):
            status, whole, count = run(lines, folder, library)
            tally.count(count > 0, f"script {number}: no allocation was seen")
            allowed = [whole, *with_one_missing(lines, folder)]
            for failing in range(count):
                end, written, _ = run(lines, folder, library, failing)
                good = (end == 5 and written == "") or (written in allowed and end == int("no " in written))
                tally.count(good, f"script {number}, allocation {failing}: status {end}, and\n{written}")
    return tally.status()


if __name__ == "__main__":
    sys.exit(main())
