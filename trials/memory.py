#!/usr/bin/env python3
"""Refuses each allocation of a command in turn, and looks at the status and at what stands.

    python3 trials/memory.py [--program FILE]

It runs `point t`, `solve t`, `solve t --trace` and `check t` on examples/t, `graver m` on examples/matrix and a trial. A
library that stands before the C library's counts the program's own allocations and refuses the one that is asked for;
it is built with `cc`. Where one is refused the status has to be 7 with the line `memory`, or 8 while the words are read,
and nothing is printed; of the file that `solve` stores there stands what was before, or a first part of the certificate.
The commands are run until nothing is refused any more. What is otherwise is printed, and the status is 1 where anything
is. The gate does not run it.
"""
import argparse
import os
import shutil
import subprocess
import sys
import tempfile

ROOT = os.path.dirname(os.path.dirname(os.path.abspath(__file__)))
COMMANDS = [
    ("t", "point t"),
    ("t", "solve t"),
    ("t", "solve t --trace"),
    ("t", "check t"),
    ("matrix", "graver m"),
    ("matrix", "trial 7 5"),
]
SHIM = """
#define _GNU_SOURCE
#include <dlfcn.h>
#include <errno.h>
#include <stdlib.h>
static long left = -1;
static int refused(void) {
    if (left < 0) left = atol(getenv("REFUSED"));
    return left > 0 && --left == 0;
}
#define REAL(name) static __typeof__(&name) real; if (!real) real = (__typeof__(&name))dlsym(RTLD_NEXT, #name)
#define OR_NONE(call) if (refused()) { errno = ENOMEM; return 0; } return call
void *malloc(size_t n) { REAL(malloc); OR_NONE(real(n)); }
void *calloc(size_t k, size_t n) { REAL(calloc); OR_NONE(real(k, n)); }
void *realloc(void *p, size_t n) { REAL(realloc); OR_NONE(real(p, n)); }
void *aligned_alloc(size_t a, size_t n) { REAL(aligned_alloc); OR_NONE(real(a, n)); }
int posix_memalign(void **p, size_t a, size_t n) { REAL(posix_memalign); return refused() ? ENOMEM : real(p, a, n); }
"""


def built(folder):
    source, library = os.path.join(folder, "refuse.c"), os.path.join(folder, "refuse.so")
    with open(source, "w", encoding="ascii") as file:
        file.write(SHIM)
    subprocess.run(["cc", "-shared", "-fPIC", "-O1", "-o", library, source, "-ldl"], check=True)
    return library


def run(binary, library, folder, line, refused):
    environment = {**os.environ, "LD_PRELOAD": library, "REFUSED": str(refused)}
    done = subprocess.run([binary, *line.split()], cwd=folder, env=environment, capture_output=True, check=False)
    return done.returncode, done.stdout, done.stderr


def content(folder):
    """The certificate, where there is one, and all other files."""
    held = {}
    for name in sorted(os.listdir(folder)):
        if os.path.isfile(os.path.join(folder, name)):
            with open(os.path.join(folder, name), "rb") as file:
                held[name] = file.read()
    return held.pop("t.cert", None), held


def tried(binary, library, example, line):
    """How many allocations were refused, and how many of them were answered otherwise."""
    with tempfile.TemporaryDirectory() as copies:
        folder = shutil.copytree(os.path.join(ROOT, "examples", example), os.path.join(copies, example))
        before, others = content(folder)
        whole = run(binary, library, folder, line, 0)
        after, _ = content(folder)
        bad, number = int(whole[0] != 0), 0
        while True:
            number += 1
            if before is not None:
                with open(os.path.join(folder, "t.cert"), "wb") as file:
                    file.write(before)
            got = run(binary, library, folder, line, number)
            left, rest = content(folder)
            if got == whole and left == after:
                return number - 1, bad
            kept = left == before or (before != after and left is not None and after.startswith(left))
            if got not in ((7, b"", b"memory\n"), (8, b"", b"")) or not kept or rest != others:
                bad += 1
                print(f"{line}, allocation {number}: {got}, certificate {'kept' if kept else left}")


def main():
    parser = argparse.ArgumentParser(description="Refuses each allocation of nfold in turn.")
    parser.add_argument("--program", default=os.path.join(ROOT, "crates", "nfold", "out", "nfold"))
    binary, bad = os.path.abspath(parser.parse_args().program), 0
    with tempfile.TemporaryDirectory() as folder:
        library = built(folder)
        for example, line in COMMANDS:
            count, differ = tried(binary, library, example, line)
            print(f"{line}: {count} allocations, {differ} answered otherwise")
            bad += differ
    return 1 if bad else 0


if __name__ == "__main__":
    sys.exit(main())
