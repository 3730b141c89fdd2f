#!/usr/bin/env python3
"""Runs scripts through the built program with memory refused once: allocation 1, then allocation 2, and so on.

  bench/refused_memory.py [--step N] [SCRIPT..]      the scripts of examples/ where none is named; --step N: each Nth allocation

Each run has to end with status 6 and nothing written, or to print what the run undisturbed prints, or one line
`refused 1 Memory` more. Up to that line it prints the same, and what follows is what the script without some statement
prints there, but for the visits that `stats` counts, which a refused `next` may have raised. Where rows came before the
refusal, a `next` has moved its cursor, and what follows is not compared. A line a script tells how many runs ended in
each way; a run that did none of these is told and fails the whole. It needs a C compiler, `cc`.
"""
import argparse
import collections
import glob
import os
import subprocess
import sys
import tempfile

HERE = os.path.dirname(os.path.abspath(__file__))
TOP = os.path.dirname(HERE)
PROGRAM = os.environ.get("SAND", os.path.join(TOP, "crates", "sand_shell", "out", "sand_shell"))
REFUSED = "refused 1 Memory"

# malloc and realloc that answer nothing at one call of the program's own code, and count these calls
REFUSING = r"""
#define _GNU_SOURCE
#include <dlfcn.h>
#include <stdlib.h>
#include <unistd.h>
#include <stdio.h>
static unsigned long calls, fails;
static void *(*own_malloc)(size_t);
static void *(*own_realloc)(void *, size_t);
__attribute__((constructor)) static void begin(void) {
    own_malloc = dlsym(RTLD_NEXT, "malloc");
    own_realloc = dlsym(RTLD_NEXT, "realloc");
    const char *at = getenv("FAIL_AT");
    fails = at ? strtoul(at, 0, 10) : 0;
    calls = 0;
}
__attribute__((destructor)) static void end(void) {
    const char *name = getenv("CALLS_TO");
    FILE *file = name ? fopen(name, "w") : 0;
    if (file) { fprintf(file, "%lu", calls); fclose(file); }
}
void *malloc(size_t size) {
    if (!own_malloc) own_malloc = dlsym(RTLD_NEXT, "malloc");
    if (++calls == fails) return 0;
    return own_malloc(size);
}
void *realloc(void *old, size_t size) {
    if (!own_realloc) own_realloc = dlsym(RTLD_NEXT, "realloc");
    if (++calls == fails) return 0;
    return own_realloc(old, size);
}
"""


def run(library: str, script: bytes, at: int, calls: str) -> tuple[int, list[str]]:
    """The status and the lines of a run in which allocation `at` is refused, 0 for none; their number goes to a file."""
    env = {**os.environ, "LD_PRELOAD": library, "FAIL_AT": str(at), "CALLS_TO": calls}
    ran = subprocess.run([PROGRAM], input=script, stdout=subprocess.PIPE, env=env, cwd=TOP, check=False)
    return ran.returncode, ran.stdout.decode().splitlines()


def without_visits(lines: list[str]) -> list[str]:
    """The lines, of `stats` the rows alone."""
    return [f"rows{it.partition(' rows')[2]}" if it.startswith("blocks ") and " rows " in it else it for it in lines]


def outcome(plain: list[str], without: list[list[str]], status: int, lines: list[str]) -> str:
    """What became of a run, by what the script and the same without each one of its lines print: '' where it did
    something that it may not do."""
    if status == 6:
        return "" if lines else "not begun"
    if status in (0, 1) and lines == plain:
        return "undisturbed"
    if status != 1 or lines.count(REFUSED) != plain.count(REFUSED) + 1:
        return ""
    at = next(number for number, line in enumerate(lines) if line == REFUSED and plain[number : number + 1] != [REFUSED])
    if lines[:at] != plain[:at]:
        return ""
    rest = without_visits(lines[:at] + lines[at + 1 :])
    if any(rest == without_visits(it) for it in without):
        return "refused"
    return "refused after rows" if at > 0 and lines[at - 1] not in ("ok", "end") else ""


def main() -> int:
    asked = argparse.ArgumentParser(description=__doc__, formatter_class=argparse.RawDescriptionHelpFormatter)
    asked.add_argument("--step", type=int, default=1)
    asked.add_argument("scripts", nargs="*", default=sorted(glob.glob(os.path.join(TOP, "examples", "*.sand"))))
    asked = asked.parse_args()
    bad = 0
    with tempfile.TemporaryDirectory() as room:
        source, library, calls = (os.path.join(room, it) for it in ("refusing.c", "refusing.so", "calls"))
        with open(source, "w", encoding="utf-8") as file:
            file.write(REFUSING)
        subprocess.run(["cc", "-shared", "-fPIC", "-O1", "-o", library, source, "-ldl"], check=True)
        for name in asked.scripts:
            with open(name, "rb") as file:
                script = file.read()
            _, plain = run(library, script, 0, calls)
            whole = script.splitlines(keepends=True)
            shorter = (b"".join(whole[:at] + whole[at + 1 :]) for at in range(len(whole)))
            without = [run(library, it, 0, os.devnull)[1] for it in shorter]
            run(library, script, 0, calls)
            with open(calls, encoding="utf-8") as file:
                number = int(file.read())
            found = collections.Counter()
            for at in range(1, number + 1, asked.step):
                end = outcome(plain, without, *run(library, script, at, calls))
                found[end] += 1
                if not end:
                    print(f"{name}: allocation {at} of {number} refused: something else came")
            bad += found[""]
            told = ", ".join(f"{found[it]} {it}" for it in ("undisturbed", "not begun", "refused", "refused after rows"))
            print(f"{os.path.relpath(name, TOP)}: {number} allocations: {told}", flush=True)
    return 1 if bad else 0


sys.exit(main())
