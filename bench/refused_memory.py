#!/usr/bin/env python3
"""Refuses each request for memory in turn, over small runs of all commands: the run then ends as it would have, or in status 7
with nothing written to standard output.

A small library, compiled by cc, stands before the C library's `malloc` and `realloc` (LD_PRELOAD) and refuses the request of
one number; each number is tried up to those that the run makes. Prints how many requests a run makes and how the runs ended,
and each run that did otherwise; ends with 1 where there is one. It is no benchmark.

    bench/refused_memory.py [PROGRAM]

Needs a program (make build), cc and a folder to write to (bench/data).
"""
import collections
import os
import subprocess
import sys

import measuring
from grammars import graph

FOLDER = os.path.join(measuring.DATA, "refused_memory")
LIBRARY = r"""
#define _GNU_SOURCE
#include <dlfcn.h>
#include <errno.h>
#include <fcntl.h>
#include <stdio.h>
#include <stdlib.h>
#include <unistd.h>

static unsigned long asked, refused;

__attribute__((constructor)) static void begin(void) {
    const char *number = getenv("REFUSED");
    refused = number ? strtoul(number, 0, 10) : 0;
    asked = 0;
}

/* Writes how many requests there were. */
__attribute__((destructor)) static void end(void) {
    const char *path = getenv("COUNT");
    int file = path ? open(path, O_WRONLY | O_CREAT | O_TRUNC, 0644) : -1;
    if (file >= 0)
        dprintf(file, "%lu", asked);
}

static int is_refused(void) {
    if (++asked != refused)
        return 0;
    errno = ENOMEM;
    return 1;
}

void *malloc(size_t size) {
    static void *(*next)(size_t);
    if (!next)
        next = (void *(*)(size_t))dlsym(RTLD_NEXT, "malloc");
    return is_refused() ? 0 : next(size);
}

void *realloc(void *old, size_t size) {
    static void *(*next)(void *, size_t);
    if (!next)
        next = (void *(*)(void *, size_t))dlsym(RTLD_NEXT, "realloc");
    return is_refused() ? 0 : next(old, size);
}
"""
FILES = {
    "a.txt": "".join(f"{chr(65 + k)}{chr(97 + k)}\n" for k in range(26)),
    "t.txt": "The cat sat. The cats sat.",
    "d.dic": "cat,.N:s\ncats,cat.N:p\n",
    "g.grf": graph([("<E>", [2]), ("", []), ("the", [3]), ("<N>/[N]", [1])]),
    "call.grf": graph([("<E>", [2]), ("", []), ("a", [3, 1]), (":call", [1])]),
    "twice.grf": graph([("<E>", [2, 5]), ("", []), ("a", [3]), (":twice", [4]), (":twice", [1]), ("a", [1])]),
    "bad.dic": "a,N1\n,N2\n",
    "peler.dic": "peler,V5\n",
    "V5.grf": graph([("<E>", [2]), ("", []), ("LLLLèRR/:P3s", [1])]),
    "regret.dic": "regret,A1\n",
    "A1.grf": graph([("<E>", [2]), ("", []), ("LCRable/:s", [1])]),
    "european.dic": "european,N2\n",
    "N2.grf": graph([("<E>", [2]), ("", []), ("LDRi/:p", [1])]),
    "short.dic": "a,N1\n",
    "N1.grf": graph([("<E>", [2]), ("", []), ("LL/:s", [1])]),
    "pony.dic": "cat,N3\npony,N4\n",
    "N3.grf": graph([("<E>", [2, 3]), ("", []), ("<E>/:s", [1]), ("s/:p", [1])]),
    "N4.grf": graph([("<E>", [2]), ("", []), ("D", [3]), (":ies", [1])]),
    "ies.grf": graph([("<E>", [2]), ("", []), ("ies/:p", [1])]),
    "run.txt": "the run",
    "run.dic": "the,.DET\nrun,.N:s\nrun,.V:W\n",
    "run.tfst": "#TFST 1\nS 1 3 3\n0 1 {the,.DET}\n1 2 {run,.N:s}\n1 2 {run,.V:W}\n",
    "r.grf": graph([("<E>", [2, 7]), ("", []), ("<!>", [3]), ("<DET>", [4]), ("<!>", [5]), ("<V>", [6]), ("<!>", [1]),
                    ("<=>", [8]), ("<DET>", [9]), ("<=>", [10]), ("<N>", [11]), ("<=>", [1])]),
    "empty.grf": graph([("<E>", [2]), ("", []), ("<!>", [3]), ("<DET>", [4]), ("<!>", [5]), ("<TOKEN>", [6]), ("<!>", [1])]),
    "un.txt": "unhappy redo",
    "un.dic": "happy,.A\ndo,.V:W\n",
    "un.grf": graph([("<E>", [2]), ("", []), ("$<", [3]), ("un", [4]), ("$x(", [5]), ("<A>", [6]), ("$x)", [7]),
                     ("<E>/$x$.A+neg", [8]), ("$>", [1])]),
    "no_codes.grf": graph([("<E>", [2]), ("", []), ("$<", [3]), ("un<A>/x", [4]), ("$>", [1])]),
}
SEARCH = ("locate", "--mode", "merge", "g.grf", "t.txt", "a.txt")
# Files that the program itself writes, and the words by which it does.
WRITTEN = {"d.udi": ("compress", "d.dic"), "g.fst2": ("fst2", "g.grf", "a.txt")}
ROWS = [
    (*SEARCH, "d.dic"),
    (*SEARCH, "d.udi"),
    ("locate", "--mode", "merge", "g.fst2", "t.txt", "a.txt", "d.dic"),
    ("concord", "g.grf", "t.txt", "a.txt", "d.dic"),
    ("cascade", "--trace", "t.txt", "a.txt", "merge2:g.grf", "dic:d.dic"),
    ("tokenize", "t.txt", "a.txt"),
    ("check", "d.dic"),
    ("check", "d.udi"),
    ("compress", "d.dic"),
    ("compress", "d.udi"),
    ("dico", "t.txt", "a.txt", "d.dic"),
    ("txt2tfst", "run.txt", "a.txt", "run.dic"),
    ("elag", "run.tfst", "r.grf"),
    ("elag", "run.tfst", "empty.grf"),
    ("tfind", "g.grf", "run.tfst", "a.txt"),
    ("fst2", "g.grf", "a.txt"),
    ("fst2", "g.fst2", "a.txt"),
    ("flatten", "--depth", "3", "call.grf", "a.txt"),
    ("inflect", "peler.dic"),
    ("inflect", "regret.dic"),
    ("inflect", "european.dic"),
    ("inflect", "pony.dic"),
    ("morpho", "un.grf", "un.txt", "a.txt", "un.dic"),
    ("bench", "5"),
    # These end otherwise: files that aren't of their format, one that isn't there, words that are no request.
    (*SEARCH, "cut.udi"),
    (*SEARCH, "longer.udi"),
    ("check", "t.txt"),
    ("check", "nothing.dic"),
    ("flatten", "--depth", "100", "twice.grf", "a.txt"),
    ("inflect", "bad.dic"),
    ("inflect", "short.dic"),
    ("morpho", "g.grf", "un.txt", "a.txt", "un.dic"),
    ("morpho", "no_codes.grf", "un.txt", "a.txt", "un.dic"),
    ("check",),
]


def run(words, **settings):
    """How a run ends: its status, its output and its error line."""
    done = subprocess.run(words, cwd=FOLDER, capture_output=True, check=False, env={**os.environ, **settings})
    return done.returncode, done.stdout, done.stderr


def prepared(program):
    """Writes the files and the library, whose path it gives."""
    os.makedirs(FOLDER, exist_ok=True)
    for name, content in FILES.items():
        with open(os.path.join(FOLDER, name), "w", encoding="utf-8") as file:
            file.write(content)
    for name, words in WRITTEN.items():
        with open(os.path.join(FOLDER, name), "wb") as file:
            file.write(run([program, *words])[1])
    with open(os.path.join(FOLDER, "d.udi"), "rb") as file:
        image = file.read()
    for name, content in {"cut.udi": image[:-1], "longer.udi": image + b"\0"}.items():
        with open(os.path.join(FOLDER, name), "wb") as file:
            file.write(content)
    source, library = [os.path.join(FOLDER, name) for name in ("refusing.c", "refusing.so")]
    with open(source, "w", encoding="utf-8") as file:
        file.write(LIBRARY)
    subprocess.run(["cc", "-O2", "-shared", "-fPIC", "-o", library, source, "-ldl"], check=True)
    return library


def main():
    program = os.path.abspath(sys.argv[1] if len(sys.argv) > 1 else measuring.PROGRAM)
    if not os.access(program, os.X_OK):
        sys.exit("build the program first: make build")
    library, count, failed, refused = prepared(program), os.path.join(FOLDER, "count"), 0, 0
    for words in ROWS:
        whole = run([program, *words])
        if run([program, *words], LD_PRELOAD=library, COUNT=count) != whole:
            sys.exit("the library changes what is answered")
        with open(count, encoding="utf-8") as file:
            requests = int(file.read())
        refused += requests
        ends = collections.Counter()
        for number in range(1, requests + 1):
            ended = run([program, *words], LD_PRELOAD=library, REFUSED=str(number))
            if ended == whole:
                ends["as before"] += 1
            elif ended in [(7, b"", b"no memory\n"), (7, b"", b"")]:
                ends["status 7"] += 1
            else:
                failed += 1
                print(f"{' '.join(words)}: request {number}: {ended}")
        told = ", ".join(f"{name} {times}" for name, times in sorted(ends.items()))
        print(f"{' '.join(words)}: {requests} requests, each refused: {told}", flush=True)
    print(f"{len(ROWS)} runs, {refused} refused requests, {failed} ended otherwise")
    sys.exit(1 if failed else 0)


if __name__ == "__main__":
    main()
