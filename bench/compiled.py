#!/usr/bin/env python3
"""Compiled grammars beside the graphs from which they come, timed: reading either in a search of a short text, and printing.

The grammars are 2,000 phrases in one box, and boxes of two words each in a chain, with so many states, at three sizes. Prints the
best of three runs, the size of the file, peak memory, and whether both gave the same index. Needs the built program (make build)
and a folder to write to (bench/data).
"""
import filecmp
import os

import measuring
from grammars import graph, letters, phrases_of, write
from measuring import DATA, OUT, best, prepare


def row(name, path, words):
    seconds, memory = best([measuring.PROGRAM, *words])
    print(f"{name:<44} {seconds:6.3f} s {os.path.getsize(path) / 1e6:6.1f} MB of file {memory / 1e6:6.1f} MB of memory")
    return seconds


def compare(name, drawn, alphabet, text):
    """A search by the graph, its file, and a search by that."""
    index, compiled = os.path.join(DATA, "drawn.txt"), os.path.join(DATA, "compiled.fst2")
    by_graph = row(f"locate, {name}, .grf", drawn, ["locate", drawn, text, alphabet])
    os.replace(OUT, index)
    row(f"fst2, {name}", drawn, ["fst2", drawn, alphabet])
    os.replace(OUT, compiled)
    by_file = row(f"locate, {name}, .fst2", compiled, ["locate", compiled, text, alphabet])
    same = "the same index" if filecmp.cmp(OUT, index, shallow=False) else "ANOTHER INDEX"
    print(f"{'':<44} {by_file / by_graph:6.2f} of the time of the graph; {same}")


def main():
    prepare()
    alphabet = letters()
    words, phrases = phrases_of(1)
    text = write("short.txt", " ".join(words[:2000]) + "\n")
    compare("2,000 phrases", write("phrases.grf", graph([("<E>", [2]), ("", []), ("+".join(phrases), [1])])), alphabet, text)
    for states in (25_000, 50_000, 100_000):
        boxes = states // 2
        chain = [(f"{words[2 * k % len(words)]} {words[(2 * k + 1) % len(words)]}", [k + 3 if k < boxes - 1 else 1]) for k in range(boxes)]
        compare(f"{states} states", write("chain.grf", graph([("<E>", [2]), ("", []), *chain])), alphabet, text)


if __name__ == "__main__":
    main()
