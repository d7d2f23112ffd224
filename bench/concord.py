#!/usr/bin/env python3
"""Times concordances beside the search for the same hits: 100,000 hits of a word in a text of some 20 MB, with 40 columns
and with 1000 on both sides, by place and by two keys. The search is the measure of the others: a concordance should
take at most half as long again. Prints the best of three runs in turn, what each wrote, and peak memory.

Needs the built program (make build) and a folder to write to (bench/data).
"""
import os
import random

from dico import ALPHABET
from grammars import graph, lines, write
from measuring import DATA, OUT, PROGRAM, RUNS, apart, least, prepare, run

HITS = 100_000
# So many other words stand before each hit.
APART = 40
LAYOUTS = [
    ("locate", ["locate"]),
    ("by place", ["concord"]),
    ("LC", ["concord", "--sort", "LC"]),
    ("CR", ["concord", "--sort", "CR"]),
    ("RL, 1000 columns", ["concord", "--sort", "RL", "--left", "1000", "--right", "1000"]),
]


def make():
    """Words of one to eight letters, none of which is the word that is searched for."""
    chance = random.Random(26)
    words = ["".join(chance.choices("abdefghijklmnopqrsuvwxyz", k=chance.randint(1, 8))) for _ in range(5000)]
    with open(os.path.join(DATA, "concord.txt"), "w", encoding="ascii") as text:
        for _ in range(HITS):
            text.write(" ".join(chance.choices(words, k=APART)) + " cat ")


def main():
    prepare()
    letters = write("letters.txt", ALPHABET)
    word = write("cat.grf", graph([("<E>", [2]), ("", []), ("cat", [1])]))
    apart(make)
    text = os.path.join(DATA, "concord.txt")
    print(f"{HITS} hits, a text of {os.path.getsize(text) / 1e6:.1f} MB")
    columns = {name: [] for name, _ in LAYOUTS}
    found = {}
    for _ in range(RUNS):
        for name, words in LAYOUTS:
            columns[name].append(run([PROGRAM, *words, word, text, letters]))
            found[name] = lines(OUT)
    searched = least(columns["locate"])
    for name, _ in LAYOUTS:
        seconds, memory = least(columns[name])
        print(f"  {name:17} {seconds:.3f} s  {seconds / searched[0]:.2f}  {memory / 1e6:.1f} MB"
              f"  {memory / searched[1]:.2f}  {found[name]} lines")


if __name__ == "__main__":
    main()
