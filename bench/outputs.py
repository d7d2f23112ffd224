#!/usr/bin/env python3
"""Times searches by graphs with outputs in each mode: the noun phrase of masks.py with an output in front of its noun,
and a phrase of the same words of which nothing is found. Ignored outputs are the measure of the others. A generated
dictionary of 150,000 lines over a text of 2 MB. Prints the best of three runs in turn, what each found, and peak
memory.

Needs the built program (make build) and a folder to write to (bench/data).
"""
import os

from dico import ALPHABET
from grammars import graph, lines, write
from masks import make
from measuring import DATA, OUT, PROGRAM, RUNS, apart, least, prepare, run

SIZE = 150_000
MODES = ["ignore", "merge", "replace"]


def main():
    prepare()
    letters = write("letters.txt", ALPHABET)
    noun = write("np_output.grf", graph([
        ("<E>", [2]), ("", []), ("<DET>", [3, 4]), ("<A>", [3, 4]), ("<N>/[noun]", [1])]))
    # The text has no mark of a sentence.
    none = write("np_nothing.grf", graph([
        ("<E>", [2]), ("", []), ("<DET>", [3, 4]), ("<A>/[adjective]", [3, 4]), ("<N>/[noun]", [5]), ("{S}", [1])]))
    apart(make, SIZE)
    dictionary, text = [os.path.join(DATA, f"masks{SIZE}{end}") for end in (".dic", ".txt")]
    print(f"{SIZE} lines, a text of {os.path.getsize(text) / 1e6:.1f} MB")
    for name, grammar in [("a noun phrase", noun), ("nothing is found", none)]:
        found = {}
        columns = {mode: [] for mode in MODES}
        for _ in range(RUNS):
            for mode in MODES:
                words = [PROGRAM, "locate", "--mode", mode, grammar, text, letters, dictionary]
                columns[mode].append(run(words))
                found[mode] = lines(OUT)
        ignored = least(columns["ignore"])
        for mode in MODES:
            seconds, memory = least(columns[mode])
            print(f"  {name:17} {mode:8} {seconds:.3f} s  {seconds / ignored[0]:.2f}  {memory / 1e6:.1f} MB"
                  f"  {memory / ignored[1]:.2f}  {found[mode]} lines")


if __name__ == "__main__":
    main()
