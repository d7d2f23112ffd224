#!/usr/bin/env python3
"""Times `unitex tfind` over the automata of texts of 1, 2 and 4 MB with three graphs: one item that no reading meets,
a noun phrase with a called graph, and every stretch of up to three readings. Beside them stands the reading of the file
alone, and `unitex elag` with one rule that removes nothing. Then what could cost more than its size: one long sentence,
and an automaton whose states have huge numbers. Prints the best of three runs in turn, each by the time of reading alone,
and peak memory by the size of the file.

What reading takes is told by the first graph over the same file, but for its last line, which says nothing: `tfind` reads
and checks a file to its end before it searches the first sentence, so that run ends in a refusal after all has been read.

Needs the built program (make build), and a folder to write to (bench/data).
"""
import os

from dico import ALPHABET
from measuring import PROGRAM, RUNS, apart, least, prepare, run
from sentences import KINDS, SIZES, automata, path, words_of_two_readings, write, write_graph, write_rules

# Each a main graph's chains of boxes, and those of a graph that it calls.
GRAPHS = {
    "nothing": [["<zzzzzzzz.XYZ>"]],
    "phrase": [[":part"], [":part", "<A>"]],
    "any": [["<TOKEN>"], ["<TOKEN>", "<TOKEN>"], ["<TOKEN>", "<TOKEN>", "<TOKEN>"]],
}
PART = [["<DET>", "<N>"], ["<DET>", "<A>", "<N>"]]
# The status of a run that refuses a file.
REFUSED = 3


def words(name, tfst):
    return [PROGRAM, "tfind", path(f"{name}.grf"), tfst, path("letters.txt")]


def broken(tfst):
    """Writes the same file with a last line that says nothing, and gives its path."""
    with open(tfst, "rb") as file:
        content = file.read()
    with open(path("broken.tfst"), "wb") as file:
        file.write(content[:content.rindex(b"\n", 0, -1) + 1] + b"x\n")
    return path("broken.tfst")


def searches(tfst):
    apart(broken, tfst)
    programs = [("reading alone", words("nothing", path("broken.tfst")), REFUSED)]
    programs += [("elag", [PROGRAM, "elag", tfst, path("any_rule.grf")], 0)]
    programs += [(name, words(name, tfst), 0) for name in GRAPHS]
    runs = [[run(it, wanted=status) for _, it, status in programs] for _ in range(RUNS)]
    columns = [least(column) for column in zip(*runs)]
    alone, _ = columns[0]
    for (name, _, _), (seconds, memory) in zip(programs, columns):
        print(f"  {name:13}  {seconds:.3f} s  {seconds / alone:.2f} of reading  {memory / 1e6:.1f} MB"
              f"  {memory / os.path.getsize(tfst):.1f} of its file")


def huge_states(count):
    """Writes an automaton of so many links whose states are far apart, and gives its path."""
    tfst = path("huge.tfst")
    step = (2**63 - 1) // (count + 1)
    with open(tfst, "w", encoding="utf-8") as file:
        file.write(f"#TFST 1\nS 1 {step * count + 1} {count}\n")
        file.writelines(f"{step * it} {step * (it + 1)} {{w,.N:s}}\n" for it in range(count))
    return tfst


def main():
    prepare()
    write_rules()
    os.replace(path("any.grf"), path("any_rule.grf"))
    for name, chains in GRAPHS.items():
        write_graph(f"{name}.grf", chains)
    write_graph("part.grf", PART)
    with open(path("letters.txt"), "w", encoding="utf-8") as file:
        file.write(ALPHABET)
    apart(write)
    for kind, size in ((kind, size) for kind in KINDS for size in SIZES):
        tfst = automata(kind, size)
        print(f"automata of {os.path.getsize(tfst) / 1e6:.1f} MB, of a {kind} text of {size / 1e6:.0f} MB")
        searches(tfst)
    for count in [4_000, 40_000, 400_000]:
        print(f"one sentence of {count} words of two readings")
        searches(words_of_two_readings(count))
    for count in [4_000, 40_000, 400_000]:
        print(f"{count} links between states that are far apart")
        searches(huge_states(count))


if __name__ == "__main__":
    main()
