#!/usr/bin/env python3
"""The morphological mode, timed by what may grow, one thing at a time: different words (texts of 1, 2 and 4 million bytes, whose words
come eight times each, by one graph and one dictionary); the graph (100 to 100,000 prefixes, behind a letter that no word has, and
then beside the prefix that all words have); and the dictionary (4,000 to 400,000 lines).

The graph takes `un` and then an adjective of the dictionary, which has half of what stands behind it. Beside each run stands one with
the same files over a text of as many words that are all the same: what the first takes more is spent on its other words. Prints the
best of three runs, peak memory, and the microseconds for each different word, which stay the same where the time is proportional to
their number. Needs the built program (make build) and a folder to write to (bench/data).
"""
import os
import random

import measuring
from grammars import graph, letters, lines, write
from measuring import OUT, apart, best, prepare

BYTES = [1_000_000, 2_000_000, 4_000_000]
TIMES = 8
LETTERS = "abcdefghijklmnopqrstuvwxyz"
# Each word is `un`, a stem of so many letters, and the space behind it.
STEM = 5
LENGTH = 2 + STEM + 1
# As many different words have the texts over which the graph or the dictionary grows.
FEW = 1_000
PREFIXES = [100, 1_000, 10_000, 100_000]
LINES = [4_000, 40_000, 400_000]


def spelled(number, length):
    """The text of so many letters that has this number."""
    return "".join(LETTERS[number // 26 ** place % 26] for place in range(length))


def stems(count, length=STEM):
    """So many different texts of so many letters, in no order."""
    numbers = random.Random(20261201).sample(range(26 ** length), count)
    return [spelled(number, length) for number in numbers]


def prefixes(count):
    """So many different texts of five letters, of which none begins with the first letter of the words."""
    found = [it for it in stems(count * 26 // 25 + 100) if it[0] != "u"]
    return found[:count]


def texts(found):
    """A text in which these stems come eight times each, in no order, and one of as many words that are all the first of them."""
    words = found * TIMES
    random.Random(20261202).shuffle(words)
    many = write("morphological.txt", " ".join("un" + word for word in words))
    one = write("one_word.txt", " ".join("un" + found[0] for _ in words))
    return many, one


def adjectives(forms):
    return write("morphological.dic", "".join(f"{form},.A\n" for form in sorted(forms)))


def undoing(beside=(), behind=()):
    """A graph that takes `un` or one of the prefixes beside it, or a letter that no word has and one of the prefixes behind it, and
    then an adjective."""
    chain = ["$<", "+".join(["un", *beside]), "$x(", "<A>", "$x)", "<E>/$x$.A+neg", "$>"]
    boxes = [(box, [place + 3 if place + 1 < len(chain) else 1]) for place, box in enumerate(chain)]
    if behind:
        boxes[0][1].append(len(boxes) + 2)
        boxes += [("é", [len(boxes) + 3]), ("+".join(behind), [4])]
    return write("morphological.grf", graph([("<E>", [2]), ("", []), *boxes]))


def timed(name, main, dic, found):
    """Times these words, each of them once more than the first one alone."""
    many, one = texts(found)
    words = [measuring.PROGRAM, "morpho", main]
    alone, _ = best([*words, one, letters(), dic])
    seconds, memory = best([*words, many, letters(), dic])
    each = 1e6 * (seconds - alone) / (len(found) - 1)
    print(f"  {name:28} {seconds:7.3f} s, one word {alone:6.3f} s, {each:7.1f} microseconds a different word,"
          f" {memory / 1e6:6.1f} MB, {lines(OUT)} lines")


def by_words():
    print("by the words, a dictionary of as many lines for all")
    found = stems(BYTES[-1] // LENGTH // TIMES)
    dic = adjectives(sorted(found)[::2])
    main = undoing()
    for size in BYTES:
        different = size // LENGTH // TIMES
        timed(f"{size / 1e6:.0f} MB, {different} words", main, dic, found[:different])


def by_graph():
    print(f"by the graph, {FEW} different words")
    found = stems(FEW)
    dic = adjectives(sorted(found)[::2])
    for count in PREFIXES:
        timed(f"{count} prefixes, none met", undoing(behind=prefixes(count)), dic, found)
    for count in PREFIXES:
        timed(f"{count} prefixes, all met", undoing(beside=prefixes(count)), dic, found)


def by_dictionary():
    print(f"by the dictionary, {FEW} different words")
    found = stems(FEW)
    main = undoing()
    for count in LINES:
        some = sorted(found)[::2]
        apart(adjectives, some + stems(count - len(some), STEM + 1))
        timed(f"{count} lines", main, os.path.join(measuring.DATA, "morphological.dic"), found)


def main():
    prepare()
    by_words()
    by_graph()
    by_dictionary()


if __name__ == "__main__":
    main()
