#!/usr/bin/env python3
"""Cascades, timed: three steps that each put a mark before a word, over texts of 1, 2 and 4 MB; three that find nothing;
one step that may be applied nine times, and changes the text in its first round alone; and three steps by masks, beside a
dictionary of 150,000 lines, over 2 MB. Each stands beside the `locate` runs of its steps over the text as it was. Prints the best
of three runs, and peak memory.

Needs the built program (make build) and a folder to write to (bench/data).
"""
import os

from dico import ALPHABET
from grammars import corpus_of, graph, letters, phrases_of, write
from masks import make
from measuring import DATA, PROGRAM, apart, best, prepare


def marked(name, word):
    """A graph that puts a mark before each of these words."""
    return write(name, graph([("<E>", [2]), ("", []), (f"{word}/[{name[0]}]", [1])]))


def beside(name, text, alphabet, steps, *dics):
    """Times the cascade of these steps, and the searches of its graphs one by one."""
    words = [f"{times}:{path}" for times, path in steps]
    seconds, memory = best([PROGRAM, "cascade", text, alphabet, *words, *(f"dic:{it}" for it in dics)])
    alone = sum(best([PROGRAM, "locate", path, text, alphabet, *dics, "--mode", "merge", "--policy", "longest"])[0]
                for _, path in steps)
    print(f"  {name:36} {seconds:7.3f} s, the searches {alone:7.3f} s, {seconds / alone:.2f} of it,"
          f" {memory / os.path.getsize(text):5.1f} times the text in memory")


def literals(alphabet):
    print("three steps that mark words")
    for size in (1, 2, 4):
        text, _ = phrases_of(size)
        corpus = corpus_of("cascade.txt", text)
        paths = [marked(f"{name}.grf", word) for name, word in zip("xyz", sorted(set(text[:200]))[:3])]
        beside(f"{size} MB", corpus, alphabet, [("merge", path) for path in paths])
    beside("4 MB, none of them found", corpus, alphabet,
           [("merge", marked(f"{name}.grf", f"none{name}")) for name in "xyz"])
    once = write("once.grf", graph([("<E>", [2]), ("", []), (f"{text[0]}/{text[1]}", [1])]))
    beside("4 MB, one step, up to nine rounds", corpus, alphabet, [("replace9", once)])


def by_masks():
    print("three steps by masks, 2 MB, a dictionary of 150,000 lines")
    apart(make, 150_000)
    corpus, dic = (os.path.join(DATA, f"masks150000.{it}") for it in ("txt", "dic"))
    alphabet = write("letters.txt", ALPHABET)
    steps = [write(f"{name}.grf", graph([("<E>", [2]), ("", []), (f"{mask}/[{name}]", [3]), ("<N>", [1])]))
             for name, mask in (("d", "<DET>"), ("a", "<A>"), ("v", "<V>"))]
    beside("a word of a class before a noun", corpus, alphabet, [("merge", path) for path in steps], dic)


def main():
    prepare()
    alphabet = letters()
    literals(alphabet)
    by_masks()


if __name__ == "__main__":
    main()
