#!/usr/bin/env python3
"""Inflection and flattening, timed: 100,000 lemmas of ten classes beside `check` on the lines that are written, and beside
hfst-lexc and foma, where they are installed (Debian: hfst, foma), compiling the same paradigms; and a flat grammar of
1,000,000 states, printed.

A class has six endings, of which one deletes a letter and one doubles one. The lexicons of the others have the same forms, with
what all forms of a lemma begin with as its stem. Prints the best of three runs, and peak memory. Needs the built program (make
build) and a folder to write to (bench/data).
"""
import os
import random
import shutil

import measuring
from grammars import graph, letters, lines, write
from measuring import DATA, OUT, best, prepare

CLASSES = 10
LEMMAS = 100_000


def endings(number):
    """The endings of a class, each as what a graph does and the same as an ending of the lemma without its last letter."""
    sign = chr(97 + number)
    return [("<E>", "{}", "s"), (sign, "{}" + sign, "p"), (sign + "er", "{}" + sign + "er", "C"), ("D" + sign + "es", sign + "es", "P"),
            ("LCR" + sign + "st", "{}{}" + sign + "st", "S"), (sign + "ing", "{}" + sign + "ing", "G")]


def lemmas():
    """So many different lemmas, each with the number of its class."""
    draw = random.Random(20261201)
    found = set()
    while len(found) < LEMMAS:
        found.add("".join(draw.choice("abcdefghijklmnopqrstuvwxyz") for _ in range(draw.randint(4, 12))))
    return [(lemma, number % CLASSES) for number, lemma in enumerate(sorted(found))]


def lexicon(stems):
    """The lexicon of the same forms: one for each class and last letter."""
    out = ["LEXICON Root\n"]
    out += [f"{stem[:-1]} C{number}{stem[-1]} ;\n" for stem, number in stems]
    for number, last in sorted({(number, stem[-1]) for stem, number in stems}):
        out.append(f"\nLEXICON C{number}{last}\n")
        out += [f"{last}+N:{ending.replace('{}', last)} # ;\n" for _, ending, _ in endings(number)]
    return "".join(out)


def inflection():
    stems = lemmas()
    file = write("lemmas.dic", "".join(f"{lemma},N{number}\n" for lemma, number in stems))
    for number in range(CLASSES):
        ways = [(f"{does}/:{code}", [1]) for does, _, code in endings(number)]
        write(f"N{number}.grf", graph([("<E>", list(range(2, 2 + len(ways)))), ("", []), *ways]))
    print(f"{LEMMAS} lemmas of {CLASSES} classes")
    seconds, memory = best([measuring.PROGRAM, "inflect", file])
    forms = os.path.join(DATA, "forms.dic")
    os.replace(OUT, forms)
    print(f"  unitex inflect  {seconds:.3f} s  {lines(forms)} lines, {os.path.getsize(forms) / 1e6:.1f} MB  {memory / 1e6:.1f} MB")
    checked, memory = best([measuring.PROGRAM, "check", forms])
    print(f"  unitex check    {checked:.3f} s  of these lines  {memory / 1e6:.1f} MB; inflect takes {seconds / checked:.2f} of it")
    lexc = write("lemmas.lexc", lexicon(stems))
    for name, arguments in [("hfst-lexc", ["hfst-lexc", lexc, "-o", os.path.join(DATA, "lemmas.hfst")]),
                            ("foma", ["foma", "-q", "-e", f"read lexc {lexc}", "-s"])]:
        if shutil.which(name):
            seconds, memory = best(arguments)
            print(f"  {name:14}  {seconds:.3f} s  compiles them  {memory / 1e6:.1f} MB")
        else:
            print(f"  {name:14}  not installed")


def flattening():
    """999 calls in a chain of 1,000 states, of a graph of 1,000 states."""
    calls = [f": -2 {state + 1} " for state in range(999)] + ["t "]
    called = [f": {1 + state % 20} {state + 1} " for state in range(999)] + ["t "]
    tags = ["%<E>", *(f"%w{chr(97 + number)}" for number in range(20))]
    file = write("flat.fst2", "\n".join(["0000000002", "-1 flat", *calls, "f ", "-2 called", *called, "f ", *tags, "f"]) + "\n")
    seconds, memory = best([measuring.PROGRAM, "flatten", file, letters()])
    print("a flat grammar of 1,000,000 states")
    print(f"  unitex flatten  {seconds:.3f} s  {os.path.getsize(OUT) / 1e6:.1f} MB written  {memory / 1e6:.1f} MB")


def main():
    prepare()
    inflection()
    flattening()


if __name__ == "__main__":
    main()
