#!/usr/bin/env python3
"""Times searches by lexical masks: a noun phrase (`<DET>`, then any number of `<A>`, then `<N>`) as a loop and as calls,
beside `unitex dico` on the same files, and beside `hfst-pmatch` on the same phrase, where HFST is installed. Generated
dictionaries of 150,000 and 300,000 lines, a third of them compounds, over texts of 2 and 4 MB. Prints the best of three
runs in turn, what each found, and peak memory.

The peer gets its dictionary as an automaton that is compiled before (not timed), and a text in lower case, since it
compares letters as they are; it lists the leftmost longest phrases, `unitex` all.

Needs the built program (make build), a folder to write to (bench/data), and for the peer Debian's package `hfst`.
"""
import os
import random
import shutil
import subprocess

from dico import ALPHABET, CODES, one, words
from grammars import graph, lines, write
from measuring import DATA, OUT, PROGRAM, RUNS, apart, least, prepare, run

DETERMINERS = 12

PATTERN = """set need-separators off
Define Det @txt"{det}" ;
Define Adjective @txt"{adjective}" ;
Define Noun @txt"{noun}" ;
Define TOP Det [ " " Adjective ]* " " Noun EndTag(NP) ;
"""


def make(size):
    """Writes a dictionary of so many lines, a text of these words, and the lists of forms for the peer."""
    draw = random.Random(20261129)
    simple = words(draw, size - size // 3)
    compounds = {}
    while len(compounds) < size // 3:
        compounds[f"{draw.choice(simple)} {draw.choice(simple)}"] = None
    compounds = list(compounds)
    codes = {form: draw.choice(CODES) for form in simple + compounds}
    codes.update((form, ".DET") for form in simple[:DETERMINERS])
    write(f"masks{size}.dic", "".join(f"{form},{codes[form]}\n" for form in sorted(codes)))
    for name, code in [("det", ".DET"), ("adjective", ".A:"), ("noun", ".N")]:
        write(f"masks{size}.{name}", "".join(f"{form}\n" for form in sorted(codes) if codes[form].startswith(code)))
    length, text = 0, []
    while length < size * 40 // 3:
        line = " ".join(one(draw, simple, compounds) for _ in range(12)) + draw.choice(["", ",", "."])
        text.append(line + "\n")
        length += len(line) + 1
    write(f"masks{size}.txt", "".join(text))
    write(f"masks{size}.lower", "".join(text).lower())


def peer(size):
    """The words that run the peer, or none where HFST isn't installed."""
    if not shutil.which("hfst-pmatch2fst"):
        return None
    path = {name: os.path.join(DATA, f"masks{size}.{name}") for name in ["det", "adjective", "noun", "pmatch", "lower"]}
    pattern = write(f"masks{size}.pattern", PATTERN.format(**path))
    with open(path["pmatch"], "wb") as file:
        subprocess.run(["hfst-pmatch2fst", pattern], stdout=file, check=True)
    return ["sh", "-c", f"exec hfst-pmatch --locate '{path['pmatch']}' < '{path['lower']}'"]


def main():
    prepare()
    letters = write("letters.txt", ALPHABET)
    loop = write("np_loop.grf", graph([
        ("<E>", [2]), ("", []), ("<DET>", [3, 4]), ("<A>", [3, 4]), ("<N>", [1])]))
    calls = write("np_calls.grf", graph([("<E>", [2]), ("", []), ("<DET>", [3]), (":np_rest", [1])]))
    write("np_rest.grf", graph([("<E>", [2, 4]), ("", []), ("<A>", [3]), (":np_rest", [1]), ("<N>", [1])]))
    for size in [150_000, 300_000]:
        apart(make, size)
        dictionary, text = [os.path.join(DATA, f"masks{size}{end}") for end in (".dic", ".txt")]
        programs = [
            ("unitex dico", [PROGRAM, "dico", text, letters, dictionary]),
            ("unitex locate, a loop", [PROGRAM, "locate", loop, text, letters, dictionary]),
            ("unitex locate, calls", [PROGRAM, "locate", calls, text, letters, dictionary]),
        ]
        hfst = peer(size)
        if hfst:
            programs.append(("hfst-pmatch", hfst))
        print(f"{size} lines, a text of {os.path.getsize(text) / 1e6:.1f} MB")
        found = {}
        columns = {name: [] for name, _ in programs}
        for _ in range(RUNS):
            for name, arguments in programs:
                columns[name].append(run(arguments))
                found[name] = lines(OUT)
        least_dico = least(columns["unitex dico"])
        for name, _ in programs:
            seconds, memory = least(columns[name])
            print(f"  {name:22}  {seconds:.3f} s  {seconds / least_dico[0]:.2f}  {memory / 1e6:.1f} MB"
                  f"  {memory / least_dico[1]:.2f}  {found[name]} lines")


if __name__ == "__main__":
    main()
