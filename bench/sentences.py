#!/usr/bin/env python3
"""Times `unitex txt2tfst` over texts of 1, 2 and 4 MB with a generated dictionary of 300,000 lines, a third of them
compounds, beside `unitex dico` with the same files and `lt-proc` (Debian's package lttoolbox) with the same dictionary
over the same words. Then `unitex elag` with three rules over its answer, beside `vislcg3` (Debian's package cg3) with
three rules of the same kind over the same readings of the same words, and both once more over texts whose words come as
often as in running text. Then one rule that removes nothing over forty
words of two readings each, over 4,000 and over 200,000. Then what could cost more than its size: rules of thousands of
boxes, and an automaton whose links pass thousands of states. Prints the best of three runs in turn, and peak memory by
the size of the files.

Needs the built program (make build), both packages, and a folder to write to (bench/data).
"""
import os
import random
import subprocess
import sys
from shutil import which

from dico import ALPHABET, forms_of, one
from measuring import DATA, OUT, PROGRAM, RUNS, apart, best, least, prepare, run

LINES = 300_000
SIZES = [1_000_000, 2_000_000, 4_000_000]
# How the words of a text are drawn: many of them once or twice, or few of them most of the time.
KINDS = ["random", "running"]
# A word may have several of these, so that rules have something to choose.
CODES = [".N+Conc:ms", ".V+t:P3s", ".A:mp", ".DET", ".ADV"]
MARKS = ["<!>", "<=>"]
# Each is an if-part and a then-part: left and right items.
RULES = [
    ((["<DET>"], ["<V>"]), (["<DET>"], ["<N>"])),
    ((["<N>"], ["<DET>"]), (["<N>"], ["<ADV>"])),
    ((["<ADV>", "<A>"], ["<ADV>"]), None),
]
GRAMMAR = """DELIMITERS = "<$.>" ;
LIST DET = DET ;
LIST N = N ;
LIST V = V ;
LIST A = A ;
LIST ADV = ADV ;
SECTION
REMOVE V IF (-1C DET) ;
REMOVE DET IF (-1C N) ;
REMOVE ADV IF (-1C A) (-2C ADV) ;
"""


def path(name):
    return os.path.join(DATA, name)


def codes_of(draw):
    """The codes of a form: one, or two or three."""
    return draw.sample(CODES, draw.choice([1, 1, 1, 2, 2, 3]))


def tags_of(code):
    """The same code as tags: its signs cut off."""
    return code[1:].replace("+", " ").replace(":", " ").split()


def write_dictionaries(simple, compounds, codes):
    """The dictionary for unitex, and the same for lttoolbox."""
    with open(path("sentences.dic"), "w", encoding="utf-8") as file:
        file.writelines(f"{form},{code}\n" for form in sorted(codes) for code in codes[form])
    tags = sorted({tag for code in CODES for tag in tags_of(code)})
    with open(path("sentences.dix"), "w", encoding="utf-8") as file:
        file.write("<dictionary>\n<alphabet>abcdefghijklmnopqrstuvwxyzABCDEFGHIJKLMNOPQRSTUVWXYZ</alphabet>\n<sdefs>\n")
        file.writelines(f'<sdef n="{tag}"/>\n' for tag in tags)
        file.write('</sdefs>\n<section id="main" type="standard">\n')
        for form in simple + compounds:
            spaced = form.replace(" ", "<b/>")
            for code in codes[form]:
                signs = "".join(f'<s n="{tag}"/>' for tag in tags_of(code))
                file.write(f"<e><p><l>{spaced}</l><r>{spaced}{signs}</r></p></e>\n")
        file.write("</section>\n</dictionary>\n")


def running(draw, simple):
    """A word of a running text: by far most often one of the first, as people write."""
    while True:
        place = int(draw.paretovariate(0.45)) - 1
        if place < len(simple):
            return simple[place]


def word_of(kind, draw, simple, compounds):
    return running(draw, simple) if kind == "running" else one(draw, simple, compounds)


def write_texts(draw, simple, compounds, codes):
    """Texts of twelve words a sentence, for unitex and for lttoolbox, and the readings of their single words for cg3."""
    for kind, size in ((kind, size) for kind in KINDS for size in SIZES):
        length = 0
        with open(path(f"{kind}{size}.txt"), "w", encoding="utf-8") as text, \
                open(path(f"plain-{kind}{size}.txt"), "w", encoding="utf-8") as plain, \
                open(path(f"cohorts-{kind}{size}.txt"), "w", encoding="utf-8") as cohorts:
            while length < size:
                words = [word_of(kind, draw, simple, compounds) for _ in range(12)]
                line = " ".join(words)
                length += text.write(f"{line}.{{S}}\n")
                plain.write(f"{line}.\n")
                for word in line.split(" "):
                    cohorts.write(f'"<{word}>"\n')
                    # A form of its own entry, else the lower one, as unitex looks it up.
                    found = codes.get(word) or codes.get(word.lower()) or []
                    for code in found:
                        cohorts.write(f'\t"{word.lower()}" {" ".join(tags_of(code))}\n')
                    if not found:
                        cohorts.write(f'\t"*{word}"\n')
                cohorts.write('"<$.>"\n\t"." PUNCT\n')


def write():
    draw = random.Random(20261201)
    simple, compounds = forms_of(draw, LINES)
    codes = {form: codes_of(draw) for form in simple + compounds}
    write_dictionaries(simple, compounds, codes)
    write_texts(draw, simple, compounds, codes)
    with open(path("rules.cg3"), "w", encoding="utf-8") as file:
        file.write(GRAMMAR)


def chain(mark, pair):
    """The contents of the boxes of one part of a rule."""
    left, right = pair
    return [mark, *left, mark, *right, mark]


def write_graph(name, chains):
    """A graph of chains of boxes, each from box 0 to box 1."""
    boxes = [["<E>", []], ["", []]]
    for contents in chains:
        last = 0
        for content in contents:
            boxes.append([content, []])
            boxes[last][1].append(len(boxes) - 1)
            last = len(boxes) - 1
        boxes[last][1].append(1)
    with open(path(name), "w", encoding="utf-8") as file:
        file.write(f"#Unigraph\n#\n{len(boxes)}\n")
        for content, targets in boxes:
            file.write(f'"{content}" 0 0 {len(targets)}{"".join(f" {it}" for it in targets)} \n')


def write_rules():
    for number, (if_part, then_part) in enumerate(RULES):
        parts = [chain(MARKS[0], if_part)] + ([chain(MARKS[1], then_part)] if then_part else [])
        write_graph(f"rule{number}.grf", parts)
    write_graph("any.grf", [["<!>", "<N>", "<!>", "<TOKEN>", "<!>"], ["<=>", "<=>", "<TOKEN>", "<=>"]])


def automata(kind, size):
    """Writes the automata of the text of so many bytes, and gives their path."""
    tfst = path(f"{kind}{size}.tfst")
    with open(tfst, "wb") as file:
        subprocess.run(tfst_words(kind, size), stdout=file, check=True)
    return tfst


def tfst_words(kind, size):
    return [PROGRAM, "txt2tfst", path(f"{kind}{size}.txt"), path("letters.txt"), path("sentences.dic")]


def told(name, runs, files):
    seconds, memory = least(runs)
    size = sum(os.path.getsize(it) for it in files)
    print(f"  {name:12}  {seconds:.3f} s  {memory / 1e6:.1f} MB  {memory / size:.1f} of its files")


def sentences():
    print("automata of sentences")
    for size in SIZES:
        print(f" a text of {size / 1e6:.0f} MB")
        texts = [path(f"random{size}.txt"), path("sentences.dic")]
        plain = path(f"plain-random{size}.txt")
        programs = [
            ("txt2tfst", tfst_words("random", size), texts),
            ("dico", [PROGRAM, "dico", *tfst_words("random", size)[2:]], texts),
            ("lt-proc", ["lt-proc", path("sentences.bin"), plain], [plain, path("sentences.bin")]),
        ]
        runs = [[run(words) for _, words, _ in programs] for _ in range(RUNS)]
        for (name, _, files), column in zip(programs, zip(*runs)):
            told(name, column, files)


def rules():
    print("three rules")
    for kind, size in ((kind, size) for kind in KINDS for size in SIZES):
        tfst = automata(kind, size)
        print(f" automata of {os.path.getsize(tfst) / 1e6:.1f} MB, of a {kind} text of {size / 1e6:.0f} MB")
        print(f"  {different_readings(tfst)} different readings and links")
        cohorts = path(f"cohorts-{kind}{size}.txt")
        programs = [
            ("elag", [PROGRAM, "elag", tfst, *(path(f"rule{it}.grf") for it in range(len(RULES)))], [tfst]),
            ("vislcg3", ["vislcg3", "-g", path("rules.cg3"), "-I", cohorts], [cohorts]),
        ]
        runs = [[run(words) for _, words, _ in programs] for _ in range(RUNS)]
        for (name, _, files), column in zip(programs, zip(*runs)):
            told(name, column, files)


def different_readings(tfst):
    """How many different readings the links of a file have, and how many links."""
    with open(tfst, encoding="utf-8") as file:
        readings = [line.split(" ", 2)[2] for line in file if line[0].isdigit()]
    return f"{len(set(readings))} and {len(readings)}"


def long_sentences():
    print("one rule over a sentence of words with two readings each")
    for count in [40, 4_000, 8_000, 200_000]:
        tfst = words_of_two_readings(count)
        seconds, memory = best([PROGRAM, "elag", tfst, path("any.grf")])
        print(f"  {count:6} words  {seconds:.3f} s  {memory / 1e6:.1f} MB  {memory / os.path.getsize(tfst):.1f} of its file")
        with open(OUT, "rb") as left, open(tfst, "rb") as before:
            if left.read() != before.read():
                sys.exit("the rule removed something")


def words_of_two_readings(count):
    """Writes the automaton of one sentence of so many words, and gives its path."""
    with open(path("w.dic"), "w", encoding="utf-8") as file:
        file.write("w,.N:s\nw,.V:W\n")
    with open(path("w.txt"), "w", encoding="utf-8") as file:
        file.write("w " * count)
    tfst = path("w.tfst")
    with open(tfst, "wb") as file:
        subprocess.run([PROGRAM, "txt2tfst", path("w.txt"), path("letters.txt"), path("w.dic")], stdout=file, check=True)
    return tfst


def large_rules():
    print("rules of so many boxes, over a sentence of forty words")
    tfst = words_of_two_readings(40)
    for count in [2_000, 4_000, 8_000]:
        end = ["<!>", "<TOKEN>", "<!>"]
        write_graph("large.grf", [["<!>", *["<E>"] * count, "<N>", *end]])
        seconds, memory = best([PROGRAM, "elag", tfst, path("large.grf")])
        print(f"  {count:5} empty boxes in a chain  {seconds:.3f} s  {memory / 1e6:.1f} MB")
        write_graph("large.grf", [["<!>", "<N>", *end]] * (count // 5))
        seconds, memory = best([PROGRAM, "elag", tfst, path("large.grf")])
        print(f"  {count:5} boxes of equal parts    {seconds:.3f} s  {memory / 1e6:.1f} MB")


def long_links():
    print("an automaton of a state for each of so many links from the first")
    for count in [2_000, 4_000, 8_000]:
        tfst = path("long.tfst")
        with open(tfst, "w", encoding="utf-8") as file:
            file.write(f"#TFST 1\nS 1 {count + 2} {2 * count}\n")
            file.writelines(f"0 {it} a{it}\n" for it in range(1, count + 1))
            file.writelines(f"{it} {count + 1} b{it}\n" for it in range(1, count + 1))
        seconds, memory = best([PROGRAM, "elag", tfst, path("any.grf")])
        print(f"  {count:5}  {seconds:.3f} s  {memory / 1e6:.1f} MB")


def main():
    prepare()
    for name in ["lt-comp", "lt-proc", "vislcg3"]:
        if which(name) is None:
            sys.exit(f"{name} isn't there: Debian's packages lttoolbox, lttoolbox-dev and cg3")
    with open(path("letters.txt"), "w", encoding="utf-8") as file:
        file.write(ALPHABET)
    apart(write)
    write_rules()
    subprocess.run(["lt-comp", "lr", path("sentences.dix"), path("sentences.bin")], stdout=subprocess.DEVNULL, check=True)
    sentences()
    rules()
    long_sentences()
    large_rules()
    long_links()


if __name__ == "__main__":
    main()
