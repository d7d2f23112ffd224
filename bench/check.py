#!/usr/bin/env python3
"""Times `unitex check` on generated dictionaries of forms of 150,000, 300,000 and 1,000,000 lines, a third of them
compounds, beside `wc -l`, and on the image of the first. Prints the best of three runs, and peak memory by the file's
size.

Needs the built program (make build) and a folder to write to (bench/data).
"""
import os
import random

from measuring import DATA, PROGRAM, apart, best, prepare, run

CODES = [".N+Conc:ms", ".N+Hum:fs:fp", ".V+t:P3s", ".A:mp", ".ADV"]


def word(draw):
    return "".join(draw.choice("abcdefghijklmnopqrstuvwxyz") for _ in range(draw.randint(4, 12)))


def line(draw, compound):
    form = f"{word(draw)} {word(draw)}" if compound else word(draw)
    lemma = "" if draw.random() < 0.5 else form[:-1]
    return f"{form},{lemma}{draw.choice(CODES)}\n"


def write(path, size):
    """Writes a dictionary of so many lines."""
    draw = random.Random(20261127)
    with open(path, "w", encoding="utf-8") as file:
        file.writelines(line(draw, number % 3 == 0) for number in range(size))


def main():
    prepare()
    for size in [150_000, 300_000, 1_000_000]:
        path = os.path.join(DATA, f"forms{size}.dic")
        apart(write, path, size)
        length = os.path.getsize(path)
        print(f"{size} lines, {length / 1e6:.1f} MB")
        for name, arguments in [("unitex check", [PROGRAM, "check", path]), ("wc -l", ["wc", "-l", path])]:
            seconds, memory = best(arguments)
            print(f"  {name:12}  {seconds:.3f} s  {memory / 1e6:.1f} MB  {memory / length:.1f} of the file")
    image = os.path.join(DATA, "forms150000.udi")
    run([PROGRAM, "compress", os.path.join(DATA, "forms150000.dic")], image)
    length = os.path.getsize(image)
    seconds, memory = best([PROGRAM, "check", image])
    print(f"the image of 150000 lines, {length / 1e6:.1f} MB")
    print(f"  unitex check  {seconds:.3f} s  {memory / 1e6:.1f} MB  {memory / length:.1f} of the file")


main()
