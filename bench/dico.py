#!/usr/bin/env python3
"""Times `unitex dico` with generated dictionaries of 150,000 and 300,000 lines, a third of them compounds, over texts of
2 and 4 MB, beside `grep -o -w -F -f` with the forms alone over the same text; then one long form over texts that repeat
its front, each twice as long as the one before. Prints the best of three runs in turn, and peak memory by the size of
the two files.

Needs the built program (make build) and a folder to write to (bench/data).
"""
import os
import random

from measuring import DATA, PROGRAM, RUNS, apart, best, least, prepare, run

CODES = [".N+Conc:ms", ".N+Hum:fs:fp", ".V+t:P3s", ".A:mp", ".ADV"]
ALPHABET = "".join(f"{c.upper()}{c}\n" for c in "abcdefghijklmnopqrstuvwxyz")


def words(draw, size):
    """Different words, the first of them the most common ones."""
    seen = {}
    while len(seen) < size:
        seen["".join(draw.choice("bcdfglmnprst") + draw.choice("aeiou") for _ in range(draw.randint(2, 5)))] = None
    return list(seen)


def paths_of(size):
    """The paths of a dictionary of so many lines, of its forms and of a text."""
    return [os.path.join(DATA, f"dico{size}{end}") for end in (".dic", ".forms", ".txt")]


def forms_of(draw, size):
    """The forms of a dictionary of so many lines: of one word, and of two."""
    simple = words(draw, size - size // 3)
    compounds = {}
    while len(compounds) < size // 3:
        compounds[f"{draw.choice(simple)} {draw.choice(simple)}"] = None
    return simple, list(compounds)


def write(size):
    """Writes these files."""
    draw = random.Random(20261127)
    simple, compounds = forms_of(draw, size)
    forms = simple + compounds
    paths = paths_of(size)
    with open(paths[0], "w", encoding="utf-8") as file:
        file.writelines(f"{form},{draw.choice(CODES)}\n" for form in sorted(forms))
    with open(paths[1], "w", encoding="utf-8") as file:
        file.writelines(f"{form}\n" for form in forms)
    write_text(draw, simple, compounds, size * 40 // 3, paths[2])


def write_text(draw, simple, compounds, bytes_at_least, path):
    """Writes a text of these words."""
    with open(path, "w", encoding="utf-8") as file:
        length = 0
        while length < bytes_at_least:
            line = " ".join(one(draw, simple, compounds) for _ in range(12)) + draw.choice(["", ",", "."])
            length += file.write(f"{line}\n")


def write_longer(size, bytes_at_least, path):
    """Writes another text of the words of the dictionary of so many lines."""
    draw = random.Random(20261127)
    simple, compounds = forms_of(draw, size)
    write_text(draw, simple, compounds, bytes_at_least, path)


def one(draw, simple, compounds):
    """A word of the text: a compound now and then, else a word, the first ones more often; some capitalised."""
    if draw.random() < 0.03:
        return draw.choice(compounds)
    form = simple[int(len(simple) * draw.random() ** 3)]
    return form.capitalize() if draw.random() < 0.05 else form


def fronts(letters):
    """A form of 200 times `a ` and then `b`, over texts of `a` alone: from each the form goes on to its last word."""
    dictionary, text = [os.path.join(DATA, name) for name in ("fronts.dic", "fronts.txt")]
    with open(dictionary, "w", encoding="utf-8") as file:
        file.write("a " * 200 + "b,.N\n")
    print("a form of 201 words over its front, again and again")
    for size in [4_500, 9_000, 18_000]:
        with open(text, "w", encoding="utf-8") as file:
            file.write("a " * size)
        seconds, memory = best([PROGRAM, "dico", text, letters, dictionary])
        print(f"  {size:6} words  {seconds:.3f} s  {memory / 1e6:.1f} MB")


def main():
    prepare()
    letters = os.path.join(DATA, "letters.txt")
    with open(letters, "w", encoding="utf-8") as file:
        file.write(ALPHABET)
    for size in [150_000, 300_000]:
        apart(write, size)
        dictionary, forms, text = paths_of(size)
        both = os.path.getsize(dictionary) + os.path.getsize(text)
        print(f"{size} lines, a text of {os.path.getsize(text) / 1e6:.1f} MB, both {both / 1e6:.1f} MB")
        programs = [
            ("unitex dico", [PROGRAM, "dico", text, letters, dictionary], "C.UTF-8"),
            ("grep, UTF-8", ["grep", "-o", "-w", "-F", "-f", forms, text], "C.UTF-8"),
            ("grep, bytes", ["grep", "-o", "-w", "-F", "-f", forms, text], "C"),
        ]
        runs = [[run(arguments, environment=dict(os.environ, LC_ALL=locale)) for _, arguments, locale in programs]
                for _ in range(RUNS)]
        for (name, _, _), column in zip(programs, zip(*runs)):
            seconds, memory = least(column)
            print(f"  {name:12}  {seconds:.3f} s  {memory / 1e6:.1f} MB  {memory / both:.1f} of the two files")
    fronts(letters)


if __name__ == "__main__":
    main()
