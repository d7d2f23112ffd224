#!/usr/bin/env python3
"""Measures `unitex check`, `dico` and `compress` on dictionaries of one line of 50 MB each: with a long form, a form of escaped
commas or of marks, a long lemma, a form and a lemma, a long comment, and very many codes of both kinds. The text of `dico` has the short
forms. Beside them `wc -l`. Prints the seconds of one run and peak memory by the size of the file.

`compress` takes up to 8 GB, for the form of marks. Needs the built program (make build) and a folder to write to (bench/data).
"""
import os

from measuring import DATA, PROGRAM, apart, prepare, run

LETTERS = 50_000_000
LINES = {
    "a form": lambda: "a" * LETTERS + ",.N",
    "a form of commas": lambda: "a\\," * (LETTERS // 3) + ",.N",
    "a form of marks": lambda: "a=" * (LETTERS // 2) + ",.N",
    "a lemma": lambda: "a," + "b" * LETTERS + ".N",
    "a form and a lemma": lambda: "a" * (LETTERS // 2) + "," + "a" * (LETTERS // 4) + "b" * (LETTERS // 4) + ".N",
    "a comment": lambda: "a,.N/" + "b" * LETTERS,
    "semantic codes": lambda: "a,.N" + "+b" * (LETTERS // 2),
    "inflectional codes": lambda: "a,.N" + ":b" * (LETTERS // 2),
}


def write(path, line):
    """Writes a dictionary of the line."""
    with open(path, "w", encoding="utf-8") as file:
        file.write(f"{line()}\n")


def main():
    prepare()
    text, letters, path = [os.path.join(DATA, name) for name in ("short.txt", "two_letters.txt", "line.dic")]
    for name, content in [(text, "a b a, a\n"), (letters, "Aa\nBb\n")]:
        with open(name, "w", encoding="utf-8") as file:
            file.write(content)
    for kind, line in LINES.items():
        apart(write, path, line)
        length = os.path.getsize(path)
        print(f"a line of {length / 1e6:.1f} MB: {kind}")
        for name, arguments in [("unitex check", [PROGRAM, "check", path]),
                                ("unitex dico", [PROGRAM, "dico", text, letters, path]),
                                ("unitex compress", [PROGRAM, "compress", path]), ("wc -l", ["wc", "-l", path])]:
            seconds, memory = run(arguments)
            print(f"  {name:15}  {seconds:.3f} s  {memory / 1e6:.1f} MB  {memory / length:.1f} of the file")


main()
