#!/usr/bin/env python3
"""Times `unitex tokenize` on 16 MB in UTF-8 and on the same text in UTF-16LE beside a C program that does
the same work and writes the same bytes (tokenize.c). Prints the best of five runs and peak memory.

Needs the built program (make build), cc and a folder to write to (bench/data).
"""
import os
import random
import subprocess
import sys

from measuring import DATA, HERE, PROGRAM, apart, least, prepare, run

RUNS = 5
SIZE = 16_000_000


def words():
    """Words of a text: some common, most rare, a few with letters past ASCII."""
    draw = random.Random(20261127)
    syllables = "ba ce di fo gu lé ma ni pö ra se ti vu xa za".split()
    rare = ["".join(draw.choices(syllables, k=draw.randint(2, 5))) for _ in range(40_000)]
    common = "the of and to in a is that it was for on are as with".split()
    while True:
        word = draw.choice(common) if draw.random() < 0.5 else draw.choice(rare)
        yield word.capitalize() if draw.random() < 0.1 else word
        yield draw.choice([" "] * 9 + [", ", ". ", "\n", "  "])


def text():
    parts, size = [], 0
    for part in words():
        parts.append(part)
        size += len(part.encode())
        if size >= SIZE:
            return "".join(parts)


def write(name, content):
    with open(os.path.join(DATA, name), "wb") as file:
        file.write(content)


def write_texts():
    content = text()
    write("tokens.txt", content.encode())
    write("tokens16.txt", b"\xff\xfe" + content.encode("utf-16-le"))


def read(path):
    with open(path, "rb") as file:
        return file.read()


prepare()
apart(write_texts)
letters = "".join(f"{c.upper()}{c}\n" for c in "abcdefghijklmnopqrstuvwxyzéö")
write("letters.txt", letters.encode())
alphabet = os.path.join(DATA, "letters.txt")
files = {
    "UTF-8": os.path.join(DATA, "tokens.txt"),
    "UTF-16LE": os.path.join(DATA, "tokens16.txt"),
}
peer = os.path.join(DATA, "tokenize")
subprocess.run(["cc", "-O2", "-o", peer, os.path.join(HERE, "tokenize.c")], check=True)

print("| Text | Program | Best of 5 | Peak memory | Peak / file |")
print("|---|---|---|---|---|")
for encoding, file in files.items():
    commands = {
        "unitex tokenize": [PROGRAM, "tokenize", file, alphabet],
        "C program": [peer, file, alphabet],
    }
    runs = {name: [] for name in commands}
    outputs = {name: os.path.join(DATA, f"{name.split()[0]}.tokens") for name in commands}
    for _ in range(RUNS):
        for name, arguments in commands.items():
            runs[name].append(run(arguments, outputs[name]))
    if len({read(output) for output in outputs.values()}) != 1:
        sys.exit("the token files differ")
    for name in commands:
        seconds, memory = least(runs[name])
        size = os.path.getsize(file)
        print(f"| {encoding} | `{name}` | {seconds:.3f} s | {memory / 1e6:.1f} MB | {memory / size:.1f} |")
