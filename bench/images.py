#!/usr/bin/env python3
"""Times `unitex compress`, and `unitex dico` with the image that it writes and with the dictionary itself, on the data of
dico.py: 150,000 and 300,000 lines; then the larger image over a text of 40 MB. Beside them a program over the map of the
crate fst (fst_map.rs), which makes a map of the same forms, sorted, looks the words of the same text up in it, finds these
words without a look-up, and writes the same report by it. Prints the best of three runs in turn, and peak memory, that of
`compress` by line. Ends where the two reports differ.

Needs the built program (make build), rustc, the sources of fst 0.3 and byteorder as Debian's package librust-fst-dev has
them, and a folder to write to (bench/data). REGISTRY tells where the sources are.
"""
import filecmp
import glob
import os
import subprocess
import sys

import dico
from measuring import DATA, HERE, PROGRAM, RUNS, apart, best, least, prepare, run

REGISTRY = os.environ.get("REGISTRY", "/usr/share/cargo/registry")
PEER = os.path.join(DATA, "fst_map")


def source(name):
    """The root of a crate's newest source."""
    found = sorted(glob.glob(os.path.join(REGISTRY, f"{name}-[0-9]*", "src", "lib.rs")))
    if not found:
        sys.exit(f"{name} isn't in {REGISTRY}: install librust-fst-dev")
    return found[-1]


def compile_peer():
    """Compiles the peer and the crates under it."""
    words = ["rustc", "-O", "--cap-lints", "allow", "-L", DATA]
    library = ["--crate-type", "rlib", "--out-dir", DATA]
    extern = ["--extern", f"byteorder={DATA}/libbyteorder.rlib"]
    subprocess.run([*words, *library, "--edition=2021", "--crate-name", "byteorder", "--cfg", 'feature="std"',
                    source("byteorder")], check=True)
    subprocess.run([*words, *library, "--edition=2015", "--crate-name", "fst", *extern, source("fst")], check=True)
    subprocess.run([*words, "--edition=2021", "--extern", f"fst={DATA}/libfst.rlib", "-o", PEER,
                    os.path.join(HERE, "fst_map.rs")], check=True)


def sort_forms(forms, into):
    """Writes the forms in the order of their bytes."""
    with open(forms, "rb") as file:
        lines = sorted(set(file.read().splitlines()))
    with open(into, "wb") as file:
        file.writelines(line + b"\n" for line in lines)


def main():
    prepare()
    compile_peer()
    letters = os.path.join(DATA, "letters.txt")
    with open(letters, "w", encoding="utf-8") as file:
        file.write(dico.ALPHABET)
    for size in [150_000, 300_000]:
        apart(dico.write, size)
        dictionary, forms, text = dico.paths_of(size)
        image, ordered, table, report, peer_report = [
            os.path.join(DATA, f"dico{size}{end}") for end in (".udi", ".sorted", ".map", ".report", ".peer")]
        apart(sort_forms, forms, ordered)
        print(f"{size} lines, a text of {os.path.getsize(text) / 1e6:.1f} MB")
        programs = [
            ("unitex compress", [PROGRAM, "compress", dictionary], image),
            ("fst, a map of the forms", [PEER, "build", ordered, table], None),
            ("unitex dico, the image", [PROGRAM, "dico", text, letters, image], report),
            ("fst, the words looked up", [PEER, "look", table, text], None),
            ("fst, no word looked up", [PEER, "split", table, text], None),
            ("fst, the same report", [PEER, "report", table, dictionary, text], peer_report),
            ("unitex dico, the dictionary", [PROGRAM, "dico", text, letters, dictionary], None),
        ]
        runs = [[run(arguments, *([output] if output else [])) for _, arguments, output in programs]
                for _ in range(RUNS)]
        for (name, _, output), column in zip(programs, zip(*runs)):
            seconds, memory = least(column)
            by_line = f"  {memory / size:.0f} bytes a line" if output == image else ""
            print(f"  {name:28}  {seconds:.3f} s  {memory / 1e6:.1f} MB{by_line}")
        if not filecmp.cmp(report, peer_report, shallow=False):
            sys.exit("the reports differ")
        print(f"  the image {os.path.getsize(image) / 1e6:.1f} MB, the map {os.path.getsize(table) / 1e6:.1f} MB")
    over_longer_text(300_000, letters)


def over_longer_text(size, letters):
    """Times both over a text of 40 MB, by the image and the map of the dictionary of so many lines."""
    dictionary, text = dico.paths_of(size)[0], os.path.join(DATA, "longer.txt")
    image, table = [os.path.join(DATA, f"dico{size}{end}") for end in (".udi", ".map")]
    apart(dico.write_longer, size, 40_000_000, text)
    print(f"{size} lines, a text of {os.path.getsize(text) / 1e6:.1f} MB")
    for name, arguments in [("unitex dico, the image", [PROGRAM, "dico", text, letters, image]),
                            ("fst, the words looked up", [PEER, "look", table, text]),
                            ("fst, no word looked up", [PEER, "split", table, text]),
                            ("fst, the same report", [PEER, "report", table, dictionary, text])]:
        seconds, memory = best(arguments)
        print(f"  {name:28}  {seconds:.3f} s  {memory / 1e6:.1f} MB")


main()
