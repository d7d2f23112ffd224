#!/usr/bin/env python3
"""Prints the definitions of crates, with the comment over each, or else its type: file, name, what it says.

    docs/definitions.py [--inner] [CRATE ..]

Without a crate it prints those of all, lowest layer first. With --inner those are left out that a contract of a public function
cites: docs/DEFINITIONS.md has these by hand, with plain names.
"""
import glob
import os
import re
import sys

sys.dont_write_bytecode = True

import names

COMMENT = re.compile(r"^ *-- ?(.*)$")


def crates():
    """The crates in the order of crates.txt."""
    rows = names.text_of(os.path.join(names.TOP, "crates.txt")).split("\n")
    return [row.split(":")[0] for row in rows if row and not row.startswith("#")]


def definitions(path):
    """The definitions of a file of specs/, each with the comment over it, or else with its type."""
    said = []
    for line in names.text_of(path).split("\n"):
        found = names.DECLARED.match(line)
        if found:
            yield found[1], " ".join(said) or line[found.end():].strip()
        comment = COMMENT.match(line)
        said = [*said, comment[1]] if comment else []


def main():
    inner = "--inner" in sys.argv[1:]
    wanted = [word for word in sys.argv[1:] if word != "--inner"] or crates()
    public = set(names.cited()) if inner else set()
    for crate in wanted:
        paths = sorted(glob.glob(os.path.join(names.CRATES, crate, "specs", "*.antt")))
        rows = [(os.path.basename(path)[:-5], word, says) for path in paths for word, says in definitions(path)]
        rows = [(file, word, says) for file, word, says in rows if (word, crate, file) not in public]
        print(*[f"\n{crate}"] + [f"  {file:<16} {word:<22} {says}".rstrip() for file, word, says in rows] if rows else [], sep="\n")


if __name__ == "__main__":
    main()
