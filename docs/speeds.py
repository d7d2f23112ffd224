#!/usr/bin/env python3
"""Copies the README's table of speed from docs/BENCHMARKS.md, so that both say the same.

    docs/speeds.py

writes the table anew. docs/names.py tells where it isn't the one that stands there.
"""
import os
import re

TOP = os.path.dirname(os.path.dirname(os.path.abspath(__file__)))
README, BENCHMARKS = (os.path.join(TOP, name) for name in ("README.md", "docs/BENCHMARKS.md"))
HEAD = ["| Task | `unitex` | Peer | Of the peer's time |", "|---|---|---|---|"]
# The task; the section of the page and in it the first cell of the rows, where it isn't a program's; the rows of the
# program and of the peer; the peer's name.
SPEEDS = [
    ("one word in 16 MB", "One word", "", "`unitex locate`", "`grep -iow, UTF-8`", "GNU grep, UTF-8"),
    ("two thousand phrases in 4 MB", "Two thousand phrases", "", "`unitex locate`", "`grep -o -w -F -f`, UTF-8",
     "GNU grep, UTF-8"),
    ("`dico`, an image of 300,000 lines, 4 MB", "Images beside a map of forms", "300,000, 4 MB",
     "`unitex dico` with the image", "fst, the same report", "a map of the crate fst"),
    ("`txt2tfst`, 300,000 lines, 4 MB", "Sentences and rules", "4 MB", "`unitex txt2tfst`", "`lt-proc`", "lttoolbox"),
    ("`elag`, three rules, 18 MB of automata", "Sentences and rules", "18.0 MB", "`unitex elag`", "`vislcg3`", "CG-3"),
]


def text_of(path):
    with open(path, encoding="utf-8") as file:
        return file.read()


def measured(page, section, group, name):
    """The time and the memory in the row of this name, as they are written."""
    first = ""
    for line in page.split(f"\n## {section}\n")[1].split("\n## ")[0].split("\n"):
        cells = [cell.strip() for cell in line.strip("|").split("|")]
        first = cells[0] or first
        if name in cells and group in ("", first):
            rest = " ".join(cells[cells.index(name) + 1:])
            return re.search(r"[\d.]+ s\b", rest)[0], re.search(r"[\d.]+ MB", rest)[0]
    raise LookupError(f"docs/BENCHMARKS.md, {section}: there is no row {group} {name}")


def table():
    """The lines of the table."""
    page = text_of(BENCHMARKS)
    lines = list(HEAD)
    for task, section, group, name, peer, called in SPEEDS:
        (time, memory), (other, others) = measured(page, section, group, name), measured(page, section, group, peer)
        ratio = float(time[:-2]) / float(other[:-2])
        lines.append(f"| {task} | {time}, {memory} | {called}: {other}, {others} | {ratio:.2f} |")
    return lines


def main():
    lines = text_of(README).split("\n")
    begin = lines.index(HEAD[0])
    end = next(at for at in range(begin, len(lines)) if not lines[at].startswith("|"))
    lines[begin:end] = table()
    with open(README, "w", encoding="utf-8") as file:
        file.write("\n".join(lines))


if __name__ == "__main__":
    main()
