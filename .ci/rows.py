#!/usr/bin/env python3
"""Runs the rows of crates/unitex_rows/data by the built program, each over real files in a folder of its own.

    .ci/rows.py [--program PROGRAM] [FILE..]

docs/FORMATS.md says how a row is written. The gate runs the same rows over a folder and sinks in memory, which
shows the top call; this script shows the program, with the system's files, words and streams. It reads the files of
rows by itself, so that a row means the same to two readers.

What differs is shown, and the exit status is 1. A row that no real file can show, since the name of one of its files
leads out of the folder, is counted and told. PROGRAM is crates/unitex/out/unitex if none is named; with no FILE all
files of rows are read.
"""
import argparse
import os
import re
import subprocess
import sys
import tempfile
from concurrent.futures import ThreadPoolExecutor
from dataclasses import dataclass, field

TOP = os.path.dirname(os.path.dirname(os.path.abspath(__file__)))
ROWS = os.path.join(TOP, "crates", "unitex_rows", "data")
PROGRAM = os.path.join(TOP, "crates", "unitex", "out", "unitex")
SECONDS = 120
SHOWN = 2000

# Which words begin the line after one that begins with the first. A word of a row's own file is `file` both at the
# head and in a row, so the head's are told apart by a capital letter.
NEXT = {
    "": ("text", "File", "row"),
    "text": ("text", "File", "row"),
    "File": ("text", "File", "row"),
    "row": ("without", "file", "run"),
    "without": ("without", "file", "run"),
    "file": ("file", "run"),
    "run": ("out", "err", "status"),
    "out": ("err", "status"),
    "err": ("status",),
    "status": ("row",),
}
HOLD = ("text", "File", "file", "out", "err")
ESCAPE = re.compile(rb"\\(x[0-9A-Fa-f]{2}|.|$)", re.DOTALL)
ESCAPES = {b"n": b"\n", b"r": b"\r", b"t": b"\t", b"0": b"\0", b"\\": b"\\"}


class Malformed(Exception):
    """What is wrong with a line."""


@dataclass
class Row:
    """A run, and what it has to give."""
    name: str
    files: dict
    without: list = field(default_factory=list)
    words: list = field(default_factory=list)
    out: bytes = b""
    err: bytes = b""
    status: int = 0


def byte_of(found):
    if len(found[1]) == 3:
        return bytes([int(found[1][1:], 16)])
    if found[1] not in ESCAPES:
        raise Malformed("no escape is written so")
    return ESCAPES[found[1]]


def unescaped(text):
    return ESCAPE.sub(byte_of, text.encode())


def number_of(text, most):
    if not re.fullmatch("[0-9]+", text) or int(text) > most:
        raise Malformed("a number is missing or too large")
    return int(text)


def shared(rest, texts):
    name, _, encoding = rest.partition(" as ")
    if name not in texts:
        raise Malformed("no text at the head of the file has this name")
    if encoding not in ("", "utf-16le", "utf-16be"):
        raise Malformed("no encoding has this name")
    return texts[name].decode().encode(encoding) if encoding else texts[name]


def piece_of(mark, rest, texts):
    """The bytes that a line of content adds, or None where it is none."""
    if mark == "|":
        return rest.encode() + b"\n"
    if mark == "-":
        return rest.encode()
    if mark == "\\":
        return unescaped(rest)
    if mark == "*":
        number, _, text = rest.partition(" ")
        return number_of(number, 2 ** 32 - 1) * unescaped(text)
    return shared(rest, texts) if mark == "=" else None


class Reader:
    """Reads a file of rows, line by line."""

    def __init__(self):
        self.texts, self.files, self.rows, self.word = {}, {}, [], ""

    def read_line(self, line):
        if line == "" or line.startswith("#"):
            return
        begin, _, rest = line.partition(" ")
        piece = piece_of(begin, rest, self.texts)
        if piece is None:
            self.read_word(begin, rest)
        elif self.word in HOLD:
            self.extend(piece)
        else:
            raise Malformed("no content stands here")

    def read_word(self, begin, rest):
        word = "File" if begin == "file" and not self.rows else begin
        if word not in NEXT[self.word]:
            raise Malformed(f"no line {begin!r} stands here")
        self.word, self.name = word, rest
        if word in ("text", "File", "file"):
            self.begin({"text": self.texts, "File": self.files}.get(word) if word != "file" else self.rows[-1].files)
        elif word == "row":
            if rest == "" or rest in [row.name for row in self.rows]:
                raise Malformed("a row has a name, and of its own")
            self.rows.append(Row(rest, {}))
        elif word == "without":
            if rest not in self.files:
                raise Malformed("no file at the head of the file has this name")
            self.rows[-1].without.append(rest)
        elif word == "run":
            self.rows[-1].words = words_of(rest)
        elif word == "status":
            self.rows[-1].status = number_of(rest, 255)
        elif rest != "":
            raise Malformed("nothing follows this word")

    def begin(self, named):
        if self.name == "" or self.name in named:
            raise Malformed("a name is missing, or stands twice")
        named[self.name] = b""

    def extend(self, piece):
        if self.word in ("out", "err"):
            row = self.rows[-1]
            setattr(row, self.word, getattr(row, self.word) + piece)
        else:
            named = self.texts if self.word == "text" else self.files if self.word == "File" else self.rows[-1].files
            named[self.name] += piece

    def finish(self):
        if self.word != "status":
            raise Malformed("the file ends where a row is to be")
        for row in self.rows:
            for name, content in self.files.items():
                if name not in row.without:
                    row.files.setdefault(name, content)
        return self.rows


def words_of(rest):
    words = rest.split(" ") if rest else []
    if "" in words:
        raise Malformed("an empty word is written ''")
    return ["" if word == "''" else unescaped(word).decode() for word in words]


def rows_of(path):
    """The rows of a file. A line that isn't accepted ends the script."""
    reader, number = Reader(), 0
    with open(path, encoding="utf-8", newline="") as file:
        lines = file.read().split("\n")
    try:
        for number, line in enumerate(lines, 1):
            reader.read_line(line)
        return reader.finish()
    except (Malformed, UnicodeDecodeError) as why:
        sys.exit(f"{os.path.relpath(path)}:{number}: {why}")


def leads_out(name):
    return name == "" or "\0" in name or os.path.isabs(name) or ".." in name.split("/")


def given_by(program, row):
    """What the program writes for a row, and its exit status."""
    with tempfile.TemporaryDirectory() as folder:
        for name, content in row.files.items():
            path = os.path.join(folder, name)
            os.makedirs(os.path.dirname(path), exist_ok=True)
            with open(path, "wb") as file:
                file.write(content)
        done = subprocess.run(
            [program, *row.words], cwd=folder, stdin=subprocess.DEVNULL, capture_output=True, timeout=SECONDS)
    return done.returncode, done.stdout, done.stderr


def difference(program, row):
    """What a row expects and what came, as text, or nothing where they agree."""
    wants, gives = (row.status, row.out, row.err), given_by(program, row)
    told = []
    for what, want, came in zip(("status", "output", "error"), wants, gives):
        if want != came:
            told.append(f"  {what}: expected {shown(want)}, came {shown(came)}\n")
    return "".join(told)


def shown(value):
    return repr(value[:SHOWN] if isinstance(value, bytes) else value)


def main():
    asked = argparse.ArgumentParser(description=__doc__.split("\n", 1)[0])
    asked.add_argument("--program", default=PROGRAM)
    asked.add_argument("files", nargs="*", metavar="FILE")
    asked = asked.parse_args()
    program = os.path.abspath(asked.program)
    if not os.access(program, os.X_OK):
        sys.exit(f"{program} is not there: rt ci and make build leave it")
    files = asked.files or [os.path.join(ROWS, name) for name in sorted(os.listdir(ROWS)) if name.endswith(".rows")]
    every = [(os.path.basename(path), row) for path in files for row in rows_of(path)]
    run = [(name, row) for name, row in every if not any(leads_out(file) for file in row.files)]
    for name, row in every:
        if (name, row) not in run:
            print(f"{name}: {row.name}: no real file shows this")
    with ThreadPoolExecutor(os.cpu_count()) as pool:
        told = list(pool.map(lambda it: difference(program, it[1]), run))
    for (name, row), text in zip(run, told):
        if text:
            print(f"{name}: {row.name}: differs\n{text}", end="")
    differ = sum(text != "" for text in told)
    print(f"rows over real files: {len(run) - differ} of {len(every)} agree, {differ} differ, {len(every) - len(run)} not run")
    return 1 if differ or not every else 0


if __name__ == "__main__":
    sys.exit(main())
