#!/usr/bin/env python3
"""Runs each command at each of its files, where the file can't be read or is too long, by the built program.

    .ci/faults.py [--program PROGRAM]

The commands and their files are those of the rows of crates/unitex_rows/data/stops.rows whose file is absent. Each row is run
over real files once more with a folder in the place of that file, and with a file that is a byte longer than a file may be. The
run has to end in status 4 or 6 with the line that names the file, and with nothing on standard output. What differs is shown,
and the exit status is 1. A command that `unitex --help` lists with a file and that no row has, is told, too.
"""
import argparse
import os
import re
import subprocess
import sys
import tempfile

sys.dont_write_bytecode = True

import rows

STOPS = os.path.join(rows.ROWS, "stops.rows")
TOO_LONG = (1 << 28) + 1


def folder(path):
    os.mkdir(path)


def long_file(path):
    """A file without blocks, where the system has such files."""
    with open(path, "wb") as file:
        file.truncate(TOO_LONG)


def given(program, row, name, make):
    """What the program writes for a row, where the file of this name is made otherwise."""
    with tempfile.TemporaryDirectory() as top:
        for other, content in row.files.items():
            with open(os.path.join(top, other), "wb") as file:
                file.write(content)
        make(os.path.join(top, name))
        done = subprocess.run([program, *row.words], cwd=top, stdin=subprocess.DEVNULL, capture_output=True,
                              timeout=rows.SECONDS)
    return done.returncode, done.stdout, done.stderr


def main():
    asked = argparse.ArgumentParser(description=__doc__.split("\n", 1)[0])
    asked.add_argument("--program", default=rows.PROGRAM)
    program = os.path.abspath(asked.parse_args().program)
    if not os.access(program, os.X_OK):
        sys.exit(f"{program} is not there: rt ci and make build leave it")
    absent = [row for row in rows.rows_of(STOPS) if row.err.startswith(b"absent: ")]
    runs, differ = 0, 0
    for row in absent:
        name = row.err.decode()[len("absent: "):].rstrip("\n")
        for make, status, line in [(folder, 4, "read fault"), (long_file, 6, "too large")]:
            wants, gives = (status, b"", f"{line}: {name}\n".encode()), given(program, row, name, make)
            runs += 1
            if gives != wants:
                differ += 1
                print(f"{' '.join(row.words)}: {name}: expected {wants}, came {rows.shown(gives)}")
    told = subprocess.run([program, "--help"], capture_output=True, text=True, check=True).stdout
    missing = set(re.findall(r"^  ([a-z]\w*) ", told, re.M)) - {row.words[0] for row in absent} - {"bench"}
    print(*[f"{command}: no row of {os.path.relpath(STOPS)} has it" for command in sorted(missing)],
          f"files that can't be read or are too long: {runs - differ} of {runs} runs agree, {differ} differ", sep="\n")
    return 1 if differ or missing or not runs else 0


if __name__ == "__main__":
    sys.exit(main())
