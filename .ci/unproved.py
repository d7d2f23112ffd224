#!/usr/bin/env python3
"""Builds the program without a proof, in some minutes: crates/unitex/out/unitex-unproved.

It is for a first look. Nothing shows that it keeps to its contracts, and its --version says that it is unproved. What is
proved is built by `make build`.

`rt try` compiles a program with all crates below it before anything is proved, and runs it with checks, slowly. Here it is
run in a copy of the crates, and with a copy of the kit's folder whose compiler keeps the program's code and goes no
further. That code is compiled once more, without the checks, and linked by the kit. All is made in a temporary folder.
"""
import os
import shutil
import subprocess
import sys
import tempfile

TOP = os.path.dirname(os.path.dirname(os.path.abspath(__file__)))
PROGRAM = os.path.join(TOP, "crates", "unitex", "out", "unitex-unproved")
# The text of --version, in the crate that has it, and what is put after it.
VERSION, NAME, LABEL = "ux_command_line/src/help.rt", "unitex 0.1.0", " (unproved)"
# Rattle's code is compiled with a sanitizer by `rt try`, and by no other call of the compiler.
COMPILER = """#!/bin/sh
case " $* " in *" -fsanitize"*) cp module.bc "{folder}/module.bc" && printf '%s\\n' "$@" > "{folder}/words"; exit 1;; esac
exec "{kit}/toolchain/bin/clang" "$@"
"""


def linked(source, target, other=()):
    """A folder of links to all that another one has, but for these names."""
    os.makedirs(target)
    for name in set(os.listdir(source)) - set(other):
        os.symlink(os.path.join(source, name), os.path.join(target, name))


def script(path, text):
    with open(path, "w", encoding="utf-8") as file:
        file.write(text)
    os.chmod(path, 0o755)


def copied_kit(kit, folder):
    """The kit, with a compiler that keeps the code. Of the prover `rt try` asks hints alone, which are left out."""
    copy = os.path.join(folder, "kit")
    linked(kit, copy, ["bin", "toolchain"])
    linked(f"{kit}/bin", f"{copy}/bin", ["rt", "rtlib.py", "rattle"])
    linked(f"{kit}/toolchain", f"{copy}/toolchain", ["bin"])
    linked(f"{kit}/toolchain/bin", f"{copy}/toolchain/bin", ["clang"])
    for name in ("rt", "rtlib.py"):
        shutil.copy(f"{kit}/bin/{name}", f"{copy}/bin/{name}")
    script(f"{copy}/bin/rattle", "#!/bin/sh\nexit 1\n")
    script(f"{copy}/toolchain/bin/clang", COMPILER.format(folder=folder, kit=kit))
    return copy


def copied_crates(folder):
    """The crates as they stand, but for the text of --version."""
    copy = os.path.join(folder, "repository")
    shutil.copytree(os.path.join(TOP, "crates"), os.path.join(copy, "crates"), ignore=shutil.ignore_patterns("out"))
    shutil.copy(os.path.join(TOP, "crates.txt"), copy)
    path = os.path.join(copy, "crates", VERSION)
    with open(path, encoding="utf-8") as file:
        text = file.read()
    if text.count(NAME) != 1:
        sys.exit(f"{VERSION} hasn't the version {NAME}")
    script(path, text.replace(NAME, NAME + LABEL))
    return os.path.join(copy, "crates", "unitex")


def main():
    command = shutil.which("rt") or sys.exit("the kit's command rt isn't in PATH")
    kit = os.path.dirname(os.path.dirname(os.path.realpath(command)))
    print("compiling without a proof: some minutes", flush=True)
    with tempfile.TemporaryDirectory(prefix="unproved-") as folder:
        tried = subprocess.run([f"{copied_kit(kit, folder)}/bin/rt", "try", "--", "--version"], cwd=copied_crates(folder),
                               env={**os.environ, "TMPDIR": folder}, capture_output=True, text=True)
        if not os.path.exists(f"{folder}/module.bc"):
            sys.exit(f"{tried.stdout}{tried.stderr}nothing was compiled: `rt try -- --version` in crates/unitex says more")
        with open(f"{folder}/words", encoding="utf-8") as file:
            words = [word for word in file.read().splitlines() if not word.startswith("-fsanitize")]
        words = ["-O2" if word == "-O0" else word for word in words]
        subprocess.run([f"{kit}/toolchain/bin/clang", *words], cwd=folder, check=True)
        os.makedirs(os.path.dirname(PROGRAM), exist_ok=True)
        subprocess.run([f"{kit}/bin/rattle-link", "--target", "x86_64-unknown-linux-gnu", "--toolchain", f"{kit}/toolchain",
                        "-o", PROGRAM, f"{folder}/module.o", f"{kit}/c/libos_c.a", f"{kit}/c/liblibc_c.a"], check=True)
    print(f"built without a proof: {os.path.relpath(PROGRAM)}")


if __name__ == "__main__":
    main()
