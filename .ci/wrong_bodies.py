#!/usr/bin/env python3
"""Tries wrong bodies: the edits of crates/NAME/wrong-bodies, each of which the prover of its crate must refuse.

    .ci/wrong_bodies.py [--since COMMIT] [--kept | --look] [NAME ..]

Tries those of the crates that are named. With no name: of all crates that have such a folder, or with --since of those whose
own files differ from that commit's. Edits in crates/NAME/must-fail are tried by the gate, and not here.

Each crate is checked first, as it stands, so that what is proved stays in its out/. Then the crates are copied into a temporary
folder, where the wrong bodies take the place of the edits in must-fail/, and `rt must-fail NAME` tries them. It begins with what
the check kept, and tells of an edit that was tried before, over the same files, what it came to.

With --kept nothing is checked before: `rt ci` tries them in such a folder, which takes each crate as it is from what it passed
earlier on this machine. That is shorter where the gate has passed these files, and no check was run in this clone.

With --look nothing is tried: it says which of them can't be applied any more, since the line that they change is gone.

The last line counts. The status is 1 where a crate isn't proved, or a wrong body isn't refused, is bad or wasn't tried.
"""
import argparse
import os
import re
import shutil
import subprocess
import sys
import tempfile

TOP = os.path.dirname(os.path.dirname(os.path.abspath(__file__)))
CRATES = os.path.join(TOP, "crates")
FOLDER = "wrong-bodies"
# What rt says of an edit, by its first words; a refusal that names no contract is counted apart.
VERDICT = re.compile(r"^rt: must-fail [^:]*: (refused|NOT REFUSED|BAD EDIT|NOT TRIED)(, as it must be \(only )?")
BAD_NAME = re.compile(r"^rt: \S+: BAD EDIT")


def changed_since(commit):
    """The crates of which a file differs from the commit's, or isn't in git yet."""
    listed = [["git", "diff", "--name-only", commit], ["git", "ls-files", "--others", "--exclude-standard"]]
    paths = [path for words in listed for path in subprocess.check_output(words, cwd=TOP, text=True).split("\n")]
    return {path.split("/")[1] for path in paths if path.startswith("crates/")}


def chosen(names, commit):
    """The crates to try, in the order of crates.txt."""
    with open(os.path.join(TOP, "crates.txt"), encoding="utf-8") as file:
        every = [line.split(":")[0].split()[0] for line in file if line.strip() and not line.startswith("#")]
    having = [name for name in every if os.path.isdir(os.path.join(CRATES, name, FOLDER))]
    lacking = [name for name in names if name not in having]
    if lacking:
        sys.exit(f"{lacking[0]} is no crate with a folder {FOLDER}")
    if names:
        return [name for name in having if name in names]
    changed = changed_since(commit) if commit else having
    return [name for name in having if name in changed]


def why_not_applied(crate, edit):
    """Why the edit of the crate can't be applied, or nothing where it can."""
    path, old, texts = None, None, {}
    with open(edit, encoding="utf-8") as file:
        lines = file.read().split("\n")
    for line in lines:
        if line.startswith("file: "):
            path = os.path.join(CRATES, crate, line.removeprefix("file: ").strip())
            if not os.path.isfile(path):
                return f"there is no {os.path.relpath(path, TOP)}"
            if path not in texts:
                with open(path, encoding="utf-8") as file:
                    texts[path] = file.read()
        elif line.startswith("old: "):
            old = line.removeprefix("old: ")
            count = texts[path].count(old)
            if count != 1:
                return f"its text stands {count} times in {os.path.relpath(path, TOP)}"
        elif line.startswith("new:"):
            texts[path] = texts[path].replace(old, line.removeprefix("new:").removeprefix(" "))
    return None


def looked(crate):
    """Says which wrong bodies of the crate can't be applied, and tells whether all can."""
    folder, all_well = os.path.join(CRATES, crate, FOLDER), True
    for name in sorted(os.listdir(folder)):
        why = why_not_applied(crate, os.path.join(folder, name))
        if why:
            all_well = False
            print(f"{crate}/{name}: {why}")
    return all_well


def link_or_copy(one, other):
    """A second name for a file that rt replaces and never writes into."""
    try:
        os.link(one, other)
    except OSError:
        shutil.copy2(one, other)


def copied(to, trying):
    """A copy of the crates, with the libraries that are built. Those to be tried have their wrong bodies in the place of the
    gate's edits, and the others have no edits."""
    for name in ("crates.txt", "HANDLES"):
        shutil.copy2(os.path.join(TOP, name), to)
    for crate in sorted(os.listdir(CRATES)):
        here, there = os.path.join(CRATES, crate), os.path.join(to, "crates", crate)
        shutil.copytree(here, there, ignore=lambda at, names: {"out", "must-fail", FOLDER} & {*names} if at == here else ())
        if os.path.isdir(os.path.join(here, "out", "rlib")):
            shutil.copytree(os.path.join(here, "out", "rlib"), os.path.join(there, "out", "rlib"), copy_function=link_or_copy)
        if crate in trying:
            shutil.copytree(os.path.join(here, FOLDER), os.path.join(there, "must-fail"))


def told(words, trying, counts):
    """Runs these words over a copy, prints what they say as it comes, counts what the edits come to, and tells whether all
    is well."""
    with tempfile.TemporaryDirectory(prefix="wrong-bodies-") as room:
        copied(room, trying)
        with subprocess.Popen(words, cwd=room, stdout=subprocess.PIPE, stderr=subprocess.STDOUT, text=True, errors="replace") as ran:
            for line in ran.stdout:
                print(line, end="", flush=True)
                verdict = VERDICT.match(line)
                if verdict:
                    counts[verdict[1]] += 1
                    counts["by no contract"] += verdict[2] is not None
                elif BAD_NAME.match(line):
                    counts["BAD EDIT"] += 1
    return not ran.returncode


def tried(crate, counts):
    """Tries the wrong bodies of a crate, and tells whether all is well."""
    print(f"{crate}: checking it as it stands", flush=True)
    check = subprocess.run(["rt", "check"], cwd=os.path.join(CRATES, crate), stdout=subprocess.PIPE, stderr=subprocess.STDOUT)
    if check.returncode:
        print(check.stdout.decode(errors="replace") + f"{crate}: not proved, so its wrong bodies weren't tried", flush=True)
        return False
    return told(["rt", "must-fail", crate], [crate], counts)


def main():
    words = argparse.ArgumentParser(description=__doc__.split("\n")[0])
    words.add_argument("--since", metavar="COMMIT", help="only crates whose own files differ from those of this commit")
    words.add_argument("--kept", action="store_true", help="take the crates as they are from what rt ci passed on this machine")
    words.add_argument("--look", action="store_true", help="only say which wrong bodies can't be applied any more")
    words.add_argument("names", metavar="NAME", nargs="*")
    given = words.parse_args()
    counts = dict.fromkeys(("refused", "NOT REFUSED", "BAD EDIT", "NOT TRIED", "by no contract"), 0)
    crates = chosen(given.names, given.since)
    if given.look:
        stale = [crate for crate in crates if not looked(crate)]
        print(f"wrong bodies: {'all can be applied' if not stale else 'not all can be applied'}")
        return 1 if stale else 0
    if given.kept:
        # A bad edit fails nothing in `rt ci`.
        failed = crates if not told(["rt", "ci", *crates], crates, counts) or counts["BAD EDIT"] else []
    else:
        failed = [crate for crate in crates if not tried(crate, counts)]
    apart = f" ({counts['by no contract']} of them only by a name or a limit)" if counts["by no contract"] else ""
    print(
        f"wrong bodies: {counts['refused']} refused{apart}, {counts['NOT REFUSED']} not refused, "
        f"{counts['BAD EDIT']} bad, {counts['NOT TRIED']} not tried" + (f"; FAILED: {' '.join(failed)}" if failed else "")
    )
    return 1 if failed else 0


if __name__ == "__main__":
    sys.exit(main())
