#!/usr/bin/env python3
"""Runs every example of the documents and compares what the program writes with what they show, byte for byte.

    docs/tour.py [--try] [PROGRAM]

An example stands in a fenced block of README.md or docs/*.md, or in the manual page:

- A line `$ unitex ..` is a command. It is run in a copy of examples/. What stands below it, up to the next `$ ` or
  the block's end, is what it writes: standard output, then standard error. A command that is followed by
  `# status N` has to end with this exit status, any other with 0.
- A line `$ unitex .. > FILE` is a command whose standard output is the file FILE of examples/, whole. Of a line
  `$ unitex .. | ..` the shell does what stands after the program.
- A line `$ ./graph.py .. > FILE` is the same of the script of examples/ that makes graphs.
- A line `$ cat FILE` shows a file of examples/, and `$ diff FILE FILE` in what two of them differ, also before a `|`.
- A block that begins with ```text FILE is the whole of that file of examples/, and one that begins with
  ```text FILE part is some lines of it, as they stand there one below the other.
- Another block of kind text is refused, so that none is left out by mistake.
- The commands between .EX and .EE of docs/unitex.1 are run, and have to end with status 0.

PROGRAM is the built one if none is named. That of `make unproved` shows whether the documents are right before the program
is proved. With --try the program is run by `rt try`, which builds none: that takes some minutes.
"""
import difflib
import os
import re
import shlex
import shutil
import subprocess
import sys
import tempfile
from dataclasses import dataclass

TOP = os.path.dirname(os.path.dirname(os.path.abspath(__file__)))
EXAMPLES = os.path.join(TOP, "examples")
CRATE = os.path.join(TOP, "crates", "unitex")
PROGRAM = os.path.join(CRATE, "out", "unitex")
MANUAL = os.path.join("docs", "unitex.1")
SECONDS = 60
# What --version has at its end where the program is unproved, and the documents don't show.
UNPROVED = " (unproved)"


@dataclass
class Shown:
    """What a document shows: a command with what it writes, also what it writes into a file of examples/; or a file."""
    where: str
    words: list
    text: str
    status: int = 0
    compared: bool = True
    kept: str = ""
    pipe: str = ""

    def expected(self):
        """All that the command has to write: the file first, then what is shown."""
        return (cat([self.kept])[0] if self.kept else "") + self.text


def documents():
    """The paths of the documents, from the top of the repository."""
    pages = sorted(name for name in os.listdir(os.path.join(TOP, "docs")) if name.endswith(".md"))
    return ["README.md"] + [os.path.join("docs", name) for name in pages]


def lines_of(path):
    with open(os.path.join(TOP, path), encoding="utf-8", newline="") as file:
        return file.read().split("\n")


def blocks(path):
    """The fenced blocks of a document: the number of the first line, what stands after the fence, and the lines."""
    begun = None
    for number, line in enumerate(lines_of(path), 1):
        if begun is None and line.startswith("```"):
            begun, kind, block = number + 1, line[3:].split(), []
        elif begun is not None and line == "```":
            yield begun, kind, block
            begun = None
        elif begun is not None:
            block.append(line)
    if begun is not None:
        sys.exit(f"{path}:{begun}: the block has no end")


def sessions(path, begun, block):
    """The commands of a block, with the lines that stand below each."""
    for number, line in enumerate(block, begun):
        if line.startswith("$ "):
            command, _, remark = line[2:].partition(" #")
            status = re.search(r"\bstatus (\d+)$", remark)
            words, _, kept = command.partition(" > ")
            words, _, pipe = words.partition(" | ") if words.startswith(("unitex ", "diff ")) else (words, "", "")
            ending = int(status[1]) if status else 0
            shown = Shown(f"{path}:{number}", shlex.split(words), "", ending, kept=kept.strip(), pipe=pipe)
            yield shown
        else:
            shown.text += line + "\n"


def shown_in(path):
    for begun, kind, block in blocks(path):
        if any(line.startswith("$ ") for line in block):
            if not block[0].startswith("$ "):
                sys.exit(f"{path}:{begun}: a block with commands begins with one")
            yield from sessions(path, begun, block)
        elif len(kind) == 2 and kind[0] == "text":
            yield Shown(f"{path}:{begun}", ["cat", kind[1]], "".join(line + "\n" for line in block))
        elif len(kind) == 3 and kind[2] == "part":
            yield Shown(f"{path}:{begun}", ["part", kind[1]], "".join(line + "\n" for line in block))
        elif kind == ["text"]:
            sys.exit(f"{path}:{begun}: a block of kind text begins with a command, or names a file of examples/")


def shown_in_manual():
    inside = False
    for number, line in enumerate(lines_of(MANUAL), 1):
        if line in (".EX", ".EE"):
            inside = line == ".EX"
        elif inside:
            yield Shown(f"{MANUAL}:{number}", shlex.split(line), "", compared=False)


def content(name):
    """A file of examples/ as text, whichever encoding its first bytes name."""
    with open(os.path.join(EXAMPLES, name), "rb") as file:
        data = file.read()
    for mark, encoding in [(b"\xff\xfe", "utf-16-le"), (b"\xfe\xff", "utf-16-be"), (b"\xef\xbb\xbf", "utf-8")]:
        if data.startswith(mark):
            return data[len(mark):].decode(encoding)
    return data.decode()


def cat(names):
    """What these files hold; a last line without a line feed gets one, since a document can't show that."""
    text = ""
    for name in names:
        if name != os.path.basename(name) or not os.path.isfile(os.path.join(EXAMPLES, name)):
            return f"there is no file examples/{name}\n", 1
        text += content(name)
    return text if text == "" or text.endswith("\n") else text + "\n", 0


def part(name, lines):
    """These lines, where they stand one below the other in this file of examples/; else the whole file."""
    text, status = cat([name])
    return (lines if "\n" + lines in "\n" + text else text), status


def diff(names):
    """In what two files of examples/ differ. The program diff ends with 1 where they do."""
    if len(names) != 2 or not all(os.path.isfile(os.path.join(EXAMPLES, name)) for name in names):
        return "diff takes two files of examples/\n", 1
    done = subprocess.run(["diff", *names], cwd=EXAMPLES, stdin=subprocess.DEVNULL, capture_output=True)
    return done.stdout.decode("utf-8", "backslashreplace"), 0 if done.returncode == 1 else done.returncode


def graph(words):
    """What the script of examples/ writes that makes graphs."""
    return run(sys.executable, EXAMPLES, ["graph.py", *words])


def piped(pipe, text, status):
    """What the shell makes of what the program wrote, if that went well."""
    if not pipe or status:
        return text, status
    done = subprocess.run(["sh", "-c", pipe], input=text.encode(), capture_output=True, env={**os.environ, "LC_ALL": "C"})
    return (done.stdout + done.stderr).decode("utf-8", "backslashreplace"), done.returncode


def run(program, folder, words):
    """What the program writes, standard output and then standard error, and its exit status."""
    done = subprocess.run([program, *words], cwd=folder, stdin=subprocess.DEVNULL, capture_output=True, timeout=SECONDS)
    return (done.stdout + done.stderr).decode("utf-8", "backslashreplace"), done.returncode


def run_built(program, commands):
    with tempfile.TemporaryDirectory() as top:
        folder = shutil.copytree(EXAMPLES, os.path.join(top, "examples"))
        return [run(program, folder, words[1:]) for words in commands]


def run_tried(commands):
    """The same by `rt try`, which builds once and runs the program for each case, with copies of all files."""
    with tempfile.TemporaryDirectory() as cases:
        for number, words in enumerate(commands):
            for end, text in [("", ""), (".args", "".join(word + "\n" for word in words[1:]))]:
                with open(os.path.join(cases, f"{number:03}{end}"), "w", encoding="utf-8") as file:
                    file.write(text)
        data = [part for name in sorted(os.listdir(EXAMPLES)) for part in ("--data", f"{name}=../../examples/{name}")]
        done = subprocess.run(
            ["rt", "try", *data, "--cases", cases], cwd=CRATE, stdout=subprocess.PIPE, stderr=subprocess.STDOUT)
    answers = re.findall(
        rb"^== (\d+)\n(.*?)^case=\1 run=ended status=(\d+)", done.stdout, re.DOTALL | re.MULTILINE)
    if [int(number) for number, _, _ in answers] != list(range(len(commands))):
        sys.exit(done.stdout.decode("utf-8", "backslashreplace"))
    return [(text.decode("utf-8", "backslashreplace"), int(status)) for _, text, status in answers]


def compare(shown, text, status):
    """Whether it is as it is shown; else prints how the two differ."""
    problems = []
    if status != shown.status:
        problems.append(f"it ended with status {status}, and {shown.status} is shown")
    expected = shown.expected()
    if shown.compared and text != expected:
        problems += difflib.unified_diff(expected.splitlines(), text.splitlines(), "shown", "written", lineterm="")
        if not problems:
            problems.append(f"the ends of lines differ: {expected[-20:]!r} is shown, {text[-20:]!r} was written")
    if problems:
        print(f"{shown.where}: {shlex.join(shown.words)}", *problems, sep="\n  ")
    return not problems


def main():
    tried = "--try" in sys.argv[1:]
    program = os.path.abspath(next((word for word in sys.argv[1:] if word != "--try"), PROGRAM))
    if not tried and not os.access(program, os.X_OK):
        sys.exit("build the program first: make build")
    found = [shown for path in documents() for shown in shown_in(path)] + list(shown_in_manual())
    commands = [shown.words for shown in found if shown.words[0] == "unitex"]
    answers = [(text.replace(UNPROVED, ""), status) if words[1:] == ["--version"] else (text, status)
               for words, (text, status) in zip(commands, run_tried(commands) if tried else run_built(program, commands))]
    answers = iter(answers)
    good = 0
    for shown in found:
        if shown.words[0] == "unitex":
            answer = piped(shown.pipe, *next(answers))
        elif shown.words[0] == "./graph.py":
            answer = graph(shown.words[1:])
        elif shown.words[0] == "cat":
            answer = cat(shown.words[1:])
        elif shown.words[0] == "part":
            answer = part(shown.words[1], shown.text)
        elif shown.words[0] == "diff":
            answer = piped(shown.pipe, *diff(shown.words[1:]))
        else:
            answer = "this is no command of the tour\n", 127
        good += compare(shown, *answer)
    print(f"{len(commands)} runs of the program and {len(found) - len(commands)} files and other commands of the documents: "
          f"{good} as shown, {len(found) - good} not{' (unproved)' if tried else ''}")
    sys.exit(0 if good == len(found) and commands else 1)


main()
