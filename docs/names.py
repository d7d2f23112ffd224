#!/usr/bin/env python3
"""Looks whether the names in docs/DEFINITIONS.md, docs/PROVED.md and docs/CONTRACTS.md are still there, and which
definitions are missing.

- Each word in a table of docs/DEFINITIONS.md is declared in the file of specs/ that its row or its section names. A row
  that names a file by its whole path needs no section.
- Each function in a table of docs/PROVED.md or docs/CONTRACTS.md is one of its crate, and each clause is one of that
  crate's contracts.
- Each wrong body in a table of docs/PROVED.md is an edit that the gate tries.
- Each definition that a clause of a public function cites stands in docs/DEFINITIONS.md.
- Each crate stands in docs/ARCHITECTURE.md, and each reason for which a file is refused in docs/ERRORS.md.
- Each link of a document leads to a file of the repository, and to a heading of it where it names one. A page that a
  document names, it names by a link.
- The README's table of speed says what docs/BENCHMARKS.md says.
- A block that begins with ```rust FILE stands in that file.

A name in italics, as *`this`*, isn't looked for: it is of something that isn't there yet.
"""
import glob
import os
import re
import sys

sys.dont_write_bytecode = True

import speeds

TOP = os.path.dirname(os.path.dirname(os.path.abspath(__file__)))
CRATES = os.path.join(TOP, "crates")
DECLARED = re.compile(r"^ *(?:(?:abbrev|unfoldable|opaque) pub|pub (?:record|data)) ([\w-]+)(?= |$)", re.M)
CONSTRUCTOR = re.compile(r"^  (\w+) : ", re.M)
IMPORT = re.compile(r"ghost use Rattle\.(ux_\w+)\.specs\.(\w+)\.\{([^}]*)\};")
PLANNED = re.compile(r"\*`[^`]+`\*")
NAME = re.compile(r"`([^`]+)`")
PAGES = ["README.md", "CONTRIBUTING.md", "CHANGELOG.md",
         *sorted(f"docs/{name}" for name in os.listdir(os.path.join(TOP, "docs")) if name.endswith(".md"))]
FENCED = re.compile(r"^( *)```.*?^\1```$", re.M | re.S)
LINK = re.compile(r"\[([^][]*)\]\(([^()\s]+)\)")
PAGE = re.compile(r"[\w/]*\b(?:" + "|".join(re.escape(os.path.basename(name)) for name in PAGES + ["unitex.1"]) + r")\b")


def text_of(path):
    with open(path, encoding="utf-8") as file:
        return file.read()


def rows(path):
    """The lines of a page: headings as they are, rows of tables as lists of cells, each with its number."""
    for number, line in enumerate(text_of(os.path.join(TOP, path)).split("\n"), 1):
        if line.startswith("## "):
            yield number, line
        elif line.startswith("| ") and not line.startswith("|---"):
            yield number, [cell.strip() for cell in line.strip("|").split(" | ")]


def declared(crate, file):
    """What a file of a crate's specs/ declares, constructors among it; `*` stands for all of them."""
    paths = glob.glob(os.path.join(CRATES, crate, "specs", f"{file}.antt"))
    return {name for path in paths for kind in (DECLARED, CONSTRUCTOR) for name in kind.findall(text_of(path))}


def defined(problems):
    """The words of docs/DEFINITIONS.md, each looked for where it is said to stand."""
    page, words, crate, files, where = "docs/DEFINITIONS.md", set(), None, [], None
    for number, row in rows(page):
        if isinstance(row, str):
            named, where = NAME.findall(row), None
            crate = named[0].split("/")[0] if named else None
            files = [name.split("/")[-1][:-5] for name in named if name.endswith(".antt")]
        elif row[:2] == ["Name", "Word"]:
            where = next((row.index(name) for name in ("Where", "File") if name in row), None)
        elif crate or where:
            # A name in parentheses is the file of the names before it. A file without a crate is of the one before it.
            cell, _, inside = PLANNED.sub("", row[1]).partition(" (")
            stands, source = [], crate
            for name in NAME.findall(inside) or (NAME.findall(row[where]) if where else files) or ["*"]:
                source = name.split("/")[0] if "/" in name else source
                stands.append((source, name.split("/")[-1].removesuffix(".antt")))
            for word in NAME.findall(cell):
                found = [source for source, file in stands if word in declared(source, file)]
                words.update((source, word) for source in found)
                if not found:
                    named = ", ".join(f"{source}/{file}" for source, file in stands)
                    problems.append(f"{page}:{number}: {word} isn't declared in {named}")
    return words


def lemmas(where, cell, problems):
    """Looks for lemmas, each in a file of proofs/ or specs/ that the cell names after it."""
    crate, names = "", []
    for name in NAME.findall(cell):
        if not name.endswith(".antt"):
            names.append(name)
            continue
        crate = name.split("/")[0] if "/" in name else crate
        part = "specs" if "/specs/" in name else "proofs"
        path = os.path.join(CRATES, crate, part, name.split("/")[-1])
        text = text_of(path) if os.path.exists(path) else ""
        problems += [f"{where}: {lemma} isn't in {crate}/{part}/{name.split('/')[-1]}"
                     for lemma in names or [""] if not re.search(rf"^ *pub {re.escape(lemma)}", text, re.M)]
        names = []


def proved(page, problems):
    """Looks for the functions, clauses, lemmas and wrong bodies of the tables of a page."""
    crate, table = "ux_run", None
    for number, row in rows(page):
        if isinstance(row, str):
            found = re.search(r"`(ux_\w+)`", row)
            crate = found[1] if found else crate
            continue
        if row[0] in ("Clause of `run`", "Command", "Status", "Crate", "Function", "Law", "Wrong program"):
            table = row[0]
        if table == "Law":
            lemmas(f"{page}:{number}", PLANNED.sub("", row[-1]), problems)
        if table == "Wrong program" and row[0] != table:
            edits = [os.path.join(NAME.findall(row[1])[0], "must-fail", f"{name}.edit") for name in NAME.findall(row[2])]
            problems += [f"{page}:{number}: there is no {path}" for path in edits if not os.path.exists(os.path.join(CRATES, path))]
        if table in ("Law", "Command", "Status", "Wrong program") or row[0] == table:
            continue
        if re.fullmatch(r"`ux_\w+`", row[0]):
            crate, cell = row[0].strip("`"), row[1]
        else:
            cell = row[1] if row[0] == "" else row[0]
        cell = PLANNED.sub("", cell)
        source = "".join(map(text_of, glob.glob(os.path.join(CRATES, crate, "src", "*.rt"))))
        if not source:
            if NAME.findall(cell):
                problems.append(f"{page}:{number}: there is no crate {crate}")
            continue
        for name in NAME.findall(cell):
            last = name.split("::")[-1]
            if re.fullmatch(r"[\w:]+", name) and not re.search(rf"\b(fn|struct|trait) {last}\b", source):
                problems.append(f"{page}:{number}: {crate} has no {name}")
        for clauses in re.findall(r"\*([a-z_, ]+)\*", cell):
            for clause in clauses.split(", "):
                if not re.search(rf"\bensures {clause} {{", source):
                    problems.append(f"{page}:{number}: no contract of {crate} has a clause {clause}")


def exported(crate):
    """What a crate's root gives away: the names of its `pub use` lines."""
    root = os.path.join(CRATES, crate, "src", "lib.rt")
    text = text_of(root) if os.path.exists(root) else ""
    lists = re.findall(r"^pub use [\w:]*?(?:\{([^}]*)\}|(\w+));", text, re.M | re.S)
    return set(re.findall(r"\w+", " ".join(map(" ".join, lists))))


HEAD = re.compile(
    r"^(?:(?P<impl>impl\b[^{]*?(?P<type>\w+)(?:<[^>]*>)?) \{$|pub trait (?P<trait>\w+)|\}$"
    r"|(?P<indent> *)(?P<pub>pub )?fn (?P<name>\w+)(?P<clauses>.*?)(?=\{\n|;\n))", re.M | re.S)


def functions(path):
    """The public functions of a file, as what they belong to (or nothing), their name and their clauses."""
    owner, all_public = None, False
    for found in HEAD.finditer(text_of(path)):
        if not found["name"]:
            owner = found["type"] or found["trait"]
            all_public = bool(found["trait"]) or " for " in (found["impl"] or "")
        elif found["pub"] or found["indent"] and all_public:
            yield owner, found["name"], found["clauses"]


def cited():
    """The definitions of this repository that clauses of exported functions cite, with the functions that do."""
    found = {}
    for path in sorted(glob.glob(os.path.join(CRATES, "*", "src", "*.rt"))):
        names = exported(path.split(os.sep)[-3])
        imports = {}
        for source, file, listed in IMPORT.findall(text_of(path)):
            for word in listed.split(", "):
                word, _, other = word.partition(" as ")
                imports[other or word] = (word, source, file)
        for owner, function, clauses in functions(path):
            if (owner or function) in names:
                for word in set(re.findall(r"(?<![\w.])[\w-]+", clauses)) & set(imports):
                    found.setdefault(imports[word], f"{function} in {os.path.relpath(path, CRATES)}")
    return found


def listed(problems):
    """Looks for each crate, and for each reason of a refusal: the variants of the errors that crates/ux_reasons lists."""
    page = text_of(os.path.join(TOP, "docs", "ARCHITECTURE.md"))
    crates = re.findall(r"^(\w+):", text_of(os.path.join(TOP, "crates.txt")), re.M)
    problems += [f"docs/ARCHITECTURE.md: the crate {name} is missing"
                 for name in crates if f"`{name}`" not in page and not name.startswith("ux_cmd_")]
    page = text_of(os.path.join(TOP, "docs", "ERRORS.md"))
    source = text_of(os.path.join(CRATES, "ux_reasons", "src", "reason.rt"))
    found = re.findall(r"^    (\w+),$", source, re.M)
    for crate, error in re.findall(r"^use (ux_\w+)::(\w+Error);", source, re.M):
        files = "".join(map(text_of, glob.glob(os.path.join(CRATES, crate, "src", "*.rt"))))
        for variants in re.findall(rf"^pub enum {error}\b[^{{]*\{{\n(.*?)^\}}", files, re.M | re.S):
            found += re.findall(r"^    (\w+)", variants, re.M)
    # What a reader answers where memory ends is a status of its own, and a graph that isn't there is an absent file.
    problems += [f"docs/ERRORS.md: the reason {name} is missing" for name in sorted(set(found) - {"NoMemory", "MissingGraph"})
                 if f"`{name}" not in page]


def fragment(heading):
    """How a link names a heading: in lower case, with hyphens for spaces and without other signs."""
    return re.sub(r"[^\w -]", "", heading.strip().lower()).replace(" ", "-")


def blank(found):
    """What is left of a text that is taken out: its line feeds, so that lines keep their numbers."""
    return "\n" * found[0].count("\n")


def prose(page):
    """A page without its fenced blocks."""
    return FENCED.sub(blank, text_of(os.path.join(TOP, page)))


def linked(problems):
    """The number of links in the documents; each is followed, and no page is named without one."""
    fragments = {page: set(map(fragment, re.findall(r"^#+ (.*)$", prose(page), re.M))) for page in PAGES}
    count = 0
    for page in PAGES:
        text = prose(page)
        for link in LINK.finditer(text):
            count += 1
            path, _, place = link[2].partition("#")
            path = os.path.normpath(os.path.join(os.path.dirname(page), path)) if path else page
            where = f"{page}:{text[:link.start()].count(chr(10)) + 1}"
            if not os.path.exists(os.path.join(TOP, path)):
                problems.append(f"{where}: there is no {path}")
            elif place and place not in fragments.get(path, ()):
                problems.append(f"{where}: {path} has no heading {place}")
        text = LINK.sub(blank, text)
        for name in PAGE.finditer(text):
            problems.append(f"{page}:{text[:name.start()].count(chr(10)) + 1}: {name[0]} is named without a link")
    return count


def quoted(problems):
    """Looks whether the code that the documents show stands in its file."""
    for page in PAGES:
        text = text_of(os.path.join(TOP, page))
        for block in re.finditer(r"^```rust (\S+)\n(.*?)^```$", text, re.M | re.S):
            if block[2] not in text_of(os.path.join(TOP, block[1])):
                problems.append(f"{page}:{text[:block.start()].count(chr(10)) + 1}: {block[1]} hasn't this code")


def copied(problems):
    """Looks whether the table of speed is as docs/speeds.py copies it."""
    try:
        if "\n".join(speeds.table()) not in text_of(os.path.join(TOP, "README.md")):
            problems.append("README.md: the table of speed isn't that of docs/BENCHMARKS.md: run docs/speeds.py")
    except LookupError as error:
        problems.append(str(error))


def main():
    problems = []
    words = defined(problems)
    proved("docs/PROVED.md", problems)
    proved("docs/CONTRACTS.md", problems)
    for (word, crate, file), function in sorted(cited().items(), key=lambda pair: pair[0][1:]):
        if (crate, word) not in words:
            problems.append(f"docs/DEFINITIONS.md: {word} of {crate}/specs/{file}.antt is missing, cited by {function}")
    listed(problems)
    links = linked(problems)
    copied(problems)
    quoted(problems)
    print(*problems, f"{len(words)} definitions, {links} links, {len(problems)} problems", sep="\n")
    sys.exit(1 if problems else 0)


if __name__ == "__main__":
    main()
