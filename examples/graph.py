#!/usr/bin/env python3
"""Makes a graph (.grf) of lines of text, for those who have no graph editor.

    graph.py LINE .. > FILE
    graph.py < LINES > FILE

Each line is one way through the graph, as  the <A>* <N>/[N]  for the word `the`, any number of adjectives, and a noun
with the output [N]. These are the parts of a line:

    the                  a word, in any case that the alphabet allows
    "the old"            exactly these tokens; " " is a space that has to be there
    <N:p>  {S}  #        a mask, a tag or {S}, no space
    :name                a call of the graph name.grf
    $x( $x) $|x( $|x)    a variable begins, or ends
    $[ $![ $] $*         a context begins, or ends; the left mark
    $< $>                what stands inside a word begins, or ends
    ( .. )               what stands between, as one part
    PART?  PART*         the part or nothing; the part any number of times, or nothing
    PART/TEXT            the part with an output, up to the next space, | or ), or in quotes: <N>/"[the noun] "
    WAY | WAY            the one or the other

A backslash before a sign makes it a character: \\* is an asterisk. An output of a group, or of a part that is optional
or repeated, is put out once before it.

This is a convenience beside the program `unitex`, which reads what it makes as any other graph. Nothing of it is proved.
"""
import argparse
import re
import sys
from dataclasses import dataclass

# Bounds of variables and contexts come first, since they end with signs that mean something by themselves.
TOKEN = re.compile(r"""
    \s+ | [()|*?] | /"(?:[^"\\]|\\.)*" | /(?:[^\s|)"\\]|\\.)+
  | \$\|?\w+[()] | \$!?\[ | \$\] | \$\* | \$[<>]
  | "(?:[^"\\]|\\.)*" | <(?:[^>\\]|\\.)+> | \{(?:[^}\\]|\\.)*\} | \#
  | :?(?:[^\s()|*?/+<>"{}\#\\:$]|\\.)(?:[^\s()|*?/+<>"{}\#\\]|\\.)*
""", re.X | re.A)
START, END = 0, 1


@dataclass
class Piece:
    """A part of a graph: whether it may be passed by, and the boxes with which ways through it begin and end."""
    empty: bool
    first: list
    last: list


class Graph:
    """Boxes, each with a content and those that may come next. Each item of a line is a box."""

    def __init__(self):
        self.contents, self.targets = ["<E>", ""], [[], []]

    def box(self, content):
        self.contents.append(content)
        self.targets.append([])
        return Piece(False, [len(self.contents) - 1], [len(self.contents) - 1])

    def lead(self, boxes, targets):
        for box in boxes:
            self.targets[box] += [target for target in targets if target not in self.targets[box]]

    def joined(self, one, other):
        self.lead(one.last, other.first)
        return Piece(one.empty and other.empty, one.first + other.first * one.empty, other.last + one.last * other.empty)

    def close(self, piece):
        self.lead([START], piece.first + [END] * piece.empty)
        self.lead(piece.last, [END])

    def text(self):
        lines = ["#Unigraph", "#", str(len(self.contents))]
        for number, (content, targets) in enumerate(zip(self.contents, self.targets)):
            content = content.replace("\\", "\\\\").replace('"', '\\"')
            column = len(self.contents) - 1 if number == END else max(number - 1, 0)
            numbers = [60 + 100 * column, 60, len(targets), *targets]
            lines.append(f'"{content}" ' + "".join(f"{number} " for number in numbers))
        return "\n".join(lines) + "\n"


class Line:
    """The tokens of a line that are still to be read, the next one last."""

    def __init__(self, text, graph):
        self.graph, self.tokens, at = graph, [], 0
        while at < len(text):
            found = TOKEN.match(text, at)
            if not found:
                raise ValueError(f"no part begins at {at}: {text[at:]}")
            at = found.end()
            self.tokens += [] if found[0].isspace() else [found[0]]
        self.tokens.reverse()

    def next(self):
        return self.tokens[-1] if self.tokens else ""

    def ways(self):
        piece = self.way()
        while self.next() == "|":
            self.tokens.pop()
            other = self.way()
            piece = Piece(piece.empty or other.empty, piece.first + other.first, piece.last + other.last)
        return piece

    def way(self):
        piece = Piece(True, [], [])
        while self.next() not in ("", "|", ")"):
            piece = self.graph.joined(piece, self.part())
        return piece

    def part(self):
        token = self.tokens.pop()
        if token[0] in "*?/":
            raise ValueError(f"no part stands before {token}")
        single = token != "("
        piece = self.graph.box(token) if single else self.ways()
        if not single and not (self.tokens and self.tokens.pop() == ")"):
            raise ValueError("a group isn't closed")
        while self.next() in ("*", "?"):
            if self.tokens.pop() == "*":
                self.graph.lead(piece.last, piece.first)
            piece, single = Piece(True, piece.first, piece.last), False
        if self.next()[:1] != "/":
            return piece
        output = "/" + re.sub(r'^"|"$', "", self.tokens.pop()[1:])
        if single:
            self.graph.contents[piece.first[0]] += output
        return piece if single else self.graph.joined(self.graph.box("<E>" + output), piece)


def main():
    asked = argparse.ArgumentParser(description=__doc__, formatter_class=argparse.RawDescriptionHelpFormatter)
    asked.add_argument("lines", nargs="*", metavar="LINE")
    graph = Graph()
    for number, text in enumerate(asked.parse_args().lines or sys.stdin.read().splitlines(), 1):
        try:
            line = Line(text, graph)
            graph.close(line.ways())
            if line.tokens:
                raise ValueError("a group is closed that wasn't opened")
        except ValueError as why:
            sys.exit(f"graph.py: line {number}: {why}")
    sys.stdout.buffer.write(graph.text().encode())


if __name__ == "__main__":
    main()
