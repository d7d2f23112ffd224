#!/usr/bin/env python3
"""Runs each command over the inputs that cost it most, at the sizes n, 2n and 4n, under a limit of time and of memory.

Each case has a bound: by which power of n the seconds and the memory of a run may grow. The bound is that of the answer,
or what the documents say (docs/ERRORS.md, "Slow"). A case fails where a run ends by a signal or in another status than the
one that it should have, and where seconds or memory grow by half a power more than the bound, or come to the limit. Cases
that are known to be worse are listed with what has to be mended, and fail only by a signal or another status; one that
keeps its bound again is told, so that it can be taken off. A command that `unitex --help` lists and no case tries fails, too.

    bench/hostile.py [--program PROGRAM] [WORD..]

With words only the cases run whose command or name has one of them. It is no part of the gate, and takes some minutes. Needs a
program (make build, or the one of make unproved by --program), cc and a folder to write to (bench/data).
"""
import argparse
import itertools
import math
import os
import re
import resource
import struct
import subprocess
import sys

import measuring
from grammars import graph

FOLDER = os.path.join(measuring.DATA, "hostile")
SECONDS = 10
MEMORY = 2 << 30
# What is less than this is the start of the program, and says nothing.
LEAST_SECONDS, LEAST_MEMORY = 0.05, 24 << 20
# What has to be mended, in the words of the work that is planned.
SEARCH = "a search that costs no more than its answer"
IMAGES = "images and entries that cost no more than their bytes"
RULES = "rules that cost no more than their automata"
CALLS = "words of called graphs that cost no more than their calls"
STATES = "none: the answer itself may have 2^n states"
ENTRIES = "none: the answer itself has 2^n entries"
CASES = []


class Case:
    """A command, the size to begin with, the bounds of time and memory, the status, and what has to be mended."""

    def __init__(self, make, command, size, power, memory, status, known):
        self.make, self.command, self.size, self.status, self.known = make, command, size, status, known
        self.power, self.memory = power, power if memory is None else memory
        self.name = " ".join(make.__doc__.rstrip(".").split())


def case(command, size, power=1, memory=None, status=0, known=None):
    """Takes up a function of n, which writes files and gives the words after the command. Its doc is the case's name."""
    def taken(make):
        CASES.append(Case(make, command, size, power, memory, status, known))
        return make
    return taken


# Files.


def put(name, content):
    """Writes a file, and gives its path."""
    path = os.path.join(FOLDER, name)
    with open(path, "wb") as file:
        file.write(content if isinstance(content, bytes) else content.encode())
    return path


def text(content):
    return put("text.txt", content)


def letters():
    return put("alphabet.txt", "".join(f"{chr(65 + k)}{chr(97 + k)}\n" for k in range(26)))


def dictionary(lines):
    return put("d.dic", "".join(f"{line}\n" for line in lines))


def words(count):
    """So many different words."""
    for number in range(count):
        yield "".join(chr(97 + number // 26 ** place % 26) for place in range(4))


def stages(*contents):
    """A graph of stages: each is the contents of its boxes, all of which lead to all boxes of the next one."""
    boxes, firsts = [("<E>", []), ("", [])], []
    for stage in contents:
        firsts.append(range(len(boxes), len(boxes) + len(stage)))
        boxes += [(content, []) for content in stage]
    for number, before in enumerate([range(1), *firsts]):
        after = list(firsts[number]) if number < len(firsts) else [1]
        for place in before:
            boxes[place] = (boxes[place][0], after)
    return graph(boxes)


def chain(*contents):
    """The main graph: boxes one after the other."""
    return put("g.grf", stages(*([content] for content in contents)))


def drawn(*boxes):
    """The main graph: boxes from box 2 on with their targets, all of which may come first."""
    return put("g.grf", graph([("<E>", [2]), ("", []), *boxes]))


def image(states, lists, head=None):
    """An image: states as the number of a list and one, or 0, and edges; lists of codes, each of pairs and a text."""
    out = [head or b"UXUDI\x02\r\n" + struct.pack("<II", len(states), len(lists))]
    for final, edges in states:
        out.append(struct.pack("<II", final, len(edges)))
        out += [struct.pack("<II", ord(letter), target) for letter, target in edges]
    for codes in lists:
        out.append(struct.pack("<I", len(codes)))
        for pairs, told in codes:
            out.append(struct.pack("<I", len(pairs)))
            for taken, added in pairs:
                out.append(struct.pack("<II", taken, len(added)) + added.encode())
            out.append(struct.pack("<I", len(told)) + told.encode())
    return put("d.udi", b"".join(out))


NOUN = [([(0, "")], "N")]
# Of a form that ends in `a` both make one entry.
TWO_LEMMAS = [([(0, "")], "N"), ([(1, "a")], "N")]


def ladder(count, pair, codes):
    """An image of few states and 2^count forms: each letter is one of two."""
    return image([(1, [])] + [(0, [(letter, state) for letter in pair]) for state in range(count)], [codes])


# Texts and alphabets.


@case("tokenize", 1_000_000)
def open_braces(n):
    """n braces that begin no tag"""
    return text("{" * n), letters()


@case("tokenize", 500_000)
def protected_braces(n):
    """n braces after backslashes"""
    return text("\\{" * n), letters()


@case("tokenize", 250_000)
def tags_left_open(n):
    """n tags that don't end"""
    return text("{a,.N" * n), letters()


@case("tokenize", 100_000)
def different_tags(n):
    """n different tags"""
    return text("".join(f"{{{word},.N+{word}:s}}" for word in words(n))), letters()


@case("tokenize", 500_000)
def one_tag(n):
    """one tag of n codes"""
    return text("{a,.N" + "+b" * n + "}"), letters()


@case("tokenize", 4_000_000)
def one_word(n):
    """one word of n letters"""
    return text("a" * n), letters()


@case("tokenize", 100_000)
def different_words(n):
    """n different words"""
    return text(" ".join(words(n))), letters()


@case("tokenize", 8_000_000)
def white_space(n):
    """n spaces and line feeds"""
    return text(" \n" * (n // 2)), letters()


@case("tokenize", 1_000_000)
def utf16(n):
    """n characters of four bytes in UTF-16"""
    return text("\ufeff".encode("utf-16-le") + ("\U00010400 " * (n // 2)).encode("utf-16-le")), letters()


@case("tokenize", 50_000)
def overlapping_ranges(n):
    """an alphabet of n ranges that overlap"""
    lines = (f"#{chr(0x4e00 + k % 1000)}{chr(0x9000 + k % 999)}\n" for k in range(n))
    return text("a"), put("alphabet.txt", "".join(lines))


@case("tokenize", 100_000)
def paired_letters(n):
    """an alphabet of n lines that pair one letter with many"""
    return text("a"), put("alphabet.txt", "".join(f"{chr(0x10000 + k)}a\n" for k in range(n)))


# Dictionaries.


@case("check", 200_000)
def one_form(n):
    """n entries of one form"""
    return (dictionary(f"a,.N{k}" for k in range(n)),)


@case("compress", 50_000)
def one_form_compressed(n):
    """n entries of one form"""
    return one_form(n)


@case("check", 500_000)
def equal_lines(n):
    """n equal lines"""
    return (dictionary(itertools.repeat("a,.N", n)),)


@case("check", 2_000_000)
def one_line_of_codes(n):
    """one line of n codes"""
    return (dictionary(["a,.N" + "+b" * n]),)


@case("check", 2_000_000)
def one_line_of_marks(n):
    """one line of n marks in form and lemma"""
    return (dictionary(["a=" * n + ",.N"]),)


@case("check", 2_000_000)
def one_line_of_backslashes(n):
    """one line of n protected letters"""
    return (dictionary(["\\a" * n + ",.N"]),)


@case("check", 1_000_000)
def one_line_of_lemmas(n):
    """a file of lemmas, of one line with n codes"""
    return "--delas", dictionary(["a,N" + "+b" * n])


@case("compress", 20_000)
def forms_that_share_nothing(n):
    """n forms that share nothing"""
    return (dictionary(f"{word}{word[::-1]}{word}{word}x,.N" for word in words(n)),)


@case("compress", 100_000)
def one_long_form(n):
    """one form of n letters"""
    return (dictionary(["a" * n + ",.N"]),)


@case("check", 1_000_000, status=3)
def forged_counts(n):
    """an image that says 2^32 - 1 states and lists, of n bytes"""
    return (image([], [], b"UXUDI\x02\r\n" + b"\xff" * 8 + b"\0" * n),)


@case("check", 1_000_000, status=3)
def forged_edges(n):
    """an image whose first state says 2^32 - 1 edges, of n bytes"""
    return (image([], [], b"UXUDI\x02\r\n" + struct.pack("<IIII", 2, 1, 1, 2 ** 32 - 1) + b"\1" * n),)


@case("check", 200_000)
def wide_state(n):
    """an image whose root has n edges"""
    return (image([(1, []), (0, [(chr(0x10000 + k), 0) for k in range(n)])], [NOUN]),)


@case("check", 50_000)
def many_lists(n):
    """an image of n lists of codes"""
    root = (0, [(chr(0x10000 + k), k) for k in range(n)])
    return (image([(k + 1, []) for k in range(n)] + [root], [[([(0, str(k))], "N")] for k in range(n)]),)


@case("check", 250_000, memory=1)
def many_pairs(n):
    """an image of one code of n pairs"""
    return (image([(1, []), (0, [("a", 0)])], [[([(0, "")] * n, "N")]]),)


@case("check", 5, known=IMAGES)
def ladder_of_lemmas(n):
    """an image of n states with 2^n forms, whose codes may make one entry"""
    return (ladder(n, "ab", TWO_LEMMAS),)


@case("check", 2_000, known=IMAGES)
def forms_of_equal_letters(n):
    """an image of n forms, each a letter longer, whose codes may make one entry"""
    lists = [[([(0, "")], code), ([(1, "a")], code)] for code in ("N", "V")]
    return (image([(1 + k % 2, [("a", k - 1)] if k else []) for k in range(n)] + [(0, [("a", n - 1)])], lists),)


COLLISIONS = r"""
#include <stdint.h>
#include <stdio.h>
#include <stdlib.h>

/* The hash of a state without a list, as crates/ux_dawg/src/hash.rt has it. */
static uint64_t mix(uint64_t hash, uint64_t word) {
    __uint128_t product = (__uint128_t)(hash ^ word) * 0x9e3779b97f4a7c15u;
    return (uint64_t)product ^ (uint64_t)(product >> 64);
}

/* Pairs of letters of states with two edges to state 0, whose hashes have 16 last bits of nought. */
int main(int count, char **words) {
    long left = count > 1 ? atol(words[1]) : 0;
    uint64_t start = mix(0x243f6a8885a308d3u, 0);
    for (uint64_t first = 97; left > 0; first++)
        for (uint64_t second = 0x10000; second <= 0x10ffff && left > 0; second++)
            if (!(mix(mix(start, first << 32), second << 32) & 0xffff)) {
                printf("%lu %lu\n", (unsigned long)first, (unsigned long)second);
                left--;
            }
    return 0;
}
"""


def collisions(count):
    """So many pairs of letters, each of a state whose hash has the same last bits."""
    source, program = put("collisions.c", COLLISIONS), os.path.join(FOLDER, "collisions")
    subprocess.run(["cc", "-O2", "-o", program, source], check=True)
    told = subprocess.run([program, str(count)], stdout=subprocess.PIPE, text=True, check=True).stdout
    return [map(int, line.split()) for line in told.splitlines()]


@case("check", 8_000, known=IMAGES)
def states_of_one_bucket(n):
    """an image of n states that are looked up in one place"""
    states = [(0, [(chr(first), 0), (chr(second), 0)]) for first, second in collisions(n)]
    return (image([(1, []), *states, (0, [(chr(0x10000 + k), k + 1) for k in range(n)])], [NOUN]),)


@case("compress", 5, known=IMAGES)
def ladder_compressed(n):
    """an image of n states with 2^n forms"""
    return (ladder(n, "ab", NOUN),)


@case("dico", 400, 2, 1)
def long_compound(n):
    """a form of n words over n words, without its last one"""
    return text("a " * n), letters(), dictionary(["a " * n + "b,.N"])


@case("dico", 400, 2, 1)
def long_word_by_letters(n):
    """a form of n letters over n letters, without its last one, each a token"""
    return "--chars", text("a" * n), letters(), dictionary(["a" * n + "b,.N"])


@case("dico", 50_000)
def text_of_one_word(n):
    """n equal words with n entries"""
    return text("a " * n), letters(), dictionary(f"a,.N{k}" for k in range(n))


@case("dico", 50)
def many_dictionaries(n):
    """n dictionaries, which are one file"""
    return text("a b"), letters(), *[dictionary(["a,.N", "a b,.N"])] * n


@case("dico", 40, 2, known=IMAGES)
def compounds_inside_each_other(n):
    """forms of one to n words over n words: an entry is made at each of its places"""
    return text("a " * n * 10), letters(), dictionary(f"{' '.join('a' * k)},.N" for k in range(1, n + 1))


@case("dico", 4_000, known=IMAGES)
def long_lemma(n):
    """a compound with a lemma of n letters at n places"""
    return text("a b " * n), letters(), dictionary([f"a b,{'c' * n}.N"])


@case("dico", 6, known=ENTRIES)
def ladder_of_capitals(n):
    """an image of n states over n capitals, each of which fits two letters: 2^n entries"""
    return text("A" * n), put("alphabet.txt", "Aa\nAb\n"), ladder(n, "ab", NOUN)


@case("dico", 6)
def capitals_before_no_end(n):
    """an image of n states over n capitals, each of which fits two letters, and no form ends there"""
    states = [(1, []), (0, [("c", 0)])] + [(0, [(letter, state + 1) for letter in "ab"]) for state in range(n)]
    return text("A" * n), put("alphabet.txt", "Aa\nAb\n"), image(states, [NOUN])


# Searches.


def search(content, *options, dic=None):
    """The words of a search by the main graph that was drawn last, in this text."""
    return (*options, os.path.join(FOLDER, "g.grf"), text(content), letters(), *([dic] if dic else []))


MERGE, LONGEST, SHORTEST = ("--mode", "merge"), ("--policy", "longest"), ("--policy", "shortest")


# Compiled grammars.


def compiled(graphs, tags):
    """The file of graphs, each a list of lines of states, and of tags after the empty word."""
    lines = ["%010d" % len(graphs)]
    for number, states in enumerate(graphs, 1):
        lines += [f"-{number} g{number}", *states, "f"]
    return (put("g.fst2", "\n".join([*lines, "%<E>", *tags, "f"]) + "\n"), text("a a"), letters())


def printed(words):
    """The words of fst2, which reads no text."""
    return (words[0], words[2])


@case("fst2", 50_000)
def chain_of_states(n):
    """n states in a chain"""
    return printed(compiled([[f": 1 {k + 1}" for k in range(n)] + ["t"]], ["%a"]))


@case("fst2", 50_000)
def edges_of_one_state(n):
    """n edges of one state"""
    return printed(compiled([[": " + "1 1 " * n, "t"]], ["%a"]))


@case("fst2", 50_000)
def tags_of_one_use(n):
    """n edges, each with a tag of its own"""
    return printed(compiled([[": " + " ".join(f"{k + 1} 1" for k in range(n)), "t"]], [f"%w{k}" for k in range(n)]))


@case("fst2", 10_000)
def graphs_of_one_state(n):
    """n graphs of one state"""
    return printed(compiled([["t"] for _ in range(n)], []))


@case("locate", 50_000)
def states_that_nothing_leads_to(n):
    """n states to which nothing leads, each with an empty edge to itself"""
    return compiled([[": 1 1", "t"] + [f": 0 {k + 2}" for k in range(n)]], ["%a"])


@case("locate", 20_000)
def states_in_a_ring_of_empty_edges(n):
    """n empty edges in a chain"""
    return compiled([[f": 0 {k + 1}" for k in range(n)] + [f": 1 {n + 1}", "t"]], ["%a"])


@case("locate", 15_000)
def compiled_graphs_in_a_chain_of_calls(n):
    """n compiled graphs, each of which calls the next"""
    return compiled([[": 1 1", f": -{k + 2} 2", "t"] for k in range(n - 1)] + [[": 1 1", "t"]], ["%a"])


@case("locate", 500, 2, 1, status=3)
def contexts_closed_in_all_states(n):
    """a negative context that is closed into n states"""
    return compiled([[": 1 1", ": " + " ".join(f"3 {k + 2}" for k in range(n))] + [": 2 %d" % (k + 2 + n) for k in range(n)]
                     + ["t"] * n], ["%$![", "%$]", "%a"])


# Texts rewritten.


@case("cascade", 1 << 12)
def a_text_that_doubles(n):
    """a word that becomes n words, in rounds that each double them"""
    return text("a"), letters(), f"replace{round(math.log2(n))}:{drawn(('a/a a', [1]))}"


@case("cascade", 500)
def rounds_that_add_a_sign(n):
    """99 rounds that each put a sign before n others"""
    return text("." * n), letters(), f"merge99:{drawn(('./-', [1]))}"


@case("cascade", 100)
def many_steps(n):
    """n steps over a thousand words"""
    return (text("a " * 1_000), letters(), *[f"replace:{drawn(('a/b', [1]))}"] * n)


# Grammars flattened.


@case("flatten", 5_000)
def calls_of_one_graph(n):
    """n calls of a graph of ten states"""
    return printed(compiled([[f": -2 {k + 1}" for k in range(n)] + ["t"], [f": 1 {k + 1}" for k in range(9)] + ["t"]], ["%a"]))


@case("flatten", 25)
def graphs_that_call_the_next_at_a_depth(n):
    """n graphs, each of which calls the next, to depth 100"""
    return ("--depth", "100", *printed(compiled([[": 1 1", f": -{k + 2} 2", "t"] for k in range(n - 1)] + [[": 1 1", "t"]], ["%a"])))


@case("flatten", 20, 0, 0, status=3)
def calls_that_double(n):
    """n graphs, each of which calls the next twice, to depth 100"""
    return ("--depth", "100", *printed(compiled([[f": -{k + 2} 1", f": -{k + 2} 2", "t"] for k in range(n - 1)] + [[": 1 1", "t"]], ["%a"])))


@case("flatten", 10_000)
def edges_between_a_call_and_the_next(n):
    """n edges without a call, and then a call"""
    return printed(compiled([[": " + "1 1 " * n, ": -2 2", "t"], [": 1 1", "t"]], ["%a"]))


# Lemmas and the graphs of their classes.


def lemmas(*lines):
    return (put("lemmas.dic", "".join(f"{line}\n" for line in lines)),)


@case("inflect", 20_000)
def lemmas_of_one_class(n):
    """n lemmas of one class"""
    put("N1.grf", stages(["<E>/:s", "s/:p"]))
    return lemmas(*(f"{word},N1" for word in words(n)))


@case("inflect", 500)
def classes_of_one_lemma(n):
    """n classes of one lemma"""
    for number in range(n):
        put(f"N{number}.grf", stages(["s/:p"]))
    return lemmas(*(f"a,N{number}" for number in range(n)))


@case("inflect", 100_000)
def letters_of_a_lemma(n):
    """a lemma of n letters, of which the last is doubled"""
    put("N1.grf", stages(["LCR/:p"]))
    return lemmas("a" * n + ",N1")


@case("inflect", 2_000, 2)
def letters_gone_back_over(n):
    """a way of n letters back in a lemma of as many"""
    put("N1.grf", stages(["L" * n], ["s/:p"]))
    return lemmas("a" * n + ",N1")


@case("inflect", 500, 2)
def stages_of_two_equal_boxes(n):
    """n stages of two equal boxes"""
    put("N1.grf", stages(*[["a", "a"]] * n, ["<E>/:p"]))
    return lemmas("a,N1")


@case("inflect", 500, 2, status=3)
def stages_before_a_refusal(n):
    """n stages of two boxes, and a last box that is refused"""
    put("N1.grf", stages(*[["LR", "<E>"]] * n, ["R/:p"]))
    return lemmas("aa,N1")


@case("inflect", 5_000)
def endings_of_a_class(n):
    """n endings of a class"""
    put("N1.grf", stages([f"{word}/:p" for word in words(n)]))
    return lemmas("a,N1")


@case("inflect", 1_000, known=CALLS)
def class_graphs_in_a_chain_of_calls(n):
    """n graphs of a class, each of which calls the next"""
    for number in range(n):
        put(f"N{number + 1}.grf", stages(["s/:p"] if number == n - 1 else [f":N{number + 2}"]))
    return lemmas("a,N1")


@case("morpho", 500)
def different_words_inside(n):
    """n different words, inside which a graph is matched"""
    chain("$<", "<A>/x.N", "$>")
    return (os.path.join(FOLDER, "g.grf"), text(" ".join(words(n))), letters(), dictionary(f"{word},.A" for word in words(n)))


@case("morpho", 100, 2)
def letters_with_two_outputs(n):
    """a word of n letters, each with two outputs, and no end"""
    put("g.grf", graph([("<E>", [2]), ("", []), ("$<", [3, 4]), ("a/x", [3, 4, 5]), ("a/y", [3, 4, 5]), ("b", [6]), ("$>", [1])]))
    return (os.path.join(FOLDER, "g.grf"), text("a" * n), letters())


@case("morpho", 5_000, status=3)
def empty_boxes_before_the_marks(n):
    """n empty boxes before the marks, and one that puts out"""
    chain(*["<E>"] * n, "<E>/x", "$<", "a", "$>")
    return (os.path.join(FOLDER, "g.grf"), text("a"), letters())


@case("fst2", 10_000)
def boxes_compiled(n):
    """n boxes of a word in a chain, compiled"""
    chain(*words(n))
    return (os.path.join(FOLDER, "g.grf"), letters())


@case("fst2", 10_000)
def words_of_a_box_compiled(n):
    """one box of n words, compiled"""
    chain("+".join(words(n)))
    return (os.path.join(FOLDER, "g.grf"), letters())


@case("fst2", 200, 2)
def edges_to_all_later_boxes(n):
    """n empty boxes, each of which leads to all later ones, compiled"""
    drawn(*[("a", [*range(3 + k, n + 2), n + 2]) for k in range(n)], ("a", [1]))
    return (os.path.join(FOLDER, "g.grf"), letters())


@case("locate", 5_000)
def empty_boxes(n):
    """n empty boxes in a chain"""
    chain(*["<E>"] * n, "a")
    return search("a " * 1_000)


@case("locate", 100, 2)
def empty_boxes_with_all_edges(n):
    """n empty boxes, each of which leads to all later ones"""
    boxes = [("<E>", [*range(3 + k, n + 2), n + 2]) for k in range(n)]
    drawn(*boxes, ("a", [1]))
    return search("a " * 1_000)


@case("locate", 10_000)
def one_box_of_words(n):
    """one box of n words, over these"""
    chain("+".join(words(n)))
    return search(" ".join(words(n)))


@case("locate", 10_000)
def boxes_of_a_word(n):
    """n boxes of a word each, over these"""
    put("g.grf", stages(list(words(n))))
    return search(" ".join(words(n)))


@case("locate", 50_000)
def one_line_of_items(n):
    """one line of n words, over these"""
    chain(" ".join(words(n)))
    return search(" ".join(words(n)))


@case("locate", 5_000, known=SEARCH)
def many_words_and_capitals(n):
    """one box of n words over n capitalised ones: more than an index of literals may cost"""
    chain("+".join(words(n)))
    return search(" ".join(word.capitalize() for word in words(n)))


@case("locate", 250)
def graphs_in_a_chain(n):
    """n graphs that each call the next"""
    for number in range(1, n):
        put(f"g{number}.grf", stages([f":g{number + 1}"]))
    put(f"g{n}.grf", stages(["a"]))
    chain(":g1")
    return search("a " * 1_000)


@case("locate", 10)
def calls_that_multiply(n):
    """n graphs that each call the next twice, of which the last takes nothing"""
    for number in range(1, n):
        put(f"t{number}.grf", stages([f":t{number + 1}"], [f":t{number + 1}"]))
    put(f"t{n}.grf", graph([("<E>", [1]), ("", [])]))
    chain(":t1", "a")
    return search("a " * 10)


@case("locate", 10_000)
def deep_calls(n):
    """a graph that calls itself n times"""
    put("deep.grf", graph([("<E>", [2]), ("", []), ("a", [3, 4]), (":deep", [4]), ("b", [1])]))
    chain("s", ":deep")
    return search("s " + "a " * n + "b " * n)


@case("locate", 2_000)
def calls_that_fail(n):
    """a graph that calls itself in two ways and fails in both, over n words"""
    put("g.grf", graph([("<E>", [2, 5, 8]), ("", []), ("a", [3]), (":g", [4]), ("b", [1]), ("a", [6]), (":g", [7]), ("c", [1]),
                        ("d", [1])]))
    return search("a " * n)


@case("locate", 50, 3, 2)
def ambiguous_calls(n):
    """a graph that calls itself twice, over n words"""
    put("g.grf", graph([("<E>", [2]), ("", []), ("a", [1, 3]), (":g", [4]), (":g", [1])]))
    return search("a " * n, *LONGEST)


@case("locate", 200)
def contexts_inside_each_other(n):
    """n contexts inside each other"""
    chain(*["$["] * n, "a", *["$]"] * n, "a")
    return search("a " * 100)


@case("locate", 50)
def refused_contexts_by_calls(n):
    """n graphs, each with a context that may not follow and calls the next"""
    for number in range(1, n):
        put(f"n{number}.grf", stages(["$!["], [f":n{number + 1}"], ["$]"], ["a"]))
    put(f"n{n}.grf", stages(["a"]))
    chain(":n1")
    return search("a " * 100)


@case("locate", 50, 2)
def contexts_closed_in_many_places(n):
    """n boxes that open a context, and n that close it"""
    put("g.grf", stages(["$["] * n, ["a"], ["$]"] * n, ["a"]))
    return search("a " * 100)


@case("locate", 25, 3)
def all_hits_of_a_loop(n):
    """all hits of a loop over n words, whose texts have the cube of n letters"""
    drawn(("a", [1, 2]))
    return search("a " * 8 * n)


@case("locate", 10_000)
def longest_hits_of_a_loop(n):
    """the longest hit of a loop over n words"""
    drawn(("a", [1, 2]))
    return search("a " * n, *LONGEST)


@case("locate", 1_000)
def equal_outputs(n):
    """n stages of two boxes with equal outputs"""
    put("g.grf", stages(["s"], *[["a/x", "a/x"]] * n))
    return search("s " + "a " * n, *MERGE)


@case("locate", 1 << 10)
def different_outputs(n):
    """n hits of one span, by stages of two outputs"""
    count = round(math.log2(n))
    put("g.grf", stages(*[["a/x", "a/y"]] * count))
    return search("a " * count, *MERGE)


@case("locate", 100, 2)
def open_variables(n):
    """n variables around n outputs"""
    chain(*[f"$|x{k}(" for k in range(n)], *["a/z"] * n, *[f"$|x{k})" for k in range(n)])
    return search("a " * n, *MERGE)


@case("locate", 1_000, 2, 1)
def codes_and_features(n):
    """a mask of n codes, and an entry of n codes"""
    chain(f"<N{''.join(f'+b{k}' for k in range(n))}>")
    return search("a " * 10, dic=dictionary([f"a,.N{''.join(f'+b{k}' for k in reversed(range(n)))}"]))


@case("locate", 500, 2)
def outputs_in_calls(n):
    """a graph that calls itself n times at its end, with an output"""
    put("g.grf", graph([("<E>", [2, 3]), ("", []), ("a/x", [4]), ("e", [1]), (":g", [1])]))
    return search("a " * n + "e", *MERGE, *LONGEST)


@case("locate", 200, 3)
def outputs_around_calls(n):
    """a graph that calls itself n times, with outputs before and after the call"""
    put("g.grf", graph([("<E>", [2]), ("", []), ("a/[", [3, 4]), (":g", [4]), ("b/]", [1])]))
    return search("a " * n + "b " * n, *MERGE, *LONGEST)


@case("locate", 100_000, status=3)
def bad_content(n):
    """a content of n protected signs, and then a fault"""
    chain("\\\\+" * n + "<")
    return search("a")


@case("locate", 5_000)
def unread_boxes(n):
    """n boxes that nothing reaches"""
    put("g.grf", graph([("<E>", [2]), ("", []), ("a", [1]), *[("<", [k + 3]) for k in range(n)]]))
    return search("a")


@case("locate", 10_000, status=3)
def a_loop_that_takes_nothing(n):
    """a loop of n empty boxes"""
    put("g.grf", graph([("<E>", [2]), ("", []), *[("<E>", [k + 3]) for k in range(n)], ("<E>", [2, 1])]))
    return search("a")


@case("locate", 8, known=SEARCH)
def spans_with_outputs_ignored(n):
    """n compounds of a loop of a token or a noun, merged: ways to cut a text into spans"""
    drawn(("s", [3]), ("<TOKEN>+<N>", [3, 4]), ("e", [1]))
    return search("s " + "a b " * n + "e", *MERGE, dic=dictionary(["a b,.N"]))


@case("locate", 8, known=SEARCH)
def outputs_before_a_cut(n):
    """n stages of two outputs before a cut, ignored"""
    put("g.grf", stages(*[["a/0", "a/1"]] * n, ["$*"], ["b"]))
    return search("a " * n + "b")


@case("locate", 8, known=SEARCH)
def outputs_without_values(n):
    """n stages of two variables without a value, merged"""
    put("g.grf", stages(*[["a/$x$", "a/$y$"]] * n))
    return search("a " * n, *MERGE)


@case("locate", 8, known=SEARCH)
def dead_end_with_outputs(n):
    """n stages of two outputs that lead nowhere, beside a hit"""
    stage = [4, 5, 6]
    put("g.grf", graph([("<E>", [2, 3]), ("", []), ("e/[1]", [1]), ("e", [4, 5]), ("a/x", stage), ("a/y", stage), ("b", [1])]))
    return search("e " + "a " * n, *MERGE)


@case("locate", 2_000)
def shortest_hits_of_a_loop(n):
    """the shortest hits of a loop over n words"""
    drawn(("a", [1, 2]))
    return search("a " * n, *SHORTEST)


@case("locate", 100, known=SEARCH)
def shortest_merged_hits_of_a_loop(n):
    """the shortest hits of a loop with an output over n words, merged"""
    drawn(("a/x", [1, 2]))
    return search("a " * n, *SHORTEST, *MERGE)


@case("locate", 1_000, known=SEARCH)
def longest_merged_hit_of_a_loop(n):
    """the longest hit of a loop with an output over n words, merged"""
    drawn(("a/x", [1, 2]))
    return search("a " * n, *LONGEST, *MERGE)


@case("locate", 4_000)
def digits(n):
    """a number of n digits"""
    chain("s", "<NB>")
    return search("s " + "1" * n)


@case("locate", 1_000, known=SEARCH)
def context_over_the_text(n):
    """a context after each word, whose body goes through the text"""
    drawn(("a", [3]), ("$[", [4]), ("a", [4, 5]), ("b", [6]), ("$]", [1]))
    return search("a " * n)


@case("locate", 1_000, known=SEARCH)
def context_on_a_loop(n):
    """a context on a loop, the longest hit"""
    put("g.grf", graph([("<E>", [2]), ("", []), ("$[", [3]), ("a", [4]), ("$]", [5]), ("a", [1, 2])]))
    return search("a " * n, *LONGEST)


@case("locate", 1_000, known=SEARCH)
def cut_over_the_text(n):
    """a cut that waits for a word that isn't there"""
    drawn(("a", [2, 3]), ("$*", [4]), ("b", [1]))
    return search("a " * n)


@case("locate", 1_000, known=SEARCH)
def loop_that_fails(n):
    """a loop over the text from each word, for a word that isn't there"""
    drawn(("a", [2, 3]), ("b", [1]))
    return search("a " * n)


@case("locate", 1_000, known=SEARCH)
def right_recursion(n):
    """a graph that calls itself at its end, the longest hit"""
    put("g.grf", graph([("<E>", [2, 4]), ("", []), ("<TOKEN>", [3]), (":g", [1]), ("<TOKEN>", [1])]))
    return search("a " * n, *LONGEST)


# Concordances.


@case("concord", 2_000)
def wide_contexts(n):
    """n hits with 1000 columns on both sides"""
    chain("a")
    return search("a " * n, "--left", "1000", "--right", "1000")


@case("concord", 2_000)
def equal_contexts(n):
    """n lines to sort by contexts that are equal"""
    chain("a")
    return search("a " * n, "--left", "1000", "--right", "1000", "--sort", "LR")


@case("concord", 500_000)
def characters_without_a_width(n):
    """a context of n characters without a width"""
    chain("a")
    return search("a " + "\u0301" * n + " a", "--sort", "RL")


# Sentences and rules.


@case("txt2tfst", 100_000)
def long_sentence(n):
    """one sentence of n words"""
    return text("a " * n), letters()


@case("txt2tfst", 100_000)
def short_sentences(n):
    """n sentences of a word"""
    return text("a{S}" * n), letters()


@case("txt2tfst", 200, 2)
def readings(n):
    """n words of n readings"""
    return text("a " * n), letters(), dictionary(f"a,.N{k}" for k in range(n))


@case("txt2tfst", 50, 3)
def spans(n):
    """forms of one to n words over n words: n^2 links, whose readings have n words"""
    return text("a " * n), letters(), dictionary(f"{' '.join('a' * k)},.N" for k in range(1, n + 1))


def automaton(*sentences):
    """A file of automata: each sentence has a number of states, and links."""
    lines = [f"#TFST {len(sentences)}"]
    for number, (states, links) in enumerate(sentences, 1):
        lines += [f"S {number} {states} {len(links)}", *links]
    return put("t.tfst", "".join(f"{line}\n" for line in lines))


def forbid(*items):
    """A rule that forbids these items one after the other."""
    return put("rule.grf", stages(["<!>"], ["<!>"], *([item] for item in items), ["<!>"]))


@case("elag", 50_000)
def long_chain(n):
    """one sentence of n words"""
    return automaton((n + 1, [f"{k} {k + 1} {{a,.N}}" for k in range(n)])), forbid("<V>", "<V>")


@case("elag", 50_000)
def many_readings(n):
    """one word of n readings"""
    return automaton((2, [f"0 1 {{a,.N+{word}}}" for word in words(n)])), forbid("<V>", "<V>")


@case("elag", 50_000)
def many_sentences(n):
    """n sentences"""
    return automaton(*[(2, ["0 1 {a,.N}"])] * n), forbid("<V>", "<V>")


@case("elag", 50_000)
def forged_states(n):
    """n sentences that say 2^63 states each"""
    return automaton(*[(2 ** 63, [f"0 {2 ** 63 - 1} {{a,.N}}"])] * n), forbid("<V>", "<V>")


@case("elag", 2_000, known=RULES)
def links_over_a_sentence(n):
    """a sentence of n states, each with a link to the next one and to the last one"""
    links = itertools.chain.from_iterable((f"{k} {k + 1} {{a,.N}}", f"{k} {n} {{a,.V}}") for k in range(n))
    return automaton((n + 1, list(links))), forbid("<V>", "<V>")


@case("elag", 250, 2)
def long_rule(n):
    """a rule of n items over n words"""
    return automaton((n + 1, [f"{k} {k + 1} {{a,.N}}" for k in range(n)])), forbid(*["<N>"] * (n - 1), "<V>")


@case("elag", 10)
def many_rules(n):
    """n rules over 1,000 words, which are one file"""
    return long_chain(1_000)[0], *[forbid("<V>", "<V>")] * n


@case("elag", 4, known=STATES)
def rule_that_looks_back(n):
    """a rule that asks what stood n readings before, over words of two readings"""
    links = [f"{k} {k + 1} {{a,.{code}}}" for k in range(4 * n) for code in "NV"]
    return automaton((4 * n + 1, links)), forbid("<N>", *["<DIC>"] * n, "<V>")


def sought(*boxes, links, states):
    """The words of a search for these boxes in one sentence."""
    return drawn(*boxes), automaton((states, links)), letters()


@case("tfind", 25_000)
def a_verb_in_a_long_sentence(n):
    """one sentence of n words, of which every other one is found"""
    return sought(("<V>", [1]), states=n + 1, links=[f"{k} {k + 1} {{a,.{'NV'[k % 2]}}}" for k in range(n)])


@case("tfind", 25_000)
def many_found_sentences(n):
    """n sentences of one word each"""
    return drawn(("<N>", [1])), automaton(*[(2, ["0 1 {a,.N}"])] * n), letters()


@case("tfind", 25_000)
def many_sought_readings(n):
    """one word of n readings"""
    return sought(("<V>", [1]), states=2, links=[f"0 1 {{a,.N+{word}}}" for word in words(n)])


@case("tfind", 25_000)
def sought_in_forged_states(n):
    """n sentences that say 2^63 states each"""
    return drawn(("<N>", [1])), automaton(*[(2 ** 63, [f"0 {2 ** 63 - 1} {{a,.N}}"])] * n), letters()


@case("tfind", 250, 2)
def each_stretch(n):
    """any number of readings in a sentence of n words with two readings each: 2^n paths, n^2 spans"""
    links = [f"{k} {k + 1} {{a,.{code}}}" for k in range(n) for code in "NV"]
    return sought(("<TOKEN>", [1, 2]), states=n + 1, links=links)


@case("tfind", 250, 2)
def each_call(n):
    """a graph that calls itself in the middle, over n words"""
    return sought(("a", [3, 4]), ("a", [1]), (":g", [3]), states=n + 1, links=[f"{k} {k + 1} a" for k in range(n)])


@case("bench", 25_000)
def made_up_text(n):
    """n words"""
    return (str(n),)


# Runs.


def run(program, arguments):
    """How a run ends: its status, or the signal as a negative number; its seconds, its peak of memory, its error line."""
    def limits():
        resource.setrlimit(resource.RLIMIT_AS, (MEMORY, MEMORY))
        resource.setrlimit(resource.RLIMIT_CPU, (SECONDS, SECONDS + 1))
        resource.setrlimit(resource.RLIMIT_CORE, (0, 0))
    # The limits are of the run alone, and there is no second thread.
    with subprocess.Popen([program, *arguments], stdout=subprocess.DEVNULL, stderr=subprocess.PIPE,
                          preexec_fn=limits) as child:
        told = child.stderr.read()
        _, status, usage = os.wait4(child.pid, 0)
        child.returncode = os.waitstatus_to_exitcode(status)
    seconds = usage.ru_utime + usage.ru_stime
    return child.returncode, seconds, usage.ru_maxrss * 1024, told.decode(errors="replace").strip()


def words_of(what, size):
    """The words of a case. Its files are made in a process of its own, since a run's peak is never below the script's own."""
    measuring.apart(lambda: put("words", "\n".join(what.make(size))))
    with open(os.path.join(FOLDER, "words"), encoding="utf-8") as file:
        return file.read().split("\n")


def growth(first, last, least):
    """By which power of n a measure grows from n to 4n; none where it stays small."""
    if last < 4 * least:
        return 0.0
    return math.log(last / max(first, least)) / math.log(4)


def tried(program, what):
    """What the runs of a case show: a line of figures, what is bad about them, and whether one ended as it never may."""
    seconds, memory = [], []
    for size in (what.size, 2 * what.size, 4 * what.size):
        status, took, peak, told = run(program, [what.command, *words_of(what, size)])
        seconds.append(took)
        memory.append(peak)
        figures = "".join(f"{took:7.2f}" for took in seconds) + " s" + "".join(f"{peak / 1e6:6.0f}" for peak in memory) + " MB"
        if status == -24 or status == -9 and took >= SECONDS:
            return figures, f"more than {SECONDS} s at {size}", False
        if status < 0:
            return figures, f"signal {-status} at {size}", True
        if status == 7 != what.status:
            return figures, f"no memory at {size}", False
        if status != what.status:
            return figures, f"status {status} at {size}: {told}", True
    powers = [growth(seconds[0], seconds[-1], LEAST_SECONDS), growth(memory[0], memory[-1], LEAST_MEMORY)]
    bad = [f"{name} grows by n^{power:.1f}, not n^{bound}" for name, power, bound in
           zip(("time", "memory"), powers, (what.power, what.memory)) if power > bound + 0.5]
    return figures, ", ".join(bad), False


def main():
    parser = argparse.ArgumentParser(description="Runs each command over the inputs that cost it most.")
    parser.add_argument("--program", default=measuring.PROGRAM)
    parser.add_argument("words", nargs="*")
    asked = parser.parse_args()
    if not os.access(asked.program, os.X_OK):
        sys.exit("build the program first: make build")
    os.makedirs(FOLDER, exist_ok=True)
    told = subprocess.run([asked.program, "--help"], capture_output=True, text=True, check=True).stdout
    listed, have = re.findall(r"^  ([a-z]\w*) ", told, re.M), {what.command for what in CASES}
    failed = [f"{command}: no case tries it" for command in listed if command not in have]
    known = 0
    for what in CASES:
        if asked.words and not any(word in f"{what.command} {what.name}" for word in asked.words):
            continue
        figures, bad, is_wrong = tried(asked.program, what)
        verdict = "as bounded"
        if bad and (is_wrong or not what.known):
            verdict = f"FAILED: {bad}"
            failed.append(f"{what.command}: {what.name}: {bad}")
        elif bad:
            verdict, known = f"known: {bad} ({what.known})", known + 1
        elif what.known:
            verdict = f"keeps its bound now, take it off: {what.known}"
        print(f"{what.command:8} {what.size:>9} {figures}  {what.name}: {verdict}", flush=True)
    print(*failed, f"{known} known to cost more, {len(failed)} failed", sep="\n")
    sys.exit(1 if failed else 0)


if __name__ == "__main__":
    main()
