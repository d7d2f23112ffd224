#!/usr/bin/env python3
"""Times searches that go by a table of partial results. A noun phrase (`<DET>`, then any number of `<A>`, then `<N>`) with
a context in front of it, `$![`, `<V>`, `$]`, beside the phrase alone: a generated dictionary of 150,000 lines, a third of
them compounds, over a text of 2 MB. Calls that multiply: a graph that calls itself in two ways and fails in both, over 40
and over 4,000 tokens; graphs that call themselves and never come to their ends; thirty graphs that each call the next
twice, of which the last takes nothing; calls inside each other that may each end. Two hundred graphs of ten phrases after
a context, over 4 MB. A graph that calls itself 50,000 times, beside a loop over as many tokens, and 500 to 2,000 times with
an output. Prints the best of three runs, what each found, and peak memory.

Needs the built program (make build) and a folder to write to (bench/data).
"""
import os

from dico import ALPHABET
from grammars import corpus_of, graph, lines, phrases_of, write
from masks import make
from measuring import DATA, OUT, PROGRAM, apart, best, prepare


def tell(name, grammar, text, alphabet, *more):
    seconds, memory = best([PROGRAM, "locate", grammar, text, alphabet, *more])
    size = os.path.getsize(text)
    print(f"  {name:44} {seconds:8.3f} s  {lines(OUT) - 1:7} hits  {memory / 1e6:7.1f} MB,"
          f" {memory / size:6.1f} times the text")
    return seconds


def phrase(alphabet):
    """A noun phrase by masks over 2 MB, and with a context in front of it."""
    print("a noun phrase over 2 MB, a dictionary of 150,000 lines")
    apart(make, 150_000)
    corpus, dic = os.path.join(DATA, "masks150000.txt"), os.path.join(DATA, "masks150000.dic")
    plain = write("phrase.grf", graph([("<E>", [2]), ("", []), ("<DET>", [3, 4]), ("<A>", [3, 4]), ("<N>", [1])]))
    alone = tell("the phrase", plain, corpus, alphabet, dic)
    grammar = write("phrase.grf", graph([
        ("<E>", [5]), ("", []), ("<DET>", [3, 4]), ("<A>", [3, 4]), ("<N>", [1]), ("$![", [6]), ("<V>", [7]), ("$]", [2])]))
    seconds = tell("with a context in front of it", grammar, corpus, alphabet, dic)
    print(f"  {seconds / alone:.2f} times as long")


def words(name, *parts):
    """A text of these words, each so many times."""
    return write(name, " ".join(word for word, count in parts for _ in range(count)) + "\n")


def failing(alphabet):
    """`a`, the graph itself, `b`; or `a`, the graph itself, `c`; or `d`: over `a` alone no call has an end."""
    print("a graph that calls itself in two ways, over a text of `a` alone")
    grammar = write("failing.grf", graph([
        ("<E>", [2, 5, 8]), ("", []), ("a", [3]), (":failing", [4]), ("b", [1]), ("a", [6]), (":failing", [7]), ("c", [1]),
        ("d", [1])]))
    for count in (40, 400, 4_000):
        tell(f"{count} tokens", grammar, words("failing.txt", ("a", count)), alphabet)


def going_down(alphabet):
    """A graph that calls itself after `a`, and ends at `b`, which isn't there: each start goes down to the text's end."""
    print("a graph that calls itself at its end, and one that goes on after the call, over a text of `a` alone")
    write("down.grf", graph([("<E>", [2, 3]), ("", []), ("a", [4]), ("a b", [1]), (":down", [1])]))
    write("inside.grf", graph([("<E>", [2]), ("", []), ("a", [3, 4]), (":inside", [4]), ("b", [1])]))
    for count in (4_000, 8_000, 16_000):
        text = words("down.txt", ("a", count))
        for name in ("down", "inside"):
            tell(f"{count} tokens, {name}", os.path.join(DATA, f"{name}.grf"), text, alphabet)


def doubling(alphabet):
    """Thirty graphs that each call the next twice, of which the last takes nothing; `a` after them all."""
    print("thirty graphs that each call the next twice, the last one takes nothing, over ten words")
    for number in range(1, 30):
        write(f"twice{number}.grf", graph([
            ("<E>", [2]), ("", []), (f":twice{number + 1}", [3]), (f":twice{number + 1}", [1])]))
    write("twice30.grf", graph([("<E>", [1]), ("", [])]))
    grammar = write("twice.grf", graph([("<E>", [2]), ("", []), (":twice1", [3]), ("a", [1])]))
    text = words("ten.txt", ("a", 10))
    for mode in ("ignore", "merge"):
        tell(f"mode {mode}", grammar, text, alphabet, "--mode", mode)


def nested(alphabet):
    """`a`, and then the graph itself or nothing: each of the calls may end at each position."""
    print("calls inside each other that may each end, over `a` alone")
    grammar = write("more.grf", graph([("<E>", [2]), ("", []), ("a", [1, 3]), (":more", [1])]))
    for count in (100, 200, 400):
        tell(f"{count} tokens, the longest", grammar, words("more.txt", ("a", count)), alphabet, "--policy", "longest")
        tell("the same, merged", grammar, words("more.txt", ("a", count)), alphabet, "--policy", "longest", "--mode", "merge")


def many(alphabet):
    """Two hundred graphs of ten phrases over 4 MB, alone and after a context."""
    print("200 graphs of ten phrases over 4 MB")
    text, phrases = phrases_of(4)
    corpus = corpus_of("many.txt", text)
    for number in range(200):
        lines_of = "+".join(phrases[10 * number:10 * number + 10])
        write(f"many{number}.grf", graph([("<E>", [2]), ("", []), (lines_of, [1])]))
    calls = "+".join(f":many{number}" for number in range(200))
    alone = tell("the graphs", write("many.grf", graph([("<E>", [2]), ("", []), (calls, [1])])), corpus, alphabet)
    grammar = write("manybehind.grf", graph([
        ("<E>", [3]), ("", []), (calls, [1]), ("$![", [4]), ("zz", [5]), ("$]", [2])]))
    print(f"  {tell('after a context', grammar, corpus, alphabet) / alone:.2f} times as long")


def depth(alphabet):
    """`s`, then as many `b` as `a` after the `a`, by a graph that calls itself; and a loop over as many tokens."""
    print("a graph that calls itself 50,000 times, and a loop of as many tokens")
    write("deep.grf", graph([("<E>", [2]), ("", []), ("a", [3, 4]), (":deep", [4]), ("b", [1])]))
    grammar = write("deepest.grf", graph([("<E>", [2]), ("", []), ("s", [3]), (":deep", [1])]))
    text = words("deep.txt", ("s", 1), ("a", 50_000), ("b", 50_000))
    loop = write("round.grf", graph([("<E>", [2]), ("", []), ("s", [3]), ("a", [3, 4]), ("b", [4, 1])]))
    flat = tell("the loop, the longest", loop, text, alphabet, "--policy", "longest")
    print(f"  {tell('the graph', grammar, text, alphabet, '--policy', 'longest') / flat:.2f} times as long")
    charted = write("charted.grf", graph([
        ("<E>", [2]), ("", []), ("s", [4]), (":deep", [1]), ("$![", [5]), ("zz", [6]), ("$]", [3])]))
    print(f"  {tell('the same after a context', charted, text, alphabet, '--policy', 'longest') / flat:.2f} times as long")


def outputs(alphabet):
    """The same with an output, so that each derivation is listed with its events."""
    print("a graph that calls itself, with an output, merged")
    write("marked.grf", graph([("<E>", [2]), ("", []), ("a/x", [3, 4]), (":marked", [4]), ("b", [1])]))
    grammar = write("outputs.grf", graph([("<E>", [2]), ("", []), ("s", [3]), (":marked", [1])]))
    for count in (500, 1_000, 2_000):
        text = words("marked.txt", ("s", 1), ("a", count), ("b", count))
        tell(f"{count} calls, the longest", grammar, text, alphabet, "--mode", "merge", "--policy", "longest")


def main():
    prepare()
    alphabet = write("letters.txt", ALPHABET)
    failing(alphabet)
    going_down(alphabet)
    doubling(alphabet)
    nested(alphabet)
    depth(alphabet)
    outputs(alphabet)
    many(alphabet)
    phrase(alphabet)


if __name__ == "__main__":
    main()
