#!/usr/bin/env python3
"""Times a search by each policy, in turn: one to four words from each word of a text of 4 MB, so that hits overlap; the
same with an output, merged; and 2,000 phrases, of which few overlap. The policy `all` is the measure of the others: the
longest should cost at most a tenth more. Prints the best of three runs in turn, what each wrote, and peak memory.

Needs the built program (make build) and a folder to write to (bench/data).
"""
from grammars import corpus_of, graph, letters, lines, phrases_of, write
from measuring import OUT, PROGRAM, RUNS, least, prepare, run

POLICIES = ["all", "longest", "shortest"]


def words(output):
    """One to four words in a row, of which the first has an output."""
    first = ("<WORD>" + output, [1, 3])
    return graph([("<E>", [2]), ("", []), first, ("<WORD>", [1, 4]), ("<WORD>", [1, 5]), ("<WORD>", [1])])


def compare(name, words_before, grammar, text, alphabet):
    columns = {policy: [] for policy in POLICIES}
    found = {}
    for _ in range(RUNS):
        for policy in POLICIES:
            columns[policy].append(
                run([PROGRAM, "locate", "--policy", policy, *words_before, grammar, text, alphabet]))
            found[policy] = lines(OUT) - 1
    print(name)
    measure = least(columns["all"])[0]
    for policy in POLICIES:
        seconds, memory = least(columns[policy])
        print(f"  {policy:8}  {seconds:.3f} s  {seconds / measure:.2f}  {found[policy]} hits  {memory / 1e6:.1f} MB")


def main():
    prepare()
    alphabet = letters()
    text, chosen = phrases_of(4)
    corpus = corpus_of("policies.txt", text)
    phrases = write("policies_phrases.grf", graph([("<E>", [2]), ("", []), ("+".join(chosen), [1])]))
    compare("one to four words, 4 MB", [], write("policies_words.grf", words("")), corpus, alphabet)
    compare("the same with an output, merged", ["--mode", "merge"],
            write("policies_output.grf", words("/x")), corpus, alphabet)
    compare("2,000 phrases, 4 MB", [], phrases, corpus, alphabet)


if __name__ == "__main__":
    main()
