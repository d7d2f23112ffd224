#!/usr/bin/env python3
"""Searches by grammars, timed: an alternation of phrases beside GNU grep, quoted and not; boxes `<E>`, states of many
edges, a box of many lines; calls of some depth, and the compilation of many graphs. Prints the best of three runs, what each found, and peak memory.

Needs the built program (make build), GNU grep and a folder to write to (bench/data).
"""
import os
import random

from measuring import DATA, OUT, PROGRAM, RUNS, best, least, prepare, run


def lines(path):
    with open(path, "rb") as file:
        return sum(1 for _ in file)


def write(name, text):
    path = os.path.join(DATA, name)
    with open(path, "w", encoding="utf-8") as file:
        file.write(text)
    return path


def graph(boxes):
    """The file of a graph: boxes as pairs of a content and its targets, from box 0."""
    head = f"#Unigraph\n#\n{len(boxes)}\n"
    return head + "".join(
        f'"{content}" 0 0 {len(targets)} {"".join(f"{t} " for t in targets)}\n'
        for content, targets in boxes
    )


def letters():
    return write("alphabet.txt", "".join(f"{chr(65 + k)}{chr(97 + k)}\n" for k in range(26)))


def phrases_of(megabytes):
    """A text of so many megabytes, as words, and 2,000 phrases of two to four words that stand in it."""
    source = random.Random(7)
    words = sorted({
        "".join(source.choice("abcdefghijklmnopqrstuvwxyz") for _ in range(source.randint(2, 9)))
        for _ in range(20000)
    })
    source.shuffle(words)
    weights = [1 / (place + 1) for place in range(len(words))]
    text, size = [], 0
    while size < megabytes * 1024 * 1024:
        more = source.choices(words, weights, k=4096)
        text += more
        size += sum(len(word) + 1 for word in more)
    chosen = set()
    while len(chosen) < 2000:
        at = source.randrange(len(text) - 4)
        chosen.add(" ".join(text[at:at + source.randint(2, 4)]))
    return text, sorted(chosen)


def corpus_of(name, text):
    """The file of these words, in lines of twelve."""
    return write(name, "\n".join(" ".join(text[at:at + 12]) for at in range(0, len(text), 12)) + "\n")


def phrases(alphabet):
    """2,000 phrases over a text of 4 MB."""
    text, chosen = phrases_of(4)
    corpus = corpus_of("phrases.txt", text)
    patterns = write("patterns.txt", "\n".join(chosen) + "\n")
    grammar = write("phrases.grf", graph([("<E>", [2]), ("", []), ("+".join(chosen), [1])]))
    print("2,000 phrases over 4 MB")
    seconds, memory = best([PROGRAM, "locate", grammar, corpus, alphabet])
    print(f"  unitex locate           {seconds:.3f} s  {lines(OUT) - 1} hits, all of them  {memory / 1e6:.1f} MB")
    for locale in ["C.UTF-8", "C"]:
        environment = dict(os.environ, LC_ALL=locale)
        seconds, memory = best(["grep", "-o", "-w", "-F", "-f", patterns, corpus], environment=environment)
        print(f"  grep -o -w -F -f, {locale:8} {seconds:.3f} s  {lines(OUT)} lines, none overlapping,"
              f" within lines  {memory / 1e6:.1f} MB")
    raised = [word.capitalize() if place % 7 == 0 else word for place, word in enumerate(text)]
    corpus = corpus_of("raised.txt", raised)
    seconds, memory = best([PROGRAM, "locate", grammar, corpus, alphabet])
    print(f"  unitex locate, every seventh word capitalised  {seconds:.3f} s  {lines(OUT) - 1} hits"
          f"  {memory / 1e6:.1f} MB, {len(set(raised))} different words,"
          f" {len({word for word in raised if word[0].isupper()})} capitalised")


def quoted(alphabet):
    """2,000 quoted phrases beside the same phrases unquoted, over texts of two sizes, in turn."""
    print("2,000 phrases, quoted and not")
    for megabytes in [4, 8]:
        text, chosen = phrases_of(megabytes)
        corpus = corpus_of("quoted.txt", text)
        grammars = {
            "unquoted": write("unquoted.grf", graph([("<E>", [2]), ("", []), ("+".join(chosen), [1])])),
            "quoted": write("quoted.grf", graph([
                ("<E>", [2]), ("", []), ("+".join(f'\\"{phrase}\\"' for phrase in chosen), [1])])),
        }
        runs = {name: [] for name in grammars}
        for _ in range(RUNS):
            for name, grammar in grammars.items():
                runs[name].append(run([PROGRAM, "locate", grammar, corpus, alphabet]))
        for name, column in runs.items():
            seconds, memory = least(column)
            print(f"  {megabytes} MB, {name:8}  {seconds:.3f} s  {memory / 1e6:.1f} MB")


def empty(alphabet):
    """160 boxes `<E>`, each to the next two, and a plain chain of as many, then a word, over 10,000 and 20,000 words."""
    print("160 boxes <E>, then a word")
    plain = [("<E>", [2]), ("", [])] + [("<E>", [box + 1]) for box in range(2, 162)] + [("word", [1])]
    twice = [("<E>", [2]), ("", [])] + [("<E>", [box + 1, min(box + 2, 162)]) for box in range(2, 162)] + [("word", [1])]
    for size in [10000, 20000]:
        text = write("empty_words.txt", " ".join(f"w{chr(97 + k % 26)}{chr(97 + k // 26 % 26)}" for k in range(size)))
        for name, boxes in [("a chain", plain), ("each to the next two", twice)]:
            grammar = write("empties.grf", graph(boxes))
            seconds, memory = best([PROGRAM, "locate", grammar, text, alphabet])
            print(f"  {size} words, {name:20}  {seconds:.3f} s  {memory / 1e6:.1f} MB")


def states(alphabet):
    """300 states of ten literals each, over 40,000 different words: what is kept of each."""
    words = [f"{chr(97 + k % 26)}{chr(97 + k // 26 % 26)}{chr(97 + k // 676 % 26)}{chr(97 + k // 17576 % 26)}"
             for k in range(40000)]
    boxes = [("<E>", [2]), ("", [])]
    for box in range(2, 302):
        boxes.append(("<TOKEN>+" + "+".join(words[box * 10:box * 10 + 10]), [box + 1]))
    boxes.append(("no", [1]))
    text = write("states.txt", " ".join(words))
    grammar = write("states.grf", graph(boxes))
    seconds, memory = best([PROGRAM, "locate", grammar, text, alphabet])
    print("300 states of eleven edges over 40,000 different words")
    print(f"  {seconds:.3f} s  {memory / 1e6:.1f} MB")


def lines_of_a_box(alphabet):
    """A box of 1,000,000 lines, each a word of six letters or of one: what the grammar takes."""
    text = write("few.txt", "a b c\n")
    print("a box of 1,000,000 lines over three words")
    for name, line in [("of six letters", lambda k: "".join(chr(97 + k // 26 ** place % 26) for place in range(6))),
                       ("of one letter", lambda k: chr(97 + k % 26))]:
        content = "+".join(line(k) for k in range(1_000_000))
        grammar = write("lines.grf", graph([("<E>", [2]), ("", []), (content, [1])]))
        size = os.path.getsize(grammar)
        seconds, memory = best([PROGRAM, "locate", grammar, text, alphabet])
        print(f"  {name:15}  {seconds:.3f} s  {memory / 1e6:.1f} MB, {memory / size:.0f} times the graph's file")


def depth(alphabet):
    """Calls inside each other: `s`, then so many `a` and as many `b`."""
    main = write("deep.grf", graph([("<E>", [2]), ("", []), ("s", [3]), (":inner", [1])]))
    write("inner.grf", graph([
        ("<E>", [2, 5]), ("", []), ("a", [3]), (":inner", [4]), ("b", [1]), ("a", [6]), ("b", [1])]))
    print("calls inside each other")
    for calls in [500, 5000, 50000, 100000, 200000]:
        text = write("deep.txt", "s" + " a" * calls + " b" * calls)
        seconds, memory = best([PROGRAM, "locate", main, text, alphabet])
        print(f"  {calls:6} calls  {seconds:.3f} s  {lines(OUT) - 1} hit  {memory / 1e6:.1f} MB")


def compilation(alphabet):
    """Many graphs of 20 boxes, each calling the next, over an empty text."""
    text = write("empty.txt", "")
    print("graphs of 20 boxes")
    for count in [2500, 5000]:
        for number in range(count):
            boxes = [("<E>", [2]), ("", [])]
            for box in range(2, 19):
                boxes.append((f"word{box} more", [box + 1]))
            last = [1] if number == count - 1 else [1, 20]
            boxes.append(("end", last))
            boxes.append((f":many{number + 1}" if number < count - 1 else "stop", [1]))
            write(f"many{number}.grf", graph(boxes))
        main = os.path.join(DATA, "many0.grf")
        seconds, memory = best([PROGRAM, "locate", main, text, alphabet])
        print(f"  {count:5} graphs  {seconds:.3f} s  {memory / 1e6:.1f} MB")


def main():
    prepare()
    alphabet = letters()
    phrases(alphabet)
    quoted(alphabet)
    empty(alphabet)
    states(alphabet)
    lines_of_a_box(alphabet)
    depth(alphabet)
    compilation(alphabet)


if __name__ == "__main__":
    main()
