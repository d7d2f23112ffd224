#!/usr/bin/env python3
"""Changes each byte of a small image to each other value, cuts the image at each place, and puts a byte after it, and
compares what the program says with a reading of the layout by this script alone (docs/FORMATS.md, "Image of a
dictionary"): the same refusal, or the same entries. Entries are compared by what `compress` writes of them.

It is no benchmark, and takes some minutes: each file is a run of the program. Prints how many files were accepted, how
many refused, and each difference; ends with 1 where there is one.

Needs the built program (make build) and a folder to write to (bench/data).
"""
import os
import re
import subprocess
import sys

from measuring import DATA, PROGRAM, prepare

DICTIONARIES = {
    "one letter more": "cat,.N:s\ncats,cat.N:p\n",
    "pieces": "a-É,à-é.N+z:s\na-É,.V\n",
}
MAGIC = {b"UXUDI\x01\r\n": 1, b"UXUDI\x02\r\n": 2}


class Refused(Exception):
    """The fault of an image, as the program tells it."""


class Image:
    """The bytes of an image, read from the front on."""

    def __init__(self, data):
        self.data = data
        self.place = 8
        if not any(magic.startswith(data[:8]) for magic in MAGIC):
            raise Refused("BadMagic")
        if len(data) < 8:
            raise Refused("Short")
        self.version = MAGIC[data[:8]]
        count, self.list_count = self.number(), self.number()
        if count == 0:
            raise Refused("BadState offset=8")
        self.states = self.read_states(count)
        self.lists = self.read_lists()
        if self.place < len(data):
            raise Refused("Trailing")

    def take(self, length):
        """The next bytes."""
        if self.place + length > len(self.data):
            raise Refused("Short")
        self.place += length
        return self.data[self.place - length:self.place]

    def number(self):
        """The next number."""
        return int.from_bytes(self.take(4), "little")

    def read_states(self, count):
        """The states: the number of a list and one, or 0, and the edges."""
        states, offsets, used = [], [], 0
        for number in range(count):
            offset = self.place
            fault = Refused(f"BadState offset={offset}")
            final, edge_count = self.number(), self.number()
            if final > min(self.list_count, used + 1):
                raise fault
            used = max(used, final)
            edges, last = [], -1
            for _ in range(edge_count):
                letter, target = self.number(), self.number()
                is_scalar = letter <= 0x10FFFF and not 0xD800 <= letter <= 0xDFFF
                if not is_scalar or letter == 10 or letter <= last or target >= number:
                    raise fault
                last = letter
                edges.append((letter, target))
            if not edges and not final and count != 1:
                raise fault
            states.append((final, tuple(edges)))
            offsets.append(offset)
        faults = [offsets[number] for number in self.faulty(states)]
        if faults:
            raise Refused(f"BadState offset={min(faults)}")
        if used < self.list_count:
            raise Refused("BadState offset=12")
        return states

    @staticmethod
    def faulty(states):
        """The states at fault by what stands around them: a final root, equal ones, and the first out of the visit."""
        if states[-1][0]:
            yield len(states) - 1
        yield from (number for number, state in enumerate(states) if state in states[:number])
        order = []

        def visit(number):
            for _, target in states[number][1]:
                if target not in order:
                    visit(target)
            if number not in order:
                order.append(number)

        visit(len(states) - 1)
        for number in range(len(states)):
            if number >= len(order) or order[number] != number:
                yield number
                return

    def shortest(self):
        """How many characters the shortest form with each list has."""
        least = {}
        for word, number in self.words():
            least[number] = min(least.get(number, len(word)), len(word))
        return least

    def read_lists(self):
        """The lists of codes: pairs, and the printed codes."""
        lists, first = [], 0
        for number in range(self.list_count):
            count, codes = self.number(), []
            if count == 0:
                raise Refused(f"BadCode n={first}")
            for place in range(first, first + count):
                codes.append(self.read_code(place, codes, number))
            if codes in lists:
                raise Refused(f"BadCode n={first}")
            lists.append(codes)
            first += count
        return lists

    def read_code(self, place, codes, number):
        """A code of this place among all, after these of the list of this number."""
        fault = Refused(f"BadCode n={place}")
        pairs = []
        count = self.number() if self.version == 2 else 1
        if count == 0:
            raise fault
        for _ in range(count):
            taken = self.number()
            pairs.append((taken, self.text(fault)))
        code = (pairs, self.text(fault))
        if not is_printed(code[1]) or code in codes:
            raise fault
        if self.version == 1:
            taken, added = pairs[0]
            if taken > self.shortest()[number] or (taken == self.shortest()[number] and not added):
                raise fault
        return code

    def text(self, fault):
        """The next text."""
        try:
            text = self.take(self.number()).decode()
        except UnicodeDecodeError:
            raise fault from None
        if "\n" in text:
            raise fault
        return text

    def words(self):
        """Each form with the number of its list, in order."""
        stack = [("", len(self.states) - 1)]
        while stack:
            word, number = stack.pop()
            final, edges = self.states[number]
            if final:
                yield word, final - 1
            stack.extend((word + chr(letter), target) for letter, target in reversed(edges))

    def entries(self):
        """The entries, each once: form, lemma, printed codes."""
        told = [(word, lemma_of(word, pairs), codes) for word, number in self.words() for pairs, codes in self.lists[number]]
        return list(dict.fromkeys(told))


def is_printed(text):
    """Whether the codes are as they are printed."""
    code = r"(?:[^\\+:/]|\\[\\+:/])+"
    return re.fullmatch(rf"{code}(?:\+{code})*(?::{code})*", text, re.DOTALL) is not None


def lemma_of(form, pairs):
    """The lemma that the pairs make of the form."""
    parts = re.split("([ -])", form) if len(pairs) > 1 else [form]
    for place, (taken, added) in zip(range(0, len(parts), 2), pairs):
        parts[place] = parts[place][:max(0, len(parts[place]) - taken)] + added
    return "".join(parts) or form


def run(*words):
    """The status, the output and the message of a run."""
    done = subprocess.run([PROGRAM, *words], capture_output=True, check=False)
    return done.returncode, done.stdout, done.stderr.decode(errors="replace").strip()


def line_of(form, lemma, codes):
    """The line of an entry."""
    form, lemma = [re.sub(r"([,.=\\/])", r"\\\1", text) for text in (form, lemma)]
    return f"{form},{lemma}.{codes}\n"


def differs(data, paths):
    """What the program and the script say of the file, where they differ; and whether the script accepts it."""
    image, dictionary = paths
    with open(image, "wb") as file:
        file.write(data)
    status, output, message = run("check", image)
    try:
        entries = Image(data).entries()
    except Refused as fault:
        wanted = (3, b"", f"refused: {image}: {fault}")
        return None if (status, output, message) == wanted else (wanted, (status, output, message)), False
    if (status, output) != (0, b"entries %d\n" % len(entries)):
        return (len(entries), (status, output, message)), True
    if any("\r" in text for entry in entries for text in entry):
        return None, True
    with open(dictionary, "w", encoding="utf-8", newline="") as file:
        file.writelines(line_of(*entry) for entry in entries)
    again, anew = run("compress", image), run("compress", dictionary)
    return None if again == anew else (entries, again, anew), True


def changed(data):
    """What was changed, and the bytes."""
    for place, byte in enumerate(data):
        for value in range(256):
            if value != byte:
                yield f"byte {place} is {value}", data[:place] + bytes([value]) + data[place + 1:]
    for length in range(len(data)):
        yield f"{length} bytes", data[:length]
    yield "one byte more", data + b"\0"


def main():
    prepare()
    paths = [os.path.join(DATA, name) for name in ("changed.udi", "changed.dic")]
    found = 0
    for name, lines in DICTIONARIES.items():
        with open(paths[1], "w", encoding="utf-8") as file:
            file.write(lines)
        data = run("compress", paths[1])[1]
        counts = {True: 0, False: 0}
        for what, bytes_ in changed(data):
            difference, accepted = differs(bytes_, paths)
            counts[accepted] += 1
            if difference:
                found += 1
                print(f"{name}: {what}: {difference}")
        print(f"{name}: an image of {len(data)} bytes; {counts[False]} files refused, {counts[True]} accepted")
    sys.exit(1 if found else 0)


if __name__ == "__main__":
    main()
