#!/usr/bin/env bash
# Searches a text of 16 MB for one word, by `unitex locate` and by GNU grep in turn, and prints the best
# of five runs of each, the hits that each found, and the peak memory of each.
# Needs the built program (make build), GNU grep, awk and python3.
set -euo pipefail
here=$(cd "$(dirname "$0")" && pwd)
program=$here/../crates/unitex/out/unitex
data=$here/data
[ -x "$program" ] || { echo "build the program first: make build" >&2; exit 1; }

mkdir -p "$data"
text=$data/text.txt
if [ ! -s "$text" ]; then
  # The same words in the same order each time: a generator of numbers with a fixed seed picks them.
  LC_ALL=C awk 'BEGIN {
    rare = split("cat dog house river mountain evening morning station master window market bell \
clock baker carter grandmother patient story winter summer open close laughed walked asked together \
other there then them these weather northern bathe Therefore", words, " ")
    state = 20240607; written = 0
    while (written < 16000000) {
      state = (state * 1103515245 + 12345) % 2147483648
      pick = int(state / 65536) % 1000
      if (pick < 86) word = "the"
      else if (pick < 98) word = "The"
      else word = words[pick % rare + 1]
      state = (state * 1103515245 + 12345) % 2147483648
      pick = int(state / 65536) % 100
      end = pick < 8 ? "\n" : pick < 14 ? ", " : pick < 18 ? ". " : " "
      printf "%s%s", word, end
      written += length(word) + length(end)
    }
    printf "\n"
  }' >"$text"
fi
printf '#Unigraph\n#\n3\n"<E>" 0 0 1 2 \n"" 0 0 0 \n"the" 0 0 1 1 \n' >"$data/the.grf"
for upper in A B C D E F G H I J K L M N O P Q R S T U V W X Y Z; do
  printf '%s%s\n' "$upper" "$(printf %s "$upper" | tr 'A-Z' 'a-z')"
done >"$data/alphabet.txt"

# grep runs in a UTF-8 locale, as unitex reads UTF-8, and over bytes. Results go to files, so that
# none stops early.
exec python3 - "$program" "$data" <<'PYTHON'
import os, sys, time

program, data = sys.argv[1], sys.argv[2]
text = os.path.join(data, "text.txt")
commands = {
    "unitex locate": [program, "locate", os.path.join(data, "the.grf"), text, os.path.join(data, "alphabet.txt")],
    "grep -iow, UTF-8": ["env", "LC_ALL=C.UTF-8", "grep", "-iow", "the", text],
    "grep -iow, bytes": ["env", "LC_ALL=C", "grep", "-iow", "the", text],
}


def run(arguments, output):
    """The seconds, and the peak of resident memory in bytes, of one run."""
    begun = time.perf_counter()
    child = os.fork()
    if child == 0:
        os.dup2(os.open(output, os.O_WRONLY | os.O_CREAT | os.O_TRUNC, 0o644), 1)
        os.execvp(arguments[0], arguments)
    _, status, usage = os.wait4(child, 0)
    seconds = time.perf_counter() - begun
    if status != 0:
        sys.exit(f"{arguments[0]} ended with {status}")
    return seconds, usage.ru_maxrss * 1024


best, peak, hits = {}, {}, {}
for _ in range(5):
    for name, arguments in commands.items():
        output = os.path.join(data, name.replace(" ", "_") + ".out")
        seconds, memory = run(arguments, output)
        best[name] = min(best.get(name, seconds), seconds)
        peak[name] = max(peak.get(name, 0), memory)
        with open(output, "rb") as lines:
            hits[name] = sum(1 for _ in lines) - (1 if name.startswith("unitex") else 0)

size = os.path.getsize(text)
print(f"text: {size} bytes")
print("| Program | Best of 5 | Hits | Peak memory | Peak / text |")
print("|---|---|---|---|---|")
for name in commands:
    print(f"| `{name}` | {best[name]:.3f} s | {hits[name]} | {peak[name] / 1e6:.1f} MB | {peak[name] / size:.1f} |")
PYTHON
