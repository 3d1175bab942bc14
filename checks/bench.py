"""bench PROGRAM: holds the built program against lexflow and plain, which share no code with it.

The summaries of ten trials have to be the same, byte for byte, and so have the reports of their basins and of small
ones in the shapes that `./basin bench` measures; and of their results all lines but flows and outflows, of which any
plan with these deliveries has its own. It takes a few seconds, and ten more where the two have to be compiled first.
Without g++ it says that it isn't tried.
"""
import collections
import os

from beside.bench import programs
from checks.harness import not_tried, ran, tried

TRIALS = tuple(zip(range(1, 11), (2, 5, 12, 21, 40, 61, 80, 120, 200, 300)))
SMALL = ("60", "120", "60", "36")

def answer(program, words):
    """What a program writes, but for flows and outflows."""
    out, err, status = ran(program, *words)
    return [line for line in out.split("\n") if not line.startswith(("flow ", "out "))], err, status

def compare(what, program, others, words, seen):
    due = answer(program, words)
    seen[what] += 1
    if what == "results":
        seen.update(line.split()[0] for line in due[0] if line.startswith(("call ", "called ")))
    for other in others:
        said = answer(other, words)
        lines = (pair for pair in zip(due[0], said[0]) if pair[0] != pair[1])
        tried(f"{os.path.basename(other)} {' '.join(words)}", due == said and due[2] == 0, next(lines, (due[1:],
                    said[1:])))

def main(room, program):
    if not programs.has_compiler():
        return not_tried("lexflow and plain", "g++")
    others, seen = [programs.built("lexflow"), programs.built("plain")], collections.Counter()
    made = [("trial", str(number), str(size)) for number, size in TRIALS]
    for words in made:
        compare("summaries", program, others, words, seen)
    for at, words in enumerate([*made, *((shape, *SMALL) for shape in programs.SHAPES)]):
        stem = os.path.join(room, str(at))
        ran(programs.built("basins"), *words, stem)
        files = stem + ".toml", stem + ".csv" if os.path.exists(stem + ".csv") else "-"
        compare("reports", program, others, ("report", *files), seen)
        compare("results", program, others, ("run", *files), seen)
    tried("sets and calls are seen", seen["call"] and seen["called"], seen)
    print("bench: " + ", ".join(f"{count} {what}" for what, count in seen.items()) + " held against lexflow and plain")
