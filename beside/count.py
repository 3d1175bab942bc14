"""How often each yearly delivery came in the traces of an ensemble. Its help is docs/help/count.txt."""
import collections
import itertools
import sys

from beside import basin, common

SHAPES = {"trace": "naa", "year": "ana", "done": "a"}

class Traces:
    """The traces that were read: of which ensemble, which of them, and for each right how often an amount came."""

    def __init__(self):
        self.ensemble, self.seen, self.counts = None, set(), {}

    def read(self, name):
        lines = basin.lines_of(name)
        for line in lines:
            self.read_trace(basin.Text(itertools.chain([line], lines), f"a trace of {name}", SHAPES), name)

    def read_trace(self, text, name):
        first, traces, trace = text.head("trace")[1]
        self.ensemble = self.ensemble or (first, traces)
        if self.ensemble != (first, traces) or trace >= traces:
            raise common.BadText(f"{name}: trace {trace} is one of another ensemble")
        if trace in self.seen:
            raise common.BadText(f"{name}: trace {trace} is there twice")
        self.seen.add(trace)
        years = collections.Counter()
        for word, said in text:
            if word == "done":
                break
            if word != "year":
                raise text.bad()
            self.counts.setdefault(said[1], collections.Counter())[said[2]] += 1
            years[said[1]] += 1
        if years.keys() != self.counts.keys() or any(count != traces for count in years.values()):
            raise common.BadText(f"{name}: trace {trace} has not a line for each right and year")

    def lines(self):
        """The lines of the ensemble."""
        first, traces = self.ensemble or (None, 1)
        missing = [str(trace) for trace in range(traces) if trace not in self.seen]
        if missing:
            raise common.BadText(f"these traces are missing: {', '.join(missing)}")
        yield f"ensemble {first} {traces}"
        for right, counts in self.counts.items():
            yield f"right {right}"
            yield from (f"yearly {amount} {count}" for amount, count in sorted(counts.items()))
        yield f"done {traces}"

def main(words: list[str]) -> int:
    if not words:
        raise common.WrongWords("count FILE..")
    traces = Traces()
    for name in words:
        traces.read(name)
    sys.stdout.writelines(f"{line}\n" for line in list(traces.lines()))
    return 0
