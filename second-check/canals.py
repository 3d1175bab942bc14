#!/usr/bin/env python3
"""canals BASIN SERIES RESULT: which canals carried water in a month although rivers alone could have, in plain Python 3.11.

It is for the owner of a ditch who asks why his ditch ran, and only for a RESULT that `check` accepts. For each month in which a canal
carries more than the most that an instream right on it is delivered, although at most 64 rivers, all downstream, lead from where the
canal begins to where it ends, comes a line

    carries MONTH CANAL FLOW HELD   what it carries, and what an instream right on it is delivered, or 0

and the status is 1: sent down these rivers what is above HELD had served everyone as well. Where there is no such month the line is
`no canal beside rivers carries for nothing`, and the status 0. So it is for each result of `basin run`, by the rule for flows in docs/FORMATS.md; a
RESULT from elsewhere may show any. What a canal carries beside a way that leads up a river too, or through another canal, is not
looked at.
"""
import sys

import check as second

MOST = 64                           # the most rivers of a way

def beside_rivers(basin):
    """The canals from whose beginning rivers lead to their end."""
    heads = {}
    for _, tail, head, per_day in basin.links:
        if per_day is None:
            heads.setdefault(tail, []).append(head)
    return [canal for canal, (_, tail, head, per_day) in enumerate(basin.links) if per_day is not None and leads(heads, tail, head)]

def leads(heads, start, end):
    """Whether a way of few enough rivers leads from a node to another."""
    found, last = {start}, [start]
    for _ in range(MOST):
        last = list({head for node in last for head in heads.get(node, ())} - found)
        found.update(last)
    return end in found

class Canals(second.Checker):
    """A checker that keeps, of each month that is good, the lines of its canals."""

    def __init__(self, basin, series):
        super().__init__(basin, series)
        self.beside, self.lines = beside_rivers(basin), []

    def month_ends(self):
        month = f"{self.month // 12:04d}-{self.month % 12 + 1:02d}"
        for canal in self.beside:
            held = max((self.got[holder] for holder in self.holders.get(canal, ())), default=0)
            if self.flow[canal] > held:
                self.lines.append(f"carries {month} {self.basin.links[canal][0]} {self.flow[canal]} {held}")

def canals(basin, series, data):
    """The lines for a result, or why that is refuted."""
    checker = Canals(basin, series)
    second.check(checker, data)
    return checker.lines

def main(words):
    if len(words) != 3:
        raise second.Refused(__doc__.strip(), 2)
    lines = canals(*second.read_files(words), second.read_file(words[2], "RESULT", limit=None))
    print(*(lines or ["no canal beside rivers carries for nothing"]), sep="\n")
    sys.exit(bool(lines))

if __name__ == "__main__":
    second.start(main)
