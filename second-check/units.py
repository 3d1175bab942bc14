#!/usr/bin/env python3
"""units [--brute] BASIN SERIES RESULT: whose one more unit of water would be, in each month of a result, in plain Python 3.11.

It writes what `basin calls BASIN SERIES` writes, from a RESULT of `run` for the same BASIN and SERIES, and only for one that
`check` accepts. In each month come

    short RIGHT DELIVERED WANT   each short right, seniors first
    next NODE RIGHT              each node at which one more unit of water would be a right's, and whose
    link LINK RIGHT              each canal on which one more unit of carry would help, and the most senior right that it helps
    curtailed RIGHT SENIOR       each diversion or zone that wants water and is curtailed for a senior, seniors first

The core of a short right is its least tight cut, and its reach the greatest: the least and the greatest of the sets of nodes that show
its shortage. A unit at a node is that of the most senior short right whose core holds the node. A link helps a right if it leads from
outside its reach into its core. A right is curtailed if a unit at its own node is a senior's. Both sets are found by a search in
the flows of RESULT; with `--brute` by trying every set of nodes, up to 12 of them, which looks at no flows.
"""
import itertools
import sys

import check as second

MOST = 12                           # the most nodes whose sets are all tried

class Units(second.Auditor):
    """A checker that writes the lines of each month that is good."""

    def __init__(self, basin, series, is_brute=False, put=print):
        super().__init__(basin, series)
        self.bounds, self.put = self.by_brute if is_brute else self.by_search, put

    def node_of(self, right):
        """Where a right takes, or the tail of its link."""
        it = self.basin.rights[right]
        return it.node if it.link is None else self.basin.links[it.link][1]

    def by_search(self, right):
        """The core and the reach of a short right. The core is all nodes from which steps lead to its node."""
        back = ((head, tail) for tail, head in self.steps(right))
        return second.spread({self.node_of(right)}, back), self.reach(right)

    def by_brute(self, right):
        """The same, as the least and the greatest of all tight cuts, by their definition."""
        cuts = self.tight_cuts(right)
        core, reach = set.intersection(*cuts), set.union(*cuts)
        assert core in cuts and reach in cuts, "the tight cuts of a right have no least or no greatest one"
        return core, reach

    def tight_cuts(self, right):
        """All tight cuts of a right."""
        own, others = self.node_of(right), set(range(len(self.basin.nodes)))
        others.discard(own)
        sets = (set(some) | {own} for size in range(len(others) + 1) for some in itertools.combinations(others, size))
        return [cut for cut in sets if self.is_tight(right, cut)]

    def next_at(self, node):
        """The most senior short right whose core holds a node, or None."""
        return next((right for right in self.short if node in self.cores[right]), None)

    def helped(self, link):
        """The most senior short right that one more unit of carry on a link would help, or None."""
        _, tail, head, _ = self.basin.links[link]
        return next((right for right in self.short if tail not in self.reaches[right] and head in self.cores[right]), None)

    def month_ends(self):
        b, rights = self.basin, self.basin.rights
        self.short = [right for right in b.order if self.got[right] < self.want[right]]
        both = {right: self.bounds(right) for right in self.short}
        self.cores, self.reaches = ({right: both[right][place] for right in self.short} for place in (0, 1))
        self.next = [self.next_at(node) for node in range(len(b.nodes))]
        self.help = [self.helped(link) for link in range(len(b.links))]
        self.back = {right: self.next[rights[right].node] for right in b.takers if self.want[right] > 0}
        self.back = {right: senior for right, senior in self.back.items() if senior is not None and b.rank[senior] < b.rank[right]}
        self.put(f"month {self.month // 12:04d}-{self.month % 12 + 1:02d}")
        for right in self.short:
            self.put(f"short {rights[right].name} {self.got[right]} {self.want[right]}")
        for node, right in enumerate(self.next):
            if right is not None:
                self.put(f"next {b.nodes[node]} {rights[right].name}")
        for link, right in enumerate(self.help):
            if right is not None:
                self.put(f"link {b.links[link][0]} {rights[right].name}")
        for right, senior in self.back.items():
            self.put(f"curtailed {rights[right].name} {rights[senior].name}")
        self.put("end")

def units(basin, series, data, is_brute=False):
    """The text for a result, or why that is refuted."""
    lines = [f"calls {basin.first // 12:04d}-{basin.first % 12 + 1:02d} {basin.months}"]
    months = second.check(Units(basin, series, is_brute, lines.append), data)
    return "\n".join([*lines, f"done {months}", ""])

def main(words):
    is_brute = words[:1] == ["--brute"]
    files = words[1:] if is_brute else words
    if len(files) != 3:
        raise second.Refused(__doc__.strip(), 2)
    basin, series = second.read_files(files)
    if is_brute and len(basin.nodes) > MOST:
        raise second.Refused(f"units: --brute is for {MOST} nodes at most", 2)
    sys.stdout.write(units(basin, series, second.read_file(files[2], "RESULT", limit=None), is_brute))

if __name__ == "__main__":
    second.start(main)
