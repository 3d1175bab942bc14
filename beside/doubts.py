"""Warnings and notes on a basin file without a fault: what no rule forbids, and nobody is likely to mean."""
import collections
import functools
import graphlib

from beside import model
from beside.common import counted, month_text
from beside.hints import listed_months

Doubt = collections.namedtuple("Doubt", "word entry key text")
ANY = float("inf")

class Valley:
    """A basin without a fault, with the entries of its file, and the most water that canals let come to each node, by
    calendar month from 1."""

    def __init__(self, d, basin):
        self.d, self.b, self.found = d, basin, []
        self.entry = {(entry.table, entry.number): entry for entry in d.entries}
        months = range(basin.first, basin.first + min(basin.months, 48))
        self.months = sorted({month % 12 + 1 for month in months})
        # the longest of each calendar month: a February of 29 days, if the run has one
        self.longest = {month % 12 + 1: month for month in sorted(months, key=model.days_in)}
        self.most = {month: self.water(month) for month in self.months}

    def carry(self, link, month):
        return self.b.carry(link, self.longest[month]) if self.b.links[link][3] is not None else ANY

    def water(self, month):
        """The most that can come to each node: any amount where water rises, a reservoir stands or water comes back."""
        b = self.b
        most = [ANY if inflow == "gauged" or model.monthly(inflow)[month - 1] > 0 else 0 for inflow in b.inflow]
        for node in {node for _, node, _, _ in b.returns} | {reservoir["node"] for reservoir in b.reservoirs}:
            most[node] = ANY
        into = {node: [] for node in range(len(b.nodes))}
        for link, (_, _, head, _) in enumerate(b.links):
            into[head].append(link)
        order = graphlib.TopologicalSorter({node: {b.links[link][1] for link in links} for node, links in into.items()})
        for node in order.static_order():
            most[node] += sum(min(self.carry(link, month), most[b.links[link][1]]) for link in into[node])
        return most

    def warn(self, table, number, key, text, word="warning"):
        self.found.append(Doubt(word, self.entry[table, number], key, text))

def small_wants(v, right, warn):
    """A right that wants nothing, or more than its canals can bring."""
    if not any(right.want[month - 1] for month in v.months):
        return warn("want", "wants nothing in any month of the run")
    wanted = [month for month in v.months if right.want[month - 1] > 0]
    most = {month: v.most[month][right.node] for month in wanted}
    place = v.b.nodes[right.node]
    dry = [month for month in wanted if most[month] == 0]
    above = [month for month in wanted if 0 < most[month] < right.want[month - 1]]
    if dry == wanted:
        warn("node", f"no water can ever come to {place}: nothing flows in there, and no link brings any")
    elif dry:
        warn("want", f"wants water in {listed_months(dry)}, when none can come to {place}: it will be short then")
    if above:
        month = max(above, key=lambda month: right.want[month - 1] - most[month])
        more = f"; so too in {counted(len(above) - 1, 'other month')}" if len(above) > 1 else ""
        warn("want", f"wants {right.want[month - 1]:,} in {listed_months([month])}, and the canals to {place} carry at "
                     f"most {most[month]:,.0f}{more}")

def instream_wants(v, right, warn):
    name, tail, _, per_day = v.b.links[right.link]
    wanted = [month for month in v.months if right.want[month - 1] > 0]
    if wanted and not any(v.most[month][tail] for month in wanted):
        return warn("link", f"no water can ever come to {v.b.nodes[tail]}, where {name} begins")
    if per_day is None:
        return None
    shut = [month for month in wanted if v.carry(right.link, month) == 0]
    above = [month for month in wanted if 0 < v.carry(right.link, month) < right.want[month - 1]]
    if shut:
        warn("want", f"wants a flow in {listed_months(shut)}, when the canal {name} carries nothing: it counts as 0 "
                     "then")
    if above:
        warn("want", f"wants {right.want[above[0] - 1]:,} in {listed_months([above[0]])}, and the canal {name} carries "
                     f"{v.carry(right.link, above[0]):,}: it counts as that")

def rights(v):
    for right in (right for right in v.b.rights if right.want is not None and right.table != "zone"):
        warn = functools.partial(v.warn, right.table, right.number)
        (small_wants if right.table == "diversion" else instream_wants)(v, right, warn)
        if right.volume is not None and sum(right.want) <= right.volume:
            warn("volume", f"volume is {right.volume:,}, and all its wants of a year sum to {sum(right.want):,}: the "
                           "volume bounds nothing")

def zones_of(v, at):
    return sorted((right for right in v.b.rights if right.reservoir == at), key=lambda right: right.level)

def reservoirs(v):
    for at, reservoir in enumerate(v.b.reservoirs):
        zones, last = zones_of(v, at), reservoir["area"][-1][0]
        if max(reservoir["rate"]) > 0 and reservoir["area"][-1][1] == 0:
            v.warn("reservoir", at + 1, "rate", "rate is given, and area has no area: nothing evaporates")
        if not zones:
            v.warn("reservoir", at + 1, "node",
                f"no zone keeps water at {v.b.nodes[reservoir['node']]}: the reservoir is empty after its first month")
            continue
        if any(zone.want is None for zone in zones):
            continue
        full = 0
        for zone in zones:
            before, full = full, max(sum(it.want[month] for it in zones if it.level <= zone.level)
                for month in range(12))
            if len(reservoir["area"]) > 1 and before <= last < full:
                v.warn("zone", zone.number, "want",
                    f"fills the reservoir up to {full:,}, and its table of areas ends at {last:,}: above that the "
                    f"area stays the same")
            if not any(zone.want):
                v.warn("zone", zone.number, "want", "keeps nothing in any month")
        first = sum(zone.want[v.b.first % 12] for zone in zones)
        if reservoir["opening"] > first:
            v.warn("reservoir", at + 1, "opening",
                f"opening is {reservoir['opening']:,}, and its zones keep at most {first:,} in "
                f"{month_text(v.b.first)}: the rest flows on in that month")

def links(v):
    b = v.b
    held = {right.link for right in b.rights if right.link is not None}
    places = {right.node for right in b.rights if right.link is None} | {b.links[link][1] for link in held}
    useful = model.spread(places, [(head, tail) for _, tail, head, _ in b.links])
    for at, (name, _, head, per_day) in enumerate(b.links):
        if per_day is None:
            continue
        if not any(v.carry(at, month) for month in v.months):
            v.warn("link", at + 1, "closed" if per_day else "per_day",
                "the canal carries nothing in any month of the run")
            continue
        if at not in held and head not in useful:
            v.warn("link", at + 1, "to",
                f"nobody takes water at {b.nodes[head]} or below it: the canal serves no right")

def returns(v):
    sums = {}
    for number, (right, _, part, _) in enumerate(v.b.returns, 1):
        sums[right] = sums.get(right, 0) + part
        if part <= 100:
            v.warn("return", number, "part",
                f"part is {part}, which is {part / 100:g}% of what is taken: parts count of 10,000, so {part}% is "
                f"{part * 100:,}")
    for right, total in sums.items():
        if total < 10_000:
            told = f"{total / 100:g}% of what it takes comes back; the other {(10_000 - total) / 100:g}% is used up"
            v.warn("diversion", v.b.rights[right].number, None, told, "note")

def names(v):
    for tables in (("node",), ("link",), model.RIGHTS):
        seen = {}
        for entry in v.d.rows(*tables):
            other = seen.setdefault(entry["name"].lower(), entry)
            if other["name"] != entry["name"]:
                v.warn(entry.table, entry.number, "name",
                       f"the name {entry['name']} is that of {v.d.whose(other)} but for letter case")

def doubts(d, basin):
    """All warnings, and after them all notes, each in the order of the file."""
    valley = Valley(d, basin)
    for look in (names, links, reservoirs, rights, returns):
        look(valley)
    return sorted(valley.found, key=lambda doubt: (doubt.word == "note",
        doubt.entry.key_at.get(doubt.key, doubt.entry.at)))
