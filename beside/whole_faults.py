"""The faults of a basin file as a whole: its network, its rights and its area tables, in the order of the program's
tests."""
import collections

from beside import model
from beside.common import CALENDAR

class Network:
    """The links whose two ends are known, by number: the link's entry, its tail and its head, as numbers of nodes.
    `with_river` has the tails of rivers, and `is_whole` says that it has all of them."""

    def __init__(self, d):
        self.d, self.nodes = d, {}
        self.entry = {entry.number: entry for entry in d.rows("node")}
        self.name = {number: d.own_name(entry) for number, entry in self.entry.items()}
        for number, name in self.name.items():
            self.nodes.setdefault(name, number)
        self.outlets = {number for number, entry in self.entry.items() if d.good(entry, "outlet") is True}
        self.links, self.with_river = {}, set()
        self.is_whole = isinstance(d.tree.get("link", []), list) and (id(d.tree), "link") not in d.renamed
        for entry in d.rows("link"):
            tail, head = (self.nodes.get(name) if isinstance(name := d.good(entry, key), str) else None
                          for key in ("from", "to"))
            self.is_whole = self.is_whole and tail is not None
            if d.good(entry, "per_day") is None and "per_day" not in entry:
                self.with_river.add(tail)
            if tail is not None and head is not None:
                self.links[entry.number] = (entry, tail, head)
        self.leaving = {node: [] for node in self.entry}    # the links out of each node, with their heads
        for number, (_, tail, head) in self.links.items():
            if tail != head:
                self.leaving[tail].append((number, head))

    def rounds(self):
        """Of each node a number that it shares with those alone to which its water goes and from which it comes back:
        the strongly connected components, by Tarjan's search."""
        index, low, of, open_nodes = {}, {}, {}, []
        for root in self.entry:
            way = [] if root in index else [(root, iter(self.leaving[root]))]
            while way:
                node, links = way[-1]
                if node not in index:
                    index[node] = low[node] = len(index)
                    open_nodes.append(node)
                for _, head in links:
                    if head not in index:
                        way.append((head, iter(self.leaving[head])))
                        break
                    if head not in of:
                        low[node] = min(low[node], index[head])
                else:
                    way.pop()
                    if way:
                        low[way[-1][0]] = min(low[way[-1][0]], low[node])
                    while low[node] == index[node] and node not in of:
                        of[open_nodes.pop()] = index[node]
        return of

    def loops(self):
        """Of each set of nodes whose water comes back to them: its first node, and the links of a way round."""
        of = self.rounds()
        sizes, told = collections.Counter(of.values()), set()
        for node in self.entry:
            if sizes[of[node]] > 1 and of[node] not in told:
                told.add(of[node])
                yield node, self.way_round(node, of)

    def way_round(self, start, of):
        """The links of a shortest way from a node back to it, which stays among the nodes of its round."""
        came, line = {}, [start]
        for node in line:
            for number, head in self.leaving[node]:
                if head not in came and of[head] == of[start]:
                    came[head] = number
                    line.append(head)
        way, node = [], start
        while not way or node != start:
            way.append(came[node])
            node = self.links[came[node]][1]
        return way[::-1]

def network_faults(d):
    net = Network(d)
    for entry, tail, head in net.links.values():
        if tail == head:
            d.tell("SelfLink", entry, "to", f"the link leads from {net.name[tail]} to itself")
    for entry, tail, _ in net.links.values():
        if tail in net.outlets:
            d.tell("LinkFromOutlet", entry, "from",
                   f"the link leaves {net.name[tail]}, which is an outlet: nothing goes on from there")
    if net.is_whole:
        no_rivers(d, net)
    for number, way in net.loops():
        shown = " ".join(f"-> {net.name[head]} ({d.own_name(link)})" for link, _, head in map(net.links.get, way))
        name = net.name[number]
        d.tell("DirectedCycle", net.entry[number], None,
               f"the water of {name} comes back to it: {name} {shown}; turn one of these links, or take it out")

def no_rivers(d, net):
    canals_of = {}
    for link, tail, _ in net.links.values():
        canals_of.setdefault(tail, []).append(d.own_name(link) or "?")
    for number, entry in net.entry.items():
        if number not in net.outlets and number not in net.with_river and net.name[number]:
            canals = canals_of.get(number, [])
            but = f" but the canal{'s' if len(canals) > 1 else ''} {', '.join(canals)}" if canals else ""
            d.tell("NoRiver", entry, None, f"no river leaves the node, so its water has no way out{but}: add a link "
                                           "from it without per_day, or outlet = true")

class Right:
    """What is good of a right: its date, its order and the date with the order."""

    def __init__(self, d, entry):
        self.entry = entry
        date, order = d.good(entry, "date"), d.good(entry, "order") if "order" in entry else 0
        self.date = date if model.KINDS["day"](date) else None
        self.priority = (self.date, order) if self.date is not None and model.is_whole(order) else None
        self.level, self.reservoir = d.good(entry, "level"), d.good(entry, "reservoir")

def right_faults(d):
    rights = [Right(d, entry) for entry in d.rows(*model.RIGHTS)]
    for right in rights:
        if right.date is not None and not model.is_day(right.date):
            d.tell("BadDate", right.entry, "date", f'date is "{right.date}": {no_day(right.date)}')
    first = {}
    for right in rights:
        if right.priority is not None and first.setdefault(right.priority, right) is not right:
            other = d.whose(first[right.priority].entry)
            d.tell("SameSeniority", right.entry, "order" if "order" in right.entry else "date",
                   f"date {right.date} with order {right.priority[1]} is that of {other} too: give one of them another "
                   "order")
    zone_faults(d, [right for right in rights if right.entry.table == "zone"])
    return_parts(d)

def no_day(text):
    year, month = int(text[:4]), int(text[5:7])
    if not 1 <= year <= 2999:
        return "years are 1 to 2999"
    if not 1 <= month <= 12:
        return f"there is no month {month}: write year, month, day"
    return f"{CALENDAR[month - 1]} {year} has {model.days_in(year * 12 + month - 1)} days"

def is_known(zone):
    return zone.priority is not None and model.is_whole(zone.level) and isinstance(zone.reservoir, str)

class Level:
    """The zones of one level of a reservoir: the first, the most senior priority that is known, and whether all are."""

    def __init__(self, first):
        self.first, self.senior, self.are_known = first, None, True

    def add(self, zone):
        if zone.priority is None:
            self.are_known = False
        elif self.senior is None or zone.priority < self.senior:
            self.senior = zone.priority

def zone_faults(d, zones):
    levels = {}
    for zone in zones:
        if isinstance(zone.reservoir, str) and model.is_whole(zone.level):
            levels.setdefault((zone.reservoir, zone.level), Level(zone)).add(zone)
    are_known = all(map(is_known, zones))
    for zone in zones:
        why = zone_fault(d, levels, zone, are_known) if is_known(zone) else None
        if why:
            d.tell("ZoneOrder", zone.entry, "level", why)

def zone_fault(d, levels, zone, are_known):
    """Why a zone may not stand where it does, or None."""
    first = levels[zone.reservoir, zone.level].first
    if first is not zone:
        return f"level {zone.level} of {zone.reservoir} is that of {d.whose(first.entry)} too"
    if zone.level == 1:
        return None
    below = levels.get((zone.reservoir, zone.level - 1))
    if below is None:
        # (a zone of the level below may be there, with a fault that is told already)
        why = f"level is {zone.level}, and {zone.reservoir} has no zone of level {zone.level - 1}"
        return why + ": number the levels from 1, without a gap" if are_known else None
    if below.senior is not None and below.senior < zone.priority or not below.are_known:
        return None
    return (f"the zone below, {d.whose(below.first.entry)}, isn't senior to it: date the zones from the bottom up, the "
            "lowest first")

def return_parts(d):
    rows = {}
    for entry in d.rows("return"):
        part = d.good(entry, "part")
        if isinstance(entry.get("diversion"), str) and model.is_whole(part) and 1 <= part <= 10_000:
            rows.setdefault(entry["diversion"], []).append((part, entry))
    for entry in d.rows("diversion"):
        # (of several diversions of one name the first)
        parts = rows.pop(entry.get("name") if isinstance(entry.get("name"), str) else None, [])
        total = sum(part for part, _ in parts)
        if total > 10_000:
            sums = " + ".join(f"{part:,} (line {d.line(row)})" for part, row in parts)
            d.tell("ReturnParts", entry, None, f"{sums} = {total:,} parts of 10,000 come back: more than it takes")

def area_faults(d):
    for entry in d.rows("reservoir"):
        points = d.good(entry, "area")
        if not model.KINDS["area"](points):
            continue
        if not points:
            d.tell("TableEmpty", entry, "area", "area is an empty list: leave it out, or write pairs from [0, 0] on")
        elif points[0][0] != 0:
            d.tell("TableFirst", entry, "area",
                   f"area begins with the storage {points[0][0]:,}: the first is 0, as [0, 0]", 0)
        for at, ((s0, a0), (s1, a1)) in enumerate(zip(points, points[1:]), 1):
            if s1 <= s0:
                d.tell("TableRising", entry, "area",
                       f"the storage {s1:,} isn't above the one before, {s0:,}: storages rise", at)
            elif a1 < a0:
                d.tell("TableArea", entry, "area",
                       f"the area {a1:,} is below the one before, {a0:,}: areas don't fall", at)
