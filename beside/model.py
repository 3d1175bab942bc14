"""The two input files as docs/FORMATS.md tells them: the keys of a basin file, and what a basin without a fault
spells."""
import re
from collections.abc import Callable, Iterable, Iterator
from typing import Any

from beside.common import days_in, month_text, read_month

RIVER = 10**15                      # what a river carries, and the most that an amount in a result may be
NAME = re.compile(r"[A-Za-z0-9_-]{1,32}")
RIGHTS = ("diversion", "instream", "zone")
Row = tuple[str, int, int, bool]
# For each table its keys: the kind of the value, its range where it has numbers, and whether it must be there.
TEXT: Row = ("text", 0, 0, True)
RIGHT: dict[str, Row] = {"name": TEXT, "date": ("day", 0, 0, True), "want": ("monthly", 0, 10**9, True),
                         "order": ("whole", 0, 10**6, False)}
LISTED: Row = ("list", 0, 0, False)
KEYS: dict[str, dict[str, Row]] = {
    "top": {"format": ("whole", 1, 2, True), "first_month": ("month", 0, 0, True), "months": ("whole", 1, 1200, True),
            "node": ("list", 0, 0, True)} | dict.fromkeys(("link", "reservoir", *RIGHTS, "return"), LISTED),
    "node": {"name": TEXT, "outlet": ("truth", 0, 0, False), "inflow": ("inflow", 0, 10**9, False)},
    "link": {"name": TEXT, "from": TEXT, "to": TEXT, "per_day": ("whole", 0, 10**9, False)},
    "reservoir": {"node": TEXT, "opening": ("whole", 0, 16 * 10**9, True), "area": ("area", 0, 0, False),
                  "rate": ("monthly", 0, 10**4, False)},
    "diversion": RIGHT | {"node": TEXT}, "instream": RIGHT | {"link": TEXT},
    "zone": RIGHT | {"reservoir": TEXT, "level": ("whole", 1, 16, True)},
    "return": {"diversion": TEXT, "node": TEXT, "part": ("whole", 1, 10**4, True), "lag": ("whole", 1, 120, True)},
}
# The keys that format 2 has besides.
WANT_2: dict[str, Row] = {"want": ("want", 0, 10**9, True)}
KEYS_2: dict[str, dict[str, Row]] = {
    "top": {"year_start": ("whole", 1, 12, False)}, "link": {"closed": ("months", 1, 12, False)}, "instream": WANT_2,
    "diversion": WANT_2 | {"volume": ("whole", 0, 16 * 10**9, False)}, "zone": WANT_2,
}
KEYS_BOTH = {table: keys | KEYS_2.get(table, {}) for table, keys in KEYS.items()}
# The keys that name an entry of a table, and those by which an entry itself is known.
REFERS = {
    "link": {"from": "node", "to": "node"}, "reservoir": {"node": "node"}, "diversion": {"node": "node"},
    "instream": {"link": "link"}, "zone": {"reservoir": "reservoir"},
    "return": {"diversion": "diversion", "node": "node"},
}
IDENTITY = {"node": ("name",), "link": ("name",), "reservoir": ("node",), "diversion": ("name",), "instream": ("name",),
            "zone": ("name",), "return": ("diversion", "node", "lag")}

def is_day(text: str) -> bool:
    """Whether a text of the shape of a date is a day of the calendar, of the years 1 to 2999."""
    year, month, day = int(text[:4]), int(text[5:7]), int(text[8:])
    return 1 <= year <= 2999 and 1 <= month <= 12 and 1 <= day <= days_in(year * 12 + month - 1)

def monthly(value: Any) -> list[int]:
    return value if isinstance(value, list) else [value] * 12

def is_whole(value: object) -> bool:
    return isinstance(value, int) and not isinstance(value, bool)

def is_list(value: Any, is_item: Callable[[Any], bool], count: int | None = None) -> bool:
    """Whether a value is a list of such items, of so many of them."""
    return isinstance(value, list) and count in (None, len(value)) and all(map(is_item, value))

def is_text(value: object, shape: str) -> bool:
    return isinstance(value, str) and re.fullmatch(shape, value) is not None

KINDS: dict[str, Callable[[Any], bool]] = {
    "whole": is_whole,
    "truth": lambda value: isinstance(value, bool),
    "monthly": lambda value: is_whole(value) or is_list(value, is_whole, 12),
    "inflow": lambda value: value == "gauged" or KINDS["monthly"](value),
    "want": lambda value: value == "series" or KINDS["monthly"](value),
    "months": lambda value: is_list(value, is_whole),
    "area": lambda value: is_list(value, lambda point: is_list(point, is_whole, 2)),
    "list": lambda value: is_list(value, lambda entry: isinstance(entry, dict)),
    "text": lambda value: isinstance(value, str),
    "month": lambda value: is_text(value, r"[0-9]{4}-[0-9]{2}"),
    "day": lambda value: is_text(value, r"[0-9]{4}-[0-9]{2}-[0-9]{2}"),
}

def is_in_range(kind: str, value: Any, least: int, most: int) -> bool:
    """Whether the numbers of a value of the right kind are within the range of its key."""
    if kind == "area":
        return all(0 <= storage <= 16 * 10**9 and 0 <= area <= 10**9 for storage, area in value)
    if kind == "month":
        return read_month(value) is not None
    if kind in ("whole", "monthly", "inflow", "want", "months") and not isinstance(value, str):
        return all(least <= number <= most for number in (value if isinstance(value, list) else [value]))
    return True

def entries(tree: dict[str, Any]) -> Iterator[tuple[str, int, Any]]:
    """Each entry with its table and number, in order: the top is number 0, others count from 1 by their place in the
    list."""
    yield "top", 0, tree
    for table in list(KEYS)[1:]:
        listed = tree.get(table)
        for number, entry in enumerate(listed if isinstance(listed, list) else [], 1):
            if isinstance(entry, dict):
                yield table, number, entry

class Right:
    """A right: its table and number there, its name, priority, wants and volume, and where it takes or on which link it
    keeps water."""

    def __init__(self, basin: "Basin", table: str, number: int, entry: dict[str, Any]) -> None:
        self.table, self.number, self.name, self.date = table, number, entry["name"], entry["date"]
        self.priority, self.level = (entry["date"], entry.get("order", 0)), entry.get("level", 0)
        self.want = None if entry["want"] == "series" else monthly(entry["want"])   # None: the series has it
        self.volume: int | None = entry.get("volume")
        self.link = basin.link_at[entry["link"]] if table == "instream" else None
        self.reservoir = basin.reservoir_at[entry["reservoir"]] if table == "zone" else None
        self.node: Any = None if table == "instream" else basin.node_at[
            entry["node"] if table == "diversion" else entry["reservoir"]]

class Basin:
    """What a basin file without a fault spells. Nodes, links, reservoirs and rights are numbered from 0: diversions,
    then instream rights, then zones. A link is its name, tail, head, and what it carries in a day, or None for a
    river; a return row is a right, a node, a part and a lag."""

    def __init__(self, tree: dict[str, Any]) -> None:
        self.tree, self.first, self.months = tree, read_month(tree["first_month"]) or 0, tree["months"]
        self.format, self.year_start = tree["format"], tree.get("year_start", 10)
        self.nodes = [entry["name"] for entry in tree["node"]]
        self.outlet = [entry.get("outlet", False) for entry in tree["node"]]
        self.inflow = [entry.get("inflow", 0) for entry in tree["node"]]
        self.node_at = {name: at for at, name in enumerate(self.nodes)}
        at, links = self.node_at, tree.get("link", [])
        self.links = [(it["name"], at[it["from"]], at[it["to"]], it.get("per_day")) for it in links]
        self.closed = [it.get("closed", []) for it in links]
        self.link_at = {link[0]: at for at, link in enumerate(self.links)}
        self.reservoirs = [{"node": at[it["node"]], "opening": it["opening"], "area": it.get("area", [[0, 0]]),
                            "rate": monthly(it.get("rate", 0))} for it in tree.get("reservoir", [])]
        self.reservoir_at = {self.nodes[it["node"]]: at for at, it in enumerate(self.reservoirs)}
        self.rights = [Right(self, table, number, it)
                       for table in RIGHTS for number, it in enumerate(tree.get(table, []), 1)]
        self.right_at = {right.name: at for at, right in enumerate(self.rights)}
        self.order = sorted(range(len(self.rights)), key=lambda right: self.rights[right].priority)
        self.rank = {right: place for place, right in enumerate(self.order)}
        self.takers = [right for right in self.order if self.rights[right].link is None]
        self.returns = [(self.right_at[it["diversion"]], at[it["node"]], it["part"], it["lag"])
                        for it in tree.get("return", [])]

    def carry(self, link: int, month: int) -> int:
        per_day = self.links[link][3]
        return RIVER if per_day is None else 0 if month % 12 + 1 in self.closed[link] else per_day * days_in(month)

    def run(self) -> str:
        """The months of the run, in words."""
        return f"the run has the months {month_text(self.first)} to {month_text(self.first + self.months - 1)}"

def area_at(points: list[list[int]], storage: int) -> int:
    """The area of a reservoir that holds so much, by its table of areas."""
    for (s0, a0), (s1, a1) in zip(points, points[1:]):
        if storage < s1:
            return a0 + (storage - s0) * (a1 - a0) // (s1 - s0)
    return points[-1][1]

def spread(nodes: Iterable[Any], steps: Iterable[tuple[Any, Any]]) -> set[Any]:
    """All nodes that some nodes reach by steps, themselves among them."""
    heads: dict[Any, list[Any]] = {}
    for tail, head in steps:
        heads.setdefault(tail, []).append(head)
    seen, stack = set(nodes), list(nodes)
    while stack:
        for node in heads.get(stack.pop(), ()):
            if node not in seen:
                seen.add(node)
                stack.append(node)
    return seen
