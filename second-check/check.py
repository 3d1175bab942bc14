#!/usr/bin/env python3
"""check [--audit] BASIN SERIES RESULT: a second checker of results, in plain Python 3.11, which shares no code with the first.

It was written from docs/FORMATS.md and docs/CHECKING.md, and answers the line and the status that `basin check` answers for the
same three files: `checked MONTHS` with status 0, `refuted LINE KIND` with status 1, or on standard error why a file is refused or
can't be read. With `--audit` each set has to be its right's reach too, the greatest that shows the shortage: the answer is `audited
MONTHS`, or what a check refutes, or `refuted LINE NotReach` for a text that a check accepts; LINE is then the first `call` whose set
is another. It is tested and not proved.

BASIN is read by Python's tomllib, which knows TOML 1.0, and by the first checker as TOML 1.1. So where one says `basin: Toml top 0`
the other may not. These are the differences:
- in an inline table a line feed, a comment, or a comma at the end; and \\e and \\x in a text: only this one refuses them.
- a time without seconds, one with second 60, a date of the year 0: only this one says `Toml`. The first says what else is wrong,
  since no key of a basin has a date or time of TOML.
- lists and inline tables more than 80 deep in one another, and keys of more than 80 parts: only the first says `Toml`. This one
  says what else is wrong, since no key of a basin has such a value.
So a good file is refused here only for the first of these. `try` beside this script makes no text with any of them.
"""
import calendar
import csv
import graphlib
import io
import math
import re
import sys
import tomllib

LIMIT = 67_108_864                  # the most bytes of BASIN and SERIES
RIVER = 10**15                      # what a river carries, and the most that an amount in a result may be
NAME = re.compile(r"[A-Za-z0-9_-]{1,32}")
RIGHTS = ("diversion", "instream", "zone")
# For each table its keys: the kind of the value, its range where it has numbers, and whether it must be there.
RIGHT_KEYS = {"name": ("text", 0, 0, True), "date": ("day", 0, 0, True), "want": ("monthly", 0, 10**9, True), "order": ("whole", 0, 10**6, False)}
KEYS = {
    "top": {"format": ("whole", 1, 2, True), "first_month": ("month", 0, 0, True), "months": ("whole", 1, 1200, True), "node": ("list", 0, 0, True)}
    | {table: ("list", 0, 0, False) for table in ("link", "reservoir", *RIGHTS, "return")},
    "node": {"name": ("text", 0, 0, True), "outlet": ("truth", 0, 0, False), "inflow": ("inflow", 0, 10**9, False)},
    "link": {"name": ("text", 0, 0, True), "from": ("text", 0, 0, True), "to": ("text", 0, 0, True), "per_day": ("whole", 0, 10**9, False)},
    "reservoir": {"node": ("text", 0, 0, True), "opening": ("whole", 0, 16 * 10**9, True), "area": ("area", 0, 0, False), "rate": ("monthly", 0, 10**4, False)},
    "diversion": RIGHT_KEYS | {"node": ("text", 0, 0, True)},
    "instream": RIGHT_KEYS | {"link": ("text", 0, 0, True)},
    "zone": RIGHT_KEYS | {"reservoir": ("text", 0, 0, True), "level": ("whole", 1, 16, True)},
    "return": {"diversion": ("text", 0, 0, True), "node": ("text", 0, 0, True), "part": ("whole", 1, 10**4, True), "lag": ("whole", 1, 120, True)},
}
# The keys that format 2 has besides.
WANT_2 = {"want": ("want", 0, 10**9, True)}
KEYS_2 = {
    "top": {"year_start": ("whole", 1, 12, False)}, "link": {"closed": ("months", 1, 12, False)},
    "diversion": WANT_2 | {"volume": ("whole", 0, 16 * 10**9, False)}, "instream": WANT_2, "zone": WANT_2,
}
# The keys that name an entry of a table.
REFERS = {
    "link": {"from": "node", "to": "node"}, "reservoir": {"node": "node"}, "diversion": {"node": "node"}, "instream": {"link": "link"},
    "zone": {"reservoir": "reservoir"}, "return": {"diversion": "diversion", "node": "node"},
}

class Refused(Exception):
    """A file is refused or can't be read: the line for standard error, and the status."""

class Refuted(Exception):
    """The result is refuted: the line at fault, and its kind."""

# Months are counted from the year 0, so that January of the year y is 12 * y.
def read_month(text):
    """A month from 1800-01 to 2999-12, or None."""
    is_month = re.fullmatch(r"(1[89]|2[0-9])[0-9]{2}-(0[1-9]|1[0-2])", text)
    return int(text[:4]) * 12 + int(text[5:]) - 1 if is_month else None

def days_in(month):
    return calendar.monthrange(month // 12, month % 12 + 1)[1]

def is_day(text):
    """Whether a text of the shape of a date is a day of the calendar, of the years 1 to 2999."""
    year, month, day = int(text[:4]), int(text[5:7]), int(text[8:])
    return 1 <= year <= 2999 and 1 <= month <= 12 and 1 <= day <= days_in(year * 12 + month - 1)

def monthly(value):
    return value if isinstance(value, list) else [value] * 12

# --- BASIN: the document, and the faults of its entries ----------------------------------------------------------------------
def is_whole(value):
    return isinstance(value, int) and not isinstance(value, bool)

def is_list(value, is_item, count=None):
    """Whether a value is a list of such items, of so many of them."""
    return isinstance(value, list) and count in (None, len(value)) and all(map(is_item, value))

def is_text(value, shape):
    return isinstance(value, str) and re.fullmatch(shape, value) is not None

KINDS = {
    "whole": is_whole,
    "truth": lambda value: isinstance(value, bool),
    "monthly": lambda value: is_whole(value) or is_list(value, is_whole, 12),
    "inflow": lambda value: value == "gauged" or KINDS["monthly"](value),
    "want": lambda value: value == "series" or KINDS["monthly"](value),
    "months": lambda value: is_list(value, is_whole),
    "area": lambda value: is_list(value, lambda point: is_list(point, is_whole, 2)),
    "list": lambda value: is_list(value, lambda entry: isinstance(entry, dict)),
    "text": lambda value: is_text(value, r"(?s).*"),
    "month": lambda value: is_text(value, r"[0-9]{4}-[0-9]{2}"),
    "day": lambda value: is_text(value, r"[0-9]{4}-[0-9]{2}-[0-9]{2}"),
}

def is_in_range(kind, value, least, most):
    """Whether the numbers of a value of the right kind are within the range of its key."""
    if kind == "area":
        return all(0 <= storage <= 16 * 10**9 and 0 <= area <= 10**9 for storage, area in value)
    if kind == "month":
        return read_month(value) is not None
    if kind in ("whole", "monthly", "inflow", "want", "months") and not isinstance(value, str):
        return all(least <= number <= most for number in (value if isinstance(value, list) else [value]))
    return True

def whole_numbers(value):
    """All whole numbers in a document."""
    for part in value.values() if isinstance(value, dict) else value if isinstance(value, list) else ():
        yield from whole_numbers(part)
    if is_whole(value):
        yield value

def finite(text):
    """A number with a point or an exponent, which may be `inf` but not too large."""
    if math.isinf(float(text)) and not text.endswith("inf"):
        raise ValueError
    return float(text)

def document(data):
    """The table that the bytes are, or None where they are no document."""
    try:
        tree = tomllib.loads(data.decode("utf-8").removeprefix("\ufeff"), parse_float=finite)
        # (a number of more than 4,300 digits is a ValueError too)
        return tree if all(-2**63 <= number < 2**63 for number in whole_numbers(tree)) else None
    except (ValueError, RecursionError):
        return None

def entries(tree):
    """Each entry with its table and number, in order: the top is number 0, others count from 1 by their place in the list."""
    yield "top", 0, tree
    for table in list(KEYS)[1:]:
        listed = tree.get(table)
        for number, entry in enumerate(listed if isinstance(listed, list) else [], 1):
            if isinstance(entry, dict):
                yield table, number, entry

def seek(tree, fault, is_at_fault):
    """One pass over all entries: the first that is at fault is reported."""
    for table, number, entry in entries(tree):
        if is_at_fault(table, entry):
            raise Refused(f"basin: {fault} {table} {number}", 3)

def check_keys(tree):
    """The faults of single entries: keys, kinds, ranges and names."""
    is_second = is_whole(tree.get("format")) and tree["format"] == 2
    keys = {table: rows | (KEYS_2.get(table, {}) if is_second else {}) for table, rows in KEYS.items()}
    seek(tree, "UnknownKey", lambda table, entry: any(key not in keys[table] for key in entry))
    seek(tree, "MissingKey", lambda table, entry: any(row[3] and key not in entry for key, row in keys[table].items())
         or (table == "top" and entry.get("node") == []) or (table == "link" and "closed" in entry and "per_day" not in entry))
    seek(tree, "WrongKind", lambda table, entry: any(not KINDS[keys[table][key][0]](value) for key, value in entry.items()))

    def is_out(table, entry):
        rows = [(keys[table][key], value) for key, value in entry.items()]
        is_late = table == "top" and (read_month(entry["first_month"]) or 0) + entry["months"] > 3000 * 12
        return is_late or any(not is_in_range(kind, value, least, most) for (kind, least, most, _), value in rows)
    seek(tree, "OutOfRange", is_out)
    seek(tree, "BadName", lambda table, entry: "name" in entry and not NAME.fullmatch(entry["name"]))

def check_names(tree):
    """The faults of entries among the others: too many, names that stand twice, and names of nothing."""
    counts, seen = {}, set()

    def is_too_many(table, entry):
        if table == "reservoir":
            return len(entry.get("area", [])) > 64
        what, most = {"node": ("node", 2000), "link": ("link", 4000), "return": (("return", entry.get("diversion")), 8)}.get(table, ("right", 2000))
        counts[what] = counts.get(what, 0) + (table != "top")
        return counts[what] > most

    def is_same(table, entry):
        if table in ("top", "return"):
            return False
        key = ("right" if table in RIGHTS else table, entry["node"] if table == "reservoir" else entry["name"])
        is_there = key in seen
        seen.add(key)
        return is_there
    seek(tree, "TooMany", is_too_many)
    seek(tree, "SameName", is_same)
    named = {table: {entry["node" if table == "reservoir" else "name"] for entry in tree.get(table, [])} for table in ("node", "link", "reservoir", "diversion")}
    seek(tree, "NoSuchName", lambda table, entry: any(entry[key] not in named[to] for key, to in REFERS.get(table, {}).items()))
    outlets = {entry["name"] for entry in tree["node"] if entry.get("outlet")}
    seek(tree, "OutletReservoir", lambda table, entry: table == "reservoir" and entry["node"] in outlets)

# --- BASIN: what it spells, and the faults of the whole ----------------------------------------------------------------------
class Right:
    """A right: its table and number there, its name, priority, wants and volume, and where it takes or on which link it keeps water."""

    def __init__(self, basin, table, number, entry):
        self.table, self.number, self.name, self.date = table, number, entry["name"], entry["date"]
        self.priority, self.level = (entry["date"], entry.get("order", 0)), entry.get("level")
        self.want = None if entry["want"] == "series" else monthly(entry["want"])  # None: the series has it
        self.volume = entry.get("volume")
        self.link = basin.link_at[entry["link"]] if table == "instream" else None
        self.reservoir = basin.reservoir_at[entry["reservoir"]] if table == "zone" else None
        self.node = basin.node_at[entry["node"]] if table == "diversion" else basin.reservoirs[self.reservoir]["node"] if table == "zone" else None

class Basin:
    """What a basin file spells. Nodes, links, reservoirs and rights are numbered from 0: diversions, then instream rights, then zones."""

    def __init__(self, tree):
        self.format, self.first, self.months, self.year_start = tree["format"], read_month(tree["first_month"]), tree["months"], tree.get("year_start", 10)
        self.nodes = [entry["name"] for entry in tree["node"]]
        self.outlet = [entry.get("outlet", False) for entry in tree["node"]]
        self.inflow = [entry.get("inflow", 0) for entry in tree["node"]]
        self.node_at = {name: at for at, name in enumerate(self.nodes)}
        # a link is its name, tail, head, and what it carries in a day, or None for a river; a canal is closed in some calendar months
        self.links = [(e["name"], self.node_at[e["from"]], self.node_at[e["to"]], e.get("per_day")) for e in tree.get("link", [])]
        self.closed = [e.get("closed", []) for e in tree.get("link", [])]
        self.link_at = {link[0]: at for at, link in enumerate(self.links)}
        self.reservoirs = [{"node": self.node_at[e["node"]], "opening": e["opening"], "area": e.get("area", [[0, 0]]), "rate": monthly(e.get("rate", 0))}
                           for e in tree.get("reservoir", [])]
        self.reservoir_at = {self.nodes[reservoir["node"]]: at for at, reservoir in enumerate(self.reservoirs)}
        self.rights = [Right(self, table, number, entry) for table in RIGHTS for number, entry in enumerate(tree.get(table, []), 1)]
        self.right_at = {right.name: at for at, right in enumerate(self.rights)}
        self.order = sorted(range(len(self.rights)), key=lambda right: self.rights[right].priority)
        self.rank = {right: place for place, right in enumerate(self.order)}
        self.takers = [right for right in self.order if self.rights[right].link is None]
        # a return row is a right, a node, a part and a lag
        self.returns = [(self.right_at[e["diversion"]], self.node_at[e["node"]], e["part"], e["lag"]) for e in tree.get("return", [])]

    def carry(self, link, month):
        per_day = self.links[link][3]
        return RIVER if per_day is None else 0 if month % 12 + 1 in self.closed[link] else per_day * days_in(month)

def network_faults(b):
    with_river = {tail for _, tail, _, per_day in b.links if per_day is None}
    yield from (("SelfLink", "link", number) for number, (_, tail, head, _) in enumerate(b.links, 1) if tail == head)
    yield from (("LinkFromOutlet", "link", number) for number, (_, tail, _, _) in enumerate(b.links, 1) if b.outlet[tail])
    yield from (("NoRiver", "node", node + 1) for node, is_outlet in enumerate(b.outlet) if not is_outlet and node not in with_river)
    heads = {node: [] for node in range(len(b.nodes))}
    for _, tail, head, _ in b.links:
        heads[tail].append(head)
    try:
        graphlib.TopologicalSorter(heads).prepare()
    except graphlib.CycleError:
        yield from (("DirectedCycle", "node", node + 1) for node in heads if reaches_itself(heads, node))

def right_faults(b):
    yield from (("BadDate", right.table, right.number) for right in b.rights if not is_day(right.date))
    first = {}
    for at, right in enumerate(b.rights):
        if first.setdefault(right.priority, at) != at:
            yield "SameSeniority", right.table, right.number
    zones = [right for right in b.rights if right.table == "zone"]
    for place, zone in enumerate(zones):
        is_based = zone.level == 1 or any(z.reservoir == zone.reservoir and z.level == zone.level - 1 and z.priority < zone.priority for z in zones)
        if not is_based or any(z.reservoir == zone.reservoir and z.level == zone.level for z in zones[:place]):
            yield "ZoneOrder", "zone", zone.number
    parts = [0] * len(b.rights)
    for right, _, part, _ in b.returns:
        parts[right] += part
    yield from (("ReturnParts", "diversion", b.rights[right].number) for right, part in enumerate(parts) if part > 10_000)

def area_faults(b):
    for number, reservoir in enumerate(b.reservoirs, 1):
        points = reservoir["area"]
        if not points:
            yield "TableEmpty", "reservoir", number
        elif points[0][0] != 0:
            yield "TableFirst", "reservoir", number
        for (s0, a0), (s1, a1) in zip(points, points[1:]):
            if s1 <= s0 or a1 < a0:
                yield "TableRising" if s1 <= s0 else "TableArea", "reservoir", number

def reaches_itself(heads, start):
    seen, stack = set(), list(heads[start])
    while stack and start not in seen:
        node = stack.pop()
        if node not in seen:
            seen.add(node)
            stack += heads[node]
    return start in seen

def read_basin(data):
    tree = document(data)
    if tree is None:
        raise Refused("basin: Toml top 0", 3)
    check_keys(tree)
    check_names(tree)
    basin = Basin(tree)
    for faults in (network_faults, right_faults, area_faults):
        for fault, table, number in faults(basin):
            raise Refused(f"basin: {fault} {table} {number}", 3)
    return basin

# --- SERIES ------------------------------------------------------------------------------------------------------------------
def records(data):
    """The records of a table, without blank lines. Bytes stand for themselves."""
    csv.field_size_limit(sys.maxsize)
    text = data.removeprefix(b"\xef\xbb\xbf").decode("latin-1")
    return (record for record in csv.reader(io.StringIO(text, newline="")) if record)

def name_fault(basin, kind, name):
    """The fault of what a record is for, or None."""
    if kind == "inflow":
        at = basin.node_at.get(name)
        return "NoSuchNode" if at is None else None if basin.inflow[at] == "gauged" else "NotGauged"
    if kind == "want":
        at = basin.right_at.get(name)
        return "NoSuchRight" if at is None else None if basin.rights[at].want is None else "NotSeries"
    return "BadKind"

def record_fault(basin, amounts, has_kinds, record):
    """The fault of a record, or None. The amount of a good one is kept by its month, counted in the run from 0, its kind and its number."""
    if len(record) != (4 if has_kinds else 3):
        return "Csv"
    month, kind, name, amount = record if has_kinds else (record[0], "inflow", *record[1:])
    if read_month(month) is None:
        return "BadMonth"
    fault = name_fault(basin, kind, name)
    if fault:
        return fault
    if not re.fullmatch(r"[0-9]{1,19}", amount) or int(amount) > 10**9:
        return "BadAmount"
    index, at = read_month(month) - basin.first, (basin.node_at if kind == "inflow" else basin.right_at)[name]
    if not 0 <= index < basin.months:
        return None
    if (index, kind, at) in amounts:
        return "Repeated"
    amounts[index, kind, at] = int(amount)
    return None

def read_series(basin, data):
    """The inflow of each gauged node, and the want of each right whose wants stand in the series, in each month of the run."""
    amounts, table = {}, records(data)
    header = next(table, None)
    has_kinds = basin.format == 2 and header == ["month", "kind", "name", "amount"]
    if header != ["month", "node", "amount"] and not has_kinds:
        raise Refused("series: Header 1", 4)
    for number, record in enumerate(table, 2):
        fault = record_fault(basin, amounts, has_kinds, record)
        if fault:
            raise Refused(f"series: {fault} {number}", 4)
    due = [("Missing", "inflow", node, name) for node, name in enumerate(basin.nodes) if basin.inflow[node] == "gauged"]
    due += [("MissingWant", "want", at, right.name) for at, right in enumerate(basin.rights) if right.want is None]
    for index in range(basin.months):
        year, month = divmod(basin.first + index, 12)
        for fault, kind, at, name in due:
            if (index, kind, at) not in amounts:
                raise Refused(f"series: {fault} {year:04d}-{month + 1:02d} {name}", 4)
    return amounts

# --- RESULT: the form of its lines -------------------------------------------------------------------------------------------
# The words of lines, and the kinds of their fields. A reservoir is named by its node.
WORDS = {
    "river-result": ("title",), "run": ("month", "count"), "month": ("month",), "open": ("reservoir", "amount"), "evap": ("reservoir", "amount"),
    "return": ("node", "amount"), "used": ("right", "amount"), "flow": ("link", "amount"), "deliver": ("right", "amount", "amount"), "out": ("node", "amount"), "call": ("right",),
    "in": ("node",), "called": ("right", "right"), "close": ("reservoir", "amount"), "end": (), "done": ("count",),
}

class Form:
    """Which lines may come: the lines that are due in each month, and the place among them."""

    def __init__(self, basin):
        self.basin = basin
        self.spaces = {"reservoir": basin.reservoir_at, "node": basin.node_at, "link": basin.link_at, "right": basin.right_at}
        returned = {node for _, node, _, _ in basin.returns}
        reservoirs = range(len(basin.reservoirs))
        # word, entry, and whether the line may be left out
        self.due = ([("open", v, False) for v in reservoirs] + [("evap", v, False) for v in reservoirs] + [("return", n, False) for n in sorted(returned)]
                    + [("used", r, False) for r in basin.order if basin.rights[r].volume is not None] + [("flow", e, False) for e in range(len(basin.links))] + [("deliver", r, False) for r in basin.order]
                    + [("out", n, False) for n, is_outlet in enumerate(basin.outlet) if is_outlet] + [("call", r, True) for r in basin.order]
                    + [("called", r, True) for r in basin.takers] + [("close", v, False) for v in reservoirs] + [("end", None, False)])
        # the head's lines that are still due, the months begun, the place among the month's lines, and after a call the next node and whether one must come
        self.head, self.begun, self.place, self.next_node, self.must, self.is_done = ["river-result", "run"], 0, len(self.due), None, False, False

    def read(self, line):
        """What a line says: its word and its fields, or None where it isn't of the form of a result."""
        word, *fields = line.decode("latin-1").split(" ")
        kinds = WORDS.get(word)
        if len(line) > 128 or kinds is None or len(fields) != len(kinds):
            return None
        said = [self.field(kind, field) for kind, field in zip(kinds, fields)]
        return None if None in said else (word, said)

    def field(self, kind, field):
        """What a field says, or None."""
        if kind in ("amount", "count", "title"):
            least, most = {"amount": (0, RIVER), "count": (1, 1200), "title": (1, 1)}[kind]
            return int(field) if re.fullmatch(r"0|[1-9][0-9]{0,18}", field) and least <= int(field) <= most else None
        return read_month(field) if kind == "month" else self.spaces[kind].get(field)

    def take(self, word, said):
        """Moves on after a line, and tells whether it may come."""
        if word == "in":
            if self.next_node is None or said[0] < self.next_node:
                return False
            self.next_node, self.must = said[0] + 1, False
            return True
        is_next = not self.must and self.move(word, said)
        self.next_node, self.must = (0, True) if word == "call" else (None, False)
        return is_next

    def move(self, word, said):
        """The same of a line that is no `in` line."""
        if self.head:
            return word == self.head.pop(0)
        if word == "called" and self.basin.rank[said[1]] >= self.basin.rank[said[0]]:
            return False
        for place in range(self.place, len(self.due)):
            due, entry, is_optional = self.due[place]
            if due == word and (entry is None or entry == said[0]):
                self.place = place + 1
                return True
            if not is_optional:
                return False
        if word == "month" and self.begun < self.basin.months and said[0] == self.basin.first + self.begun:
            self.begun, self.place = self.begun + 1, 0
            return True
        self.is_done = word == "done" and self.begun == self.basin.months == said[0]
        return self.is_done

# --- RESULT: what the checker refutes ----------------------------------------------------------------------------------------
class Checker:
    """What the lines so far tell: the deliveries of the months that ended, what they left in reservoirs, and the month under way."""

    def __init__(self, basin, series):
        self.basin, self.series, self.form = basin, series, Form(basin)
        self.read, self.call_line, self.calling, self.other = 0, 0, None, None
        self.delivered, self.closed = [], [reservoir["opening"] for reservoir in basin.reservoirs]
        self.last_outlet = max(node for node, is_outlet in enumerate(basin.outlet) if is_outlet)
        self.holders = {}                           # the instream rights on each link
        for right, it in enumerate(basin.rights):
            if it.link is not None:
                self.holders.setdefault(it.link, []).append(right)

    def line(self, text):
        """Takes one line without its line feed."""
        if self.form.is_done:
            raise Refuted(self.read + 1, "AfterEnd")
        said = self.form.read(text)
        if said is None or not self.form.take(*said):
            raise Refuted(self.read + 1, "BadLine")
        word, said = said
        kind = self.call_fault(word, said) or self.amount_fault(word, said)
        if kind:
            raise Refuted(self.call_line if kind == "CutLoose" else self.read + 1, kind)
        self.read += 1
        self.tell(word, said)

    def call_fault(self, word, said):
        b, behind_calls = self.basin, word in ("called", "close", "end")
        if self.calling is not None and word != "in" and not self.is_tight(self.calling, self.cuts[self.calling]):
            return "CutLoose"
        passed = b.order if behind_calls else b.order[:b.rank[said[0]]] if word == "call" else []
        if any(self.got[right] < self.want[right] and right not in self.cuts for right in passed):
            return "CutMissing"
        if word == "call" and self.got[said[0]] >= self.want[said[0]]:
            return "CutNeedless"
        due = self.callers_due()[self.called:] if behind_calls else []
        if (word == "called" and due[:1] != [tuple(said)]) or (word != "called" and due):
            return "Called"
        return None

    def amount_fault(self, word, said):
        """What an amount is refuted for, by the test of its word, or None."""
        kind, is_right = {
            "run": ("Head", lambda: said == [self.basin.first, self.basin.months]),
            "open": ("Opening", lambda: said[1] == self.closed[said[0]]),
            "evap": ("Evaporation", lambda: said[1] == self.evaporation(said[0])),
            "return": ("Return", lambda: said[1] == self.returned[said[0]]),
            "used": ("Used", lambda: said[1] == self.used(said[0])),
            "flow": ("Flow", lambda: said[1] <= self.basin.carry(said[0], self.month)),
            "deliver": ("Delivery", lambda: self.is_delivery(*said)),
            "out": ("Balance", lambda: said[0] != self.last_outlet or self.is_balanced(said[1])),
            "close": ("Closing", lambda: said[1] == self.kept_in(said[0])),
        }.get(word, (None, lambda: True))
        return None if is_right() else kind

    def tell(self, word, said):
        """Keeps what a good line tells."""
        if word == "in":
            self.cuts[self.calling].add(said[0])
            return
        self.calling = None
        if word == "month":
            self.month = said[0]
            self.opened, self.evaporated, self.flow, self.got, self.want, self.out, self.cuts, self.called, self.due = {}, {}, {}, {}, {}, {}, {}, 0, None
            self.returned = self.arrivals()
        elif word in ("open", "evap", "flow", "out"):
            {"open": self.opened, "evap": self.evaporated, "flow": self.flow, "out": self.out}[word][said[0]] = said[1]
        elif word == "deliver":
            self.got[said[0]], self.want[said[0]] = said[1:]
        elif word == "call":
            self.calling, self.call_line, self.cuts[said[0]] = said[0], self.read, set()
        elif word == "called":
            self.called += 1
        elif word == "end":
            self.closed = [self.kept_in(reservoir) for reservoir in range(len(self.basin.reservoirs))]
            self.delivered.append(self.got)
            self.month_ends()

    def month_ends(self):
        """What is done after a good month: nothing in a check."""

    def evaporation(self, at):
        reservoir, storage = self.basin.reservoirs[at], self.opened[at]
        points = reservoir["area"]
        area = points[-1][1]
        for (s0, a0), (s1, a1) in zip(points, points[1:]):
            if storage < s1:
                area = a0 + (storage - s0) * (a1 - a0) // (s1 - s0)
                break
        return min(storage, reservoir["rate"][self.month % 12] * area // 100)

    def arrivals(self):
        """What comes back to each node: of each row the whole part of all deliveries up to its lag, less that of a month before."""
        back, now = [0] * len(self.basin.nodes), len(self.delivered)
        for right, node, part, lag in self.basin.returns:
            before = sum(month[right] for month in self.delivered[:max(0, now - lag)])
            last = self.delivered[now - lag][right] if now >= lag else 0
            back[node] += part * (before + last) // 10_000 - part * before // 10_000
        return back

    def used(self, right):
        """What a right was delivered in the earlier months of the run that lie in the water year of the month under way."""
        since = (self.month % 12 + 1 - self.basin.year_start) % 12
        return sum(month[right] for month in self.delivered[max(0, len(self.delivered) - since):])

    def supplies(self):
        index, place = len(self.delivered), self.month % 12
        supply = [(self.series[index, "inflow", node] if inflow == "gauged" else monthly(inflow)[place]) + self.returned[node] for node, inflow in enumerate(self.basin.inflow)]
        for at, reservoir in enumerate(self.basin.reservoirs):
            supply[reservoir["node"]] += self.opened[at] - self.evaporated[at]
        return supply

    def is_delivery(self, right, amount, want):
        it = self.basin.rights[right]
        number = self.series[len(self.delivered), "want", right] if it.want is None else it.want[self.month % 12]
        if it.link is None:
            left = RIVER if it.volume is None else it.volume - self.used(right)
            return want == min(number, left) and amount <= want
        return want == min(number, self.basin.carry(it.link, self.month)) and amount == min(want, self.flow[it.link])

    def is_balanced(self, last_out):
        """Whether at each node what comes in goes out, with this amount at the last outlet."""
        self.supply = self.supplies()
        rest = list(self.supply)
        for at, (_, tail, head, _) in enumerate(self.basin.links):
            rest[head] += self.flow[at]
            rest[tail] -= self.flow[at]
        for right in self.basin.takers:
            rest[self.basin.rights[right].node] -= self.got[right]
        for node, amount in (self.out | {self.last_outlet: last_out}).items():
            rest[node] -= amount
        return not any(rest)

    def kept_in(self, reservoir):
        return sum(self.got[right] for right in self.basin.takers if self.basin.rights[right].reservoir == reservoir)

    def kept_on(self, link, right):
        """The greatest delivery of a right's seniors among the instream rights on a link."""
        return max((self.got[holder] for holder in self.holders.get(link, ()) if self.basin.rank[holder] < self.basin.rank[right]), default=0)

    def is_tight(self, right, cut):
        """Whether a set of nodes is a cut of a right, and what can come into it, less what is kept for seniors, is what the right got."""
        b, it = self.basin, self.basin.rights[right]
        is_cut = it.node in cut if it.link is None else b.links[it.link][1] in cut and b.links[it.link][2] not in cut
        if not is_cut:
            return False
        bound = sum(self.supply[node] for node in cut)
        for at, (_, tail, head, _) in enumerate(b.links):
            if head in cut and tail not in cut:
                bound += b.carry(at, self.month)
            elif tail in cut and head not in cut and at != it.link:
                bound -= self.kept_on(at, right)
        bound -= sum(self.got[taker] for taker in b.takers if b.rank[taker] < b.rank[right] and b.rights[taker].node in cut)
        return bound == self.got[right]

    def callers_due(self):
        """Each diversion and zone that answers to a call, seniors first, with its caller."""
        if self.due is None:
            b, self.due = self.basin, []
            calls = [right for right in b.order if right in self.cuts and self.got[right] < self.want[right]]
            for right in b.takers:
                caller = next((c for c in calls if b.rank[c] < b.rank[right] and b.rights[right].node in self.cuts[c]), None)
                if caller is not None and self.want[right] > 0:
                    self.due.append((right, caller))
        return self.due

def spread(nodes, steps):
    """All nodes that some nodes reach by steps, themselves among them."""
    heads, seen, stack = {}, set(nodes), list(nodes)
    for tail, head in steps:
        heads.setdefault(tail, []).append(head)
    while stack:
        for node in heads.get(stack.pop(), ()):
            if node not in seen:
                seen.add(node)
                stack.append(node)
    return seen

class Auditor(Checker):
    """A checker that looks, in each month that is good, for a short right whose set isn't its reach.

    It searches in the flows of the text. A step moves water while the right's seniors are served as they are. No set that shows the
    shortage can be entered by steps from where water leaves the basin, a junior takes some, or the right's own link ends, since
    that water would help. So the greatest such set, if there is one, is all nodes to which no steps lead from there.
    """

    def __init__(self, basin, series):
        super().__init__(basin, series)
        self.lines = {}                             # the line of each right's last call

    def tell(self, word, said):
        if word == "call":
            self.lines[said[0]] = self.read
        super().tell(word, said)

    def month_ends(self):
        """Keeps the line of the first call whose set isn't the reach."""
        if self.other is None:
            self.other = next((self.lines[right] for right in self.basin.order if right in self.cuts and self.cuts[right] != self.reach(right)), None)

    def steps(self, right):
        """Each step with room, as a right sees it: over a link that carries less than it can, and back over one, not the right's own, that
        carries more than is kept on it for seniors."""
        for at, (_, tail, head, _) in enumerate(self.basin.links):
            if self.flow[at] < self.basin.carry(at, self.month):
                yield tail, head
            if at != self.basin.rights[right].link and self.flow[at] > self.kept_on(at, right):
                yield head, tail

    def reach(self, right):
        """The reach of a short right that has a set which shows the shortage."""
        b = self.basin
        begin = {node for node, amount in self.out.items() if amount > 0}
        begin |= {b.rights[taker].node for taker in b.takers if b.rank[taker] > b.rank[right] and self.got[taker] > 0}
        if b.rights[right].link is not None:
            begin.add(b.links[b.rights[right].link][2])
        return set(range(len(b.nodes))) - spread(begin, self.steps(right))

def check(checker, data):
    """The number of months, or why the text is refuted."""
    *lines, rest = data.split(b"\n")
    for line in lines + ([rest] if len(rest) > 128 else []):
        checker.line(line)
    if not checker.form.is_done:
        raise Refuted(checker.read + 1, "EarlyEnd")
    if rest:
        raise Refuted(checker.read + 1, "AfterEnd")
    if checker.other is not None:
        raise Refuted(checker.other, "NotReach")
    return checker.basin.months

def read_file(name, word, limit=LIMIT):
    try:
        with open(name, "rb") as file:
            data = file.read() if limit is None else file.read(limit + 1)
    except OSError:
        raise Refused(f"read: {word}", 5) from None
    if limit is not None and len(data) > limit:
        raise Refused(f"too long: {word}", 8)
    return data

def read_files(words):
    """A basin and its series."""
    basin = read_basin(read_file(words[0], "BASIN"))
    return basin, read_series(basin, b"month,node,amount\n" if words[1] == "-" else read_file(words[1], "SERIES"))

def main(words):
    is_audit = words[:1] == ["--audit"]
    files = words[1:] if is_audit else words
    if len(files) != 3:
        raise Refused("usage: basin_cli COMMAND WORDS", 2)
    checker = (Auditor if is_audit else Checker)(*read_files(files))
    print("audited" if is_audit else "checked", check(checker, read_file(files[2], "RESULT", limit=None)))

def start(main):
    """Does what the words of the command line ask for, and ends with its status."""
    try:
        main(sys.argv[1:])
    except Refuted as refuted:
        print("refuted", *refuted.args)
        sys.exit(1)
    except Refused as refused:
        print(refused.args[0], file=sys.stderr)
        sys.exit(refused.args[1])

if __name__ == "__main__":
    start(main)
