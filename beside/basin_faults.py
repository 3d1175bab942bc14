"""All faults of a basin file, each with its place and with what to do.

The tests, and their order, are those of the program: docs/FORMATS.md lists them. A test leaves out values that an
earlier one found at fault, so that one mistake is told once. What a key may hold is in the tables of `model`.
"""
import collections
import re

from beside import model, places
from beside.common import CALENDAR, meant, month_text, nearest
from beside.hints import MANY, date_advice, month_advice

Finding = collections.namedtuple("Finding", "kind table number at text")
RIGHTS, NAMED = model.RIGHTS, ("node", "link", "reservoir", *model.RIGHTS)
# Keys that people write for those that a basin file has.
OTHER_WORDS = {
    "priority": "date", "seniority": "date", "demand": "want", "request": "want", "amount": "want",
    "capacity": "per_day", "flow": "inflow",
    "storage": "opening", "evaporation": "rate", "percent": "part", "fraction": "part", "share": "part", "delay": "lag",
    "upstream": "from", "downstream": "to", "location": "node", "annual": "volume", "start": "first_month",
    "shut": "closed", "id": "name",
}
WHAT = {
    "whole": "write a whole number, as 12", "truth": "write true or false", "text": "write a name in quotation marks",
    "monthly": "write one whole number, or a list of twelve from January to December",
    "months": "write a list of calendar months, as [12, 1, 2]",
    "area": "write pairs of storage and area, as [[0, 0], [10000, 500]]",
}

def described(value):
    """What a value is, in words."""
    if isinstance(value, bool):
        return "true" if value else "false"
    if isinstance(value, str):
        return f'the text "{value if len(value) < 40 else value[:36] + ".."}"'
    if isinstance(value, places.Moment):
        return f"the date {value.text} without quotation marks"
    if isinstance(value, list):
        return f"a list of {len(value)}"
    return "a table" if isinstance(value, dict) else str(value)

def quoted(advice):
    """An advice on a month, with the month in quotation marks, as it stands in a basin file."""
    return re.sub(r"(?<=write )(\d{4}-\d{2})$|(?<=as )(\d{4}-\d{2})$", r'"\g<0>"', advice)

def place_word(number):
    return f"{number}{'th' if number % 100 in (11, 12, 13) else {1: 'st', 2: 'nd', 3: 'rd'}.get(number % 10, 'th')}"

class Enough(Exception):
    """The first fault is found, and no other is asked for."""

class Document:
    """A basin file as it stands, with the faults found so far. The first ends the search where no other is asked
    for."""

    def __init__(self, text, is_first=False):
        self.text, self.found, self.spoiled, self.is_first = text, [], set(), is_first
        self.tree = places.Reader(text).document()
        self.is_second = model.is_whole(self.tree.get("format")) and self.tree["format"] == 2
        self.keys = model.KEYS_BOTH if self.is_second else model.KEYS
        self.entries = []
        for table, number, entry in model.entries(self.tree):
            entry.table, entry.number = table, number
            self.entries.append(entry)
        self.renamed = {}                           # (entry, the key that is meant): the key that is there

    def tell(self, kind, entry, key, text, item=None):
        """Keeps a fault of an entry, at one of its keys if that is there."""
        at = entry.at
        if key in entry:
            at = entry.key_at[key]
            if item is not None and isinstance(entry[key], places.Listed):
                at = entry[key].item_at[item]
            self.spoiled.add((id(entry), key))
        self.found.append(Finding(kind, entry.table, entry.number, at, self.words(entry) + text))
        if self.is_first:
            raise Enough

    def good(self, entry, key):
        """The value at a key, or None where it is absent or at fault. A misspelled key counts as the one that is
        meant."""
        if key not in entry:
            return entry.get(self.renamed.get((id(entry), key)))
        return None if (id(entry), key) in self.spoiled else entry[key]

    def rows(self, *tables):
        return [entry for entry in self.entries if entry.table in tables]

    def own_name(self, entry):
        """The text that names an entry, even if it is at fault, or None."""
        key = "node" if entry.table == "reservoir" else "name"
        name = entry.get(key, entry.get(self.renamed.get((id(entry), key))))
        return name if isinstance(name, str) else None

    def words(self, entry):
        """The words before what is said of an entry, as `node 3 (weir): `; none of the top."""
        name = self.own_name(entry)
        return "" if entry.table == "top" else f"{entry.table} {entry.number}{f' ({name[:60]})' if name else ''}: "

    def whose(self, entry):
        """Another entry, with its line, as `node 3 (weir, line 14)`."""
        name = self.own_name(entry)
        return f"{entry.table} {entry.number} ({f'{name}, ' if name else ''}line {self.line(entry)})"

    def line(self, entry):
        return places.line_of(self.text, entry.at)

def unknown_keys(d):
    meant_by = {}                                   # of a table and an odd key the key that is meant, or None
    for entry in d.entries:
        table, odd = entry.table, [key for key in entry if key not in d.keys[entry.table]]
        # (first all keys of an entry, of which one may be its name)
        for key in odd:
            if (table, key) not in meant_by:
                meant_by[table, key] = key_meant(table, key) if len(meant_by) < MANY else None
            known = meant_by[table, key]
            if known and known not in entry:
                d.renamed[id(entry), known] = key
        for key in odd:
            d.tell("UnknownKey", entry, key, why_unknown(d, table, key, meant_by[table, key]))

def key_meant(table, key):
    """The key that is meant by one that the table hasn't, or None."""
    every = model.KEYS_BOTH[table]
    if key in every:
        return None
    inside = [known for known in every if len(known) > 3 and known in key]
    others = (OTHER_WORDS[word] for word in OTHER_WORDS if word in key.lower())
    known = nearest(key, every) or next(iter(inside), None) or next(others, None)
    return known if known in every else None

def why_unknown(d, table, key, known):
    if key in model.KEYS_2.get(table, {}):
        return f"{key} is a key of format 2: write format = 2 at the top of the file"
    others = [other for other, rows in model.KEYS.items() if other != table and key in rows]
    advice = (f"did you mean {known}?" + (" (format 2)" if known not in d.keys[table] else "") if known
              else f"it is one of {others[0]}" if others else f"the keys here are {', '.join(d.keys[table])}")
    return f"{key[:60]} is no key here; {advice}"

def each_entry(kind, look):
    """A pass over all entries: of each fault in one `look` gives the key, what is said, and the item that shows it."""
    def faults(d):
        for entry in d.entries:
            for key, text, *item in look(d, entry.table, entry):
                d.tell(kind, entry, key, text, *item)
    return faults

def missing_keys(d, table, entry):
    for key, row in d.keys[table].items():
        if row[3] and key not in entry and (id(entry), key) not in d.renamed:
            yield key, f"{key} is missing: {example(key, table)}"
    if table == "top" and isinstance(entry.get("node"), list) and not entry["node"]:
        yield "node", "node is an empty list: a basin has at least one node"
    if table == "link" and "closed" in entry and "per_day" not in entry:
        yield "per_day", "closed stands on a river: only a canal can be shut, so add per_day"

def example(key, table):
    written = {"format": "1", "first_month": '"1982-10"', "months": "12", "opening": "8000", "date": '"1911-06-15"',
               "want": "500", "level": "1", "part": "2500", "lag": "1"}.get(key, '".."')
    return "add [[node]] tables" if key == "node" and table == "top" else f"add {key} = {written}"

def wrong_kinds(d, table, entry):
    for key, value in entry.items():
        kind = d.keys[table].get(key, (None,))[0]
        if kind and not model.KINDS[kind](value):
            text, item = why_wrong(d, kind, key, value)
            yield key, f"{key} {text}", item

def why_wrong(d, kind, key, value):
    """Why a value isn't of the kind of its key, with what to do, and the number of the item that shows it, if one
    does."""
    if kind == "list":
        advice = f"write [[{key}]] above each, in double brackets" if isinstance(value,
            dict) else f"write it as tables, [[{key}]]"
        return f"is {described(value) if isinstance(value, dict) else 'no list of tables'}: {advice}", None
    if isinstance(value, str) and kind in ("inflow", "want"):
        return why_no_word(d, kind, value), None
    if kind == "month":
        written = value.text if isinstance(value, places.Moment) else value
        return f"is {described(value)}: " + (quoted(month_advice(written)) if isinstance(written, str)
            else 'write it as "1982-10"'), None
    if kind == "day":
        written = value.text if isinstance(value, places.Moment) else value
        return f"is {described(value)}: " + date_advice(str(written)), None
    if isinstance(value, list) and kind in ("monthly", "inflow", "want"):
        return why_no_months(value)
    if isinstance(value, list) and kind == "area":
        item = next(at for at, point in enumerate(value) if not model.is_list(point, model.is_whole, 2))
        return (f"has {described(value[item])} as its {place_word(item + 1)} point: a point is a pair of whole "
            f"numbers, [storage, area]", item)
    if isinstance(value, list) and kind == "months":
        item = next(at for at, month in enumerate(value) if not model.is_whole(month))
        return f"has {described(value[item])}: calendar months are numbers from 1 to 12", item
    if key == "part" and isinstance(value, float) and 0 < value <= 1:
        return f"is {value}: parts count of 10,000, so {value} is {round(value * 10_000):,}", None
    advice = WHAT.get("monthly" if kind in ("inflow", "want") else kind)
    return f"is {described(value)}: " + advice + whole_meant(kind, value), None

def whole_meant(kind, value):
    """What is meant by a value that is no whole number, if that is plain."""
    if kind == "text":
        return f', "{value}"' if model.is_whole(value) else ""
    if kind == "truth":
        return " without quotation marks" if isinstance(value, str) else ""
    if isinstance(value, str) and re.fullmatch(r"\d+", value):
        return f": {value} without quotation marks"
    return f": {value:.0f}" if isinstance(value, float) and value.is_integer() else ""

def why_no_word(d, kind, value):
    word = "gauged" if kind == "inflow" else "series"
    if value == "series" and kind == "want" and not d.is_second:
        return 'is "series", which is of format 2: write format = 2 at the top of the file'
    if re.fullmatch(r"[\d., ']+", value):
        return f'is the text "{value}": write the number without quotation marks'
    return f'is the text "{value}": write numbers' + (f', or "{word}" where they stand in the series'
        if kind == "inflow" or d.is_second else "")

def why_no_months(value):
    item = next((at for at, amount in enumerate(value) if not model.is_whole(amount)), None)
    if item is not None:
        month = f" ({CALENDAR[item]})" if len(value) == 12 else ""
        advice = "amounts are whole numbers: round it, or count in a smaller unit" if isinstance(value[item],
            float) else "write a whole number"
        return f"has {described(value[item])} as its {place_word(item + 1)} number{month}; {advice}", item
    split = any(100 <= later <= 999 or later == 0 for later in value[1:]) and len(value) > 12
    return (f"is a list of {len(value)} numbers: write twelve, from January to December, or one number for all"
            + ("; a comma parts two numbers, so write 1200 and not 1,200" if split else "")), None

def out_of_range(d, table, entry):
    for key, value in entry.items():
        kind, least, most, _ = d.keys[table].get(key, (None, 0, 0, False))
        if kind and model.KINDS[kind](value) and not model.is_in_range(kind, value, least, most):
            text, item = why_out(kind, value, least, most)
            yield key, f"{key} {text}", item
    # (a run that ends too late is a fault of the top, and comes before those of the tables)
    months, first = d.good(d.tree, "months"), d.good(d.tree, "first_month")
    first = model.read_month(first) if table == "top" and model.KINDS["month"](first) else None
    if first is not None and model.is_whole(months) and first + months > 3000 * 12:
        last = month_text(first + months - 1)
        yield "months", f"months is {months}, so the run ends in {last}: it may end in 2999-12 at the latest"

def why_out(kind, value, least, most):
    if kind == "month":
        return f'is "{value}": {quoted(month_advice(value))}', None
    if kind == "area":
        item = next(at for at, (storage, area) in enumerate(value)
            if not (0 <= storage <= 16 * 10**9 and 0 <= area <= 10**9))
        return (f"has the point {list(value[item])}: a storage is 0 to 16,000,000,000, and an area 0 to 1,000,000,000",
            item)
    if isinstance(value, list):
        item = next(at for at, amount in enumerate(value) if not least <= amount <= most)
        return f"has {value[item]:,} as its {place_word(item + 1)} number: it may be {least:,} to {most:,}", item
    return f"is {value:,}: it may be {least:,} to {most:,}", None

def bad_names(d, table, entry):
    name = entry.get("name") if "name" in d.keys[table] else None
    if isinstance(name, str) and not model.NAME.fullmatch(name):
        odd = re.search(r"[^A-Za-z0-9_-]", name)
        why = ("is empty: write a name" if name == "" else f"has {len(name)} signs: it may have 32" if odd is None
               else f'has a blank: write "{re.sub(" +", "-", name.strip())}"' if odd[0] == " "
               else f"has the sign {odd[0]!r}: a name has letters a to z, digits, - and _")
        yield "name", f'the name "{name[:60]}" {why}'

def too_many(d):
    counts, most_of = collections.Counter(), {"node": 2000, "link": 4000, "right": 2000, "return row": 8}
    for entry in d.entries:
        if entry.table == "reservoir":
            area = entry.get("area")
            if isinstance(area, list) and len(area) > 64:
                d.tell("TooMany", entry, "area", f"area has {len(area)} points: it may have 64", 64)
        elif entry.table != "top":
            what = {"node": "node", "link": "link", "return": "return row"}.get(entry.table, "right")
            diversion = entry.get("diversion") if what == "return row" else ""
            of = diversion if isinstance(diversion, str) else id(entry)
            counts[what, of] += 1
            if counts[what, of] == most_of[what] + 1:
                most, of = most_of[what], f" of {of}" if of else ""
                d.tell("TooMany", entry, None,
                       f"there are more than {most:,} {what}s{of}: this is the {place_word(most + 1)}")

def same_names(d):
    first = {}
    for entry in d.rows(*NAMED):
        key, space = model.IDENTITY[entry.table][0], "right" if entry.table in RIGHTS else entry.table
        name = entry.get(key)
        if isinstance(name, str) and first.setdefault((space, name), entry) is not entry:
            other = d.whose(first[space, name])
            d.tell("SameName", entry, key, f"a second reservoir at {name}: {other} stands there already"
                   if key == "node" else f"the name {name} is that of {other} too: rename one of the two")

def names_of(d, table):
    """The names of a table's entries, and whether all of them are known."""
    listed, names = d.tree.get(table, []), list(map(d.own_name, d.rows(table)))
    is_whole = isinstance(listed, list) and len(names) == len(listed) and (id(d.tree), table) not in d.renamed
    return set(names) - {None}, is_whole and None not in names

def no_such_names(d):
    spaces, advices = {table: names_of(d, table) for table in NAMED}, {}
    for entry in d.rows(*model.REFERS):
        for key, space in model.REFERS[entry.table].items():
            name, (names, is_whole) = entry.get(key), spaces[space]
            if not isinstance(name, str) or name in names:
                continue
            if (space, name) not in advices:
                advices[space, name] = name_advice(space, name, spaces) if len(advices) < MANY else ""
            advice = advices[space, name]
            # (where some name isn't known, this may be the one)
            if is_whole or "did you mean" in advice:
                d.tell("NoSuchName", entry, key, f'{key}: no {space} is named "{name[:60]}"{advice}')

def name_advice(space, name, spaces):
    """What is meant by a name of nothing."""
    names = spaces[space][0]
    if space == "reservoir" and name in spaces["node"][0]:
        return f": at the node {name} stands no reservoir"
    others, hint = [other for other in NAMED if other != space and name in spaces[other][0]], meant(name, names)
    if hint or not others:
        there = "" if len(names) > 12 else f"; there are {', '.join(sorted(names))}"
        return hint or (there if names else f": there is no {space} at all")
    return f": {name} is the name of {'an instream right' if others[0] == 'instream' else 'a ' + others[0]}"

def outlet_reservoirs(d):
    names = [entry.get("name") for entry in d.rows("node") if entry.get("outlet") is True]
    outlets = {name for name in names if isinstance(name, str)}
    for entry in d.rows("reservoir"):
        if isinstance(entry.get("node"), str) and entry["node"] in outlets:
            d.tell("OutletReservoir", entry, "node", f"the reservoir stands at the outlet {entry['node']}: let a river "
                                                     "lead from the lake to an outlet")

PASSES = (unknown_keys, each_entry("MissingKey", missing_keys), each_entry("WrongKind", wrong_kinds),
          each_entry("OutOfRange", out_of_range), each_entry("BadName", bad_names), too_many, same_names, no_such_names,
          outlet_reservoirs)
