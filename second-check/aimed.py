#!/usr/bin/env python3
"""aimed BASIN SERIES RESULT NUMBER: writes the three texts with the changes of a number to a folder, to look at.

These are the changes that `try` makes beside its blind ones. Each is aimed at one kind of refusal of docs/FORMATS.md:
at a kind of RESULT, a fault of BASIN or a fault of SERIES. It need not hit: the text may be refused for another reason,
or stay good. The folder is `aimed-NUMBER`.
"""
import copy
import os
import random
import re
import sys

import check as second
import small

HERE = os.path.dirname(os.path.abspath(__file__))
FORMATS = os.path.join(HERE, "..", "docs", "FORMATS.md")
AMOUNTS = ("open", "evap", "return", "used", "flow", "deliver", "out", "close")
RIGHTS = ("diversion", "instream", "zone")
# Values that a key, a month or an amount gets: some are good, and most of them lie just past what is.
ODD_VALUES = (True, 1.5, "x", [], [1] * 11, [1.0] * 12, {}, [[1]], "1890-1-1", "90-01-01", "gauged", "series")
ODD_NUMBERS = (-1, 0, 3, 13, 17, 121, 1201, 10**4 + 1, 10**6 + 1, 10**9 + 1, 16 * 10**9 + 1, 2**63 - 1)
ODD_DATES = ("1890-02-30", "1900-02-29", "0000-01-01", "2999-13-01", "3000-01-01", "1890-04-31", "1890-00-01",
             "1890-01-00", "0001-01-01", "2999-12-31")
ODD_AREAS = ([], [[1, 0]], [[0, 0], [0, 5]], [[0, 0], [5, 5], [4, 6]], [[0, 5], [5, 4]], [[0, 1], [9, 0], [9, 0]],
             [[0, 0], [9, 9]])
ODD_MONTHS = ("1799-12", "1800-01", "3000-01", "1982-7", "1982-00", "1982-13", "", " 1982-07", "2999-12")
ODD_AMOUNTS = ("", "-1", "+1", "1.0", " 1", "1 ", "1000000000", "1000000001", "0" * 18 + "1", "0" * 19 + "1", "\u0661")
BAD_NAMES = ("a b", "", "x" * 33, "a.b", "\u00fc", "a/b")

def kinds(title, column):
    """The first column of the first table with this head in a part of FORMATS: what a file can be refused for."""
    with open(FORMATS, encoding="utf-8") as file:
        part = file.read().split(f"\n## {title}\n")[1].split("\n## ")[0]
    rows = part.split(f"\n| {column} |")[1].split("\n\n")[0].split("\n")[2:]
    return [name for row in rows if row for name in re.findall(r"`(\w+)`", row.split("|")[1])]

KINDS = {
    "RESULT": kinds("What `check` answers", "kind"),
    "BASIN": kinds("What is refused, and what to do", "fault"),
    "SERIES": kinds("The series", "fault"),
}

# --- RESULT: a month is a list of lines, `basin` the checker's basin -------------------------------------------------

def calls_of(month):
    """The place of each `call` line of a month, and the place after its last `in` line."""
    starts = [at for at, line in enumerate(month) if line.startswith("call ")]
    others = [at for at, line in enumerate(month) if not line.startswith("in ")]
    return [(at, next(end for end in [*others, len(month)] if end > at)) for at in starts]

def put_in(basin, month, start, stop, nodes):
    """Puts other nodes after a `call` line."""
    month[start + 1:stop] = [f"in {basin.nodes[node]}" for node in sorted(nodes)]

def other_set(basin, month, chance):
    """A set with a node more or less, or any set: in the order of the file."""
    start, stop = chance.choice(calls_of(month))
    # (a change before this one may have spoiled a name)
    nodes = {basin.node_at[line[3:]] for line in month[start + 1:stop] if line[3:] in basin.node_at}
    any_set = set(chance.sample(range(len(basin.nodes)), chance.randint(1, len(basin.nodes))))
    one_other = nodes ^ {chance.randrange(len(basin.nodes))}
    put_in(basin, month, start, stop, chance.choice((one_other, nodes & any_set, any_set)))

def no_call(basin, month, chance):
    start, stop = chance.choice(calls_of(month))
    del month[start:stop]

def needless_call(basin, month, chance):
    """A `call` of a right that lacks nothing, at its place among the others."""
    delivered = [line.split(" ")[1:] for line in month if line.startswith("deliver ")]
    met = [name for name, amount, want in delivered if amount == want]
    name = chance.choice(met or [it[0] for it in delivered])
    rank = basin.rank[basin.right_at[name]]
    after = [start for start, _ in calls_of(month) if basin.rank[basin.right_at[month[start][5:]]] > rank]
    place = after[0] if after else next(at for at, line in enumerate(month) if re.match("called|close|end", line))
    month.insert(place, f"call {name}")
    put_in(basin, month, place, place + 1, chance.sample(range(len(basin.nodes)), chance.randint(1, len(basin.nodes))))

def called_otherwise(basin, month, chance):
    """A `called` line gone, doubled, with another caller or another right, or put where none is due."""
    at = [place for place, line in enumerate(month) if line.startswith("called ")]
    names = [right.name for right in basin.rights]
    how = chance.randrange(5) if at else 4
    if how == 0:
        del month[chance.choice(at)]
    elif how == 1:
        month.insert(at[0], month[chance.choice(at)])
    elif how in (2, 3):
        place = chance.choice(at)
        fields = month[place].split(" ")
        fields[4 - how] = chance.choice(names)
        month[place] = " ".join(fields)
    else:
        place = at[-1] + 1 if at else next(place for place, line in enumerate(month) if re.match("close|end", line))
        month.insert(place, f"called {chance.choice(names)} {chance.choice(names)}")

def other_amount(basin, month, chance):
    """Another amount in a line; each word of lines is as likely as any other."""
    word = chance.choice([word for word in AMOUNTS if any(line.startswith(word + " ") for line in month)])
    at = chance.choice([place for place, line in enumerate(month) if line.startswith(word + " ")])
    fields = month[at].split(" ")
    place = chance.randrange(2, len(fields))
    fields[place] = str(max(0, int(fields[place]) + chance.choice((-100, -1, -1, 1, 1, 100, 10**12))))
    month[at] = " ".join(fields)

def line_moved(basin, month, chance):
    """Lines of calls swapped, or one said otherwise."""
    at, other = sorted(chance.choices([place for place, line in enumerate(month) if re.match("call|in ", line)], k=2))
    month[at], month[other] = month[other], chance.choice((month[at], month[at] + " x", month[at].split(" ")[0]))

AT_CALLS = (other_set, other_set, no_call, needless_call, called_otherwise, called_otherwise, line_moved)

def months_of(lines):
    """Where each month of a text begins and ends, and whether it has a call."""
    starts = [at for at, line in enumerate(lines) if line.startswith("month ")]
    spans = [(start, lines.index("end", start) + 1) for start in starts]
    return [(start, stop, any(line.startswith("call ") for line in lines[start:stop])) for start, stop in spans]

def in_month(lines, basin, chance):
    """One change in a month: mostly in its calls, if there are any."""
    months = months_of(lines)
    start, stop, has_call = chance.choice([it for it in months if it[2]] or months)
    month = lines[start:stop]
    (chance.choice(AT_CALLS) if has_call and chance.random() < 0.6 else other_amount)(basin, month, chance)
    lines[start:stop] = month

def changed_result(text, basin, chance):
    """The text of a result with one or two aimed changes."""
    lines = text.decode().split("\n")
    how = chance.randrange(20)
    if how == 0:
        late, long = chance.choice(((1, 0), (0, 1)))
        lines[1] = f"run {small.month_text(basin.first + late)} {basin.months + long}"
    elif how == 1:
        lines.insert(len(lines) - chance.choice((0, 1)), chance.choice(lines[:-1]))
    elif how == 2:
        lines = lines[:chance.randrange(len(lines))] + [""]
    else:
        for _ in range(chance.choice((1, 1, 1, 2))):
            in_month(lines, basin, chance)
    return "\n".join(lines).encode()

# --- BASIN: `tree` is the document, with a list for each table -------------------------------------------------------

def entry(tree, chance, *tables):
    """An entry of one of these tables, or a new one where there is none."""
    tables = [table for table in tables or small.TABLES if tree[table]]
    return chance.choice(tree[chance.choice(tables)]) if tables else {}

def nodes_of(tree, is_wanted=lambda node: True):
    """The names of nodes; a change before may have left none."""
    return [str(node.get("name")) for node in tree["node"] if is_wanted(node)] or ["n0"]

def outlets_of(tree):
    return nodes_of(tree, lambda node: node.get("outlet"))

def unknown_key(tree, chance):
    if chance.random() < 0.3:
        tree["format"] = chance.choice((1, 2))
    else:
        key = chance.choice(("colour", "Name", "volume", "closed", "year_start", "per-day"))
        chance.choice((tree, entry(tree, chance)))[key] = 1

def missing_key(tree, chance):
    it = chance.choice((tree, entry(tree, chance), entry(tree, chance), entry(tree, chance)))
    it.pop(chance.choice([key for key in it if key not in small.TABLES] or ["name"]), None)
    if chance.random() < 0.2:
        chance.choice((entry(tree, chance, "link"), {})).update(closed=[1])
        tree["node"] = chance.choice((tree["node"], tree["node"], []))

def wrong_kind(tree, chance):
    it = chance.choice((tree, entry(tree, chance), entry(tree, chance)))
    keys = [key for key in it if key not in small.TABLES]
    it[chance.choice(keys or ["name"])] = chance.choice(ODD_VALUES)

def out_of_range(tree, chance):
    it = chance.choice((tree, entry(tree, chance), entry(tree, chance)))
    keys = [key for key, value in it.items() if isinstance(value, int) and not isinstance(value, bool)]
    if not keys or chance.random() < 0.2:
        tree["first_month"] = chance.choice(("1799-12", "3000-01", "2999-12", "1900-13", "1900-00"))
    else:
        it[chance.choice(keys)] = chance.choice(ODD_NUMBERS)

def bad_name(tree, chance):
    entry(tree, chance, "node", "link", *RIGHTS)["name"] = chance.choice(BAD_NAMES)

def too_many(tree, chance):
    """One more of a table than there may be, or of a diversion's return rows or an area's points."""
    how = chance.randrange(5)
    table, most = (("node", 2000), ("link", 4000), (chance.choice(RIGHTS), 2000), ("return", 8), ("reservoir", 64))[how]
    it = entry(tree, chance, table)
    if how < 3 and it:
        dated = [{"date": f"{1000 + number}-01-01"} if how == 2 else {} for number in range(most)]
        tree[table] += [it | {"name": f"more-{number}"} | date for number, date in enumerate(dated)]
    elif how == 3 and it:
        tree[table] += [dict(it) for _ in range(most)]
    elif it:
        it["area"] = [[number, number] for number in range(most + 1)]

def same_name(tree, chance):
    table = chance.choice(("node", "link", "reservoir", "right"))
    tables = RIGHTS if table == "right" else (table,)
    key = "node" if table == "reservoir" else "name"
    one, two = entry(tree, chance, *tables), entry(tree, chance, *tables)
    if key in one:
        two[key] = one[key]
    if table == "reservoir" and one:
        tree[table].append(dict(one))

def no_such_name(tree, chance):
    it = entry(tree, chance, "link", "reservoir", *RIGHTS, "return")
    keys = [key for key in ("node", "from", "to", "link", "reservoir", "diversion") if key in it]
    it[chance.choice(keys or ["node"])] = chance.choice(("nowhere", "N1", entry(tree, chance, "link").get("name", "x")))

def outlet_reservoir(tree, chance):
    if not tree["reservoir"]:
        tree["reservoir"].append({"opening": 1})
    entry(tree, chance, "reservoir")["node"] = chance.choice(outlets_of(tree))

def link_astray(tree, chance):
    """A link that leads back, to itself or out of an outlet."""
    link, nodes = entry(tree, chance, "link"), nodes_of(tree)
    how = chance.randrange(4)
    if how == 0:
        link["to"] = link.get("from", nodes[0])
    elif how == 1:
        link["from"] = chance.choice(outlets_of(tree))
    elif how == 2:
        to = chance.choice((link.get("from", nodes[0]), chance.choice(nodes)))
        tree["link"].append({"name": "back", "from": link.get("to", nodes[0]), "to": to})
    else:
        link["to"] = chance.choice(nodes)

def no_river(tree, chance):
    how = chance.randrange(3)
    if how == 0:
        entry(tree, chance, "link")["per_day"] = 1
    elif how == 1:
        entry(tree, chance, "node")["outlet"] = False
    elif tree["link"]:
        tree["link"].remove(entry(tree, chance, "link"))

def bad_date(tree, chance):
    entry(tree, chance, *RIGHTS)["date"] = chance.choice(ODD_DATES)

def same_seniority(tree, chance):
    one, two = entry(tree, chance, *RIGHTS), entry(tree, chance, *RIGHTS)
    two.update({key: one[key] for key in ("date", "order") if key in one})

def zone_order(tree, chance):
    zone = entry(tree, chance, "zone")
    if not zone:
        at = entry(tree, chance, "reservoir").get("node", "n0")
        zone = {"name": "zone", "reservoir": at, "level": chance.choice((1, 2)), "date": "1899-01-01", "want": 1}
        tree["zone"].append(zone)
    elif chance.random() < 0.5:
        zone["level"] = chance.choice((1, 2, 3))
    else:
        zone["date"] = chance.choice(("1790-01-01", "1990-01-01"))

def return_parts(tree, chance):
    diversion = entry(tree, chance, "diversion")
    for _ in range(chance.choice((1, 2))):
        row = {"diversion": diversion.get("name", "x"), "node": chance.choice(nodes_of(tree))}
        tree["return"].append(row | {"part": chance.choice((5000, 10**4)), "lag": 1})

def other_area(tree, chance):
    """An area table with no points, a first storage that isn't 0, or storages or areas that fall."""
    if not tree["reservoir"]:
        tree["reservoir"].append({"node": chance.choice(nodes_of(tree)), "opening": 1})
    entry(tree, chance, "reservoir")["area"] = chance.choice(ODD_AREAS)

TO_BASIN = (
    unknown_key, missing_key, wrong_kind, out_of_range, bad_name, same_name, no_such_name, outlet_reservoir,
    link_astray, link_astray, link_astray, no_river, bad_date, same_seniority, zone_order, return_parts, other_area,
    other_area,
)
# What a basin's text gets in front, where the top's keys stand, or at its end, where an entry goes on. Some of it is
# TOML and some isn't.
AT_FRONT = ("return = 5", "zone = [1]", "node = {}", "instream = []", "link = [{}, 1]", "a.b.c = 1", "# \x7f")
AT_END = ("[[node]", "node = 1", "x = ", 'x = "', "x = [1, 2", "[node]", "[top]", "\udcff", "a.b = 1\na = 2", "# \x7f",
          "1 = 2", "x = 01", "x = 9223372036854775808", "x = -9223372036854775808", "x = 1e400", "x = " + "9" * 5000,
          "'q' = 0x10", "x = [[[1]]]", 'x = """\n"""', "x = 1979-05-27", "x = 1979-02-30", "x = nan")

def changed_basin(tree, chance):
    """The text of a basin with one or two aimed changes."""
    tree = copy.deepcopy(tree) | {table: copy.deepcopy(tree.get(table, [])) for table in small.TABLES}
    for _ in range(chance.choice((1, 1, 2))):
        (too_many if chance.random() < 0.02 else chance.choice(TO_BASIN))(tree, chance)
    text = small.texts(tree)[0]
    if chance.random() < 0.1:
        text = chance.choice((chance.choice(AT_FRONT) + "\n" + text, text + chance.choice(AT_END) + "\n"))
    return text.encode("utf-8", "surrogateescape")

# --- SERIES ----------------------------------------------------------------------------------------------------------

def other_record(records, basin, chance):
    """A record with other fields, one more or one less, doubled, or gone; in a kind, a name, a month or an amount."""
    at, how = chance.randrange(1, len(records)), chance.randrange(12)
    fields = records[at]
    if how == 0:
        fields[:] = chance.choice((fields + ["1"], fields[:-1]))
    elif how in (1, 2):
        records.insert(chance.randrange(1, len(records) + 1), list(fields))
    elif how in (3, 4):
        del records[at]
    elif how == 5:
        fields[0] = chance.choice(ODD_MONTHS)
    elif how in (6, 7):
        fields[-1] = chance.choice(ODD_AMOUNTS)
    elif how == 8 and len(fields) == 4:
        fields[1] = chance.choice(("inflow", "want", "", "wants", "Want"))
    else:
        fields[-2] = chance.choice([*basin.nodes, *(right.name for right in basin.rights), "nowhere", ""])

def quoted(fields, chance):
    """A record as a line, some fields in quotation marks."""
    return ",".join('"' + field.replace('"', '""') + '"' if chance.random() < 0.1 else field for field in fields)

def changed_series(text, basin, chance):
    """The text of a series with one or two aimed changes, some of them in how it is written."""
    records = [line.split(",") for line in text.decode().splitlines()]
    if chance.random() < 0.06:
        headers = "month,node,amount", "month,kind,name,amount", "Month,node,amount", ""
        records[0] = chance.choice(headers).split(",")
    for _ in range(chance.choice((0, 1, 1, 1, 2))):
        if len(records) > 1:
            other_record(records, basin, chance)
    end = chance.choice(("\n", "\n", "\r\n", "\r", "\n\n"))
    mark = "\ufeff" * chance.choice((0, 0, 0, 0, 0, 0, 1, 1, 2))
    odd = chance.choice((*[""] * 20, '"', 'a"b', '"a"b', '""', ","))
    return (mark + end.join(quoted(fields, chance) for fields in records) + chance.choice((end, "")) + odd).encode()

def main(words):
    files = words[:3]
    basin = second.read_basin(second.read_file(files[0], "BASIN"))
    texts = [open(file, "rb").read() for file in files]
    chance, folder = random.Random(int(words[3])), f"aimed-{words[3]}"
    os.makedirs(folder, exist_ok=True)
    changed = {
        "basin.toml": changed_basin(second.document(texts[0]), chance),
        "series.csv": changed_series(texts[1], basin, chance),
        "result.txt": changed_result(texts[2], basin, chance),
    }
    for name, text in changed.items():
        with open(os.path.join(folder, name), "wb") as file:
            file.write(text)

if __name__ == "__main__":
    if len(sys.argv) != 5 or not sys.argv[4].isdecimal():
        sys.exit(__doc__)
    main(sys.argv[1:])
