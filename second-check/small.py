#!/usr/bin/env python3
"""small NUMBER.. FOLDER: writes the small basin of each number as FOLDER/NUMBER/basin.toml and FOLDER/NUMBER/series.csv.

These are the basins that the checks try: 2 to 8 nodes, at most 6 rights and 1 to 6 months; with rivers that divide,
canals, some of them shut, reservoirs with zones, diversions with and without volumes, instream rights on rivers and canals, several
on one link or one after another, return flows, gauges and wants in the series. Amounts are small, so that many bounds are met at once.
"""
import json
import os
import random
import subprocess
import sys

EXAMPLES = os.path.join(os.path.dirname(os.path.abspath(__file__)), "..", "examples")
TABLES = ("node", "link", "reservoir", "diversion", "instream", "zone", "return")

def monthly(chance, most):
    """Twelve amounts, a few of them 0."""
    return [chance.choice((0, chance.randint(0, most), chance.randint(0, most), chance.randint(0, most))) for _ in range(12)]

def network(chance, most):
    """The nodes and links of a basin, listed in an order of their own. Links lead from earlier to later nodes of an inner order. Some
    nodes are fields: nothing comes in there but by a canal."""
    count = chance.randint(2, 8)
    outlets = {count - 1} | ({chance.randrange(1, count)} if chance.random() < 0.2 else set())
    fields = {at for at in range(1, count - 1) if chance.random() < 0.35}
    nodes = [{"name": f"n{at}", "outlet": at in outlets, "inflow": monthly(chance, most) if at not in fields and chance.random() < 0.7 else [0] * 12} for at in range(count)]
    tails = [at for at in range(count) if at not in outlets]
    links = [(at, chance.choice([to for to in range(at + 1, count) if to not in fields][:2]), None) for at in tails]
    links += [(chance.choice([at for at in tails if at < field]), field, 1) for field in fields]
    for _ in range(chance.randint(0, 4)):
        tail = chance.choice(tails)
        head = chance.randint(tail + 1, count - 1)
        links.append((tail, head, chance.choice((0, 1, 1, 1, 2) if head in fields else (None, 0, 1, 1, 1, 2))))
    chance.shuffle(links)
    listed = []
    for at, (tail, head, per_day) in enumerate(links):
        link = {"name": f"e{at}", "from": f"n{tail}", "to": f"n{head}"}
        if per_day is not None:
            link["per_day"] = per_day
            if chance.random() < 0.3:
                link["closed"] = chance.sample(range(1, 13), chance.randint(1, 8))
        listed.append(link)
    chance.shuffle(nodes)
    return nodes, listed, [f"n{field}" for field in sorted(fields)]

def put_rights(chance, tree, most, fields):
    """Puts rights and reservoirs into a basin. The zones of a reservoir are dated from the bottom up."""
    nodes, links = [node["name"] for node in tree["node"]], tree["link"]
    dry = [node["name"] for node in tree["node"] if not node["outlet"]]
    levels, last = {}, None
    for rank in range(chance.randint(1, 6)):
        right = {"name": f"r{rank}", "date": f"{1880 + rank // 2}-0{chance.randint(1, 9) if rank % 2 == 0 else 9}-01", "order": rank % 2 * 5, "want": monthly(chance, most)}
        how = chance.random()
        if how < 0.45 or (how < 0.75 and not links):
            tree["diversion"].append(right | {"node": chance.choice(chance.choice((nodes, fields or nodes)))} | ({"volume": chance.randint(0, 3 * most)} if chance.random() < 0.2 else {}))
        elif how < 0.75:
            after = [link for link in links if last and link["from"] == last["to"]] or links
            last = chance.choice(chance.choice((links, after, [last or links[0]])))
            tree["instream"].append(right | {"link": last["name"]})
        else:
            at = chance.choice([*levels, *dry] if len(levels) < 2 else [*levels])
            if at not in levels:
                levels[at] = 0
                tree["reservoir"].append({"node": at, "opening": chance.randint(0, 2 * most), "area": [[0, 0], [most, chance.randint(0, 40)]], "rate": monthly(chance, 20)})
            levels[at] += 1
            tree["zone"].append(right | {"reservoir": at, "level": levels[at]})
    for diversion in tree["diversion"]:
        for _ in range(chance.choice((0, 0, 1, 1, 2))):
            tree["return"].append({"diversion": diversion["name"], "node": chance.choice(nodes), "part": chance.randint(1, 5000), "lag": chance.randint(1, 2)})
    for table in ("diversion", "instream", "zone"):
        chance.shuffle(tree[table])

def small(number):
    """The small basin of a number: a table as in a file of format 2, with all amounts in it, and what of it is to stand in a series."""
    chance = random.Random(number)
    most = chance.choice((3, 40, 60, 100, 100))
    tree = {"format": 2, "first_month": f"{chance.randint(1979, 1985)}-{chance.randint(1, 12):02d}", "months": chance.randint(1, 6), "year_start": chance.randint(1, 12)}
    tree |= {table: [] for table in TABLES}
    tree["node"], tree["link"], fields = network(chance, most)
    put_rights(chance, tree, most, fields)
    in_series = {("inflow", node["name"]) for node in tree["node"] if chance.random() < 0.2}
    in_series |= {("want", right["name"]) for table in ("diversion", "instream", "zone") for right in tree[table] if chance.random() < 0.2}
    return tree, in_series

def months_of(tree):
    """The months of a run, from 0 for January of the year 0."""
    first = int(tree["first_month"][:4]) * 12 + int(tree["first_month"][5:]) - 1
    return range(first, first + tree["months"])

def month_text(month):
    return f"{month // 12:04d}-{month % 12 + 1:02d}"

def spelled(value):
    """A value as in a file. Twelve amounts that are the same are one."""
    return json.dumps(value[0] if isinstance(value, list) and len(value) == 12 and len(set(map(str, value))) == 1 else value)

def texts(tree, in_series=frozenset()):
    """The basin file and the series of a small basin."""
    lines, records = [f"{key} = {json.dumps(value)}" for key, value in tree.items() if key not in TABLES], ["month,kind,name,amount"]
    for table in TABLES:
        for entry in tree[table]:
            entry = dict(entry)
            for key, word in (("inflow", "gauged"), ("want", "series")):
                if in_series and key in entry and (key, entry.get("name")) in in_series:
                    records += [f"{month_text(month)},{key},{entry['name']},{entry[key][month % 12]}" for month in months_of(tree)]
                    entry[key] = word
            lines += ["", f"[[{table}]]"] + [f"{key} = {spelled(value)}" for key, value in entry.items() if value is not False and value != [0] * 12 or key == "want"]
    return "\n".join(lines) + "\n", "\n".join(records) + "\n"

def files_of(name):
    """The basin, the series and the result of an example."""
    toml, series, result = (os.path.join(EXAMPLES, name + ending) for ending in (".toml", ".csv", ".result"))
    return [toml, series if os.path.exists(series) else "-", result]

def examples():
    """The files of each example that has a result, by its name."""
    return {name[:-7]: files_of(name[:-7]) for name in sorted(os.listdir(EXAMPLES)) if name.endswith(".result")}

def run(program, *words):
    """What a program writes, and its status."""
    ran = subprocess.run([program, *words], capture_output=True, timeout=600)
    return ran.stdout + ran.stderr, ran.returncode

def write(folder, tree, in_series=frozenset()):
    """Writes both texts, and answers the names of their files."""
    names = [os.path.join(folder, name) for name in ("basin.toml", "series.csv")]
    for name, text in zip(names, texts(tree, in_series)):
        with open(name, "w", encoding="ascii") as file:
            file.write(text)
    return names

if __name__ == "__main__":
    *numbers, folder = sys.argv[1:] or [""]
    if not numbers or not all(number.isdecimal() for number in numbers):
        sys.exit(__doc__)
    for number in numbers:
        os.makedirs(os.path.join(folder, number), exist_ok=True)
        write(os.path.join(folder, number), *small(int(number)))
