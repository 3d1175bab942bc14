"""A basin file as tables for a spreadsheet, of which from-tables makes the same basin.

Its help is docs/help/to-tables.txt.
"""
import os

from beside import common, files
from beside.table_files import TABLES

def is_twelve(value):
    return isinstance(value, list) and len(value) == 12

def cell(value):
    """A value as a cell."""
    if isinstance(value, bool):
        return "yes" if value else "no"
    return " ".join(map(str, value)) if isinstance(value, list) else value

def headings_of(entries, columns):
    """The keys that some entry has, each with the place of a calendar month, or None; of a table without rows all."""
    for key, kind in columns.items():
        values = [entry[key] for entry in entries if key in entry]
        twelve = [value for value in values if "*" in kind and is_twelve(value)]
        if len(values) > len(twelve) or not entries:
            yield key, None
        if twelve:
            yield from ((key, place) for place in range(12))

def value_at(entry, key, place, is_monthly):
    """What stands in the column of a key and a month."""
    value = entry.get(key, "")
    if is_monthly and is_twelve(value):
        return "" if place is None else value[place]
    return cell(value) if place is None else ""

def written(entries, columns):
    """The headings and rows of a table."""
    headings = list(headings_of(entries, columns))
    yield [key if place is None else f"{key} {common.CALENDAR[place][:3].lower()}" for key, place in headings]
    for entry in entries:
        yield [value_at(entry, key, place, "*" in columns[key]) for key, place in headings]

def tables(tree):
    """The entries of each table."""
    listed = {table: tree.get(entry, []) for table, (entry, _) in TABLES.items() if entry}
    listed["areas"] = [
        {"reservoir": it["node"], "storage": storage, "area": area}
        for it in listed["reservoirs"] for storage, area in it.get("area", ())
    ]
    return listed | {"run": [tree]}

def main(words: list[str]) -> int:
    name, folder = common.options(words, count=2)[1]
    tree = files.document(name).tree
    os.makedirs(folder, exist_ok=True)
    for table, entries in tables(tree).items():
        with open(os.path.join(folder, table + ".csv"), "w", newline="", encoding="utf-8") as file:
            common.write_csv(file, written(entries, TABLES[table][1]))
    return 0
