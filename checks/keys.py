"""keys [PROGRAM]: holds what the schema, lint, an office's tables and a page know of a basin file against the program's
own list of keys.

That list is the function `keys` in crates/*/src: of each table the keys, each with what its value is, its range,
whether it must be there, and the first format that has it. docs/basin.schema.json and `beside/model.py` have to say the
same. `beside/table_files.py` has to have a column for each key, of its kind, and docs/FORMATS.md a row with its range.
With PROGRAM, a built one, the default that the schema gives a key has to be what `upgrade` writes where it is left out.
Each comparison is tried itself: a key less or more, another kind or another range has to be found.
"""
import glob
import json
import os
import re
from typing import Any

from beside import files, model, table_files
from beside.common import ROOT, write_text
from checks import harness
from checks.harness import ran, read, tried

TABLES: Any = table_files.TABLES
Row = tuple[Any, ...]                           # what a value is, the least, the most, if it must be there, the format
KINDS, PATTERNS, COLUMNS, IN_TABLES, BARE = harness.table("keys", "KINDS PATTERNS COLUMNS IN_TABLES BARE")

def of_program() -> dict[str, Row]:
    """The keys by the source of the program, wherever that stands, as `node.name`."""
    paths = glob.glob(os.path.join(ROOT, "crates", "*", "src", "*.rt"))
    text = next(text for text in map(read, paths) if "pub fn keys(table" in text)
    most = {name: int(number) for name, number in re.findall(r"pub const (\w+): u64 = ([0-9_]+);", text)}
    found: dict[str, Row] = {}
    for table, body in re.findall(r"BasinTable::(\w+) => &\[\n(.*?)\n {8}\]", text, re.S):
        for how, key, kind, given in re.findall(r'(\w+)!\("(\w+)", Kind::(\w+)(?:\(([^)]*)\))?\)', body):
            word, *numbers = KINDS[kind]
            bounds = [most.get(it) or int(it) for it in (given.split(", ") if re.match("[0-9M]", given) else numbers)]
            if given.startswith("Space::"):
                word += " " + given[7:-1].lower()
            found[f"{table.lower()}.{key}"] = (word, *([0, 0] + bounds)[-2:], how == "required", 1 + (how == "second"))
    return found

def of_lint() -> dict[str, Row]:
    found: dict[str, Row] = {}
    for table, keys in model.KEYS.items():
        for key, (kind, least, most, is_due) in model.KEYS_BOTH[table].items():
            if kind == "text":
                kind = f"refers {model.REFERS[table][key]}" if key in model.REFERS.get(table, {}) else "name"
            found[f"{table}.{key}"] = (kind, least, most, is_due, 1 if key in keys else 2)
    return found

class Schema:
    """The schema, with its keys; of what a text names it knows nothing."""

    def __init__(self, text: str) -> None:
        self.tree = json.loads(text)
        self.first = self.tree["anyOf"][1]["properties"]        # what format 1 has otherwise
        self.keys: dict[str, Row] = {}
        self.defaults: dict[str, Any] = {}
        for table, it in {"top": self.tree, **self.tree["$defs"]}.items():
            first = self.first if table == "top" else self.first.get(table, {}).get("items", {}).get("properties", {})
            for key, value in it.get("properties", {}).items():
                row = (*self.kind(self.whole(value)), key in it["required"], 2 if first.get(key) is False else 1)
                self.keys[f"{table}.{key}"] = row
                if "default" in self.whole(value):
                    self.defaults[f"{table}.{key}"] = self.whole(value)["default"]

    def whole(self, value: Any) -> Any:
        """A value with what it refers to."""
        return self.tree["$defs"][value["$ref"].rpartition("/")[2]] | value if "$ref" in value else value

    def kind(self, value: Any) -> tuple[str, int, int]:
        parts = [self.whole(part) for part in value.get("anyOf", ())]
        if parts:
            word = {"series": "want", "gauged": "inflow"}.get(parts[-1].get("const", ""), "monthly")
            return word, *self.kind(parts[0])[1:]
        items = self.whole(value.get("items", {}))
        if value["type"] == "array" and items["type"] == "integer":
            return "months", *self.kind(items)[1:]
        if value["type"] == "array":
            return "list" if items["type"] == "object" else "area", 0, 0
        word = {"integer": "whole", "boolean": "truth", "string": PATTERNS.get(value.get("pattern"), "refers")}
        return word[value["type"]], value.get("minimum", 0), value.get("maximum", 0)

def differences(due: dict[str, Row], found: dict[str, Row]) -> list[str]:
    """The keys that only one of two lists has, or that differ. A kind `refers` is one of any table."""
    def same(one: Row, other: Row) -> bool:
        return one[1:] == other[1:] and (one[0] == other[0] or other[0] == one[0].split(" ")[0])
    return [key for key in dict.fromkeys([*due, *found])
            if key not in due or key not in found or not same(due[key], found[key])]

def without_column(due: dict[str, Row], tables: Any) -> list[str]:
    """The keys that no column of an office's tables is for, or one of another kind."""
    columns = {f"{entry or name}.{key}": kind for name, (entry, keys) in tables.items() for key, kind in keys.items()}
    return [key for key, row in due.items()
            if row[0] != "list" and columns.get(IN_TABLES.get(key, key)) not in COLUMNS[row[0].split(" ")[0]]]

def without_row(due: dict[str, Row], text: str) -> list[str]:
    """The keys that no row of the tables of a page is for, or one without the range."""
    rows = re.findall(r"(?m)^\| (.*) \| (.*) \| .* \|$", text)

    def has_row(key: str, row: Row) -> bool:
        said = [value for names, value in rows if f"`{key.partition('.')[2]}`" in names]
        return any(row[0] not in ("whole", "monthly", "inflow") or f"{row[2]:,}" in it for it in said)
    return [key for key, row in due.items() if not has_row(key, row)]

def try_defaults(path: str, program: str, due: dict[str, Row], defaults: dict[str, Any]) -> None:
    """That `upgrade` writes the schema's default for each key that is left out, and nothing where it has none."""
    out, err, status = ran(program, "upgrade", write_text(path, BARE))
    tried("a basin without what may be left out is upgraded", status == 0, err)
    tree = files.read_toml(write_text(path, out))
    for key, (kind, _, _, is_due, _) in due.items():
        table, name = key.split(".")
        if kind != "list" and not is_due:
            written = (tree if table == "top" else tree[table][0]).get(name, [])
            default = defaults.get(key, [])
            tried(f"{key} left out is as the schema says", written in (default, [default] * 12), (written, default))

def main(room, program=""):
    due, schema, page = of_program(), Schema(read("docs", "basin.schema.json")), read("docs", "FORMATS.md")
    tried("the program's list of keys is found", len(due) > 40 and {key.split(".")[0] for key in due} == {*model.KEYS})
    for what, found in (("the schema", schema.keys), ("lint", of_lint())):
        tried(f"{what} knows the program's keys", not differences(due, found), differences(due, found))
        for key, row in due.items():
            less, other = {it: of for it, of in found.items() if it != key}, found | {key: (*row[:2], -1, *row[3:])}
            is_found = differences(due, less) == differences(due, other) == [key]
            tried(f"that {what} lacks {key}, or has another range of it, is found", is_found)
        tried(f"that {what} has a key more is found", differences(due, found | {"node.more": due["node.name"]}))
    tried("the tables have a column for each key", not without_column(due, TABLES), without_column(due, TABLES))
    for name, (entry, keys) in TABLES.items():
        for key in keys:
            tables = TABLES | {name: (entry, {it: of for it, of in keys.items() if it != key})}
            lacks = [it for it in due if IN_TABLES.get(it, it) == f"{entry or name}.{key}"]
            tried(f"that {name}.csv lacks {key} is found", without_column(due, tables) == lacks)
    tried("the page has a row for each key", not without_row(due, page), without_row(due, page))
    tried("that the page lacks a row is found", without_row(due, page.replace("| `lag` |", "| `delay` |")))
    tried("each entry is known by keys that it has", not [
        key for table, keys in model.IDENTITY.items() for key in keys if f"{table}.{key}" not in due])
    if program:
        try_defaults(os.path.join(room, "basin.toml"), program, due, schema.defaults)
