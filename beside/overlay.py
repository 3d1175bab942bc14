"""The basin file that a file with a change alone makes of another. Its help is docs/help/overlay.txt."""
import copy
import json
import re
import sys

from beside import basin, common, files, model

VERBS = ("change", "remove", "add")

class BadChange(common.BadText):
    """A change can't be made in its basin."""

def fits(entry, asked, table):
    """Whether an entry is one that is asked for, by the keys that tell which it is."""
    return all(entry.get(key) == asked[key] for key in model.IDENTITY[table] if key in asked)

def named(table, entry):
    return " ".join([table, *(str(entry[key]) for key in model.IDENTITY[table] if key in entry)])

def places(tree, table, asked):
    """The places in a list of the entries that are asked for."""
    first = model.IDENTITY[table][0]
    if first not in asked:
        raise BadChange(f"an entry of {table} has no {first}, which tells which it is")
    found = [at for at, entry in enumerate(tree.get(table, [])) if fits(entry, asked, table)]
    if not found:
        names = [it.get(first, "") for it in tree.get(table, [])]
        raise BadChange(f"the basin has no {named(table, asked)}{common.meant(str(asked[first]), names)}")
    return found

def change(tree, table, asked):
    found = places(tree, table, asked)
    if len(found) > 1:
        raise BadChange(f"{named(table, asked)} stands {len(found)} times: say which")
    entry = tree[table][found[0]]
    entry.update({key: value for key, value in asked.items() if key != "without"})
    for key in asked.get("without", []):
        if entry.pop(key, None) is None:
            raise BadChange(f"{named(table, asked)} has no {key}")

def remove(tree, table, asked):
    strange = next((key for key in asked if key not in model.IDENTITY[table]), None)
    if strange:
        raise BadChange(f"remove.{table} takes only {', '.join(model.IDENTITY[table])}, and not {strange}")
    for at in reversed(places(tree, table, asked)):
        del tree[table][at]

def add(tree, table, asked):
    if any(fits(entry, asked, table) for entry in tree.get(table, [])):
        raise BadChange(f"the basin has {named(table, asked)} already: change it")
    tree.setdefault(table, []).append(asked)

def overlay(tree, changes):
    """The tree of a basin with the changes made: all that change first, then what is taken out, then what is added."""
    made = copy.deepcopy(tree)
    for word in changes:
        if word not in (*VERBS, "top"):
            raise BadChange(f"CHANGE has {word}, which is none of change, remove, add and top")
    for verb, make in zip(VERBS, (change, remove, add)):
        for table, entries in changes.get(verb, {}).items():
            if table not in model.IDENTITY or not isinstance(entries, list):
                known = common.meant(table, model.IDENTITY)
                raise BadChange(f"write [[{verb}.TABLE]] with a table of the basin file, not {verb}.{table}{known}")
            for asked in entries:
                make(made, table, asked)
    return made | changes.get("top", {})

def spelled(value):
    """A value as TOML spells it."""
    if isinstance(value, bool):
        return str(value).lower()
    if isinstance(value, str):
        return json.dumps(value, ensure_ascii=False).replace("\x7f", "\\u007f")
    if isinstance(value, list):
        return f"[{', '.join(map(spelled, value))}]"
    if isinstance(value, dict):
        return "{ " + ", ".join(f"{key_of(key)} = {spelled(it)}" for key, it in value.items()) + " }"
    return str(value)

def key_of(key):
    return key if re.fullmatch(r"[A-Za-z0-9_-]+", key) else spelled(key)

def lines_of(entry):
    return [f"{key_of(key)} = {spelled(value)}" for key, value in entry.items()]

def text_of(tree):
    """A basin file, with a table for each entry; an empty list is left out."""
    tables = {key: value for key, value in tree.items() if key in model.IDENTITY and isinstance(value, list)}
    lines = lines_of({key: value for key, value in tree.items() if key not in tables})
    for table, entries in tables.items():
        for entry in entries:
            lines += ["", f"[[{table}]]", *lines_of(entry)]
    return "\n".join([*lines, ""])

def main(words: list[str]) -> int:
    _, (name, change_name) = common.options(words, count=2)
    made = overlay(basin.read_basin(name), files.read_toml(change_name))
    print(f"# {name} with the changes of {change_name}, by ./basin overlay: change those, and make this again.")
    sys.stdout.write(text_of(made))
    return 0
