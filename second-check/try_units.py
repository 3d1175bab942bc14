#!/usr/bin/env python3
"""try-units PROGRAM [--many MONTHS]: holds what `units` says of small basins against the built program, with a unit more of water or carry.

It takes the basins that `small` makes from the numbers 1, 2, .., until it has seen so many months: 400, about two minutes, or more with
--many. For each month

    the search and every set of nodes give the same cores, reaches and lines, and the sets that the program writes are the reaches;
    with one more unit of inflow at a node, for each node, the program delivers exactly one more to the right that `next` names and
    the same to its seniors, and where it names nobody the same to all;
    the same with one more unit of carry on a canal, for each canal, and the right that `link` names;
    `PROGRAM calls` writes the same text, on the examples too, if it has the command.

The changed months are asked for by one script of `PROGRAM edit` for each basin, and of each fifth basin those of the first month by
`PROGRAM run` as well, as one month of a basin of many parts that share no water. A file can't change the carry of a canal by one unit.
So a canal is written as one that carries more, and a right older than all takes at its end what is too much, of water that comes in
for that where it begins. An interrupt ends the work, and what was seen is told.
"""
import collections
import contextlib
import copy
import os
import sys
import tempfile

import check as second
import small
import units

SEEN = ("months", "short rights", "short instream rights", "cores of one node", "cores equal to the reach", "other cores", "units at a node that help", "units at a node that help nobody",
        "units of carry that help", "units of carry that help nobody", "units on a shut canal that help", "changes that were run", "curtailed rights")
seen, failed = collections.Counter({what: 0 for what in SEEN}), 0

def fail(number, what):
    global failed
    failed += 1
    print(f"try-units: basin {number} FAILED: {what}", flush=True)

class Kept(units.Units):
    """Units that keep what they found in each month."""

    def __init__(self, *words):
        self.months = []
        super().__init__(*words)

    def month_ends(self):
        super().month_ends()
        self.months.append({word: copy.copy(getattr(self, word)) for word in ("month", "got", "want", "cores", "reaches", "cuts", "next", "help", "back")})

def units_of(basin, series, data, is_brute):
    """The lines and months of `units`."""
    lines = []
    kept = Kept(basin, series, is_brute, lines.append)
    second.check(kept, data)
    return lines, kept.months

def with_ends(tree, basin, months):
    """The basin with its canals written so that they can carry one unit more: each carries more than it can and ends at a node of its
    own, where a right older than all takes what is too much."""
    tree = copy.deepcopy(tree)
    for link, canal in enumerate(list(tree["link"])):
        if "per_day" not in canal:
            continue
        name = canal["name"]
        tree["node"].append({"name": f"{name}-end", "outlet": False, "inflow": [0] * 12})
        tree["link"].append({"name": f"{name}-on", "from": f"{name}-end", "to": canal["to"]})
        older = {"name": f"{name}-old", "node": f"{name}-end", "date": "0001-01-01", "order": link, "want": [0] * 12}
        tree["diversion"].append(older)
        canal["to"], canal["per_day"] = f"{name}-end", canal["per_day"] + 1
        canal.pop("closed", None)
        start = next(node for node in tree["node"] if node["name"] == canal["from"])
        held = [right for right in tree["instream"] if right["link"] == name]
        for right in held:
            right["link"] = f"{name}-on"
        for it in months:
            too_much = canal["per_day"] * second.days_in(it["month"]) - basin.carry(link, it["month"])
            start["inflow"][it["month"] % 12] += too_much
            older["want"][it["month"] % 12] = too_much
            for right in held:
                right["want"][it["month"] % 12] = it["want"][basin.right_at[right["name"]]]
    return tree

def tries_of(basin, months):
    """What is tried: in which month, what, where, the right that should gain, and which amounts change by how much."""
    for place, it in enumerate(months):
        yield place, "nothing", None, None, []
        for node, name in enumerate(basin.nodes):
            yield place, "units at a node", node, it["next"][node], [("inflow", name, 1)]
        for link, (name, tail, _, per_day) in enumerate(basin.links):
            if per_day is not None:
                yield place, "units of carry", link, it["help"][link], [("inflow", basin.nodes[tail], -1), ("want", f"{name}-old", -1)]

def by_edit(program, folder, tree, months, tries):
    """What each right is delivered and wants in each try, by one script of changes."""
    amounts = {(key, entry["name"]): entry[key] for table in small.TABLES for entry in tree[table] for key in ("inflow", "want") if key in entry}
    lines = ["river-edit 1"]
    for place, _, _, _, changes in tries:
        at = months[place]["month"]
        for more in (1, 0):
            lines += [f"{key} {small.month_text(at)} {name} {amounts[key, name][at % 12] + amount * more}" for key, name, amount in changes]
            lines += [f"show {small.month_text(at)}"] * more
    script = os.path.join(folder, "script")
    with open(script, "w", encoding="ascii") as file:
        file.write("\n".join([*lines, "done", ""]))
    changed = {("inflow", node["name"]) for node in tree["node"]} | {("want", right["name"]) for right in tree["diversion"] if right["name"].endswith("-old")}
    result, status = small.run(program, "edit", *small.write(folder, tree, changed), script)
    return deliveries(result) if status == 0 else None

def by_run(program, folder, tree, months, tries):
    """The same for tries of the first month, by a run of one month of a basin of many parts that share no water."""
    whole = tree | {table: [] for table in small.TABLES} | {"months": 1}
    for mark, (place, _, _, _, changes) in enumerate(tries):
        at = months[place]["month"] % 12
        for table in small.TABLES:
            for entry in copy.deepcopy(tree[table]):
                for key, name, amount in changes:
                    if key in entry and entry["name"] == name:
                        entry[key][at] += amount
                for key in ("name", "node", "from", "to", "link", "reservoir", "diversion"):
                    if key in entry:
                        entry[key] += f"-{mark}"
                if "order" in entry:
                    entry["order"] = entry["order"] * 1000 + mark
                whole[table].append(entry)
    result, status = small.run(program, "run", *small.write(folder, whole))
    if status != 0:
        return None
    found = deliveries(result)[0]
    return [{name.removesuffix(f"-{mark}"): amounts for name, amounts in found.items() if name.endswith(f"-{mark}")} for mark in range(len(tries))]

def deliveries(result):
    """What each right was delivered and wanted, in each month of a text."""
    found = []
    for line in result.decode().split("\n"):
        word, *fields = line.split(" ")
        if word == "month":
            found.append({})
        elif word == "deliver":
            found[-1][fields[0]] = (int(fields[1]), int(fields[2]))
    return found

def try_units(program, number, tree, basin, months, folder):
    """Runs each month with one more unit at each node and on each canal, and compares the deliveries with what `next` and `link` say."""
    tree = with_ends(tree, basin, months)
    every = list(tries_of(basin, months))
    for how, tries in [(by_edit, every)] + [(by_run, [it for it in every if it[0] == 0])] * (number % 5 == 1):
        found = how(program, folder, tree, months, tries)
        if found is None:
            fail(number, f"{how.__name__} its changed months are refused")
            continue
        for (place, what, entry, gains, _), amounts in zip(tries, found, strict=True):
            it = months[place]
            got = {right: amounts[basin.rights[right].name] for right in basin.order}
            if any(got[right][1] != it["want"][right] for right in basin.order):
                fail(number, f"with {what} ({entry}) in month {place} the wants are others")
            # the rights whose deliveries are told: all, or the one that gains and its seniors
            told = basin.order if gains is None else basin.order[:basin.rank[gains] + 1]
            if any(got[right][0] != it["got"][right] + (right == gains) for right in told):
                fail(number, f"with {what} ({entry}) in month {place} the deliveries are {[got[right][0] for right in basin.order]}, were {[it['got'][right] for right in basin.order]}, and right {gains} was to gain ({how.__name__})")
            seen[f"{what} that help{'' if gains is not None else ' nobody'}"] += 1
            seen["units on a shut canal that help"] += what == "units of carry" and gains is not None and basin.carry(entry, it["month"]) == 0
            seen["changes that were run"] += how == by_run

def count(basin, months):
    for it in months:
        seen["months"] += 1
        seen["short rights"] += len(it["cores"])
        seen["short instream rights"] += sum(basin.rights[right].link is not None for right in it["cores"])
        for right, core in it["cores"].items():
            seen["cores of one node"] += len(core) == 1
            seen["cores equal to the reach"] += core == it["reaches"][right]
            seen["other cores"] += len(core) > 1 and core != it["reaches"][right]
        seen["curtailed rights"] += len(it["back"])

def compare(program, what, files, result, has_calls):
    """Compares the search, the sets of nodes and the program on one basin, and answers the months."""
    basin, series = second.read_files(files)
    try:
        lines, months = units_of(basin, series, result, False)
        others, tried = units_of(basin, series, result, True) if len(basin.nodes) <= units.MOST else (lines, months)
    except (second.Refuted, AssertionError) as error:
        return fail(what, f"its result: {error.args}")
    if lines != others or any(one[key] != two[key] for one, two in zip(months, tried) for key in one):
        fail(what, "the search and the sets of nodes differ")
    if any(it["cuts"] != it["reaches"] for it in months):
        fail(what, "a set in the result isn't the reach")
    if has_calls and small.run(program, "calls", *files) != (units.units(basin, series, result).encode(), 0):
        fail(what, "the program's calls are others")
    return basin, months

def main(program, most):
    has_calls = small.run(program, "calls", *small.files_of("weir")[:2])[1] != 2
    if not has_calls:
        print("try-units: the program has no command calls: its text is not compared")
    for name, files in small.examples().items():
        with open(files[2], "rb") as file:
            compare(program, name, files[:2], file.read(), has_calls)
    number = 0
    with tempfile.TemporaryDirectory() as folder, contextlib.suppress(KeyboardInterrupt):
        while seen["months"] < most and failed < 20:
            number += 1
            tree, in_series = small.small(number)
            files = small.write(folder, tree, in_series)
            result, status = small.run(program, "run", *files)
            if status != 0:
                fail(number, f"its run ends with status {status}")
                continue
            found = compare(program, number, files, result, has_calls)
            if found:
                count(*found)
                try_units(program, number, tree, *found, folder)
    print(f"try-units: {number} basins, {failed} answers are others; " + ", ".join(f"{what} {seen[what]}" for what in SEEN))
    for what in SEEN:
        if seen[what] == 0:
            sys.exit(f"try-units: FAILED: no {what}")
    sys.exit(failed != 0)

words = sys.argv[1:]
if len(words) not in (1, 3) or (len(words) == 3 and (words[1] != "--many" or not words[2].isdecimal())):
    sys.exit(__doc__)
main(os.path.abspath(words[0]), int(words[2]) if len(words) == 3 else 400)
