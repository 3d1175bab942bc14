"""How much a right can count on in a year, from an ensemble or from a run. Its help is docs/help/yearly.txt."""
import collections
import itertools
import sys

from beside import basin, common
from beside.common import CALENDAR

PERCENTS = (95, 90, 80, 50, 20, 10)

def of_ensemble(lines, tree):
    """The counts of an ensemble by right, and the sentence that tells of its years."""
    ensemble = basin.read_ensemble(lines)
    begins = int(ensemble.first[5:])
    said = f"{ensemble.traces ** 2} years, of {ensemble.traces} traces; a year begins with {CALENDAR[begins - 1]}"
    if tree:
        start = tree.get("year_start", 10)
        said += ", as the water year does" if begins == start else (
            f", and is no water year: that begins with {CALENDAR[start - 1]}, as the run would have to")
        rights = basin.rights_of(tree)
        return {name: it for name, it in ensemble.yearly.items() if basin.right_of(rights, name).kind != "zone"}, said
    return ensemble.yearly, said

def of_result(lines, tree):
    """The same of a result, by the water years of its basin."""
    if tree is None:
        raise common.WrongWords("a result needs --basin BASIN, which tells its water years")
    months, start = basin.read_result(lines, tree), tree.get("year_start", 10)
    sums = basin.YearSums(basin.rights_of(tree), start)
    for month in months:
        sums.add(month)
    counts = collections.defaultdict(collections.Counter)
    whole = [rights for rights in sums.years.values() if next(iter(rights.values()), basin.YearSum("")).months == 12]
    for name, it in ((name, it) for rights in whole for name, it in rights.items() if it.kind != "zone"):
        counts[name][it.delivered] += 1
    said = f"{len(whole)} whole water years, which begin with {CALENDAR[start - 1]}"
    return {name: dict(sorted(found.items())) for name, found in counts.items()}, said

def csv_rows(yearly):
    yield "right", "amount", "years", "percent"
    for right, counts in yearly.items():
        total = sum(counts.values())
        yield from ((right, amount, years, f"{100 * years / total:.1f}") for amount, years in basin.reached(counts))

def put_table(yearly, said):
    rows = [("right", "least", *(f"{percent}%" for percent in PERCENTS), "most")]
    for right, counts in yearly.items():
        rows.append((right, min(counts), *(basin.reached_in(counts, percent) for percent in PERCENTS), max(counts)))
    print(said, "at least so much came in so many percent of the years:", "", *common.aligned(rows), sep="\n")

def main(words: list[str]) -> int:
    given, (name,) = common.options(words, ("--basin",), ("--csv",), 1)
    tree = basin.read_basin(given["--basin"][-1]) if "--basin" in given else None
    lines = basin.lines_of(name)
    first = next(lines, "")
    read = of_result if first.startswith("river-result") else of_ensemble
    yearly, said = read(itertools.chain([first], lines), tree)
    if "--csv" in given:
        common.write_csv(sys.stdout, csv_rows(yearly))
    else:
        put_table(yearly, said)
    return 0
