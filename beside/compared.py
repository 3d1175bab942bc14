"""Whom a change of a basin injures, summed up by right. Its help is docs/help/compared.txt."""
import itertools
import sys

from beside import basin, common, model

COLUMNS = ("right", "kind", "date", "injured", "lost", "gained", "worst", "before", "after")

class Change:
    """How the deliveries of a right differ in a second basin, month by month."""

    def __init__(self):
        self.injured = self.lost = self.gained = self.most = 0
        self.worst = ("-", "-", "-")

    def add(self, month, first, second):
        self.injured += second < first
        self.lost += max(0, first - second)
        self.gained += max(0, second - first)
        if first - second > self.most:
            self.most, self.worst = first - second, (month, first, second)

def changes(first, second, names):
    """The change of each right of both basins, seniors first."""
    if (first.first, first.count) != (second.first, second.count):
        raise basin.OtherBasin("the two basins have another first_month or other months: let both run over the same")
    found = {name: Change() for name in names}
    for one, two in itertools.zip_longest(first, second):      # (to the end of both, so that both statuses are seen)
        for name in names:
            found[name].add(one.month, one.delivered[name], two.delivered[name])
    return found

def row_of(right, change):
    sums = ("-", "-") if right.kind == "zone" else (change.lost, change.gained)
    return (right.name, right.kind, right.date, change.injured, *sums, *change.worst)

def differences(tree, tree2):
    """A line for each entry that only one basin has, or that differs."""
    for table, keys in model.IDENTITY.items():
        one, two = ({tuple(it.get(key) for key in keys): it for it in each.get(table, [])} for each in (tree, tree2))
        for entry in dict.fromkeys([*one, *two]):
            name = " ".join([table, *map(str, entry)])
            if entry not in two:
                yield f"only in BASIN: {name}"
            elif entry not in one:
                yield f"only in BASIN2: {name}"
            else:
                old, new = one[entry], two[entry]
                keys = [key for key in dict.fromkeys([*old, *new]) if old.get(key) != new.get(key)]
                if keys:
                    yield f"differs: {name}, in {', '.join(keys)}"

def tell(found, agreed):
    """The last line: who is injured."""
    injured = [name for name, change in found.items() if change.injured]
    others = [name for name in injured if name not in agreed]
    print(f"injured: {', '.join(others) or 'nobody'}" + (" else" if agreed and not others else ""))
    for name in agreed:
        print(f"agreed: {name}, injured in {found[name].injured} months" if name in found else f"agreed: {name}")
    return bool(others)

def main(words: list[str]) -> int:
    given, (first, second, series) = common.options(words, ("--except",), ("--csv",), 3)
    trees = basin.read_basin(first), basin.read_basin(second)
    rights, other = map(basin.rights_of, trees)
    agreed = given.get("--except", [])
    for name in agreed:
        if name not in rights:
            raise basin.OtherBasin(f"no right of BASIN is named {name}{common.meant(name, rights)}")
    names = [name for name in rights if name in other]
    runs = basin.run(first, series), basin.run(second, series)
    found = changes(*runs, names)
    rows = [COLUMNS, *(row_of(rights[name], found[name]) for name in names)]
    if "--csv" in given:
        common.write_csv(sys.stdout, (["" if cell == "-" else cell for cell in row] for row in rows))
        return int(any(change.injured for name, change in found.items() if name not in agreed))
    print(f"{runs[0].count} months from {runs[0].first}; {len(names)} rights in both")
    print("", *common.aligned(rows), "", sep="\n")
    for line in differences(*trees):
        print(line)
    return int(tell(found, agreed))
