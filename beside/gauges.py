"""A series of the records that hydrological services and offices keep. Its help is docs/help/gauges.txt."""
import os
import sys

from beside import common, files, measures, records, table_files
from beside.common import Fault, month_text

class Map:
    """The records of a map. `told` has lines for standard error, `lacks` the months that are left out, by targets."""

    def __init__(self, path):
        self.name, self.told, self.lacks, self.named, self.targets = os.path.basename(path), [], {}, {}, {}
        try:
            headings, rows = table_files.read_table(path)
        except Fault as fault:
            raise Fault(f"{self.name}: {fault}") from None
        keys = [table_files.Heading(heading).key for heading in headings]
        for heading, key in zip(headings, keys):
            if key not in records.COLUMNS + table_files.LEFT_ASIDE or keys.count(key) > 1:
                why = "no such column" if keys.count(key) == 1 else "this column stands there twice"
                raise Fault(f"{self.name}: column {heading}: {why}: a map has {', '.join(records.COLUMNS)}")
        empty = dict.fromkeys(records.COLUMNS, "")
        self.records = [records.Record(number, empty | dict(zip(keys, cells)), path) for number, cells in rows]
        for record in self.records:
            self.put_name(record)
        for record in self.records:
            self.check_parts(record)

    def put_name(self, record):
        """Keeps a record by its name and by what it is the inflow or the wants of."""
        if record.name in self.named:
            record.stop("name", f"an earlier record is named {record.name}: give one of them a name of its own")
        self.named[record.name] = record
        if record.target in self.targets:
            record.stop("node" if record.cells["node"] else "right", f"an earlier row has {record.target[1]} too")
        if record.target:
            self.targets[record.target] = record

    def check_parts(self, record):
        """Holds the records that a natural inflow is made of against the map."""
        for column, name in record.parts:
            if name not in self.named:
                record.stop(column, f"no record is named {name}")
            if self.named[name].is_contents and column != "stored":
                record.stop(column, f"{name} is what a reservoir contains: name it under `stored`")

    def check_basin(self, basin):
        """Holds the map against a basin: it has each gauged node and each right of the series, and no others."""
        due = [("inflow", name) for name, inflow in zip(basin.nodes, basin.inflow) if inflow == "gauged"]
        due += [("want", right.name) for right in basin.rights if right.want is None]
        for kind, name in due:
            if (kind, name) not in self.targets:
                raise Fault(f"{self.name}: no row has {name}, whose {kind} stands in the series")
        for (kind, name), record in self.targets.items():
            if (kind, name) not in due:
                is_node = kind == "inflow"
                what = "node with `inflow = \"gauged\"`" if is_node else "right with `want = \"series\"`"
                record.stop("node" if is_node else "right", f"the basin has no {what} named {name}")

    def series(self, run):
        """The rows of the series by month, and in each as the map lists the records. `run` has the months, if given."""
        for record in self.records:
            record.read()
            if record.estimated:
                count = f"{record.estimated} of {len(record.readings)} readings"
                self.told.append(f"{record.name}: {count} are estimates of whoever keeps the gauge")
        spans = {record: run or self.span(record) for record in self.targets.values()}
        rows, amounts = [], {}
        for month in sorted(set().union(*spans.values())):
            for record in spans:
                if month in spans[record]:
                    rows += self.row(record, month, amounts)
        return rows

    def parts_of(self, record):
        """What the inflow or want of a record is the sum of, with signs."""
        return [(1, record)] + [(records.SUMS[column], self.named[name]) for column, name in record.parts]

    def span(self, record):
        """The months that all records of a sum have."""
        return set.intersection(*(part.months() for _, part in self.parts_of(record)))

    def row(self, record, month, amounts):
        """The row of a record and a month; none where it can't be made. `amounts` keeps what other rows may need."""
        total, name = 0, record.target[1]
        for sign, part in self.parts_of(record):
            if (part, month) not in amounts:
                amounts[part, month] = part.amount(month, self.told)
            amount = amounts[part, month]
            total = None if total is None or amount is None else total + sign * amount
        if total is None:
            self.lacks.setdefault(record.target, []).append(month_text(month))
            return []
        whole = measures.nearest(total)
        if whole < 0:
            told = f"the natural inflow is {whole} and becomes 0"
            self.told.append(f"{name}: {month_text(month)}: {told}")
        return [(month_text(month), *record.target, max(whole, 0))]

def with_header(rows):
    """The table of a series, with the header of four fields only where it has wants."""
    if any(kind == "want" for _, kind, _, _ in rows):
        return [("month", "kind", "name", "amount"), *rows]
    return [("month", "node", "amount")] + [(month, name, amount) for month, _, name, amount in rows]

def main(words: list[str]) -> int:
    given, (name,) = common.options(words, ("--basin",), count=1)
    it, run = Map(name), None
    for basin_name in given.get("--basin", ()):
        basin = files.read_basin(basin_name)
        it.check_basin(basin)
        run = set(range(basin.first, basin.first + basin.months))
    rows = it.series(run)
    common.write_csv(sys.stdout, with_header(rows))
    lacks = [f"{name}: left out of the series: {', '.join(months)}" for (_, name), months in it.lacks.items()]
    common.tell(it.told + lacks)
    return 3 if lacks else 0
