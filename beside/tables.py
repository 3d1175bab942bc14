"""Tidy tables of a result in CSV, for spreadsheets, pandas or R. Its help is docs/help/tables.txt."""
import csv
import os

from beside import basin, common

TABLES = ("rights", "reservoirs", "links", "outlets", "returns", "used", "sets")
YEARLY = ("water_year", "right", "kind", "months", "wanted", "delivered", "short", "months_short", "held")

class Folder:
    """The tables in a folder. With a basin each row gets what that tells of its right and its month."""

    def __init__(self, name, tree):
        os.makedirs(name, exist_ok=True)
        self.name, self.files, self.writers = name, [], {}
        self.rights = basin.rights_of(tree) if tree else {}
        self.start = tree.get("year_start", 10) if tree else None

    def begin(self, table, columns):
        self.files.append(open(os.path.join(self.name, table + ".csv"), "w", newline="", encoding="ascii",
                               errors="surrogateescape"))
        self.writers[table] = csv.writer(self.files[-1], lineterminator="\n")
        self.writers[table].writerow(columns)

    def begin_monthly(self, table):
        """Begins a table with a month in each row."""
        told = () if self.start is None else ("kind", "place", "date", "order") if table == "rights" else ()
        self.begin(table, basin.COLUMNS[table] + told + (("water_year",) if self.start is not None else ()))

    def write(self, table, row):
        if self.start is not None:
            if table == "rights":
                it = basin.right_of(self.rights, row[1])
                row = (*row, it.kind, it.place, it.date, it.order)
            row = (*row, basin.water_year(row[0], self.start))
        self.writers[table].writerow(row)

    def write_months(self, months):
        """Writes the rows of each month, and then hands it on."""
        for month in months:
            for table, row in month.rows():
                self.write(table, row)
            yield month

    def end(self):
        for file in self.files:
            file.close()

def write_yearly(folder, sums):
    folder.begin("yearly", YEARLY)
    for year, rights in sums.years.items():
        for name, it in rights.items():
            is_zone = it.kind == "zone"
            row = ("", "", "") if is_zone else (it.wanted, it.delivered, it.wanted - it.delivered)
            row = (year, name, it.kind, it.months, *row, it.short, it.last if is_zone else "")
            folder.writers["yearly"].writerow(row)

def main(words: list[str]) -> int:
    given, (result, name) = common.options(words, ("--basin", "--calls"), count=2)
    tree = basin.read_basin(given["--basin"][-1]) if "--basin" in given else None
    months, folder = basin.read_result(basin.lines_of(result), tree), Folder(name, tree)
    sums = basin.YearSums(folder.rights, folder.start)
    for table in TABLES:
        folder.begin_monthly(table)
    for month in folder.write_months(months):
        if tree:
            sums.add(month)
    if tree:
        write_yearly(folder, sums)
    if "--calls" in given:
        folder.begin_monthly("calls")
        for _ in folder.write_months(basin.read_calls(basin.lines_of(given["--calls"][-1]))):
            pass
    folder.end()
    return 0
