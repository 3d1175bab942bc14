"""A basin file of a folder of tables, as a spreadsheet saves them. Its help is docs/help/from-tables.txt."""
import math
import os
import re
import sys
from fractions import Fraction

from beside import common, files, measures, overlay, table_files
from beside.common import DAYS, Fault, meant
from beside.table_files import FILES, LEFT_ASIDE, OTHER_NAMES, TABLES

MOST_TOLD = 20                      # faults of the tables
TRUTHS = {"true": True, "yes": True, "x": True, "1": True, "false": False, "no": False, "0": False}

def whole(text):
    if not re.fullmatch(r"[+-]?[0-9]{1,18}(\.0*)?", text):
        raise Fault(f"{text} is no whole number")
    return int(text.partition(".")[0])

def truth(text):
    if text.lower() not in TRUTHS:
        raise Fault(f"{text} is neither yes nor no")
    return TRUTHS[text.lower()]

def month(text):
    if not re.fullmatch(r"[0-9]{4}-[0-9]{2}", text):
        raise Fault(f"{text} is not read as a month: write it as YYYY-MM, in a cell that the spreadsheet keeps as text")
    return text

def day(text):
    if not re.fullmatch(r"[0-9]{4}-[0-9]{2}-[0-9]{2}", text):
        raise Fault(table_files.day_fault(text))
    return text

def calendar(text):
    number = table_files.calendar_month(text)
    if number is None:
        raise Fault(f"{text} is no calendar month: write 1 to 12, or its English name")
    return number

def closed(text):
    """A list of calendar months, apart by blanks, commas or semicolons; `nov-mar` is those from one to the other."""
    months = []
    for part in re.split(r"[\s,;]+", text):
        first, hyphen, last = part.partition("-")
        start, end = calendar(first), calendar(last if hyphen else first)
        months += [(start - 1 + step) % 12 + 1 for step in range((end - start) % 12 + 1)]
    return months

READERS = {"text": str} | {reader.__name__: reader for reader in (whole, truth, month, day, calendar, closed)}

class Column:
    """A column of a table: its key, how its cells are read, and the calendar month that it is for, or None for all."""

    def __init__(self, table, heading):
        self.heading, self.month = heading, heading.month
        self.key = OTHER_NAMES.get((table, heading.key), heading.key)
        keys = TABLES[table][1]
        if self.key not in keys:
            names = [*keys, *(other for file, other in OTHER_NAMES if file == table)]
            listed = f"{table}.csv has {', '.join(names)}, and `note`, which is left aside"
            raise Fault(f"no such column{meant(self.key, names)}; {listed}")
        kind, _, self.word = keys[self.key].partition("|")
        self.is_monthly, kind = kind.endswith("*"), kind.rstrip("*")
        if self.month and not self.is_monthly:
            raise Fault(f"{self.key} has one value for the whole year")
        self.reader = READERS.get(kind)
        if self.reader and heading.unit:
            raise Fault(f"{self.key} has no unit")
        self.measure = None if self.reader else measures.Measure(kind, heading.unit)

    def read(self, text):
        """The value of a cell. An amount is an exact fraction, or twelve of them where it is a rate and counts days."""
        if self.reader:
            return self.reader(text)
        if self.word and text.lower() == self.word and not self.month:
            return self.word
        amount = self.measure.read(text)
        if not self.is_monthly or not self.measure.is_rate:
            return amount
        return amount * DAYS[self.month - 1] if self.month else [amount * days for days in DAYS]

class Reader:
    """Reads the tables of a folder. `faults` tells what is wrong, `notes` what became 0, `rows` where entries stand."""

    def __init__(self, folder):
        self.folder, self.faults, self.notes, self.rows = folder, [], [], {}

    def fault(self, table, text, row=None, column=None):
        place = ", ".join(part for part in (row and f"row {row}", column) if part)
        self.faults.append(": ".join(part for part in (f"{table}.csv", place, str(text)) if part))

    def columns(self, table, headings):
        """The columns of a table by their places; None for one that is left aside or at fault."""
        columns, seen = [], set()
        for place, text in enumerate(headings, 1):
            heading, column = table_files.Heading(text), None
            try:
                if not text:
                    raise Fault("the heading is empty")
                if text in seen:
                    raise Fault("this heading stands there twice")
                if heading.key not in LEFT_ASIDE:
                    column = Column(table, heading)
            except Fault as fault:
                self.fault(table, fault, column=f"column {text or place}")
            seen.add(text)
            columns.append(column)
        return columns

    def table(self, table):
        """The rows of a table: for each its number, and its values by their keys."""
        path = os.path.join(self.folder, table + ".csv")
        if not os.path.exists(path):
            return []
        try:
            headings, rows = table_files.read_table(path)
        except Fault as fault:
            self.fault(table, fault)
            return []
        columns = self.columns(table, headings)
        for number, cells in rows:
            if any(cells[len(headings):]):
                self.fault(table, "the row has more cells than there are headings", number)
        return [(number, self.row(table, number, zip(columns, cells))) for number, cells in rows]

    def row(self, table, number, cells):
        """The values of a row by their keys. What twelve columns have is a list."""
        values = {}
        for column, text in cells:
            if column is None or text == "":
                continue
            try:
                value, old = column.read(text), values.setdefault(column.key, {})
                if column.month in old or old and (column.month is None or None in old):
                    raise Fault(f"another cell of this row has {column.key} too: leave one of them empty")
                old[column.month] = value
            except Fault as fault:
                self.fault(table, fault, number, column.heading.text)
        return {key: self.whole_year(table, number, key, months) for key, months in values.items() if months}

    def whole_year(self, table, number, key, months):
        """The value of a key: one for all months, or twelve."""
        if None in months:
            return months[None]
        absent = [common.CALENDAR[month - 1][:3].lower() for month in range(1, 13) if month not in months]
        if absent:
            self.fault(table, f"no value for {', '.join(absent)}: fill all twelve months or none", number, key)
        return [months.get(month, Fraction()) for month in range(1, 13)]

    def rounded(self, table, number, key, value, round_to=measures.nearest):
        """An amount, or the amounts of twelve months, in whole units. An amount that becomes 0 is noted."""
        amounts = value if isinstance(value, list) else [value]
        if not all(isinstance(amount, Fraction) for amount in amounts):
            return value
        whole_amounts = [round_to(amount) for amount in amounts]
        if any(amount > 0 and became == 0 for amount, became in zip(amounts, whole_amounts)):
            when = ", in some months" if len(amounts) > 1 else ""
            self.notes.append(f"{table}.csv: row {number}, {key}: what is there becomes 0 in whole units{when}")
        return whole_amounts if isinstance(value, list) else whole_amounts[0]

    def bounded(self, table, number, values):
        """The values of a right of which the column `rate` bounds what it wants in each month."""
        rate, want = values["rate"], values.get("want")
        most = [rate * days for days in DAYS]
        if want == "series":
            told = "the wants of this right stand in the series: bound them there, and leave this cell empty"
            self.fault(table, told, number, "rate")
        elif want is not None:
            most = [min(pair) for pair in zip(most, want if isinstance(want, list) else [want] * 12)]
        return {key: value for key, value in values.items() if key != "rate"} | {"want": most}

    def entry(self, table, number, values):
        """An entry of the basin file, in whole units."""
        if "rate" in values and table in ("diversions", "instream"):
            values = self.bounded(table, number, values)
        return {
            key: self.rounded(table, number, key, value, math.floor if key == "per_day" else measures.nearest)
            for key, value in values.items()
        }

    def unknown_files(self):
        """A file of CSV with another name is at fault, so that no table goes unseen."""
        names = [table + ".csv" for table in TABLES]
        try:
            listed = sorted(os.listdir(self.folder))
        except (OSError, ValueError) as error:
            raise common.no_file(self.folder, error) from None
        for name in listed:
            if name.lower().endswith(".csv") and name not in names:
                how = meant(name, names) or f": the tables are {', '.join(names)}"
                self.faults.append(f"{name}: no table has this name{how}")

    def basin(self):
        """The basin file as a table."""
        self.unknown_files()
        runs = self.table("run")
        if len(runs) != 1:
            self.fault("run", f"one row is needed, with first_month and months, and there are {len(runs)}")
        tree = {"format": 2} | (runs[0][1] if runs else {})
        for table, (entry, _) in TABLES.items():
            if entry:
                listed = self.table(table)
                self.rows[entry] = [number for number, _ in listed]
                tree[entry] = [self.entry(table, number, values) for number, values in listed]
        self.put_areas(tree["reservoir"])
        return tree

    def put_areas(self, reservoirs):
        """Gives each reservoir its pairs of storage and area, in the order of their rows."""
        at = {it.get("node"): it for it in reservoirs}
        for number, values in self.table("areas"):
            absent = [key for key in TABLES["areas"][1] if key not in values]
            if absent:
                self.fault("areas", "there is no value", number, absent[0])
            elif values["reservoir"] not in at:
                told = f"no row of reservoirs.csv has the node {values['reservoir']}"
                self.fault("areas", told, number, "reservoir")
            else:
                pair = [self.rounded("areas", number, key, values[key]) for key in ("storage", "area")]
                at[values["reservoir"]].setdefault("area", []).append(pair)

def toml(tree, rows):
    """The text of a basin file. Before each entry stands the row of which it is."""
    lines = ["# Made by ./basin from-tables. What is changed here is not changed in the tables."]
    lines += overlay.lines_of({key: value for key, value in tree.items() if key not in rows})
    lines += ["node = []"] if not rows["node"] else []
    for entry, numbers in rows.items():
        for number, values in zip(numbers, tree[entry]):
            lines += ["", f"# {FILES[entry]}, row {number}", f"[[{entry}]]", *overlay.lines_of(values)]
    return "\n".join([*lines, ""])

def refusal(text, rows):
    """What the program refuses in a basin file, with the row that it means; or None."""
    try:
        files.document("basin.toml", text.encode())
    except files.Refused as refused:
        _, _, entry, number = refused.line.split(" ")
        has_row = entry in rows and rows[entry]
        place = f"{FILES[entry]}: row {rows[entry][int(number) - 1]}" if has_row else "run.csv"
        return f"{place}: the program refuses it ({refused.line}): {str(refused).split(': ', 1)[1]}"
    return None

def main(words: list[str]) -> int:
    reader = Reader(common.options(words, count=1)[1][0])
    tree = reader.basin()
    if reader.faults:
        more = len(reader.faults) - MOST_TOLD
        common.tell(reader.faults[:MOST_TOLD] + ([f"and {more} more faults"] if more > 0 else []))
        return 1
    common.tell(reader.notes)
    text = toml(tree, reader.rows)
    sys.stdout.write(text)
    refused = refusal(text, reader.rows)
    common.tell([refused] if refused else [])
    return 3 if refused else 0
