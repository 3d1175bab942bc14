"""The records of gauges and offices: daily or monthly readings of a file, and what they make of a month.

Read are plain CSV with a column of dates, and the tab-separated RDB of the US Geological Survey with its `#` lines,
its heading and its row of widths. Amounts are exact fractions of units of 1,000 cubic metres.
"""
import csv
import functools
import os
import re
from fractions import Fraction

from beside import measures, table_files
from beside.common import Fault, NoFile, days_in, month_text

# The columns of a map: those that say what a record is for, those that name records, with the sign of these in the
# natural inflow, and all.
TARGETS = {"node": "inflow", "right": "want"}
SUMS = {"upstream": -1, "diverted": 1, "stored": 1, "returned": -1}
COLUMNS = ("name", *TARGETS, "file", "column", "unit", "kind", "fill", "missing", "date", "site", *SUMS)
KINDS = re.compile(r"(daily|monthly) (rate|volume|contents)")
FILLS = {"": False, "none": False, "mean": True, "mean of the days there are": True}
DATES = ("date", "datetime", "day", "month", "time")
NO_READING = ("", "na", "nan", "null", "m", "-", "--")
MONTH = re.compile(r"([0-9]{4})-(0[1-9]|1[0-2])(-[0-9]{2})?")
DAY = re.compile(r"([0-9]{4})-(0[1-9]|1[0-2])-([0-9]{2})([T ]0?0:00(:00)?)?")
WIDTH = re.compile(r"[0-9]+[sdn]")  # of the second row of RDB

def names_in(text):
    """The names of a cell, apart by blanks, commas or semicolons."""
    return [name for name in re.split(r"[\s,;]+", text) if name]

@functools.lru_cache(maxsize=64)
def read_file(path):
    """Whether a file is RDB, its headings, and its rows with their numbers. Lines that begin with `#` are passed
    over."""
    numbered = enumerate((line.rstrip("\r\n") for line in table_files.read_lines(path)), 1)
    lines = [(number, line) for number, line in numbered if line.strip() and not line.startswith("#")]
    widths = lines[1][1].split("\t") if len(lines) > 1 else []
    if len(widths) > 1 and all(WIDTH.fullmatch(width) for width in widths):
        rows = [(number, line.split("\t")) for number, line in lines]
        # (in a file of several sites the headings and widths stand before each of them)
        is_reading = {number: cells != rows[0][1] and not WIDTH.fullmatch(cells[0]) for number, cells in rows}
        return True, rows[0][1], [row for row in rows if is_reading[row[0]]]
    delimiter = table_files.delimiter_of(lines[0][1]) if lines else ","
    rows = [(number, next(csv.reader([line], delimiter=delimiter))) for number, line in lines]
    rows = [(number, [cell.strip() for cell in cells]) for number, cells in rows]
    return False, rows[0][1] if rows else [], rows[1:]

class Record:
    """A row of a map. Its readings are by month and day, or 0 if monthly; None where one is missing."""

    def __init__(self, row, cells, path):
        self.map, self.row, self.cells = os.path.basename(path), row, cells
        self.path = os.path.join(os.path.dirname(path), cells["file"])
        self.name = cells["name"] or cells["node"] or cells["right"]
        self.target = next(((kind, cells[key]) for key, kind in TARGETS.items() if cells[key]), None)
        self.parts = [(column, name) for column in SUMS for name in names_in(cells[column])]
        self.readings, self.codes, self.estimated = {}, {}, 0
        self.check()

    def stop(self, column, text):
        raise Fault(f"{self.map}: row {self.row}, {column}: {text}")

    def check(self):
        """Reads what the cells of the row say."""
        cells, kind = self.cells, KINDS.fullmatch(self.cells["kind"].lower())
        if cells["node"] and cells["right"]:
            self.stop("right", "the row has a node too: a record has the inflow of a node or the wants of a right")
        if not self.name:
            self.stop("name", "the record has no name, no node and no right")
        if not kind:
            how = "write daily or monthly, and after it rate, volume or contents"
            self.stop("kind", f"`{cells['kind']}` is not read: {how}")
        self.is_daily, self.is_rate, self.is_contents = kind[1] == "daily", kind[2] == "rate", kind[2] == "contents"
        if self.is_contents and self.target:
            self.stop("kind", "what a reservoir contains is no inflow and no want: name the record under `stored`")
        if cells["fill"].lower() not in FILLS:
            self.stop("fill", f"`{cells['fill']}` is neither `none` nor `mean of the days there are`")
        self.fills = FILLS[cells["fill"].lower()]
        if self.fills and (self.is_contents or not self.is_daily):
            self.stop("fill", "only daily rates and volumes can be filled")
        if self.parts and not cells["node"]:
            self.stop(self.parts[0][0], "only the inflow of a node is made of several records")
        try:
            self.measure = measures.Measure("per_day" if self.is_rate else "store", cells["unit"] or None)
        except measures.BadUnit as fault:
            self.stop("unit", fault)

    def column_at(self, headings, text, what):
        """The place of a column: by its heading, or by the end of one, as 00060_00003 of the Geological Survey's."""
        same = [at for at, heading in enumerate(headings) if heading.lower() == text.lower()]
        found = same or [at for at, heading in enumerate(headings) if heading.endswith("_" + text)]
        if len(found) != 1:
            how = "no column" if not found else "more than one column"
            self.stop(what, f"{self.cells['file']} has {how} {text}: its columns are {', '.join(headings)}")
        return found[0]

    def date_at(self, headings):
        """The places of the date: one, or those of year and month in the Geological Survey's monthly statistics."""
        if self.cells["date"]:
            return [self.column_at(headings, self.cells["date"], "date")]
        if "year_nm" in headings and "month_nm" in headings:
            return [headings.index("year_nm"), headings.index("month_nm")]
        dates = [at for at, heading in enumerate(headings) if heading.lower() in DATES]
        if not dates:
            named = ", ".join(headings) or "none"
            self.stop("date", f"name the column of dates of {self.cells['file']}: its columns are {named}")
        return dates[:1]

    def value_at(self, headings, taken):
        """The place of the readings: of the column that the map names, or of the only one that isn't taken."""
        if self.cells["column"]:
            return self.column_at(headings, self.cells["column"], "column")
        rest = [at for at, it in enumerate(headings) if at not in taken and not it.endswith(("_cd", "_id"))]
        if len(rest) != 1:
            named = ", ".join(headings[at] for at in rest)
            self.stop("column", f"name one of the columns of {self.cells['file']}: {named}")
        return rest[0]

    def of_site(self, headings, rows):
        """The rows of the site that the map names; of a file that has but one site, or names none, all rows."""
        if "site_no" not in headings:
            return rows
        at = headings.index("site_no")
        sites = sorted({cells[at] for _, cells in rows if len(cells) > at})
        if not self.cells["site"] and len(sites) > 1:
            self.stop("site", f"{self.cells['file']} has several sites: name one of {', '.join(sites)}")
        if self.cells["site"] and self.cells["site"] not in sites:
            self.stop("site", f"{self.cells['file']} has no site {self.cells['site']}: it has {', '.join(sites)}")
        return [row for row in rows if not self.cells["site"] or row[1][at:at + 1] == [self.cells["site"]]]

    def read(self):
        """Reads the file."""
        try:
            is_rdb, headings, rows = read_file(self.path)
        except NoFile as error:
            self.stop("file", str(error).replace(self.path, self.cells["file"]) if self.cells["file"] else
                      "no file is named")
        except Fault as fault:
            self.stop("file", f"{self.cells['file']}: {fault}")
        date = self.date_at(headings)
        value = self.value_at(headings, date + [at for at, heading in enumerate(headings) if heading == "site_no"])
        code = headings.index(headings[value] + "_cd") if is_rdb and headings[value] + "_cd" in headings else None
        for number, cells in self.of_site(headings, rows):
            try:
                self.take("-".join(cells[at].rjust(2, "0") for at in date), cells[value], is_rdb)
                self.estimated += code is not None and "e" in re.split(r"[:\s]+", cells[code].lower())
            except Fault as fault:
                raise Fault(f"{self.cells['file']}: row {number}: {fault}") from None
            except IndexError:
                told = f"{len(cells)} cells, and there are {len(headings)} headings"
                raise Fault(f"{self.cells['file']}: row {number}: the row has {told}") from None

    def take(self, date, text, is_rdb):
        """Keeps a reading."""
        when = self.when(date)
        if when in self.readings:
            raise Fault(f"{date} stands there twice")
        codes = names_in(self.cells["missing"])
        self.readings[when] = None
        if text.lower() in NO_READING or text in codes or is_rdb and not re.search("[0-9]", text):
            self.codes[when] = text
            return
        self.readings[when] = self.measure.read(text, is_whole=False)
        if self.readings[when] < 0:
            how = "if it stands for a missing value, write it under `missing` of this record in the map"
            raise Fault(f"{text} is less than 0: {how}")

    def when(self, text):
        """The month of a date, and its day, or 0 in a monthly record."""
        told = re.fullmatch(DAY if self.is_daily else MONTH, text)
        if not told and re.match(r"[0-9]{4}-[0-9]{2}-[0-9]{2}[T ]", text):
            raise Fault(f"{text} is a time of the day: take a file of daily values")
        if not told:
            how = f"{text} is not read as a month: write it as YYYY-MM"
            raise Fault(table_files.day_fault(text) if self.is_daily else how)
        month, day = int(told[1]) * 12 + int(told[2]) - 1, int(told[3]) if self.is_daily else 0
        if self.is_daily and not 1 <= day <= days_in(month):
            raise Fault(f"{text} is no day of the calendar")
        return month, day

    def months(self):
        """The months from the first to the last reading. What was stored in a month needs one before."""
        months = [month for month, _ in self.readings]
        return set(range(min(months) + self.is_contents, max(months) + 1)) if months else set()

    def amount(self, month, told):
        """What the record says of a month, or None. `told` gets a line for what is missing or filled."""
        if self.is_contents:
            return self.stored_in(month, told)
        if self.is_daily:
            return self.sum_of_days(month, told)
        amount = self.readings.get((month, 0))
        if amount is None:
            told.append(f"{self.name}: {month_text(month)}: the month is missing")
            return None
        return amount * (days_in(month) if self.is_rate else 1)

    def stored_in(self, month, told):
        """How much more a reservoir contains at the end of a month than at that of the month before."""
        ends = [self.readings.get((end, days_in(end) if self.is_daily else 0)) for end in (month - 1, month)]
        if None in ends:
            absent = month_text(month - 1 + ends.index(None))
            told.append(f"{self.name}: {month_text(month)}: the contents at the end of {absent} are missing")
            return None
        return ends[1] - ends[0]

    def sum_of_days(self, month, told):
        """The sum of the days of a month; where some are missing, as the map says how."""
        days = {day: self.readings.get((month, day)) for day in range(1, days_in(month) + 1)}
        there = [amount for amount in days.values() if amount is not None]
        missing = [f"{day} {self.codes.get((month, day), '')}".strip() for day in days if days[day] is None]
        if not missing:
            return sum(there)
        listed = ", ".join(missing[:5]) + (", .." if len(missing) > 5 else "")
        line = f"{self.name}: {month_text(month)}: {len(missing)} of {len(days)} days are missing ({listed})"
        if not self.fills or not there:
            told.append(line)
            return None
        amount = Fraction(sum(there)) / len(there) * len(days)
        told.append(f"{line}: filled with the mean of the others, which makes {measures.nearest(amount)}")
        return amount
