"""All faults of a series, each with its line and with what to do; the same mistake in many records is told once, with
their number.

The tests, and their order, are those of the program: docs/FORMATS.md lists them. Where the basin file is at fault,
the series is held against what is good in it.
"""
import collections
import csv
import io
import re
import sys

from beside import model
from beside.basin_faults import Finding
from beside.common import counted, meant, month_text, nearest
from beside.hints import MANY, amount_advice, month_advice, spans

HEADERS = (["month", "node", "amount"], ["month", "kind", "name", "amount"])

def whole_in(value, least, most):
    return value if model.is_whole(value) and least <= value <= most else None

class Due:
    """What a series has to give, as far as the basin file tells it: of each node and each right whether its amounts
    are due here. A document of None tells nothing."""

    def __init__(self, d):
        self.is_known, self.is_second = d is not None, d is None or d.is_second
        tree = d.tree if d else {}
        first = tree.get("first_month")
        self.first = model.read_month(first) if isinstance(first, str) else None
        self.months = whole_in(tree.get("months"), 1, 1200)
        self.names, self.are_all_known = {}, {}
        for kind, word, tables in (("inflow", "gauged", ("node",)), ("want", "series", model.RIGHTS)):
            rows = d.rows(*tables) if d else []
            listed = [(d.own_name(entry), entry.get(kind) == word) for entry in rows]
            self.names[kind] = {name: is_due for name, is_due in listed if name}
            self.are_all_known[kind] = d is not None and all(name for name, _ in listed)

    def index(self, month):
        """The place of a month in the run, or None outside it."""
        if None in (self.first, self.months, month) or not 0 <= month - self.first < self.months:
            return None
        return month - self.first

def records(data):
    """The records of a table without blank lines, each with its number and the line on which it begins."""
    csv.field_size_limit(sys.maxsize)
    reader = csv.reader(io.StringIO(data.removeprefix(b"\xef\xbb\xbf").decode("latin-1"), newline=""))
    number, line = 0, 1
    for record in reader:
        if record:
            number += 1
            yield number, line, record
        line = reader.line_num + 1

def shown(field):
    """A field as it stands in UTF-8, cut short."""
    text = field.encode("latin-1").decode("utf-8", "replace")
    return text if len(text) <= 40 else text[:36] + ".."

class Series:
    """A series under test: the lines of amounts by index, kind and name, and the faults, of which each is told once
    with its count."""

    def __init__(self, due):
        self.due, self.given, self.found, self.counts, self.last = due, {}, {}, collections.Counter(), {}
        self.nearest_to = {}                        # of each kind and name that is none the one that is meant
        self.unsure = collections.Counter(
            )         # of each kind and name how many records have a month that can't be read

    def tell(self, kind, number, line, reason, text):
        """Keeps a fault. Faults of one reason are one."""
        self.counts[kind, reason] += 1
        self.last[kind, reason] = line
        self.found.setdefault((kind, reason), Finding(kind, "record", number, line, text))

    def findings(self):
        for key, finding in self.found.items():
            more = self.counts[key] - 1
            yield finding._replace(text=finding.text
                + (f" (and {counted(more, 'record')} more like it, the last in line {self.last[key]})" if more else ""))

    def header(self, record):
        """The fields that the first record sets, and whether it is a header itself."""
        if record == HEADERS[0] or (record == HEADERS[1] and self.due.is_second):
            return len(record), True
        right = "month,node,amount" + (" or month,kind,name,amount" if self.due.is_second else "")
        plain = [shown(field).strip().lower() for field in record]
        if record == HEADERS[1]:
            why = ("month,kind,name,amount is the header for a basin of format 2: write format = 2 in the basin file, "
                "or month,node,amount here")
        elif plain in HEADERS:
            why = f"write it exactly as {','.join(plain)}"
        elif len(record) == 1 and re.search(r"[;\t|]", record[0]):
            why = (f"fields are parted by commas, and here by "
                f"{'a tab' if chr(9) in record[0] else record[0].strip('abcdefghijklmnopqrstuvwxyz_ ')[:1]}: write "
                f"{right}")
        elif model.read_month(record[0]) is not None:
            why = f"found a record where the header has to stand: write {right} above it"
        else:
            why = f"found {','.join(plain)[:60]}: write {right}"
        self.tell("Header", 1, 1, "", "the first line is no header: " + why)
        return len(record) if len(record) in (3, 4) else None, model.read_month(record[0]) is None

    def record(self, number, line, record, width):
        if len(record) != width:
            return self.tell("Csv", number, line, len(record),
                f"has {counted(len(record), 'field')}, and the header {width}: " + field_advice(record, width))
        month, kind, name, amount = record if width == 4 else (record[0], "inflow", *record[1:])
        at, faults = model.read_month(month), []
        if at is None:
            faults.append(("BadMonth", re.sub(r"\d", "0", month),
                f"the month is {shown(month) or 'missing'}: {month_advice(shown(month))}"))
        fault = self.name_fault(kind, name)
        if fault:
            faults.append(fault)
        if not re.fullmatch(r"[0-9]{1,19}", amount) or int(amount) > 10**9:
            is_large = re.fullmatch(r"[0-9]+", amount)
            advice = "it may be 0 to 1,000,000,000" if is_large else amount_advice(shown(amount))
            faults.append(("BadAmount", advice.split(":")[0].split(",")[0],
                f"the amount is {shown(amount) or 'missing'}: {advice}"))
        for fault, reason, text in faults:
            self.tell(fault, number, line, reason, text)
        self.give(number, line, (kind, name), month, not faults)

    def give(self, number, line, whose, month, is_good):
        """Keeps for what a record stands, so that a record at fault isn't told as a missing one too."""
        kind, name = whose
        index = self.due.index(model.read_month(month))
        if not is_good:
            name = name if name in self.due.names.get(kind, ()) else self.nearest(kind, name)
            self.unsure[kind, name] += model.read_month(month) is None
        if index is None:
            return
        if is_good and (index, kind, name) in self.given:
            self.tell("Repeated", number, line, whose,
                f"the {kind} of {name} in {month} stands in line {self.given[index, kind, name]} already: take one of "
                f"the two out")
        self.given.setdefault((index, kind, name), line)

    def nearest(self, kind, name):
        """The name that is meant by one that is none: of what is due here, or else of anything."""
        if (kind, name) not in self.nearest_to and len(self.nearest_to) >= MANY:
            return None
        if (kind, name) not in self.nearest_to:
            names = self.due.names.get(kind, {})
            due = nearest(name, [other for other, is_due in names.items() if is_due])
            self.nearest_to[kind, name] = due if due is not None else nearest(name, names)
        return self.nearest_to[kind, name]

    def name_fault(self, kind, name):
        """The fault of what a record is for: its kind, what is the same in like records, and its text; or None."""
        names = self.due.names.get(kind)
        if names is None:
            return ("BadKind", kind,
                f"the kind is {shown(kind) or 'missing'}: write inflow or want{meant(kind, ('inflow', 'want'))}")
        what, key, word = ("node", "inflow", "gauged") if kind == "inflow" else ("right", "want", "series")
        if name not in names:
            close = self.nearest(kind, name)
            if not self.due.are_all_known[kind] and close is None:
                return None
            there = [other for other, is_due in names.items() if is_due]
            advice = f"; did you mean {close}?" if close is not None else f"; there are {', '.join(there)}" if 0 < len(
                there) <= 12 else ""
            return ("NoSuchNode" if kind == "inflow" else "NoSuchRight", name,
                f"no {what} is named {shown(name) or '(nothing)'}{advice}")
        if not names[name]:
            text = (f"{name} has its {'amounts' if kind == 'inflow' else 'wants'} in the basin file: write {key} = "
                f"\"{word}\" there, or take its records out")
            return "NotGauged" if kind == "inflow" else "NotSeries", name, text
        return None

    def missing(self):
        """Each gauge and right of which months are missing, in the order in which they first are."""
        gaps = []
        for kind, fault in (("inflow", "Missing"), ("want", "MissingWant")):
            for name in (name for name, is_due in self.due.names[kind].items() if is_due):
                indexes = [index for index in range(self.due.months or 0) if (index, kind, name) not in self.given]
                if len(indexes) > self.unsure[kind, name] and self.due.first is not None:
                    gaps.append((indexes[0], len(gaps), fault, kind, name, indexes))
        for _, _, fault, kind, name, indexes in sorted(gaps):
            runs = ", ".join(
                " to ".join(month_text(self.due.first + index) for index in dict.fromkeys((first, last)))
                for first, last in spans(indexes))
            what = "inflow" if kind == "inflow" else "want"
            yield Finding(fault, month_text(self.due.first + indexes[0]), name, None,
                f"{name} has no {what} for {runs} ({counted(len(indexes), 'month')}): add "
                f"{'it' if len(indexes) == 1 else 'them'}")

def field_advice(record, width):
    if len(record) == 1 and re.search(r"[;\t]", record[0]):
        return "fields are parted by commas"
    if any("\n" in field for field in record):
        return "look for a quotation mark that isn't closed"
    if len(record) == width + 1 and re.fullmatch(r"\d{1,3}", record[-2].strip() or "-") and re.fullmatch(r"\d{3}",
            record[-1]):
        return f"write the amount without a comma, {record[-2].strip()}{record[-1]}"
    return "look for a comma too many" if len(record) > width else "look for a field that is missing"

def series_faults(d, data, is_first=False):
    """The faults of a series in the order in which they show: those of records, then what is missing. Where only the
    first is asked for, nothing is read after the record that has it, so it doesn't tell how many more are like it."""
    if data[:2] in (b"\xff\xfe", b"\xfe\xff"):
        return [Finding("Header", "record", 1, 1,
            "the file is in UTF-16, as some spreadsheets write: save it as CSV in UTF-8")]
    due = Due(d)
    series, table, width = Series(due), records(data), 3
    first = next(table, None)
    if first is None:
        series.tell("Header", 1, 1, "", "the file is empty: the first line is month,node,amount")
    else:
        width, is_header = series.header(first[2])
        table = table if is_header or width is None else iter([first, *table])
    for number, line, record in table if width else ():
        if is_first and series.found:
            break
        series.record(number, line, record, width)
    found = list(series.findings())
    # (where fields are missing, nobody knows for which month and name they stood)
    is_readable = due.is_known and not any(finding.kind in ("Csv", "Header") for finding in found)
    return found + (list(series.missing()) if is_readable and not (is_first and found) else [])

def line_of(finding):
    """The line of the program for a fault of a series."""
    return (f"series: {finding.kind} {finding.number}" if finding.table == "record"
        else f"series: {finding.kind} {finding.table} {finding.number}")
