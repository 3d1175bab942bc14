"""Tables of an office: files of CSV with named columns, and which of them a basin file is made of."""
import csv
import re

from beside import common
from beside.common import CALENDAR, Fault
from beside.hints import days_meant

# For each file its list in the basin file (None: no list of its own), and its columns. A cell is a text, a whole
# number, a truth, a month, a day, a calendar month, a list of these, or an amount of a kind of `measures`; with a star,
# for each calendar month or for all of them, and after a bar the word that may stand in its place.
DATED = {"date": "day", "order": "whole"}
TABLES = {
    "run": (None, {"format": "whole", "first_month": "month", "months": "whole", "year_start": "calendar"}),
    "nodes": ("node", {"name": "text", "outlet": "truth", "inflow": "water*|gauged"}),
    "links": ("link", {"name": "text", "from": "text", "to": "text", "per_day": "per_day", "closed": "closed"}),
    "reservoirs": ("reservoir", {"node": "text", "opening": "store", "rate": "depth*"}),
    "areas": (None, {"reservoir": "text", "storage": "store", "area": "area"}),
    "diversions": (
        "diversion",
        {"name": "text", "node": "text"} | DATED | {"rate": "per_day", "want": "water*|series", "volume": "yearly"},
    ),
    "instream": ("instream", {"name": "text", "link": "text"} | DATED | {"rate": "per_day", "want": "water*|series"}),
    "zones": ("zone", {"name": "text", "reservoir": "text", "level": "whole"} | DATED | {"want": "store*|series"}),
    "returns": ("return", {"diversion": "text", "node": "text", "part": "part", "lag": "whole"}),
}
# Another name of a column, and columns that are read and left aside.
OTHER_NAMES = {("links", "capacity"): "per_day"}
LEFT_ASIDE = ("note", "notes", "remark", "remarks")
# The file of each list.
FILES = {entry: f"{table}.csv" for table, (entry, _) in TABLES.items() if entry}

class Heading:
    """The heading of a column: its key, the calendar month that it is for, or None for all, and its unit, or None."""

    def __init__(self, text):
        told = re.fullmatch(r"(.*?)\s*(?:[\(\[](.*)[\)\]])?", text, re.DOTALL)
        self.text, self.unit = text, (told[2] or "").strip() or None
        self.key, self.month = re.sub(r"[\s_-]+", "_", told[1].lower()), None
        front, _, last = self.key.rpartition("_")
        if front and calendar_month(last):
            self.key, self.month = front, calendar_month(last)

def calendar_month(text):
    """A calendar month from 1, by its number or by three letters or more of its English name; else None."""
    if re.fullmatch(r"0?[1-9]|1[0-2]", text):
        return int(text)
    found = [number for number, name in enumerate(CALENDAR, 1) if len(text) >= 3 and
             name.lower().startswith(text.lower())]
    return found[0] if found else None

def delimiter_of(line):
    """What stands between the columns: commas, semicolons or tabs, whichever the first row has most of."""
    return max(",;\t", key=line.count)

def read_lines(path):
    """The lines of a file with their ends. Letters that are no UTF-8 do no harm where nothing is read in them."""
    text = common.read_bytes(path).decode("utf-8", "replace").removeprefix("\ufeff")
    if "\0" in text:
        raise Fault("this is no file of CSV in UTF-8: save it from the spreadsheet as `CSV UTF-8`")
    return text.splitlines(keepends=True)

def read_table(path):
    """The headings of a table, and its rows with their numbers as a spreadsheet counts. Blank rows are left out."""
    lines = read_lines(path)
    first = next((line for line in lines if line.strip()), "")
    try:
        listed = list(enumerate(csv.reader(lines, delimiter=delimiter_of(first)), 1))
    except csv.Error as error:
        raise Fault(f"can't be read as CSV: {error}") from None
    rows = [(number, [cell.strip() for cell in row]) for number, row in listed if any(cell.strip() for cell in row)]
    return (rows[0][1], rows[1:]) if rows else ([], [])

def day_fault(text):
    """Why a text is no day as YYYY-MM-DD, with the days that it may mean."""
    meant = days_meant(text)
    if len(meant) == 2:
        return f"{text} is read as neither {meant[0]} nor {meant[1]}: write it as YYYY-MM-DD"
    return f"{text} is not read as a day: write it as YYYY-MM-DD" + (f", here {meant[0]}" if meant else "")
