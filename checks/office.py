"""office [PROGRAM]: tries `./basin from-tables`, `to-tables` and `gauges`.

Each basin of examples/ and 200 small ones go to tables and back, also through the odd habits of spreadsheets, and have
to be the same basins; with PROGRAM its `upgrade` has to write the same of both. Units, each kind of fault with its
line, files of gauges and natural inflows are tables below. Without the package pint what has a unit is not tried.
"""
import csv
import io
import os
import random

from beside import files, records
from beside.table_files import TABLES as COLUMNS
from beside.common import write_text
from checks import harness
from checks.harness import EXAMPLES, called, put, ran, read, says, script, tried

SMALL = 200                         # how many small basins are tried
LEFT_OUT, TABLES, FAULTS, UNITS, BAD_UNITS, REST, MAPS, BAD_MAPS = harness.table(
    "office", "LEFT_OUT TABLES FAULTS UNITS BAD_UNITS REST MAPS BAD_MAPS")

def meant(tree):
    """What a basin file means: with all that was left out, and each monthly value as twelve."""
    full = {"year_start": 10} | {key: value for key, value in tree.items() if key not in LEFT_OUT and key != "format"}
    for table, defaults in LEFT_OUT.items():
        full[table] = [defaults | entry for entry in tree.get(table, [])]
        for entry in full[table]:
            for key in ("inflow", "rate", "want"):
                if isinstance(entry.get(key), int):
                    entry[key] = [entry[key]] * 12
            entry |= {"closed": sorted(set(entry["closed"]))} if "closed" in entry else {}
    return full

def as_spreadsheet(folder, chance):
    """Writes tables as a spreadsheet might: columns in another order, semicolons, blank rows, a mark of the byte"
    " order."""
    for name in os.listdir(folder):
        path = os.path.join(folder, name)
        with open(path, newline="", encoding="utf-8") as file:
            rows = list(csv.reader(file))
        places = chance.sample(range(len(rows[0])), len(rows[0]))
        rows = [[row[place] for place in places] for row in rows]
        rows.insert(chance.randint(1, len(rows)), [""] * len(places))
        with open(path, "w", newline="", encoding="utf-8-sig") as file:
            csv.writer(file, delimiter=chance.choice(",;\t"), lineterminator="\r\n").writerows(rows)

def goes_round(what, path, room, program, chance):
    """Whether a basin file comes back from its tables as the same basin."""
    folder, again = os.path.join(room, "tables"), os.path.join(room, "again.toml")
    said = called("to-tables", path, put(folder))
    for habit in ("as it is", "from a spreadsheet"):
        text, told, status = called("from-tables", folder)
        write_text(again, text)
        same = status == 0 and meant(files.read_toml(again)) == meant(files.read_toml(path))
        tried(f"{what} {habit}", said == ("", [], 0) and same and not told, f"{said} {told}")
        as_spreadsheet(folder, chance)
    if program:
        first = ran(program, "upgrade", path)
        tried(f"{what} for the program", first[0] != "" and first == ran(program, "upgrade", again))

def round_trips(room, program):
    chance, listed = random.Random(52), harness.all_examples(".toml")
    for path in listed:
        goes_round(os.path.relpath(path, EXAMPLES), path, room, program, chance)
    for number, names in enumerate(harness.small(room, range(SMALL))):
        goes_round(f"small basin {number}", names[0], room, program if number < 40 else "", chance)

def faults(room):
    folder = os.path.join(room, "tables")
    for file, old, new, status, line in FAULTS:
        assert TABLES[file].count(old) == 1, (file, old)
        put(folder, TABLES | {file: TABLES[file].replace(old, new)})
        text, told, ended = called("from-tables", folder)
        right = ended == status and (says(told, line) if line else not told) and (text == "") == (status == 1)
        tried(f"{file} with {new!r}", right, f"{ended} {told}")
    put(folder, TABLES | {"diversion.csv": ""})
    line = "diversion.csv: no table has this name; did you mean diversions.csv?"
    tried("a table with another name", called("from-tables", folder)[1:] == ([line], 1))
    put(folder, {"run.csv": TABLES["run.csv"].replace(",8,", ",8.5,"), "nodes.csv": "name,inflow\nn,7.5\n"})
    tried("all faults are told at once", len(called("from-tables", folder)[1]) == 2)
    put(folder, {"run.csv": TABLES["run.csv"], "nodes.csv": "name,inflow\n" + "n,x\n" * 25})
    tried("of many faults the first are told", called("from-tables", folder)[1][19:] == [
        "nodes.csv: row 21, inflow: x is no number", "and 5 more faults"])
    put(folder, TABLES)
    tree = files.read_toml(write_text(room + "/made.toml", called("from-tables", folder)[0]))
    tried("months from one to another", tree["link"][3]["closed"] == [11, 12, 1, 2, 7])
    tried("a year that begins with a name", tree["year_start"] == 11)
    tried("the areas of a reservoir", tree["reservoir"][0]["area"] == [[0, 0], [40, 5]])

# --- Units ----------------------------------------------------------------------------------------------------------

def of_row(room, table, cells):
    """What comes of a folder that has one row in a table: a basin that the program refuses, mostly, but with this"
    " entry."""
    rest = {key: value for key, value in REST[table].items() if not any(name.startswith(key + " (") for name in cells)}
    row = rest | cells
    text = io.StringIO()
    csv.writer(text, lineterminator="\n").writerows([row, row.values()])
    put(room + "/units", {"run.csv": TABLES["run.csv"], table + ".csv": text.getvalue()})
    return called("from-tables", room + "/units")

def units(room):
    for table, cells, key, value in UNITS:
        text, told, _ = of_row(room, table, cells)
        entry = files.read_toml(write_text(room + "/made.toml", text)).get(COLUMNS[table][0], [{}])[0]
        tried(f"{table} with {cells}", entry.get(key) == value, f"{entry} {told}")
    for table, cells, line in BAD_UNITS:
        _, told, status = of_row(room, table, cells)
        line = f"{table}.csv: column {list(cells)[0]}: {line}"
        tried(f"{table} with {cells}", status == 1 and says(told, line), str(told))
    notes = of_row(room, "links", {"capacity (cfs)": "0.3"})[1][0]
    line = "links.csv: row 2, per_day: what is there becomes 0 in whole units"
    tried("a canal that becomes 0 is noted", notes == line, notes)

def without_pint(room):
    """What is said where pint isn't installed: one line. Columns without units need none."""
    without = {"PYTHONPATH": f"{put(room + '/no', {'pint.py': 'raise ImportError'})}:{os.environ['PYTHONPATH']}"}
    folder, map_folder = put(room + "/tables", TABLES), room + "/map"
    put(map_folder, {"map.csv": "node,file,unit,kind\nspring,x.csv,cfs,daily rate\n"})
    line = "the unit of a column needs the package pint: apt-get install python3-pint, or pip install pint"
    said = script("from-tables", folder, env=without)
    tried("columns without units need no pint", said[1:] == ([], 0), said)
    put(folder, TABLES | {"zones.csv": TABLES["zones.csv"].replace("want", "want (acre-feet)")})
    for name, path in (("from-tables", folder), ("gauges", map_folder + "/map.csv")):
        said = script(name, path, env=without)[1:]
        tried(f"a unit without pint, by {name}", said == ([f"{name}: {line}"], 2), said)
    for name, words in (("from-tables", ["nothing"]), ("to-tables", ["nothing", room]), ("gauges", ["nothing"])):
        helped, bare, absent = script(name, "--help"), script(name), script(name, *words)
        tried(f"{name} has a help", helped[1:] == ([], 0) and bare[2] == 2, bare)
        tried(f"{name} says what is absent", absent[1:] == ([f"{name}: nothing: there is no such file"], 5), absent)

# --- Records of gauges ----------------------------------------------------------------------------------------------
def daily(month, values, head="date,flow"):
    """A file of daily values of a month, from its first day."""
    return f"{head}\n" + "".join(f"{month}-{day:02d},{value}\n" for day, value in enumerate(values, 1))

RDB_HEAD = "# ------- WARNING -------\n# Data may be revised.\n#\n#  00060  00003  Discharge, cubic feet a second\n#\n"

def rdb(month, values, site="09000001"):
    """A file in the shape of daily values of the US Geological Survey. A value may have its codes after a slash."""
    lines = ["agency_cd\tsite_no\tdatetime\t1234_00060_00003\t1234_00060_00003_cd", "5s\t15s\t20d\t14n\t10s"]
    for day, value in enumerate(values, 1):
        number, _, code = str(value).partition("/")
        lines.append(f"USGS\t{site}\t{month}-{day:02d}\t{number}\t{code or 'A'}")
    return RDB_HEAD + "\n".join(lines) + "\n"

STATISTICS = ("# monthly statistics\nagency_cd\tsite_no\tparameter_cd\tts_id\tyear_nm\tmonth_nm\tmean_va\n"
              "5s\t15s\t5s\t10n\t4s\t2s\t12n\nUSGS\t1\t00060\t7\t1984\t2\t10.5\nUSGS\t1\t00060\t7\t1984\t3\t1\n")
FILES = {
    "plain.csv": daily("1984-02", [2.5] * 29),
    "gap.csv": daily("1981-10", [4] * 20 + ["", "M"] + [7] * 9),
    "codes.csv": daily("1981-10", [4] * 30 + [-999]),
    "months.csv": "month;a;b\n1984-01;5;10\n1984-02;6;11\n1984-03;;12\n",
    "survey.rdb": rdb("1981-10", ["3", "3/A:e", "4/P:e"] + ["5"] * 28),
    "ice.rdb": rdb("1981-10", ["5"] * 28 + ["Ice/P:e", "Eqp", "5"]),
    "sites.rdb": rdb("1981-10", ["5"] * 31) + rdb("1981-10", ["6"] * 31, "09000002"),
    "statistics.rdb": STATISTICS,
    "below.csv": daily("1981-10", [10] * 31), "above.csv": daily("1981-10", [5] * 31, "day\tflow").replace(",", "\t"),
    "high.csv": daily("1981-10", [20] * 31),
    "taken.csv": "month,taken,back\n1981-10,62,7\n",
    "lake.csv": "date,contents\n1981-09-30,100\n1981-10-30,7\n1981-10-31 00:00,130\n",
    "ends.csv": "month,contents\n1981-09,100\n1981-10-31,130\n",
}
# The rows of a map, the rows that it makes, what is said, and the status.
HEAD = "name,node,right,file,column,unit,kind,fill,missing,site,upstream,diverted,stored,returned\n"

def maps(room):
    """Each map with what it makes and says, and each fault."""
    folder = room + "/records"
    for rows, made, said, status in MAPS:
        put(folder, FILES | {"map.csv": HEAD + rows + "\n"})
        text, told, ended = run_map(folder)
        header = "month,kind,name,amount" if any(",want," in row for row in made) else "month,node,amount"
        right = (text.splitlines(), told, ended) == ([header, *made], said, status)
        tried(f"map {rows!r}", right, f"{text} {told} {ended}")
    for rows, changed, line in BAD_MAPS:
        put(folder, FILES | changed | {"map.csv": HEAD + rows + "\n"})
        text, told, ended = run_map(folder)
        tried(f"map {rows!r}", ended == 1 and text == "" and says(told, line), f"{told}")
    put(folder, {"map.csv": "node,colour\nn,red\n"})
    line = "map.csv: column colour: no such column: a map has name, node, {}"
    tried("a column that a map hasn't", says(run_map(folder)[1], line))
    put(folder, {"map.csv": "n\0o\0d\0e\0\n"})
    tried("a map in another code", says(run_map(folder)[1], "map.csv: this is no file of CSV in UTF-8: save it {}"))
    put(folder, {"map.csv": "node,node\nn,n\n"})
    tried("a column twice", says(run_map(folder)[1], "map.csv: column node: this column stands there twice: {}"))

def run_map(folder, *words):
    records.read_file.cache_clear()
    return called("gauges", os.path.join(folder, "map.csv"), *words)

def against_basin(room):
    """The series of examples/orders from files of its own, and a map that lacks what the basin needs, or has more."""
    folder, path = room + "/records", os.path.join(EXAMPLES, "orders.toml")
    stored = read("examples", "orders.csv")
    rows = list(csv.DictReader(io.StringIO(stored)))
    both = dict.fromkeys(("inflow.csv", "want.csv"), "month,amount\n1970-01,1\n")
    for row in rows:
        both[row["kind"] + ".csv"] += f"{row['month']},{row['amount']}\n"
    spring, ditch = "node,right,file,kind\nspring,,inflow.csv,monthly volume\n", ",ditch,want.csv,monthly volume\n"
    cases = [
        (spring + ditch, both, stored, [], 0),
        (spring, both, "", ["map.csv: no row has ditch, whose want stands in the series"], 1),
        (spring + ditch + "weir,,inflow.csv,monthly volume\n", both, "",
         ['map.csv: row 4, node: the basin has no node with `inflow = "gauged"` named weir'], 1),
        (spring + ditch + ",meadows,want.csv,monthly volume\n", both, "",
         ['map.csv: row 4, right: the basin has no right with `want = "series"` named meadows'], 1),
        (spring + ditch, both | {"want.csv": both["want.csv"].replace("1982-07,26\n", "")},
         stored.replace("1982-07,want,ditch,26\n", ""),
         ["ditch: 1982-07: the month is missing", "ditch: left out of the series: 1982-07"], 3),
    ]
    for rows, both, made, lines, status in cases:
        put(folder, both | {"map.csv": rows})
        text, told, ended = run_map(folder, "--basin", path)
        tried(f"orders with {rows!r}", (text, told, ended) == (made, lines, status), f"{text} {told} {ended}")
    tried("a basin that can't be read", run_map(folder, "--basin", folder + "/none")[2] == 5)

def survey_units(room):
    """A reading of 100 cubic feet a second over October is 7,584 units; one of 100 acre-feet a day 3,824."""
    survey = rdb("1981-10", ["100"] * 31)
    units_made = (("cfs", 7584), ("ft3/s", 7584), ("m3/s", 267840), ("acre-feet/day", 3824), ("acre-feet", None))
    for unit, made in units_made:
        lines = [f"1981-10,n,{made}"] if made else []
        put(room + "/records", {"f.rdb": survey, "map.csv": f"node,file,unit,kind\nn,f.rdb,{unit},daily rate\n"})
        text, told, _ = run_map(room + "/records")
        tried(f"100 {unit}", text.splitlines()[1:] == lines, f"{text} {told}")
    tried("a volume for a rate", told == ["map.csv: row 2, unit: acre-feet is no unit of a rate of flow"])

def main(room, program=""):
    round_trips(room, program)
    faults(room)
    maps(room)
    against_basin(room)
    without_pint(room)
    if harness.has_module("pint"):
        units(room)
        survey_units(room)
    else:
        harness.not_tried("units in headings", "python3-pint")
