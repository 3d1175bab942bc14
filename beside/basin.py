"""basin: calls the program from Python and reads what it writes, for notebooks, nightly jobs and the scripts beside it.

    from beside import basin

    for month in basin.run("examples/valley.toml", "examples/valley.csv"):
        print(month.month, month.delivered["town"], month.wanted["town"])

    account = basin.why("examples/valley.toml", "examples/valley.csv", "1982-07", "oldfields")
    print(account.supplies, account.taken, account.total)

Each call answers records, in the words of docs/FORMATS.md. `run` answers the months of a result and `calls` those of a
list of calls, one by one as the program writes them; `why` an account and `where` a core, or None where the right lacks
nothing; `report`, `ensemble` and `compare` one record; `check` and `audit` the number of months. `frames` makes pandas
frames of any of these, where pandas is installed.

A status from 2 on is an exception with the name of its cause, as `BasinRefused`, and so is a result that is `Refuted`.
SERIES may be left out where a basin needs none. Names in a record stand in the order of the text: rights seniors first,
nodes and links as in the file. The program is the script `basin` above this folder, or what the environment names as
BASIN_PROGRAM. What a text says is read here and not checked; that is for `check`. This file is tested, and not proved.
"""
import calendar
import itertools
import os
import re
import subprocess
import sys
import tempfile
from collections.abc import Iterator
from dataclasses import dataclass, field
from typing import Any

from beside import common
from beside.common import BadText, Stop

PROGRAM = os.environ.get("BASIN_PROGRAM") or os.path.join(common.ROOT, "basin")

# --- What can go wrong ------------------------------------------------------------------------------------------------
class BadLine(BadText):
    """A line isn't one of its text, or may not come here. `number` counts from 1."""

    def __init__(self, number, kind):
        super().__init__(f"line {number} is none of {kind}")
        self.number = number

class EarlyEnd(BadText):
    """A text ends before its last line."""

    def __init__(self, kind):
        super().__init__(f"the {kind.split(' ', 1)[1]} ends before its last line")

class OtherBasin(BadText):
    """A text names what the basin file beside it hasn't: the two don't belong together."""

class Failed(Stop):
    """The program gave no answer. `status` is its status, and `said` its line on standard error."""

    def __init__(self, status, said):
        super().__init__(said or f"status {status}", status)
        self.said = said

class Refuted(Failed):
    """A result is refuted: `line` is its first line at fault, and `kind` says why."""

    def __init__(self, line, kind):
        super().__init__(1, f"refuted {line} {kind}")
        self.line, self.kind = line, kind

def of_status(status: int, name: str, cause: str) -> type[Failed]:
    return type(name, (Failed,), {"__doc__": f"Status {status}: {cause}."})

Usage = of_status(2, "Usage", "the words are no command")
BasinRefused = of_status(3, "BasinRefused", "a basin file breaks a rule")
SeriesRefused = of_status(4, "SeriesRefused", "a series breaks a rule")
ReadFault = of_status(5, "ReadFault", "a file could not be read")
WriteFault = of_status(6, "WriteFault", "the text could not be written")
OutOfMemory = of_status(7, "OutOfMemory", "memory ran out")
InputTooLong = of_status(8, "InputTooLong", "a file is too long")
ScriptRefused = of_status(9, "ScriptRefused",
                          "a script is at fault, or the run has no such month, or the basin no such right")
STATUSES = dict(enumerate((Usage, BasinRefused, SeriesRefused, ReadFault, WriteFault, OutOfMemory, InputTooLong,
                           ScriptRefused), 2))
# The program's own line, among what the script `basin` says beside it.
SAID = re.compile(r"(basin2?|series2?|script): [A-Z][A-Za-z]* .*|usage: .*|(read|too long|write): .*|out of memory")

# --- Records ----------------------------------------------------------------------------------------------------------
@dataclass
class Month:
    """A month of a result. Each field but `month` is a dictionary by name; `sets` has the nodes after each call."""

    month: str
    opening: dict = field(default_factory=dict)
    evaporated: dict = field(default_factory=dict)
    returned: dict = field(default_factory=dict)
    used: dict = field(default_factory=dict)
    flow: dict = field(default_factory=dict)
    delivered: dict = field(default_factory=dict)
    wanted: dict = field(default_factory=dict)
    out: dict = field(default_factory=dict)
    sets: dict = field(default_factory=dict)
    callers: dict = field(default_factory=dict)
    closing: dict = field(default_factory=dict)

    @property
    def short(self):
        """What each short right lacks, seniors first."""
        lacks = {right: want - self.delivered[right] for right, want in self.wanted.items()}
        return {right: lack for right, lack in lacks.items() if lack > 0}

    def rows(self):
        """Each row of the month's tables, after the name of its table."""
        for right, want in self.wanted.items():
            got = self.delivered[right]
            yield "rights", (self.month, right, want, got, want - got, self.callers.get(right, ""))
        for lake, opening in self.opening.items():
            yield "reservoirs", (self.month, lake, opening, self.evaporated.get(lake, ""), self.closing.get(lake, ""))
        single = {"links": self.flow, "outlets": self.out, "returns": self.returned, "used": self.used}
        for table, amounts in single.items():
            for name, amount in amounts.items():
                yield table, (self.month, name, amount)
        for right, nodes in self.sets.items():
            for node in nodes:
                yield "sets", (self.month, right, node)

@dataclass
class Calls:
    """A month of a list of calls: what each short right got and wanted; whose one more unit of water at a node, or of
    carry on a canal, would be; and who has to stand back for whom."""

    month: str
    short: dict = field(default_factory=dict)
    next: dict = field(default_factory=dict)
    link: dict = field(default_factory=dict)
    curtailed: dict = field(default_factory=dict)

    def rows(self):
        for what in ("next", "link", "curtailed"):
            for name, right in getattr(self, what).items():
                yield "calls", (self.month, what, name, right)

@dataclass
class Account:
    """The account of a set of nodes: what can come in, less what is kept and taken for seniors. `kept` has for each
    link the amount and its holder."""

    month: str
    right: str
    delivered: int
    wanted: int
    supplies: dict = field(default_factory=dict)
    enters: dict = field(default_factory=dict)
    kept: dict = field(default_factory=dict)
    taken: dict = field(default_factory=dict)
    total: int = 0

    def rows(self):
        def row(what, name, amount, holder=""):
            return "account", (self.month, self.right, what, name, amount, holder)
        yield from itertools.starmap(row, (("supply", *it) for it in self.supplies.items()))
        yield from itertools.starmap(row, (("enter", *it) for it in self.enters.items()))
        yield from itertools.starmap(row, (("keep", link, *it) for link, it in self.kept.items()))
        yield from itertools.starmap(row, (("take", *it) for it in self.taken.items()))

@dataclass
class Core:
    """Where one more unit of water would help a short right, and on which canals one more unit of carry would."""

    month: str
    right: str
    delivered: int
    wanted: int
    nodes: list
    links: list
    account: Account

    def rows(self):
        for what, names in (("at", self.nodes), ("link", self.links)):
            for name in names:
                yield "core", (self.month, self.right, what, name)
        yield from self.account.rows()

@dataclass
class Sums:
    """What a report says of a right. `worst` is the first month of its greatest shortage, or None."""

    short: int
    wanted: int
    delivered: int
    worst: str | None

@dataclass
class Balance:
    """The water of a run: the first three sum to the same as the last four."""

    opening: int
    inflows: int
    returns: int
    closing: int
    evaporated: int
    diverted: int
    out: int

@dataclass
class Report:
    first: str
    months: int
    rights: dict
    balance: Balance

    def rows(self):
        for right, sums in self.rights.items():
            yield "report", (right, sums.short, sums.wanted, sums.delivered, sums.worst or "")

@dataclass
class Ensemble:
    """How often each yearly delivery came: for each right the number of years by amount, rising."""

    first: str
    traces: int
    yearly: dict

    def rows(self):
        for right, counts in self.yearly.items():
            for amount, count in counts.items():
                yield "yearly", (right, amount, count)

def reached(counts):
    """For each amount of the yearly deliveries of a right, falling, in how many years at least so much came."""
    return zip(reversed(counts), itertools.accumulate(reversed(counts.values())))

def reached_in(counts, percent):
    """The most that came in at least so many percent of the years."""
    years = sum(counts.values())
    return next(amount for amount, reaching in reached(counts) if 100 * reaching >= percent * years)

@dataclass
class Injury:
    month: str
    right: str
    first: int
    second: int

@dataclass
class Comparison:
    """Who gets less in a second basin, month by month, of so many rights that both have."""

    common: int
    injuries: list

    def rows(self):
        for it in self.injuries:
            yield "injuries", (it.month, it.right, it.first, it.second)

# The columns of each table that the rows of records make.
COLUMNS = {
    "rights": ("month", "right", "wanted", "delivered", "short", "caller"),
    "reservoirs": ("month", "reservoir", "opening", "evaporated", "closing"),
    "links": ("month", "link", "flow"),
    "outlets": ("month", "outlet", "out"),
    "returns": ("month", "node", "returned"),
    "used": ("month", "right", "used"),
    "sets": ("month", "right", "node"),
    "calls": ("month", "what", "name", "right"),
    "account": ("month", "right", "what", "name", "amount", "holder"),
    "core": ("month", "right", "what", "name"),
    "report": ("right", "short", "wanted", "delivered", "worst"),
    "yearly": ("right", "amount", "years"),
    "injuries": ("month", "right", "first", "second"),
}

def frames(records):
    """The tables of one record or of several as pandas frames, by the names of COLUMNS: `frames(run(..))["rights"]`."""
    import pandas
    rows = {}
    for record in records if hasattr(records, "__iter__") else [records]:
        for table, row in record.rows():
            rows.setdefault(table, []).append(row)
    return {table: pandas.DataFrame(listed, columns=COLUMNS[table]) for table, listed in rows.items()}

# --- Reading texts ----------------------------------------------------------------------------------------------------
SHAPES = {"n": re.compile(r"(?s).{1,200}"), "m": re.compile("[0-9]{4}-(0[1-9]|1[0-2])"), "a": re.compile("[0-9]{1,30}")}

class Text:
    """A text, as the word and the fields of each of its lines, read once. `shapes` has for each word its fields: n a
    name, a an amount; `last` the words with which it ends."""

    def __init__(self, lines, kind, shapes, last=("done",)):
        self.lines, self.kind, self.shapes, self.last = iter(lines), kind, shapes, last
        self.number, self.is_done = 0, False

    def __iter__(self):
        return self

    def __next__(self):
        line = next(self.lines, None)
        if line is None:
            raise StopIteration if self.is_done else EarlyEnd(self.kind)
        self.number += 1
        word, *said = line.removesuffix("\n").split(" ")
        shape = self.shapes.get(word)
        if self.is_done or shape is None or len(said) != len(shape):
            raise self.bad()
        for place, letter in enumerate(shape):
            if not SHAPES[letter].fullmatch(said[place]):
                raise self.bad()
            if letter == "a":
                said[place] = int(said[place])
        self.is_done = word in self.last
        return word, said

    def bad(self):
        return BadLine(self.number, self.kind)

    def head(self, *words):
        """The word and the fields of the first line, which has to begin with one of these words."""
        word, said = next(self)
        if word not in words:
            raise self.bad()
        return word, said

# The lines of a month that give one amount, and where the record keeps it.
AMOUNTS = {"open": "opening", "evap": "evaporated", "return": "returned", "used": "used", "flow": "flow", "out": "out",
           "close": "closing"}
RESULT = dict.fromkeys(AMOUNTS, "na") | {"river-result": "a", "run": "ma", "month": "m", "deliver": "naa", "call": "n",
                                         "in": "n", "called": "nn", "end": "", "done": "a"}
CALLS = {"calls": "ma", "month": "m", "short": "naa", "next": "nn", "link": "nn", "curtailed": "nn", "end": "",
         "done": "a"}
ACCOUNT = {"supply": "na", "enter": "na", "keep": "nan", "take": "na", "sum": "a"}

EACH_MONTH = {*AMOUNTS.values(), "delivered"}

class Months:
    """The months of a text, read once and one by one: `first` is the first month, and `count` how many there are. With
    the tables of a basin file a text of another basin is refused."""

    def __init__(self, text, take, record, tree=None):
        self.text, self.take, self.record, self.names = text, take, record, tree and names_of(tree)
        if text.shapes is RESULT and text.head("river-result")[1] != [1]:
            raise text.bad()
        self.first, self.count = text.head("run", "calls")[1]

    def __iter__(self):
        month, text, place, first, begins = None, self.text, 0, None, common.month_number(self.first)
        for word, said in text:
            is_next = word == "month" and month is None and place < self.count
            if is_next and common.month_number(said[0]) == begins + place:
                month, place = self.record(said[0]), place + 1
            elif word == "end" and month is not None:
                first = first or month
                # (each month of a run has the same entries)
                both = ((vars(first)[name], vars(month)[name]) for name in EACH_MONTH & vars(month).keys())
                if any(one.keys() != other.keys() for one, other in both):
                    raise text.bad()
                if self.names:
                    self.hold_against(self.names, month)
                yield month
                month = None
            elif word == "done" and month is None and said[0] == self.count == place:
                continue
            elif month is None or not self.take(month, word, said):
                raise text.bad()

    def hold_against(self, names, month):
        """Refuses a month that has, or names, what its basin hasn't, or lacks what that has."""
        lakes, rights, named = names["reservoir"], names["right"], set().union(*month.sets.values())
        for what, due, there in (("right", rights, month.wanted), ("link", names["link"], month.flow),
                                 *(("reservoir", lakes, it) for it in (month.opening, month.evaporated, month.closing)),
                                 ("outlet", names["outlet"], month.out)):
            for name in [*(it for it in there if it not in due), *(it for it in due if it not in there)][:1]:
                lacks, of = ("text", "basin") if name in due else ("basin file", "text")
                raise OtherBasin(f"the {lacks} has no {what} {name}: it isn't that of this {of}")
        if not (named <= names["node"] and {*month.sets, *month.callers.values()} <= rights
                and month.returned.keys() <= names["node"]):
            raise OtherBasin("the text names what the basin file hasn't: it isn't that of this basin")

def names_of(tree):
    """The names of the entries of a basin file, by what they are."""
    def of(table, key="name"):
        return {it[key] for it in tree.get(table, [])}
    outlets = {it["name"] for it in tree["node"] if it.get("outlet")}
    return {"right": set(rights_of(tree)), "node": of("node"), "link": of("link"), "reservoir": of("reservoir", "node"),
            "outlet": outlets}

def take_result(month, word, said):
    """Puts a line into a month of a result, and answers whether it may stand there."""
    if word in AMOUNTS:
        getattr(month, AMOUNTS[word])[said[0]] = said[1]
    elif word == "deliver":
        month.delivered[said[0]], month.wanted[said[0]] = said[1:]
    elif word == "call":
        month.sets[said[0]] = []
    elif word == "in" and month.sets:
        month.sets[next(reversed(month.sets))].append(said[0])
    elif word == "called" and said[0] in month.wanted:
        month.callers[said[0]] = said[1]
    else:
        return False
    return True

def take_calls(month, word, said):
    """The same for a month of a list of calls."""
    if word == "short":
        month.short[said[0]] = tuple(said[1:])
    elif word in ("next", "link", "curtailed"):
        getattr(month, word)[said[0]] = said[1]
    else:
        return False
    return True

def read_result(lines, tree=None):
    """The months of a result, from its lines; with the tables of its basin file none of another basin."""
    return Months(Text(lines, "a result", RESULT), take_result, Month, tree)

def read_calls(lines):
    """The months of a list of calls, from its lines."""
    return Months(Text(lines, "a list of calls", CALLS), take_calls, Calls)

def read_account(lines):
    """What `why` wrote: an account, or None where the right lacks nothing."""
    text = Text(lines, "an account", ACCOUNT | {"why": "mnaa", "met": "mn"}, ("sum", "met"))
    word, said = text.head("why", "met")
    if word == "met":
        return next(text, None)
    account = Account(*said)
    for told, fields in text:
        if not take_account(account, told, fields):
            raise text.bad()
    return account

def take_account(account, word, said):
    """Puts a line into an account, and answers whether it may stand there."""
    if word == "keep":
        account.kept[said[0]] = tuple(said[1:])
    elif word == "sum":
        account.total = said[0]
    elif word in ("supply", "enter", "take"):
        {"supply": account.supplies, "enter": account.enters, "take": account.taken}[word][said[0]] = said[1]
    else:
        return False
    return True

def read_core(lines):
    """What `where` wrote: a core, or None where the right lacks nothing."""
    text = Text(lines, "a core", ACCOUNT | {"where": "mnaa", "at": "n", "link": "n", "met": "mn"}, ("sum", "met"))
    word, said = text.head("where", "met")
    if word == "met":
        return next(text, None)
    core = Core(*said, [], [], Account(*said))
    for told, fields in text:
        if told in ("at", "link"):
            (core.nodes if told == "at" else core.links).append(fields[0])
        elif not take_account(core.account, told, fields):
            raise text.bad()
    return core

def read_report(lines):
    """What `report` wrote."""
    text = Text(lines, "a report", {"report": "ma", "right": "naaan", "balance": "aaaaaaa", "done": "a"})
    (_, (first, months)), rights, balance = text.head("report"), {}, None
    for word, said in text:
        if word == "right":
            rights[said[0]] = Sums(*said[1:4], None if said[4] == "-" else said[4])
        elif word == "balance":
            balance = Balance(*said)
        elif word != "done":
            raise text.bad()
    if balance is None:
        raise text.bad()
    return Report(first, months, rights, balance)

def read_ensemble(lines):
    """What `ensemble` wrote."""
    text = Text(lines, "an ensemble", {"ensemble": "ma", "right": "n", "yearly": "aa", "done": "a"})
    (_, (first, traces)), yearly, right = text.head("ensemble"), {}, None
    for word, said in text:
        if word == "right":
            yearly[right := said[0]] = {}
        elif word == "yearly" and right is not None:
            yearly[right][said[0]] = said[1]
        elif word != "done":
            raise text.bad()
    if not all(yearly.values()):
        raise text.bad()
    return Ensemble(first, traces, yearly)

def read_comparison(lines):
    """What `compare` wrote."""
    text = Text(lines, "a comparison", {"injured": "mnaa", "compared": "aa"}, ("compared",))
    said = list(text)
    return Comparison(said[-1][1][0], [Injury(*fields) for _, fields in said[:-1]])

def lines_of(name: str) -> Iterator[str]:
    """The lines of a text in a file, one by one, or of standard input where the name is -. (What is longer than any
    line may be comes in parts.)"""
    where: Any = 0 if name == "-" else name
    try:
        with open(where, encoding="ascii", errors="surrogateescape", newline="\n", closefd=name != "-") as file:
            while line := file.readline(10_000):
                yield line
    except (OSError, ValueError) as error:
        raise common.no_file(name, error) from None

# --- Calling the program ----------------------------------------------------------------------------------------------
def lines(*words, answers=(0,)):
    """The lines that the program writes for the words of a command, one by one; after the last one, a status that is
    none of the answers is raised. Who stops reading before ends the program."""
    with tempfile.TemporaryFile() as errors:
        child = subprocess.Popen([PROGRAM, *map(str, words)], stdin=subprocess.DEVNULL, stdout=subprocess.PIPE,
                                 stderr=errors, encoding="ascii", errors="surrogateescape")
        try:
            # (a line without its end is a front of one: the status says why)
            yield from itertools.takewhile(lambda line: line.endswith("\n"), child.stdout)
            child.wait()
        finally:
            child.stdout.close()
            if child.poll() is None:
                child.terminate()
            child.wait()
        errors.seek(0)
        told = errors.read().decode(errors="replace").splitlines()
    said = next((line for line in told if SAID.fullmatch(line)), None)
    if child.returncode not in answers:
        raise STATUSES.get(child.returncode, Failed)(child.returncode, said or "\n".join(told))
    for line in told:
        print(line, file=sys.stderr)                # (that a run isn't proved, for one)

def run(basin, series="-"):
    """The months of the run of a basin, one by one as they are solved."""
    return read_result(lines("run", basin, series))

def check(basin, series, result):
    """The number of months of a result that is accepted; one that isn't is `Refuted`."""
    return answer("check", basin, series, result)

def audit(basin, series, result):
    """The same where each set has to be its right's reach, too."""
    return answer("audit", basin, series, result)

def answer(*words):
    """The number after an answer of one line, or the refutation that it is."""
    word, *said = list(lines(*words, answers=(0, 1)))[0].split()
    if word == "refuted":
        raise Refuted(int(said[0]), said[1])
    return int(said[0])

def why(basin, series, month, right):
    """The account of a right in a month, or None where it lacks nothing."""
    return read_account(lines("why", basin, series, month, right, answers=(0, 1)))

def where(basin, series, month, right):
    """The core of a right in a month, or None where it lacks nothing."""
    return read_core(lines("where", basin, series, month, right, answers=(0, 1)))

def calls(basin, series="-"):
    """The months of the list of calls of a basin, one by one."""
    return read_calls(lines("calls", basin, series))

def compare(basin, basin2, series="-"):
    """Who gets less in a second basin."""
    return read_comparison(lines("compare", basin, basin2, series, answers=(0, 1)))

def report(basin, series="-"):
    """The sums of a run."""
    return read_report(lines("report", basin, series))

def ensemble(basin, series="-"):
    """How often each yearly delivery comes."""
    return read_ensemble(lines("ensemble", basin, series))

# --- Basin files and series -------------------------------------------------------------------------------------------
@dataclass
class Right:
    """A right as its file has it: its kind is `diversion`, `instream` or `zone`, its place a node, link or lake."""

    name: str
    kind: str
    place: str
    date: str
    order: int

def read_basin(name):
    """A basin file as the tables that it has. What the program refuses of it is refused with status 3."""
    from beside import files
    return files.document(name).tree

def rights_of(tree):
    """The rights of a basin by name, seniors first."""
    kinds = {"diversion": "node", "instream": "link", "zone": "reservoir"}
    rights = [Right(it["name"], kind, it[key], it["date"], it.get("order", 0))
              for kind, key in kinds.items() for it in tree.get(kind, [])]
    return {right.name: right for right in sorted(rights, key=lambda right: (right.date, right.order))}

def right_of(rights, name):
    """A right of a basin, by the name that a text gives it."""
    if name not in rights:
        raise OtherBasin(f"the basin file has no right {name}: it isn't that of this text")
    return rights[name]

def read_series(name, basin=None):
    """The amounts of a series, each by its month, its kind (`inflow` or `want`) and its name. With its basin file
    whatever the program refuses of it is refused with status 4."""
    from beside import files
    return files.amounts(name, basin)

def monthly(value, month):
    """The amount of a monthly value in a month."""
    return value[int(month[5:]) - 1] if isinstance(value, list) else value

def inflow(node, month, series):
    """What flows in at a node of a basin file in a month."""
    amounts = node.get("inflow", 0)
    return series[month, "inflow", node["name"]] if amounts == "gauged" else monthly(amounts, month)

def carry(link, month):
    """What a link of a basin file carries in a month; None for a river, which carries any amount."""
    if "per_day" not in link:
        return None
    year, number = int(month[:4]), int(month[5:])
    return 0 if number in link.get("closed", []) else link["per_day"] * calendar.monthrange(year, number)[1]

def water_year(month, start):
    """The water year of a month, named after the calendar year in which it ends."""
    return int(month[:4]) + (start > 1 and int(month[5:]) >= start)

@dataclass
class YearSum:
    """What a right wanted and was delivered in the months of a water year, in how many it was short, and the delivery
    of the last of them. Of a zone only the last says something: its deliveries are contents, and one water again and
    again."""

    kind: str
    months: int = 0
    wanted: int = 0
    delivered: int = 0
    short: int = 0
    last: int = 0

class YearSums:
    """The sums of water years by right: `years` has them by year, and in a year by right."""

    def __init__(self, rights, start):
        self.rights, self.start, self.years = rights, start, {}

    def add(self, month):
        """Adds a month of a result."""
        year = self.years.setdefault(water_year(month.month, self.start), {})
        for right, want in month.wanted.items():
            it = year.setdefault(right, YearSum(right_of(self.rights, right).kind))
            got = month.delivered[right]
            it.months, it.wanted, it.delivered = it.months + 1, it.wanted + want, it.delivered + got
            it.short, it.last = it.short + (got < want), got
