"""Measures basin beside other programs. Its help is docs/help/bench.txt."""
import datetime
import hashlib
import os
import re
import shutil
import signal
import subprocess
import sys
import tempfile

from beside import common
from beside.bench import programs
from beside.common import ROOT

SIZES = (100, 200, 500, 1000, 2000)
LARGE = ("2000", "4000", "2000", "120")
# Those that are fast enough for the large basins, and those that write results.
FOR_REPORTS, FOR_RESULTS = ("basin", "lexflow", "plain"), ("basin", "lexflow")
COMMANDS = ("report", "calls", "run", "check", "audit")
# Those of which a month alone is measured.
FOR_MONTHS = ("run", "check")
GROUPS = ("trial", "report", "month", "run", "commands")
# The months of a report that is taken from one of the large basins, to have the time of a month alone.
FEW = "12"
RUNS, ONCE, LIMIT, COUNTED = 15, 2.0, 40, 1.0
# The rows that README has.
SHORT = ("trial 7 2000", "report, random", "a month of it, random", "run, random")
FROM, TO = "<!-- from here on by ./basin bench --write -->", "<!-- up to here by ./basin bench --write -->"

class Figures:
    """What was measured of a program: the least seconds, the most memory, its answer, and what was wrong."""

    def __init__(self):
        self.seconds, self.megabytes, self.answer, self.fault, self.instructions = None, 0.0, None, None, None

    def run(self, words, out):
        """Runs the program once more."""
        with open(out, "wb") as file:
            command = [programs.built("measure"), str(LIMIT), *words]
            said = subprocess.run(command, stdout=file, stderr=subprocess.PIPE).stderr
        status, micros, kilobytes = map(int, said.split(b"\n")[-2].split())
        seconds = micros / 1e6
        self.seconds = seconds if self.seconds is None else min(self.seconds, seconds)
        self.megabytes = max(self.megabytes, kilobytes / 1024)
        if status:
            is_over = status == 128 + signal.SIGXCPU
            self.fault = f"over {LIMIT}" if is_over else f"status {status}"

    def count(self, words):
        """Counts the instructions of the program."""
        command = ["valgrind", "--tool=callgrind", "--callgrind-out-file=/dev/null", *words]
        ran = subprocess.run(command, stdout=subprocess.DEVNULL, stderr=subprocess.PIPE, text=True)
        counted = re.search(r"refs: +([0-9,]+)", ran.stderr)
        self.instructions = int(counted[1].replace(",", "")) if counted else None

def month_of(more, fewer):
    """The figures of a month alone: those of a report of more months less those of one of fewer, by month."""
    month, count = Figures(), int(LARGE[3]) - int(FEW)
    month.fault = more.fault or fewer.fault
    if not month.fault:
        month.seconds = (more.seconds - fewer.seconds) / count
    if more.instructions and fewer.instructions:
        month.instructions = (more.instructions - fewer.instructions) / count
    return month

def sums_of(lines):
    """What a summary or a report says, summed over all rights."""
    sums = {"wanted": 0, "delivered": 0, "short": 0}
    for word, *fields in map(str.split, lines):
        if word in sums or (word == "called" and fields != ["-"]):
            sums[word] = int(fields[0])
        elif word == "right":
            for key, amount in zip(("short", "wanted", "delivered"), fields[1:]):
                sums[key] += int(amount)
        elif word == "balance":
            sums[word] = fields
    return sums

def answer_of(path):
    """What a text says as far as the programs have to say the same: of a result, all but flows and outflows."""
    with open(path, "rb") as file:
        first = file.readline()
        if not first.startswith(b"river-result"):
            return sums_of(line.decode() for line in file)
        digest = hashlib.sha256()
        for line in file:
            if not line.startswith((b"flow ", b"out ")):
                digest.update(line)
        return {"text": digest.digest()}

def differ(one, other):
    return any(one[key] != other[key] for key in one.keys() & other.keys())

def measure(commands, room, is_counted, is_same=True):
    """Measures some commands in turn: the figures of each. If they have to answer the same, it looks if they do."""
    figures, out = {name: Figures() for name in commands}, os.path.join(room, "out")
    for name, words in commands.items():
        figures[name].run(words, out)
        if is_same and not figures[name].fault:
            figures[name].answer = answer_of(out)
            if differ(figures[name].answer, next(other.answer for other in figures.values() if other.answer)):
                figures[name].fault = "differs"
    again = [name for name in commands if not figures[name].fault and figures[name].seconds <= ONCE]
    for name in again * (RUNS - 1):
        figures[name].run(commands[name], os.devnull)
    for name in again:
        if is_counted and figures[name].seconds < COUNTED:
            figures[name].count(commands[name])
    return figures

class Bench:
    """All groups, with the rows of the tables so far."""

    def __init__(self, commands, room, is_counted):
        self.commands, self.room, self.is_counted = commands, room, is_counted
        self.rows, self.months, self.own, self.checks = {}, {}, {}, {}

    def files(self, *words):
        """The files of a made-up basin."""
        stem = os.path.join(self.room, "-".join(words))
        if not os.path.exists(stem + ".toml"):
            subprocess.run([programs.built("basins"), *words, stem], check=True)
        return stem + ".toml", stem + ".csv" if os.path.exists(stem + ".csv") else "-"

    def row(self, title, commands):
        print(f"bench: {title}", file=sys.stderr, flush=True)
        self.rows[title] = measure(commands, self.room, self.is_counted)

    def trial(self):
        too_slow = set()
        for size in map(str, SIZES):
            words = {name: ["trial", "7", size] for name in self.commands if name not in too_slow}
            if "highs" in words:
                words["highs"] = ["report", *self.files("trial", "7", size)]
            self.row(f"trial 7 {size}", {name: self.commands[name] + rest for name, rest in words.items()})
            too_slow |= {name for name, of in self.rows[f"trial 7 {size}"].items() if of.fault}

    def large(self, command, names):
        for shape in programs.SHAPES:
            words, here = [command, *self.files(shape, *LARGE)], [name for name in names if name in self.commands]
            self.row(f"{command}, {shape}", {name: self.commands[name] + words for name in here})

    def report(self):
        self.large("report", FOR_REPORTS)

    def month(self):
        names = [name for name in FOR_RESULTS if name in self.commands]
        for shape in programs.SHAPES:
            print(f"bench: month, {shape}", file=sys.stderr, flush=True)
            words = {(name, months): [*self.commands[name], "report", *self.files(shape, *LARGE[:3], months)]
                     for months in (FEW, LARGE[3]) for name in names}
            figures = measure(words, self.room, self.is_counted, is_same=False)
            self.months[shape] = {name: month_of(figures[name, LARGE[3]], figures[name, FEW]) for name in names}

    def run(self):
        self.large("run", FOR_RESULTS)

    def result(self, files):
        """The result of a basin, and its megabytes."""
        path = os.path.join(self.room, "result-" + os.path.basename(files[0]))
        with open(path, "wb") as file:
            subprocess.run([*self.commands["basin"], "run", *files], stdout=file, check=True)
        return path, os.path.getsize(path) / 1e6

    def own_commands(self):
        for shape in programs.SHAPES if "basin" in self.commands else ():
            print(f"bench: commands, {shape}", file=sys.stderr, flush=True)
            words, sizes = {}, {}
            for months, names in ((LARGE[3], COMMANDS), (FEW, FOR_MONTHS)):
                files = self.files(shape, *LARGE[:3], months)
                result, sizes[months] = self.result(files)
                for name in names:
                    words[name, months] = [*self.commands["basin"], name, *files]
                    if name in ("check", "audit"):
                        words[name, months].append(result)
            figures = measure(words, self.room, self.is_counted, is_same=False)
            for (name, _), of in figures.items():
                if of.fault:
                    raise common.Stop(f"{name}, {shape}: {of.fault}")
            self.own[shape] = {name: figures[name, LARGE[3]] for name in COMMANDS}, sizes[LARGE[3]]
            self.checks[shape] = ([month_of(figures[name, LARGE[3]], figures[name, FEW]) for name in FOR_MONTHS],
                                  (sizes[LARGE[3]] - sizes[FEW]) / (int(LARGE[3]) - int(FEW)))

def number(amount):
    """Two digits that count, or all before the point; of None nothing."""
    if amount is None:
        return ""
    return f"{amount:,.0f}" if amount >= 9.95 else f"{amount:.1f}" if amount >= 0.995 else f"{amount:#.2g}"

def compared(figures, names, of):
    """A row's cells: for each program an amount, and in brackets how many times that of lexflow it is."""
    base = of(figures["lexflow"]) if "lexflow" in figures else None
    for name in names:
        if name not in figures or figures[name].fault:
            yield figures[name].fault if name in figures else ""
        elif base and of(figures[name]) and name != "lexflow":
            yield f"{number(of(figures[name]))} ({number(of(figures[name]) / base)})"
        else:
            yield number(of(figures[name]))

def seconds(of):
    return of.seconds

def milliseconds(of):
    return of.seconds and of.seconds * 1e3

def millions(of):
    return of.instructions and of.instructions / 1e6

def tables_of(bench, only=None):
    """The tables that there are: a title, the heads of the columns, and the rows."""
    rows = bench.rows
    if only is not None:
        months = {f"a month of it, {shape}": figures for shape, figures in bench.months.items()}
        rows = {title: (rows | months)[title] for title in only if title in rows | months}
    names = [name for name in bench.commands if any(name in figures for figures in rows.values())]
    counted = {"Millions of instructions": millions} if bench.is_counted else {}
    kinds, tables = {"Seconds": seconds} | counted, []
    for kind, of in kinds.items() if rows else ():
        cells = [[title, *compared(figures, names, of)] for title, figures in rows.items()]
        tables.append((f"{kind} (times lexflow)", ["", *names], cells))
    for kind, of in ({"Milliseconds": milliseconds} | counted).items() if bench.months and only is None else ():
        cells = [[shape, *compared(figures, list(figures), of)] for shape, figures in bench.months.items()]
        tables.append((f"{kind} of a month (times lexflow)", ["", *next(iter(bench.months.values()))], cells))
    if rows and only is None:
        cells = [[title, *(number(figures[name].megabytes) if name in figures else "" for name in names)]
                 for title, figures in rows.items()]
        tables.append(("Megabytes of memory at most", ["", *names], cells))
    for kind, of in kinds.items() if bench.own and only is None else ():
        rate = "MB a second" if of is seconds else "check / byte"
        heads = ["", "report", "calls", "calls / report", "run", "MB of text", "check", rate, "check / run", "audit",
                 "audit / check", "MB of memory"]
        cells = [[shape, *map(number, own_cells(*measured, of))] for shape, measured in bench.own.items()]
        tables.append((f"{kind} of the commands of basin", heads, cells))
    for kind, of in ({"Milliseconds": milliseconds} | counted).items() if bench.checks and only is None else ():
        rate = "MB a second" if of is milliseconds else "check / byte"
        heads = ["", "run", "kB of text", "check", rate, "check / run"]
        cells = [[shape, *map(number, check_cells(*measured, of))] for shape, measured in bench.checks.items()]
        tables.append((f"{kind} of a month of run and check", heads, cells))
    return tables

def ratio(one, other):
    return one / other if one and other else None

def check_cells(figures, size, of):
    run, check = map(of, figures)
    rate = ratio(size * 1e3, check) if of is milliseconds else ratio(check, size)
    return run, size * 1e3, check, rate, ratio(check, run)

def own_cells(figures, size, of):
    report, calls, run, check, audit = (of(figures[name]) for name in COMMANDS)
    rate = ratio(size, check) if of is seconds else ratio(check, size)
    return (report, calls, ratio(calls, report), run, size, check, rate, ratio(check, run), audit, ratio(audit, check),
            max(figure.megabytes for figure in figures.values()))

def markdown(tables):
    for title, heads, rows in tables:
        yield f"{title}:\n"
        yield "| " + " | ".join(heads) + " |"
        yield "|---" * len(heads) + "|"
        yield from ("| " + " | ".join(row) + " |" for row in rows)
        yield ""

def aligned(tables):
    for title, heads, rows in tables:
        yield from (f"{title}:\n", *common.aligned([heads, *rows]), "")

def machine(loads):
    """Where and when it was measured."""
    with open("/proc/cpuinfo", encoding="utf-8") as file:
        model = re.search(r"^model name\s*: (.*)$", file.read(), re.M)
    busy = " to ".join(dict.fromkeys(f"{load:.1f}" for load in loads))
    return (f"Measured on {datetime.date.today()} on one of {os.cpu_count()} processors "
            f"({model[1] if model else os.uname().machine}), with a load of {busy}.")

def write(path, lines):
    """Puts lines into a page, between the two that say so."""
    with open(path, encoding="utf-8") as file:
        front, rest = file.read().split(FROM)
    with open(path, "w", encoding="utf-8") as file:
        file.write(front + FROM + "\n\n" + "\n".join(lines).strip() + "\n\n" + TO + rest.split(TO)[1])

def main(words: list[str]) -> int:
    given, groups = common.options(words, ("--programs",), ("--callgrind", "--table", "--write"))
    names = given["--programs"][-1].split(",") if "--programs" in given else programs.NAMES
    if not set(names) <= set(programs.NAMES) or not set(groups) <= set(GROUPS):
        raise common.WrongWords(f"programs are {', '.join(programs.NAMES)}, and groups {', '.join(GROUPS)}")
    groups, flags = list(GROUPS) if "--write" in given or not groups else groups, set(given)
    if not programs.has_compiler():
        raise common.Stop("not tried: anything, as g++ is not installed")
    commands, not_tried = programs.found(names)
    program = os.environ.get("BASIN_PROGRAM") or os.path.join(ROOT, ".built", "program")
    if os.access(program, os.X_OK):
        commands = {"basin": [os.path.abspath(program)]} | commands
    else:
        not_tried.insert(0, "basin: ./basin prove builds it, or BASIN_PROGRAM names it")
    if "--callgrind" in flags and not shutil.which("valgrind"):
        not_tried.append("instructions, which need valgrind")
        flags.remove("--callgrind")
    loads = [os.getloadavg()[0]]
    with tempfile.TemporaryDirectory() as room:
        bench = Bench(commands, room, "--callgrind" in flags)
        for group in groups:
            {"trial": bench.trial, "report": bench.report, "month": bench.month, "run": bench.run,
             "commands": bench.own_commands}[group]()
    loads.append(os.getloadavg()[0])
    is_markdown = flags & {"--table", "--write"}
    print(*(markdown if is_markdown else aligned)(tables_of(bench)), machine(loads), sep="\n")
    if "--write" in flags:
        write(os.path.join(ROOT, "README.md"), [*markdown(tables_of(bench, SHORT)), machine(loads)])
        write(os.path.join(ROOT, "docs", "COSTS.md"), [*markdown(tables_of(bench)), machine(loads)])
    for what in not_tried:
        print("not tried:", what)
    return int(any(of.fault == "differs" for figures in bench.rows.values() for of in figures.values()))
