"""tables [PROGRAM]: tries beside/basin.py and the scripts on results that stand on it.

Each text of examples/ is read into records and written again from them, and has to be the same. The tables of a result
are held against its report, which sums the same run, and against its basin file. What is no such text is refused, and
each status of the program is its exception: tables of both stand below. With PROGRAM, a built one, accounts of small
random basins are taken apart and have to add up, and a change's sums are held against the lines of `compare`.
"""
import csv
import math
import os
import random
import time

from beside import basin, files, overlay, sources
from beside.common import ROOT, write_text
from checks import harness
from checks.harness import EXAMPLES, called, example, files_of, names_of, not_tried, ran, read, script, small, tried

SMALL = 60                          # how many small basins have their accounts taken apart
REFUSED, BAD_CHANGES, STATUSES, CORE = harness.table("tables", "REFUSED BAD_CHANGES STATUSES CORE")

# --- The records of basin.py, written again ---------------------------------------------------------------------------
def of_result(months):
    yield f"river-result 1\nrun {months.first} {months.count}"
    for it in months:
        yield f"month {it.month}"
        words = (("open", it.opening), ("evap", it.evaporated), ("return", it.returned), ("used", it.used))
        for word, amounts in (*words, ("flow", it.flow)):
            yield from (f"{word} {name} {amount}" for name, amount in amounts.items())
        yield from (f"deliver {name} {it.delivered[name]} {want}" for name, want in it.wanted.items())
        yield from (f"out {name} {amount}" for name, amount in it.out.items())
        for right, nodes in it.sets.items():
            yield f"call {right}"
            yield from (f"in {node}" for node in nodes)
        yield from (f"called {right} {caller}" for right, caller in it.callers.items())
        yield from (f"close {name} {amount}" for name, amount in it.closing.items())
        yield "end"
    yield f"done {months.count}"

def of_calls(months):
    yield f"calls {months.first} {months.count}"
    for it in months:
        yield f"month {it.month}"
        yield from (f"short {name} {got} {want}" for name, (got, want) in it.short.items())
        for word in ("next", "link", "curtailed"):
            yield from (f"{word} {name} {right}" for name, right in getattr(it, word).items())
        yield "end"
    yield f"done {months.count}"

def of_account(it, head="why", names=()):
    yield f"{head} {it.month} {it.right} {it.delivered} {it.wanted}"
    yield from names
    for word, amounts in (("supply", it.supplies), ("enter", it.enters)):
        yield from (f"{word} {name} {amount}" for name, amount in amounts.items())
    yield from (f"keep {link} {amount} {holder}" for link, (amount, holder) in it.kept.items())
    yield from (f"take {name} {amount}" for name, amount in it.taken.items())
    yield f"sum {it.total}"

def of_core(it):
    names = [f"at {node}" for node in it.nodes] + [f"link {link}" for link in it.links]
    return of_account(it.account, "where", names)

def of_report(it):
    yield f"report {it.first} {it.months}"
    for name, sums in it.rights.items():
        yield f"right {name} {sums.short} {sums.wanted} {sums.delivered} {sums.worst or '-'}"
    yield " ".join(["balance", *map(str, vars(it.balance).values())])
    yield f"done {it.months}"

def of_ensemble(it):
    yield f"ensemble {it.first} {it.traces}"
    for right, counts in it.yearly.items():
        yield f"right {right}"
        yield from (f"yearly {amount} {years}" for amount, years in counts.items())
    yield f"done {it.traces}"

def of_comparison(it):
    yield from (f"injured {one.month} {one.right} {one.first} {one.second}" for one in it.injuries)
    yield f"compared {it.common} {len(it.injuries)}"

def try_reading():
    """Each text has to be the same when it is written again from its records."""
    units = os.path.join(ROOT, "second-check", "units.py")
    texts = [("core", basin.read_core, of_core, CORE)]
    for name in ("valley", "orders"):
        calls = ran(units, *files_of(name))[0]
        texts.append((f"calls of {name}", basin.read_calls, of_calls, calls))
    readers = {".result": (basin.read_result, of_result), ".report": (basin.read_report, of_report),
               ".why": (basin.read_account, of_account), ".ensemble": (basin.read_ensemble, of_ensemble),
               ".comparison": (basin.read_comparison, of_comparison)}
    for folder, _, names in sorted(os.walk(EXAMPLES)):
        for name in sorted(names):
            end = os.path.splitext("of." + name)[1]      # (a text that is named `comparison`, too)
            if end in readers:
                texts.append((name, *readers[end], read(folder, name)))
    wrong = [name for name, read, spell, text in texts if "\n".join([*spell(read(text.splitlines(True))), ""]) != text]
    is_same = not wrong and len(texts) > 25
    tried(f"{len(texts)} texts are the same when they are written again from their records", is_same)

HEAD = "river-result 1\nrun 1900-01 1\n"

def said_by(reader, text):
    try:
        found = reader(text.splitlines(True))
        list(found if hasattr(found, "__iter__") else [])
    except basin.BadText as error:
        return str(error)
    return None

def try_refusals():
    for reader, text, said in REFUSED:
        told = said_by(getattr(basin, reader), text)
        tried(f"{text!r} is {said}", told == said, told)
    met = basin.read_account(["met 1900-01 a\n"]), basin.read_core(["met 1900-01 a\n"])
    tried("a right that lacks nothing has no account and no core", met == (None, None))

def stand_in(room):
    """A program instead of the built one, which ends as the word after its command asks."""
    name = os.path.join(room, "stand-in")
    cases = [f'{status}) echo "{said}" >&2; printf "river-res"; exit {status};;'
             for status, (said, _) in STATUSES.items()]
    cases += ['no) echo "refuted 3 Balance"; exit 1;;', 'met) echo "met 1900-01 a"; exit 1;;',
              f'long) cat "{example("valley.result")}"; exec sleep 100;;']
    lines = ["#!/bin/sh", 'echo "basin: not proved for these sources yet" >&2', 'case "$2" in', *cases, "esac", ""]
    os.chmod(write_text(name, "\n".join(lines)), 0o755)
    return name

def raised(call, *words):
    """The exception of a call, or None."""
    try:
        call(*words)
    except basin.Failed as error:
        return error
    return None

def try_statuses(room):
    kept, basin.PROGRAM = basin.PROGRAM, stand_in(room)
    for status, (said, kind) in STATUSES.items():
        error = raised(basin.run, status)
        is_right = type(error) is getattr(basin, kind) and error.status == int(status) and error.said.endswith(said)
        tried(f"status {status} is {kind}", is_right)
    error = raised(basin.check, "no", "-", "x")
    is_right = type(error) is basin.Refuted and (error.line, error.kind, error.status) == (3, "Balance", 1)
    tried("a refutation is an exception", is_right)
    tried("a right that is met is no exception", basin.why("met", "-", "1900-01", "a") is None)
    began = time.monotonic()
    months = iter(basin.run("long"))
    first = next(months).month
    months.close()
    is_right = first == "1981-10" and time.monotonic() - began < 60
    tried("months come while the program is at work, which ends with who reads them", is_right)
    basin.PROGRAM = kept

def try_frames():
    try:
        import pandas
    except ImportError:
        return not_tried("frames", "pandas")
    tables = basin.frames(basin.read_result(basin.lines_of(example("valley.result"))))
    report = basin.read_report(basin.lines_of(example("valley.report")))
    sums = tables["rights"].groupby("right")[["wanted", "delivered"]].sum()
    is_same = all(tuple(sums.loc[name]) == (it.wanted, it.delivered) for name, it in report.rights.items())
    tried(f"frames of pandas {pandas.__version__} have the sums of the report", is_same and len(tables["links"]) == 960)

# --- Tables of a result -----------------------------------------------------------------------------------------------
def rows_of(folder, table):
    with open(os.path.join(folder, table + ".csv"), newline="", encoding="ascii") as file:
        return list(csv.DictReader(file))

def total(rows, column):
    return sum(int(row[column]) for row in rows)

def of_right(rows):
    """What a report says of a right, from its rows."""
    short = [int(row["short"]) for row in rows]
    worst = rows[short.index(max(short))]["month"] if any(short) else None
    return basin.Sums(sum(1 for one in short if one), total(rows, "wanted"), total(rows, "delivered"), worst)

def says_report(folder, report):
    """Whether the tables have what a report says of each right, and of the water that was stored, lost and let go."""
    rights, lakes, balance = {}, rows_of(folder, "reservoirs"), report.balance
    for row in rows_of(folder, "rights"):
        rights.setdefault(row["right"], []).append(row)
    last = [row for row in lakes if row["month"] == lakes[-1]["month"]]
    water = (total(last, "closing"), total(lakes, "evaporated"), total(rows_of(folder, "outlets"), "out"),
             total(rows_of(folder, "returns"), "returned"))
    return ({name: of_right(rows) for name, rows in rights.items()} == report.rights
            and water == (balance.closing, balance.evaporated, balance.out, balance.returns))

def says_years(folder, name, report):
    """Whether the sums of water years make those of the report, zones have none, and each right has its date."""
    rights = basin.rights_of(basin.read_basin(example(name + ".toml")))
    sums = {}
    for row in rows_of(folder, "yearly"):
        sums.setdefault(row["right"], []).append(row)
    zones = {right for right, it in rights.items() if it.kind == "zone"}
    is_right = all(row["date"] == rights[row["right"]].date for row in rows_of(folder, "rights"))
    for right, it in report.rights.items():
        rows = sums[right]
        is_right &= (not any(row["wanted"] + row["delivered"] for row in rows) if right in zones else
                     (total(rows, "wanted"), total(rows, "delivered")) == (it.wanted, it.delivered))
    return is_right

def try_tables(room):
    for name in names_of():
        toml, _, result = files_of(name)
        report = basin.read_report(basin.lines_of(example(name + ".report")))
        folder, piped = os.path.join(room, name), os.path.join(room, name + "-piped")
        done = called("tables", result, folder)
        tried(f"{name} has the sums of its report", done[1:] == ([], 0) and says_report(folder, report), done)
        text = read(result)
        done = called("tables", "-", piped, "--basin", toml, text=text)
        tried(f"{name} from a pipe has them too, by water years", done[1:] == ([], 0) and says_report(piped, report)
              and says_years(piped, name, report), done)
    lines = text.split("\n")
    cases = {"the result ends before its last line": lines[:9],
             "line 5 is none of a result": [*lines[:4], "flood 3", *lines[4:]],
             "line 1 is none of a result": ["hello"], "the result ends before its last line ": []}
    for said, some in cases.items():
        done = called("tables", "-", folder, text="\n".join(some) + "\n" * bool(some))
        tried(f"refused: {said}", done == ("", [said.strip()], 1), done)
    tried("an absent file is said", script("tables", os.path.join(room, "nothing"), folder)[2] == 5)
    done = called("tables", "--basin", example("weir.toml"), example("valley.result"), folder)
    wanted = ["the basin file has no right deadpool: it isn't that of this text"]
    tried("another basin is refused", done[1:] == (wanted, 1), done)
    done = called("tables", "--basin", os.devnull, example("weir.result"), folder)
    tried("an empty basin is refused", done[2] == 3 and "[MissingKey]" in done[1][0], done)
    calls = write_text(os.path.join(room, "calls"), "calls 1900-01 1\nmonth 1900-01\nshort a 1 2\nnext n a\nlink c a\n"
                       "curtailed b a\nend\ndone 1\n")
    called("tables", "--calls", calls, example("weir.result"), folder)
    rows = [tuple(row.values())[1:] for row in rows_of(folder, "calls")]
    tried("a list of calls has its table", rows == [("next", "n", "a"), ("link", "c", "a"), ("curtailed", "b", "a")])

# --- Years, changes and accounts --------------------------------------------------------------------------------------
def try_yearly():
    ensemble = basin.read_ensemble(basin.lines_of(example("valley.ensemble")))
    chance = random.Random(1)
    cases = list(ensemble.yearly.values())
    for _ in range(50):
        cases.append({amount: chance.randint(1, 9) for amount in sorted(chance.sample(range(99), 7))})
    wrong = 0
    for counts in cases:
        falling = sorted((amount for amount, years in counts.items() for _ in range(years)), reverse=True)
        places = {percent: math.ceil(len(falling) * percent / 100) - 1 for percent in range(1, 101)}
        wrong += any(basin.reached_in(counts, percent) != falling[place] for percent, place in places.items())
    tried(f"{len(cases)} exceedance tables are those of the sorted years", not wrong)
    out, said, status = called("yearly", "--basin", example("valley.toml"), example("valley.ensemble"))
    is_right = "as the water year does" in out and "carryover" not in out and "oldfields" in out
    tried("an ensemble leaves zones out, and tells of its years", is_right and (said, status) == ([], 0), said)
    out = called("yearly", "--basin", example("valley.toml"), "--csv", example("valley.result"))[0]
    rows = [row for row in csv.DictReader(out.splitlines()) if row["right"] == "town"]
    tried("the water years of a result are counted", rows[-1]["years"] == "10" and rows[-1]["percent"] == "100.0")
    said = called("yearly", example("valley.result"))[1]
    wanted = ["a result needs --basin BASIN, which tells its water years; ./basin yearly --help tells more"]
    tried("a result needs its basin", said == wanted, said)

def try_overlay(room):
    made, change = os.path.join(room, "made.toml"), os.path.join(room, "change")

    def overlaid(name):
        return files.read_toml(write_text(made, called("overlay", example("valley.toml"), name)[0]))
    for name in ("valley-transfer", "valley-orchard"):
        changed = files.read_toml(example("changes", name + ".toml"))
        tried(f"{name}.change makes {name}.toml", overlaid(example("changes", name + ".change")) == changed)
    for name in names_of(".toml"):
        tree = basin.read_basin(example(name + ".toml"))
        again = files.read_toml(write_text(made, overlay.text_of(overlay.overlay(tree, {}))))
        tried(f"{name} without a change is itself", again == tree)
    for text, said in BAD_CHANGES:
        told = called("overlay", example("valley.toml"), write_text(change, text))
        tried(f"no such change: {said}", told == ("", [said], 1), told)
    tree = overlaid(write_text(change, '[[change.link]]\nname = "canal"\nwithout = ["per_day"]\n'
                               '[[remove.return]]\ndiversion = "oldfields"\nlag = 1\n[top]\nmonths = 12\n'))
    canal = next(link for link in tree["link"] if link["name"] == "canal")
    is_right = tree["months"] == 12 and [it["lag"] for it in tree["return"]] == [3] and "per_day" not in canal
    tried("keys are taken away, one of two returns goes, the top is set", is_right)

def losses(comparison):
    """In how many months each right is injured by the lines of a comparison, and what it loses in them."""
    lost = {}
    for it in basin.read_comparison(basin.lines_of(comparison)).injuries:
        count, most = lost.get(it.right, (0, 0))
        lost[it.right] = (count + 1, most + it.first - it.second)
    return lost

def try_compared(program):
    zones = ("deadpool", "carryover")
    for name in ("valley-transfer", "valley-orchard"):
        names = example("valley.toml"), example("changes", name + ".toml"), example("valley.csv")
        out, said, status = script("compared", "--csv", *names, program=program)
        lost, rows = losses(example("changes", name + ".comparison")), list(csv.DictReader(out.splitlines()))
        wanted = {row["right"]: lost.get(row["right"], (0, 0)) for row in rows}
        found = {row["right"]: (int(row["injured"]), int(row["lost"] or wanted[row["right"]][1])) for row in rows}
        is_right = all((row["lost"] == "") == (row["right"] in zones) for row in rows)
        is_right &= found == wanted and len(rows) == 6 and (said, status) == ([], bool(lost))
        tried(f"{name} injures as its comparison says", is_right)
    names = names[0], example("changes", "valley-transfer.toml"), names[2]
    words = [word for right in losses(example("changes", "valley-transfer.comparison")) for word in ("--except", right)]
    out, _, status = script("compared", *words, *names, program=program)
    is_right = status == 0 and "injured: nobody else" in out and "differs: diversion oldfields, in node" in out
    tried("who has agreed is injured no more", is_right)
    said = script("compared", "--except", "Trout", *names, program=program)[1]
    wanted = ["compared: no right of BASIN is named Trout; did you mean trout?"]
    tried("an unknown right has not agreed", said == wanted, said)

def try_account(tree, months, series, account):
    """Whether the sources of an account add up to it, and each other right has a sentence; and how each source is
    told."""
    rights = basin.rights_of(tree)
    lines = list(sources.lines_of_account(account, sources.Sources(tree, series, months), rights))
    others = sources.Others(tree, rights, months[-1], account.right)
    told = all(others.sentence(name) for name in rights if name != account.right)
    is_right = told and sum(amount for amount, _ in lines) == account.total == account.delivered
    return is_right, {what.split(": ")[1].split()[0] for _, what in lines}

def try_accounts(room, program):
    """Takes the account of each short right of small basins apart."""
    accounts, kinds, basin.PROGRAM = 0, set(), program
    for number, (toml, series) in enumerate(small(room, range(1, SMALL + 1)), 1):
        tree, months, amounts = basin.read_basin(toml), list(basin.run(toml, series)), basin.read_series(series, toml)
        for at, month in enumerate(months, 1):
            for right in list(month.short)[:2]:
                account = basin.why(toml, series, month.month, right)
                is_right, words = try_account(tree, months[:at], amounts, account)
                tried(f"the account of {right} in {month.month} of small basin {number} adds up", is_right)
                accounts, kinds = accounts + 1, kinds | words
    is_right = accounts > SMALL and kinds == {"flowed", "held", "came", "the", "must", "taken", "kept"}
    tried(f"{accounts} accounts of small basins add up, with every kind of source", is_right, kinds)
    names = example("valley.toml"), example("valley.csv")
    out, said, status = script("sources", *names, "1982-07", "oldfields", "town", program=program)
    is_right = "1774  lake: held 1987" in out and "town, of 1926-01-01: junior" in out
    tried("the valley's account is told", is_right and (said, status) == ([], 0), said)

def try_modelling():
    """Each line of a block in docs/MODELLING.md stands in a file of examples/, but for commands."""
    known, block, strange = set(), False, []
    for folder, _, names in os.walk(EXAMPLES):
        for name in names:
            known |= {line.strip() for line in read(folder, name).splitlines()}
    for line in read("docs", "MODELLING.md").splitlines():
        if line.startswith("```"):
            block = not block
        elif (block or line.startswith("    ")) and line.strip() not in known and not line.startswith("    ./basin "):
            strange.append(line)
    tried(f"docs/MODELLING.md quotes the examples{''.join(strange)}", not strange and not block)

def main(room, program=""):
    try_reading()
    try_refusals()
    try_statuses(room)
    try_frames()
    try_tables(room)
    try_yearly()
    try_overlay(room)
    try_modelling()
    if program:
        try_compared(program)
        try_accounts(room, program)
