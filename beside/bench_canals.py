"""How much water canals carry for nothing. Its help is docs/help/bench-canals.txt."""
import os
import re
import subprocess
import tempfile

from beside import basin, common, files, glpk
from beside.bench import programs
from beside.model import RIVER

EXAMPLES = os.path.join(common.ROOT, "examples")
SIZES = (20, 40, 80, 160)
SHAPED = ("60", "120", "60")

def canals_of(b):
    return [place for place, link in enumerate(b.links) if link[3] is not None]

def by_canals(b, flow):
    """What all canals carry together."""
    return sum(flow[canal] for canal in canals_of(b))

def more_out(b, flow):
    """How much more goes out of each node by links than comes in."""
    more = [0] * len(b.nodes)
    for (_, tail, head, _), amount in zip(b.links, flow):
        more[tail] += amount
        more[head] -= amount
    return more

class Month:
    """A month of a result: for each link the least and the most that it can carry, and for each node how much more goes
    out by links than comes in."""

    def __init__(self, b, it):
        self.basin, self.flow, self.month = b, list(it.flow.values()), common.read_month(it.month)
        self.more_out = more_out(b, self.flow)
        self.most = [b.carry(link, self.month) for link in range(len(b.links))]
        self.least = [max((it.delivered[right.name] for right in b.rights if right.link == link), default=0)
                      for link in range(len(b.links))]

    def has_plan(self, flow):
        """Whether flows are those of a plan of the month."""
        is_within = all(least <= amount <= most for least, amount, most in zip(self.least, flow, self.most))
        return is_within and more_out(self.basin, flow) == self.more_out

    def bound(self, potentials):
        """An amount than which canals carry no less together in any plan, whatever the potentials of the nodes are.

        As for all plans as much more goes out of each node, each node's potential times that may be added to a plan's
        sum, and be taken off again link by link. Then each link by itself has its least or its most.
        """
        bound = sum(potential * more for potential, more in zip(potentials, self.more_out))
        for (_, tail, head, per_day), least, most in zip(self.basin.links, self.least, self.most):
            cost = (per_day is not None) - potentials[tail] + potentials[head]
            bound += cost * (least if cost > 0 else most)
        return bound

def solved(months):
    """The flows and the potentials of each month that glpsol finds, rounded. Columns and rows come month by month."""
    links, nodes = months[0].basin.links, len(months[0].basin.nodes)
    rows = [({}, "=", amount) for month in months for amount in month.more_out]
    for place in range(len(months)):
        for link, (_, tail, head, _) in enumerate(links, place * len(links)):
            rows[place * nodes + tail][0][link], rows[place * nodes + head][0][link] = 1, -1
    # (no sum of a river comes near to what it can carry)
    bounds = [(least, most if most < RIVER else None)
              for month in months for least, most in zip(month.least, month.most)]
    costs = [int(link[3] is not None) for link in links] * len(months)
    return [parted(list(map(round, amounts)), len(months)) for amounts in glpk.solved("minimize", costs, rows, bounds)]

def parted(amounts, count):
    """A list in so many equal parts."""
    size = len(amounts) // count
    return [amounts[place * size:(place + 1) * size] for place in range(count)]

def least_of(basin, months):
    """The least that the canals of a basin can carry together in each month."""
    if not canals_of(basin):
        return [0] * len(months)
    sums = []
    for month, flow, potentials in zip(months, *solved(months), strict=True):
        sums.append(by_canals(basin, flow))
        if not month.has_plan(flow) or month.bound(potentials) != sums[-1]:
            raise common.Stop("what glpsol found isn't the least")
    return sums

class Row:
    """A row of both tables: what canals carry by each program and at least, the months that have canals, and in how
    many of them more than the least goes through them by each program."""

    def __init__(self, count):
        self.carried, self.least, self.months, self.above = [0] * count, 0, 0, [0] * count

    def add(self, basin, results, least):
        """Adds the months of a basin."""
        self.least += sum(least)
        self.months += len(least) if canals_of(basin) else 0
        for place, months in enumerate(results):
            sums = [by_canals(basin, month.flow) for month in months]
            self.carried[place] += sum(sums)
            self.above[place] += sum(amount > at_least for amount, at_least in zip(sums, least, strict=True))

class Bench:
    """All rows so far, by their titles."""

    def __init__(self, commands, room):
        self.commands, self.room, self.rows, self.faults = commands, room, {}, []

    def results(self, title, names, b):
        """The months of a basin by each program. What differs but for flows, or is no plan, is a fault."""
        results, others = [], []
        for command in self.commands:
            ran = subprocess.run([os.path.abspath(command), "run", *names], capture_output=True, text=True)
            if ran.returncode:
                raise common.Stop(f"{command} run {' '.join(names)}: status {ran.returncode}")
            results.append([Month(b, it) for it in basin.read_result(ran.stdout.splitlines(True))])
            others.append([line for line in ran.stdout.split("\n") if not line.startswith("flow ")])
            is_plan = all(map(Month.has_plan, results[0], (month.flow for month in results[-1])))
            if others[-1] != others[0] or not is_plan:
                first = self.commands[0]
                self.faults.append(f"{title} FAILED: {command} differs from {first} in more than flows")
        return results

    def measure(self, title, stem, *rows):
        """Measures the basin whose files begin so, and adds it to some rows. One that sums others stays behind them."""
        b, series = files.read_basin(stem + ".toml"), stem + ".csv" if os.path.exists(stem + ".csv") else "-"
        results = self.results(title, (stem + ".toml", series), b)
        least = least_of(b, results[0])
        for row in rows:
            of = self.rows.get(row, Row(len(self.commands)))
            of.add(b, results, least)
            if row.startswith("all "):
                self.rows.pop(row, None)
            self.rows[row] = of

    def examples(self):
        for name in sorted(name[:-5] for name in os.listdir(EXAMPLES) if name.endswith(".toml")):
            self.measure(name, os.path.join(EXAMPLES, name), name, "all examples")

    def made_up(self, count, months):
        """Made-up basins, with as many months as are asked for in place of 60."""
        for number in range(1, count + 1):
            size, stem = SIZES[(number - 1) % len(SIZES)], os.path.join(self.room, "basin")
            subprocess.run([programs.built("basins"), "trial", str(number), str(size), stem], check=True)
            text = common.read_bytes(stem + ".toml")
            common.write_text(stem + ".toml", re.sub(b"(?m)^months = .*$", b"months = %d" % months, text, count=1))
            self.measure(f"trial {number} {size}", stem, f"made-up, {size} nodes", "all made-up")

    def shaped(self, months):
        """A basin of each shape."""
        for shape in programs.SHAPES:
            stem = os.path.join(self.room, shape)
            subprocess.run([programs.built("basins"), shape, *SHAPED, str(months), stem], check=True)
            self.measure(shape, stem, shape)

    def tables(self):
        """Both tables, each with its title, the heads of its columns and its rows."""
        carried = [[title, *row.carried, row.least] for title, row in self.rows.items()]
        above = [[title, *row.above, row.months] for title, row in self.rows.items()]
        yield "What canals carry, in units of 1,000 cubic metres", ["", *self.commands, "the least"], carried
        yield "Months in which canals carry more than the least", ["", *self.commands, "with canals"], above

def main(words: list[str]) -> int:
    given, commands = common.options(words, ("--basins", "--months"), count=range(1, 100))
    numbers = [given.get(name, [default])[-1] for name, default in (("--basins", "20"), ("--months", "60"))]
    if not all(re.fullmatch("[0-9]{1,4}", number) for number in numbers) or not 1 <= int(numbers[1]) <= 1200:
        raise common.WrongWords("N is a whole number, and M one from 1 to 1200")
    count, months = map(int, numbers)
    if not glpk.is_there():
        raise common.Stop("not tried: anything, as glpsol is not installed: it is in glpk-utils")
    with tempfile.TemporaryDirectory() as room:
        bench = Bench(commands, room)
        bench.examples()
        if count and programs.has_compiler():
            bench.made_up(count, months)
            bench.shaped(months)
    for title, heads, rows in bench.tables():
        print(f"{title}:\n", *common.aligned([heads, *([row[0], *(f"{it:,}" for it in row[1:])] for row in rows)]), "",
              sep="\n")
    if count and not programs.has_compiler():
        print("not tried: made-up basins, as g++ is not installed")
    print(*bench.faults, sep="\n", end="\n" * bool(bench.faults))
    return int(bool(bench.faults))
