"""highs report BASIN SERIES: a report by linear programs, as a user of SciPy would solve them.

For each right, seniors first, HiGHS finds its greatest delivery, all seniors held at theirs; each program is solved
from nothing. The months are gone through here too, so this shares no code with the programs in C++. It needs
python3-scipy.
"""
import numpy
from scipy.optimize import linprog

from beside import common, files, least_cost, result

class Run(result.Checker):
    """The months one after the other, and what is summed up of them."""

    def __init__(self, basin, series):
        super().__init__(basin, series)
        # of each right: months short, wanted, delivered, the worst and its month
        self.sums = [[0, 0, 0, 0, "-"] for _ in basin.rights]
        self.opening, self.inflows, self.returns, self.lost, self.out_sum = sum(self.closed), 0, 0, 0, 0
        for month in range(basin.first, basin.first + basin.months):
            self.go(month)

    def go(self, month):
        self.tell("month", [month])
        self.opened.update(enumerate(self.closed))
        self.evaporated.update((at, self.evaporation(at)) for at in self.opened)
        self.supply = self.supplies()
        for right, it in enumerate(self.basin.rights):
            most = self.basin.carry(it.link, month) if it.link is not None else self.basin_left(right)
            self.want[right] = min(self.wanted(right), most)
        problem = least_cost.Problem(self, dict.fromkeys(self.basin.order, 0))
        bounds = [(0, bound) for bound in problem.bounds]
        for right in self.basin.order:
            amount = self.greatest(problem, problem.column[right], bounds) if self.want[right] else 0
            bounds[problem.column[right]] = (amount, self.want[right])
            self.add(right, amount)
        self.inflows += sum(map(self.inflow, range(len(self.basin.nodes))))
        self.returns += sum(self.returned)
        self.lost += sum(self.evaporated.values())
        self.out_sum += sum(self.supply) - sum(self.got[right] for right in self.basin.takers)
        self.tell("end", [])

    def basin_left(self, right):
        volume = self.basin.rights[right].volume
        return result.RIVER if volume is None else volume - self.used(right)

    def greatest(self, problem, column, bounds):
        aim = numpy.zeros(len(bounds))
        aim[column] = -1
        solved = linprog(aim, bounds=bounds, method="highs", **problem.rows())
        if solved.status:
            raise common.Stop(solved.message)
        return round(solved.x[column])

    def add(self, right, amount):
        want, (short, wanted, delivered, worst, when) = self.want[right], self.sums[right]
        if want - amount > worst:
            worst, when = want - amount, common.month_text(self.month)
        self.sums[right] = [short + (amount < want), wanted + want, delivered + amount, worst, when]
        self.got[right] = amount

    def report(self):
        b, diverted = self.basin, 0
        yield f"report {common.month_text(b.first)} {b.months}"
        for right in b.order:
            short, wanted, delivered, _, month = self.sums[right]
            diverted += delivered if b.rights[right].table == "diversion" else 0
            yield f"right {b.rights[right].name} {short} {wanted} {delivered} {month}"
        amounts = self.opening, self.inflows, self.returns, sum(self.closed), self.lost, diverted, self.out_sum
        yield " ".join(map(str, ("balance", *amounts)))
        yield f"done {b.months}"

def main(words: list[str]) -> None:
    _, (_, *names) = common.options(words, count=3)
    print(*Run(*files.read(*names)).report(), sep="\n")
