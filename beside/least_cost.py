"""What weights deliver, beside what strict priority does. Its help is docs/help/least-cost.txt."""
from beside import common, files, glpk, result

try:
    from scipy.optimize import linprog
    from scipy.sparse import coo_matrix
except ImportError:
    linprog = None

def customary(basin):
    """The weight of each right, by its place in the order of dates."""
    return {right: 50_000 - 10 * place for place, right in enumerate(basin.order)}

def doubling(basin):
    """Weights that are strict whatever the network is: one more than all that a unit of water can serve of a right's
    juniors, which is every instream right that it passes and one diversion or zone that takes it."""
    weights, passed, taken = {}, 0, 0
    for right in reversed(basin.order):
        weights[right] = 1 + passed + taken
        if basin.rights[right].link is None:
            taken = max(taken, weights[right])
        else:
            passed += weights[right]
    return weights

class Problem:
    """A month as a linear problem: its columns with their bounds and gains, and its rows. First come the links, then
    the rights, then the outlets; a row is a node's balance, or says that an instream right counts no more than what
    flows on its link."""

    def __init__(self, month, weights):
        basin, links = month.basin, range(len(month.basin.links))
        outlets = [node for node, is_outlet in enumerate(basin.outlet) if is_outlet]
        most = sum(month.supply)                    # (more flows nowhere; a solver is uneasy with greater bounds)
        self.bounds = [min(most, basin.carry(link, month.month)) for link in links]
        self.bounds += [month.want[right] for right in weights] + [most] * len(outlets)
        self.gains = [0] * len(links) + list(weights.values()) + [0] * len(outlets)
        self.column = {right: len(links) + place for place, right in enumerate(weights)}
        self.balance, self.supply, self.passing = [{} for _ in basin.nodes], month.supply, []
        for link in links:
            _, tail, head, _ = basin.links[link]
            self.balance[tail][link], self.balance[head][link] = 1, -1
        for right, column in self.column.items():
            it = basin.rights[right]
            if it.link is None:
                self.balance[it.node][column] = 1
            else:
                self.passing.append({column: 1, it.link: -1})
        for place, node in enumerate(outlets):
            self.balance[node][len(links) + len(weights) + place] = 1

    def rows(self):
        """The rows as SciPy takes them: what may be no more than 0, and the balances."""
        def matrix(rows):
            cells = [(at, column, value) for at, row in enumerate(rows) for column, value in row.items()]
            where, columns, values = zip(*cells) if cells else ((), (), ())
            return coo_matrix((values, (where, columns)), shape=(len(rows), len(self.gains)))
        most = {"A_ub": matrix(self.passing), "b_ub": [0] * len(self.passing)} if self.passing else {}
        return most | {"A_eq": matrix(self.balance), "b_eq": self.supply}

    def by_scipy(self):
        found = linprog([-gain for gain in self.gains], bounds=[(0, bound) for bound in self.bounds], method="highs-ds",
                        **self.rows())
        return found.x if found.status == 0 else None

    def by_glpk(self):
        rows = [(row, "=", supply) for row, supply in zip(self.balance, self.supply)]
        rows += [(row, "<=", 0) for row in self.passing]
        return glpk.solved("maximize", self.gains, rows, [(0, bound) for bound in self.bounds])[0]

class Weighted(result.Checker):
    """A checker that solves each good month by weights too, and keeps who is delivered otherwise."""

    def __init__(self, basin, series, weights, solve):
        super().__init__(basin, series)
        self.weights, self.solve, self.others, self.months = weights, solve, [], 0

    def month_ends(self):
        problem = Problem(self, self.weights)
        found = self.solve(problem)
        if found is None:
            raise common.Stop("the solver found no plan", 2)
        weighted = {right: round(found[problem.column[right]]) for right in self.basin.order}
        others = [right for right, amount in weighted.items() if amount != self.got[right]]
        self.others += [(self.month, right, self.got[right], weighted[right]) for right in others]
        self.months += others != []

def solver():
    """A solver that is installed, with its name."""
    if linprog is not None:
        return Problem.by_scipy, "HiGHS"
    if glpk.is_there():
        return Problem.by_glpk, "GLPK"
    raise common.Stop("a solver is needed: apt-get install python3-scipy, or glpk-utils", 2)

def main(words: list[str]) -> int:
    given, (*names, text) = common.options(words, (), ("--doubling",), 3)
    kind = doubling if given else customary
    solve, name = solver()
    basin, series = files.read(*names)
    checker = Weighted(basin, series, kind(basin), solve)
    months = result.check(checker, common.read_bytes(text, None))
    print(f"{kind.__name__} weights, from {max(checker.weights.values(), default=0):,} down, solved by {name}")
    for month, right, strict, weighted in checker.others:
        it, when = basin.rights[right], common.month_text(month)
        print(f"{when} {it.name} of {it.date}: by date {strict:,}, by weight {checker.weights[right]:,} {weighted:,}")
    print(f"months in which weights deliver otherwise: {checker.months} of {months}")
    return int(checker.others != [])
