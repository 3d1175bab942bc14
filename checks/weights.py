"""weights [PROGRAM]: holds what weights deliver against what is known of the examples, with each solver that is
installed.

With a PROGRAM, the stored results of examples/weights have to be what it writes.
"""
import os

from beside import common, files, glpk, least_cost, result
from checks import harness
from checks.harness import example, not_tried, ran, read, read_bytes, script, tried

CASES, SAID = harness.table("weights", "CASES SAID")

def files_of(name):
    toml, series, text = (example("weights", name + ending) for ending in (".toml", ".csv", ".result"))
    return [toml, series if os.path.exists(series) else "-", text]

def others(name, weights, solve):
    """The most senior right of each month that is delivered otherwise; of `starved` all."""
    *names, text = files_of(name)
    basin, series = files.read(*names)
    checker = least_cost.Weighted(basin, series, getattr(least_cost, weights)(basin), solve)
    result.check(checker, read_bytes(text))
    seen, rows = set(), []
    for month, right, strict, weighted in checker.others:
        if name == "starved" or month not in seen:
            rows.append([common.month_text(month), basin.rights[right].name, strict, weighted])
        seen.add(month)
    return rows

def main(room, program=""):
    solvers = {"python3-scipy": least_cost.Problem.by_scipy if least_cost.linprog else None,
               "glpk-utils": least_cost.Problem.by_glpk if glpk.is_there() else None}
    for solver, solve in solvers.items():
        if solve is None:
            not_tried("a solver of linear programs", solver)
            continue
        for name, weights, due in CASES:
            found = others(name, weights, solve)
            tried(f"{os.path.basename(name)} by {weights} weights, solved by {solver}", found == due, found)
    if any(solvers.values()):
        out, _, status = script("least-cost", *files_of("starved"))
        tried("what is said of starved", status == 1 and out.split("\n", 1)[1] == SAID, out)
    made = os.path.join(room, "made")
    ran(example("weights", "ladder"), "5", made)
    for ending in (".toml", ".csv"):
        tried(f"ladder-5{ending} is what ladder makes", read(made + ending) == read(example("weights", "ladder-5" +
                    ending)))
    for name in ("starved", "ladder-5") if program else ():
        *names, text = files_of(name)
        tried(f"{name} is as the program writes it", ran(program, "run", *names)[0] == read(text))
