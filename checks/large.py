"""large: made-up basins of any size, for checks/page.py.

A river with a canal beside each second node, a gauge at each sixth and a lake at each twentieth; a right at each node,
every fifth of them instream.
"""
import os
import random

from beside.common import month_text, write_text
from beside.overlay import text_of

def basin(nodes, months, chance):
    """The text of the basin file."""
    table = {name: [] for name in ("node", "link", "reservoir", "diversion", "instream", "zone")}
    for at in range(nodes - 1):
        table["node"].append({"name": f"n{at}"} | ({"inflow": "gauged"} if at % 6 == 0 else {}))
        ways = {f"e{at}": (6, {}), f"c{at}": (9, {"per_day": chance.randint(1, 30)})}
        for name, (far, more) in list(ways.items())[:1 + at % 2]:
            to = f"n{min(nodes - 1, at + chance.randint(1, far))}"
            table["link"].append({"name": name, "from": f"n{at}", "to": to} | more)
        right = {"name": f"r{at}", "date": f"{chance.randint(1850, 1980)}-{chance.randint(1, 12):02d}-01", "order": at,
                 "want": [chance.choice((0, chance.randint(50, 900))) for _ in range(12)]}
        kind, place = ("instream", {"link": f"e{at}"}) if at % 5 == 4 else ("diversion", {"node": f"n{at}"})
        table[kind].append(right | place)
        if at % 20 == 0:
            table["reservoir"].append({"node": f"n{at}", "opening": 4000, "area": [[0, 0], [9000, 300]], "rate": 60})
            table["zone"].append({"name": f"z{at}", "reservoir": f"n{at}", "level": 1, "date": "1950-01-01",
                                  "order": nodes + at, "want": 9000})
    table["node"].append({"name": f"n{nodes - 1}", "outlet": True})
    return text_of({"format": 1, "first_month": "1900-10", "months": months} | table)

def series(nodes, months, chance):
    """The text of its series."""
    records = [f"{month_text(1900 * 12 + 9 + month)},n{at},{chance.randint(100, 4000)}"
               for month in range(months) for at in range(0, nodes - 1, 6)]
    return "\n".join(["month,node,amount", *records, ""])

def write(nodes, months, folder):
    """Writes both files, and answers their names."""
    chance, names = random.Random(7), [os.path.join(folder, f"large-{nodes}{ending}") for ending in (".toml", ".csv")]
    texts = basin(nodes, months, chance), series(nodes, months, chance)
    return [write_text(name, text) for name, text in zip(names, texts)]
