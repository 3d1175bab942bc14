"""pictures: tries the pictures, and what they are drawn from.

Without any package the boxes of each month of each example have to add up, what flows in at a gauge has to be what the
series says, and the cores of all short rights have to be those of `second-check/units.py`. Where matplotlib or graphviz
are installed the pictures of the valley are drawn that docs/pictures shows, a basin of 60 nodes, which has to be large
enough on its page, and names that would be read as something else. What isn't installed is named.
"""
import os
import random
import shutil
import subprocess
import xml.etree.ElementTree
from typing import Any

from beside import basin, common, draw, network
from beside.common import write_text
from checks import harness
from checks.harness import called, example, files_of, names_of, not_tried, ran, read, tried

READABLE = 0.5                      # of its size: letters of 5 points

def rest_of(view, node):
    """What is left over at a node, by its parts and its links."""
    rest = sum(amount for amount, _, _ in view.balanced(node))
    for name, link in view.links.items():
        rest += view.now.flow[name] * ((link["to"] == node) - (link["from"] == node))
    return rest

def try_boxes(name, tree, months, series):
    is_right = True
    for month in months:
        view = network.View(tree, month, "-")
        for node in view.nodes:
            told = [amount for amount, what, _ in view.balanced(node) if what.startswith("flows in (gauge)")]
            read = [series[month.month, "inflow", node]] if node in view.gauged else []
            says_so = not any("add up" in row for row in view.rows(node))
            is_right &= rest_of(view, node) == 0 and told == read and says_so
    tried(f"{name}: the boxes of {len(months)} months add up, with the inflows of the series", is_right)

def first_of(views, entries, holds):
    """For each entry the most senior short right of which it holds; entries without one are left out."""
    found = {entry: next((view.right.name for view in views if holds(view, entry)), None) for entry in entries}
    return {entry: right for entry, right in found.items() if right}

def calls_of(tree, month):
    """What `units` says of a month, from the cores of its short rights."""
    views = [network.View(tree, month, right) for right in month.short]
    nodes = first_of(views, [node["name"] for node in tree["node"]], lambda view, node: node in view.core)
    links = [link["name"] for link in tree.get("link", [])]
    return nodes, first_of(views, links, lambda view, name: view.helps(view.links[name]))

def try_cores(name, tree, months, files):
    units = ran(os.path.join(common.ROOT, "second-check", "units.py"), *files)[0]
    calls = list(basin.read_calls(units.splitlines()))
    wrong = [it.month for it, month in zip(calls, months) if (it.next, it.link) != calls_of(tree, month)]
    is_right = len(calls) == len(months) and not wrong
    tried(f"{name}: cores and links that help are those of second-check/units", is_right)

def try_examples():
    for name in names_of():
        names = files_of(name)
        tree, series = basin.read_basin(names[0]), basin.read_series(*names[1::-1])
        months = list(basin.read_result(basin.lines_of(names[2])))
        try_boxes(name, tree, months, series)
        try_cores(name, tree, months, names)
    forged = next(iter(basin.read_result(basin.lines_of(example("weir-forged.txt")))))
    view = network.View(basin.read_basin(example("weir.toml")), forged, "-")
    told = [node for node in view.nodes if any("add up" in row for row in view.rows(node))]
    tried("a forged box says that it doesn't add up", told == ["farm"])

VALLEY = example("valley.toml"), example("valley.result")
FILES = {"VALLEY": VALLEY[0], "RESULT": VALLEY[1], "WEIR": example("weir.toml"), "YEARS": example("valley.ensemble")}
REFUSED, DRAWN = harness.table("pictures", "REFUSED DRAWN")

def drawn(words, *more):
    """What draw answers to words, some of which stand for files."""
    return called("draw", *(FILES.get(word, word) for word in words.split(" ")), *more)

def try_words():
    for words, said in REFUSED:
        tried(f"refused: {said}", drawn(words)[1] == [said], drawn(words))

def try_drawing(room, names):
    for name in names:
        out = os.path.join(room, name + ".svg")
        said = drawn(DRAWN[name], out)
        text = read(out) if os.path.exists(out) else ""
        tried(f"{name} is drawn", said == ("", [], 0) and "<svg" in text and len(text) < 200_000, said)

SVG = "{http://www.w3.org/2000/svg}"
# Names that mean something to dot, in quotes or in markup, or that can't be seen.
ODD = ['a"]; evil [label="b', "a\\", "\\N\\l\\\"", "<b>&amp;</b>", "</TD></TR><SCRIPT>", "a\nb", "graph", "a:n", "{|}",
       "\u202eb", "\x1b[2J\udc80"]

def try_odd_names():
    """That dot draws such names of nodes, links and rights as they are, and draws nothing else for them."""
    chain, date = list(zip(ODD, ODD[1:])), '<"\\'
    tree = {"node": [{"name": name} for name in ODD], "link": [{"name": a, "from": a, "to": b} for a, b in chain],
            "diversion": [{"name": name, "node": name, "date": date, "order": at} for at, name in enumerate(ODD)],
            "instream": [{"name": f"on {a}", "link": a, "date": date, "order": 99} for a, _ in chain]}
    wants, last = dict.fromkeys([*ODD, *(f"on {a}" for a, _ in chain)], 1), ODD[-1]
    month = basin.Month(last, flow={a: 0 for a, _ in chain}, delivered=dict.fromkeys(wants, 0), wanted=wants,
                        sets={last: ODD}, callers={last: ODD[0]}, out={last: 0})
    names, spaces = list(map(common.shown, ODD)), str.maketrans("\xa0", " ")
    for text in network.layouts(tree, month, last):
        drawn = subprocess.run(["dot", "-Tsvg"], input=text.encode(), capture_output=True)
        said = {"node": [], "edge": []}
        for it in xml.etree.ElementTree.fromstring(drawn.stdout).iter():
            if it.get("class") in said:
                said[it.get("class")].append([line.text.translate(spaces) for line in it.iter(f"{SVG}text")])
        nodes = [[name, f'0 {name} <"\\: 1 short'] for name in names[:-1]]
        links = [[name, "0", f'0 for on {name} <"\\: 1 short'] for name in names[:-1]]
        is_right = said == {"node": [*nodes, said["node"][-1]], "edge": links} and said["node"][-1][0] == names[-1]
        tried("names that mean something to dot are drawn as they are", drawn.stderr == b"" and is_right)

def try_odd_plots(room):
    """That plots show a name that means something to matplotlib as it is; others are refused with their basin."""
    texts = [read(name).replace("oldfields", "_x") for name in VALLEY]
    names = [write_text(os.path.join(room, f"odd{at}"), text) for at, text in enumerate(texts)]
    out = os.path.join(room, "odd.svg")
    said = called("draw", "right", *names, "_x", out)
    tried("a plot shows an odd name as it is", said == ("", [], 0) and ">_x, of 1898" in read(out), said)
    write_text(names[0], read(names[0]).replace("_x", "$x$"))
    tried("a name that no basin has is refused", called("draw", "right", *names, "_x", out)[2] == 3)

def sixty():
    """A basin of 60 nodes, with a ditch at every second of them, and a month of it without water."""
    chance, names = random.Random(4), [f"node-{at:02d}" for at in range(60)]
    ditches = [(f"ditch-{at}", names[at], f"{1880 + at}-05-01") for at in range(0, 59, 2)]
    tree: dict[str, Any] = {
        "node": [{"name": name} for name in names],
        "link": [{"name": f"river-{at}", "from": names[at],
                  "to": names[min(59, at + chance.choice((1, 2, 3, 5, 8)))]} for at in range(59)],
        "diversion": [{"name": name, "node": node, "date": date, "want": 900} for name, node, date in ditches]}
    dry = {name: 0 for name, _, _ in ditches}
    return tree, basin.Month("1981-10", flow={link["name"]: 0 for link in tree["link"]}, out={names[-1]: 0},
                             delivered=dry, wanted=dict.fromkeys(dry, 900), sets={"ditch-30": names})

def main(room):
    try_examples()
    try_words()
    if harness.has_module("matplotlib"):
        try_drawing(room, [name for name in DRAWN if name != "network"])
        try_odd_plots(room)
    else:
        wanted = ("", ["matplotlib is needed: apt-get install python3-matplotlib"], 2)
        tried("matplotlib is asked for", called("draw", "shortages", *VALLEY, os.path.join(room, "out.svg")) == wanted)
        not_tried("all but network", "python3-matplotlib")
    if shutil.which("dot"):
        try_drawing(room, ["network"])
        scales = [draw.scale(text.encode()) for text in network.layouts(*sixty(), "ditch-30")]
        tried(f"60 nodes are drawn at {max(scales):.2f} of their size on a landscape page", max(scales) >= READABLE)
        try_odd_names()
    else:
        not_tried("network", "graphviz")
