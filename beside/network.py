"""network: the picture of a basin in one month, as a text for graphviz's dot.

Every node adds up for the eye: in its box stand what flows in from outside, what returns and what its reservoir held,
with a plus, and what evaporates, is taken, is held after the month and leaves the basin, with a minus; the rest comes
and goes on the links. What flows in at a gauge stands in no basin file: it is what the node needs to add up.
"""
import html

from beside import basin, model
from beside.common import shown

# Dark and light of one hue, which print as dark grey and light grey.
CORE, REACH, PLAIN = ("#9c2f22", "white"), ("#f3cdc7", "black"), ("white", "black")
EDGE, DRY, HELPS = "#2b6c99", "#7f8c8d", "#9c2f22"
PAGE = (11.2, 7.8)                  # inches of a landscape page of A4, without its margins
FEW, MANY = 25, 200                 # nodes of a basin that has room for all names, and of one that is laid out once
MINUS, HERE = "\u2212", "\u25b6"

def quoted(text):
    """A text as it stands between quotes in dot, which knows entities there."""
    return shown(text).replace("\\", "\\\\").replace('"', '\\"').replace("&", "&amp;")

def marked(text):
    """A text as it stands in a label that dot reads as marked up, where a backslash has a meaning too."""
    return html.escape(shown(text)).replace("\\", "\\\\")

class View:
    """A month of a result on its basin, as one right sees it; no right where the name is -."""

    def __init__(self, tree, month, right):
        self.tree, self.now, self.rights = tree, month, basin.rights_of(tree)
        self.ranks = {name: rank for rank, name in enumerate(self.rights)}
        self.links = {link["name"]: link for link in tree.get("link", [])}
        self.nodes = {node["name"]: node for node in tree["node"]}
        self.is_large = len(self.nodes) > FEW
        self.gauged = {name for name, node in self.nodes.items() if node.get("inflow") == "gauged"}
        self.asked, self.right = right, self.rights[right] if right in month.sets else None
        self.core = self.way = self.reach = frozenset()
        if self.right:
            self.reach = set(month.sets[right])
            self.core = leads_to(self.place(), self.steps())
            open_links = ((it["from"], it["to"]) for it in self.links.values() if self.carry(it) != 0)
            self.way = leads_to(self.place(), open_links)

    def place(self):
        """Where the right takes, or the tail of its link."""
        return self.links[self.right.place]["from"] if self.right.kind == "instream" else self.right.place

    def carry(self, link):
        return basin.carry(link, self.now.month)

    def kept_on(self, link):
        """What is kept on a link for instream rights that are senior to the right."""
        rank = self.ranks[self.right.name]
        return max((self.now.delivered[name] for name, it in self.rights.items()
                    if it.kind == "instream" and it.place == link and self.ranks[name] < rank), default=0)

    def steps(self):
        """Each step by which water can be moved while the seniors of the right are served as they are."""
        for name, link in self.links.items():
            flow, carry = self.now.flow[name], self.carry(link)
            if carry is None or flow < carry:
                yield link["from"], link["to"]
            if flow > self.kept_on(name) and not (self.right.kind == "instream" and self.right.place == name):
                yield link["to"], link["from"]

    def helps(self, link):
        """Whether one more unit of carry on a link would help the right."""
        return link["from"] not in self.reach and link["to"] in self.core

    def colours(self, node):
        return CORE if node in self.core else REACH if node in self.reach & self.way else PLAIN

    def parts(self, node):
        """Each amount that comes to a node or goes from it beside its links, with what it is, and the right that takes
        it."""
        now = self.now
        if node not in self.gauged:
            yield basin.monthly(self.nodes[node].get("inflow", 0), now.month), "flows in", None
        yield now.returned.get(node, 0), "returns", None
        if node in now.opening:
            yield now.opening[node], "held before", None
            yield -now.evaporated[node], "evaporates", None
        for name in self.takers(node):
            yield -now.delivered[name], self.told(name), name
        if node in now.out:
            yield -now.out[node], "leaves the basin", None

    def takers(self, node):
        return [name for name, it in self.rights.items() if it.kind != "instream" and it.place == node]

    def holders(self, link):
        return [name for name, it in self.rights.items() if it.kind == "instream" and it.place == link]

    def told(self, name):
        """A right with its year, and how it fared: in words, so that no colour is needed."""
        want, got = self.now.wanted[name], self.now.delivered[name]
        fared = "wants nothing" if not want else "met" if got == want else f"{want - got} short"
        mark = f"{HERE} " if self.right and name == self.right.name else ""
        return f"{mark}{shown(name)} {shown(self.rights[name].date[:4])}: {fared}"

    def kept(self, link):
        """The instream rights on a link, with what they are delivered."""
        return [f"{self.now.delivered[it]} for {self.told(it)}" for it in self.holders(link)]

    def rows(self, node):
        """The lines of a node's box: its parts, but for those of 0 that are no right's; below a right with a `called`
        line, after a line feed, in whose set it is; and in a large basin the instream rights of the links that leave
        it."""
        for amount, what, name in self.balanced(node):
            caller = f"\n    in the set of {shown(self.now.callers[name])}" if name in self.now.callers else ""
            if amount or name:
                yield (f"{amount:+} {what}".replace("-", MINUS, 1) if amount else f"0 {what}") + caller
        for name, link in self.links.items():
            if self.is_large and link["from"] == node:
                yield from (f"on {shown(name)} {text}" for text in self.kept(name))

    def balanced(self, node):
        """The parts of a node. What is lacking or left over is one of them, where the node doesn't add up."""
        parts = list(self.parts(node))
        rest = sum(amount for amount, _, _ in parts)
        for name, link in self.links.items():
            rest += self.now.flow[name] * ((link["to"] == node) - (link["from"] == node))
        if node in self.gauged:
            parts.insert(0, (-rest, "flows in (gauge)", None))
        elif rest:
            parts.append((rest, "are left over: this doesn't add up", None))
        return parts

def leads_to(node, steps):
    """All nodes from which steps lead to a node, itself among them."""
    return model.spread([node], ((head, tail) for tail, head in steps))

def box(view, node, across):
    """A node as dot has it, with so many of its lines side by side: a reservoir stands in a double line, and an outlet
    in a dashed one."""
    fill, ink = view.colours(node)
    lines = list(view.rows(node))
    lines = "\n".join(lines).split("\n") if across == 1 else [line.replace("\n   ", ",") for line in lines]
    lines = list(map(marked, lines))
    rows = ["&#160;&#160; ".join(lines[at:at + across]) for at in range(0, len(lines), across)]
    rows = "".join(f'<TR><TD ALIGN="LEFT">{row}</TD></TR>' for row in rows)
    style = "filled,dashed" if node in view.now.out else "filled,rounded"
    edges = 2 if node in view.now.opening else 1
    table = f'<TABLE BORDER="0" CELLSPACING="0" CELLPADDING="1"><TR><TD><B>{marked(node)}</B></TD></TR>{rows}</TABLE>'
    return (f'"{quoted(node)}" [label=<{table}> style="{style}" fillcolor="{fill}" fontcolor="{ink}" '
            f'peripheries={edges}];')

def arrow(view, link, most):
    """A link as dot has it: a river is a full line, a canal dashed, with what it can carry, and a shut one dotted. In a
    large basin it has one line of text, which takes no room of its own, and a river there has its flow alone."""
    name, flow, carry = link["name"], view.now.flow[link["name"]], view.carry(link)
    amount = str(flow) if carry is None else "shut" if carry == 0 else f"{flow} of {carry}"
    style = "solid" if carry is None else "dotted" if carry == 0 else "dashed"
    told = "\\n".join(map(quoted, [name, amount, *view.kept(name)]))
    short = amount if carry is None else quoted(f"{name} {amount}")
    label = f'xlabel="{short}"' if view.is_large else f'label="{told}"'
    colour = HELPS if view.right and view.helps(link) else EDGE if flow else DRY
    head = "tee" if carry == 0 else "normal"
    return (f'"{quoted(link["from"])}" -> "{quoted(link["to"])}" [{label} style={style} arrowhead={head} '
            f'penwidth={0.7 + 4 * flow / most:.2f} color="{colour}"];')

def title(view):
    now, right = view.now, view.right
    if right is None:
        return f"{now.month}: {view.asked} lacks nothing" if view.asked != "-" else now.month
    lack = now.wanted[right.name] - now.delivered[right.name]
    return f"{now.month}: why {right.name}, of {right.date}, is {lack} short of {now.wanted[right.name]}"

def legend(view):
    """What the boxes and lines mean, as a table of two columns."""
    cells = [(*PLAIN, f"+ comes in, {MINUS} goes out: with its links each box adds up to 0"),
             (*PLAIN, "full line: river; dashed: canal, its flow of what it can carry; dotted: shut canal"),
             (*PLAIN, "double line: reservoir; dashed box: outlet"),
             (*PLAIN, "1898: the year of a right; seniors are older")]
    if view.right:
        cells = [(*CORE, f"dark, the core: one more unit here would help {view.right.name}"),
                 (*REACH, "light, the rest of its reach: nothing is left over, and more here can't help"),
                 (*PLAIN, "white: more here can't help it"),
                 (*PLAIN, "a dark red line: more carry would help")] + cells
    told = [f'<TD ALIGN="LEFT" BGCOLOR="{fill}"><FONT COLOR="{ink}">{marked(text)}</FONT></TD>'
            for fill, ink, text in cells]
    rows = "".join(f"<TR>{left}{right}</TR>" for left, right in zip(told[::2], told[1::2]))
    return f'<TABLE BORDER="0" CELLBORDER="1" CELLSPACING="0" COLOR="#bbbbbb">{rows}</TABLE>'

def dot(view, direction, across):
    """The whole picture. Rivers run to the right or down, and so many lines of a box stand side by side."""
    most = max(view.now.flow.values(), default=0) or 1
    return "\n".join([
        "digraph basin {",
        f'  rankdir={direction}; bgcolor=white; ranksep=0.2; nodesep=0.1; size="{PAGE[0]},{PAGE[1]}"; fontsize=10;',
        '  fontname="sans-serif"; edge [fontname="sans-serif" fontsize=9 arrowsize=0.7];',
        '  node [shape=box fontname="sans-serif" fontsize=10 margin="0.05,0.03" color="#2b6c99"];',
        f"  label=<{legend(view)}>; labelloc=b;",
        f'  subgraph cluster_basin {{ label="{quoted(title(view))}"; labelloc=t; fontsize=13; color=white;',
        *(f"  {box(view, node, across)}" for node in view.nodes),
        *(f"  {arrow(view, link, most)}" for link in view.links.values()),
        "}}"])

def layouts(tree, month, right):
    """The picture in each of the ways that are tried, of which the one is drawn that fits a page best."""
    view = View(tree, month, right)
    ways = [("LR", 1), ("TB", 1), ("TB", 2), ("TB", 3)] if len(view.nodes) <= MANY else [("TB", 2)]
    return [dot(view, *way) for way in ways]
