"""One page on a result, to be shown at a hearing and printed. Its help is docs/help/page.txt."""
import base64
import hashlib
import html
import itertools
import json
import os
import re
import subprocess
import sys
import tempfile

from beside import basin, common, files, network, result

PLOTS = "/usr/share/javascript/dygraphs"
KINDS = ("basin", "series", "result")
LICENCE = "/usr/share/doc/libjs-dygraphs/copyright"
# What a browser may do with the page: run the scripts and show the styles with these sums, and ask for nothing. (The
# library of the plots sets the look of single elements.)
POLICY = ("default-src 'none'; base-uri 'none'; form-action 'none'; script-src {scripts}; "
          "style-src-elem {styles}; style-src-attr 'unsafe-inline'")

def read_text(name):
    try:
        with open(name, encoding="utf-8") as file:
            return file.read()
    except FileNotFoundError:
        raise basin.Failed(2, "dygraphs is needed for plots: apt-get install libjs-dygraphs") from None

class Basin:
    """What the page tells of a basin: nodes, links, lakes and rights by their places, rights seniors first."""

    def __init__(self, tree):
        self.tree = tree
        self.nodes = [it["name"] for it in tree["node"]]
        self.node_at = {name: at for at, name in enumerate(self.nodes)}
        self.links = tree.get("link", [])
        link_at = {it["name"]: at for at, it in enumerate(self.links)}
        self.lakes = [self.node_at[it["node"]] for it in tree.get("reservoir", [])]
        self.rights = list(basin.rights_of(tree).values())
        self.right_at = {it.name: at for at, it in enumerate(self.rights)}
        self.place = [(link_at if it.kind == "instream" else self.node_at)[it.place] for it in self.rights]

    def described(self):
        links = [[it["name"], self.node_at[it["from"]], self.node_at[it["to"]], "per_day" in it] for it in self.links]
        rights = [[it.name, it.kind, self.place[at], it.date] for at, it in enumerate(self.rights)]
        outlets = [at for at, it in enumerate(self.tree["node"]) if it.get("outlet")]
        return {"nodes": self.nodes, "links": links, "rights": rights, "lakes": self.lakes, "outlets": outlets}

def bits(places, count):
    """A set of places as base64 of its bits, the first place lowest in the first byte."""
    number = sum(1 << place for place in places)
    return base64.b64encode(number.to_bytes((count + 7) // 8, "little")).decode()

class Story:
    """What the page tells of the months of a result, in lists by month."""

    def __init__(self, it, series):
        self.it, self.series, self.sets = it, series, {}
        self.lists = {name: [] for name in ("months", "flow", "got", "want", "inflow", "returned", "stored", "lost",
                                            "left", "out", "carry", "cut", "caller", "next", "senior")}

    def add(self, month, calls):
        """Adds a month of a result, with its list of calls; where that is None, without any reason for a shortage."""
        it = self.it
        if calls is None:
            month.sets, month.callers, calls = {}, {}, basin.Calls(month.month)
        row = {
            "months": month.month,
            "flow": [month.flow[link["name"]] for link in it.links],
            "got": [month.delivered[right.name] for right in it.rights],
            "want": [month.wanted[right.name] for right in it.rights],
            "inflow": [basin.inflow(node, month.month, self.series) for node in it.tree["node"]],
            "returned": {it.node_at[name]: amount for name, amount in month.returned.items() if amount},
            "stored": [month.opening[it.nodes[lake]] for lake in it.lakes],
            "lost": [month.evaporated[it.nodes[lake]] for lake in it.lakes],
            "left": [month.closing[it.nodes[lake]] for lake in it.lakes],
            "out": {it.node_at[name]: amount for name, amount in month.out.items()},
            "carry": [basin.carry(link, month.month) for link in it.links if "per_day" in link],
            "cut": {it.right_at[right]: self.number_of(nodes) for right, nodes in month.sets.items()},
            "caller": {it.right_at[right]: it.right_at[caller] for right, caller in month.callers.items()},
            "next": [it.right_at.get(calls.next.get(name), -1) for name in it.nodes],
            "senior": {it.right_at[right]: it.right_at[senior] for right, senior in calls.curtailed.items()},
        }
        for name, value in row.items():
            self.lists[name].append(value)

    def number_of(self, nodes):
        """The number of a set of nodes; sets that are the same are kept once."""
        spelled = bits([self.it.node_at[name] for name in nodes], len(self.it.nodes))
        return self.sets.setdefault(spelled, len(self.sets))

    def told(self):
        return self.it.described() | self.lists | {"sets": list(self.sets)}

def widest(story, name, at):
    """The greatest amount of an entry over the months."""
    return max(row[at] for row in story.lists[name])

def map_text(it, story):
    """The network for Graphviz. Its labels are as wide as the widest that the page will write there, and a bit wider,
    since the page's font is another."""
    def line(right):
        most = max(widest(story, "got", right), widest(story, "want", right))
        return f"{it.rights[right].name} {most:,} of {most:,}"
    at_node, on_link = [[] for _ in it.nodes], [[] for _ in it.links]
    for right, place in enumerate(it.place):
        (on_link if it.rights[right].kind == "instream" else at_node)[place].append(right)
    text = ['digraph basin { bgcolor=transparent; ranksep=0.35; nodesep=0.2;',
            'node [fontname="sans-serif" fontsize=11 margin="0.08,0.04"]; edge [fontname="sans-serif" fontsize=10];']
    for node, name in enumerate(it.nodes):
        shape = "box" if node in it.lakes else "invhouse" if it.tree["node"][node].get("outlet") else "ellipse"
        label = "\\n".join(map(network.quoted, [name, *map(line, at_node[node])]))
        text.append(f'n{node} [id="node{node}" shape={shape} label="{label}"];')
    for link, entry in enumerate(it.links):
        flow = f'{entry["name"]} {widest(story, "flow", link):,}'
        label = "\\n".join(map(network.quoted, [flow, *map(line, on_link[link])])) + "MM"
        style = "dashed" if "per_day" in entry else "solid"
        tail, head = it.node_at[entry["from"]], it.node_at[entry["to"]]
        text.append(f'n{tail} -> n{head} [id="link{link}" style={style} label=" {label} "];')
    order = {"nodes": at_node, "links": on_link}
    return "\n".join([*text, "}"]), order

def drawn(text):
    """The picture that Graphviz makes, as SVG for the inside of a page."""
    try:
        made = subprocess.run(["dot", "-Tsvg", "-Gnslimit=2", "-Gmclimit=0.5"], input=text.encode(), check=True,
                              capture_output=True)
    except FileNotFoundError:
        raise basin.Failed(2, "graphviz is needed for the map: apt-get install graphviz") from None
    svg = made.stdout.decode()
    svg = re.sub(r"<title>.*?</title>\n?|<!--.*?-->\n?", "", svg[svg.index("<svg"):], flags=re.DOTALL)
    return re.sub(r'<svg width="\d+pt" height="\d+pt"', '<svg id="map"', svg, count=1)

def checked(names):
    """What `check` answers, whether it is a yes, and what the program says of itself."""
    try:
        answer, is_good = f"checked {basin.check(*names)}", True
    except basin.Refuted as refuted:
        answer, is_good = refuted.said, False
    told = subprocess.run([basin.PROGRAM, "help"], capture_output=True, text=True).stdout.splitlines()
    return answer, is_good, next((line for line in told if line.startswith("Here: ")), "")

def is_formed(names):
    """Whether a text is of the form of a result of a basin, with all lines that are due. (`check` stops at the first
    fault, so a text that it refutes may go on with anything.)"""
    form = result.Form(files.read_basin(names[0]))
    *lines, rest = common.read_bytes(names[2], None).split(b"\n")
    said = map(form.read, lines)
    return all(it is not None and not form.is_done and form.take(*it) for it in said) and form.is_done and not rest

def head_rows(names, copies):
    """The rows that say which files are shown."""
    for what, name, copy in zip(KINDS, names, copies):
        where = "none"
        if copy != "-":
            digest = hashlib.sha256(common.read_bytes(copy, None)).hexdigest()
            where = f"{html.escape(name)}</td><td><code>{digest}</code>"
        yield f"<tr><th>{what}</th><td>{where}</td></tr>"

def data_text(data):
    """Data for the inside of a script: nothing in it can end that, or begin a comment there."""
    text = json.dumps(data, separators=(",", ":"))
    return re.sub(r"[<>&]", lambda found: f"\\u{ord(found[0]):04x}", text)

def policy(form, parts, tag):
    """The sums of the scripts or styles of the page, for its content security policy."""
    texts = (parts[name] for name in re.findall(rf"<{tag}>\n\{{\{{([A-Z]+)\}}\}}\n</{tag}>", form))
    sums = (hashlib.sha256(f"\n{text}\n".encode()).digest() for text in texts)
    return " ".join(f"'sha256-{base64.b64encode(it).decode()}'" for it in sums)

def page(names, copies, story, answer, is_good, here):
    text, order = map_text(story.it, story)
    said = ("the program accepts this result as a run of this basin with this series" if is_good
            else "THIS RESULT IS REFUTED: what follows is no run of this basin with this series")
    months = story.lists["months"]
    parts = {
        "TITLE": html.escape(f"{'' if is_good else 'REFUTED: '}{names[2]}, {months[0]} to {months[-1]}"),
        "FILES": "\n".join(head_rows(names, copies)),
        "ANSWER": html.escape(answer), "SAID": said, "KIND": "good" if is_good else "bad", "HERE": html.escape(here),
        "MAP": drawn(text),
        "STYLE": read_text(f"{PLOTS}/dygraph.min.css") + read_text(os.path.join(common.HERE, "page.css")),
        "LICENCE": html.escape(read_text(LICENCE)).replace("--", "- -"),
        "LIBRARY": read_text(f"{PLOTS}/dygraph.min.js").replace("</script", "<\\/script"),
        "DATA": data_text(story.told() | {"order": order, "refuted": "" if is_good else answer}),
        "SCRIPT": read_text(os.path.join(common.HERE, "page.js")),
    }
    form = read_text(os.path.join(common.HERE, "page.html"))
    parts["POLICY"] = POLICY.format(scripts=policy(form, parts, "script"), styles=policy(form, parts, "style"))
    return re.sub(r"\{\{([A-Z]+)\}\}", lambda found: parts[found[1]], form)

def copied(names, room):
    """Copies of the names, so that all that the page says is of the same bytes."""
    copies = [os.path.join(room, what) for what in KINDS]
    for name, copy in zip(names, copies):
        if name != "-":
            common.write_text(copy, common.read_bytes(name, None))
    return ["-" if name == "-" else copy for name, copy in zip(names, copies)]

def told(names, is_good):
    """The story of a result, with its list of calls where it isn't refuted."""
    tree = basin.read_basin(names[0])
    story = Story(Basin(tree), basin.read_series(names[1], names[0]))
    calls = basin.calls(*names[:2]) if is_good else itertools.repeat(None)
    for of_month, month in zip(calls, basin.read_result(basin.lines_of(names[2]), tree)):
        story.add(month, of_month)
    return story

def made(names):
    """The page, what `check` answered, and whether that is a yes."""
    with tempfile.TemporaryDirectory() as room:
        copies = copied(names, room)
        answer, is_good, here = checked(copies)
        if not (is_good or is_formed(copies)):
            raise basin.Failed(1, f"{answer}: it is no result of this basin, and makes no page")
        shown = [common.shown(os.path.basename(name)) for name in names]
        return page(shown, copies, told(copies, is_good), answer, is_good, here), answer, is_good

def main(words: list[str]) -> int:
    *names, out = common.options(words, count=4)[1]
    text, answer, is_good = made(names)
    common.write_text(out, text)
    if not is_good:
        print(f"page: {answer}: {out} says so", file=sys.stderr)
    return 0 if is_good else 1
