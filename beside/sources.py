"""The account of a short right with its sources, and a sentence on the others. Its help is docs/help/sources.txt."""
import itertools

from beside import basin, common

NAMES = {"diversion": "a diversion", "instream": "an instream right", "zone": "a storage zone"}

class Sources:
    """Where the water of each node comes from in the last of some months."""

    def __init__(self, tree, series, months):
        self.tree, self.series, self.months, self.month = tree, series, months, months[-1]
        self.nodes = {node["name"]: node for node in tree["node"]}

    def returned(self, row):
        """What a return row brings in the month, and the month in which that was diverted; 0 from before the run."""
        taken_in = len(self.months) - 1 - row["lag"]
        if taken_in < 0:
            return 0, None
        before = sum(month.delivered[row["diversion"]] for month in self.months[:taken_in])
        after = before + self.months[taken_in].delivered[row["diversion"]]
        return row["part"] * after // 10_000 - row["part"] * before // 10_000, self.months[taken_in].month

    def of(self, node):
        """Each amount that is supplied at a node, with the words that tell what it is."""
        now = self.month
        yield basin.inflow(self.nodes[node], now.month, self.series), f"{node}: flowed in"
        if node in now.opening:
            opening, lost = now.opening[node], now.evaporated[node]
            yield opening - lost, f"{node}: held {opening} when the month began, less {lost} that evaporated"
        for row in self.tree.get("return", []):
            if row["node"] == node:
                amount, month = self.returned(row)
                part = f"{row['part'] / 100:g} % of what {row['diversion']} took in {month}"
                yield amount, f"{node}: came back, {part}"

def lines_of_account(account, sources, rights):
    """The lines of an account, each an amount and what it is."""
    for node, amount in account.supplies.items():
        found = [it for it in sources.of(node) if it[0]]
        if sum(part for part, _ in found) != amount:
            raise basin.OtherBasin(f"the sources of {node} don't add up to {amount}: was BASIN or SERIES changed?")
        yield from found
    for link, amount in account.enters.items():
        yield amount, f"{link}: the most that it can carry into your reach"
    for link, (amount, holder) in account.kept.items():
        yield -amount, f"{link}: must flow out of your reach for {holder}, of {rights[holder].date}"
    for name, amount in account.taken.items():
        word = "kept in the lake" if rights[name].kind == "zone" else "taken within your reach"
        yield -amount, f"{name}, of {rights[name].date}: {word}"

class Others:
    """What each other right means for the holder of one."""

    def __init__(self, tree, rights, month, right):
        self.rights, self.month, self.own = rights, month, rights[right]
        self.ranks, self.reach = {name: rank for rank, name in enumerate(rights)}, set(month.sets[right])
        self.links = {link["name"]: (link["from"], link["to"]) for link in tree.get("link", [])}

    def sentence(self, name):
        it, got = self.rights[name], self.month.delivered[name]
        if not self.month.wanted[name]:
            return "wanted nothing in this month."
        tail, head = self.links[it.place] if it.kind == "instream" else (it.place, it.place)
        if tail not in self.reach and head not in self.reach:
            return "outside of your reach: its water cannot help you."
        is_senior = self.ranks[name] < self.ranks[self.own.name]
        return (self.instream(it, got, is_senior) if it.kind == "instream" else
                self.senior(got) if is_senior else "junior to you, within your reach: it takes nothing there.")

    def senior(self, got):
        if got:
            return f"senior to you, within your reach: the {got} that it takes are counted above."
        return "senior to you, within your reach, but it got nothing itself."

    def instream(self, it, got, is_senior):
        tail, head = self.links[it.place]
        if tail not in self.reach:
            return f"on {it.place}, which is counted above with all that it can carry: this right lessens nothing."
        if it.place == self.own.place and self.own.kind == "instream":
            return "on your own link: the same water serves both of you."
        if head in self.reach:
            return f"on {it.place}, within your reach: what flows there stays in it, so nothing is kept from you."
        if is_senior:
            return f"senior to you: {got} must flow out of your reach on {it.place}, as counted above."
        return f"junior to you: nothing is kept for it on {it.place} that isn't kept for your seniors."

def tell(account, sources, rights, names):
    it = rights[account.right]
    print(f"{it.name}, {NAMES[it.kind]} of {it.date} at {it.place}, got {account.delivered} of the {account.wanted}"
          f" that it wanted in {account.month}.")
    print(f"Your reach: {', '.join(sources.month.sets[it.name])}.\n")
    lines = list(lines_of_account(account, sources, rights))
    width = max(len(str(amount)) for amount, _ in [*lines, (account.total, "")])
    for amount, what in lines:
        print(f"{amount:{width}}  {what}")
    print("-" * width, f"{account.total:{width}}  is left, and that is what you got", "", sep="\n")
    others = Others(sources.tree, rights, sources.month, it.name)
    for name in names:
        print(f"{name}, of {rights[name].date}: {others.sentence(name)}")

def main(words: list[str]) -> int:
    name, series, month, right, *others = common.options(words, count=range(4, 2005))[1]
    tree = basin.read_basin(name)
    rights = basin.rights_of(tree)
    for other in (right, *others):
        if other not in rights:
            raise basin.OtherBasin(f"no right of the basin is named {other}{common.meant(other, rights)}")
    account = basin.why(name, series, month, right)
    if account is None:
        print(f"{right} lacked nothing in {month}.")
        return 1
    months = list(itertools.takewhile(lambda it: it.month <= month, basin.run(name, series)))
    sources = Sources(tree, basin.read_series(series, name), months)
    tell(account, sources, rights, others or [other for other in rights if other != right])
    return 0
