"""A checker of results that explains, pictures and weights stand on: which lines may come, and what each has to say."""
import re
from collections.abc import Iterator
from typing import Any

from beside import files
from beside.common import BadText
from beside.model import RIVER, Basin, area_at, monthly, read_month

# The words of lines, and the kinds of their fields. A reservoir is named by its node.
WORDS = {
    "river-result": ("title",), "run": ("month", "count"), "month": ("month",), "open": ("reservoir", "amount"),
    "evap": ("reservoir", "amount"), "return": ("node", "amount"), "used": ("right", "amount"),
    "flow": ("link", "amount"), "deliver": ("right", "amount", "amount"), "out": ("node", "amount"), "call": ("right",),
    "in": ("node",), "called": ("right", "right"), "close": ("reservoir", "amount"), "end": (), "done": ("count",),
}
NUMBERS = {"amount": (0, RIVER), "count": (1, 1200), "title": (1, 1)}
Said = tuple[str, list[Any]]

class Refuted(BadText):
    """A result is refuted: the line at fault, and its kind."""

    def __init__(self, line: int, kind: str) -> None:
        super().__init__(f"refuted {line} {kind}")
        self.line, self.kind = line, kind

class Form:
    """Which lines may come: the lines that are due in each month, and the place among them."""

    def __init__(self, basin: Basin) -> None:
        b = self.basin = basin
        self.spaces = {"reservoir": b.reservoir_at, "node": b.node_at, "link": b.link_at, "right": b.right_at}
        lakes = range(len(b.reservoirs))
        rows: list[tuple[str, Any, bool]] = [
            ("open", lakes, False), ("evap", lakes, False), ("return", sorted({row[1] for row in b.returns}), False),
            ("used", [right for right in b.order if b.rights[right].volume is not None], False),
            ("flow", range(len(b.links)), False), ("deliver", b.order, False),
            ("out", [node for node, is_outlet in enumerate(b.outlet) if is_outlet], False), ("call", b.order, True),
            ("called", b.takers, True), ("close", lakes, False), ("end", [None], False)]
        # word, entry, and whether the line may be left out
        self.due = [(word, entry, may_lack) for word, entries, may_lack in rows for entry in entries]
        # the head's lines that are still due, the months begun, the place among the month's lines, and after a call the
        # next node and whether one must come
        self.head, self.begun, self.place = ["river-result", "run"], 0, len(self.due)
        self.must = self.is_done = False
        self.next_node: int | None = None

    def read(self, line: bytes) -> Said | None:
        """What a line says: its word and its fields, or None where it isn't of the form of a result."""
        word, *fields = line.decode("latin-1").split(" ")
        kinds = WORDS.get(word)
        if len(line) > 128 or kinds is None or len(fields) != len(kinds):
            return None
        said = [self.field(kind, field) for kind, field in zip(kinds, fields)]
        return None if None in said else (word, said)

    def field(self, kind: str, field: str) -> int | None:
        """What a field says, or None."""
        if kind in NUMBERS:
            least, most = NUMBERS[kind]
            return int(field) if re.fullmatch("0|[1-9][0-9]{0,18}", field) and least <= int(field) <= most else None
        return read_month(field) if kind == "month" else self.spaces[kind].get(field)

    def take(self, word: str, said: list[Any]) -> bool:
        """Moves on after a line, and tells whether it may come."""
        if word == "in":
            if self.next_node is None or said[0] < self.next_node:
                return False
            self.next_node, self.must = said[0] + 1, False
            return True
        is_next = not self.must and self.move(word, said)
        self.next_node, self.must = (0, True) if word == "call" else (None, False)
        return is_next

    def move(self, word: str, said: list[Any]) -> bool:
        """The same of a line that is no `in` line."""
        if self.head:
            return word == self.head.pop(0)
        if word == "called" and self.basin.rank[said[1]] >= self.basin.rank[said[0]]:
            return False
        for place in range(self.place, len(self.due)):
            due, entry, may_lack = self.due[place]
            if due == word and (entry is None or entry == said[0]):
                self.place = place + 1
                return True
            if not may_lack:
                return False
        if word == "month" and self.begun < self.basin.months and said[0] == self.basin.first + self.begun:
            self.begun, self.place = self.begun + 1, 0
            return True
        self.is_done = word == "done" and self.begun == self.basin.months == said[0]
        return self.is_done

class Checker:
    """What the lines so far tell: the deliveries of the months that ended, what they left in reservoirs, and the month
    under way."""

    def __init__(self, basin: Basin, series: files.Amounts) -> None:
        self.basin, self.series, self.form = basin, series, Form(basin)
        self.read, self.call_line, self.called = 0, 0, 0
        self.calling: int | None = None
        self.month = 0
        self.got: dict[int, int] = {}
        self.want: dict[int, int] = {}
        self.cuts: dict[int, set[int]] = {}
        self.returned: list[int] = []
        self.due: list[tuple[int, int]] | None = None
        self.delivered: list[dict[int, int]] = []
        self.closed = [it["opening"] for it in basin.reservoirs]
        self.last_outlet = max((node for node, is_outlet in enumerate(basin.outlet) if is_outlet), default=0)
        self.holders: dict[int, list[int]] = {}     # the instream rights on each link
        for right, it in enumerate(basin.rights):
            if it.link is not None:
                self.holders.setdefault(it.link, []).append(right)

    def line(self, text: bytes) -> None:
        """Takes one line without its line feed."""
        if self.form.is_done:
            raise Refuted(self.read + 1, "AfterEnd")
        said = self.form.read(text)
        if said is None or not self.form.take(*said):
            raise Refuted(self.read + 1, "BadLine")
        kind = self.call_fault(*said) or self.amount_fault(*said)
        if kind:
            raise Refuted(self.call_line if kind == "CutLoose" else self.read + 1, kind)
        self.read += 1
        self.tell(*said)

    def call_fault(self, word: str, said: list[Any]) -> str | None:
        b, behind_calls = self.basin, word in ("called", "close", "end")
        if self.calling is not None and word != "in" and not self.is_tight(self.calling, self.cuts[self.calling]):
            return "CutLoose"
        passed = b.order if behind_calls else b.order[:b.rank[said[0]]] if word == "call" else []
        if any(self.got[right] < self.want[right] and right not in self.cuts for right in passed):
            return "CutMissing"
        if word == "call" and self.got[said[0]] >= self.want[said[0]]:
            return "CutNeedless"
        due = self.callers_due()[self.called:] if behind_calls else []
        is_odd = due[:1] != [tuple(said)] if word == "called" else bool(due)
        return "Called" if is_odd else None

    def amount_fault(self, word: str, said: list[Any]) -> str | None:
        """What an amount is refuted for, by the test of its word, or None."""
        kind, is_right = {
            "run": ("Head", lambda: said == [self.basin.first, self.basin.months]),
            "open": ("Opening", lambda: said[1] == self.closed[said[0]]),
            "evap": ("Evaporation", lambda: said[1] == self.evaporation(said[0])),
            "return": ("Return", lambda: said[1] == self.returned[said[0]]),
            "used": ("Used", lambda: said[1] == self.used(said[0])),
            "flow": ("Flow", lambda: said[1] <= self.basin.carry(said[0], self.month)),
            "deliver": ("Delivery", lambda: self.is_delivery(*said)),
            "out": ("Balance", lambda: said[0] != self.last_outlet or self.is_balanced(said[1])),
            "close": ("Closing", lambda: said[1] == self.kept_in(said[0])),
        }.get(word, (None, lambda: True))
        return None if is_right() else kind

    def tell(self, word: str, said: list[Any]) -> None:
        """Keeps what a good line tells."""
        if word == "in":
            self.cuts[self.calling or 0].add(said[0])
            return
        self.calling = None
        if word == "month":
            self.month, self.called, self.due = said[0], 0, None
            self.told: dict[str, dict[Any, int]] = {word: {} for word in ("open", "evap", "flow", "out")}
            self.opened, self.evaporated, self.flow, self.out = self.told.values()
            self.got, self.want, self.cuts, self.returned = {}, {}, {}, self.arrivals()
        elif word in ("open", "evap", "flow", "out"):
            self.told[word][said[0]] = said[1]
        elif word == "deliver":
            self.got[said[0]], self.want[said[0]] = said[1:]
        elif word == "call":
            self.calling, self.call_line, self.cuts[said[0]] = said[0], self.read, set()
        elif word == "called":
            self.called += 1
        elif word == "end":
            self.closed = [self.kept_in(reservoir) for reservoir in range(len(self.basin.reservoirs))]
            self.delivered.append(self.got)
            self.month_ends()

    def month_ends(self) -> None:
        """What is done after a good month: nothing in a check."""

    def evaporation(self, at: int) -> int:
        it, storage = self.basin.reservoirs[at], self.opened[at]
        return min(storage, it["rate"][self.month % 12] * area_at(it["area"], storage) // 100)

    def delivered_before(self, right: int, lag: int) -> tuple[int, int]:
        """What a right was delivered up to the month so many months ago, and before that month."""
        now = len(self.delivered)
        before = sum(month[right] for month in self.delivered[:max(0, now - lag)])
        return before + (self.delivered[now - lag][right] if now >= lag else 0), before

    def arrivals(self) -> list[int]:
        """What comes back to each node: of each row the whole part of all deliveries up to its lag, less that of a
        month before."""
        back = [0] * len(self.basin.nodes)
        for right, node, part, lag in self.basin.returns:
            total, before = self.delivered_before(right, lag)
            back[node] += part * total // 10_000 - part * before // 10_000
        return back

    def of_water_year(self) -> list[tuple[int, dict[int, int]]]:
        """The earlier months of the run that lie in the water year of the month under way, each with its deliveries."""
        since = (self.month % 12 + 1 - self.basin.year_start) % 12
        return list(enumerate(self.delivered))[max(0, len(self.delivered) - since):]

    def used(self, right: int) -> int:
        return sum(month[right] for _, month in self.of_water_year())

    def inflow(self, node: int) -> int:
        inflow = self.basin.inflow[node]
        is_gauged, place = inflow == "gauged", self.month % 12
        return self.series[len(self.delivered), "inflow", node] if is_gauged else monthly(inflow)[place]

    def supplies(self) -> list[int]:
        supply = [self.inflow(node) + back for node, back in enumerate(self.returned)]
        for at, reservoir in enumerate(self.basin.reservoirs):
            supply[reservoir["node"]] += self.opened[at] - self.evaporated[at]
        return supply

    def wanted(self, right: int) -> int:
        """What a right wants by its file."""
        want = self.basin.rights[right].want
        return self.series[len(self.delivered), "want", right] if want is None else want[self.month % 12]

    def is_delivery(self, right: int, amount: int, want: int) -> bool:
        it, number = self.basin.rights[right], self.wanted(right)
        if it.link is None:
            left = RIVER if it.volume is None else it.volume - self.used(right)
            return want == min(number, left) and amount <= want
        return want == min(number, self.basin.carry(it.link, self.month)) and amount == min(want, self.flow[it.link])

    def is_balanced(self, last_out: int) -> bool:
        """Whether at each node what comes in goes out, with this amount at the last outlet."""
        self.supply = self.supplies()
        rest = list(self.supply)
        for at, (_, tail, head, _) in enumerate(self.basin.links):
            rest[head] += self.flow[at]
            rest[tail] -= self.flow[at]
        for right in self.basin.takers:
            rest[self.basin.rights[right].node] -= self.got[right]
        for node, amount in (self.out | {self.last_outlet: last_out}).items():
            rest[node] -= amount
        return not any(rest)

    def kept_in(self, reservoir: int) -> int:
        return sum(self.got[right] for right in self.basin.takers if self.basin.rights[right].reservoir == reservoir)

    def kept_on(self, link: int, right: int) -> int:
        """The greatest delivery of a right's seniors among the instream rights on a link."""
        rank = self.basin.rank
        return max((self.got[it] for it in self.holders.get(link, ()) if rank[it] < rank[right]), default=0)

    def cut_terms(self, right: int, cut: set[int]) -> Iterator[tuple[str, int]]:
        """What can come into a set of nodes, less what is kept there for seniors of a right, term by term."""
        b, it = self.basin, self.basin.rights[right]
        yield from ((f"supply {b.nodes[node]}", self.supply[node]) for node in sorted(cut))
        for at, (name, tail, head, _) in enumerate(b.links):
            if head in cut and tail not in cut:
                yield f"enter {name}", b.carry(at, self.month)
            elif tail in cut and head not in cut and at != it.link:
                yield f"keep {name}", -self.kept_on(at, right)
        yield from ((f"take {b.rights[taker].name}", -self.got[taker]) for taker in b.takers
                    if b.rank[taker] < b.rank[right] and b.rights[taker].node in cut)

    def is_tight(self, right: int, cut: set[int]) -> bool:
        """Whether a set of nodes is a cut of a right, and what can come into it is what the right got."""
        b, it = self.basin, self.basin.rights[right]
        is_cut = it.node in cut if it.link is None else b.links[it.link][1] in cut and b.links[it.link][2] not in cut
        return is_cut and sum(amount for _, amount in self.cut_terms(right, cut)) == self.got[right]

    def callers_due(self) -> list[tuple[int, int]]:
        """Each diversion and zone that answers to a call, seniors first, with its caller."""
        if self.due is None:
            b, self.due = self.basin, []
            calls = [right for right in b.order if right in self.cuts and self.got[right] < self.want[right]]
            for right in b.takers:
                caller = next((it for it in calls if b.rank[it] < b.rank[right] and b.rights[right].node in
                               self.cuts[it]), None)
                if caller is not None and self.want[right] > 0:
                    self.due.append((right, caller))
        return self.due

def check(checker: Checker, data: bytes) -> int:
    """The number of months, or why the text is refuted."""
    *lines, rest = data.split(b"\n")
    for line in lines + ([rest] if len(rest) > 128 else []):
        checker.line(line)
    if not checker.form.is_done:
        raise Refuted(checker.read + 1, "EarlyEnd")
    if rest:
        raise Refuted(checker.read + 1, "AfterEnd")
    return checker.basin.months
