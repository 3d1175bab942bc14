"""What `check` answers of a result, and after it why: month, node or right, what has to stand and what stands.

Its help is docs/help/explain.txt.
"""
import calendar

from beside import common, files, result
from beside.common import month_text
from beside.model import area_at, days_in

ROOM = 28                           # the width of what a term of a sum is

def term(what, amount):
    return f"  {what:<{ROOM}} {amount:>14,}"

class Explainer(result.Checker):
    """A checker that keeps the line at fault, and tells why it is refuted."""

    def __init__(self, basin, series):
        super().__init__(basin, series)
        self.text, self.said, self.lines, self.before = b"", None, {}, None

    def line(self, text):
        # (the form moves on at a bad line, too)
        self.text, form = text, self.form
        self.before = form.head[:1], form.place, form.next_node, form.must
        super().line(text)

    def call_fault(self, word, said):
        self.said = (word, said)
        return super().call_fault(word, said)

    def tell(self, word, said):
        """Keeps the line of each amount of the month, to point at."""
        if word == "month":
            self.lines = {}
        if said:
            self.lines[word, said[0]] = self.read
        super().tell(word, said)

    def why(self, line, kind):
        """The lines that explain a refusal."""
        stands, is_within = self.text.decode("latin-1")[:120], self.month != 0 and self.form.place < len(self.form.due)
        head = [f"in {month_text(self.month)}"] if is_within else []
        if kind == "AfterEnd":
            return ["something follows the line done, which is the last"]
        if kind == "EarlyEnd":
            self.before = self.form.head[:1], self.form.place, self.form.next_node, self.form.must
            return ["the text ends before its last line, done, and the line feed after it", *head, *self.may_come()]
        if kind == "CutLoose":
            return head + self.loose(self.calling)
        head.append(f"stands: {stands or '(an empty line)'}")
        if kind == "BadLine":
            return head + self.bad_line()
        return head + getattr(self, "of_" + kind.lower())(*self.said[1])

    # --- the form ---
    def bad_line(self):
        read = self.form.read(self.text)
        if read is not None:
            return ["the line is of the form of a result, and may not come here", *self.may_come()]
        word, *fields = self.text.decode("latin-1").split(" ")
        kinds = result.WORDS.get(word)
        if len(self.text) > 128:
            return [f"the line has {len(self.text)} bytes: 128 is the most", *self.may_come()]
        if kinds is None:
            return [f"{word or 'nothing'} begins no line of a result", *self.may_come()]
        if len(fields) != len(kinds):
            return [f"after {word} come {len(fields)} words or blanks, and {len(kinds)} have to: {word} "
                f"{' '.join(kinds).upper()}"]
        at = next(at for at, (kind, field) in enumerate(zip(kinds, fields)) if self.form.field(kind, field) is None)
        what = {"amount": "an amount: digits without a sign or zeros in front, at most 10^15",
            "count": "a number of months, 1 to 1,200", "title": "the format, 1",
                "month": "a month from 1800-01 to 2999-12"}.get(kinds[at], f"a {kinds[at]} of the basin")
        return [f"{fields[at] or '(nothing)'} is not {what}"]

    def may_come(self):
        """What may come at the line at fault."""
        (head, place, next_node, must), form = self.before, self.form
        if head:
            return ["may come: " + {"river-result": "river-result 1",
                "run": f"run {month_text(self.basin.first)} {self.basin.months}"}[head[0]]]
        names = {"open": "reservoir", "evap": "reservoir", "close": "reservoir", "return": "node", "out": "node",
            "flow": "link"}
        of = {"reservoir": list(self.basin.reservoir_at), "node": self.basin.nodes,
            "link": [link[0] for link in self.basin.links]}
        may = [f"in {name}" for name in self.basin.nodes[next_node:][:3]] if next_node is not None else []
        for word, entry, is_optional in form.due[place:] if not must else ():
            if word == "called":
                may += [] if "called RIGHT SENIOR" in may else ["called RIGHT SENIOR"]
                continue
            name = "" if entry is None else " " + (of[names[word]][entry] if word in names
                else self.basin.rights[entry].name)
            may.append(word + name + (" .." if word not in ("end", "call") else ""))
            if not is_optional:
                break
        else:
            if not must:
                may.append(f"month {month_text(self.basin.first + form.begun)}" if form.begun < self.basin.months
                    else f"done {self.basin.months}")
        return [f"may come: {', or '.join(may[:2] + may[-2:] if len(may) > 4 else may)}"]

    # --- single amounts ---
    def due_line(self, amount):
        return f"has to stand: {self.text.decode('latin-1').rsplit(' ', 1)[0]} {amount}"

    def of_head(self, *_):
        return [f"has to stand: run {month_text(self.basin.first)} {self.basin.months}, as the basin file says"]

    def of_opening(self, at, _):
        before = "the opening of the basin file" if not self.delivered else "what the month before closed with"
        return [self.due_line(self.closed[at]), f"that is {before}"]

    def of_evaporation(self, at, _):
        reservoir, storage = self.basin.reservoirs[at], self.opened[at]
        rate, area = reservoir["rate"][self.month % 12], area_at(reservoir["area"], storage)
        return [self.due_line(self.evaporation(at)),
            f"the storage {storage:,} has an area of {area:,} by the table of areas",
                f"{rate:,} millimetres x {area:,} / 100 = {rate * area // 100:,}"
                + (f", and no more than the {storage:,} that are there" if rate * area // 100 > storage else "")]

    def of_return(self, node, _):
        lines, now = [self.due_line(self.returned[node])], len(self.delivered)
        for right, at, part, lag in self.basin.returns:
            if at != node:
                continue
            total, before = self.delivered_before(right, lag)
            name = self.basin.rights[right].name
            since = f"up to {month_text(self.month - lag)}" if now >= lag else f"before {month_text(self.basin.first)}"
            lines.append(term(f"of {name}", part * total // 10_000 - part * before // 10_000)
                         + f"   {part:,} parts of 10,000, {lag} months later: {name} was delivered {total:,} {since}, "
                         f"of which {before:,} before that month")
        return lines

    def of_used(self, right, _):
        lines = [self.due_line(self.used(right)),
            f"the water year began with {calendar.month_name[self.basin.year_start]}; delivered since then:"]
        return lines + [term(month_text(self.basin.first + index), month[right]) for index, month in
                        self.of_water_year()]

    def of_flow(self, link, amount):
        _, _, _, per_day = self.basin.links[link]
        carry = self.basin.carry(link, self.month)
        why = "the canal is shut in this month" if self.month % 12 + 1 in self.basin.closed[
            link] else f"{per_day or 0:,} a day x {days_in(self.month)} days = {carry:,}"
        return [f"the most that can stand is {carry:,}: {why}", f"that is {amount - carry:,} too much"]

    def of_delivery(self, right, amount, want):
        it, name = self.basin.rights[right], self.basin.rights[right].name
        number = self.wanted(right)
        lines = [f"{name} wants {number:,} in this month, by the {'series' if it.want is None else 'basin file'}"]
        if it.link is None:
            due = number if it.volume is None else min(number, it.volume - self.used(right))
            if it.volume is not None:
                lines.append(
                    f"of its volume of {it.volume:,} it used {self.used(right):,} in the water year: "
                    f"{it.volume - self.used(right):,} are left")
            if want != due:
                lines.append(f"the want has to be {due:,}, and {want:,} stands")
            return lines + ([f"it can't be delivered more than its want of {due:,}"] if amount > due else [])
        due, link = min(number, self.basin.carry(it.link, self.month)), self.basin.links[it.link][0]
        if due < number:
            lines.append(f"the canal {link} carries {due:,}")
        if want != due:
            lines.append(f"the want has to be {due:,}, and {want:,} stands")
        flow = self.flow[it.link]
        return lines + [
            f"on {link} flow {flow:,} (line {self.lines['flow', it.link]}): delivered is the lesser of flow and want, "
            f"{min(due, flow):,}"]

    def of_closing(self, at, amount):
        zones = [right for right in self.basin.takers if self.basin.rights[right].reservoir == at]
        return [self.due_line(self.kept_in(at)), "that is what its zones took:"] + [
            term(self.basin.rights[zone].name, self.got[zone]) for zone in zones]

    # --- sums of a month ---
    def of_balance(self, node, amount):
        """The account of each node that doesn't balance."""
        out, lines = self.out | {node: amount}, []
        for node in range(len(self.basin.nodes)):
            account, missing = self.node_account(node, out)
            if missing:
                lines += [f"at {self.basin.nodes[node]} {abs(missing):,} are "
                    f"{'missing' if missing > 0 else 'left over'}:", *account]
        return lines

    def node_account(self, node, out):
        """The terms of a node, and how much more leaves it than comes in."""
        b = self.basin
        terms = [(what, amount) for what, amount in self.supply_terms(node)]
        terms += [(f"in on {name}", self.flow[at]) for at, (name, _, head, _) in enumerate(b.links) if head == node]
        terms += [(f"out on {name}", -self.flow[at]) for at, (name, tail, _, _) in enumerate(b.links) if tail == node]
        terms += [(f"{b.rights[right].name} {'keeps' if b.rights[right].table == 'zone' else 'takes'}",
            -self.got[right]) for right in b.takers if b.rights[right].node == node]
        terms += [("leaves the basin", -out[node])] if node in out else []
        total = sum(amount for _, amount in terms)
        return [*(term(what, amount) for what, amount in terms if amount), term("in all", total)], -total

    def supply_terms(self, node):
        """What makes a node's supply."""
        b = self.basin
        at = b.reservoir_at.get(b.nodes[node])
        terms = [("inflow" + (" (series)" if b.inflow[node] == "gauged" else ""), self.inflow(node)),
            ("comes back", self.returned[node])]
        return terms + ([("opens with", self.opened[at]), ("evaporates", -self.evaporated[at])] if at is not None
            else [])

    # --- calls ---
    def loose(self, right):
        """The account of a set that shows no shortage."""
        b, cut, it = self.basin, self.cuts[right], self.basin.rights[right]
        names = " ".join(b.nodes[node] for node in sorted(cut))
        head = [f"stands: call {it.name}, with the nodes {names}",
            f"{it.name} was delivered {self.got[right]:,} of {self.want[right]:,}"]
        if it.link is None and it.node not in cut:
            return [*head, f"the nodes are no cut of it: {b.nodes[it.node]}, where it takes, is not among them"]
        if it.link is not None:
            name, tail, head_node, _ = b.links[it.link]
            if tail not in cut:
                return [*head, f"the nodes are no cut of it: {b.nodes[tail]}, where {name} begins, is not among them"]
            if head_node in cut:
                return [*head, f"the nodes are no cut of it: {b.nodes[head_node]}, where {name} ends, is among them"]
        rivers = [name for name, tail, head_node, per_day in b.links if per_day is None and head_node in cut
            and tail not in cut]
        if rivers:
            return [*head,
                f"{rivers[0]}, a river, leads into these nodes from outside: any amount could come in, so they don't "
                f"show why it got no more"]
        terms = list(self.cut_terms(right, cut))
        bound = sum(amount for _, amount in terms)
        return [*head, "by these nodes it could have had:", *(term(what, amount) for what, amount in terms if amount),
            term("in all", bound),
                f"that is {abs(bound - self.got[right]):,} {'more' if bound > self.got[right] else 'less'} than it "
                f"got: the nodes don't show why it got no more"]

    def of_cutmissing(self, *_):
        word, said = self.said
        passed = self.basin.order if word != "call" else self.basin.order[:self.basin.rank[said[0]]]
        right = next(right for right in passed if self.got[right] < self.want[right] and right not in self.cuts)
        name = self.basin.rights[right].name
        return [f"{name} was delivered {self.got[right]:,} of {self.want[right]:,} (line "
            f"{self.lines['deliver', right]}), and has no call",
                f"has to stand before this line: call {name}, and then the nodes that show its shortage"]

    def of_cutneedless(self, right):
        return [f"{self.basin.rights[right].name} was delivered all of the {self.want[right]:,} that it wants (line "
            f"{self.lines['deliver', right]}): a call is for a short right"]

    def of_called(self, *_):
        due = self.callers_due()[self.called:]
        if not due:
            return ["no called line is due any more: each right that answers to a call has its line"]
        right, caller = due[0]
        b = self.basin
        return [f"has to stand: called {b.rights[right].name} {b.rights[caller].name}",
                f"{b.rights[right].name} wants water at {b.nodes[b.rights[right].node]}, a node of the call of "
                f"{b.rights[caller].name} (line {self.lines['call', caller]}),"
                " which is the most senior short right for which that is so"]

def explained(words):
    """The first line, which is check's, the lines after it, and the status."""
    try:
        checker = Explainer(*files.read(*words[:2]))
        return f"checked {result.check(checker, common.read_bytes(words[2], None))}", [], 0
    except result.Refuted as refuted:
        return str(refuted), checker.why(refuted.line, refuted.kind), 1
    except files.Refused as refused:
        return refused.line, [str(refused)], refused.status
    except common.NoFile as error:
        what = next(name for name, path in zip(("BASIN", "SERIES", "RESULT"), words) if str(error).startswith(path))
        return f"{'read' if error.status == 5 else 'too long'}: {what}", [str(error)], error.status

def main(words: list[str]) -> int:
    line, more, status = explained(common.options(words, count=3)[1])
    if status > 1:
        common.tell([line, *more])
    else:
        print(*map(common.shown, [line, *more]), sep="\n")
    return status
