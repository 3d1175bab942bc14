#!/usr/bin/env python3
"""try PROGRAM: holds the second checker against the built program, on the examples and on some 3,700 texts that are
made from them and from small basins by a seed.

Of these 1,000 results and 400 basins and series are changed blindly. 700 results and 1,000 basins and series have
changes that are each aimed at one kind of refusal (`aimed` beside this script). And some 600 results have other sets and
flows. For each the line and the status have to be the same, of `check`, and of `audit` if the program has that command.
What `check --audit` answers is held against `check` too, and of the 600 against a search of all sets of nodes. At the
end it prints how often each kind of refusal of docs/FORMATS.md came, and fails where one never came. It takes a minute
or two. No text has what the help of `check` names as differences in reading TOML.
"""
import collections
import contextlib
import copy
import io
import os
import random
import re
import subprocess
import sys
import tempfile

import aimed
import check as second
import small
import units

# How many small basins and how many changes are tried.
SMALL, BLIND, BLIND_FILES, AIMED, AIMED_FILES = 150, 1000, 400, 700, 1000
FILES = ("basin", "series")

def by_second(words):
    """The line and the status of the second checker."""
    out = io.StringIO()
    try:
        with contextlib.redirect_stdout(out):
            second.main(words)
        return out.getvalue().strip(), 0
    except second.Refuted as refuted:
        return "refuted " + " ".join(map(str, refuted.args)), 1
    except second.Refused as refused:
        return refused.args

def by_first(program, command, words):
    """The line and the status of the program."""
    written, status = small.run(program, command, *words)
    return written.decode().strip(), status

def changed(text, chance):
    """The text with one to three changes: amounts and names changed, lines dropped, doubled, swapped or put in elsewhere, signs added, the end cut off."""
    lines = text.split(b"\n")
    for _ in range(chance.choice((1, 1, 1, 2, 3))):
        how, at, other = chance.randrange(20), chance.randrange(len(lines)), chance.randrange(len(lines))
        amounts = [place for place, line in enumerate(lines) if line[-1:].isdigit() and line.count(b" ") > 1]
        if how < 12 and amounts:
            at = chance.choice(amounts)
            fields = lines[at].split(b" ")
            place = chance.choice((2, 2, len(fields) - 1))
            fields[place] = b"%d" % max(0, int(fields[place]) + chance.choice((-100, -10, -1, -1, 1, 1, 10, 100, 10**15)) if fields[place].isdigit() else 0)
            lines[at] = b" ".join(fields)
        elif how < 14:
            fields = lines[at].split(b" ")
            fields[-1] = chance.choice(lines).split(b" ")[-1]
            lines[at] = b" ".join(fields)
        elif how == 14:
            lines = lines[:at] + lines[at + 1:] or [b""]
        elif how == 15:
            lines.insert(at, lines[at])
        elif how == 16:
            lines[at], lines[other] = lines[other], lines[at]
        elif how == 17:
            lines.insert(at, lines[other])
        elif how == 18:
            lines[at] += chance.choice((b" ", b"x", b" 0", b"\r", b"\xff", b"\x00", b"1" * 130))
        else:
            return b"\n".join(lines)[:chance.randrange(len(text))]
    return b"\n".join(lines)

def changed_file(text, chance):
    """The text of a basin or series with one or two changes: numbers, names and words changed, lines dropped, doubled or swapped, signs added, the end cut off."""
    for _ in range(chance.choice((1, 1, 2))):
        how = chance.randrange(12)
        tokens = list(re.finditer(rb'"[^"\n]*"|[0-9]+(-[0-9]+)*|[a-z_]+', text))
        lines = text.split(b"\n")
        at, other = chance.randrange(len(lines)), chance.randrange(len(lines))
        if how < 7 and tokens:
            one, two = chance.choice(tokens), chance.choice(tokens)
            new = two[0] if how < 4 else chance.choice((b"0", b"-1", b"1.0", b"true", b'""', b'"a b"', b"[]", b"[1, 2]", b"2", b"17", b"1201", b"10001", b"1000000001", b"9" * 20, b'"1890-02-30"', b'"1890-2-1"', b'"gauged"', b"{}"))
            text = text[:one.start()] + new + text[one.end():]
        elif how == 7:
            text = b"\n".join(lines[:at] + lines[at + 1:])
        elif how == 8:
            text = b"\n".join(lines[:at] + [lines[other]] + lines[at:])
        elif how == 9:
            text = text.replace(lines[at], chance.choice((b"\xff", b"", b"colour = 1", b",,", b'"', b"1960-07,upper,1", b"\r")), 1)
        elif how == 10:
            text = text[:chance.randrange(len(text) + 1)]
        else:
            text = text + b"\n" + b"\n".join(lines[at:at + 6])
    return text

class Months(units.Units):
    """A checker that keeps each month: what it told, all tight cuts of each short right, and where its lines stand."""

    def __init__(self, basin, series):
        super().__init__(basin, series)
        self.kept, self.flow_place = [], None

    def tell(self, word, said):
        if word == "flow" and said[0] == 0:
            self.flow_place = self.read - 1
        super().tell(word, said)

    def month_ends(self):
        self.stop = self.read - 1 - len(self.basin.reservoirs)
        self.start = self.stop - self.called - sum(1 + len(cut) for cut in self.cuts.values())
        self.tight = {right: self.tight_cuts(right) for right in self.cuts}
        self.kept.append(copy.copy(self))

    def lines_with(self, cuts):
        """The month's `call`, `in` and `called` lines with these sets, and the place of each right's `call` among them."""
        b, lines, places = self.basin, [], {}
        for right in (right for right in b.order if right in cuts):
            places[right] = len(lines)
            lines += [f"call {b.rights[right].name}"] + [f"in {b.nodes[node]}" for node in sorted(cuts[right])]
        changed = copy.copy(self)
        changed.cuts, changed.due = cuts, None
        return lines + [f"called {b.rights[right].name} {b.rights[caller].name}" for right, caller in changed.callers_due()], places

    def room(self, flow, link):
        """How much more and how much less a link can carry, with the same deliveries of instream rights."""
        holders = self.holders.get(link, ())
        is_short = any(self.got[right] < self.want[right] for right in holders)
        return 0 if is_short else self.basin.carry(link, self.month) - flow[link], flow[link] - max((self.got[right] for right in holders), default=0)

    def way_round(self, flow, chance):
        """A way from some node back to it, by links that can carry more and back by others that can carry less: of each link its place, both
        ends, 1 or -1, and how much. Or nothing, where a way ends."""
        ways = [way for at, (_, tail, head, _) in enumerate(self.basin.links) for way in zip((at, at), (tail, head), (head, tail), (1, -1), self.room(flow, at)) if way[-1] > 0]
        chance.shuffle(ways)
        path, places, node = [], {}, chance.randrange(len(self.basin.nodes))
        while node not in places:
            places[node] = len(path)
            # (not back over the link that it came by)
            way = next((way for way in ways if way[1] == node and (not path or way[0] != path[-1][0])), None)
            if way is None:
                return []
            path.append(way)
            node = way[2]
        return path[places[node]:]

    def other_flows(self, chance):
        """The month's flows with some water sent another way, with the same deliveries."""
        flow = dict(self.flow)
        for _ in range(4):
            path = self.way_round(flow, chance)
            amount = chance.randint(1, min(60, *(way[-1] for way in path))) if path else 0
            for at, _, _, sign, _ in path:
                flow[at] += sign * amount
        return [flow[at] for at in range(len(flow))]

    def other_cuts(self, share, chance):
        """The month's sets with others for a share of the short rights, most of them tight."""
        cuts = dict(self.cuts)
        for right, tight in self.tight.items():
            one, two = chance.choice(tight), chance.choice(tight)
            if chance.random() < share:
                cuts[right] = chance.choice((one, one & two, one | two, set.intersection(*tight)))
            if chance.random() < share / 10:
                cuts[right] = set(chance.sample(range(len(self.basin.nodes)), chance.randint(1, len(self.basin.nodes))))
        return cuts

def with_sets(text, months, chance):
    """The text with other sets for some short rights and other flows in some months, and what an audit has to answer to it by a search of
    all sets: its first set that isn't tight is refuted, else its first that isn't the greatest tight one."""
    lines, out, last, loose, others = text.decode().split("\n"), [], 0, [], []
    share = chance.choice((0, 0.1, 0.3, 1, 1))
    for month in months:
        cuts = month.other_cuts(share, chance)
        out += lines[last:month.start]
        if month.flow and chance.random() < share:
            place = len(out) - month.start + month.flow_place
            out[place:place + len(month.flow)] = [f"flow {link[0]} {amount}" for link, amount in zip(month.basin.links, month.other_flows(chance))]
        new, places = month.lines_with(cuts)
        loose += [len(out) + place + 1 for right, place in places.items() if cuts[right] not in month.tight[right]]
        others += [len(out) + place + 1 for right, place in places.items() if cuts[right] != set.union(*month.tight[right])]
        out += new
        last = month.stop
    answer = (f"refuted {loose[0]} CutLoose", 1) if loose else (f"refuted {others[0]} NotReach", 1) if others else (f"audited {len(months)}", 0)
    return "\n".join(out + lines[last:]).encode(), answer

def bytes_of(name):
    """What stands in a file; where `-` stands for a series, the header alone."""
    if name == "-":
        return b"month,node,amount\n"
    with open(name, "rb") as file:
        return file.read()

class Comparison:
    """The program beside the second checker: how many texts both were asked for, how often they differed, and how often
    each answer came."""

    def __init__(self, program, room):
        self.program, self.path, self.chance = program, os.path.join(room, "changed"), random.Random(7)
        self.texts, self.differ, self.kinds = 0, 0, collections.Counter()
        self.has_audit = by_first(program, "audit", small.files_of("weir"))[1] != 2

    def compare(self, words, what, audited=None):
        """Compares all answers to a text, that of an audit with the one that it has to be, if that is given."""
        one, other = by_first(self.program, "check", words), tuple(by_second(words))
        # (of a refused file both say the same by the same code)
        audit = other if other[1] > 1 else tuple(by_second(["--audit", *words]))
        self.texts += 1
        for answer in {one, audit}:
            self.kinds[kind_of(answer)] += 1
        is_odd = audit != one if one[1] != 0 else audit[1] != 0 and not audit[0].endswith(" NotReach")
        first = by_first(self.program, "audit", words) if self.has_audit else audit
        if one != other or is_odd or first != audit or audited not in (None, audit):
            self.differ += 1
            print(f"second-check: {what} FAILED: the program answers {one}, the second checker {other}; "
                  f"of an audit {first} and {audit}, and it has to be {audited or 'as the check'}")

    def compare_changed(self, files, place, text, what, audited=None):
        """The same with another text instead of one of the three files."""
        with open(self.path, "wb") as file:
            file.write(text)
        self.compare([*files[:place], self.path, *files[place + 1:]], what, audited)

def kind_of(answer):
    """The kind of an answer, after the file that it is about."""
    words = answer[0].split(" ")
    if words[0] == "refuted":
        return f"RESULT {words[2]}"
    return f"{words[0][:-1].upper()} {words[1]}" if words[0] in ("basin:", "series:") else words[0]

def try_examples(comparison, all_files):
    """The examples as they are, and changed blindly."""
    chance = comparison.chance
    for name, files in all_files.items():
        comparison.compare(files, name)
    for name in ("weir", "orders"):
        forged = os.path.join(small.EXAMPLES, name + "-forged.txt")
        comparison.compare([*small.files_of(name)[:2], forged], name + "-forged")
    short_ones = {name: files for name, files in all_files.items() if os.path.getsize(files[2]) < 20_000}
    for number in range(BLIND):
        name = chance.choice(list(all_files if number % 20 == 0 else short_ones))
        text = changed(bytes_of(all_files[name][2]), chance)
        comparison.compare_changed(all_files[name], 2, text, f"change {number} of {name}")
    for number in range(BLIND_FILES):
        name = chance.choice(list(short_ones))
        files = all_files[name]
        place = 1 if files[1] != "-" and number % 2 else 0
        text = changed_file(bytes_of(files[place]), chance)
        comparison.compare_changed(files, place, text, f"change {number} of the {FILES[place]} of {name}")
    return short_ones

def try_aimed(comparison, bases):
    """Changes that are aimed at one kind of refusal each, of the short examples and of small basins."""
    chance = comparison.chance
    read = {name: second.read_basin(bytes_of(files[0])) for name, files in bases.items()}
    with_series = [name for name, files in bases.items() if files[1] != "-"]
    for number in range(AIMED):
        name = chance.choice(list(bases))
        text = aimed.changed_result(bytes_of(bases[name][2]), read[name], chance)
        comparison.compare_changed(bases[name], 2, text, f"aimed change {number} of {name}")
    for number in range(AIMED_FILES):
        place = number % 2
        name = chance.choice(with_series if place else list(bases))
        text = bytes_of(bases[name][place])
        if place == 0:
            text = aimed.changed_basin(second.document(text), chance)
        else:
            text = aimed.changed_series(text, read[name], chance)
        comparison.compare_changed(bases[name], place, text, f"aimed change {number} of the {FILES[place]} of {name}")

def try_sets(comparison, files, times, what):
    """A result with other sets and flows, so many times, and answers how often it was another text."""
    checker, result, others = Months(*second.read_files(files)), bytes_of(files[2]), 0
    second.check(checker, result)
    # (where each short right has one set alone there is nothing to choose)
    has_choice = any(len(tight) > 1 for month in checker.kept for tight in month.tight.values())
    for _ in range(times if has_choice else 2):
        text, audited = with_sets(result, checker.kept, comparison.chance)
        others += text != result
        comparison.compare_changed(files, 2, text, f"{what} with other sets", audited)
    return others

def small_files(program, room, number):
    """The files of a small basin, and of what the program writes of it, in a folder of their own."""
    folder = os.path.join(room, str(number))
    os.mkdir(folder)
    files = small.write(folder, *small.small(number))
    with open(os.path.join(folder, "result"), "wb") as file:
        subprocess.run([program, "run", *files], stdout=file, timeout=60, check=True)
    return [*files, file.name]

def tell(comparison, others):
    """Prints how often each answer came, and answers whether all agreed and each kind of refusal came."""
    kinds, answers = comparison.kinds, ("checked", "audited")
    print(f"second-check: {comparison.texts} texts, {comparison.differ} answered otherwise, {others} with other sets or "
          "flows; " + ", ".join(f"{kind} {kinds[kind]}" for kind in answers))
    never = [kind for kind in answers if not kinds[kind]]
    for file, due in (aimed.KINDS | {"RESULT": [*aimed.KINDS["RESULT"], "NotReach"]}).items():
        print(f"second-check: of {file}: " + ", ".join(f"{kind} {kinds[f'{file} {kind}']}" for kind in due))
        never += [f"{file} {kind}" for kind in due if not kinds[f"{file} {kind}"]]
    if never:
        print("second-check: FAILED, since these answers never came: " + ", ".join(never))
    return comparison.differ == 0 and not never

def main(program):
    examples = small.examples()
    with tempfile.TemporaryDirectory() as room:
        comparison = Comparison(program, room)
        if not comparison.has_audit:
            print("second-check: not tried: the program has no command audit, so its answers are not compared")
        short_ones = try_examples(comparison, examples)
        small_ones = {f"small basin {number}": small_files(program, room, number) for number in range(1, SMALL + 1)}
        try_aimed(comparison, short_ones | small_ones)
        others = sum(try_sets(comparison, it, 40 if name in short_ones else 10, name) for name, it in examples.items())
        others += sum(try_sets(comparison, files, 4, name) for name, files in small_ones.items())
    sys.exit(not tell(comparison, others))

if __name__ == "__main__":
    if len(sys.argv) != 2 or sys.argv[1].startswith("-"):
        sys.exit(__doc__)
    main(os.path.abspath(sys.argv[1]))
