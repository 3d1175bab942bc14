"""lint PROGRAM [COUNT]: holds lint and explain against the built program, and tries what the script ./basin answers and
what it takes for proved.

Each mistake of checks/mistakes.toml has to end in the program's line and in lint's that stand there, and two mistakes
together in both. On COUNT changed basin files and series (2,000 if it is left out) lint's first fault has to be the
program's line; on half as many changed results explain has to answer what check does, and what it says has to lead
on: an amount that has to stand, put there, is not refuted again, and sums are sums. The same COUNT always makes the
same changes.
"""
import collections
import itertools
import os
import random
import re
import sys

from beside import common, explain, files, lint, result
from beside.common import write_text
from checks import changes, command_line, harness, kept
from checks.harness import example, files_of, names_of, ran, read, read_bytes, script, tried

CALLS, ENTANGLED = harness.table("lint", "CALLS ENTANGLED")

def refusal(program, files):
    """The program's line if it refuses a basin or a series, or None."""
    _, err, status = ran(program, "check", *files, os.devnull)
    return "\n".join(err) if status in (3, 4) else None if status == 1 else f"status {status}"

def faults_of(files):
    return [said for said in lint.said_of(*files) if said.line]

def with_mistakes(table, mistakes, room):
    """Writes the basin and the series of the table with some mistakes in them, if these can stand together."""
    texts = {"basin": table["basin"], "series": table["series"]}
    for kind, mistake in mistakes:
        if texts[kind].count(mistake["old"]) != 1:
            return None
        texts[kind] = texts[kind].replace(mistake["old"], mistake["new"])
    names = [os.path.join(room, "basin.toml"), os.path.join(room, "series.csv")]
    for path, text in zip(names, texts.values()):
        write_text(path, text)
    return names

def page_lines():
    return read("docs", "LINT.md").splitlines()

def try_scripts(room):
    """The statuses of both scripts, and where they write."""
    paths = dict(zip(("WEIR", "SERIES", "RESULT"), files_of("weir"))) | {"FORGED": example("weir-forged.txt")}
    paths["BAD"] = write_text(os.path.join(room, "bad.csv"), "month,node,amount\n")
    for words, status, out, err in CALLS:
        said, wrong, ended = script(*(paths.get(word, word) for word in words.split()))
        told = "\n".join(wrong)
        is_right = out in said and err in told and (out == "") == (said == "") and (err == "") == (told == "")
        tried(f"./basin {words}", ended == status and is_right, (said, wrong, ended))

def mistakes_table():
    return files.read_toml(os.path.join(common.ROOT, "checks", "mistakes.toml"))

def try_mistakes(program, room):
    """The table of mistakes, each by itself and two at a time; the page that shows them has to show these lines."""
    table = mistakes_table()
    shown = set(map(str.strip, page_lines()))
    mistakes = [(kind, mistake) for kind in ("basin", "series") for mistake in table[f"{kind}_mistake"]]
    tried("the basin without a mistake", faults_of(with_mistakes(table, [], room)) == [])
    for place, (kind, mistake) in enumerate(mistakes):
        names = with_mistakes(table, [(kind, mistake)], room)
        said, line = (faults_of(names) or [lint.Said("", "", (), "")])[0], refusal(program, names)
        tried(f"the program's line for {mistake['what']}", line == mistake["program"] == said.line, line)
        tried(f"lint's line for {mistake['what']}", lint.written(said).replace(room + os.sep, "") == mistake["lint"],
            lint.written(said))
        tried(f"{mistake['what']} on the page", {mistake["lint"],
            mistake["program"] if place < 18 else mistake["lint"]} <= shown)
    pairs = 0
    for one, other in itertools.combinations(mistakes, 2):
        lines = {one[1]["program"], other[1]["program"]}
        names = with_mistakes(table, [one, other], room)
        what = sorted((one[1]["what"], other[1]["what"]))
        if names is None or any(" Toml " in line or " Header " in line for line in lines) or what in ENTANGLED:
            continue
        pairs += 1
        found = [said.line for said in faults_of(names)]
        tried(f"{one[1]['what']} and {other[1]['what']} together",
            lines <= set(found) and found[:1] == [refusal(program, names)], f"{found}")
    return len(mistakes), pairs

def try_doubts(room):
    """Warnings and notes, each by what is changed in the basin of the mistakes; the examples have no fault."""
    table = mistakes_table()
    shown = set(map(str.strip, page_lines()))
    for doubt in table["doubt"]:
        names = with_mistakes(table, [("basin", doubt)], room)
        found = [lint.written(said).replace(room + os.sep, "") for said in lint.said_of(*names)]
        tried(f"the doubt on {doubt['what']}", doubt["lint"] in found and doubt["lint"] in shown, str(found))
    for name in names_of(".toml"):
        tried(f"{name} has no fault", faults_of(files_of(name)[:2]) == [])
    return len(table["doubt"])

def try_changed_files(program, count, room):
    """The first fault of changed names, by lint and by the program."""
    chance, kinds = random.Random(11), collections.Counter()
    for number in range(count):
        names = changes.files(number, chance, room)
        line, found = refusal(program, names), faults_of(names)
        first = found[0].line if found else None
        kinds[line.split(" ")[1] if line else "good"] += 1
        tried(f"change {number} of a file", line == first, f"the program says {line}, and lint {first}")
    return kinds

def put_right(lines, at, kind, why):
    """The lines of a result with what explain says in place of what stands, or None where it says no whole line."""
    text, old = "\n".join(why), lines[at:at + 1]
    due, may = re.search(r"(?m)^has to stand: ([^,\n]*)", text), re.search(r"(?m)^may come: (.*?)(?:, or .*)?$", text)
    amount = re.search(r"(?:the want has to be|the most that can stand is) ([0-9,]+)", text)
    of_want = re.search(r"(?:the lesser of flow and want|more than its want of),? ([0-9,]+)", text)
    if kind == "BadLine" and may and "SENIOR" not in may[1]:
        words = [word for word in may[1].split(" ") if word != ".."]
        zeros = 0 if words == may[1].split(" ") else 2 if words[0] == "deliver" else 1
        new, old = " ".join(words + ["0"] * zeros), []
    elif due:
        new, old = due[1], [] if kind == "Called" else old
    elif amount:
        fields = [*old[0].decode().split(" ")[:-1], amount[1].replace(",", "")]
        if of_want:
            fields[-2] = of_want[1].replace(",", "")
        new = " ".join(fields)
    else:
        return None
    return lines[:at] + [new.encode()] + lines[at + len(old):]

def are_sums(why):
    """Whether the terms above each `in all` sum to it."""
    total, is_right = 0, True
    for line in why:
        if line.startswith("  in all"):
            is_right, total = is_right and total == amount_of(line), 0
        elif line.startswith("  ") and re.search(r"-?[0-9,]+$", line):
            total += amount_of(line)
    return is_right

def amount_of(line):
    return int(re.search(r"-?[0-9,]+$", line)[0].replace(",", ""))

class Mended(result.Checker):
    """A checker that takes water to be there, or not, as an explanation of a line says that it is missing or left."""

    def __init__(self, names, line, amounts):
        super().__init__(*files.read(*names[:2]))
        self.mended, self.amounts = line, amounts

    def supplies(self):
        more = self.amounts if self.read + 1 == self.mended else {}
        return [amount + more.get(self.basin.nodes[node], 0) for node, amount in enumerate(super().supplies())]

    def is_tight(self, right, cut):
        supply = list(self.supply)
        if self.call_line == self.mended:
            self.supply[min(cut)] += self.amounts.get(None, 0)
        is_tight = super().is_tight(right, cut)
        self.supply = supply
        return is_tight

def amounts_said(why):
    """By its node how much water is missing, or, below 0, left over; of a set (None) how much less it could have."""
    said = {}
    for line in why:
        at = re.match(r"at (\S+) ([0-9,]+) are (missing|left over):", line)
        of = re.match(r"that is ([0-9,]+) (more|less) than it got", line)
        if at:
            said[at[1]] = int(at[2].replace(",", "")) * (1 if at[3] == "missing" else -1)
        if of:
            said[None] = int(of[1].replace(",", "")) * (1 if of[2] == "less" else -1)
    return said

def try_explanation(text, names, answer, why):
    """Whether what is put right is refuted for the same reason at the same line no more."""
    _, line, kind = answer.split(" ")
    lines, amounts = text.split(b"\n"), amounts_said(why)
    other = lines if amounts else put_right(lines, int(line) - 1, kind, why)
    if other is None:
        return kind != "Balance"
    try:
        result.check(Mended(names, int(line), amounts), b"\n".join(other))
    except result.Refuted as refuted:
        return (refuted.line, refuted.kind) != (int(line), kind)
    return True

def try_results(program, count, room):
    """Changed results, by explain and by the program."""
    chance, kinds = random.Random(12), collections.Counter()
    texts = {name: read_bytes(files_of(name)[2]) for name in names_of()}
    short = [name for name, text in texts.items() if len(text) < 20_000]
    path = os.path.join(room, "result")
    for number in range(count):
        name = chance.choice(list(texts)) if number % 20 == 0 else chance.choice(short)
        change, names = chance.choice((changes.result, changes.result, changes.calls)), files_of(name)[:2]
        text = change(texts[name], chance)
        write_text(path, text)
        line, why, status = explain.explained([*names, path])
        kinds[line.split(" ")[-1] if status == 1 else "checked"] += 1
        out, err, ended = ran(program, "check", *names, path)
        tried(f"change {number} of the result {name}", ((out.split("\n")[:-1] + err)[:1], ended) == ([line], status),
              f"the program answers {out} {err} {ended}, and explain {line} {status}")
        if status == 1:
            tried(f"the words on change {number} of the result {name}",
                why and are_sums(why) and try_explanation(text, names, line, why), f"{line}: {why}")
    return kinds

def try_unseen(room):
    """That nothing in a file is an order to a terminal, or makes a line of its own."""
    weir, (basin, forged) = files_of("weir"), (os.path.join(room, f"unseen{at}") for at in range(2))
    for name, path, old, new in ((weir[0], basin, '"canalco"', r'"\u001b[2J\nno fault"'),
                                 (weir[2], forged, "city 0 400", "city 0 \x9b2J")):
        write_text(path, read(name).replace(old, new).encode("latin-1"))
    for words, count in ((("beside", "lint", basin), 2), (("beside", "explain", *weir[:2], forged), 4),
                         (("beside.answer", "9", "why", *weir[:2], "1960-07", "\x1b[2J\n"), 1)):
        out = ran(sys.executable, "-B", "-m", *words)[0]
        lines = out.splitlines()
        tried(f"{words[:2]} shows signs that can't be seen", len(lines) == count and "2J" in out
              and all(map(str.isprintable, lines)), lines)

def counted(kinds):
    return ", ".join(f"{kind} {count}" for kind, count in sorted(kinds.items()))

def main(room, program, count="2000"):
    number = int(count)
    mistakes, pairs = try_mistakes(program, room)
    doubts = try_doubts(room)
    try_scripts(room)
    try_unseen(room)
    answers = command_line.try_answers(program, os.path.join(room, "answers"))
    ways = kept.try_kept(program, os.path.join(room, "kept"))
    changed, texts = try_changed_files(program, number, room), try_results(program, number // 2, room)
    print(f"lint: {mistakes} mistakes, {pairs} pairs of them, {doubts} doubts, {answers} answers of ./basin")
    print(f"lint: {ways} ways to count as proved, or not to")
    print(f"lint: {number} changed files: {counted(changed)}")
    print(f"lint: {number // 2} changed results explained: {counted(texts)}")
    # (few changes may miss a kind; many of them may not)
    if number >= 2000:
        tried("all kinds of refusals", len(texts) >= 14 and {"CutLoose", "Balance", "Called", "checked"} <= set(texts),
              counted(texts))
        tried("most faults", len(changed) >= 28, counted(changed))
