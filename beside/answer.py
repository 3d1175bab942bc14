"""answer STATUS COMMAND WORDS: says in plain words why ./basin refused these words; the script `basin` starts it.

STATUS is what the program ended with, and COMMAND and WORDS are those that it was given. Nothing is written where
there is nothing to say that the program's own line doesn't. It takes two seconds at most: a file in which the first
fault isn't found by then is left to lint.
"""
import os
import re
import signal
import sys

SECONDS = 1.5                       # (Python itself has to start and to end, too)

def late(*_):
    """Ends the script, wherever it is."""
    os.write(1, os.fsencode(where_to_look(*sys.argv[1:])))
    os._exit(0)

def where_to_look(status, command="", *words):
    """The line that says who finds the fault of a refused file, or nothing."""
    basins = words[:2] if command == "compare" else words[:1]
    calls = [" ".join(["./basin lint", basin, *(words[len(basins):][:1] or ["-"])]) for basin in basins]
    return f"  {' or '.join(calls)} says what is wrong\n" if calls and status in ("3", "4") else ""

# (before all else, as the time that Python takes to read these scripts counts too)
if __name__ == "__main__":
    signal.signal(signal.SIGALRM, late)
    signal.setitimer(signal.ITIMER_REAL, SECONDS)
from beside import common, files, lint, model
from beside.common import meant, month_text, read_month
from beside.hints import month_advice

FILES = ("BASIN", "BASIN2", "SERIES", "RESULT", "SCRIPT")
MOST = 5_000_000                    # the most bytes of a file that is looked through for an answer

def commands():
    """What each command takes, by its line on the screen of `./basin help`."""
    with open(os.path.join(common.ROOT, "docs", "help.txt"), encoding="utf-8") as file:
        lines = re.findall(r"(?m)^  \./basin (\S+)((?: \[?[A-Z0-9]+\]?)*) ", file.read())
    return {command: words.split() for command, words in lines}

def named(command, words):
    """The words by what they stand for, as `{"BASIN": ..}`."""
    return dict(zip((word.strip("[]") for word in commands().get(command, ())), words))

class Files:
    """The two files, as lint reads them, if they are there and short enough."""

    def __init__(self, of, basin="BASIN"):
        self.basin, self.series = of.get(basin), of.get("SERIES", "-")
        paths = [path for path in (self.basin, self.series) if path not in (None, "-")]
        self.are_short = all(os.path.isfile(path) and os.path.getsize(path) <= MOST for path in paths)

    def first_fault(self, front):
        """The lines of what lint says of the first fault of one of the files, if it has one."""
        if not self.are_short:
            return [f"  ./basin lint {self.basin} {self.series} says what is wrong"]
        found = lint.first_of(self.basin, self.series)
        if found is None or not found.line.startswith(front):
            return []
        return [f"  {lint.written(found)}", f"  all that is wrong: ./basin lint {self.basin} {self.series}"]

    def read(self):
        """The basin, if it has no fault."""
        return files.read_basin(self.basin) if self.basin and self.are_short else None

def usage(command, words):
    """What is wrong with words that are no command."""
    known = commands()
    if command not in known:
        is_file = command.endswith((".toml", ".csv")) or os.path.exists(command)
        hint = "; a command comes first, as ./basin run " + command if is_file else meant(command, known)
        return [f"there is no command {command}{hint}", "./basin help lists them all"]
    takes = known[command]
    least = sum(1 for word in takes if word[0] != "[")
    if not least <= len(words) <= len(takes):
        return [f"{command} takes {' '.join(takes) or 'no words'}, and got {' '.join(words) or 'nothing'}",
            *miscounted(command, words, takes), f"./basin help {command} shows it"]
    return [advice for name, word in named(command, words).items()
        if (advice := odd_word(name, word, named(command, words)))] + [f"./basin help {command} shows it"]

def miscounted(command, words, takes):
    """What may be forgotten, or too much."""
    is_series = any(word == "-" or word.endswith(".csv") for word in words)
    if len(words) < len(takes) and "SERIES" in takes and not is_series:
        return ["SERIES is missing; - stands for a basin that needs none"]
    of = named(command, words)
    if len(words) > len(takes) and takes[-1:] == ["RIGHT"]:
        name = " ".join(words[len(takes) - 1:])
        return [f"a name has no blanks: RIGHT is one word{meant(name, rights_of(of))}"]
    return [f"{takes[len(words)].strip('[]')} is missing"] if len(words) < len(takes) else [
        f"{' '.join(words[len(takes):])} is too much"]

def rights_of(of):
    try:
        basin = Files(of).read()
    except common.Stop:
        return []
    return list(basin.right_at) if basin else []

def odd_word(name, word, of):
    """What is wrong with a word by itself, or None."""
    if name == "MONTH" and read_month(word) is None:
        is_swapped = read_month(of.get("RIGHT", "")) is not None
        return f"MONTH is {word}: " + ("MONTH comes before RIGHT" if is_swapped else month_advice(word))
    if name in ("RIGHT", "NODE") and not model.NAME.fullmatch(word):
        return (f"{name} is {word or '(nothing)'}: a name has 1 to 32 letters, digits, - or "
            f"_{meant(word, rights_of(of))}")
    most = {"NUMBER": 4_294_967_295, "SIZE": 2000}.get(name)
    if most and not (re.fullmatch(r"[0-9]{1,4000}", word) and (2 if name == "SIZE" else 0) <= int(word) <= most):
        return f"{name} is {word}: write a whole number from {2 if name == 'SIZE' else 0} to {most:,}"
    return None

def refused_basin(command, of):
    """The first fault of BASIN or of BASIN2, in words."""
    for name in ("BASIN", "BASIN2"):
        lines = Files(of | {"SERIES": "-"}, name).first_fault("basin: ") if name in of else []
        if lines:
            return lines
    basin = Files(of).read()
    if command == "ensemble" and basin and basin.months % 12:
        return [f"  an ensemble needs whole years: months is {basin.months}, and has to be 12, 24, 36 or the like"]
    if "BASIN2" in of and basin:
        other = Files(of, "BASIN2").read()
        runs = " and ".join(f"{month_text(it.first)} for {it.months} months" for it in (basin, other))
        return [f"  the two basins run over other months: {runs}; let first_month and months be the same"]
    return []

def refused_series(of):
    """The first fault of SERIES for BASIN or for BASIN2, in words."""
    faults = [Files(of, name).first_fault("series: ") for name in ("BASIN", "BASIN2") if name in of]
    return next(filter(None, faults), [])

def unreadable(of):
    """The files that can't be read, and why."""
    lines = []
    for name in FILES:
        path = of.get(name)
        if path is None or (name == "SERIES" and path == "-"):
            continue
        try:
            if os.path.isdir(path) or not os.path.exists(path) or os.path.isfile(path):
                common.read_bytes(path)
        except common.NoFile as error:
            if not (name == "RESULT" and error.status == 8):
                is_absent = error.status == 5 and not os.path.exists(path)
                lines.append(f"  {name} is {error}" + (nearest_file(path) if is_absent else ""))
    return lines

def nearest_file(path):
    folder = os.path.dirname(path) or "."
    if not os.path.isdir(folder):
        return f"; there is no folder {folder}"
    return meant(os.path.basename(path), sorted(os.listdir(folder)))

def absent(of):
    """A month, a right or a node that isn't there."""
    basin = Files(of).read()
    if basin is None:
        return []
    if "SCRIPT" in of:
        return script_fault(basin, of["SCRIPT"])
    index = read_month(of["MONTH"]) - basin.first
    if not 0 <= index < basin.months:
        return [f"  {of['MONTH']} is outside the run: {basin.run()}"]
    return [f"  {absent_name('right', of['RIGHT'], basin)}"] if of.get("RIGHT") not in basin.right_at else []

def absent_name(what, name, basin):
    names = list(basin.right_at if what == "right" else basin.node_at)
    other = "node" if what == "right" else "right"
    hint = meant(name, names)
    if not hint and name in (basin.node_at if what == "right" else basin.right_at):
        hint = f": {name} is the name of a {other}"
    return f"no {what} is named {name}{hint or ('; there are ' + ', '.join(names) if 0 < len(names) <= 12 else '')}"

def script_fault(basin, path):
    """The first line of a script at fault, and why, if that is plain."""
    with open(path, encoding="latin-1", newline="\n") as file:
        lines = file.read(MOST).split("\n")
    for number, line in enumerate(lines, 1):
        if line == "done":
            break
        why = line_fault(basin, number, line.split(" "))
        if why:
            return [f"  {path}:{number}: {line}: {why}"]
    return []

def line_fault(basin, number, words):
    """Why a line of a script is at fault, or None."""
    if number == 1:
        return None if words == ["river-edit", "1"] else "the first line is river-edit 1"
    shapes = {"inflow": ("MONTH", "NODE", "AMOUNT"), "want": ("MONTH", "RIGHT", "AMOUNT"), "show": ("MONTH",)}
    shape = shapes.get(words[0])
    if shape is None:
        return f"a line is inflow, want, show or done{meant(words[0], [*shapes, 'done'])}"
    if len(words) != len(shape) + 1:
        return f"write {words[0]} {' '.join(shape)}, one blank apart"
    of, month = dict(zip(shape, words[1:])), read_month(words[1])
    if month is None:
        return month_advice(words[1])
    if not re.fullmatch(r"0|[1-9][0-9]{0,9}", of.get("AMOUNT", "0")) or int(of.get("AMOUNT", "0")) > 10**9:
        return "an amount is a whole number from 0 to 1,000,000,000"
    if not 0 <= month - basin.first < basin.months:
        return basin.run()
    if of.get("NODE", basin.nodes[0]) not in basin.node_at:
        return absent_name("node", of["NODE"], basin)
    if "RIGHT" in of and of["RIGHT"] not in basin.right_at:
        return absent_name("right", of["RIGHT"], basin)
    if "NODE" in of and basin.inflow[basin.node_at[of["NODE"]]] != "gauged":
        return f"{of['NODE']} is not gauged: its inflow stands in the basin file"
    if "RIGHT" in of and basin.rights[basin.right_at[of["RIGHT"]]].want is not None:
        return f"the wants of {of['RIGHT']} stand in the basin file"
    return None

def main(words: list[str]) -> None:
    status, command, *rest = words[:2] + words[2:] if len(words) > 1 else [*words, ""]
    of = named(command, rest)
    lines = {
        "2": lambda: ["  " + line for line in usage(command, rest)],
        "3": lambda: refused_basin(command, of), "4": lambda: refused_series(of),
        "5": lambda: unreadable(of), "8": lambda: unreadable(of), "9": lambda: absent(of),
    }.get(status, lambda: [])()
    signal.setitimer(signal.ITIMER_REAL, 0)
    for line in lines:
        print(common.shown(line))

if __name__ == "__main__":
    main(sys.argv[1:])
