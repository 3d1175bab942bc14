"""memory PROGRAM: refuses each allocation of the built program in turn, for every command over a small basin.

Each run has to end with status 7, its line and nothing on standard output (of `edit`, whole months), or as it does
where memory suffices. Then it counts the allocations of commands over few months and over many: they have to be as
many. It takes a few seconds, and a C compiler; without one nothing is tried.
"""
import os
import shutil

from beside.common import ROOT, write_text
from checks import harness
from checks.harness import files_of, not_tried, ran, read, tried

COMMANDS, COUNTED, NEW, SCRIPT, YEAR = harness.table("memory", "COMMANDS COUNTED NEW SCRIPT YEAR")

def make_files(room):
    """Writes the files that the commands name."""
    basin, series, result = map(read, files_of("weir"))
    texts = {"b.toml": basin, "s.csv": series, "r.txt": result, "script": SCRIPT, "year.csv": YEAR,
             "b2.toml": basin.replace("want = 400", "want = 900") + NEW,
             "year.toml": basin.replace("\nmonths = 2\n", "\nmonths = 12\n")}
    for name, text in texts.items():
        write_text(os.path.join(room, name), text)

def answer(room, program, words, **env):
    """What a program answers with the library beside it that counts its allocations, and refuses one if asked to."""
    # (env sets the variables for the program alone, not for timeout)
    named = [f"{name}={value}" for name, value in {"LD_PRELOAD": os.path.join(room, "refuse.so"), **env}.items()]
    return ran("timeout", "-k", "1", "20", "env", *named, program, *words, cwd=room)

def is_front(out, whole):
    """Whether a text is a front of another that ends after a month, or is empty."""
    return whole.startswith(out) and (out == "" or out.endswith("\nend\n"))

def sweep(room, program, words):
    """Refuses each allocation of one command."""
    whole, came, number = ran(program, *words, cwd=room), os.path.join(room, "came"), 0
    statuses = {7: 0, whole[2]: 0}
    while number == 0 or os.path.exists(came):
        number += 1
        if os.path.exists(came):
            os.remove(came)
        out, err, status = answer(room, program, words, REFUSE=number, REFUSED=came)
        is_left = out == "" or words[0] == "edit" and is_front(out, whole[0])
        is_refused = (err, status) == (["out of memory"], 7) and is_left
        # (the last run comes to no such allocation, so it ends as where memory suffices)
        is_right = (out, err, status) == whole or is_refused and os.path.exists(came)
        statuses[status] = statuses.get(status, 0) + 1
        tried(f"{words[0]} at allocation {number}", is_right, (status, err))
    tried(f"{words[0]} is refused memory", statuses[7] > 0)
    print(f"memory: {words[0]}: {number - 1} allocations refused in turn: {statuses[7]} times status 7")

def allocations(room, program, command, months):
    """How many a command makes over the basin without a gauge, so that no more is read for more months."""
    text = read(room, "b.toml").replace('inflow = "gauged"', "inflow = 2000")
    write_text(os.path.join(room, "counted.toml"), text.replace("\nmonths = 2\n", f"\nmonths = {months}\n"))
    status = answer(room, program, [command, "counted.toml", "-"], COUNTED=os.path.join(room, "counted"))[2]
    return read(room, "counted").strip() if status == 0 else None

def main(room, program):
    compiler = shutil.which(os.environ.get("CC", "cc"))
    if compiler is None:
        return not_tried("want of memory", "a C compiler")
    make_files(room)
    words = ["-O1", "-shared", "-fPIC", "-o", "refuse.so", os.path.join(ROOT, "checks", "refuse.c")]
    tried("the library is compiled", ran(compiler, *words, cwd=room)[2] == 0)
    for line in COMMANDS:
        sweep(room, program, line.split())
    for command, few, many in COUNTED:
        one, other = (allocations(room, program, command, months) for months in (few, many))
        tried(f"{command}: {one} allocations with {few} months, {other} with {many}", one is not None and one == other)
