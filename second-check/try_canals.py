#!/usr/bin/env python3
"""try-canals PROGRAM: tries what `canals` says of results, and that the built program lets no canal carry what rivers can.

The .result of each example and what PROGRAM writes of the first 20 small basins that have a canal beside rivers have to show none. A
chain of 64 rivers beside a canal shows it where the result sends more through it than is held for an instream right; one of 65
doesn't, and neither does one in which it carries what is held. A result that `check` refutes is refuted. It takes some seconds.
"""
import os
import re
import subprocess
import sys
import tempfile

import canals
import check as second
import small

HERE = os.path.dirname(os.path.abspath(__file__))
SMALL = 20                          # how many small basins are tried
NONE = "no canal beside rivers carries for nothing\n", 0
# What comes in at the head of a chain in its month, what its canal can carry then, and what is held on the canal.
INFLOW, CARRY, HELD = 50, 31, 10
failed = 0

def tried(what, said, due):
    """Says whether what was said is what had to be."""
    global failed
    failed += said != due
    print(f"try-canals: {what}" + ("" if said == due else f" FAILED: {said}, and it has to be {due}"))

def said_of(*files):
    """What `canals` says, and its status."""
    written, status = small.run(os.path.join(HERE, "canals.py"), *files)
    return written.decode(), status

def written(program, folder, files):
    """The name of a file with the program's result."""
    name = os.path.join(folder, "result")
    with open(name, "wb") as file:
        subprocess.run([program, "run", *files], stdout=file, timeout=60, check=True)
    return name

def try_examples():
    for name, files in small.examples().items():
        tried(f"{name} shows no canal", said_of(*files), NONE)

def try_small(program, folder):
    said, number = {}, 0
    while len(said) < SMALL:
        number += 1
        files = small.write(folder, *small.small(number))
        if canals.beside_rivers(second.read_files(files)[0]):
            said[number] = said_of(*files, written(program, folder, files))
    shown = {number: answer for number, answer in said.items() if answer != NONE}
    tried(f"{SMALL} small basins with a canal beside rivers show none", shown, {})

def chain(rivers):
    """A basin of a month: rivers one behind the other, and a canal beside them on which an instream right wants water."""
    tree = {"format": 2, "first_month": "2000-01", "months": 1} | {table: [] for table in small.TABLES}
    tree["node"] = [{"name": f"n{at}", "outlet": at == rivers, "inflow": 0 if at else INFLOW} for at in range(rivers + 1)]
    tree["link"] = [{"name": f"r{at}", "from": f"n{at}", "to": f"n{at + 1}"} for at in range(rivers)]
    tree["link"].append({"name": "c", "from": "n0", "to": f"n{rivers}", "per_day": CARRY // 31})
    tree["instream"] = [{"name": "fish", "link": "c", "date": "1900-01-01", "want": HELD}]
    return tree

def try_chain(program, folder, rivers, by_rivers, by_canal, due):
    """Tries a chain with these flows in its result."""
    files = small.write(folder, chain(rivers))
    result = written(program, folder, [files[0], "-"])
    with open(result, encoding="ascii") as file:
        text = re.sub("^flow r([0-9]+) .*$", rf"flow r\1 {by_rivers}", file.read(), flags=re.M)
    with open(result, "w", encoding="ascii") as file:
        file.write(re.sub("^flow c .*$", f"flow c {by_canal}", text, flags=re.M))
    tried(f"{rivers} rivers with {by_rivers} beside a canal with {by_canal}: {due[0].strip()}", said_of(files[0], "-", result), due)

def main(program):
    try_examples()
    with tempfile.TemporaryDirectory() as folder:
        try_small(program, folder)
        most = canals.MOST
        shown = f"carries 2000-01 c {CARRY} {HELD}\n", 1
        try_chain(program, folder, 1, INFLOW - CARRY, CARRY, shown)
        try_chain(program, folder, most, INFLOW - CARRY, CARRY, shown)
        try_chain(program, folder, most + 1, INFLOW - CARRY, CARRY, NONE)
        try_chain(program, folder, most, INFLOW - HELD, HELD, NONE)
        try_chain(program, folder, 1, INFLOW - CARRY, CARRY - 1, ("refuted 7 Balance\n", 1))
    sys.exit(failed != 0)

if len(sys.argv) != 2 or sys.argv[1].startswith("-"):
    sys.exit(__doc__)
main(os.path.abspath(sys.argv[1]))
