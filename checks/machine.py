"""machine PROGRAM: tries the built program on what a real machine does to it: devices and files that fail, are no
files, end within a sign or are too long, little memory, and odd words.

Each has to give its named line and status: never a signal, half a line or a hang. It takes a few seconds.
"""
import os
import shutil
import subprocess

from beside.common import read_bytes
from checks import harness
from checks.harness import example, files_of, tried

CASES, CALL = harness.table("machine", "CASES CALL")
ENOUGH = 4000                       # kilobytes; with as few the system may not be able to start a program at all

def after(room, program, script):
    """The status of a call of the program, and what it said."""
    env = os.environ | {"program": program}
    subprocess.run(["bash", "-c", CALL + script], cwd=room, env=env, stdin=subprocess.DEVNULL, timeout=120)
    status, said = (read_bytes(os.path.join(room, name)).decode() for name in ("status", "err"))
    return int(status), said.strip()

def is_right(room, test):
    return subprocess.run(["bash", "-c", test], cwd=room, capture_output=True).returncode == 0

def main(room, program):
    for name, path in zip(("b.toml", "s.csv", "r.txt", "branches.toml"), [*files_of("weir"), example("branches.toml")]):
        shutil.copy(path, os.path.join(room, name))
    for what, script, *due, test in CASES:
        if "as_nobody" in script and not shutil.which("setpriv"):
            harness.not_tried(what, "util-linux")
            continue
        found = after(room, program, script)
        tried(what, found == tuple(due) and is_right(room, test), found)
    for size in (1000, 2000, 4000, 8000, 16000, 64000):
        status, said = after(room, program, f"ulimit -v {size}; call run b.toml s.csv >out")
        if status not in (0, 7) and size <= ENOUGH:
            print(f"machine: with {size} KB of memory the program can't be started")
            continue
        is_whole = (status, said) == (0, "") and is_right(room, "cmp out r.txt")
        is_refused = (status, said) == (7, "out of memory") and is_right(room, "[ ! -s out ]")
        tried(f"with {size} KB of memory", is_whole or is_refused, (status, said))
