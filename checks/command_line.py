"""What the script ./basin answers to words: tried with the program as the proved one, by the quick way, and without
Python."""
import copy
import os
import re
import shutil
import signal
import subprocess
import time

from beside import answer as answers
from beside.common import ROOT, write_text
from checks import harness
from checks.harness import read, tried

VALLEY, WEIR = "examples/valley.toml examples/valley.csv", "examples/weir.toml examples/weir.csv"
USAGE = "usage: basin_cli COMMAND WORDS"
ANSWERS, GOOD, RT, BAD = harness.table("command_line", "ANSWERS GOOD RT BAD")

class Place:
    """A copy of the script beside this folder, with a toolchain that stands for the real one."""

    def __init__(self, program, room):
        self.folder, self.program, self.started = os.path.join(room, "place"), program, os.path.join(room, "started")
        os.makedirs(os.path.join(self.folder, "kit", "bin"))
        os.makedirs(os.path.join(self.folder, "crates", "basin", "src"))
        for name in ("basin", "crates.txt", "HANDLES"):
            shutil.copy(os.path.join(ROOT, name), self.folder)
        for name in ("beside", "examples", "docs"):
            os.symlink(os.path.realpath(os.path.join(ROOT, name)), os.path.join(self.folder, name))
        for name, text in (("kit/bin/rt", RT), ("kit/KIT-ID", "a kit\n"), ("crates/basin/src/lib.rt", "\n"),
                ("bad.toml", BAD), ("bad.csv", "month,node,amount\n1960-7,upper,5\n"),
                ("bad-script", "river-edit 1\nshow 2002-08\ndone\n")):
            write_text(os.path.join(self.folder, name), text)
        os.chmod(os.path.join(self.folder, "kit", "bin", "rt"), 0o755)
        self.gate_files()
        self.without_python = self.tools(os.path.join(room, "tools"))

    def of(self, folder):
        """The same with its files in another folder."""
        other = copy.copy(self)
        other.folder = folder
        return other

    def gate_files(self):
        """The gate, .ci/run as it stands, with an empty script for each that it calls before its last steps."""
        text = read(".ci", "run")
        alone = re.sub(r"(?s)<<CHECKS\n.*?\nCHECKS\n", "\n", text)
        for name in {".ci/run", *re.findall(r"(?m)^(\.?\w+/[\w-]+)", alone)}:
            path = os.path.join(self.folder, name)
            os.makedirs(os.path.dirname(path), exist_ok=True)
            os.chmod(write_text(path, text if name == ".ci/run" else '#!/bin/sh\neval "${AT_TRIES-}"\n'), 0o755)

    def tools(self, folder, without="python"):
        """A folder with all commands of the machine but some."""
        os.makedirs(folder)
        for path in os.environ["PATH"].split(os.pathsep):
            for name in os.listdir(path) if os.path.isdir(path) else ():
                if not name.startswith(without) and not os.path.lexists(os.path.join(folder, name)):
                    os.symlink(os.path.join(path, name), os.path.join(folder, name))
        return folder

    def start(self, words, path=None, script="./basin", has_rt=True, env=(), **more):
        path = (os.path.join(self.folder, "kit", "bin") + os.pathsep if has_rt else "") + (path or os.environ["PATH"])
        more = {"stdin": subprocess.DEVNULL, "stdout": subprocess.PIPE, "stderr": subprocess.PIPE} | more
        return subprocess.Popen([script, *words], cwd=self.folder,
            env=os.environ | {"PATH": path, "PROGRAM": self.program, "STARTED": self.started} | dict(env), **more)

    def answer(self, words, path=None, **more):
        """The status, what is written, and the lines on standard error."""
        started = self.start(words, path, **more)
        out, err = started.communicate(timeout=60)
        return started.returncode, (out or b"").decode(), err.decode().splitlines()

    def gate(self, program, **env):
        """Whether the gate passes, where `rt ci` leaves this program."""
        return self.answer([], script=".ci/run", env={"PROGRAM": program} | env)[0] == 0

def try_proved(place):
    for at, (words, status, line, said) in enumerate(ANSWERS):
        answer = place.answer(words.split())
        tried(f"./basin {words}", answer[0] == status and answer[2][:1] == [line] and "  " + said in answer[2][1:],
            str(answer))
        if at % 5 == 0:
            bare = place.answer(words.split(), place.without_python)
            tried(f"./basin {words} without Python", bare[0] == status and bare[2] == [line], str(bare))
    for words, status, part in GOOD:
        with open(os.path.join(place.folder, "examples", "weir.result"), "rb") as file:
            answer = place.answer(words.split(), stdin=file)
        tried(f"./basin {words}", answer[0] == status and part in answer[1] and answer[2] == [], str(answer))
    closed = place.answer(["check", *WEIR.split(), "examples/weir.result"], preexec_fn=lambda: os.close(0))
    tried("./basin with standard input closed", closed[:2] == (0, "checked 2\n"), str(closed))

def is_miscounted(said):
    """Whether an answer is to an unknown command or to a wrong number of words."""
    return "no command" in said or "is missing" in said or "too much" in said

def try_quick(place):
    """By the quick way words that are no command start nothing; else the answers are those of the proved program."""
    for at, (words, status, line, said) in enumerate(ANSWERS):
        if not is_miscounted(said) and at % 4:
            continue
        answer = place.answer(words.split())
        is_right = answer[0] == status and line in answer[2] and "  " + said in answer[2][answer[2].index(line) + 1:]
        tried(f"./basin {words} by the quick way", is_right, str(answer))
        tried(f"whether ./basin {words} starts something", os.path.exists(place.started) != is_miscounted(said))
        if os.path.exists(place.started):
            os.remove(place.started)
    quick = place.answer(["check", *WEIR.split(), "examples/weir.result"])
    tried("./basin check by the quick way", quick[:2] == (0, "checked 2\n") and len(quick[2]) == 2, str(quick))

def try_signals(place, room):
    """A signal to the script ends the program."""
    waiting = os.path.join(room, "waiting")
    os.chmod(write_text(waiting, '#!/bin/sh\necho $$ >"$STARTED"\nexec sleep 50\n'), 0o755)
    # (where these tests run in the background SIGINT is ignored, and would be by what they start)
    signal.signal(signal.SIGINT, signal.default_int_handler)
    for number in (signal.SIGTERM, signal.SIGINT):
        if os.path.exists(place.started):
            os.remove(place.started)
        tried("a program is kept", place.gate(waiting))
        started = place.start(["run", "examples/weir.toml"])
        until = time.monotonic() + 20
        while time.monotonic() < until and not (os.path.exists(place.started) and os.path.getsize(place.started)):
            time.sleep(0.05)
        with open(place.started, encoding="ascii") as file:
            child = int(file.read())
        started.send_signal(number)
        started.communicate(timeout=30)
        tried(f"signal {number} ends the script and the program",
            started.returncode == 128 + number and not os.path.exists(f"/proc/{child}"), str(started.returncode))

def large_files():
    """Files that are refused, and that some way of looking for the fault would take minutes for: the name, the text,
    and the status."""
    top, node = 'format = 1\nfirst_month = "1900-01"\nmonths = 12\n', '[[node]]\nname = "spring{}"\n'
    yield "40,000 unknown keys", top + "".join(f"unknown_key_{at} = {at}\n" for at in range(40_000)), 3
    yield "40,000 nodes with one", top + "".join((node + "outlett = true\n").format(at) for at in range(40_000)), 3
    yield "300,000 nodes without a name", top + "[[node]]\n" * 300_000, 3
    yield "100,000 nodes of one name", top + node.format("") * 100_000, 3
    yield "lists 100,000 deep", top + "x = " + "[" * 100_000 + "]" * 100_000 + "\n", 3
    yield "tables 100,000 deep", top + "x = " + "{a=" * 100_000 + "1" + "}" * 100_000 + "\n", 3
    yield "400,000 keys on one line", top + "x = {" + ", ".join(f"a{at}=1" for at in range(400_000)) + "}\n", 3
    yield "a key of 1,000,000 parts", top + "a." * 1_000_000 + "a = 1\n", 3
    yield "a key of 4,000,000 signs", top + "a" * 4_000_000 + " = 1\n", 3
    yield "a list of 2,000,000 numbers", top + "x = [" + "1," * 2_000_000 + "]\n", 3
    pairs = "".join(f'[[link]]\nname = "{name}{at}"\nfrom = "spring{tail}"\nto = "spring{head}"\n'
        for at in range(0, 2000, 2) for name, tail, head in (("a", at, at + 1), ("b", at + 1, at)))
    yield "1,000 pairs of nodes in a ring", top + "".join(map(node.format, range(2000))) + pairs, 3
    ring = "".join(f'[[link]]\nname = "a{at}"\nfrom = "spring{at}"\nto = "spring{(at + 1) % 2000}"\n'
        for at in range(2000))
    yield "2,000 nodes in a ring", top + "".join(map(node.format, range(2000))) + ring, 3
    yield "200,000 odd records", "month,node,amount\n" + "".join(f"1960-7,odd{at},5\n" for at in range(200_000)), 4

def try_large(place):
    """What the script says of large files comes soon, and the program's own line before it. (Two seconds on a machine
    with nothing else to do; a few more are left to one that has.)"""
    path = os.path.join(place.folder, "large")
    for what, text, status in large_files():
        write_text(path, text)
        words = ["run", "large", "-"] if status == 3 else ["run", "examples/weir.toml", "large"]
        began = time.monotonic()
        answer = place.answer(words)
        seconds = time.monotonic() - began
        said = answer[2][1:2] == [f"  ./basin lint {words[1]} {words[2]} says what is wrong"] or answer[2][2:] == [
            f"  all that is wrong: ./basin lint {words[1]} {words[2]}"] and len(answer[2][1]) < 100_000
        tried(f"./basin run of {what}", answer[0] == status and said and seconds < 8,
            f"{seconds:.1f} seconds {str(answer)[:300]}")
        if what.startswith("a key of"):
            began = time.monotonic()
            answer = place.answer(["why", "large", "-", "1982-07", "old", "fields"])
            tried(f"the rights of a basin with {what}", answer[0] == 2 and answer[2][:1] == [USAGE]
                and time.monotonic() - began < 8, str(answer))

def try_screen():
    """Each command of docs/FORMATS.md has its line on the screen of help, by which the script counts words."""
    table = re.search(r"(?s)\n## The commands\n(.*?)\n## ", read("docs", "FORMATS.md"))[1]
    shapes = [words.split() for row in re.findall(r"(?m)^\| (`.*?) \|", table) for words in re.findall(r"`(.*?)`", row)]
    known = answers.commands()
    for command, *words in shapes:
        fits = [of for of in (known.get(command, []),) if [word.strip("[]") for word in of][:len(words)] == words]
        tried(f"the screen has {command} {' '.join(words)}", fits and all(w[0] == "[" for w in fits[0][len(words):]))
    tried("the commands are found", len(shapes) >= 9)

def try_answers(program, room):
    """Tries all of it, and answers how many words were tried."""
    try_screen()
    place = Place(program, room)
    try_quick(place)
    tried("the program is kept", place.gate(program))
    try_proved(place)
    try_large(place)
    try_signals(place, room)
    return len(ANSWERS) + len(GOOD)
