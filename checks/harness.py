"""What all checks share: how a script or the program is called, files that are made for it, and what was tried."""
import contextlib
import glob
import importlib
import io
import os
import re
import subprocess
import sys
import tomllib
from collections.abc import Iterable, Iterator
from typing import Any

from beside import common
from beside.common import ROOT, write_text

EXAMPLES = os.path.join(ROOT, "examples")
PROGRAM = ""                        # the built one, if a check was given it
NAME, count, failed, lacks = "", 0, 0, 0
Answer = tuple[str, list[str], int]  # what was written, the lines on standard error, and the status

def tried(what: str, is_right: object, told: object = "") -> bool:
    """Counts what was tried, and tells what failed."""
    global count, failed
    count += 1
    if not is_right:
        failed += 1
        print(f"{NAME}: {what} FAILED{': ' if told else ''}{told}", flush=True)
    return bool(is_right)

def not_tried(what: str, package: str) -> None:
    global lacks
    lacks += 1
    print(f"{NAME}: not tried: {what}, since {package} is not installed", flush=True)

def has_module(name: str) -> bool:
    try:
        return bool(importlib.import_module(name))
    except ImportError:
        return False

def example(*names: str) -> str:
    return os.path.join(EXAMPLES, *names)

def read(*names: str) -> str:
    """The text of a file, by its path below the top of the repository."""
    with open(os.path.join(ROOT, *names), encoding="utf-8", newline="") as file:
        return file.read()

def read_bytes(name: str) -> bytes:
    """What stands in a file; where `-` stands for a series, the header alone."""
    if name == "-":
        return b"month,node,amount\n"
    with open(name, "rb") as file:
        return file.read()

def names_of(ending: str = ".result") -> list[str]:
    """The names of the examples that have a file with this ending."""
    return sorted(name[:-len(ending)] for name in os.listdir(EXAMPLES) if name.endswith(ending))

def files_of(name: str) -> list[str]:
    """The basin, the series and the result of an example."""
    series = example(name + ".csv")
    return [example(name + ".toml"), series if os.path.exists(series) else "-", example(name + ".result")]

def put(folder: str, files: dict[str, str] = {}) -> str:
    """Writes files by their names into a folder that has no others."""
    os.makedirs(folder, exist_ok=True)
    for name in os.listdir(folder):
        os.remove(os.path.join(folder, name))
    for name, text in files.items():
        write_text(os.path.join(folder, name), text)
    return folder

def ran(*words: str, text: bytes | None = None, program: str = "", env: Any = (), **more: Any) -> Answer:
    """What a command answers."""
    env = os.environ | ({"BASIN_PROGRAM": program or PROGRAM} if program or PROGRAM else {}) | dict(env)
    more["stdin" if text is None else "input"] = subprocess.DEVNULL if text is None else text
    done = subprocess.run(words, capture_output=True, timeout=300, env=env, **more)
    return done.stdout.decode(), done.stderr.decode(errors="replace").splitlines(), done.returncode

def script(name: str, *words: str, **more: Any) -> Answer:
    """What a script beside the program answers, started as `./basin` does."""
    return ran(sys.executable, "-B", "-m", "beside", name, *words, **more)

def called(name: str, *words: str, text: str | None = None) -> Answer:
    """The same without a process of its own, and without the script's name before a line."""
    module, out, err = importlib.import_module("beside." + name.replace("-", "_")), io.StringIO(), io.StringIO()
    with contextlib.redirect_stdout(out), contextlib.redirect_stderr(err), standard_input(text):
        status = common.run(module.main, name, list(words))
    return out.getvalue(), [line.removeprefix(f"{name}: ") for line in err.getvalue().splitlines()], status

@contextlib.contextmanager
def standard_input(text: str | None) -> Iterator[None]:
    """Puts a text in the place of standard input."""
    if text is None:
        yield
        return
    kept = os.dup(0)
    with open(os.memfd_create("text"), "wb+") as file:
        file.write(text.encode("utf-8", "surrogateescape"))
        file.flush()
        file.seek(0)
        os.dup2(file.fileno(), 0)
        try:
            yield
        finally:
            os.dup2(kept, 0)
            os.close(kept)

def says(lines: list[str], line: str) -> bool:
    """Whether a line is the only one; what follows after `{}` is free."""
    front = line.removesuffix("{}")
    return lines == [line] if front == line else len(lines) == 1 and lines[0].startswith(front)

def small(room: str, numbers: Iterable[int]) -> Iterator[list[str]]:
    """The files of small basins, each in a folder of its own: its basin and its series."""
    listed = list(numbers)
    subprocess.run([sys.executable, "-B", os.path.join(ROOT, "second-check", "small.py"), *map(str, listed), room],
                   check=True)
    for number in listed:
        yield [os.path.join(room, str(number), name) for name in ("basin.toml", "series.csv")]

def scripts() -> list[str]:
    """The names of all scripts beside the program, by the screen of help."""
    return re.findall(r"(?m)^  \./basin (\S+)", read("docs", "help.txt").partition("\nBeside the program")[2])

def all_examples(ending: str) -> list[str]:
    """The paths of all examples with an ending, in folders too."""
    return sorted(glob.glob(os.path.join(EXAMPLES, "**", "*" + ending), recursive=True))

def table(name: str, keys: str) -> list[Any]:
    """Tables of what is tried, by their keys, from a file of this folder."""
    tree = tomllib.loads(read("checks", f"{name}.toml"))
    return [tree[key] for key in keys.split()]
