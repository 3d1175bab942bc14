"""types: pyflakes over all Python, and mypy over the packages `beside` and `checks`, where these are installed; and
that no script sets its import path or loads another by its path, and nothing imports the second checker or is imported
by it."""
import glob
import os
import re

from beside.common import ROOT
from checks.harness import has_module, not_tried, ran, read, tried

# What mypy isn't asked in functions whose signatures have no types.
CODES = "arg-type assignment call-arg has-type index list-item misc operator union-attr var-annotated"
LOOSE = [word for code in CODES.split() for word in ("--disable-error-code", code)]
SCRIPTS = ("edits/each", "examples/weights/ladder")

def main(room):
    paths = [os.path.relpath(path, ROOT) for path in sorted(glob.glob(os.path.join(ROOT, "*", "**", "*.py"),
                recursive=True))]
    own = [name for name in map(os.path.basename, paths)]
    for path in [*paths, *SCRIPTS]:
        text = read(path)
        tried(f"{path} sets no import path, and loads nothing by its path", not
              re.search("sys[.]path|SourceFile[L]oader", text))
        used = set(re.findall(r"(?m)^\s*(?:from|import) (\w+)", text))
        theirs = {name[:-3] for name in own if name not in ("basin.py",)} if path.startswith("second-check/") else set()
        is_alone = not used & {"beside", "checks"} if theirs else not used & {"check", "units", "canals", "aimed",
            "small"}
        tried(f"{path} and the second checker stand alone", is_alone, used)
    for tool, words in (("pyflakes", [*paths, *SCRIPTS]),
                        ("mypy", ["--cache-dir", room, "--ignore-missing-imports", "--check-untyped-defs", *LOOSE,
                                  "beside", "checks"])):
        if has_module(tool):
            out, err, status = ran("/usr/bin/python3", "-m", tool, *words, cwd=ROOT)
            tried(f"{tool} finds nothing", status == 0, f"{out}{err}")
        else:
            not_tried(tool, f"{tool}, of Debian's package {tool}")
