"""pages PROGRAM: types each command anew that README.md, the pages of docs, the screen of help and the help of each
script show, page by page in a copy of what a clone has.

Typed are the lines of blocks that begin with `./basin`, or with `$` before it, and what stands in back-ticks, if files
of examples/ are in it; none in which a word in capitals stands for something. Each has to end with status 0 or 1,
unless the page shows a refusal or a package isn't installed. Below a line with `$` has to stand what it writes; there
`..` stands for any lines.
"""
import glob
import os
import re

from beside.common import ROOT
from checks import harness
from checks.command_line import Place
from checks.harness import called, read, tried

LINE = r"(?:for .* do )?\./basin .*"
TYPED = re.compile(rf"^    \$ ({LINE})\n((?: {{4}}(?!\$ ).*\n)*)|^ {{4,6}}({LINE})$"
                   r"|`(\./basin [^`]*examples/[^`]*)`", re.M)
OTHERS, = harness.table("pages", "OTHERS")

def is_shown(answer: str, text: str) -> bool:
    """Whether a text is what a page shows below a command."""
    due = "".join("(?:.*\n)*?" if line == "    .." else re.escape(line[4:] + "\n") for line in answer.splitlines())
    return re.fullmatch(due, text.replace("GLPK", "HiGHS")) is not None

def commands(text: str) -> list[tuple[str, str | None]]:
    """Each command of a page, with what stands below it if that is what it writes."""
    found = [(" ".join((it[1] or it[3] or it[4]).split()), it[2]) for it in TYPED.finditer(text)]
    return [it for it in found if it[0] not in OTHERS and not re.search(r"(?<![\w./-])[A-Z]{3,}", it[0])]

def try_page(place: Place, name: str, text: str) -> None:
    for line, answer in commands(text):
        status, out, err = place.answer(["-c", line], script="bash")
        written = out + "".join(f"{it}\n" for it in err)
        is_bare = "apt-get" in written or "not installed" in written
        is_right = status in (0, 1) if answer is None else is_shown(answer, written)
        tried(f"{line} of {name}", is_right or is_bare, (status, written[-500:]))

def main(room, program):
    pages = [os.path.relpath(path, ROOT) for path in glob.glob(os.path.join(ROOT, "docs", "**", "*"), recursive=True)]
    texts = {name: read(name) for name in ["README.md", *sorted(pages)] if name.endswith((".md", ".txt"))}
    for name in harness.scripts():
        text = texts[f"docs/help/{name}.txt"]
        is_own = text.startswith((f"{name} ", f"{name}:"))
        tried(f"{name} has a help", is_own and called(name, "-h")[0].startswith(text))
        has_own = any(line.startswith(f"./basin {name} ") for line, _ in commands(text))
        tried(f"the help of {name} has an example", has_own)
    for at, (name, text) in enumerate(texts.items()):
        place = Place(program, os.path.join(room, str(at)))
        place.gate(program)
        try_page(place, name, text)
