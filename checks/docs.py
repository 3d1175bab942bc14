"""docs: looks up what README.md and the pages of docs name, and says what isn't there.

It takes each name in back-ticks that looks like one of these, and each command in a block of code:

    a definition, law, clause, type or call: in capitals and small letters or with an underscore, as `IsPlan`, `want_of`
        or `Run::step`. It has to be defined or imported in crates/*/src, specs or proofs. Behind a crate's name, as in
        `calls::calling_right`, or in a row of PROVED's table of contracts, in that crate; where a file stands behind it
        in brackets, or at the end of its row in DEFINITIONS, in that file
    a clause of one small word: in a list of PROVED, as `- writes:`, behind the word clause, and in PROVED's table
    a definition in a block of its own, as in docs/THEOREM.md: word for word
    a file, as `examples/weir.toml`, `crates/NAME/must-fail/`, `src/top.rt` or `water_model/Greatest`, of its proofs
    a command: the script, the word behind `./basin` or `rt`, and files in its words that lie in this repository

and each link to a file or heading, and in crates/tests_cases/args each file of cases. A word in capitals stands for
any name. Other words in back-ticks, as the names of examples, are not looked up.
"""
import collections
import functools
import glob
import os
import re
import shutil
import subprocess

from beside.common import ROOT
from checks.harness import not_tried, read, tried

FILE = re.compile(r"[\w.*/-]+/[\w.*/-]*|[\w-]+\.(antt|rt|toml|csv|txt|json|result|md)")
NAME = re.compile(r"[A-Za-z_][\w'-]*(::\w+)*")
COMMAND = re.compile(r"\./basin|rt|\.ci/run|checks/run|(?:docs|edits|examples|second-check)/[a-z_/-]+(?:\.py)?")
SUFFIXES = ("", ".antt", ".md")
# Files that a command makes.
MADE = {"rights.csv", "reservoirs.csv", "links.csv", "outlets.csv", ".built/program", ".built/stamp",
        "crates/basin/out", "crates/*/out"}
# Words of users' files and of the shell.
OTHERS = {"Union", "Ice", "Eqp", "year_nm", "month_nm", "Oct-01", "4/1/1912", "examples/vally.toml", "BASIN_PROGRAM"}
IN_LOGIC = re.compile(r"^\s*(?:(?:abbrev|unfoldable|pub|mutual|data|record|module)\s+)*([\w'-]+)\s+[:({]", re.M)
IN_CODE = re.compile(r"\b(?:fn|struct|enum|trait|type|const|static|mod|ensures|requires|invariant)\s+(\w+)"
                     r"|^\s+(?:pub\s+)?(\w+)\s*[:,({=]", re.M)
IMPORTED = re.compile(r"^\s*(?:pub )?use (.*?)(?:;|$)", re.M | re.S)
looked_up = collections.Counter()

@functools.cache
def sources(crate):
    """The files of a crate, or of all with `*`."""
    folders = [f"crates/{crate}/{part}/**/*.*t*" for part in ("src", "specs", "proofs")]
    return [path for folder in folders for path in glob.glob(folder, recursive=True)]

@functools.cache
def defined_in(path):
    """What a file of code, definitions or proofs defines or imports. Comments define nothing."""
    text = re.sub(r"^\s*(--|//).*$", "", read(path), flags=re.M)
    if path.endswith(".antt"):
        # (a field, as `c.invariant`, is the toolchain's where no crate defines it)
        imported = " ".join(re.findall(r"^use (.*)$", text, re.M))
        return set(IN_LOGIC.findall(text)) | set(re.findall(r"\.(\w+)", text)) | set(re.findall(r"[\w'-]+", imported))
    return set(sum(IN_CODE.findall(text), ())) | set(re.findall(r"\w+", " ".join(IMPORTED.findall(text))))

@functools.cache
def defined(crate):
    """What the files of a crate define or import, and their own names and folders."""
    named = {os.path.splitext(part)[0] for path in sources(crate) for part in path.split("/")}
    return set().union(named, *map(defined_in, sources(crate)))

@functools.cache
def of_scripts():
    """The keys of a basin file and the functions of scripts."""
    scripts = ["basin", *glob.glob("*/*.py"), *glob.glob("beside/bench/*.py")]
    text = "\n".join(map(read, scripts))
    return set(re.findall(r'"(\w+)":', read("docs/basin.schema.json"))) | set(re.findall(r"\b(\w+)\(", text))

def blocks(text):
    """The blocks of code of a page: each with its first line's number."""
    for match in re.finditer(r"^```.*?^```$|(?:^    .*\n)+", text, re.M | re.S):
        yield match[0], text.count("\n", 0, match.start()) + 1

def exists(path):
    """Whether there is such a file. Words in capitals and single letters stand for any name."""
    path = re.sub(r"(?<![\w-])([A-Z]{2,}|[a-z])(?![\w-])", "*", path.removeprefix("./").rstrip("/"))
    crate, _, name = path.partition("/")
    places = [path, f"crates/{path}", f"crates/{crate}/proofs/{name}", f"crates/*/{path}", f"examples/**/{path}"]
    places += [f"crates/*/{part}/**/{path}" for part in ("src", "specs", "proofs")] + [f"docs/{path}"]
    return path in MADE or any(glob.glob(place + suffix, recursive=True) for place in places for suffix in SUFFIXES)

@functools.cache
def words_of(command):
    """The words that may stand behind a command, or None where it can't be asked."""
    if command == "./basin":
        return set(re.findall(r"\./basin ([\w-]+)", read("docs/help.txt"))) | {"keep", "sums"}
    if command == "checks/run":
        return set(re.findall(r"[a-z-]+", " ".join(re.findall(r"(?m)^#   of .*: (.*)$", read("checks/run")))))
    if command == "rt" and shutil.which("rt"):
        said = subprocess.run(["rt", "help"], capture_output=True, text=True)
        return set(re.findall(r"\brt ([a-z-]+)", said.stdout + said.stderr))
    return None

def command_fault(line):
    """What isn't there of a command, or None."""
    looked_up["commands"] += 1
    command, *rest = line.split()
    if command != "rt" and not os.path.exists(command):
        return command
    due = words_of(command)
    if due and rest and re.fullmatch("[a-z-]+", rest[0]) and rest[0] not in due:
        return f"{command} {rest[0]}"
    files = [word for word in rest if re.match(r"(examples|crates|docs)/", word) and word not in OTHERS]
    return next((file for file in files if not exists(file)), None)

def name_fault(name):
    """What isn't there of a name, or None."""
    looked_up["names"] += 1
    parts = name.split("::")
    if len(parts) > 1:
        crate = parts[0] if os.path.isdir(f"crates/{parts[0]}") else "*"
        return None if all(part in defined(crate) for part in parts[crate != "*":]) else name
    # (a goal's name has places for others, as `loop-NAME-init`)
    is_goal = re.search(r"(^|-)[A-Z]{2,}(-|$)", name)
    return None if is_goal or name in defined("*") | of_scripts() else name

def fault(token):
    """What isn't there of what stands in back-ticks, or None."""
    if token in OTHERS:
        return None
    first = token.split()[0] if token.split() else ""
    if COMMAND.fullmatch(first) and (first != token or "/" not in token):
        return command_fault(token)
    if FILE.fullmatch(token):
        looked_up["files"] += 1
        return None if exists(token) else token
    if NAME.fullmatch(token) and re.search("_|::|^[A-Z].*[a-z]", token):
        return name_fault(token)
    return None

def in_file(names, files):
    """The names that aren't defined in one of some files, if these are files of crates."""
    first = files[0].rpartition("/")[0]
    paths = [file if "/" in file else f"{first}/{file}" for file in files]
    paths = [f"crates/{path.replace('/', '/proofs/', 1) if path.count('/') == 1 else path}.antt" for path in paths]
    found = [path for path in paths if os.path.exists(path)]
    if not found:
        return []
    known = set().union(*map(defined_in, found))
    return [name for name in names if NAME.fullmatch(name) and name not in known]

def rows_of_crates(plain):
    """The rows of a table that has a contract in each row: the place, the crate, and the names of the contract."""
    for table in re.finditer(r"^\| crate \| contract \|.*\n\|.*\n((?:\|.*\n)*)", plain, re.M):
        crate = None
        for row in re.finditer(r"^\| (?:`(\w+)` )?\| ([^|]*) \|.*$", table[1], re.M):
            crate = row[1] or crate
            names = [name for name in re.findall(r"`([^`]+)`", row[2]) if NAME.fullmatch(name)]
            yield table.start(1) + row.start(), crate, names

def try_text(page, text):
    """Looks up all that stands in back-ticks on a page, outside of blocks of code."""
    plain = re.sub(r"^```.*?^```$", lambda match: "\n" * match[0].count("\n"), text, flags=re.M | re.S)

    def tell(at, what):
        tried(f"{page}:{plain.count(chr(10), 0, at) + 1}: {what}", False)
    for match in re.finditer(r"`([^`]+)`", plain):
        what = fault(" ".join(match[1].split()))
        if what:
            tell(match.start(), f"`{what}` isn't there")
    for match in re.finditer(r"(?:^- |\bclauses?\s)((?:`\w+`(?:, | and )?)+)", plain, re.M):
        if match[0].startswith("-") and (not page.endswith("PROVED.md") or plain[match.end()] != ":"):
            continue
        for name in re.findall(r"`(\w+)`", match[1]):
            if name_fault(name):
                tell(match.start(), f"the clause `{name}` isn't there")
    # rows of a crate; names, and behind them a file in brackets; and the rows of DEFINITIONS, which end with theirs
    for at, crate, names in rows_of_crates(plain):
        for name in names:
            if not set(name.split("::")) <= defined(crate):
                tell(at, f"`{name}` isn't in {crate}")
    pairs = list(re.finditer(r"((?:`[^`]+`,?\s+)+)\((`\w+/[\w/]+`)\)", plain))
    if page.endswith("DEFINITIONS.md"):
        pairs += re.finditer(r"^\| (`[^|]*) \|[^|]*\| (`[^|]*/[^|]*) \|$", plain, re.M)
    for pair in pairs:
        for name in in_file(re.findall(r"`([^`]+)`", pair[1]), re.findall(r"`([^`]+)`", pair[2])):
            tell(pair.start(), f"`{name}` isn't defined in {pair[2]}")

def try_quotes(page, text):
    """Looks up each block of a page that quotes a definition, word for word."""
    for match in re.finditer(r"^```antt\n(.*?)^```$", text, re.M | re.S):
        words = " ".join(match[1].split())
        looked_up["quotes"] += 1
        is_there = any(words in " ".join(read(path).split()) for path in sources("*") if path.endswith(".antt"))
        tried(f"{page}:{text.count(chr(10), 0, match.start()) + 1}: a definition has these words", is_there)

def try_links(page, text):
    for match in re.finditer(r"\]\(([^)\s]+)\)", text):
        path, _, heading = match[1].partition("#")
        if re.match("https?:", path):
            continue
        looked_up["links"] += 1
        path = os.path.normpath(os.path.join(os.path.dirname(page), path)) if path else page
        titles = re.findall(r"^#+ (.*)$", read(path), re.M) if os.path.exists(path) and heading else []
        slugs = [re.sub(r"[^\w -]", "", title.lower()).replace(" ", "-") for title in titles]
        is_there = os.path.exists(path) and (not heading or heading in slugs)
        tried(f"{page}:{text.count(chr(10), 0, match.start()) + 1}: the link to {match[1]} leads somewhere", is_there)

def try_cases():
    """A file of cases that `args` doesn't name isn't read."""
    named = read("crates/tests_cases/args").split()
    for name in sorted(os.listdir("crates/tests_cases/data")):
        tried(f"crates/tests_cases/args: data/{name} is there", name in named)

def main(room):
    os.chdir(ROOT)
    try_cases()
    for page in ["README.md", *sorted(glob.glob("docs/*.md")), *sorted(glob.glob("docs/**/*.txt", recursive=True))]:
        text = read(page)
        try_text(page, text)
        try_links(page, text)
        try_quotes(page, text)
        for block, number in blocks(text):
            for at, line in enumerate(block.split("\n")):
                commands = [part.strip() for part in re.split(r"\|| \$ ", re.sub("[>#].*", "", line)) if part.strip()]
                for command in (command for command in commands if COMMAND.fullmatch(command.split()[0])):
                    what = command_fault(command)
                    tried(f"{page}:{number + at}: `{what or command}` is there", what is None)
    if words_of("rt") is None:
        not_tried("the words behind rt", "rt")
    print("docs: " + ", ".join(f"{count} {what}" for what, count in looked_up.items()) + " looked up")
