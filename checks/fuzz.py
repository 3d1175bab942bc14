"""fuzz PROGRAM [COUNT [NAME..]]: hands each script beside the program, or those named, COUNT bad inputs (40 if it is
left out; fewer where a script runs the program).

Words are missing, too many or odd; files are absent, empty, folders, of other bytes, or changed: amounts of 5,000
digits, months and dates that are none, keys that are missing or hold something else, lists 5,000 deep. Whatever comes,
a script has to end with one of the statuses that its help tells, with lines of signs that can be seen and without a
traceback. Measurements are only handed bad words. `checks/run pages` tries the examples of the helps.
"""
import importlib
import os
import random
import re
import shutil
import stat
import traceback

from beside import basin
from beside.common import write_text
from checks import changes, harness
from checks.harness import called, example, read, tried

WEIR, (CALLS, TEXTS) = harness.files_of("weir"), harness.table("fuzz", "CALLS TEXTS")
WITH_PROGRAM = ("compared", "sources", "page", "trace", "shared")       # these run it, and so are slower
ODD_WORDS = ("", "-", "--", "--basin", "--csv", "--nothing", "-h-", "1960-13", "1960-7", "x" * 300, "a\nb", "\x1b[2J",
             "\0", "no/where", "-1", "9" * 5000, "\u0664", "\udcff")
TOKENS = ("9" * 5000, "-1", "1981-xx", "0000-00-00", "\0", "\x1b[2J", "\u0664", "[" * 5000 + "]" * 5000, "[]", "{}",
          '""', "5", "true", "1.5", "nan", "inf", "1e999", "''", "[[1]]", "\udcff", " ", "", "9" * 24, "\r", '"',
          "series", "gauged", "2999-12")
BYTES = (b"", b"\0", b"\xff\xfea\0", b"\xef\xbb\xbf", b"\n", b"\r\n" * 99, b"\xff" * 99, b"x = " + b"[" * 5000,
         b"[[node]]\n" * 99, b"river-result 1\n", b"a,b\n1,2,3\n", b"month,node,amount\n", b"diversion = 5\n",
         b"\x7fELF\x01", b"1" * 5000)
GOOD = TEXTS | {
    "BASIN": read(WEIR[0]), "SERIES": read(WEIR[1]), "RESULT": read(WEIR[2]),
    "ENSEMBLE": read("examples", "valley.ensemble"), "BASIN2": read(WEIR[0]).replace("want = 400", "want = 900"),
}
RECORDS = "date,flow,taken\n" + "".join(f"1960-07-{day:02d},{day},1\n" for day in range(1, 32))
TABLES = {name: read("examples", "office", "tables", name) for name in sorted(os.listdir(example("office", "tables")))}

def changed(text, chance):
    """A text with a token, a line or its end made bad."""
    how, tokens = chance.randrange(8), list(re.finditer(r"[^\s,=\[\]\"]+", text))
    if how < 4 and tokens:
        one = chance.choice(tokens)
        return text[:one.start()] + chance.choice(TOKENS) + text[one.end():]
    lines = text.split("\n")
    at, other = chance.randrange(len(lines)), chance.randrange(len(lines))
    if how == 4:
        return "\n".join(lines[:at] + lines[at + chance.randrange(1, 4):])
    if how == 5:
        return "\n".join(lines[:at] + [lines[other]] + lines[at:])
    if how == 6:
        return text[:chance.randrange(len(text) + 1)]
    return "\n".join(lines[:at] + [chance.choice((*TOKENS, *changes.LINES))] + lines[at:])

def is_folder(path):
    return os.path.isdir(path) and not os.path.islink(path)

def cleared(path):
    """Takes away what stands at a path."""
    if os.path.lexists(path):
        os.chmod(path, stat.S_IRWXU)
        (shutil.rmtree if is_folder(path) else os.remove)(path)
    return path

def put_file(path, text, chance, is_bad):
    """Writes a file, bad or good; of a bad one there may be none, or a folder."""
    how = chance.randrange(12) if is_bad else 12
    cleared(path)
    if how == 0:
        os.mkdir(path)
    elif how > 1:
        for _ in range(chance.choice((1, 1, 2)) if how < 12 else 0):
            text = changed(text, chance)
        write_text(path, chance.choice(BYTES) if how == 2 else text)

def bad_words(words, chance):
    """Words with one of them missing, doubled or odd."""
    at, how = chance.randrange(len(words)), chance.randrange(4)
    odd = chance.choice(ODD_WORDS)
    return words[:at] + [[], [words[at]] * 2, [odd], [odd, words[at]]][how] + words[at + 1:]

def bad_call(name, room, chance):
    """The words of a call with something bad in it, and whether that is a file which can't be read. Its files are put
    into a folder."""
    words = chance.choice(CALLS[name]).split()
    files = [word for word in words if word in GOOD or word == "TABLES"]
    is_of_words, bad = not files or chance.randrange(6) == 0, chance.choice(files or [""])
    for word in files:
        path = cleared(os.path.join(room, word))
        if word == "TABLES":
            odd = "" if is_of_words else chance.choice(list(TABLES))
            os.mkdir(path)
            for table, text in TABLES.items():
                put_file(os.path.join(path, table), text, chance, table == odd)
        else:
            put_file(path, GOOD[word], chance, word == bad and not is_of_words)
    put_file(os.path.join(room, "records.csv"), RECORDS, chance, "MAP" in files and chance.randrange(3) == 0)
    cleared(os.path.join(room, "OUT"))
    words = [os.path.join(room, word) if word in files or word.startswith("OUT") else word for word in words]
    is_unread = bad in GOOD and not os.path.isfile(os.path.join(room, bad))
    return bad_words(words, chance) if is_of_words else words, is_unread and not is_of_words

def statuses_of(text):
    """The statuses that a help tells, and of a script that runs the program all of the program's."""
    told = re.findall(r"status(?:es)? (?:is |of )?([0-9])", text, re.I)
    told += re.findall(r"(?<=and )[0-9](?= (?:that|where))", text)
    return {0, 2, 3, 4, 5, 8, *map(int, told)} | ({1} if "status are those" in text else set())

def try_bad(name, count, room, chance):
    """Hands a script so many bad inputs."""
    due = statuses_of(called(name, "--help")[0]) | ({6, 7, 9} if name in WITH_PROGRAM else set())
    seen = {}
    for number in range(count):
        words, is_unread = bad_call(name, room, chance)
        try:
            out, err, status = called(name, *words, text="")
            is_seen = all(map(str.isprintable, err)) and (err != [] or status in (0, 1) or name == "lint")
            is_due = status == (2 if "apt-get" in str(err) else 5) if is_unread else status in due
            tried(f"bad input {number} of {name}", is_due and is_seen, (words, status, err[:3]))
            seen[status] = seen.get(status, 0) + 1
        except Exception as error:
            where = traceback.extract_tb(error.__traceback__)[-1]
            tried(f"bad input {number} of {name}", False, (words, repr(error)[:200], where.filename, where.lineno))
    return f"{name} {' '.join(f'{status}:{times}' for status, times in sorted(seen.items()))}"

def main(room, program, count="40", *names):
    chance, basin.PROGRAM = random.Random(" ".join(names) or 73), program
    told = []
    tried("bad inputs are there for each script", {*CALLS} == {*harness.scripts()})
    for name in names or CALLS:
        importlib.import_module("beside." + name.replace("-", "_"))
        less = {"shared": 40, "page": 4, "draw": 4, "sources": 2, "compared": 2, "trace": 2}.get(name, 1)
        told.append(try_bad(name, int(count) if int(count) >= 2000 else max(5, int(count) // less), room, chance))
    print("fuzz: statuses and how often: " + ", ".join(told))
