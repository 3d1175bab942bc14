"""What all scripts beside the program share: how they refuse, read files within bounds, spell names, months and tables,
and take the words of a command line."""
import calendar
import csv
import difflib
import os
import re
import sys
from collections.abc import Callable, Iterable, Iterator, Sequence
from typing import IO, Any, NoReturn

HERE = os.path.dirname(os.path.abspath(__file__))
ROOT = os.path.dirname(HERE)
LIMIT = 67_108_864                  # the most bytes of a file that is read as a whole, as of the program's
CALENDAR = tuple(calendar.month_name[1:])
DAYS = (31, 28, 31, 30, 31, 30, 31, 31, 30, 31, 30, 31)
UNREADABLE: dict[type, str] = {
    FileNotFoundError: "there is no such file", IsADirectoryError: "this is a folder, and no file",
    PermissionError: "this file may not be read",
}

# --- How a script refuses ---------------------------------------------------------------------------------------------
class Stop(Exception):
    """What ends a script: what it says, and its status."""

    status = 1

    def __init__(self, said: str = "", status: int | None = None) -> None:
        super().__init__(said)
        self.status = self.status if status is None else status

class BadText(Stop):
    """A text isn't what it should be."""

class Fault(BadText):
    """What is wrong in a table of an office, and what to do."""

class WrongWords(Stop):
    """The words of a command line aren't what a script takes."""

    status = 2

class NoFile(Stop):
    """A file can't be read, or is too long."""

    status = 5

# --- Files ------------------------------------------------------------------------------------------------------------
def read_bytes(path: str, limit: int | None = LIMIT) -> bytes:
    """The bytes of a file, at most so many."""
    try:
        with open(path, "rb") as file:
            data = file.read(-1 if limit is None else limit + 1)
    except (OSError, ValueError) as error:
        raise no_file(path, error) from None
    if limit is not None and len(data) > limit:
        raise NoFile(f"{path}: the file has more than {limit:,} bytes", 8)
    return data

def no_file(path: str, error: Exception) -> NoFile:
    """Why a file can't be read. (A NUL in its name is a ValueError.)"""
    why = UNREADABLE.get(type(error)) or getattr(error, "strerror", None) or "this is no name of a file"
    return NoFile(f"{path}: {why}")

def write_text(path: str, text: str | bytes) -> str:
    """Writes a file, and answers its name."""
    with open(path, "wb") as file:
        file.write(text if isinstance(text, bytes) else text.encode("utf-8", "surrogateescape"))
    return path

def write_csv(out: IO[str], rows: Iterable[Iterable[Any]]) -> None:
    csv.writer(out, lineterminator="\n").writerows(rows)

# --- Names, months and tables as lines --------------------------------------------------------------------------------
def nearest(word: str, names: Iterable[str]) -> str | None:
    """The name that is most likely meant by a word that is none of them, or None. Letter case, dashes and blanks
    count least."""
    def plain(name: str) -> str:
        return re.sub("[^a-z0-9]", "", name.lower())
    by_plain: dict[str, str] = {}
    sought = plain(word)
    for name in names:
        by_plain.setdefault(plain(name), name)
    if sought in by_plain:
        return by_plain[sought]
    # (names, keys and files have far fewer signs than that)
    close = difflib.get_close_matches(sought, by_plain, 1, 0.7) if 0 < len(sought) <= 400 else []
    return by_plain[close[0]] if close else None

def meant(word: str, names: Iterable[str]) -> str:
    """`; did you mean NAME?`, or nothing."""
    name = nearest(word, names)
    return f"; did you mean {name}?" if name is not None else ""

def counted(number: int, what: str) -> str:
    """`1 fault`, `2 faults`."""
    return f"{number:,} {what}{'' if number == 1 else 's'}"

def shown(text: str) -> str:
    """A text of which every character can be seen, so that no name is an order to a terminal or a line of its own."""
    return "".join(it if it.isprintable() else repr(it)[1:-1] for it in text)

def month_text(month: int) -> str:
    """A month that is counted from the year 0, as it is written."""
    return f"{month // 12:04d}-{month % 12 + 1:02d}"

def month_number(text: str) -> int:
    """A month that has the shape of one, counted from the year 0."""
    return int(text[:4]) * 12 + int(text[5:]) - 1

def read_month(text: str) -> int | None:
    """A month from 1800-01 to 2999-12, counted from the year 0, or None."""
    is_month = re.fullmatch(r"(1[89]|2[0-9])[0-9]{2}-(0[1-9]|1[0-2])", text, re.ASCII)
    return month_number(text) if is_month else None

def days_in(month: int) -> int:
    return calendar.monthrange(month // 12, month % 12 + 1)[1]

def aligned(rows: Iterable[Iterable[Any]]) -> Iterator[str]:
    """Rows of texts and numbers as lines, each column as wide as it must be; numbers to the right."""
    listed = [list(row) for row in rows]
    for at in range(len(listed[0])):
        width = max(len(str(row[at])) for row in listed)
        is_right = all(re.fullmatch("-|[0-9,]+", str(row[at])) for row in listed[1:])
        for row in listed:
            row[at] = str(row[at]).rjust(width) if is_right else str(row[at]).ljust(width)
    yield from ("  ".join(row).rstrip() for row in listed)

# --- The command line -------------------------------------------------------------------------------------------------
def options(words: Sequence[str], valued: Sequence[str] = (), flags: Sequence[str] = (),
            count: int | Sequence[int] | None = None) -> tuple[dict[str, list[str]], list[str]]:
    """The options of a command line by name, each with the list of its values, and the words beside them, of which
    there have to be so many."""
    given: dict[str, list[str]] = {}
    rest, left = [], iter(words)
    for word in left:
        if word in valued:
            value = next(left, None)
            if value is None:
                raise WrongWords(f"{word} needs a value")
            given.setdefault(word, []).append(value)
        elif word in flags:
            given[word] = []
        elif word.startswith("--"):
            raise WrongWords(f"there is no option {word}")
        else:
            rest.append(word)
    counts = (count,) if isinstance(count, int) else count
    if counts is not None and len(rest) not in counts:
        raise WrongWords(f"takes {' or '.join(map(str, counts))} words beside options, not {len(rest)}")
    return given, rest

def tell(lines: Iterable[object], name: str = "") -> None:
    """Puts lines to standard error, in which every character can be seen."""
    for line in lines:
        print(name + "\n".join(map(shown, str(line).split("\n"))), file=sys.stderr)

def help_of(name: str) -> str:
    """The help of a script, and behind it what all helps share."""
    texts = (read_bytes(os.path.join(ROOT, "docs", "help", f"{it}.txt")) for it in (name, "statuses"))
    return "\n".join(text.decode() for text in texts)

def run(main: Callable[[list[str]], int | None], name: str, words: list[str]) -> int:
    """Does what the words of a command line ask a script for, and answers the status. What stops it is told in a line;
    what can't be written has status 2."""
    try:
        status = (print(help_of(name), end="") if {"--help", "-h"} & set(words) else main(words)) or 0
        sys.stdout.flush()
        return status
    except WrongWords as stop:
        tell([f"{stop}; ./basin {name} --help tells more"], f"{name}: ")
        return stop.status
    except Stop as stop:
        tell([stop], f"{name}: ")
        return stop.status
    except BrokenPipeError:
        os.dup2(os.open(os.devnull, os.O_WRONLY), sys.stdout.fileno())   # (so that nothing is said when Python ends)
        return 1
    except OSError as error:
        tell([f"{error.filename or 'standard output'}: {error.strerror}"], f"{name}: ")
        return 2
    except ValueError as error:
        if str(error) != "embedded null byte":
            raise
        tell(["a name of a file has no NUL"], f"{name}: ")
        return 2

def start(main: Callable[[list[str]], int | None], name: str) -> NoReturn:
    sys.exit(run(main, name, sys.argv[1:]))
