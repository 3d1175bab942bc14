"""Reads a TOML document of version 1.1, and keeps where each key, value and table stands.

Python's tomllib tells no places, and reads version 1.0. This reader follows, rule by rule, the grammar that the
program's own reader keeps: 1.1, whole numbers of 64 bits, at most 80 levels. It is tested against the program and not
proved.
"""
import bisect
import functools
import re

from beside.common import DAYS

LEVELS = 80                         # the most parts of a key, and the most lists and tables in one another
BLANKS = re.compile(r"[ \t]*")
GAP = re.compile(r"(?:[ \t\n]+|\r\n|#[^\x00-\x08\x0a-\x1f\x7f]*)*")
BARE = re.compile(r"[A-Za-z0-9_-]*")
WORD = re.compile(r"[A-Za-z0-9_+.:-]*(?: (?=[0-9])(?<=[A-Za-z0-9_+.:-] )[A-Za-z0-9_+.:-]+)?")
SMALL = re.compile(r"0|[1-9][0-9]{0,17}")         # what most numbers are
DAY = r"([0-9]{4})-([0-9]{2})-([0-9]{2})"
TIME = r"([0-9]{2}):([0-9]{2})(?::([0-9]{2})(?:\.[0-9]+)?)?"
LOCAL_TIME, OFFSET = re.compile(TIME), r"(?:[Zz]|[+-]([0-9]{2}):([0-9]{2}))?"
MOMENT = re.compile(f"{DAY}(?:[Tt ]{TIME}{OFFSET})?")
DECIMAL = re.compile(r"(0|[1-9][0-9]*)(\.[0-9]+)?([eE][+-]?[0-9]+)?")
ESCAPES = {"b": "\b", "e": "\x1b", "f": "\f", "n": "\n", "r": "\r", "t": "\t", '"': '"', "\\": "\\"}

class Wrong(Exception):
    """The text is no document: why, and the place from 0 where that shows."""

class Table(dict):
    """A table, the place where it begins, and of each key the places of the key and of its value. `origin` says what
    made it: a header, a header that passed through it, a dotted key; None is a table within braces, which nothing
    adds to. An entry of a basin file is told its `table` and `number`, too."""

    def __init__(self, at, origin=None):
        super().__init__()
        self.at, self.origin, self.key_at, self.value_at = at, origin, {}, {}

class Listed(list):
    """A list, and the places of its items. `is_open` says that headers in double brackets made it."""

    def __init__(self, at, is_open=False):
        super().__init__()
        self.at, self.is_open, self.item_at = at, is_open, []

class Moment:
    """A date or time of TOML, which no key of a basin file has: its text."""

    def __init__(self, text):
        self.text = text

def is_moment(word):
    """Whether a word is a date, a time or both that the calendar has."""
    if word[2:3] == ":":
        fits = LOCAL_TIME.fullmatch(word)
        return fits is not None and is_time(*fits.groups())
    fits = MOMENT.fullmatch(word)
    if fits is None:
        return False
    year, month, day, *time, zone_hours, zone_minutes = fits.groups()
    is_leap = int(year) % 4 == 0 and (int(year) % 100 != 0 or int(year) % 400 == 0)
    is_day = 1 <= int(month) <= 12 and 1 <= int(day) <= DAYS[int(month) - 1] + (is_leap and month == "02")
    return is_day and (time[0] is None or is_time(*time)) and int(zone_hours or 0) < 24 and int(zone_minutes or 0) < 60

def is_time(hour, minute, second):
    return int(hour) < 24 and int(minute) < 60 and int(second or 0) < 61

def number(word):
    """The number that a word writes, or None."""
    radix = {"0x": 16, "0o": 8, "0b": 2}.get(word[:2], 10)
    digits = "0-9A-Fa-f" if radix == 16 else "0-9"
    if re.search(rf"(?<![{digits}])_|_(?![{digits}])", word) or word == "":
        return None
    word = word.replace("_", "")
    if radix != 10:
        fits = re.fullmatch({16: "[0-9A-Fa-f]+", 8: "[0-7]+", 2: "[01]+"}[radix], word[2:])
        return int(word[2:], radix) if fits and int(word[2:], radix) < 2**63 else None
    sign, rest = (word[0], word[1:]) if word[0] in "+-" else ("", word)
    if rest in ("inf", "nan"):
        return float(word)
    fits = DECIMAL.fullmatch(rest)
    if fits is None:
        return None
    if fits[2] or fits[3]:
        return float(word) if abs(float(word)) != float("inf") else None
    whole = int(word) if len(rest) < 20 else 2**64
    return whole if -2**63 <= whole < 2**63 else None

def put(table, path, at, value, value_at):
    """Puts the value of a key, which may be dotted, into a table."""
    for part in path[:-1]:
        inner = table.get(part)
        if inner is None:
            inner = table[part] = Table(at, "dotted")
            table.key_at[part] = table.value_at[part] = at
        elif not isinstance(inner, Table) or inner.origin in (None, "header"):
            raise Wrong(f"{part} is defined already, and nothing can be added to it here", at)
        inner.origin, table = "dotted", inner
    set_new(table, path[-1], at, value, value_at)

def set_new(table, key, at, value, value_at):
    if key in table:
        raise Wrong(f"the key {key} stands twice in one table", at)
    table[key] = value
    table.key_at[key], table.value_at[key] = at, value_at

def opened(top, path, at, is_listed):
    """The table that a header begins, in single brackets or in double ones."""
    table = top
    for part in path[:-1]:
        inner = table.get(part)
        if inner is None:
            inner = Table(at, "implicit")
            set_new(table, part, at, inner, at)
        inner = inner[-1] if isinstance(inner, Listed) and inner.is_open else inner
        if not isinstance(inner, Table) or inner.origin is None:
            raise Wrong(f"{part} is a value already, and no table", at)
        table = inner
    last, new = table.get(path[-1]), Table(at, "header")
    if is_listed:
        if last is None:
            last = Listed(at, is_open=True)
            set_new(table, path[-1], at, last, at)
        elif not (isinstance(last, Listed) and last.is_open):
            raise Wrong(f"{path[-1]} is there already, and not in double brackets: write [[{path[-1]}]] each time", at)
        last.append(new)
        last.item_at.append(at)
        return new
    if last is None:
        set_new(table, path[-1], at, new, at)
        return new
    if isinstance(last, Table) and last.origin == "implicit":
        last.origin = "header"
        return last
    raise Wrong(f"a second table {path[-1]}: lists of tables have double brackets, [[{path[-1]}]]", at)

class Reader:
    """Reads a text from its front: `at` is the place that is reached."""

    def __init__(self, text):
        self.text, self.at = text, 0

    def skip(self, shape):
        self.at = shape.match(self.text, self.at).end()

    def sign(self):
        """The sign at the place that is reached, or nothing at the end."""
        return self.text[self.at:self.at + 1]

    def take(self, sign, why):
        if self.sign() != sign:
            raise Wrong(why, self.at)
        self.at += 1

    def document(self):
        top = here = Table(0, "header")
        self.skip(GAP)
        while self.at < len(self.text):
            here = self.expression(top, here)
            self.skip(BLANKS)
            if self.sign() not in ("", "#", "\n", "\r"):
                raise Wrong(after_value(self.text, self.at), self.at)
            self.skip(GAP)
        return top

    def expression(self, top, here):
        """Reads one header or one key with its value, and answers the table to which what follows belongs."""
        start, brackets = self.at, 2 if self.text.startswith("[[", self.at) else 1
        if self.sign() != "[":
            self.pair(here)
            return here
        self.at += brackets
        self.skip(BLANKS)
        path = self.key()
        for _ in range(brackets):
            self.take("]", f"the header isn't closed: write {'[' * brackets}{path[-1]}{']' * brackets}")
        return opened(top, path, start, brackets == 2)

    def pair(self, table, level=LEVELS):
        start = self.at
        path = self.key()
        if self.sign() != "=":
            raise Wrong(no_equals(self.text, self.at, path), self.at)
        self.at += 1
        self.skip(BLANKS)
        value_at = self.at
        value = self.value(level)
        put(table, path, start, value, value_at)

    def key(self):
        path = []
        while len(path) < LEVELS:
            if self.sign() in ('"', "'") and self.sign():
                path.append(self.one_line())
            else:
                start = self.at
                self.skip(BARE)
                if start == self.at:
                    raise Wrong(no_key(self.text, start), start)
                path.append(self.text[start:self.at])
            self.skip(BLANKS)
            if self.sign() != ".":
                return path
            self.at += 1
            self.skip(BLANKS)
        raise Wrong(f"a key of more than {LEVELS} parts", self.at)

    def value(self, level):
        sign = self.sign()
        if level and sign == "[":
            return self.listed(level - 1)
        if level and sign == "{":
            return self.braced(level - 1)
        if sign in ('"', "'") and sign:
            is_long = self.text.startswith(sign * 3, self.at)
            return self.long_text() if is_long else self.one_line()
        word = WORD.match(self.text, self.at)[0]
        if SMALL.fullmatch(word):
            self.at += len(word)
            return int(word)
        value = {"true": True, "false": False}.get(word)
        if value is None:
            is_dated = re.match(r"[0-9]+[-:]", word)
            value = (Moment(word) if is_moment(word) else None) if is_dated else number(word)
        if value is None:
            raise Wrong(no_value(self.text, self.at, word), self.at)
        self.at += len(word)
        return value

    def listed(self, level):
        items = Listed(self.at)
        self.at += 1
        while True:
            self.skip(GAP)
            if self.sign() == "]":
                self.at += 1
                return items
            items.item_at.append(self.at)
            items.append(self.value(level))
            self.separator("]", items.at, "list")

    def braced(self, level):
        table = Table(self.at, "dotted")
        self.at += 1
        while True:
            self.skip(GAP)
            if self.sign() == "}":
                self.at += 1
                table.origin = None
                return table
            self.pair(table, level)
            self.separator("}", table.at, "table in braces")

    def separator(self, closing, start, what):
        """Reads the comma after an item, unless the end of the list or table stands there."""
        self.skip(GAP)
        if self.sign() == ",":
            self.at += 1
        elif self.sign() == "":
            raise Wrong(f"the {what} that begins in line {line_of(self.text, start)} isn't closed with {closing}",
                self.at)
        elif self.sign() != closing:
            why = after_item(self.text, self.at)
            raise Wrong(why
                or f"a comma is missing here, or the {closing} that ends the {what} of line "
                f"{line_of(self.text, start)}", self.at)

    def one_line(self):
        """A text between two quotation marks on one line."""
        start, mark = self.at, self.sign()
        self.at, parts = self.at + 1, []
        plain = re.compile(r"[^\x00-\x08\x0a-\x1f\x7f" + ('"\\\\' if mark == '"' else "'") + "]*")
        while True:
            parts.append(plain.match(self.text, self.at)[0])
            self.at += len(parts[-1])
            if self.sign() == mark:
                self.at += 1
                return "".join(parts)
            if self.sign() != "\\":
                is_open = self.sign() in ("", "\n", "\r")
                raise Wrong("the text isn't closed: its second quotation mark is missing on this line" if is_open
                            else "a sign in a text that can't stand there", start if is_open else self.at)
            self.at += 1
            parts.append(self.escaped())

    def escaped(self):
        """What stands after a backslash."""
        sign = self.sign()
        count = {"x": 2, "u": 4, "U": 8}.get(sign, 0)
        digits = self.text[self.at + 1:self.at + 1 + count]
        if count and re.fullmatch(r"[0-9A-Fa-f]{%d}" % count, digits):
            code = int(digits, 16)
            if code < 0xD800 or 0xE000 <= code <= 0x10FFFF:
                self.at += 1 + count
                return chr(code)
        if sign in ESCAPES and sign:
            self.at += 1
            return ESCAPES[sign]
        raise Wrong("a backslash in a text stands before a letter that it doesn't go with: names need none",
            self.at - 1)

    def long_text(self):
        """A text between three quotation marks, over lines."""
        start, mark = self.at, self.sign()
        self.at += 3
        self.at += len(re.compile(r"(?:\r?\n)?").match(self.text, self.at)[0])
        plain = re.compile(r"(?:[^\x00-\x08\x0b-\x1f\x7f" + ('"\\\\' if mark == '"' else "'") + "]|\r\n)*")
        parts = []
        while True:
            parts.append(plain.match(self.text, self.at)[0])
            self.at += len(parts[-1])
            marks = len(re.compile(f"{mark}*").match(self.text, self.at)[0])
            if 3 <= marks < 6:
                self.at += marks
                return "".join(parts) + mark * (marks - 3)
            if 0 < marks < 3:
                self.at += marks
                parts.append(mark * marks)
            elif self.sign() == "\\" and mark == '"':
                self.at += 1
                fold = re.compile(r"[ \t]*\r?\n(?:[ \t\n]|\r\n)*").match(self.text, self.at)
                parts.append("" if fold else self.escaped())
                self.at = fold.end() if fold else self.at
            else:
                raise Wrong(f"the text that begins in line {line_of(self.text, start)} isn't closed", self.at)

@functools.lru_cache(maxsize=2)
def line_feeds(text):
    """The places of a text's line feeds."""
    return [found.start() for found in re.finditer("\n", text)]

def line_of(text, at):
    return bisect.bisect_left(line_feeds(text), at) + 1

def column_of(text, at):
    return at - text.rfind("\n", 0, at)

def rest_of_line(text, at, most=24):
    """What stands on the line from a place on, or its front."""
    rest = re.compile(r"[^\r\n]*").match(text, at, at + 1000)[0].rstrip()
    return rest if len(rest) <= most else rest[:most] + ".."

def no_key(text, at):
    rest = rest_of_line(text, at)
    if rest.startswith(("//", ";", "--", "/*", "'")):
        return f"found {rest}: a comment begins with #"
    if rest[:1] in "“”„«»":
        return f"found {rest}: write straight quotation marks, \""
    return f"found {rest or 'nothing'}: a key has to stand here, as in name = \"weir\", or a header, as [[node]]"

def no_equals(text, at, path):
    if text[at:at + 1] == ":":
        return f"found a colon after {path[-1][:60]}: write {path[-1][:60]} = .."
    return (f"after {path[-1][:60]} comes {rest_of_line(text, at) or 'nothing'}: write {path[-1][:60]} = and then its "
        f"value")

def no_value(text, at, word):
    """Why what stands after `=`, or in a list, is no value."""
    rest, word = rest_of_line(text, at), word[:60]
    if rest == "" or rest[0] == "#":
        return "no value stands here"
    if word.lower() in ("true", "false", "yes", "no"):
        return f"found {word}: write true or false, in small letters"
    if rest[0] in "“”„«»‘’":
        return f"found {rest}: write straight quotation marks, \""
    if re.fullmatch(r"[0-9]+([-/:.][0-9]+)+", word) or word[:1].isdigit() and "-" in word:
        return f"found {word}: a month or a date stands in quotation marks, as \"1982-10\" or \"1898-04-15\""
    if re.fullmatch(r"[+-]?0[0-9]+", word):
        return f"found {word}: write the number without zeros in front"
    if re.fullmatch(r"[+-]?[0-9]+", word):
        return f"found {word}: the number is too large"
    if re.fullmatch(r"[0-9]+( [0-9]{3})+", word):
        return f"found {word}: write the number without blanks, {word.replace(' ', '')}"
    if re.match(r"[+-]?[0-9]+\.?[0-9]*[A-Za-z]+$", word):
        return f"found {word}: write the number alone, without a unit"
    if re.match(r"[+-]?\.?[0-9]", word):
        return f"found {rest}: write a whole number, as 12"
    if word:
        return f"found {rest}: a text stands in quotation marks, as \"{word}\""
    return f"found {rest}: here a number, a text in quotation marks, true, false or a list has to stand"

def after_item(text, at):
    """What a sign after a number means, or None."""
    before, rest = re.search(r"[0-9.]*$", text[max(0, at - 30):at].rstrip(" "))[0], rest_of_line(text, at)
    if rest[:1] == "%":
        return "found a percent sign: write a whole number; part counts parts of 10,000, so 25% is 2500"
    if before and rest[:1].isalpha():
        return f"found {rest} after the number {before}: write the number alone, without a unit"
    if before and re.match(r"['’ ]?[0-9]{3}\b", rest):
        return f"found {before} and then {rest}: write the number without signs within, as 1200"
    return None

def after_value(text, at):
    """Why something stands after a value."""
    rest = rest_of_line(text, at)
    before = re.search(r"[0-9]*$", text[max(0, at - 30):at])[0]
    digits = re.match(r",([0-9,]+)", rest)
    if before and digits:
        return f"found {before}{digits[0]}: write the number without commas, {before}{digits[1].replace(',', '')}"
    if rest.startswith(","):
        return "found a comma: after a value nothing else stands on the line"
    if rest.startswith("//"):
        return "found //: a comment begins with #"
    return after_item(text, at) or f"found {rest} after the value: nothing else may stand on the line"
