"""Basin files and series with changes such as people and editors make, each by a number: what lint is tried on."""
import functools
import os
import re
import tempfile

from beside.common import month_text, write_text
from checks import harness

DENSE, KEYS, VALUES, LINES, SIGNS, FIELDS, AT_KEYS = harness.table(
    "changes", "DENSE KEYS VALUES LINES SIGNS FIELDS AT_KEYS")
DENSE_SERIES = "month,kind,name,amount\n" + "".join(
    f"{month_text(1981 * 12 + 9 + index)},{kind},{name},{index}\n"
    for index in range(12) for kind, name in (("inflow", "gauge"), ("want", "mill")))

def spread_out(text, chance):
    """A basin file of one of the shapes that mean the same: tables in braces over lines, other line ends, a byte
    order mark."""
    how = chance.randrange(12)
    if how == 0:
        text = text.replace(" }", ",\n }")
    elif how == 1:
        text = text.replace("{ ", "{ # why\n")
    elif how == 2:
        text = text.replace("\n", "\r\n")
    elif how == 3:
        text = "\ufeff" + text
    return text

def at_a_key(text, chance):
    """A text with another value at one of its keys, or with what stands at this key elsewhere."""
    pairs = list(re.finditer(r"(?m)\b([a-z_]+) = (\[.*\]|\"[^\"\n]*\"|[^,}\n]+)", text))
    if not pairs:
        return text
    one = chance.choice(pairs)
    like = [pair[2] for pair in pairs if pair[1] == one[1]]
    new = chance.choice(like) if chance.randrange(2) else chance.choice(AT_KEYS.get(one[1], VALUES))
    return text[:one.start(2)] + new + text[one.end(2):]

def in_lines(text, chance):
    """A text with lines taken out, doubled or put in."""
    lines = text.split("\n")
    at, other, how = chance.randrange(len(lines)), chance.randrange(len(lines)), chance.randrange(6)
    if how == 0:
        return "\n".join(lines[:at] + lines[at + 1:])
    if how == 1:
        return "\n".join(lines[:at] + [lines[other]] + lines[at:])
    if how == 2:
        return text + "\n" + "\n".join(lines[at:at + chance.randrange(1, 8)]) + "\n"
    if how == 3:
        return "\n".join(lines[:at] + lines[at + chance.randrange(1, 8):])
    block = chance.choice(LINES)
    if how == 4:
        return text + "\n" + block + "\n"
    heads = [place for place, line in enumerate(lines) if line.startswith("[[")] or [at]
    at = chance.choice(heads) + (0 if block.startswith("[") else 1)
    return "\n".join(lines[:at] + [block] + lines[at:])

def in_words(text, chance):
    """A text with a key, a name or a word written otherwise."""
    how = chance.randrange(3)
    if how == 0:
        key = chance.choice(list(re.finditer(r"[a-z_]+(?= = )", text)) or [re.search("", text)])
        new = chance.choice((*KEYS, key[0].upper(), key[0] + "s", key[0][1:], "colour", f'"{key[0]}"', key[0] + ".x",
            "annual_" + key[0]))
        return text[:key.start()] + new + text[key.end():]
    if how == 1:
        names = re.findall(r'"[A-Za-z0-9_-]+"', text) or ['"x"']
        return text.replace(chance.choice(names), chance.choice((chance.choice(names), chance.choice(names).upper())),
            chance.choice((1, -1)))
    swaps = (("format = 1", "format = 2"), ("format = 2", "format = 1"), ("outlet = true", "outlet = false"),
        ("per_day", "#per_day"), ("from", "to"), ("[[", "["))
    return text.replace(*chance.choice(swaps), chance.choice((1, -1)))

def in_signs(text, chance):
    """A text with signs such as slip in, or cut off."""
    how, place = chance.randrange(5), chance.randrange(len(text) + 1)
    if how == 0:
        return text[:place] + chance.choice(SIGNS) + text[place + chance.randrange(2):]
    if how == 1:
        return text.replace(chance.choice(("[[", "]]", '"', " = ", ",", "\n\n")),
            chance.choice(("[", "]", "", "=", " ")), 1)
    if how == 2:
        return text[:place] if chance.randrange(4) == 0 else text
    values = list(re.finditer(r"(?<== )[^,}\n]+|\"[^\"\n]*\"|(?<=[ \[])[0-9]+", text)) or [re.search("", text)]
    one, two = chance.choice(values), chance.choice(values)
    return text[:one.start()] + (two[0] if how == 3 else chance.choice(VALUES)) + text[one.end():]

def one_change(text, chance):
    """A text of a basin file with one change."""
    return chance.choice((at_a_key, at_a_key, at_a_key, in_lines, in_words, in_signs))(text, chance)

def one_series_change(text, chance):
    """A text of a series with one change."""
    how, lines = chance.randrange(14), text.split("\n")
    at, other = chance.randrange(len(lines)), chance.randrange(len(lines))
    fields = lines[at].split(",")
    place = chance.randrange(len(fields))
    if how < 5:
        fields[place] = chance.choice(FIELDS) if how < 3 else chance.choice(lines[other].split(","))
        lines[at] = ",".join(fields)
    elif how == 5:
        lines[at] = ",".join(fields[:place] + fields[place + 1:])
    elif how == 6:
        lines[at] = lines[at].upper() if chance.randrange(2) else lines[at].replace(",", ";")
    elif how == 7:
        lines.pop(at)
    elif how == 8:
        lines.insert(at, lines[other])
    elif how == 9:
        lines[at], lines[other] = lines[other], lines[at]
    elif how == 10:
        return text.replace("\n", chance.choice(("\r\n", "\r", "\n\n")), chance.choice((1, -1)))
    elif how == 11:
        place = chance.randrange(len(text) + 1)
        return text[:place] + chance.choice(SIGNS) + text[place + chance.randrange(2):]
    elif how == 12:
        return text[:chance.randrange(len(text) + 1)]
    return "\n".join(lines)

def originals():
    """The basins that are changed, each with its series or nothing: short examples, and the dense one."""
    for path in harness.all_examples(".toml"):
        series = path[:-5] + ".csv"
        texts = [harness.read(name) if os.path.exists(name) else "" for name in (path, series)]
        if len(texts[1]) < 3000:
            yield texts
    yield from [[DENSE, DENSE_SERIES]] * 6

ORIGINALS = list(originals())

@functools.cache
def small_texts():
    """The basins and series of the first small basins."""
    with tempfile.TemporaryDirectory() as room:
        return [list(map(harness.read, names)) for names in harness.small(room, range(1000))]

def calls(text, chance):
    """The text with one change of its calls: nodes, sets, callers or whole calls taken out, put in or changed."""
    lines = text.split(b"\n")
    places = [at for at, line in enumerate(lines) if line.startswith((b"call ", b"in ", b"called "))]
    if not places:
        return text
    at, how = chance.choice(places), chance.randrange(5)
    if how == 0:
        return b"\n".join(lines[:at] + lines[at + 1:])
    if how == 1:
        end = next(place for place in range(at + 1, len(lines)) if not lines[place].startswith(b"in "))
        return b"\n".join(lines[:at] + lines[end:])
    delivered = [line.split(b" ")[1] for line in lines if line.startswith(b"deliver ")]
    nodes = [line.split(b" ")[1] for line in lines if line.startswith(b"in ")]
    if how == 2:
        return b"\n".join(lines[:at] + [b"call " + chance.choice(delivered),
            chance.choice([line for line in lines if line.startswith(b"in ")])] + lines[at:])
    if how == 3:
        return b"\n".join(lines[:at] + [b"called " + chance.choice(delivered) + b" " + chance.choice(delivered)]
            + lines[at:])
    fields = lines[at].split(b" ")
    fields[-1] = chance.choice(nodes if fields[0] == b"in" else delivered)
    return b"\n".join(lines[:at] + [b" ".join(fields)] + lines[at + 1:])

def result(text, chance):
    """A text of a result with one to three changes of amounts, names, lines and signs, or its end cut off."""
    lines = text.split(b"\n")
    for _ in range(chance.choice((1, 1, 1, 2, 3))):
        how, at, other = chance.randrange(20), chance.randrange(len(lines)), chance.randrange(len(lines))
        amounts = [place for place, line in enumerate(lines) if line[-1:].isdigit() and line.count(b" ") > 1]
        if how < 14:
            at = chance.choice(amounts) if how < 12 and amounts else at
            fields = lines[at].split(b" ")
            place = chance.choice((2, 2, len(fields) - 1)) if how < 12 and amounts else -1
            more = chance.choice((-100, -10, -1, -1, 1, 1, 10, 100, 10**15))
            fields[place] = (b"%d" % max(0, int(fields[place]) + more) if how < 12 and fields[place].isdigit()
                             else chance.choice(lines).split(b" ")[-1])
            lines[at] = b" ".join(fields)
        elif how < 18:
            put = {14: [], 15: [lines[at]] * 2, 16: [lines[other]], 17: [lines[other], lines[at]]}[how]
            lines[at:at + 1] = put
        elif how == 18:
            lines[at] += chance.choice((b" ", b"x", b" 0", b"\r", b"\xff", b"\x00", b"1" * 130))
        else:
            return b"\n".join(lines)[:chance.randrange(len(text))]
    return b"\n".join(lines)

def files(number, chance, room):
    """Writes a changed basin and series into a folder, and answers their names."""
    texts = list(small_texts()[number % 1000] if chance.randrange(3) == 0 else chance.choice(ORIGINALS))
    place = 1 if texts[1] and chance.randrange(3) == 0 else 0
    for _ in range(chance.choice((1, 1, 1, 2, 2, 3))):
        texts[place] = (one_series_change if place else one_change)(texts[place], chance)
    texts[0] = spread_out(texts[0], chance)
    names = [os.path.join(room, "basin.toml"), os.path.join(room, "series.csv")]
    for name, text in zip(names, texts):
        data = text.encode("utf-8")
        if chance.randrange(60) == 0:
            at = chance.randrange(len(data) + 1)
            data = data[:at] + chance.choice((b"\xff", b"\xc3", b"\xed\xa0\x80")) + data[at:]
        write_text(name, data)
    return names if texts[1] else [names[0], "-"]
