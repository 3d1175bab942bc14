"""All that is wrong with a basin file and its series, with line, key, what was found and what to do.

Its help is docs/help/lint.txt.
"""
import collections
import contextlib

from beside import basin_faults, common, doubts, model, places, series_faults, whole_faults

PASSES = (*basin_faults.PASSES, whole_faults.network_faults, whole_faults.right_faults, whole_faults.area_faults)
# A line of the answer: the program's line for a fault (None for a warning), the file, the line and the column, and what
# is said.
Said = collections.namedtuple("Said", "line path place text")

def no_text(data):
    """The place of the first byte that is no UTF-8, and what to do, or None."""
    try:
        data.decode("utf-8")
        return None
    except UnicodeDecodeError as error:
        before = data[:error.start]
        what = "the file is in UTF-16: save it" if data[:2] in (b"\xff\xfe",
            b"\xfe\xff") else "a letter here is not in UTF-8: save the file"
        return (before.count(b"\n") + 1, error.start - before.rfind(b"\n")), what + " as UTF-8"

def basin_faults_of(path, data, is_first=False):
    """The document, if the bytes are one, and its faults, or the first alone."""
    odd = no_text(data)
    if odd:
        return None, [Said("basin: Toml top 0", path, *odd)]
    text = data.decode("utf-8").removeprefix("\ufeff")
    try:
        d = basin_faults.Document(text, is_first)
    except places.Wrong as wrong:
        why, at = wrong.args
        return None, [Said("basin: Toml top 0", path, (places.line_of(text, at), places.column_of(text, at)), why)]
    with contextlib.suppress(basin_faults.Enough):
        for look in PASSES:
            look(d)
    return d, [Said(f"basin: {it.kind} {it.table} {it.number}", path, (places.line_of(text, it.at),), it.text)
               for it in d.found]

def doubts_of(path, d, data):
    return [Said(None, path, (places.line_of(d.text, doubt.entry.key_at.get(doubt.key, doubt.entry.at)),),
                 f"{doubt.word}: {d.words(doubt.entry)}{doubt.text}")
            for doubt in doubts.doubts(d, model.Basin(d.tree))]

def said_of(basin, series):
    """All lines on the two files; of the faults the first is the program's."""
    data = common.read_bytes(basin)
    d, found = basin_faults_of(basin, data)
    lines = found[:1] + sorted(found[1:], key=lambda said: said.place)
    if series not in (None, "-"):
        of = series_said(d, series)
        lines += of[:1] + sorted(of[1:], key=lambda said: said.place)
    elif not found:
        lines += due_elsewhere(basin, d, series)
    return lines + ([] if found else doubts_of(basin, d, data))

def series_said(d, series, is_first=False):
    """The faults of a series, or the first alone."""
    return [Said(series_faults.line_of(it), series, (it.at,) if it.at else (), it.text)
        for it in series_faults.series_faults(d, common.read_bytes(series), is_first)]

def first_of(basin, series):
    """The first fault of the two files, which the program names, or None. Nothing is looked for after it."""
    d, found = basin_faults_of(basin, common.read_bytes(basin), is_first=True)
    if not found and series is not None:
        found = series_said(d, series, True) if series != "-" else due_elsewhere(basin, d, series)
    return next((said for said in found if said.line), None)

def due_elsewhere(path, d, series):
    """What is missing where a basin has gauges or wants in the series, and no series is given."""
    due = series_faults.Due(d)
    names = [name for kind in due.names.values() for name, is_due in kind.items() if is_due]
    if names and series == "-":
        return [Said(series_faults.line_of(it), path, (), it.text) for it in series_faults.Series(due).missing()]
    return [Said(None, path, (),
        f"note: the series was not looked at; it has to give {', '.join(names[:12])}"
        + (" .." if len(names) > 12 else ""))] if names else []

def written(said):
    place = "".join(f":{number}" for number in said.place)
    return common.shown(f"{said.path}{place}: {said.text}" + (f"  [{said.line.split(' ')[1]}]" if said.line else ""))

def main(words: list[str]) -> int:
    basin, series = [*common.options(words, count=(1, 2))[1], None][:2]
    lines = said_of(basin, series)
    print(*map(written, lines), sep="\n", end="\n" * bool(lines))
    faults = [said.line for said in lines if said.line]
    warnings = sum(1 for said in lines if said.text.startswith("warning: "))
    print((common.counted(len(faults), "fault") if faults else "no fault")
          + (f", {common.counted(warnings, 'warning')}" if warnings else ""))
    return 0 if not faults else 3 if faults[0].startswith("basin: ") else 4
