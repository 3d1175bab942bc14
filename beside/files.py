"""The two input files, read within the program's bounds: what it refuses is refused with its line and its status."""
from typing import Any

from beside import common, lint, model, places, series_faults

Amounts = dict[tuple[int, str, int], int]

class Refused(common.Stop):
    """A file is refused: `line` is the program's line for it."""

    def __init__(self, said: Any) -> None:
        self.line = said.line
        super().__init__(lint.written(said), 3 if said.line.startswith("basin: ") else 4)

def read_toml(path: str) -> dict[str, Any]:
    """A TOML document as a table."""
    data = common.read_bytes(path)
    odd = lint.no_text(data)
    try:
        if odd:
            raise common.BadText(f"{path}:{odd[0][0]}: {odd[1]}")
        return places.Reader(text := data.decode("utf-8").removeprefix("\ufeff")).document()
    except places.Wrong as wrong:
        raise common.BadText(f"{path}:{places.line_of(text, wrong.args[1])}: {wrong.args[0]}") from None

def document(path: str, data: bytes | None = None) -> Any:
    """A basin file without a fault, with the places of all that it has."""
    d, found = lint.basin_faults_of(path, common.read_bytes(path) if data is None else data, True)
    if found:
        raise Refused(found[0])
    return d

def read_basin(path: str) -> model.Basin:
    return model.Basin(document(path).tree)

def amounts(path: str, basin: str | None = None) -> dict[tuple[str, str, str], int]:
    """The amounts of a series, each by its month, its kind (`inflow` or `want`) and its name. With the file of its
    basin whatever the program refuses of it is refused, and else what is no series at all."""
    d = None if basin is None else document(basin)
    if path == "-":
        said = lint.due_elsewhere(basin, d, path) if d else []
    else:
        said = lint.series_said(d, path, True)
    for it in said:
        if it.line:
            raise Refused(it)
    rows = [row for _, _, row in series_faults.records(common.read_bytes(path))][1:] if path != "-" else []
    return {(row[0], row[1] if len(row) == 4 else "inflow", row[-2]): int(row[-1]) for row in rows}

def read(basin_path: str, series_path: str) -> tuple[model.Basin, Amounts]:
    """A basin, and the amounts of its series by the months of the run from 0, kinds and numbers."""
    basin, found = read_basin(basin_path), amounts(series_path, basin_path)
    at = {"inflow": basin.node_at, "want": basin.right_at}
    return basin, {((common.read_month(month) or 0) - basin.first, kind, at[kind][name]): amount
                   for (month, kind, name), amount in found.items()}
