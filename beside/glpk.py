"""Linear programs, solved by glpsol, of Debian's package glpk-utils."""
import os
import shutil
import subprocess
import tempfile
from collections.abc import Iterable, Mapping

from beside.common import Stop, write_text

Row = tuple[Mapping[int, int], str, int]        # the terms by their columns, `=` or `<=`, and what these come to

def is_there() -> bool:
    return shutil.which("glpsol") is not None

def solved(aim: str, gains: Iterable[int], rows: Iterable[Row], bounds: Iterable[tuple[int, int | None]]) -> tuple[
        list[float], list[float]]:
    """The value of each column, and the dual of each row; `aim` is maximize or minimize. A file in the format of CPLEX
    has all columns in its first row, so glpsol numbers them as here."""
    def spelled(terms: Iterable[tuple[int, int]]) -> str:
        return "\n".join(f"{value:+d} x{column}" for column, value in terms) or "+0 x0"
    lines = [aim, spelled(enumerate(gains)), "subject to"]
    lines += [f"{spelled(terms.items())} {sign} {amount}" for terms, sign, amount in rows]
    lines += ["bounds", *(f"{least} <= x{column}" + ("" if most is None else f" <= {most}")
                          for column, (least, most) in enumerate(bounds)), "end", ""]
    with tempfile.TemporaryDirectory() as room:
        asked, answer = write_text(os.path.join(room, "asked"), "\n".join(lines)), os.path.join(room, "answer")
        ran = subprocess.run(["glpsol", "--lp", asked, "--write", answer], capture_output=True, text=True)
        if ran.returncode or "OPTIMAL" not in ran.stdout:
            raise Stop(f"glpsol failed: {ran.stdout[-500:]}", 2)
        with open(answer, encoding="ascii") as file:
            told = [line.split() for line in file]
    return [float(it[3]) for it in told if it[0] == "j"], [float(it[4]) for it in told if it[0] == "i"]
