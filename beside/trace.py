"""One trace of an ensemble, summed up by years. Its help is docs/help/trace.txt."""
import contextlib
import re
import subprocess
import sys
import tempfile

from beside import basin, common

def begun_later(amounts, years, first, count):
    """The records of a series that begins so many years later: inflows move, and wants stay."""
    for (month, kind, name), amount in amounts.items():
        place = common.month_number(month) - common.month_number(first)
        if 0 <= place < count:
            moved = (place - 12 * years) % count if kind == "inflow" else place
            yield common.month_text(common.month_number(first) + moved), kind, name, amount

def write_series(out, records):
    has_wants = any(record[1] == "want" for record in records)
    rows = [("month", "kind", "name", "amount"), *records]
    common.write_csv(out, rows if has_wants else [("month", "node", "amount"), *((it[0], *it[2:]) for it in records)])
    out.flush()

@contextlib.contextmanager
def checked(lines, *files):
    """Hands lines on while the program checks them, and raises what it refutes."""
    with subprocess.Popen([basin.PROGRAM, "check", *files, "/dev/stdin"], stdin=subprocess.PIPE,
                          stdout=subprocess.PIPE, encoding="ascii") as checker:
        def both():
            for line in lines:
                # (a checker that has refuted the text reads no more)
                with contextlib.suppress(BrokenPipeError):
                    checker.stdin.write(line)
                yield line
        yield both()
        with contextlib.suppress(BrokenPipeError):
            checker.stdin.close()
        answer = checker.stdout.read().strip()
    if not answer.startswith("checked "):
        raise basin.Failed(1, f"the trace is not accepted: {answer}")

def yearly_sums(months):
    """What each right is delivered in each twelve months, by name."""
    sums = {}
    for place, month in enumerate(months):
        if place % 12 == 0:
            sums = dict.fromkeys(month.delivered, 0)
        for right, amount in month.delivered.items():
            sums[right] += amount
        if place % 12 == 11:
            yield sums

def main(words: list[str]) -> int:
    given, (file, series, number) = common.options(words, (), ("--check",), 3)
    if not re.fullmatch("[0-9]{1,4}", number):
        raise common.WrongWords(f"YEARS is {number}: a whole number")
    years = int(number)
    run = basin.run(file, series)                   # (so the program says what is wrong with the files themselves)
    first, count = run.first, run.count
    del run
    if count % 12 or years >= count // 12:
        raise basin.Failed(2, f"the run has {count} months, and so no trace {years}")
    with tempfile.NamedTemporaryFile("w", suffix=".csv", encoding="ascii", newline="") as turned:
        write_series(turned, list(begun_later(basin.read_series(series, file), years, first, count)))
        lines = basin.lines("run", file, turned.name)
        print("trace", first, count // 12, years)
        with checked(lines, file, turned.name) if "--check" in given else contextlib.nullcontext(lines) as handed:
            for year, sums in enumerate(yearly_sums(basin.read_result(handed))):
                sys.stdout.writelines(f"year {year} {right} {amount}\n" for right, amount in sums.items())
    print("done", years)
    return 0
