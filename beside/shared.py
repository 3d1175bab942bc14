"""An ensemble with its traces shared out by GNU parallel. Its help is docs/help/shared.txt."""
import glob
import os
import shutil
import subprocess
import sys
import tempfile

from beside import basin, common

FAR = ("--sshlogin", "-S", "--slf")                 # options with which other machines take part

def far_words(room, file, series):
    """Puts into a folder all that a job on another machine needs, and answers the options and words of its command."""
    program = os.environ.get("BASIN_PROGRAM") or os.path.join(common.ROOT, ".built", "program")
    sent = {"basin": program, "basin.toml": file} | ({} if series == "-" else {"series.csv": series})
    sent |= {os.path.relpath(path, common.ROOT): path for path in glob.glob(os.path.join(common.HERE, "*.py"))}
    os.mkdir(os.path.join(room, "beside"))
    for name, source in sent.items():
        shutil.copy(source, os.path.join(room, name))
    # (the folder has the same name on all machines, so that this one can take part)
    options = ["--workdir", room, "--cleanup", *(word for name in sent for word in ("--basefile", name))]
    return options, "python3", ["basin.toml", "-" if series == "-" else "series.csv"]

def near_words(file, series):
    return ["--quote"], sys.executable, [os.path.abspath(file), "-" if series == "-" else os.path.abspath(series)]

def make(options, file, series, traces, sums):
    """Lets parallel make all traces, and answers its status."""
    check = ["--check"] if "--check" in options else []
    options = [option for option in options if option != "--check"]
    with tempfile.TemporaryDirectory() as room:
        is_far = any(option.startswith(FAR) for option in options)
        more, python, names = (far_words if is_far else near_words)(*([room] * is_far), file, series)
        words = ["parallel", "--will-cite", "--halt", "now,fail=1", *more, *options, python, "-B", "-m", "beside",
                 "trace"]
        environment = os.environ | {"BASIN_PROGRAM": os.path.abspath(basin.PROGRAM)}
        return subprocess.run([*words, *check, *names, "{}", ":::", *map(str, range(traces))], cwd=room, stdout=sums,
                              env=environment, stdin=subprocess.DEVNULL).returncode

def main(words: list[str]) -> int:
    if len(words) < 2:
        raise common.WrongWords("takes [--check] [OPTIONS OF PARALLEL] BASIN SERIES")
    *options, file, series = words
    if shutil.which("parallel") is None:
        raise basin.Failed(2, "GNU parallel is needed: apt-get install parallel")
    run = basin.run(file, series)                   # (so the program says what is wrong with the files)
    months = run.count
    del run
    if months % 12:
        list(basin.lines("ensemble", file, series))
    with tempfile.TemporaryFile() as sums:
        status = make(options, file, series, months // 12, sums)
        sums.seek(0)
        return status or subprocess.run([sys.executable, "-B", "-m", "beside", "count", "-"], stdin=sums).returncode
