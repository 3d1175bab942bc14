"""split PROGRAM: holds ensembles that are made in traces against those of the program, and tries what is refused.

Without GNU parallel the traces are made one by one, by the job array's script, and counted.
"""
import os
import re
import shutil
import subprocess

from beside import common
from beside.common import write_text
from checks.harness import example, files_of, not_tried, ran, read, script, tried

VALLEY = files_of("valley")[:2]

def ensembles(program, room):
    """Ensembles by parallel, byte for byte, of gauges, of wants in the series, and without a series."""
    spaced = os.path.join(room, "a river")
    subprocess.run([example("weights", "ladder"), "24", spaced], check=True)
    cases = {"the valley": VALLEY, "a basin with wants in its series": [spaced + ".toml", spaced + ".csv"],
             "a basin without a series": [example("branches.toml"), "-"]}
    for what, files in cases.items():
        due, found = ran(program, "ensemble", *files), script("shared", "--check", *files)
        tried(f"the ensemble of {what}", due[2] == 0 and found == due, found)

def job_array(room):
    """The traces of the valley as the tasks of a job array make them, and their files."""
    for trace in range(10):
        ran("sh", os.path.join(common.HERE, "array.slurm"), *VALLEY, room, cwd=common.ROOT,
            env={"SLURM_ARRAY_TASK_ID": str(trace)})
    files = [os.path.join(room, f"trace-{trace}.sums") for trace in range(10)]
    found = script("count", *files)
    tried("the job array's traces make the ensemble", found == (read("examples", "valley.ensemble"), [], 0), found)
    return files

def counts_refused(room, files):
    """What count says of traces that are not those of one ensemble."""
    text = read(files[3])
    texts = {"cut": text[:-7], "other": text.replace("trace 1981", "trace 1982"),
             "gap": re.sub("year 4 town .*\n", "", text)}
    cut, other, gap = (write_text(os.path.join(room, name), it) for name, it in texts.items())
    cases = {"these traces are missing: 3, 9": [*files[:3], *files[4:9]],
             f"{files[2]}: trace 2 is there twice": [*files, files[2]],
             f"the trace of {cut} ends before its last line": [cut],
             f"{other}: trace 3 is one of another ensemble": [files[0], other],
             f"{gap}: trace 3 has not a line for each right and year": [files[0], gap]}
    for line, names in cases.items():
        tried(line.replace(room + "/", ""), script("count", *names) == ("", [f"count: {line}"], 1))

def refused(program, room):
    """The program's own lines and statuses, and a trace that is refuted."""
    lacking = write_text(os.path.join(room, "lacking.csv"), "".join(read(VALLEY[1]).splitlines(True)[:-1]))
    for files in ([example("decree.toml"), "-"], [VALLEY[0], lacking], [lacking, "-"]):
        _, (line,), status = ran(program, "ensemble", *files)
        # (a trace alone can't be one of a part of a year, and says so in its own words)
        names = ["trace", "shared"] if "PartYear" not in line else ["shared"]
        for name in names if shutil.which("parallel") else names[:-1]:
            found = script(name, *files, *(["0"] if name == "trace" else []))
            tried(f"refused by {name}: {line}", found == ("", [f"{name}: {line}"], status), found)
    liar = write_text(os.path.join(room, "liar"), f"""#!/bin/sh
[ "$1" = run ] || exec '{program}' "$@"
'{program}' "$@" | sed 's/^deliver town 0 /deliver town 1 /'
""")
    os.chmod(liar, 0o755)
    _, told, status = script("trace", "--check", *VALLEY, "0", program=liar)
    tried("a trace that is no run", "is not accepted: refuted " in "".join(told) and status == 1, told)

def main(room, program):
    if shutil.which("parallel"):
        ensembles(program, room)
    else:
        not_tried("ensembles by GNU parallel", "parallel")
    counts_refused(room, job_array(room))
    refused(program, room)
