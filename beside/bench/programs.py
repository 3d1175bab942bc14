"""The programs that basin is measured against: what each needs, and how it is built in `out` beside this file."""
import os
import shutil
import subprocess
import sys

from beside import common

HERE = os.path.dirname(os.path.abspath(__file__))
OUT = os.path.join(HERE, "out")
# For each program in C++ the header that it needs, Debian's package that has it, and the libraries.
IN_C = {
    "lexflow": (None, None, []),
    "plain": (None, None, []),
    "lemon-flows": ("lemon/preflow.h", "liblemon-dev", ["-llemon"]),
    "lemon-weights": ("lemon/network_simplex.h", "liblemon-dev", ["-llemon"]),
    "glpk": ("glpk.h", "libglpk-dev", ["-lglpk"]),
    "clp": ("coin/ClpSimplex.hpp", "coinor-libclp-dev", ["-lClp", "-lCoinUtils"]),
}
NAMES = [*IN_C, "highs"]
# The shapes of the basins that `basins` makes.
SHAPES = ("random", "gauged", "chain", "tree", "braid", "half-instream")

def built(name):
    """The path of one of our programs. It is built where its sources are newer."""
    source, made = os.path.join(HERE, name + ".cpp"), os.path.join(OUT, name)
    sources = [source, *(entry.path for entry in os.scandir(HERE) if entry.name.endswith(".hpp"))]
    if not os.path.exists(made) or os.path.getmtime(made) < max(map(os.path.getmtime, sources)):
        os.makedirs(OUT, exist_ok=True)
        libraries = IN_C[name][2] if name in IN_C else []
        command = ["g++", "-std=c++17", "-O2", source, "-o", made + ".new", *libraries]
        if subprocess.run(command).returncode:
            raise common.Stop(f"{source} could not be compiled")
        os.replace(made + ".new", made)
    return made

def missing(name):
    """What isn't installed of what a program needs, or None."""
    header, package, _ = IN_C[name]
    if header is None:
        return None
    line = f"#include <{header}>\n"
    tried = subprocess.run(["g++", "-E", "-x", "c++", "-"], input=line, capture_output=True, text=True)
    return package if tried.returncode else None

def python_with_scipy():
    """A Python that has what `highs` needs, or None."""
    for python in dict.fromkeys((sys.executable, "/usr/bin/python3")):
        tried = subprocess.run([python, "-c", "import scipy.optimize, tomllib"], capture_output=True)
        if tried.returncode == 0:
            return python
    return None

def found(names):
    """How each program is started that can be: its first words. And what isn't tried, with the reason."""
    commands, not_tried = {}, []
    for name in names:
        if name == "highs":
            python, package = python_with_scipy(), "python3-scipy"
            command = [python, "-B", "-m", "beside", "bench.highs"] if python else None
        else:
            package = missing(name)
            command = None if package else [built(name)]
        if command:
            commands[name] = command
        else:
            not_tried.append(f"{name}, which needs {package}")
    return commands, not_tried

def has_compiler():
    return shutil.which("g++") is not None
