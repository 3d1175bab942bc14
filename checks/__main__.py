"""Starts a check by its name, as checks/run does, and says how much it tried."""
import importlib
import inspect
import os
import sys
import tempfile

from checks import harness

def main(name, words):
    module = importlib.import_module("checks." + name.replace("-", "_"))
    if {"-h", "--help"} & set(words):
        print((module.__doc__ or "").strip())
        return 0
    if words and os.path.exists(words[0]):
        harness.PROGRAM = words[0] = os.path.abspath(words[0])
    harness.NAME = name
    try:
        inspect.signature(module.main).bind("", *words)
    except TypeError:
        print(f"checks/run {name} takes other words: checks/run {name} --help", file=sys.stderr)
        return 2
    with tempfile.TemporaryDirectory() as room:
        module.main(room, *words)
    print(f"{name}: {harness.count} tried, {harness.failed} failed")
    return int(harness.failed != 0 or harness.count == 0 and not harness.lacks)

if __name__ == "__main__":
    sys.exit(main(sys.argv[1], sys.argv[2:]))
