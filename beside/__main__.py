"""Starts a script of this package by its name, as `./basin` does."""
import importlib
import sys

from beside import common

if __name__ == "__main__":
    name = sys.argv.pop(1)
    common.start(importlib.import_module("beside." + name.replace("-", "_")).main, name)
