"""schema PROGRAM: holds docs/basin.schema.json against the reader of the program.

Each basin of examples/ has to be valid by the schema. Each change of a table has to be refused by both, by the reader
with the fault that the table says. A change that the table calls good has to be accepted by both. The schema is read by
Debian's python3-jsonschema: without it the reader alone is tried. `checks/run keys` tries that it has each key.
"""
import json
import os

from beside import files
from beside.common import write_text
from checks import harness
from checks.harness import ran, read, tried

BASIN, CHANGES, SECOND, CHANGES_2 = harness.table("schema", "BASIN CHANGES SECOND CHANGES_2")

def validator():
    """Whether a document is valid by the schema, as a function; None where the package lacks."""
    if not harness.has_module("jsonschema"):
        harness.not_tried("the schema itself", "python3-jsonschema")
        return None
    import jsonschema
    schema = json.loads(read("docs", "basin.schema.json"))
    jsonschema.Draft202012Validator.check_schema(schema)
    return jsonschema.Draft202012Validator(schema).is_valid

def main(room, program):
    is_valid, path, basin_2 = validator(), os.path.join(room, "basin.toml"), BASIN
    for name in harness.all_examples(".toml"):
        if is_valid:
            tried(f"{os.path.basename(name)} is valid", is_valid(files.read_toml(name)))
        tried(f"{os.path.basename(name)} names its schema", read(name).startswith("#:schema "))
    for pair in SECOND:
        basin_2 = basin_2.replace(*pair)
    for basin, (old, new, kind) in [(BASIN, it) for it in CHANGES] + [(basin_2, it) for it in CHANGES_2]:
        assert old == "" or basin.count(old) == 1, old
        write_text(path, basin.replace(old, new) if old else basin)
        _, err, status = ran(program, "run", path, "-")
        is_right = status in (0, 4) if kind == "good" else err[0].split(" ")[1] == kind
        tried(f"{new!r} for {old!r} by the reader", is_right, err)
        if is_valid:
            tried(f"{new!r} for {old!r} by the schema", is_valid(files.read_toml(path)) == (kind == "good"))
