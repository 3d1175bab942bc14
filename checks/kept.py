"""What the script ./basin takes for proved, whom it lets mark a program so, and what it says where an answer can't be
written: tried in a copy of its own, by the gate as it stands, with a toolchain that stands for the real one."""
import os
import shutil
import subprocess

from checks.command_line import WEIR, Place
from checks import harness
from checks.harness import tried

SOURCE, LEFT = "crates/basin/src/lib.rt", "crates/basin/out/basin"
SPOILED, AFTER, ANSWERS = harness.table("kept", "SPOILED AFTER ANSWERS")

def version(place, **more):
    """Whether the program counts as proved, and what is said of that."""
    status, out, err = place.answer(["--version"], **more)
    return "Here: proved" in out, f"{status} {out} {err}"

def copied(place, room):
    """The same place once more, to spoil."""
    other = os.path.join(room, "spoiled")
    shutil.rmtree(other, ignore_errors=True)
    shutil.copytree(place.folder, other, symlinks=True)
    return place.of(other)

def try_keep(place, room):
    """Only the gate marks a program as proved, and only the one that it tried, of sources that stayed the same."""
    for words in (["keep"], ["keep", place.program], ["keep", "/bin/true"]):
        tried(f"./basin {' '.join(words)} before the gate", place.answer(words)[0] in (1, 2) and not version(place)[0])
    os.makedirs(os.path.join(place.folder, os.path.dirname(LEFT)))
    shutil.copy(place.program, os.path.join(place.folder, LEFT))
    tried("./basin keep of a program that no gate left", place.answer(["keep"])[0] == 1 and not version(place)[0])
    for what, when, script in SPOILED:
        spoiled = copied(place, room)
        tried(f"the gate with {what}", not spoiled.gate(place.program, **{when: script}), what)
        # (what it left behind is not kept by hand either)
        spoiled.answer(["keep"])
        tried(f"a program is kept in spite of {what}", not version(spoiled)[0], version(spoiled)[1])
    tried("the gate passes, and keeps its program", place.gate(place.program) and version(place)[0], version(place)[1])
    tried("./basin keep once more", place.answer(["keep"])[0] == 0 and version(place)[0])

def try_proved(place, room):
    """What is kept counts as proved as long as nothing has changed, and without rt or a way to sum nothing is taken for
    granted."""
    for what, script, is_proved, said in AFTER:
        spoiled = copied(place, room)
        subprocess.run(["sh", "-c", script], cwd=spoiled.folder, check=True)
        found, text = version(spoiled)
        tried(f"proved after {what}", found == is_proved and said in text, text)
    no_rt, no_sums = (place.tools(os.path.join(room, "without-" + name), name) for name in ("rt", "sha256sum"))
    tried("proved without rt", version(place, path=no_rt, has_rt=False)[0])
    answer = place.answer(["check", *WEIR.split(), "examples/weir.result"], path=no_rt, has_rt=False)
    tried("./basin check without rt", answer == (0, "checked 2\n", []), str(answer))
    changed = copied(place, room)
    with open(os.path.join(changed.folder, SOURCE), "a", encoding="ascii") as file:
        file.write("\n")
    tried("a changed source without rt", not version(changed, path=no_rt, has_rt=False)[0])
    for script in ("true", "rm .built/stamp", "echo sources= >.built/stamp", "echo program= >>.built/stamp"):
        spoiled = copied(place, room)
        subprocess.run(["sh", "-c", script], cwd=spoiled.folder, check=True)
        tried(f"proved without sums, after {script}", not version(spoiled, path=no_sums)[0])

def try_prove(place, room):
    """./basin prove keeps what `rt ci` made of a copy of the sources, if they are still the same."""
    here = os.path.join(room, "spoiled")
    for what, script, is_kept in (("no change", "true", True), ("a proof that fails", "false", False),
            ("a source that changes", f"echo >>{here}/{SOURCE}", False)):
        spoiled = copied(place, room)
        shutil.rmtree(os.path.join(here, ".built"))
        answer = spoiled.answer(["prove"], env={"AT_CI": script})
        found, text = version(spoiled)
        tried(f"./basin prove with {what}", (answer[0] == 0) == is_kept == found, f"{answer} {text}")
    linked = copied(place, room)
    os.symlink("lib.rt", os.path.join(here, "crates/basin/src/more.rt"))
    answer = linked.answer(["prove"])
    tried("./basin prove with a link", answer[0] == 1 and "more.rt is a link" in answer[2][0], str(answer))

def try_unwritten(place, room):
    """An answer that can't be written is a failed write, by the proved program, by the quick way and by the script."""
    quick = copied(place, room)
    shutil.rmtree(os.path.join(quick.folder, ".built"))
    for of, how in ((place, "proved"), (quick, "quick")):
        for words in ANSWERS:
            for where in ("a full device", "a reader that went away", "a closed output"):
                answer = unwritten(of, words.split(), where)
                is_right = answer[0] == 6 and "write: failed" in answer[2]
                tried(f"./basin {words} to {where} ({how})", is_right, str(answer))
    refused = unwritten(quick, ["run", "bad.toml"], "a full device")
    tried("a refusal writes nothing, so no write fails", refused[0] == 3, str(refused))

def unwritten(place, words, where):
    if where == "a closed output":
        return place.answer(words, stdout=None, preexec_fn=lambda: os.close(1))
    if where == "a full device":
        with open("/dev/full", "wb") as full:
            return place.answer(words, stdout=full)
    reader, writer = os.pipe()
    os.close(reader)
    try:
        return place.answer(words, stdout=writer)
    finally:
        os.close(writer)

def try_kept(program, room):
    """Tries all of it, and answers in how many ways."""
    place = Place(program, room)
    try_keep(place, room)
    try_proved(place, room)
    try_prove(place, room)
    try_unwritten(place, room)
    return len(SPOILED) + len(AFTER) + len(ANSWERS)
