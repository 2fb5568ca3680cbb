#!/usr/bin/env python3
"""A checkpoint never replaces a file that the run reads or writes under another name of it.

    tests/system/same_file.py PROGRAM

FILE is a source, the job or the plan by another path, by a link, or by another name of the same file; or the file of standard output. Each
is status 12, and the file stays. The checkpoint that a run is resumed from may be replaced under another name."""

import os

from system import Folder, need, program

program()
folder = Folder()
plan = folder.call("plan", "job")[1]
folder.write("plan", plan)
os.symlink("a.csv", folder.path("soft"))
os.link(folder.path("a.csv"), folder.path("hard"))
for name, file in (("./a.csv", "a.csv"), ("soft", "a.csv"), ("hard", "a.csv"), ("./job", "job"), ("./plan", "plan"), (folder.path("t.csv"), "t.csv")):
    before = folder.read(file)
    status, _, err = folder.call("run", "job", "plan", "--save", name)
    need(folder.read(file) == before, f"{file} stays where FILE is {name}")
    need(status == 12 and err == b"flumina: save fault\n", f"status 12 with its line where FILE is {name}, not {status} {err}")
need(os.path.islink(folder.path("soft")), "a link stays one")

whole = folder.call("fold", "job")[1]
for name in ("report", "./report", "/dev/stdout"):
    with open(folder.path("report"), "wb") as out:
        status = folder.call("run", "job", "--save", name, out=out)[0]
    written = folder.read("report")
    need(status == 12 and written and whole.startswith(written), f"what was written stays where FILE is {name}: {status} {written[:60]}")

need(folder.call("run", "job", "--save", "save")[0] == 0, "status 0")
need(folder.call("run", "job", "--save", "./save", "--resume", "save")[0] == 0, "a checkpoint may be put over by another name of it")
print("same_file: as it should be")
