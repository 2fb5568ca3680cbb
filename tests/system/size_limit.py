#!/usr/bin/env python3
"""The limit on a file's length ends no call: if a file may not grow, the status is that of a failed write or of a failed save.

    tests/system/size_limit.py PROGRAM

The limit applies to the report, written to a new file or appended to one; to the checkpoint; and to the line on standard error."""

import resource

from system import Folder, need, program

program()
folder = Folder()
whole = folder.call("fold", "job")[1]


def limited(length):
    return {"preexec_fn": lambda: resource.setrlimit(resource.RLIMIT_FSIZE, (length, length))}


for words in (("fold", "job"), ("run", "job"), ("run", "job", "--save", "save")):
    for room in (0, 1, 100, len(whole) - 1):
        with open(folder.path("report"), "wb") as out:
            status, _, err = folder.call(*words, out=out, **limited(room))
        need(status == 8 and err == b"flumina: write fault\n", f"status 8 with its line, {words} with room for {room}: {status} {err}")
        need(folder.read("report") == whole[:room], f"what there is room for is written, {words} with room for {room}")
    folder.write("report", "x" * 50)
    with open(folder.path("report"), "ab") as out:
        status = folder.call(*words, out=out, **limited(50))[0]
    need(status == 8, f"status 8 after 50 bytes, not {status}")
    with open(folder.path("report"), "ab") as out:
        status = folder.call(*words, out=out, **limited(50 + len(whole)))[0]
    need(status == 0 and folder.read("report") == b"x" * 50 + whole, f"status 0 where there is just the room, not {status}")

folder.write("save", "old")
status, out, err = folder.call("run", "job", "--save", "save", **limited(60))
need(status == 12 and err == b"flumina: save fault\n", f"status 12 with its line: {status} {err}")
need(folder.read("save") == b"old", "the checkpoint that was there stays")
need(not any("flumina-new" in name for name in folder.names()), "no file is left beside")

with open(folder.path("told"), "wb") as err:
    status = folder.call("fold", "nowhere", err=err, **limited(0))[0]
need(status == 7, f"status 7 where the line has no room, not {status}")
print("size_limit: as it should be")
