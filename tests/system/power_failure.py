#!/usr/bin/env python3
"""A checkpoint is on its device only after the report up to its border: whatever a power failure leaves of both, the run can be resumed to
the whole report.

    tests/system/power_failure.py PROGRAM

The system calls are recorded, and their order is checked: each new checkpoint is flushed before it gets its name, and so is standard
output, if it is a plain file, after all that was written to it; the folder is flushed after that. Then each of the three flushes fails
once, which is status 12. With `--unflushed` nothing is flushed, and all other calls come in the same order."""

import errno
import os
import re

from system import Folder, Watch, need, program

program()
watch = Watch()


def saved_to_a_file(folder, *options, **fault):
    with open(folder.path("report"), "wb") as out:
        return folder.call("run", "job", "--save", "save", *options, out=out, env=watch.env(**fault))[0]


def but_flushes():
    """The calls of the last run in order, without its flushes, and without its number in the name of a file beside."""
    return [[re.sub(r"flumina-new-\d+", "flumina-new", word) for word in call] for call in watch.calls() if call[0] != "fsync"]


folder = Folder(rows=9_000, every=100)
need(saved_to_a_file(folder) == 0, "status 0, with a plain file")
whole = folder.call("fold", "job")[1]
need(folder.read("report") == whole, "the report is that of `fold`")
unflushed = set()  # what was written since it was last flushed
renamed = False  # whether a name has changed since the folder was last flushed
puts = 0
for call, first, second in watch.calls():
    if call == "write":
        unflushed.add(first)
        need(not (renamed and first == "out"), "the folder is flushed before the report continues")
    elif call == "fsync":
        unflushed.discard(first)
        renamed = renamed and first != folder.at
    elif call == "rename":
        need("out" not in unflushed, "standard output is flushed before a checkpoint takes its name")
        need(folder.path(first) not in unflushed and first not in unflushed, "a checkpoint is flushed before it takes its name")
        need(second == "save", "it takes the name that was asked for")
        renamed = True
        puts += 1
need(puts == 3, "a checkpoint after each of three rounds")
need(not renamed, "the folder is flushed after the last checkpoint")

flushed, saved = but_flushes(), folder.read("save")
for options in (["--unflushed"], ["--unflushed", "--resume", "old"]):
    folder.write("old", saved)
    need(saved_to_a_file(folder, *options) == 0, f"status 0 with {options}")
    need(all(call != "fsync" for call, _, _ in watch.calls()), f"nothing is flushed with {options}")
    need(folder.read("save") == saved, f"the checkpoint is the same with {options}")
    if len(options) == 1:
        need(folder.read("report") == whole, "the report is the same with `--unflushed`")
        need(but_flushes() == flushed, "with `--unflushed` all calls but flushes are made in the same order")
need(folder.call("run", "job", "--save", "/dev/full", "--unflushed")[0] == 12, "status 12 for a full device with `--unflushed`")

folder = Folder()
whole = folder.call("fold", "job")[1]
for part, kept in (("out", True), ("flumina-new", True), (folder.at, False)):
    folder.write("save", "old")
    status = saved_to_a_file(folder, fail=[f"fsync:{part}:{errno.EIO}"])
    need(status == 12, f"status 12 where a flush of {part} fails, not {status}")
    if kept:
        need(folder.read("save") == b"old", f"the checkpoint that was there stays where a flush of {part} fails")
    need(not any("flumina-new" in name for name in folder.names()), "no file is left beside")

with open(folder.path("report"), "wb") as out:
    os.remove(folder.path("report"))
    status = folder.call("run", "job", "--save", "save", out=out, env=watch.env())[0]
need(status == 0, f"status 0 where the file of standard output has no name, not {status}")
need(["fsync", "out", ""] in watch.calls(), "a file that has no name is flushed")
status, out, _ = folder.call("run", "job", "--save", "save")
need((status, out) == (0, whole), "a pipe is let be")
print("power_failure: as it should be")
