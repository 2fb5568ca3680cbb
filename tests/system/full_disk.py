#!/usr/bin/env python3
"""If no new checkpoint can be written, the old one stays.

    tests/system/full_disk.py PROGRAM

The file beside can't be made, since the name is too long, the folder may not be written, or there is no room for another file; or it has no
room for its bytes. Each is status 12. What is not a plain file is still written in place."""

import errno
import os
import threading

from system import Folder, Watch, need, program

program()
watch = Watch()
folder = Folder()
whole = folder.call("fold", "job")[1]


def check(name, what, **fault):
    folder.write(name, "old")
    status, out, err = folder.call("run", "job", "--save", name, env=watch.env(**fault))
    need(status == 12 and err == b"flumina: save fault\n", f"status 12 with its line, {what}: {status} {err}")
    need(folder.read(name) == b"old", f"the checkpoint that was there stays, {what}")
    need(whole.startswith(out) and out, f"the report up to the border was written, {what}")
    need(not any("flumina-new" in name for name in folder.names()), f"no file is left beside, {what}")


check("s" * 250, "where the name is long")
check("save", "where no file can be made", fail=[f"create:flumina-new:{errno.ENOSPC}", f"write:save:{errno.ENOSPC}"])
check("save", "where the folder may not be written", fail=[f"create:flumina-new:{errno.EACCES}", f"write:save:{errno.ENOSPC}"])
check("save", "where the disk is full", fail=[f"write:flumina-new:{errno.ENOSPC}", f"write:save:{errno.ENOSPC}"])
check("save", "where the name can't be changed", fail=[f"rename:flumina-new:{errno.EIO}"])

need(folder.call("run", "job", "--save", "/dev/full")[0] == 12, "status 12 for a full device")
need(folder.call("run", "job", "--save", "/dev/null")[0] == 0, "a device is written where it is")
need(folder.call("run", "job", "--save", "nowhere/save")[0] == 12, "status 12 where there is no such folder")
os.mkfifo(folder.path("pipe"))
taken = []


def take():
    taken.append(folder.read("pipe"))


reader = threading.Thread(target=take, daemon=True)
reader.start()
need(folder.call("run", "job", "--save", "pipe")[0] == 0, "a pipe is written where it is")
reader.join(10)
need(taken and taken[0].startswith(b'{"border":9223372036854775807,'), "the checkpoint came through the pipe")
print("full_disk: as it should be")
