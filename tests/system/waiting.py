#!/usr/bin/env python3
"""A call waits for a standard output that does not block and is full, and continues if a signal interrupts a read or a write.

    tests/system/waiting.py PROGRAM"""

import fcntl
import os
import subprocess
import time

from system import Folder, Watch, need, program

ROOM = 4_096

program()
watch = Watch()
folder = Folder()
whole = folder.call("fold", "job")[1]
long = Folder(rows=600, every=1)
report = long.call("fold", "job")[1]
need(len(report) > ROOM, "the report is longer than the pipe has room for")
for words in (("fold", "job"), ("run", "job"), ("run", "job", "--save", "save")):
    near, far = os.pipe()
    fcntl.fcntl(far, fcntl.F_SETPIPE_SZ, ROOM)
    os.set_blocking(far, False)
    child = subprocess.Popen([program(), *words], cwd=long.at, stdin=subprocess.DEVNULL, stdout=far, stderr=subprocess.PIPE)
    os.close(far)
    time.sleep(1)
    taken = b""
    while more := os.read(near, 1_000):
        taken += more
    os.close(near)
    err = child.stderr.read()
    status = child.wait()
    need((status, err) == (0, b""), f"status 0 through a pipe that does not block, {words}: {status} {err}")
    need(taken == report, f"the whole report comes through it, {words}")

for words in (("fold", "job"), ("run", "job"), ("run", "job", "--save", "save"), ("run", "job", "--resume", "save")):
    status, out, err = folder.call(*words, env=watch.env(interrupt=True))
    wanted = b"" if "--resume" in words else whole
    need((status, out, err) == (0, wanted, b""), f"as if nothing had interrupted it, {words}: {status} {err}")

near, far = os.pipe()
os.close(near)
need(folder.call("fold", "job", out=far)[0] == 8, "status 8 where no one reads")
print("waiting: as it should be")
