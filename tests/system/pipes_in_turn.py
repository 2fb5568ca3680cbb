#!/usr/bin/env python3
"""Sources that are pipes: `run` reads them in turns, so each needs a writer of its own; `fold` reads one after the other.

    tests/system/pipes_in_turn.py PROGRAM

With a writer for each pipe both write the report. With one writer that fills the pipes one after the other, in the order of the job, `fold`
writes it too, and `run` waits; it goes on where another writer fills the second pipe."""

import os
import subprocess
import threading
import time

from system import Folder, need, program

ROWS = 40_000
SOURCES = ("a.csv", "t.csv")


def fill(folder, *names):
    """Writes the bytes of these sources into their pipes, one after the other."""
    for name in names:
        try:
            with open(folder.path(name), "wb") as pipe:
                pipe.write(folder.bytes[name])
        except BrokenPipeError:
            return


def begin(folder, command, *writers):
    """A call over fresh pipes, with these writers: each fills the pipes that it names, in turn."""
    for name in SOURCES:
        os.remove(folder.path(name))
        os.mkfifo(folder.path(name))
    child = subprocess.Popen([program(), command, "job"], cwd=folder.at, stdin=subprocess.DEVNULL, stdout=subprocess.PIPE, stderr=subprocess.PIPE)
    for names in writers:
        threading.Thread(target=fill, args=(folder, *names), daemon=True).start()
    return child


def ends(child, what):
    try:
        out, err = child.communicate(timeout=120)
    except subprocess.TimeoutExpired:
        child.kill()
        need(False, f"it ends: {what}")
    need((child.returncode, err, out) == (0, b"", whole), f"the whole report, {what}: status {child.returncode} {err}")


program()
folder = Folder(rows=ROWS, every=10)
folder.bytes = {name: folder.read(name) for name in SOURCES}
whole = folder.call("fold", "job")[1]
for command in ("fold", "run"):
    ends(begin(folder, command, ["a.csv"], ["t.csv"]), f"`{command}` with a writer for each pipe")
ends(begin(folder, "fold", ["a.csv", "t.csv"]), "`fold` with one writer, in the order of the job")

child = begin(folder, "run", ["a.csv", "t.csv"])
time.sleep(2)
need(child.poll() is None, "`run` waits for the second pipe, whose writer waits for it to read the first one")
child.kill()
child.communicate()

child = begin(folder, "run", ["a.csv"])
time.sleep(2)
need(child.poll() is None, "`run` waits for the rows of a pipe that nobody fills")
threading.Thread(target=fill, args=(folder, "t.csv"), daemon=True).start()
ends(child, "`run` once the second pipe has a writer")
print("pipes_in_turn: as it should be")
