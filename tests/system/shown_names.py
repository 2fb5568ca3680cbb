#!/usr/bin/env python3
"""A hint sends no control characters to a terminal, whatever a file is called, and says why a checkpoint was not saved.

    tests/system/shown_names.py PROGRAM

The program's standard error is a terminal of its own, whose other end is read."""

import errno

from system import JOB, Folder, Watch, need, program

program()
watch = Watch()

folder = Folder()
STEERING = ["\x1b[31m", "\x07", "\u009b", "\u202e", "\u2066", "\u200b", "\u200f", "\ufeff", "\u2028", "\u061c", "\U000e0041"]
for steering in STEERING:
    name = f"a{steering}b"
    folder.write(name, "cell count sum\ncell count sum\n")
    folder.write(f"conflict{name}", JOB.replace("depends view tick\n", ""))
    folder.write("absent", JOB.replace("a.csv", f"a{steering}b.csv".translate({code: "b" for code in range(32)})))
    calls = [["fold", name], ["check", f"no{name}"], ["valid", "job", name], ["run", "job", name], ["run", "job", "--save", f"nowhere/{name}"]]
    for words in (*calls, ["check", f"conflict{name}"], ["check", "absent"]):
        status, _, told = folder.at_a_terminal(*words)
        need(status in (0, 3, 4, 5, 7, 12) and (status == 0) == (words[-1] == "absent"), f"{words}: {status}")
        need("b" in told and not any(c in told for c in steering if not c.isascii() or c < " "), f"{words}: {told!r}")
status, _, told = folder.at_a_terminal("fold", "a\x1b[31mb")
need("  a?[31mb, line 2, column 6\n" in told, f"`?` stands for it: {told!r}")

status, _, told = folder.at_a_terminal("run", "job", "--save", "nowhere/save")
need(status == 12 and told.startswith("flumina: save fault\n  nowhere/save: "), f"why a checkpoint was not put: {told!r}")
status, _, told = folder.at_a_terminal("run", "job", "--save", "./a.csv")
need(told == "flumina: save fault\n  ./a.csv: the run reads or writes that file by another name\n", f"why it was not put: {told!r}")
with open(folder.path("report"), "wb") as out:
    status, _, told = folder.at_a_terminal("run", "job", "--save", "save", out=out, env=watch.env(fail=[f"fsync:out:{errno.EIO}"]))
need(status == 12 and told.startswith("flumina: save fault\n  standard output: "), f"what was not flushed: {told!r}")
print("shown_names: as it should be")
