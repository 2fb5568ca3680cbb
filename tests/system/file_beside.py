#!/usr/bin/env python3
"""The file beside a checkpoint is the process's own: what has its name, and is not one that such a process left, is not touched.

    tests/system/file_beside.py PROGRAM

Under that name there is a link to a file, another name of one, a pipe, or a source; and a file that a process of the same number left,
which is removed. The mode and the owner of a checkpoint are kept, and so is a link to one."""

import os
import stat
import subprocess

from system import Folder, need, program

program()
ENDS = [".flumina-new", ".flumina-new-$$"]  # $$ is the number of the process, since the shell becomes the program


def saved(folder, before, words="run job --save save"):
    """The status of a call before which a shell, which then becomes the program, has done something; None where the call did not end."""
    script = f'{before}; exec "$0" {words}'
    try:
        done = subprocess.run(["sh", "-c", script, program()], cwd=folder.at, stdin=subprocess.DEVNULL, capture_output=True, timeout=120)
    except subprocess.TimeoutExpired:
        return None
    return done.returncode


for end in ENDS:
    folder = Folder()
    folder.write("precious", "precious")
    for how in (f'ln -s precious "save{end}"', f'ln precious "save{end}"', f'mkfifo "save{end}"'):
        folder.write("save", "old")
        status = saved(folder, how)
        need(status in (0, 12), f"status 0 or 12, not {status}, after {how}")
        need(folder.read("precious") == b"precious", f"what is there is not touched, after {how}")
        need(not os.path.islink(folder.path("save")), f"a checkpoint is a file, after {how}")
        need((status == 12) == (folder.read("save") == b"old"), f"the checkpoint is the old one or a new one, after {how}")
        need(any("flumina-new" in name for name in folder.names()), f"what was there stays there, after {how}")
        for name in folder.names():
            if "flumina-new" in name:
                os.remove(folder.path(name))
    rows = folder.read("a.csv")
    status = saved(folder, f'mv a.csv "save{end}"; sed -i "s/a.csv/save{end}/" job')
    source = [name for name in folder.names() if "flumina-new" in name]
    need(len(source) == 1 and folder.read(source[0]) == rows, "a source under that name is not touched")

folder = Folder()
need(saved(folder, 'echo left > "save.flumina-new-$$"') == 0, "one that such a process left is no hindrance")
need(not any("flumina-new" in name for name in folder.names()), "it is taken away")

for mode in (0o600, 0o640, 0o444):
    os.chmod(folder.path("save"), mode)
    if os.geteuid() == 0:
        os.chown(folder.path("save"), 65534, 65534)
    need(saved(folder, "umask 022") == 0, "status 0")
    about = os.stat(folder.path("save"))
    need(stat.S_IMODE(about.st_mode) == mode, f"its mode stays {mode:o}, not {about.st_mode:o}")
    need(os.geteuid() != 0 or (about.st_uid, about.st_gid) == (65534, 65534), "its owner stays")

os.mkdir(folder.path("far"))
os.rename(folder.path("save"), folder.path("far/save"))
os.symlink("far/save", folder.path("save"))
number = os.stat(folder.path("far/save")).st_ino
need(saved(folder, ":") == 0 and os.path.islink(folder.path("save")), "a link stays one")
need(os.stat(folder.path("far/save")).st_ino != number, "and what it leads to is replaced whole")
print("file_beside: as it should be")
