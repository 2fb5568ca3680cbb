#!/usr/bin/env python3
"""A word that is not UTF-8 text fits no command: status 2, with the line that names its place, or an earlier word that does not fit.

    tests/system/not_text.py PROGRAM"""

from system import Folder, need, program

program()
folder = Folder()
BAD = b"\xff.job"
for words, at in (
    ([BAD], 0),
    (["fold", BAD], 1),
    (["check", BAD], 1),
    (["valid", BAD, "plan"], 1),
    (["valid", "job", BAD], 2),
    (["plan", BAD], 1),
    (["plan", "job", "--depth", b"\xc3"], 3),
    (["run", BAD], 1),
    (["run", "job", BAD], 2),
    (["run", "job", "plan", "--save", BAD], 4),
    (["run", "job", "--resume", b"\xed\xa0\x80"], 3),
    (["simulate", "job", "plan", BAD], 3),
    (["replay", "job", "plan", BAD], 3),
    (["demo", BAD, "1"], 1),
    (["demo", "5", BAD], 2),
    (["flod", BAD], 0),
    (["fold", "-x", BAD], 1),
    (["fold", "job", BAD], 2),
    (["--help", BAD], 0),
    (["fold", b"\xff" * 100_000], 1),
):
    status, out, err = folder.call(*words)
    wanted = f"flumina: bad words at {at}\n".encode()
    need((status, out, err) == (2, b"", wanted), f"{words}: {status} {out} {err}")
print("not_text: as it should be")
