#!/usr/bin/env python3
"""Tries all edits of crates, those that the gate tries and those that are tried by hand, and says which were not refused.

Usage: tools/all_edits.py [CRATE ..]

The gate tries the edits in crates/NAME/must-fail/ alone, since each costs a check of its crate. Those in crates/NAME/edits/ have the same
form. This copies the repository to a temporary folder, moves them into must-fail/ there, and runs `rt must-fail` on the crates that are
named, or on all that have edits. Libraries and kept proofs are copied too, so that nothing is proved twice. It fails if an edit was not
refused, if one was refused for a name that is gone alone, and if one could not be tried. An edit counts as refused too if the prover gave
up its goal at a limit.
"""
import re
import shutil
import subprocess
import sys
import tempfile
from pathlib import Path

TOP = Path(__file__).resolve().parent.parent
REFUSED = re.compile(r"must-fail (\w+)/(\S+)\.edit: refused, as it must be(?! \(only)")
TRIED = re.compile(r"must-fail (\w+)/(\S+)\.edit: ")


def gathered(room, names):
    """Moves the edits of crates into must-fail/ there, and answers the names of all their edits."""
    edits = []
    for name in names:
        folder = room / "crates" / name
        (folder / "must-fail").mkdir(exist_ok=True)
        for edit in sorted(folder.glob("edits/*.edit")):
            edit.rename(folder / "must-fail" / edit.name)
        edits += [(name, edit.stem) for edit in sorted((folder / "must-fail").glob("*.edit"))]
    return edits


def main():
    names = sys.argv[1:] or sorted({edit.parent.parent.name for edit in TOP.glob("crates/*/*/*.edit")})
    lacking = [name for name in names if not (TOP / "crates" / name).is_dir()]
    if lacking:
        sys.exit(f"there is no crate {lacking[0]}")
    with tempfile.TemporaryDirectory(prefix="all-edits-") as folder:
        room = Path(folder) / "repository"
        shutil.copytree(TOP, room, symlinks=True, ignore=shutil.ignore_patterns(".git"))
        edits = gathered(room, names)
        said = []
        with subprocess.Popen(["rt", "must-fail", *names], cwd=room, stdout=subprocess.PIPE, stderr=subprocess.STDOUT, text=True) as run:
            for line in run.stdout:
                said.append(line)
                print(line, end="", flush=True)
    refused = {found.groups() for line in said for found in [REFUSED.search(line)] if found}
    tried = {found.groups() for line in said for found in [TRIED.search(line)] if found}
    left = [edit for edit in edits if edit not in refused]
    print(f"{len(edits)} edits, {len(refused)} refused by a contract")
    for crate, edit in left:
        print(f"    not refused by one: {crate}/{edit}" + ("" if (crate, edit) in tried else ", which was not tried"))
    sys.exit(1 if left or run.returncode else 0)


main()
