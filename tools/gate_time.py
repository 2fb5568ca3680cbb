#!/usr/bin/env python3
"""Runs a command, as `rt ci`, and prints the processor minutes that each crate took in it, for its proofs, its tests and its edits.

Usage: tools/gate_time.py COMMAND [WORD ..]

Twice a second it looks at all processes below the command, and takes the processor time of each at the last look. A process counts for
the crate that its words name, or for that of the process that started it. What ends between two looks is not seen. Edits are the runs
over the seed that `rt ci` makes for a crate's edits, the seed included; tests are the runs that prove a crate with its tests.
"""
import collections
import os
import re
import subprocess
import sys
import time

TICKS = os.sysconf("SC_CLK_TCK")
CRATE = re.compile(r"--crate-name[ \0](\w+)")


def look(pid):
    """The words, the parent and the processor seconds of a process, or None where it has ended."""
    try:
        with open(f"/proc/{pid}/cmdline") as words, open(f"/proc/{pid}/stat") as stat:
            fields = stat.read().rpartition(")")[2].split()
            return words.read().replace("\0", " "), int(fields[1]), (int(fields[11]) + int(fields[12])) / TICKS
    except (OSError, IndexError, UnicodeDecodeError):
        return None


def part_of(words):
    """The crate and the part of the gate that a process works for."""
    found = CRATE.search(words)
    if not found:
        return None
    kind = "edits" if "/rt-edits-" in words else "tests" if "--test" in words else "proofs"
    return found.group(1), kind


def sample(root, seconds, parts):
    seen = {int(p): look(int(p)) for p in os.listdir("/proc") if p.isdigit()}
    seen = {pid: found for pid, found in seen.items() if found}
    for pid, (words, parent, used) in seen.items():
        part, above = part_of(words), pid
        while above in seen and above != root:
            part = part or part_of(seen[above][0])
            above = seen[above][1]
        if above == root:
            seconds[pid], parts[pid] = used, part or parts.get(pid) or ("other", "proofs")


def main():
    seconds, parts, total = {}, {}, collections.Counter()
    child = subprocess.Popen(sys.argv[1:])
    while child.poll() is None:
        sample(child.pid, seconds, parts)
        time.sleep(0.5)
    for pid, used in seconds.items():
        total[parts[pid]] += used
    rows = sorted({crate for crate, _ in total}, key=lambda c: -sum(total[c, kind] for kind in ("proofs", "tests", "edits")))
    print("\n| Crate | Proofs | Tests | Edits | All |\n|---|---|---|---|---|")
    for crate in rows + ["all"]:
        of = [sum(n for (c, k), n in total.items() if k == kind and crate in (c, "all")) / 60 for kind in ("proofs", "tests", "edits")]
        print(f"| {crate} | " + " | ".join(f"{minutes:.1f}" for minutes in of + [sum(of)]) + " |")
    sys.exit(child.returncode)


main()
