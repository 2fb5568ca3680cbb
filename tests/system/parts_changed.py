#!/usr/bin/env python3
"""What nodes sent is combined to fold's report, and a partial that was changed is refused, or gives that report, or is another right partial.

    tests/system/parts_changed.py PROGRAM

The partials are those of the nodes `left` and `right` of examples/rides-1. That of `left` is cut at each byte; each of its bytes is changed to others
like it; its lines are swapped, doubled and left out. A text that is refused is status 14 with a line that names its file; each cut is, and each line
that is doubled or swapped. The last lines say how many texts gave what, and show each change that made another right partial: what the node sent has
another amount or key then, or one contribution less, which nothing in the text contradicts."""

import os

from system import Folder, need, program

program()
folder = Folder()
rides = os.path.join(os.path.dirname(os.path.abspath(__file__)), "..", "..", "examples", "rides-1")
for name in ("rides.job", "rides.plan", "north.csv", "south.csv", "days.csv"):
    with open(os.path.join(rides, name), "rb") as it:
        folder.write(name, it.read().replace(b"examples/rides-1/", b""))
words = ("rides.job", "rides.plan")
report = folder.call("fold", "rides.job")[1]
for node in ("left", "right"):
    status, text, err = folder.call("partial", *words, node)
    need((status, err) == (0, b""), f"partial {node}: {status} {err}")
    folder.write(node, text)
whole = folder.read("left")
counts = {"refused": 0, "right report": 0, "another right partial": 0}
others = []


def combined(text, how):
    """Combines a text in place of the partial, and counts what comes of it. It has to be refused where `how` says nothing."""
    folder.write("changed", text)
    status, out, err = folder.call("combine", *words, "changed", "right")
    if status == 14:
        need(err.startswith(b"flumina: partial changed: ") and out == b"", f"{how}: {status} {err}")
        counts["refused"] += 1
        return
    need((status, err) == (0, b""), f"{how}: {status} {err}")
    kind = "right report" if out == report else "another right partial"
    counts[kind] += 1
    if out != report:
        others.append(how)


def alike(byte):
    """Bytes that a byte is changed to: its neighbours, one of another sort, and for a digit each digit."""
    near = {byte - 1, byte + 1, byte ^ 32, ord("0"), ord("x"), ord('"'), 10}
    return sorted((near | set(b"0123456789") if byte in b"0123456789" else near) - {byte} & set(range(256)))


combined(whole, "unchanged")
need(counts["right report"] == 1, "what was sent gives the report")
counts["right report"] = 0
for size in range(len(whole)):
    combined(whole[:size], f"cut at {size}")
need(counts["refused"] == len(whole), "each cut is refused")
lines = whole.splitlines(keepends=True)
for at in range(len(lines)):
    combined(b"".join(lines[:at] + lines[at:][:1] * 2 + lines[at + 1 :]), f"line {at + 1} doubled")
    for other in range(at + 1, len(lines)):
        moved = list(lines)
        moved[at], moved[other] = moved[other], moved[at]
        combined(b"".join(moved), f"lines {at + 1} and {other + 1} swapped")
need(counts["right report"] == 0 and not others, "each line that is doubled or swapped with another is refused")
for at in range(len(lines)):
    combined(b"".join(lines[:at] + lines[at + 1 :]), f"line {at + 1} left out")
for at, byte in enumerate(whole):
    for new in alike(byte):
        combined(whole[:at] + bytes([new]) + whole[at + 1 :], f"byte {at + 1}, {chr(byte)!r} to {chr(new)!r}, in {whole[max(0, at - 12) : at + 8].decode()!r}")
for how in others:
    print(how)
print(f"parts_changed: {len(whole)} bytes, {len(lines)} lines: " + ", ".join(f"{n} {kind}" for kind, n in counts.items()))
