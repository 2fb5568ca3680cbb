#!/usr/bin/env python3
"""How much was read: a line on a terminal while `fold`, `run`, `simulate`, `partial` and `combine` read, gone before anything else is said, and a closing line on request.

    tests/system/progress.py PROGRAM

A terminal is one of the script's own. Sources that come slowly are named pipes, which a thread fills."""

import os
import pty
import re
import subprocess
import threading
import time

from system import Folder, need, program, shown_at

ROWS = r"(?:\d+|\d+\.\d M) rows, (?:\d+|\d+\.\d M) rows/s"
LIVE = rf"read \d+\.\d MB, {ROWS}"
KNOWN = rf"read \d+\.\d of \d+\.\d MB, \d+ %, {ROWS}"
CLOSING = r"  read (\d+) bytes, (\d+) rows in \d+\.\d s, \d+\.\d MB/s, \d+ rows/s\n"
PLAN = "node n0: view, tick\n"

program()
folder = Folder()
folder.write("plan", PLAN)
REPORT = folder.call("fold", "job")[1]
need(REPORT.count(b"\n") == 29, "the report")
SIZES = {name: len(folder.read(name)) for name in ("job", "plan", "a.csv", "t.csv")}
LINES = sum(folder.read(name).count(b"\n") for name in ("a.csv", "t.csv"))


def left_on_the_screen(shown):
    """What is seen in the end of what a terminal got: what comes after a carriage return is written over what was there before."""
    lines = []
    for line in shown.split("\n"):
        seen = ""
        for part in line.split("\r"):
            seen = part + seen[len(part):]
        lines.append(seen.rstrip(" "))
    return "\n".join(lines)


def fed(name, parts, pause):
    """A thread that writes these parts into a named pipe, with pauses between them."""
    def feed():
        with open(folder.path(name), "wb", buffering=0) as pipe:
            for part in parts:
                pipe.write(part)
                time.sleep(pause)

    if os.path.exists(folder.path(name)):
        os.remove(folder.path(name))
    os.mkfifo(folder.path(name))
    thread = threading.Thread(target=feed, daemon=True)
    thread.start()
    return thread


def slowly(*words, out=subprocess.PIPE):
    """A call at a terminal whose views come in pieces, so that it reads for more than a second."""
    rows = folder.read("a.csv").splitlines(True)
    thread = fed("slow.fifo", [b"".join(rows[i:i + 40]) for i in range(0, len(rows), 40)], 0.2)
    done = folder.at_a_terminal(*words, out=out)
    thread.join()
    return done


folder.write("slow.job", folder.read("job").decode().replace("a.csv", "slow.fifo"))

# A pipe on standard error gets nothing unasked, and the closing line alone if it is asked for; standard output gets the report.
for words, read in {
    ("fold", "job"): ("job", "a.csv", "t.csv"),
    ("run", "job"): ("job", "a.csv", "t.csv"),
    ("run", "job", "plan"): ("job", "plan", "a.csv", "t.csv"),
}.items():
    need(folder.call(*words) == (0, REPORT, b""), f"{words}: nothing is said")
    need(folder.call("--no-progress", *words) == (0, REPORT, b""), f"--no-progress {words}")
    for asking in (["--progress"], ["--no-hints", "--progress"], ["--progress", "--no-hints"]):
        status, out, err = folder.call(*asking, *words)
        closing = re.fullmatch(CLOSING, err.decode())
        need((status, out) == (0, REPORT) and closing, f"{asking} {words}: {status}, {err}")
        need(int(closing[1]) == sum(SIZES[name] for name in read), f"{words}: the bytes that were read: {err}")
        need(int(closing[2]) == LINES, f"{words}: the rows that were read: {err}")

# A part command reads some of the sources; the lines of partials are no rows.
folder.write("parted", "node root: tick -> left right\nnode left: view[0..4]\nnode right: view[5..9]\n")
for node in ("left", "right"):
    folder.write(f"{node}.part", folder.call("partial", "job", "parted", node)[1])
for words, read, sources in [
    (("partial", "job", "parted", "left"), ("job", "parted", "a.csv", "t.csv"), ("a.csv", "t.csv")),
    (("combine", "job", "parted", "left.part", "right.part"), ("job", "parted", "left.part", "right.part", "t.csv"), ("t.csv",)),
]:
    plain = folder.call(*words)
    need(plain[0] == 0 and plain[2] == b"" and (words[0] == "partial" or plain[1] == REPORT), f"{words}: {plain}")
    status, out, err = folder.call("--progress", *words)
    closing = re.fullmatch(CLOSING, err.decode())
    need((status, out) == plain[:2] and closing, f"--progress {words}: {status}, {err}")
    need(int(closing[1]) == sum(len(folder.read(name)) for name in read), f"{words}: the bytes that were read: {err}")
    need(int(closing[2]) == sum(folder.read(name).count(b"\n") for name in sources), f"{words}: the rows that were read: {err}")

# The closing line comes after the line of an answer and after its hint, and changes no status.
steps = folder.call("simulate", "job", "plan", "1")
status, out, err = folder.call("--progress", "simulate", "job", "plan", "1")
need(steps[2].startswith(b"steps ") and (status, out) == steps[:2] and err.startswith(steps[2]), f"simulate: {err}")
need(re.fullmatch(CLOSING, err[len(steps[2]):].decode()), f"simulate: {err}")
followed = folder.call("run", "job", "plan", "--adapt")
status, out, err = folder.call("--progress", "run", "job", "plan", "--adapt")
need(followed[2].startswith(b"node ") and (status, out) == followed[:2] and err.startswith(followed[2]), f"--adapt: {err}")
need(re.fullmatch(CLOSING, err[len(followed[2]):].decode()), f"--adapt: {err}")
folder.write("cut.job", folder.read("job").decode().replace("a.csv", "cut.csv"))
folder.write("cut.csv", "1,view[1],1\n2,view[1]\n")
plain, hinted = folder.call("fold", "cut.job"), folder.call("--hints", "fold", "cut.job")
status, out, err = folder.call("--progress", "--hints", "fold", "cut.job")
need(plain[:2] == (6, b"") and (status, out) == plain[:2] and err.startswith(hinted[2]) and hinted[2].startswith(plain[2]), f"status 6: {err}")
need(re.fullmatch(CLOSING, err[len(hinted[2]):].decode()), f"status 6: {err}")
for words in (["check", "job"], ["valid", "job", "plan"], ["flod", "job"], ["--progress", "fold", "job"]):
    need(folder.call("--progress", *words) == folder.call(*(words if words[0] != "--progress" else ["-", *words[1:]])), f"--progress {words}")

# A terminal shows the line while the call reads, and nothing of it is left; short calls show none.
need(folder.at_a_terminal("--no-hints", "fold", "job", out=subprocess.PIPE) == (0, REPORT, ""), "a short call")
PART = folder.read("left.part")
for words in (["fold", "slow.job"], ["run", "slow.job"], ["simulate", "slow.job", "plan", "1"], ["partial", "slow.job", "parted", "left"]):
    status, out, shown = slowly("--no-hints", *words)
    written = out.split(b"\n", 1)[1] == PART.split(b"\n", 1)[1] if words[0] == "partial" else out == REPORT
    need(status == 0 and written and len(re.findall(LIVE, shown)) >= 2, f"{words}: {shown!r}")
    wanted = steps[2].decode() if words[0] == "simulate" else ""
    need(shown.endswith("\r" + wanted) and left_on_the_screen(shown) == wanted, f"{words}: what is left of {shown!r}")
    need(slowly("--no-progress", "--no-hints", *words) == (0, out, wanted), f"--no-progress {words}")
status, out, shown = slowly("--no-hints", "--progress", "fold", "slow.job")
need((status, out) == (0, REPORT) and re.search(LIVE, shown) and re.fullmatch(CLOSING, left_on_the_screen(shown)), f"both lines: {shown!r}")

# The rows are those of the sources alone, and the report is written up to the time of its last line.
status, out, shown = slowly("--no-hints", "run", "slow.job", "--round", "4")
counts = [int(rows) for rows in re.findall(r"MB, (\d+) rows, ", shown)]
need((status, out) == (0, REPORT) and counts == sorted(counts) and 0 < counts[-1] <= LINES, f"rows: {shown!r}")
times = [int(time) for time in re.findall(r", report to (\d+)", shown)]
wanted = [int(line.split(b",")[0]) for line in REPORT.splitlines()]
need(times and times == sorted(times) and set(times) <= set(wanted), f"report to: {shown!r}")

# The bytes that there are to read are known of regular files.
with open(folder.path("big.csv"), "w") as rows:
    for t in range(0, 6_000_000, 1000):
        rows.write("".join(f"{u},view[{u % 10}],{u * 7919 % 10007}\n" for u in range(t, t + 1000)))
    rows.write("end\n")
folder.write("big.job", folder.read("job").decode().replace("a.csv", "big.csv"))
status, _, shown = folder.at_a_terminal("--no-hints", "fold", "big.job")
need(status == 0 and re.search(KNOWN, shown) and left_on_the_screen(shown) == "", f"a long file: {shown!r}")
status, _, shown = folder.at_a_terminal("--no-hints", "partial", "big.job", "parted", "left")
need(status == 0 and re.search(LIVE, shown) and not re.search(KNOWN, shown) and left_on_the_screen(shown) == "", f"some of the sources: {shown!r}")

# Where the report goes to the same terminal, the line is gone for good before the report begins.
near, far = pty.openpty()
rows = folder.read("a.csv").splitlines(True)
thread = fed("slow.fifo", [*rows[:4], *(b"".join(rows[i:i + 40]) for i in range(4, len(rows), 40))], 0.3)
with subprocess.Popen([program(), "--no-hints", "run", "slow.job", "--round", "1"], cwd=folder.at, stdin=subprocess.DEVNULL, stdout=far, stderr=far) as child:
    os.close(far)
    shown = shown_at(near)
os.close(near)
thread.join()
need(child.returncode == 0 and left_on_the_screen(shown) == REPORT.decode(), f"one terminal: {shown!r}")
begin = shown.index("tick")
need(re.search(LIVE, shown[:begin]) and "read " not in shown[begin:], f"no line within the report: {shown!r}")
print("progress: as it should be")
