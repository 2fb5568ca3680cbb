#!/usr/bin/env python3
"""A live report: each line is written as soon as every source has passed its time.

    tests/system/live.py PROGRAM [ROWS ..]

Three named pipes get their rows by the clock for some four seconds: one slowly, one often but not at all for a second, and one that has heartbeats
alone. Times are milliseconds. A line is settled when each source has had a row or a heartbeat at its time or later. For each number ROWS of rows in a
round (1 if none is given) this prints how long after that lines came, in milliseconds; with rounds of one row it fails if one took more than 100."""

import os
import subprocess
import sys
import tempfile
import threading
import time

JOB = """cell seen sum
tag sample int
tag pulse none
on sample: add seen 1; emit "{value}"
source slow "slow.fifo": sample
source often "often.fifo": sample
source quiet "quiet.fifo": pulse
"""
MOST = 0.1


def plans():
    """What each pipe gets: the times of its rows, in milliseconds, in order."""
    slow = range(100, 4000, 150)
    often = [at for at in range(5, 4000, 10) if not 1500 <= at < 2500]
    quiet = range(20, 4100, 40)
    return {"slow": (slow, "sample,1"), "often": (often, "sample,2"), "quiet": (quiet, "beat")}


def feed(folder, name, times, row, began, due):
    with open(f"{folder}/{name}.fifo", "w", buffering=1) as pipe:
        for at in times:
            time.sleep(max(0.0, began + at / 1000 - time.monotonic()))
            pipe.write(f"{at},{row}\n")
            due.append((at, began + at / 1000))
        pipe.write("end\n")
        due.append((2**63, began + max(times) / 1000))


def passed(due, at):
    """When a source was to have a row at a time or later: it has one then, unless the run lets the pipe wait."""
    return next(moment for time_, moment in due if time_ >= at)


def lateness(program, rows):
    """How many seconds after it was settled each line came."""
    with tempfile.TemporaryDirectory(prefix="flumina-live-") as folder:
        with open(f"{folder}/live.job", "w") as it:
            it.write(JOB)
        for name in plans():
            os.mkfifo(f"{folder}/{name}.fifo")
        call = [program, "run", "live.job", "--round", str(rows)]
        with subprocess.Popen(call, cwd=folder, stdout=subprocess.PIPE) as child:
            began, logs = time.monotonic() + 0.2, {name: [] for name in plans()}
            feeders = [threading.Thread(target=feed, args=(folder, name, *plan, began, logs[name]), daemon=True) for name, plan in plans().items()]
            for feeder in feeders:
                feeder.start()
            came = [(line, time.monotonic()) for line in child.stdout]
        if child.returncode != 0 or len(came) != sum(len(times) for times, row in plans().values() if row != "beat"):
            sys.exit(f"not as it should be: status {child.returncode}, {len(came)} lines")
        return [moment - max(passed(log, int(line.split(b",")[0])) for log in logs.values()) for line, moment in came]


def main():
    program = os.path.abspath(sys.argv[1])
    for rows in [int(word) for word in sys.argv[2:]] or [1]:
        late = sorted(lateness(program, rows))
        print(f"rounds of {rows}: {len(late)} lines, median {late[len(late) // 2] * 1000:.1f} ms, greatest {late[-1] * 1000:.1f} ms")
        if rows == 1 and late[-1] > MOST:
            sys.exit("not as it should be: a line came too late")


main()
