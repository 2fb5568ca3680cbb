#!/usr/bin/env python3
"""Kills a live run at random moments and starts it again: its report is complete.

    tests/system/live_stopped.py PROGRAM [KILLS]

Two files grow while the run reads them, each through a named pipe that `tail` fills from the file's beginning, as docs/GUIDE.md says in "A live report".
The run has rounds of one row and saves, and is killed (SIGKILL) after a random time, KILLS times (20 if not given), in as many calls of some 20 kills.
After each kill the report is cut at the border of the checkpoint by the commands of "Stopping and going on", and the run is resumed, which appends.
At last the files end, and the report has to be the one that `fold` makes of them. It ends with status 1 at the first wrong answer."""

import os
import random
import subprocess
import sys
import tempfile
import threading
import time

from system import going_on, need

JOB = """cell hits sum
cell bytes sum
tag hit int
tag tick none
depends hit tick
depends tick tick
on hit: add hits 1; add bytes value
on tick: emit "{hits} hits, {bytes} bytes"; clear hits; clear bytes
source web "web.%s": hit
source clock "clock.%s": tick
"""
AT_ONCE = 20
NAMES = "web", "clock"


def cutting():
    """The commands of docs/GUIDE.md that cut a report, for the files of this run."""
    return going_on()[0].replace("rides.save", "hits.save").replace("report.csv", "hits.csv")


def feed(folder, over, draw):
    """Appends a hit every two milliseconds or so, and a tick and a heartbeat now and then, until it is over."""
    time_ = 0
    with open(f"{folder}/web.csv", "a", buffering=1) as web, open(f"{folder}/clock.csv", "a", buffering=1) as clock:
        while not over.is_set():
            time_ += draw.randrange(1, 5)
            web.write(f"{time_},hit,{draw.randrange(1000)}\n")
            if draw.random() < 0.2:
                clock.write(f"{time_},tick\n")
            time.sleep(0.002)
        for file in web, clock:
            file.write("end\n")


class Run:
    """A live run with the two programs that fill its pipes."""

    def __init__(self, program, folder, goes_on):
        for name in NAMES:
            if os.path.exists(f"{folder}/{name}.fifo"):
                os.remove(f"{folder}/{name}.fifo")
            os.mkfifo(f"{folder}/{name}.fifo")
        self.tails = [
            subprocess.Popen(f"exec tail -n +1 -s 0.01 -F {name}.csv > {name}.fifo", shell=True, cwd=folder, stderr=subprocess.DEVNULL) for name in NAMES
        ]
        words = [program, "run", "live.job", "--round", "1", "--save", "hits.save", "--unflushed"]
        words += ["--resume", "hits.save"] if goes_on else []
        self.out = open(f"{folder}/hits.csv", "ab" if goes_on else "wb")
        self.child = subprocess.Popen(words, cwd=folder, stdout=self.out, stderr=subprocess.PIPE)

    def ends(self, stop):
        """Its status, and what it said, once it was killed, or has ended by itself."""
        if stop:
            self.child.kill()
            self.child.wait()
        said = None
        while said is None:
            try:
                said = self.child.communicate(timeout=0.2)[1]
            except subprocess.TimeoutExpired:
                # both files have ended: each pipe in turn, since a resumed run reads one to its end before it opens the next
                self.tails[0].kill() if self.tails[0].poll() is None else self.tails[1].kill()
        for tail in self.tails:
            tail.kill()
            tail.wait()
        self.out.close()
        return self.child.returncode, said.decode()


def once(program, kills, draw):
    """Kills one run so often. How often it was killed, resumed from a checkpoint, and how many lines its report has."""
    cut, resumed = cutting(), 0
    with tempfile.TemporaryDirectory(prefix="flumina-stopped-") as folder:
        with open(f"{folder}/live.job", "w") as it:
            it.write(JOB % ("fifo", "fifo"))
        with open(f"{folder}/whole.job", "w") as it:
            it.write(JOB % ("csv", "csv"))
        for name in NAMES:
            open(f"{folder}/{name}.csv", "w").close()
        over = threading.Event()
        feeder = threading.Thread(target=feed, args=(folder, over, draw), daemon=True)
        feeder.start()
        for kill in range(kills + 1):
            goes_on = os.path.exists(f"{folder}/hits.save")
            if goes_on:
                done = subprocess.run(["sh", "-c", cut], cwd=folder, capture_output=True)
                need(done.returncode == 0, f"status {done.returncode} of the commands that cut the report: {done.stderr}")
                resumed += 1
            run = Run(program, folder, goes_on)
            time.sleep(0.02 + draw.random() * 0.4)
            if kill == kills:
                over.set()
                feeder.join()
                time.sleep(0.5)
            status, said = run.ends(stop=kill < kills)
            need(status == (-9 if kill < kills else 0), f"status {status}: {said}")
        with open(f"{folder}/hits.csv", "rb") as it:
            report = it.read()
        whole = subprocess.run([program, "fold", "whole.job"], cwd=folder, capture_output=True)
        need(whole.returncode == 0 and whole.stdout, f"status {whole.returncode} of the fold: {whole.stderr}")
        need(report == whole.stdout, "the reports before and after the kills are not the whole")
        return kills, resumed, report.count(b"\n")


def main():
    program = os.path.abspath(sys.argv[1])
    left, draw = int(sys.argv[2]) if len(sys.argv) > 2 else 20, random.Random(1)
    killed, resumed, lines = 0, 0, 0
    while left > 0:
        made = once(program, min(left, AT_ONCE), draw)
        killed, resumed, lines = killed + made[0], resumed + made[1], lines + made[2]
        left -= AT_ONCE
    print(f"killed {killed} times, resumed from a checkpoint {resumed} times; {lines} lines in all, each report whole")


main()
