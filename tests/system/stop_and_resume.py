#!/usr/bin/env python3
"""Stops a run of 100,000 rows after each of its rounds in turn, and at random moments from outside, and resumes it from its
checkpoint: what is written before and after together is the whole report.

    tests/system/stop_and_resume.py PROGRAM [KILLS [ROWS]]

A run is stopped after a round by sources that have one row more than the rounds up to it need, and no `end`: its status is 6, and
it wrote and saved these rounds. It is stopped from outside by SIGKILL, KILLS times (20 if not given), after a random time; then the
commands of docs/GUIDE.md, "Stopping and going on", are run exactly as written: those that discard what the report has after the
checkpoint's border, and the one that resumes the run. If ROWS is given, the runs that are killed have rounds of as many rows, and leave the
flushes out; those that resume them have the usual ones. It ends with status 1 at the first wrong answer, and else prints how often it
stopped and resumed."""

import json
import os
import random
import subprocess
import sys
import tempfile
import time

from system import going_on, need

JOB = """cell views keyed sum
cell most keyed max
tag view keyed int
tag tick none
depends view tick
depends tick tick
on view: add views[key] value; raise most[key] value
on tick: flush views "page {key}: {cell}"; flush most "most of {key}: {cell}"
"""
PAGES = 20
START = 1_772_438_700_000_000_000  # nanoseconds: more than awk's numbers tell apart
ROWS = 50_000
ROUND = 4_096


def job():
    pages = f"view[0..{PAGES - 1}]"
    return JOB + f'source a "a.csv" rate 100: {pages}\nsource b "b.csv" rate 100: {pages}\nsource t "t.csv" rate 1: tick\n'


def rows(draw):
    """The rows of each source: views at rising times, and a tick after each 100 time units."""
    made = {}
    for name, first in (("a.csv", 1), ("b.csv", 2)):
        made[name] = [f"{START + first + 2 * i},view[{draw.randrange(PAGES)}],{draw.randrange(-5, 50)}" for i in range(ROWS)]
    made["t.csv"] = [f"{START + 100 * (i + 1)},tick" for i in range(2 * ROWS // 100)]
    return made


def write(folder, made, count=None):
    """Writes the sources; if a count is given, those of the views have only this many rows and no `end`."""
    for name, lines in made.items():
        cut = count is not None and name != "t.csv"
        text = lines[:count] if cut else [*lines, "end"]
        with open(f"{folder}/{name}", "w") as it:
            it.write("".join(f"{line}\n" for line in text))


def run(program, folder, *options):
    done = subprocess.run([program, "run", "rides.job", *options], cwd=folder, capture_output=True)
    return done.returncode, done.stdout, done.stderr.decode()


def border_of(folder):
    with open(f"{folder}/rides.save") as it:
        return json.load(it)["border"]


def behind_each_round(program, folder, made, whole):
    stops = 0
    for count in range(0, ROWS + ROUND, ROUND):
        write(folder, made, count + 1)
        status, first, line = run(program, folder, "--save", "rides.save")
        need(status == 6, f"status {status} of a run over {count} rows: {line}")
        write(folder, made)
        options = ["--resume", "rides.save"] if os.path.exists(f"{folder}/rides.save") else []
        status, second, line = run(program, folder, "--save", "rides.save", *options)
        need(status == 0, f"status {status} of the run that is resumed after {count} rows: {line}")
        need(first + second == whole, f"the reports before and after {count} rows are not the whole")
        need(border_of(folder) == 2**63 - 1, "the border of the last checkpoint")
        os.remove(f"{folder}/rides.save")
        stops += 1
    return stops


def killed(program, folder, made, whole, times, round_rows, draw):
    write(folder, made)
    options = ["--round", round_rows] if round_rows else []
    options += ["--save", "rides.save"] + (["--unflushed"] if round_rows else [])
    began = time.monotonic()
    run(program, folder, *options)
    takes = time.monotonic() - began
    path = dict(os.environ, PATH=f"{os.path.dirname(program)}:{os.environ['PATH']}")
    cut, on = going_on()
    stopped = 0
    resumed = 0
    for _ in range(times):
        if os.path.exists(f"{folder}/rides.save"):
            os.remove(f"{folder}/rides.save")
        with open(f"{folder}/report.csv", "wb") as out:
            child = subprocess.Popen([program, "run", "rides.job", *options], cwd=folder, stdout=out)
            time.sleep(draw.random() * takes)
            child.kill()
            stopped += child.wait() != 0
        if os.path.exists(f"{folder}/rides.save"):
            done = subprocess.run(["sh", "-c", f"{cut}\n{on}"], cwd=folder, env=path, capture_output=True)
            need(done.returncode == 0, f"status {done.returncode} of the run that is resumed after a kill: {done.stderr}")
            with open(f"{folder}/report.csv", "rb") as it:
                need(it.read() == whole, "the reports before and after a kill are not the whole")
            resumed += 1
    return stopped, resumed


def main():
    program = os.path.abspath(sys.argv[1])
    times = int(sys.argv[2]) if len(sys.argv) > 2 else 20
    round_rows = sys.argv[3] if len(sys.argv) > 3 else None
    draw = random.Random(1)
    with tempfile.TemporaryDirectory() as folder:
        made = rows(draw)
        with open(f"{folder}/rides.job", "w") as it:
            it.write(job())
        write(folder, made)
        status, whole, line = run(program, folder)
        need(status == 0 and whole, f"status {status} of the whole run: {line}")
        rounds = behind_each_round(program, folder, made, whole)
        kills, resumed = killed(program, folder, made, whole, times, round_rows, draw)
        print(f"{len(whole)} bytes of report; stopped after {rounds} rounds, and resumed each time")
        print(f"stopped {kills} of {times} times from outside, and {resumed} times resumed from a checkpoint")


main()
