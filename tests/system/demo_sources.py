#!/usr/bin/env python3
"""Writes the job of a demo and its sources as files, so that other commands than `demo` can be tried on them.

    tests/system/demo_sources.py N SEED FOLDER

The rows are those of the demo's streams (`demo_lists` in crates/flu_gen/specs/DemoStreams.antt): at each time from 1 to N an
event that the seed draws, a tick at each thousandth time and one after the last.
"""
import os
import sys
from pathlib import Path

SOURCES = """source web "web.csv" rate 1000: view[0..9]
source app "app.csv" rate 500: view[0..9], update[0..9]
source clock "clock.csv" rate 1: tick
"""
JOB = (Path(__file__).resolve().parents[2] / "bench" / "jobs" / "zips.head").read_text() + SOURCES


def main():
    count, number, folder = int(sys.argv[1]), int(sys.argv[2]), sys.argv[3]
    os.makedirs(folder, exist_ok=True)
    rows = {"web": [], "app": [], "clock": []}
    for time in range(1, count + 1):
        number = (number * 1103515245 + 12345) % 2 ** 31
        draw = number // 65536
        key, value = draw // 16 % 10, draw % 100
        if draw % 16 == 0:
            rows["app"].append(f"{time},update[{key}],{value}\n")
        elif draw % 16 <= 5:
            rows["app"].append(f"{time},view[{key}],{value}\n")
        else:
            rows["web"].append(f"{time},view[{key}],{value}\n")
        if time % 1000 == 0:
            rows["clock"].append(f"{time},tick\n")
    rows["clock"].append(f"{count + 1},tick\n")
    for name, texts in {**rows, "job": None}.items():
        with open(os.path.join(folder, name if texts is None else f"{name}.csv"), "w", encoding="ascii") as it:
            it.write(JOB if texts is None else "".join(texts) + "end\n")


if __name__ == "__main__":
    main()
