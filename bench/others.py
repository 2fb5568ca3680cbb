"""Other programs that do the same as a job: awk, and a program in Rust."""

import os
import re
import subprocess
import sys

import inputs
from figures import HERE, text


def page_views(bench, also=(), **others):
    """The page views by `fold` and other commands of the program, by a program in Rust, and by others, of which only some write the same bytes."""
    inputs.pages()
    subprocess.run(["rustc", "-O", "--edition", "2024", os.path.join(HERE, "pages.rs"), "-o", "pages"], check=True)
    commands = {it: bench.flumina(it, "pages.job") for it in ("fold", *also)}
    commands["rust"] = ["./pages", "web.csv", "app.csv", "clock.csv"]
    return bench.compare(same=commands, **commands, **others)


def sums_by_item(bench, paths, **awks):
    """The web log over so many paths by `fold` and `run`, and the same sums by awk in some locales."""
    inputs.items("web", 1000000, paths)
    commands = {it: bench.flumina(it, "web.job") for it in ("fold", "run")}
    for name, awk in awks.items():
        commands[name] = f"LC_ALL={awk} -F, '{{ n[$3] += $4 }} END {{ for (path in n) if (n[path]) print path, n[path] }}' web.csv"
    figures = bench.compare(same=("fold", "run"), **commands)
    made = sorted(line.split(b",", 2)[2] for line in text("fold.txt").splitlines())
    for name in awks:
        if made != sorted(text(f"{name}.txt").splitlines()):
            sys.exit(f"fold and {commands[name]} have other sums")
    return figures


def by_awk(job, name):
    """The commands that merge the sources of a job and report the same lines by gawk and mawk, if there is a program for them."""
    files = " ".join(re.findall(r'^source \w+ "([^"]+)"', text(job).decode(), re.M))
    merged = f"export LC_ALL=C; sort -m -s -t, -k1,1n {files}"
    return {it: f"{merged} | {it} -F, -f {inputs.JOBS}/{name}.awk" for it in ("gawk", "mawk") if name}


def same_lines(*names):
    """Ends the measurement if one of these wrote other lines than `fold`, in any order."""
    for name in names:
        if sorted(text(f"{name}.txt").splitlines()) != sorted(text("fold.txt").splitlines()):
            sys.exit(f"{name} and fold write other lines")
