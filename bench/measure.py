#!/usr/bin/env python3
"""Measures the built program, and prints the tables of docs/PERFORMANCE.md.

    bench/measure.py NAME PROGRAM [--runs N] [--rows N] [--folder FOLDER] [-- WORD..]

Each NAME is a measurement below, by its section in docs/PERFORMANCE.md. Inputs are made in a fresh folder, or in FOLDER, where they are
kept, so that a later call measures at once. Commands that are compared alternate, N times (5 if not given; 3 for rounds, checkpoints,
saves and adapt), and each figure is the minimum: wall time and, in brackets, processor time, in seconds; of memory it is the maximum.
The reports of commands that are compared have to be the same. The words after `--` are put before each command, as `chrt -r 1` on a
machine that does other work too, or `taskset -c 0,1` for two processors. `--rows N` makes N rows in place of each 1,000,000, to try a
measurement. It needs gawk and GNU time; aims, items and fold also need mawk, aims and fold rustc, leaf, named, planning and prices valgrind,
planning and leaves the kit, and lines a C compiler.

The first look is `bench/measure.py aims PROGRAM`, in some ten minutes where nothing else runs: what `run` takes beside `fold`, alone and
beside busy programs, and both beside other programs, with the aim beside each figure. It says by itself on which machine and commit that
was, so what it prints can be put into docs/PERFORMANCE.md as it is. Beside busy programs its figures are medians, and mean nothing under
`chrt`.

"""

import argparse
import json
import os
import re
import shutil
import subprocess
import sys
import tempfile
import time

import aims  # Which adds a measurement to those below.
import inputs
from figures import HERE, MEASUREMENTS, Bench, Figure, measurement, row, table, text
from others import page_views, sums_by_item


@measurement("the first table: `fold`, and the same by other programs")
def fold(bench):
    table("What", "`fold`", "the same by other programs, C.UTF-8", "in C", "with mawk", "times those in C", "aim")

    def beside(what, job, other, aim, same):
        commands = {"fold": bench.flumina("fold", job)}
        for place, locale in ("utf8", "C.UTF-8"), ("c", "C"):
            commands[place] = f"export LC_ALL={locale}; {other}"
        commands["mawk"] = f"export LC_ALL=C; {other.replace('gawk', 'mawk')}"
        figures = bench.compare(same=commands if same else (), **commands)
        own, utf8, c, mawk = (figures[it].wall for it in commands)
        row(what, f"{own:.3f}", f"{utf8:.3f}", f"{c:.3f}", f"{mawk:.3f}", f"{own / c:.2f}", aim)
        return own

    forms = [
        ("one source of 1,000,000 rows, LF", "", "\n", 0.8),
        ("the same, CR LF", "", "\r\n", 1.0),
        ("the same, quoted, LF", '"', "\n", 1.0),
        ("the same, quoted, CR LF", '"', "\r\n", 1.0),
    ]
    first = None
    for what, quote, end, aim in forms:
        inputs.plain("rows", 1000000, quote, end)
        took = beside(what, "rows.job", "gawk -F, '{ n += $3 } END { print n }' rows.csv", aim, same=False)
        first = first or took
    inputs.unclosed(1000000)
    took = bench.of("fold", "unclosed.job").wall
    row("the same, with quotes that are never closed", f"{took:.3f}", "", "", "", f"{took / first:.1f} times the plain rows", 3)
    inputs.three_sources()
    merged = """sort -m -s -t, -k1,1n a.csv b.csv c.csv | gawk -F, '$2 == "inc" { n += $3 } $2 == "read" { print $1 ",read,count " n; n = 0 }'"""
    beside("three sources, 1,000,000 rows in all", "counts.job", merged, 0.75, same=True)
    figures = page_views(bench)
    own, rust, lines = figures["fold"].wall, figures["rust"].wall, text("fold.txt").count(b"\n")
    what = f"page views and updates by two sources and a clock, 1,000,000 rows, {lines:,} lines"
    row(what, f"{own:.3f}", "", f"{rust:.3f}, in Rust", "", f"{own / rust:.1f}", 1.3)
    for rows in 4000000, 16000000:
        inputs.plain("many", rows)
        took = bench.of("fold", "many.job").wall
        row(f"one source of {rows:,} rows, LF", f"{took:.3f}", "", "", "", f"{took / first:.1f} times {rows // 4:,}", 4.2)
        first = took
    inputs.deep()
    row("400,000 events of 32 actions of 19 operators and operands", f"{bench.of('fold', 'deep.job').wall:.3f}", "", "", "", "", "")


@measurement("the second table: long jobs, and jobs of many itags")
def texts(bench):
    table("What", "`flumina`")
    inputs.long_text()
    inputs.many_itags()
    size = os.path.getsize("text.job")
    deep = ("--depth", "6")
    for what, *words in (
        (f"a job text of {size:,} bytes, under `flumina fold`", "fold", "text.job"),
        ("a job of 256 itags, under `flumina check`", "check", "wide.job"),
        ("the same, under `flumina plan --depth 6`", "plan", "wide.job", *deep),
        ("256 itags, each dependent on all, under `flumina plan --depth 6`", "plan", "dense.job", *deep),
        ("256 itags in a chain of 64 kinds, under `flumina plan --depth 6`", "plan", "chain.job", *deep),
        ("256 itags and 4,096 dependencies, under `flumina check`", "check", "crowded.job"),
        ("the same, under `flumina plan --depth 6`", "plan", "crowded.job", *deep),
    ):
        row(what, f"{bench.of(*words).wall:.2f}")


@measurement("Memory")
def memory(bench):
    table("What", "rows", "bytes an event")

    def held(what, rows, job):
        held = bench.of("fold", job).held
        row(what, f"{inputs.some(rows):,}", f"{(held - 4 * 2**20) / inputs.some(rows):.1f}")

    for rows in 1000000, 1048577, 4000000, 16000000:
        inputs.plain("many", rows)
        held("one source", rows, "many.job")
    inputs.three_sources()
    held("three sources", 1000000, "counts.job")
    inputs.pages()
    held("page views and updates", 1000000, "pages.job")


@measurement("Cells in a table: the inputs, by one program")
def cells(bench):
    table("`fold` of", "seconds")
    for form in "keys", "families":
        inputs.updates_of_cells(form)
        row(f"300,000 events of 32 actions on 50 {form}", bench.of("fold", f"updates_{form}.job"))
    for pages in 50, 100:
        inputs.page_views(pages)
        row(f"1,000,000 page views of {pages} pages, printed 1,000 times", bench.of("fold", f"views{pages}.job"))


@measurement("sums by item: a web log of 1,000,000 rows over many paths, beside awk, and what an event costs by the items in use")
def items(bench):
    table("Paths", "`fold`", "gawk, C.UTF-8", "gawk, C", "mawk", "times gawk in C", "times gawk in C.UTF-8", "times mawk", "times 50 paths")
    few = None
    for paths in 50, 5000, 50000:
        figures = sums_by_item(bench, paths, utf8="C.UTF-8 gawk", c="C gawk", mawk="C mawk")
        own, utf8, c, mawk = (figures[it].wall for it in ("fold", "utf8", "c", "mawk"))
        few = few or own
        row(f"{paths:,}", *(f"{it:.3f}" for it in (own, utf8, c, mawk)), *(f"{own / it:.2f}" for it in (c, utf8, mawk, few)))


@measurement("Times and names in rows")
def named(bench):
    forms = {"numbers": "numbers alone", "names": "items by name", "times": "times as text"}
    for form in forms:
        inputs.texts_in_rows(form)
    figures = bench.compare(**{form: bench.flumina("fold", f"{form}.job") for form in forms})
    few = {form: counted(bench, form, ("fold", f"{form}.job")) / inputs.some(1000000) for form in forms}
    table("Rows of", "`fold`", "times numbers", "instructions a row", "times numbers")
    for form, what in forms.items():
        own, first = figures[form].wall, figures["numbers"].wall
        row(what, figures[form], f"{own / first:.2f}", f"{few[form]:,.0f}", f"{few[form] / few['numbers']:.2f}")


@measurement("Late rows, and jobs that keep the check busy")
def late(bench):
    table("What", "`flumina`", "compared with")
    inputs.late_rows()
    figures = bench.compare(same=("ordered", "late"), ordered=bench.flumina("fold", "ordered.job"), late=bench.flumina("fold", "late.job"))
    own, ordered = figures["late"].wall, figures["ordered"].wall
    row("1,000,000 rows late by less than 1,000, `slack 1000`", f"{own:.2f}", f"the same rows in order {ordered:.2f}: {own / ordered:.1f} times")
    for form, what in (
        ("own", "64 kinds of 32 actions with 28 reads each of a family of their own, 256 itags"),
        ("shared", "the same kinds reading all families, each under its own fixed key"),
        ("cells", "the same kinds, no two references to one cell"),
    ):
        took = []
        for version in 1, 2:
            inputs.many_references(form, version)
            size = os.path.getsize("references.job")
            took.append(f"{bench.of('check', 'references.job').wall:.2f}")
        row(f"{what}, {size // 1000} KB, versions 1 and 2, under `check`", ", ".join(took), "")


@measurement("Words that threads share")
def lines(bench):
    subprocess.run(["cc", "-O2", "-pthread", os.path.join(HERE, "cache_lines.c"), "-o", "lines"], check=True)
    subprocess.run([*bench.before, "./lines", str(max(bench.runs, 8))], check=True)


@measurement("A simulated run")
def simulate(bench):
    table("Events", "steps of the net", "`simulate`", "`fold`")
    for events in 100000, 1000000:
        inputs.demo(events)
        subprocess.run(f"'{bench.program}' plan job > plan", shell=True, check=True)
        figures = bench.compare(same=("fold", "simulate"), fold=bench.flumina("fold", "job"), simulate=bench.flumina("simulate", "job", "plan", "1"))
        steps = sum(int(it) for it in re.findall(rb"[a-z] (\d+)", text("simulate.err").rsplit(b" mark", 1)[0]))
        row(f"{inputs.some(events):,}", f"{steps:,}", f"{figures['simulate'].busy:.2f}", f"{figures['fold'].busy:.2f}")


@measurement("A run on threads, by a plan and without one")
def run(bench):
    table("What", "fold", "run PLAN", "run", "wall", "processor time")

    def beside(what, job, plan):
        commands = bench.fold_and_run(job, plan)
        one, many, own = bench.compare(same=commands, **commands).values()
        wall = f"{many.wall / one.wall:.2f} and {own.wall / one.wall:.2f} times"
        row(what, one, many, own, wall, f"{many.busy / one.busy:.2f} and {own.busy / one.busy:.2f} times")

    inputs.windows()
    for every in 10000, 1000, 100:
        inputs.barriers(every)
        for nodes in 1, 3, 7, 15:
            beside(f"windows of {every} samples, {nodes} node{'s' if nodes > 1 else ''}", "windows.job", f"windows{nodes}.plan")
    inputs.one_source()
    inputs.barriers(10000)
    beside("one source alone, 7 nodes", "windows.job", "windows7.plan")
    inputs.fees()
    for every in 1000, 100, 10, 4:
        inputs.updates(every)
        beside(f"views of pages, an update after every {every}, 15 nodes", "views.job", "views15.plan")
    inputs.long_actions()
    beside("events of 32 long actions, 7 nodes", "long.job", "long7.plan")


@measurement("A run on threads, long actions compared with no exchange at all")
def beside(bench):
    """The wall time of the same with the actions left out is subtracted, since four folds read their sources side by side."""
    inputs.long_actions()

    def four(name):
        return " ".join(f"'{bench.program}' fold {name}{s}.job > {name}{s}.txt &" for s in range(4)) + " wait"

    figures = bench.compare(
        run=bench.flumina("run", "long.job", "long7.plan"), read=bench.flumina("fold", "read.job"), four=four("long"), four_read=four("read")
    )
    run, read, many, many_read = (figures[it].wall for it in ("run", "read", "four", "four_read"))
    print(f"run {run:.2f} - {read:.2f} s, four folds side by side {many:.2f} - {many_read:.2f} s: {(run - read) / (many - many_read):.2f} times")


@measurement("Rounds", runs=3)
def rounds(bench):
    table("Rows in all", "`fold`", "memory", "`run`, one node", "memory", "`run`, three nodes", "memory")
    for rows in 1000000, 10000000:
        inputs.tops(rows)
        commands = {"fold": bench.flumina("fold", "tops.job")}
        for plan in "one", "three":
            commands[plan] = bench.flumina("run", "tops.job", f"tops_{plan}.plan")
        figures = bench.compare(same=commands, **commands)
        row(f"{inputs.some(rows):,}", *[cell for it in figures.values() for cell in (it, f"{it.held // 2**20} MB")])


@measurement("Rounds that are read ahead, and rounds read in turns: those of one row less than the usual number")
def ahead(bench):
    table("What", "`fold`", "`run`, in turns", "`run`, read ahead", "times `fold`", "times the turns")

    def beside(what, job):
        commands = {"fold": bench.flumina("fold", job), "turns": bench.flumina("run", job, "--round", "4095"), "ahead": bench.flumina("run", job)}
        figures = bench.compare(same=commands, **commands)
        one, turns, own = (figures[it] for it in commands)
        row(what, one, turns, own, f"{own.wall / one.wall:.2f}", f"{own.wall / turns.wall:.2f}")

    inputs.plain("rows", 1000000, "", "\n")
    beside("one source, no actions", "rows.job")
    inputs.three_sources()
    beside("three sources, counts", "counts.job")
    inputs.pages()
    beside("page views and updates", "pages.job")
    inputs.windows()
    for every in 10000, 1000, 100:
        inputs.barriers(every)
        beside(f"windows of {every} samples", "windows.job")


@measurement("Rounds of few rows: what a live report costs")
def live(bench):
    """The rows of three files that take turns, so that nothing is waited for: what is measured is the work of the rounds alone."""
    table("Rows of a round", "rounds", "`run`, 300,000 rows", "rows a second", "microseconds a round", "times `fold`")
    inputs.side_by_side()
    sizes = 1, 16, 256, 4096
    commands = {"fold": bench.flumina("fold", "turns.job")}
    for size in sizes:
        commands[f"run{size}"] = bench.flumina("run", "turns.job", "--round", str(size))
    figures = bench.compare(same=commands, **commands)
    own, rows = figures["fold"], inputs.some(100000)
    for size in sizes:
        it, rounds = figures[f"run{size}"], -(-rows // size)
        row(f"{size:,}", f"{rounds:,}", it, f"{3 * rows / it.wall:,.0f}", f"{(it.wall - own.wall) / rounds * 1e6:.1f}", f"{it.wall / own.wall:.2f}")


@measurement("Checkpoints", runs=3)
def checkpoints(bench):
    inputs.totals()
    job = subprocess.run(bench.flumina("check", "totals.job"), check=True, stdout=subprocess.PIPE, text=True).stdout
    words = ("run", "totals.job", "one.plan")
    # Whether the program has this option.
    unflushed = bench.once("unflushed", bench.flumina(*words, "--save", "again.save", "--unflushed"), Figure()) == 0
    heads = ("Cells", "Text", "Read", "times `json.loads`", "Written", "times `json.dumps`", "Memory held, bytes a cell")
    table(*heads, *["Written, not flushed"] * unflushed)
    start = bench.of(*words).wall
    for count in 100000, 1000000, 4194304:
        count = inputs.some(count)
        inputs.checkpoint("cells.save", count, 1, job)
        inputs.checkpoint("last.save", count, 2**63 - 1, job)
        resume = ("--resume", "cells.save")
        commands = {"read": bench.flumina(*words, *resume), "both": bench.flumina(*words, "--save", "again.save", *resume)}
        if unflushed:
            commands["unflushed"] = bench.flumina(*words, "--save", "again.save", "--unflushed", *resume)
        figures = bench.compare(**commands)
        if text("again.save") != text("last.save"):
            sys.exit("what is written again is not what was read")
        size, loads, dumps = os.path.getsize("cells.save") / 2**20, *by_python("cells.save")
        read, written = figures["read"].wall - start, figures["both"].wall - figures["read"].wall
        held = figures["both"].held / count
        cells = [f"{count:,}", f"{size:.1f} MB", f"{read:.2f} s", f"{read / loads:.1f}", f"{written:.2f} s", f"{written / dumps:.1f}", f"{held:.0f}"]
        row(*cells, *[f"{it.wall - figures['read'].wall:.2f} s" for name, it in figures.items() if name == "unflushed"])
    with open("long.save", "wb") as it:
        it.truncate(536870913)
    figure = Figure()
    status = bench.once("long", bench.flumina(*words, "--resume", "long.save"), figure)
    print(f"\n536,870,913 bytes: status {status}, {text('long.err').decode().strip()}, {figure.wall:.2f} s, {figure.held // 2**20} MB")


@measurement("Checkpoints, runs of many rounds that save", runs=3)
def saves(bench):
    table("Cells", "Checkpoint", "not saved", "saved", "a round", "saved, not flushed", "a round")
    inputs.many_rounds()
    job = subprocess.run(bench.flumina("check", "rounds.job"), check=True, stdout=subprocess.PIPE, text=True).stdout
    words, rounds = ("run", "rounds.job", "one.plan"), inputs.some(1000000) // 4096 + 1
    start = ("--resume", "cells.save")
    for count in 250, 10000, 65536:
        inputs.write("cells.save", inputs.held_cells(count, job))
        commands = {"plain": bench.flumina(*words, *start), "saved": bench.flumina(*words, "--save", "again.save", *start)}
        unflushed = bench.flumina(*words, "--save", "again.save", "--unflushed", *start)
        if bench.once("unflushed", unflushed, Figure()) == 0:  # Else the program has no such option.
            commands["unflushed"] = unflushed
        figures = bench.compare(same=commands, **commands)
        plain, cells = figures.pop("plain").wall, []
        for it in figures.values():
            cells += [f"{it.wall:.2f} s, {it.wall / plain:.2f} times", f"{(it.wall - plain) * 1000 / rounds:.2f} ms"]
        row(f"{count:,} and 250", f"{os.path.getsize('again.save') / 2**20:.2f} MB", f"{plain:.2f} s", *cells)


def by_python(name):
    """How long python3 takes to read a text, and to write what it read."""
    with open(name) as it:
        whole = it.read()
    began = time.monotonic()
    value = json.loads(whole)
    read = time.monotonic()
    json.dumps(value, separators=(",", ":"))
    return read - began, time.monotonic() - read


@measurement("Planning anew")
def planning(bench):
    table("Itags", "Planning, of the round")
    for itags, whole, once in re.findall(r"(\d+) itags: round (\d+) ns, .*planning (\d+) ns", by_a_program("planning.txt")):
        row(itags, f"{int(once) / int(whole):.4f}")
    inputs.counts_and_reads(40960)
    counts = {}
    for name, words in ("fold", ("fold", "counts.job")), ("run", ("run", "counts.job", "--adapt")):
        counts[name] = counted(bench, name, words)
    if text("fold.txt") != text("run.txt"):
        sys.exit("run and fold write other reports")
    called = subprocess.run(["callgrind_annotate", "--tree=caller", "--inclusive=yes", "--threshold=100", "run.out"], check=True, stdout=subprocess.PIPE, text=True)
    calls = 0
    for line in called.stdout.splitlines():
        if "run_in_rounds" in line:
            calls, times = int(line.split()[0].replace(",", "")), int(re.search(r"\((\d+)x\)", line)[1])
        if re.search(r"\* .*flu_planner::plan ", line):
            break
    whole = counts["fold"] / 10
    print(f"\n{calls / times:.0f} instructions a plan: {calls / times / whole:.4f} of the fold of a round; all {times} are {calls / counts['run']:.4f} of the run")


def by_a_program(name):
    """What a program over the crates writes, which `rt try` builds with checks and without a proof, in a copy of the repository."""
    top = os.path.dirname(HERE)
    with tempfile.TemporaryDirectory() as copy:
        for crate in os.listdir(f"{top}/crates"):
            for place in "src", "specs", "proofs":
                if os.path.isdir(f"{top}/crates/{crate}/{place}"):
                    shutil.copytree(f"{top}/crates/{crate}/{place}", f"{copy}/crates/{crate}/{place}")
        shutil.copy(f"{top}/HANDLES", copy)
        with open(f"{top}/crates.txt") as it:
            inputs.write(f"{copy}/crates.txt", it.read() + "measured: " + " ".join(USED) + "\n")
        os.makedirs(f"{copy}/crates/measured/src")
        shutil.copy(f"{HERE}/{name}", f"{copy}/crates/measured/src/main.rt")
        done = subprocess.run(["rt", "try", "--seconds", "60"], cwd=f"{copy}/crates/measured", check=True, stdout=subprocess.PIPE, text=True)
    return done.stdout


# The crates that a program of `by_a_program` may use.
USED = "flu_model flu_cells flu_seq flu_outside flu_report flu_parse flu_deps flu_check flu_planner flu_streams flu_fork flu_worker flu_run".split()


def counted(bench, name, words):
    """The instructions of a call in all, by valgrind, which leaves them by function in NAME.out."""
    with open(f"{name}.txt", "wb") as out, open(f"{name}.err", "wb") as err:
        valgrind = ["valgrind", "--tool=callgrind", f"--callgrind-out-file={name}.out"]
        subprocess.run([*valgrind, *bench.flumina(*words)], check=True, stdout=out, stderr=err)
    return int(re.search(rb"Collected : (\d+)", text(f"{name}.err"))[1])


@measurement("A plan that follows the counts", runs=3)
def adapt(bench):
    names = ("ROWS of the busy source", "`fold`", "`run`, declared rates", "`run`, right rates", "`run --adapt`, from the declared ones", "of the right ones")
    table(*names)
    for rows in 1000000, 4000000:
        inputs.busy_source(rows)
        for name in "wrong", "right":
            subprocess.run(f"'{bench.program}' plan {name}.job > {name}.plan", shell=True, check=True)
        commands = {
            "fold": bench.flumina("fold", "wrong.job"),
            "declared": bench.flumina("run", "wrong.job", "wrong.plan"),
            "right": bench.flumina("run", "wrong.job", "right.plan"),
            "adapt": bench.flumina("run", "wrong.job", "wrong.plan", "--adapt"),
        }
        figures = bench.compare(same=commands, **commands)
        row(f"{inputs.some(rows):,}", *figures.values(), f"{figures['adapt'].wall / figures['right'].wall:.2f}")
        if text("adapt.err") != text("right.plan"):
            print("the plan that is observed is not the one by the right rates")


@measurement("Late rows, and jobs that keep the check busy: long sums, and rows as late as may be")
def busy(bench):
    table("What", "seconds", "times")
    kinds = inputs.some(64)
    for listed in 1, kinds:
        inputs.long_sums(kinds, listed)
        what = f"{kinds} kinds, {os.path.getsize('sums.job'):,} bytes, {listed} listed"
        commands = {it: bench.flumina(it, "sums.job") for it in ("fold", "check", "plan", "run")}
        figures = bench.compare(**commands)
        fold = figures["fold"].busy
        for name, it in figures.items():
            row(f"{what}: `{name}`", f"{it.busy:.2f}", f"{it.busy / fold:.2f} times `fold`")
    rows = inputs.some(300000)
    inputs.very_late_rows(rows)
    for command in "fold", "run":
        names = ("ordered", "falling", "drawn")
        figures = bench.compare(same=names, **{it: bench.flumina(command, f"{it}.job") for it in names})
        for name, it in figures.items():
            row(f"{rows:,} rows, {name}: `{command}`", f"{it.busy:.2f}", f"{it.busy / figures['ordered'].busy:.2f} times in order")


@measurement("Which rounds run on the tree: the prices of its estimates, in nanoseconds")
def prices(bench):
    """Each is a difference of two runs by what the one has more than the other, divided by how often it has it: of processor time, but of
    wall time for what a worker waits."""
    table("Price", "nanoseconds")
    events = inputs.some(400000)
    inputs.priced(events)
    jobs = ("plain", "keys", "acts", "terms", "short", "texts")
    fold = bench.compare(**{name: bench.flumina("fold", f"{name}.job") for name in jobs})
    one = bench.compare(**{name: bench.flumina("run", f"{name}.job", "one.plan") for name in ("plain", "keys")})
    plans = ("three", "seven", "fifteen", "cells", "cell")
    tree = bench.compare(**{name: bench.flumina("run", "plain.job", f"{name}.plan") for name in plans})
    whole = counted(bench, "fold", ("fold", "plain.job"))
    found = subprocess.run(["callgrind_annotate", "--inclusive=yes", "--threshold=100", "fold.out"], check=True, stdout=subprocess.PIPE, text=True)

    def of(name):
        line = next(line for line in found.stdout.splitlines() if name in line)
        return int(line.split()[0].replace(",", ""))

    def price(name, seconds, count):
        row(name, f"{seconds * 1e9 / count:.1f}")

    price("EVENT, with one action", of("folding::fold") / whole * fold["plain"].busy, events)
    price("ACTION", fold["acts"].busy - fold["plain"].busy, 31 * events)
    price("TERM", fold["terms"].busy - fold["acts"].busy, 31 * 28 * events)
    price("PIECE", fold["texts"].busy - fold["short"].busy, 14 * events)
    price("TURN", one["plain"].busy - fold["plain"].busy, events)
    price("LOOK", (one["keys"].busy - fold["keys"].busy) - (one["plain"].busy - fold["plain"].busy), 63 * events)
    price("WORKER", tree["fifteen"].wall - one["plain"].wall, 14 * events / 4096)
    price("TRIP", tree["three"].wall - one["plain"].wall, events)
    price("TRIP, next", tree["seven"].wall - tree["three"].wall, events)
    price("HANDOVER", tree["three"].busy - one["plain"].busy, 3 * events)
    price("HANDOVER, next", tree["seven"].busy - tree["three"].busy, 4 * events)
    price("CELL", tree["cells"].busy - tree["cell"].busy, 31 * events)


@measurement("An event at a leaf")
def leaf(bench):
    table("What", "Instructions", "times `update`")
    events = inputs.some(1000000)
    inputs.one_leaf(bench.program, events)
    counted(bench, "run", ("run", "leaf.job", "leaf.plan"))
    subprocess.run(bench.flumina("fold", "leaf.job"), check=True, stdout=open("fold.txt", "wb"))
    if text("fold.txt") != text("run.txt"):
        sys.exit("run and fold write other reports")
    found = subprocess.run(["callgrind_annotate", "--inclusive=yes", "--threshold=100", "run.out"], check=True, stdout=subprocess.PIPE, text=True)

    def each(name):
        line = next(line for line in found.stdout.splitlines() if name in line)
        return int(line.split()[0].replace(",", "")) / events

    update = each("updates::update")
    for what, name in (
        ("`update` of the fold, which the leaf calls too", "updates::update"),
        ("`Worker::handle`, with it", "Worker::handle"),
        ("`Worker::can_handle`", "Worker::can_handle"),
        ("a leaf's turn in all", "leaf::turn"),
    ):
        row(what, f"{each(name):.0f}", f"{each(name) / update:.1f}")


@measurement("An event at a leaf, by how many itags it has; built with checks")
def leaves(bench):
    table("Itags", "Who handles the events", "times the fold")
    for itags, folded, who, took in re.findall(r"(\d+) itags: fold (\d+) ns, (.*) (\d+) ns", by_a_program("leaves.txt")):
        row(itags, who, f"{int(took) / int(folded):.1f}")


def main():
    names = "\n".join(f"  {name:12} {what}" for name, (_, what, _) in MEASUREMENTS.items())
    words = argparse.ArgumentParser(description=__doc__ + names, formatter_class=argparse.RawDescriptionHelpFormatter)
    words.add_argument("name", choices=MEASUREMENTS, metavar="NAME")
    words.add_argument("program", metavar="PROGRAM")
    words.add_argument("--runs", type=int)
    words.add_argument("--rows", type=int, default=1000000)
    words.add_argument("--folder")
    place = sys.argv.index("--") if "--" in sys.argv else len(sys.argv)
    said, before = words.parse_args(sys.argv[1:place]), sys.argv[place + 1 :]
    function, _, runs = MEASUREMENTS[said.name]
    inputs.million = said.rows
    program = os.path.abspath(said.program)
    with tempfile.TemporaryDirectory(prefix="flumina-bench-") as folder:
        if said.folder:
            inputs.kept = os.path.abspath(os.path.join(said.folder, "made"))
        os.makedirs(said.folder or folder, exist_ok=True)
        os.chdir(said.folder or folder)
        function(Bench(program, before, said.runs or runs))
        os.chdir("/")


if __name__ == "__main__":
    main()
