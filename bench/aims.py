"""The aims of `run` beside `fold` and of both beside other programs, in one call, with all that is needed to read the figures."""

import contextlib
import os
import re
import subprocess
import sys
import textwrap
import time

import inputs
from figures import HERE, measurement, row, table, text
from others import by_awk, page_views, same_lines, sums_by_item


@measurement("The aims, in one call: `run` beside `fold`, alone and beside busy programs, and both beside other programs")
def aims(bench):
    began = time.monotonic()
    print(textwrap.fill(machine(bench) + " " + side_by_side(bench), 160) + "\n")
    heads = "`fold`", "`run PLAN`", "`run`"
    table("Job", *heads, "gawk", "mawk", "wall time, PLAN", "wall time", "aim", "processor time, PLAN", "processor time", "aim")
    loaded, most, of = [], 0, ""
    for what, job, plan, awk, aim, of_processors in jobs_of_aims():
        commands, awks = bench.fold_and_run(job, plan), by_awk(job, awk)
        alone = bench.compare(same=commands, **commands, **awks)
        same_lines(*awks)
        took = [alone.get(it, "") for it in ("fold", "plan", "run", "gawk", "mawk")]
        row(what, *took, *times(alone, "wall", aim), *times(alone, "busy", of_processors))
        processors = alone["run"].busy / alone["fold"].busy
        if of_processors and processors > most:
            most, of = processors, what
        if plan and alone["plan"].wall > 2 * alone["fold"].wall:
            del commands["plan"]  # It could take a minute beside them.
        with busy_programs(4):
            loaded.append((what, bench.compare(same=commands, runs=beside_load(bench), **commands)))
    print()
    table("Job beside four busy programs", *heads, "wall time, PLAN", "wall time", "aim")
    for what, figures in loaded:
        took = [f"{figures[it].median:.2f}" if it in figures else "" for it in ("fold", "plan", "run")]
        row(what, *took, *times(figures, "median", 1.5))
    print()
    table("What", "`fold`", "`run`", "gawk", "mawk", "Rust", "compared", "figure", "aim")
    row(f"light job with the most: {of}", *[""] * 5, "processor time of `run`, of `fold`", by_aim(most, LIGHT), LIGHT)
    further_aims(bench)
    print(f"The whole took {time.monotonic() - began:.0f} s.", file=sys.stderr)


def beside_load(bench):
    """How often commands alternate beside busy programs, where they take longer."""
    return min(bench.runs, 3)


# How much of the processor time of `fold` a run of light actions may take.
LIGHT = 1.6


def jobs_of_aims():
    """The jobs that are folded and run: what each is, its file, its plan, the same in awk, and the aims for wall and for processor time. The
    inputs of a job are there until the next one is asked for."""
    inputs.windows()
    inputs.fees()
    for every, aim in (10000, 0.6), (1000, 0.8), (100, 0.8):
        inputs.barriers(every)
        inputs.updates(every)
        inputs.hours(every)
        inputs.payments(every)
        for name, job, plan in ("barrier", "windows", "windows7"), ("pages, version 2", "views", "views15"), ("fraud, version 2", "fraud", "fraud7"):
            yield f"{name}, windows of {every:,}", f"{job}.job", f"{plan}.plan", job, aim, LIGHT
    inputs.hours(100000)
    for every in 4, 10, 100:
        inputs.updates(every)
        yield f"four pages, an update after every {every} views", "views.job", "views15.plan", "views", 0.8, LIGHT
    inputs.one_source()
    inputs.barriers(10000)
    yield "one source alone, windows of 10,000", "windows.job", "windows7.plan", "windows", 0.8, LIGHT
    inputs.long_actions()
    rows = f"{inputs.some(100000):,} events of 32 long actions"
    yield f"{rows}, sums", "long.job", "long7.plan", None, 0.31, None
    yield f"{rows}, sums and maxima under guards", "guarded.job", "long7.plan", None, 0.45, None
    inputs.demo(1000000)
    yield "tests: the demo, 31 itags", "job", None, "zips", 1.1, None
    inputs.hostile_paths()
    yield "tests: rows with items, and many hours", "paths.job", "paths.plan", None, 1.1, None
    inputs.very_late_rows(inputs.some(1000000))
    yield "tests: rows that fall, `slack 60000`", "falling.job", None, None, 1.1, None
    inputs.crowd()
    yield "tests: 256 itags, 4,096 dependencies", "crowd.job", None, None, 1.1, None


def further_aims(bench):
    """What is compared with other programs, and the memory of a run."""
    rows = f"{inputs.some(1000000):,}"

    def beside(what, figures, compared, other, aim):
        took = [f"{figures[it].wall:.3f}" if it in figures else "" for it in ("fold", "run", "gawk", "mawk", "rust")]
        row(what, *took, compared, by_aim(figures["fold"].wall / other.wall, aim), aim or "")

    inputs.plain("rows", 1000000, "", "\n")
    inputs.summed()
    sums = {it: f"LC_ALL=C {it} -F, '{{ n += $3 }} END {{ printf \"%.0f\\n\", n }}' rows.csv" for it in ("gawk", "mawk")}
    commands = bench.fold_and_run("sum.job")
    figures = bench.compare(same=commands, **commands, **sums)
    for name in sums:
        if text("fold.txt").split()[-1:] != text(f"{name}.txt").split():
            sys.exit(f"fold and {sums[name]} have other sums")
    beside(f"{rows} plain rows with a sum", figures, "`fold`, of gawk", figures["gawk"], 0.9)
    beside("the same", figures, "`fold`, of mawk", figures["mawk"], 1.2)
    inputs.pages()
    awks = by_awk("pages.job", "zips")
    figures = page_views(bench, ("run",), **awks)
    same_lines(*awks)
    beside(f"page views and updates, {rows} rows", figures, "`fold`, of Rust", figures["rust"], 1.3)
    few, *others = [sums_by_item(bench, paths, gawk="C gawk", mawk="C mawk") for paths in (50, 5000, 50000)]
    log = f"web log of {rows} rows, `add n[item]` over"
    beside(f"{log} 50 items", few, "`fold`, of gawk", few["gawk"], None)
    beside(f"{log} 5,000 items", others[0], "`fold`, of gawk", others[0]["gawk"], 1)
    beside(f"{log} 50,000 items", others[1], "`fold`, of that over 50", few["fold"], 2)
    inputs.tops(10000000)
    commands = bench.fold_and_run("tops.job", "tops_three.plan")
    held = {name: it.held / 2**20 for name, it in bench.compare(same=commands, runs=1, **commands).items()}
    what = f"views of 20 pages, {inputs.some(10000000):,} rows"
    both = f"{by_aim(held['plan'], 64, 0)} and {by_aim(held['run'], 64, 0)} MB"
    row(what, f"{held['fold']:.0f} MB", f"{held['run']:.0f} MB", "", "", "", "memory of `run`, by PLAN and without", both, "64 MB")


def machine(bench):
    """Where and on what a measurement is made."""

    def said(*words):
        done = subprocess.run(words, cwd=HERE, stdout=subprocess.PIPE, stderr=subprocess.DEVNULL, text=True)
        return done.stdout.strip()

    with open("/proc/cpuinfo") as it:
        model = next((line.split(": ")[1].strip() for line in it if line.startswith("model name")), "of an unknown model")
    versions = [("gawk", "--version"), ("mawk", "-W", "version"), ("rustc", "--version")]
    others = ", ".join(re.match(r"[A-Za-z ]*[0-9.]*", said(*it))[0] for it in versions)
    changes = " with changes" if said("git", "status", "--porcelain") else ""
    load = ", ".join(f"{it:.2f}" for it in os.getloadavg())
    words = f", each command after `{' '.join(bench.before)}`" if bench.before else ""
    return (
        f"On {len(os.sched_getaffinity(0))} processors ({model}), a checkout of {said('git', 'rev-parse', '--short', 'HEAD')}{changes}, with a load of"
        f" {load} over the last 1, 5 and 15 minutes at the start{words}. {inputs.some(1000000):,} rows, if the row says no other number. Seconds of wall"
        f" time, in brackets of processor time: each is the least of {bench.runs} alternating runs, beside busy programs the median of {beside_load(bench)},"
        f" where a PLAN is left out that took more than twice `fold` without them. The columns before an aim have the times of `run` divided by those of"
        f" `fold`; a figure that misses the aim is bold. {others}, in the C locale."
    )


def side_by_side(bench):
    """What four processors give programs that share nothing: no run on four threads can be faster than that."""
    loop = [sys.executable, "-c", "for _ in range(10_000_000): pass"]
    took = {}
    for count in 1, 2, 4:
        took[count] = []
        for _ in range(bench.runs):
            start = time.monotonic()
            for it in [subprocess.Popen([*bench.before, *loop]) for _ in range(count)]:
                it.wait()
            took[count].append(time.monotonic() - start)
    one, two, four = (min(it) for it in took.values())
    return (
        f"Two loops in Python side by side took {two / one:.2f} times as long as one, and four {four / one:.2f} times, so that work that is shared without"
        f" any loss by two threads takes at least {two / one / 2:.2f} of the time of one, and by four {four / one / 4:.2f}."
    )


def times(figures, what, aim):
    """How many times that of `fold` a figure of `run` is, by a plan and without one, and the aim."""
    took = {name: getattr(it, what) for name, it in figures.items()}
    return *[by_aim(took[it] / took["fold"], aim) if it in took else "" for it in ("plan", "run")], aim or ""


def by_aim(figure, aim, digits=2):
    """The figure, bold if it misses its aim."""
    shown = f"{figure:.{digits}f}"
    return f"**{shown}**" if aim and float(shown) > aim else shown


@contextlib.contextmanager
def busy_programs(count):
    """So many programs that do nothing but keep a processor busy, each until it is ended here or its parent is gone."""
    work = "import os\nparent = os.getppid()\nwhile os.getppid() == parent:\n    for _ in range(1000000): pass"
    children = [subprocess.Popen([sys.executable, "-c", work]) for _ in range(count)]
    try:
        yield
    finally:
        for it in children:
            it.kill()
            it.wait()
