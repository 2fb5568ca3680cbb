"""The inputs of the measurements: jobs, plans and rows, written to the working folder. Jobs that several measurements share are in
`bench/jobs` and `examples`, and are taken without their sources; the same in awk, where it is measured too, is in `bench/jobs`. Rows are made by gawk,
whose `srand` draws the same ones each time."""

import functools
import hashlib
import json
import os
import random
import shutil
import subprocess
import sys

JOBS = os.path.join(os.path.dirname(os.path.abspath(__file__)), "jobs")
EXAMPLES = os.path.join(JOBS, "..", "..", "examples")
TESTS = os.path.join(JOBS, "..", "..", "tests", "system")

# How many rows are made in place of 1,000,000, to try a measurement.
million = 1000000


# The folder in which inputs are kept for later calls, if there is one.
kept = None


def made(function):
    """The files that a call writes are kept, if there is a folder for that, and only linked where they are there already."""

    @functools.wraps(function)
    def linked(*words, **named):
        if kept is None:
            return function(*words, **named)
        place = os.path.join(kept, f"{function.__name__}_{hashlib.sha1(repr((million, words, named)).encode()).hexdigest()[:12]}")
        if not os.path.exists(place):
            here, new = os.getcwd(), place + ".new"
            shutil.rmtree(new, ignore_errors=True)
            os.makedirs(new)
            os.chdir(new)
            function(*words, **named)
            os.chdir(here)
            os.rename(new, place)
        for name in os.listdir(place):
            cleared(name)
            os.link(os.path.join(place, name), name)

    return linked


def cleared(name):
    """The name, under which there is no file now: what is written next changes no file that is kept."""
    if os.path.lexists(name):
        os.remove(name)
    return name


def some(rows):
    """This many rows, or their part."""
    return max(rows * million // 1000000, 1)


def write(name, text):
    with open(cleared(name), "w") as it:
        it.write(text)


def shared(name):
    with open(os.path.join(JOBS, name)) as it:
        return it.read()


def example(name):
    """The job of an example, without its sources."""
    with open(os.path.join(EXAMPLES, name, f"{name}.job")) as it:
        return "".join(line for line in it if not line.startswith("source "))


def job(name, head, *sources):
    """A job from a file of `bench/jobs`, or from a text, and its sources."""
    write(name, (shared(head) if head.endswith(".head") else head) + "".join(f"source {it}\n" for it in sources))


def plans(*names):
    for name in names:
        write(f"{name}.plan", shared(f"{name}.plan"))


def gawk(program, to=None, **values):
    words = ["gawk"] + [word for name, value in values.items() for word in ("-v", f"{name}={value}")]
    rows = subprocess.run([*words, f"BEGIN {{ {program} }}"], check=True, stdout=subprocess.PIPE).stdout
    if to:
        with open(cleared(to), "wb") as it:
            it.write(rows)
    return rows.decode()


def ticks(name, tag, every, rows=1000000):
    """A source of events without a value, one after every so many of all the rows of the other sources."""
    gawk('for (n = every; n <= rows; n += every) printf "%d,%s\\n", n, tag; print "end"', name, tag=tag, every=every, rows=some(rows))


@made
def plain(name, rows, quote="", end="\n"):
    """Rows of one source, whose only kind has no actions."""
    gawk(
        """srand(1)
        for (t = 1; t <= rows; t++) printf "%s%d%s,%sinc%s,%s%d%s%s", q, t, q, q, q, q, int(rand() * 10000), q, end
        printf "end%s", end""",
        f"{name}.csv",
        rows=some(rows),
        q=quote.replace('"', '\\"'),
        end=end.replace("\r", "\\r").replace("\n", "\\n"),
    )
    job(f"{name}.job", "tag inc int\n", f'a "{name}.csv": inc')


def summed():
    """The job that adds the rows of `plain` to a sum, which a second source reads at its end."""
    job("sum.job", "count.head", 'a "rows.csv": inc', 'c "last.csv": read')
    write("last.csv", f"{some(1000000) + 1},read\nend\n")


@made
def unclosed(rows):
    """The same rows, whose last field opens a quote that is never closed."""
    gawk('srand(1); for (t = 1; t <= rows; t++) printf "%d,inc,\\"%d\\n", t, int(rand() * 10000); print "end"', "unclosed.csv", rows=some(rows))
    job("unclosed.job", "tag inc int\n", 'a "unclosed.csv": inc')


@made
def three_sources():
    """Counts of two sources that a third one reads: 1,000,000 rows in all."""
    job("counts.job", "count.head", 'a "a.csv": inc', 'b "b.csv": inc', 'c "c.csv": read')
    for name, seed in ("a", 1), ("b", 2):
        rows = 'srand(seed); for (t = 1; t <= rows; t++) print 2 * t + seed - 1 ",inc," int(rand() * 10000); print "end"'
        gawk(rows, f"{name}.csv", seed=seed, rows=some(499500))
    gawk('for (t = 1; t <= rows; t++) print 999 * t ",read"; print "end"', "c.csv", rows=some(1000))


@made
def side_by_side():
    """Counts of three sources whose rows take turns, 100,000 each; the third one has a read in place of each hundredth of its own."""
    job("turns.job", "count.head", 'a "a.csv": inc', 'b "b.csv": inc', 'c "c.csv": inc, read')
    for name, first in ("a", 1), ("b", 2), ("c", 3):
        rows = 'for (t = 0; t < rows; t++) print 3 * t + first (reads && t % 100 == 99 ? ",read" : ",inc," t % 1000); print "end"'
        gawk(rows, f"{name}.csv", first=first, reads=int(name == "c"), rows=some(100000))


@made
def late_rows():
    """1,000,000 rows that come late by less than 1,000, and the same rows in order."""
    rows = some(1000000)
    for name in "late", "ordered":
        job(f"{name}.job", "count.head", f'a "{name}.csv" slack 1000: inc', 'c "c.csv": read')
    gawk('for (t = 1; t <= 1000; t++) print 999 * t ",read"; print "end"', "c.csv")
    late = 'srand(1); for (t = 1; t <= rows; t++) print t + int(rand() * 999) "\\t" t ",inc," t % 100'
    lines = sorted(gawk(late, rows=rows).splitlines(), key=lambda line: int(line.split("\t")[0]))
    write("late.csv", "".join(line.split("\t")[1] + "\n" for line in lines) + "end\n")
    gawk('for (t = 1; t <= rows; t++) print t ",inc," t % 100; print "end"', "ordered.csv", rows=rows)


@made
def pages():
    """Page views, and updates of zip codes, by two sources, and ticks that print the views: 1,000,000 rows, some 73,000 lines."""
    job("pages.job", "zips.head", 'web "web.csv": view[0..99]', 'app "app.csv": view[0..99], update[0..54]', 'clock "clock.csv": tick')
    gawk(
        """srand(1)
        for (t = 1; t <= rows; t++) {
            if (rand() < 0.6) print 2 * t ",view[" int(rand() * 100) "]," t % 100 > "web.csv"
            else if (rand() < 0.125) print 2 * t ",update[" int(rand() * 55) "]," int(rand() * 100000) > "app.csv"
            else print 2 * t ",view[" int(rand() * 100) "]," t % 100 > "app.csv"
        }
        for (n = 1; n <= 226; n++) print 8800 * n + 1 ",tick" > "clock.csv"
        print "end" > "web.csv"; print "end" > "app.csv"; print "end" > "clock.csv" """,
        rows=some(1000000),
    )


@made
def page_views(count):
    """1,000,000 views of so many pages, printed 1,000 times."""
    job(f"views{count}.job", "pages.head", f'web "views{count}.csv": view[0..{count - 1}]', 'clock "ticks.csv": tick')
    rows = 'srand(1); for (t = 1; t <= rows; t++) print t ",view[" int(rand() * pages) "]," t % 100; print "end"'
    gawk(rows, f"views{count}.csv", rows=some(1000000), pages=count)
    gawk('for (t = 1; t <= 1000; t++) print 1000 * t ",tick"; print "end"', "ticks.csv")


@made
def updates_of_cells(form):
    """300,000 events of 32 actions each on 50 cells: 50 keys of three families, or 50 families."""
    sorts, acts, families = ("sum", "max", "last"), ("add", "raise", "set"), form == "families"
    if families:
        text = "".join(f"cell f{c} {sorts[c % 3]}\n" for c in range(50))
    else:
        text = "".join(f"cell f{s} keyed {sorts[s]}\n" for s in range(3))
    cells = [f"f{c}" if families else f"f{c % 3}[{c}]" for c in range(50)]
    text += "tag u int\ntag v int\ntag w none\n"
    for k, kind in enumerate("uv"):
        on = [(a + k * 18) % 50 for a in range(32)]
        text += f"on {kind}: " + ";\n".join(f"{acts[c % 3]} {cells[c]} value + {a}" for a, c in enumerate(on)) + "\n"
    shown = ["".join("{" + it + "} " for it in cells[n : n + 10]) for n in range(0, 50, 10)]
    text += "on w: " + "; ".join(f'emit "{it}"' for it in shown) + "\n"
    job(f"updates_{form}.job", text, 'a "updates.csv": u, v', 'b "once.csv": w')
    rows = 'srand(1); for (t = 1; t <= rows; t++) print t "," (t % 2 ? "u" : "v") "," int(rand() * 10000); print "end"'
    gawk(rows, "updates.csv", rows=some(300000))
    write("once.csv", "300001,w\nend\n")


def product(factors, count):
    return " + ".join(["(value" + "".join(f" * {it}" for it in factors) + ")"] * count)


@made
def deep():
    """400,000 events of 32 actions of 19 operators and operands each."""
    actions = [f"add c{j} {product([100 + f + j for f in range(1, 5)], 2)}" for j in range(32)]
    text = "".join(f"cell c{i} sum\n" for i in range(32)) + "tag u int\non u: " + ";\n".join(actions) + "\n"
    job("deep.job", text, 'a "deep.csv": u')
    gawk('srand(1); for (t = 1; t <= rows; t++) print t ",u," int(rand() * 10000); print "end"', "deep.csv", rows=some(400000))


@made
def long_text():
    """A job text of about 1,048,576 bytes: 64 kinds of 32 long actions, comments, 4,096 dependencies."""
    text = "".join(f"cell c{i} sum # the cell of kind {i}\n" for i in range(64)) + "".join(f"tag k{i} int\n" for i in range(64))
    text += "".join(f"depends k{i % 64} k{i // 64}\n" for i in range(4096))
    said = "  # eight products of seven factors each are added to the cell of one kind, and to no other\n"
    for i in range(64):
        text += f"on k{i}:\n"
        for j in range(32):
            text += f"    add c{(i + j) % 64} {product([100 + f for f in range(1, 7)], 8)}{';' if j < 31 else ''}{said}"
    job("text.job", text, 's "s.csv": k0')
    write("s.csv", "end\n")


@made
def many_itags():
    """Four jobs of 256 itags: views and updates; one that no removal separates; a chain of kinds; as many dependencies as may be."""
    job("wide.job", "zips.head", 'web "web.csv" rate 1000: view[0..99]', 'app "app.csv" rate 500: view[0..99], update[0..54]', 'clock "clock.csv" rate 1: tick')
    job("dense.job", "tag t keyed none\ndepends t t\n", 's "s.csv": t[0..255]')
    kinds = "".join(f"tag k{i} keyed none\n" for i in range(64))
    sources = [f's{i} "s{i}.csv" rate {i * 37 % 64}: k{i}[0..3]' for i in range(64)]
    job("chain.job", kinds + "".join(f"depends k{i} k{i + 1}\n" for i in range(63)), *sources)
    job("crowded.job", crowded(" same"), *sources)


def crowded(how):
    """64 kinds with as many dependencies as a job may have."""
    return "".join(f"tag k{i} keyed none\n" for i in range(64)) + "".join(f"depends k{i} k{j}{how}\n" for i in range(64) for j in range(64))


@made
def crowd():
    """1,000,000 events of 256 itags from four sources, each of which depends on all."""
    acts = "cell n keyed sum\n" + "".join(f"on k{i}: add n[key] {i + 1}" + ('; emit "{n[key]}"' if i == 63 else "") + "\n" for i in range(64))
    job("crowd.job", acts + crowded(""), *[f's{s} "s{s}.csv": ' + ", ".join(f"k{i}[{s}]" for i in range(64)) for s in range(4)])
    rows = 'for (n = s; n < rows; n += 4) printf "%d,k%d[%d]\\n", n + 1, int(n / 4) % 64, s; print "end"'
    for s in range(4):
        gawk(rows, f"s{s}.csv", s=s, rows=some(1000000))


@made
def demo(events):
    """The job of the demo and its sources, as the tests make them."""
    subprocess.run([sys.executable, os.path.join(TESTS, "demo_sources.py"), str(some(events)), "1", "."], check=True)


@made
def hostile_paths():
    """The rows with items that tests/system/hostile.py folds and runs, but so many that all three sources have 1,000,000; and its plan."""
    sys.path.insert(0, TESTS)
    import hostile

    for name, body in hostile.paths_files(random.Random(1), some(476190)).items():
        write("paths.job" if name == "job" else name, body)
    write("paths.plan", hostile.PATHS_PLAN)


@made
def many_references(form, version):
    """64 kinds of 32 actions with 28 references each: "own", to a family of the kind's own under its key; "shared", to all families,
    under a fixed key of the kind's; "cells", no two to one cell."""
    own = form == "own"
    keyed, same = (" keyed", " same") if own else ("", "")
    text = "version 2\n" if version == 2 else ""
    text += "".join(f"cell f{i} keyed sum\n" for i in range(64)) + "".join(f"tag k{i}{keyed} int\n" for i in range(64))
    text += "".join(f"depends k{i} k{i}{same}\n" for i in range(64))

    def cell(i, j, m):
        n = (i * 32 + j) * 28 + m
        return {"own": f"f{i}[key]", "shared": f"f{(j * 28 + m) % 64}[{i}]", "cells": f"f{n % 64}[{n // 64}]"}[form]

    for i in range(64):
        acts = ["add " + cell(i, j, 0) + " " + " + ".join(cell(i, j, m) for m in range(1, 28)) for j in range(32)]
        text += f"on k{i}: " + ";\n ".join(acts) + "\n"
    if own:
        sources = [f's{i} "s{i}.csv": k{i}[0..3]' for i in range(64)]
    else:
        sources = [f's{s} "s{s}.csv": ' + ", ".join(f"k{i}" for i in range(64)) for s in range(4)]
    job("references.job", text, *sources)


@made
def windows():
    """Four sources of two keys each have 1,000,000 samples in all; `barriers` makes the ends of their windows."""
    sources = [f's{s} "s{s}.csv" rate 1000: sample[{2 * s}..{2 * s + 1}]' for s in range(4)]
    job("windows.job", "windows.head", *sources, 'clock "clock.csv": barrier')
    for s in range(4):
        samples(s, 4)
    plans("windows1", "windows3", "windows7", "windows15")


def samples(s, step):
    rows = 'srand(s + 1); for (n = s; n < rows; n += step) printf "%d,sample[%d],%d\\n", n + 1, 2 * s + int(n / 4) % 2, rand() * 10000; print "end"'
    gawk(rows, f"s{s}.csv", s=s, step=step, rows=some(1000000))


@made
def barriers(every):
    ticks("clock.csv", "barrier", every)


@made
def one_source():
    """All 1,000,000 samples of `windows` come from its first source: the others end at once."""
    samples(0, 1)
    for s in range(1, 4):
        write(f"s{s}.csv", "end\n")


@made
def payments(every):
    """Four sources have 1,000,000 payments in all, of which some 900 are suspect; a window ends after every so many."""
    sources = [f'p{s} "p{s}.csv" rate 1000: payment' for s in range(4)]
    job("fraud.job", example("fraud"), *sources, 'clock "windows.csv": window')
    rows = 'srand(s + 1); for (n = s; n < rows; n += 4) printf "%d,payment,%d\\n", n + 1, rand() * 1000 * (n % 997 ? 1 : 20); print "end"'
    for s in range(4):
        gawk(rows, f"p{s}.csv", s=s, rows=some(1000000))
    ticks("windows.csv", "window", every)
    plans("fraud7")


@made
def fees():
    """Views of four pages from two sources read the page's fee, which an update sets (`updates`): 1,000,000 views, printed by `hours`."""
    views = [f'{it} "{it}.csv" rate 1000: view[0..3]' for it in ("web", "app")]
    job("views.job", example("views"), *views, 'desk "desk.csv": update[0..3]', 'clock "hours.csv": hour')
    for s, name in enumerate(("web", "app")):
        rows = 'for (n = 0; n < rows; n++) printf "%d,view[%d]\\n", 2 * n + s + 1, n % 4; print "end"'
        gawk(rows, f"{name}.csv", s=s, rows=some(500000))
    hours(100000)
    plans("views15")


@made
def updates(every):
    rows = 'for (n = every; n < rows; n += every) printf "%d,update[%d],%d\\n", n, n / every % 4, n % 97; print "end"'
    gawk(rows, "desk.csv", every=every, rows=some(1000000))


def hours(every):
    ticks("hours.csv", "hour", every)


@made
def long_actions():
    """100,000 events of 32 long actions each, from four sources, with a barrier after every 10,000. Beside that job, `long.job`, stands
    the same with the actions left out, `read.job`, and each source of either by itself, as `long0.job`; and `guarded.job`, whose actions are
    maxima and sums of remainders, under guards."""
    tags = "tag work keyed int\ntag barrier none\ndepends work barrier\ndepends barrier barrier\n"
    sums = "".join(f"cell c{i} sum\n" for i in range(32))
    long = [product([100 + f + j for f in range(1, 5)], 4) for j in range(32)]
    actions = ";\n".join(f"add c{j} {long[j]}" for j in range(32))
    emits = "on barrier: " + "; ".join(f'emit "c{j} {{c{j}}}"' for j in range(32)) + "\n"
    clock = 'clock "ends.csv": barrier'
    for name, acts in ("long", actions), ("read", "add c0 value"):
        text = f"{sums}{tags}on work: {acts}\n{emits}"
        job(f"{name}.job", text, *[f'w{s} "w{s}.csv" rate 1000: work[{s}]' for s in range(4)], clock)
        for s in range(4):
            job(f"{name}{s}.job", text, f'w{s} "w{s}.csv" rate 1000: work[{s}]', clock)
    both = "".join(f"cell c{i} {('sum', 'max')[i % 2]}\n" for i in range(32))
    deeds = [f"{('add', 'raise')[j % 2]} c{j} ({long[j]}) % {10007 + j} when value % {j + 3} != {j % 3}" for j in range(32)]
    text = f"version 3\n{both}{tags}on work: " + ";\n".join(deeds) + f"\n{emits}"
    job("guarded.job", text, *[f'w{s} "w{s}.csv" rate 1000: work[{s}]' for s in range(4)], clock)
    rows = some(100000)
    for s in range(4):
        gawk('for (n = s; n < rows; n += 4) printf "%d,work[%d],%d\\n", n + 1, s, n % 1000; print "end"', f"w{s}.csv", s=s, rows=rows)
    ticks("ends.csv", "barrier", 10000, 100000)
    plans("long7")


@made
def tops(rows):
    """Views of 20 pages from two sources, printed 100 times."""
    job("tops.job", "tops.head", 'web "web.csv" rate 1000: view[0..9]', 'app "app.csv" rate 1000: view[10..19]', 'clock "clock.csv": tick')
    views = 'for (n = s; n < rows; n += 2) printf "%d,view[%d],%d\\n", n + 1, 10 * s + int(n / 2) % 10, n % 977; print "end"'
    for s, name in enumerate(("web", "app")):
        gawk(views, f"{name}.csv", s=s, rows=some(rows))
    gawk('for (n = 1; n <= 100; n++) printf "%d,tick\\n", n * rows / 100; print "end"', "clock.csv", rows=some(rows))
    plans("tops_one", "tops_three")


@made
def totals():
    """A job with families for as many cells as a checkpoint may have; no run comes to so many, so `checkpoint` writes them."""
    acts = "; ".join(f"add total{n}[key] value" for n in range(32))
    text = "".join(f"cell total{n} keyed sum\n" for n in range(64)) + f"tag inc keyed int\non inc: {acts}\n"
    job("totals.job", text, 'a "a.csv": inc[0..255]')
    write("a.csv", "1,inc[0],1\nend\n")
    write("one.plan", "node one: inc\n")


@made
def checkpoint(name, count, border, job_text):
    """A checkpoint of so many cells, as evenly as may be over the families."""
    draw, cells = random.Random(1), []
    for family in range(64):
        keys = count // 64 + (family < count % 64)
        cells += [[f"total{family}", key, str(draw.randrange(-(10**12), 10**12) or 1)] for key in range(keys)]
    write(name, json.dumps({"border": border, "cells": cells, "job": job_text}, separators=(",", ":")))


@made
def busy_source(rows):
    """Views of four pages, of which one source has a hundred times the rows of each other; `wrong.job` declares one rate for all."""
    rest = ['app "app.csv" rate 1: view[0..3]', 'desk "desk.csv" rate 1: update[0..3]', 'clock "hours.csv" rate 1: hour']
    for name, rate in ("wrong", 1), ("right", 100):
        job(f"{name}.job", example("views"), f'web "web.csv" rate {rate}: view[0..3]', *rest)
    rows = some(rows)
    gawk('for (n = 1; n <= rows; n++) printf "%d,view[%d]\\n", n, n % 4; print "end"', "web.csv", rows=rows)
    gawk('for (n = 50; n <= rows; n += 100) printf "%d,view[%d]\\n", n, int(n / 100) % 4; print "end"', "app.csv", rows=rows)
    gawk('for (n = 75; n <= rows; n += 100) printf "%d,update[%d],%d\\n", n, int(n / 100) % 4, n % 97; print "end"', "desk.csv", rows=rows)
    gawk('for (n = 100; n <= rows; n += 100) printf "%d,hour\\n", n; print "end"', "hours.csv", rows=rows)


def one_leaf(program, events):
    """24 itags over eight sources and a clock, with the greedy plan; one leaf gets all events of its three itags, the others none."""
    sources = [f's{s} "s{s}.csv" rate 1000: inc[{3 * s}..{3 * s + 2}]' for s in range(7)]
    job("leaf.job", "counts.head", *sources, 's7 "s7.csv" rate 1000: inc[21..22]', 'clock "clock.csv" rate 1: read')
    plan = subprocess.run([program, "plan", "leaf.job"], check=True, stdout=subprocess.PIPE, text=True).stdout
    write("leaf.plan", plan)
    leaf = next(line for line in plan.splitlines() if line.startswith("node n3: "))
    keys = [int(it.split("[")[1].split("]")[0]) for it in leaf.split(",") if "inc[" in it]
    if len(keys) != 3 or len({key // 3 for key in keys}) != 3:
        raise SystemExit(f"the first leaf has three itags of three sources: {leaf}")
    for name in [f"s{s}" for s in range(8)] + ["clock"]:
        write(f"{name}.csv", "end\n")
    for place, key in enumerate(keys):
        rows = 'for (n = place; n < events; n += 3) printf "%d,inc[%d],1\\n", n + 1, key; print "end"'
        gawk(rows, f"s{key // 3}.csv", place=place, key=key, events=events)


@made
def counts_and_reads(rows):
    """Counts of 23 keys by one source and as many reads by another one."""
    job("counts.job", "counts.head", 'a "a.csv" rate 1000: inc[0..22]', 'c "c.csv" rate 1: read')
    gawk('for (n = 1; n <= rows; n++) printf "%d,inc[%d],1\\n", 2 * n, n % 23; print "end"', "a.csv", rows=rows)
    gawk('for (n = 1; n <= rows; n++) printf "%d,read\\n", 2 * n + 1; print "end"', "c.csv", rows=rows)


@made
def long_sums(kinds, listed):
    """Kinds of 32 actions, each of which adds a sum of 16 numbers behind 26 signs: about 1 MB for 64 kinds, of which some are listed."""

    def summed(terms):
        return "-" * 26 + "1" if terms == 1 else f"({summed(terms // 2)}+{summed(terms // 2)})"

    acts = ";".join(["add c " + summed(16)] * 32)
    text = "cell c sum\n" + "".join(f"tag k{n} none\n" for n in range(kinds)) + "".join(f"on k{n}: {acts}\n" for n in range(kinds))
    job("sums.job", text, 's "end.csv": ' + ", ".join(f"k{n}" for n in range(listed)))
    write("end.csv", "end\n")


@made
def very_late_rows(rows):
    """The jobs of rows in order, in blocks that fall, and in any order within such blocks; a block has the most that a slack allows."""
    block, draw, falling, drawn = 59999, random.Random(1), [], []
    for first in range(0, rows, block):
        times = list(range(first, min(first + block, rows)))
        falling += reversed(times)
        draw.shuffle(times)
        drawn += times
    write("read.csv", f"{rows},read\nend\n")
    for name, times in ("ordered", range(rows)), ("falling", falling), ("drawn", drawn):
        write(f"{name}.csv", "".join(f"{time},inc,{time % 100}\n" for time in times) + "end\n")
        job(f"{name}.job", "count.head", f'a "{name}.csv" slack 60000: inc', 'b "read.csv": read')


@made
def many_rounds():
    """1,000,000 rows over 250 keys, with a line for each tick; `held` has no rows, and only a checkpoint fills it."""
    text = "cell total keyed sum\ncell held keyed sum\ntag inc keyed int\ntag tick none\ndepends inc tick\ndepends tick tick\n"
    text += 'on inc: add total[key] value\non tick: emit "{total[0]}"\n'
    job("rounds.job", text, 'a "rows.csv": inc[0..249]', 'clock "ticks.csv": tick')
    rows = some(1000000)
    gawk('for (t = 2; t <= rows + 1; t++) print t ",inc[" t % 250 "]," t; print "end"', "rows.csv", rows=rows)
    gawk('for (t = 1000; t <= rows + 1; t += 1000) print t ",tick"; print "end"', "ticks.csv", rows=rows)
    write("one.plan", "node one: inc, tick\n")


def held_cells(count, job_text):
    cells = [["held", key, "1"] for key in range(count)]
    return json.dumps({"border": 1, "cells": cells, "job": job_text}, separators=(",", ":"))


def priced(events):
    """Jobs that differ by one thing each: how many keys, actions, terms or pieces an event has; and plans that differ by their nodes."""

    def one(name, acts, keys=1):
        kinds = ("inc", "rest", "some")
        text = "".join(f"cell c{n} sum\n" for n in range(32)) + "tag inc keyed int\ntag rest none\ntag some none\n"
        text += "".join(f"depends {a} {b}\n" for a, b in (("inc", "rest"), ("inc", "some"), *((it, it) for it in kinds), ("rest", "some")))
        text += f"on inc: {acts}\non rest: " + "; ".join(f"add c{n} 1" for n in range(32)) + "\non some: add c0 1\n"
        job(f"{name}.job", text, f'a "inc{keys}.csv": inc[0..{keys - 1}]', 'b "rest.csv": rest', 'c "some.csv": some')

    for keys in 1, 64:
        rows = 'for (n = 0; n < events; n++) printf "%d,inc[%d],%d\\n", n + 2, n % keys, n % 100; print "end"'
        gawk(rows, f"inc{keys}.csv", events=events, keys=keys)
    write("rest.csv", "1,rest\nend\n")
    write("some.csv", "end\n")
    one("plain", "add c0 value")
    one("keys", "add c0 value", 64)
    one("acts", "; ".join(f"add c{n} value" for n in range(32)))
    one("terms", "add c0 value; " + "; ".join(f"add c{n} {product((3, 5, 7, 11), 3)}" for n in range(1, 32)))
    one("short", 'add c0 value; emit "{value}"')
    one("texts", 'add c0 value; emit "' + " ".join(["{value}"] * 8) + '"')
    write("one.plan", "node one: inc, rest, some\n")
    write("three.plan", "node root: inc, rest, some -> l r\nnode l:\nnode r:\n")
    write("cells.plan", "node root: inc, some -> l r\nnode l:\nnode r: rest\n")
    write("cell.plan", "node root: inc, rest -> l r\nnode l:\nnode r: some\n")
    write("seven.plan", "node root: inc, rest, some -> l r\nnode l: -> ll lr\nnode ll:\nnode lr:\nnode r: -> rl rr\nnode rl:\nnode rr:\n")
    sides = ["node root: -> l r"]
    for side in "lr":
        sides += [f"node {side}: -> {side}l {side}r"]
        for half in "lr":
            at = side + half
            sides += [f"node {at}: -> {at}1 {at}2", f"node {at}1:{' inc, rest, some' if at == 'll' else ''}", f"node {at}2:"]
    write("fifteen.plan", "\n".join(sides) + "\n")


@made
def items(name, rows, paths):
    """Hits of a source, each of one of so many paths, drawn evenly; a tick at the end flushes the sums."""
    gawk(
        """srand(1)
        for (t = 1; t <= rows; t++) printf "%d,hit,%d,%d\\n", t, int(rand() * paths), int(rand() * 10000)
        print "end" """,
        f"{name}.csv",
        rows=some(rows),
        paths=paths,
    )
    write(f"{name}.clock.csv", f"{some(rows) + 1},tick\nend\n")
    head = "version 3\ncell n keyed sum\ntag hit item int\ntag tick none\ndepends hit tick\ndepends tick tick\n"
    head += 'on hit: add n[item] value\non tick: flush n "{key} {cell}"\n'
    job(f"{name}.job", head, f'web "{name}.csv": hit', f'clock "{name}.clock.csv": tick')


@made
def texts_in_rows(form):
    """The hits of a source over 5,000 paths: with numbers alone, with names of the paths, or with times as text."""
    gawk(
        """srand(1)
        for (i = 1; i <= rows; i++) {
            t = 1700000000 + i
            path = int(rand() * 5000)
            print (form == "times" ? strftime("%Y-%m-%dT%H:%M:%SZ", t, 1) : t) ",hit," (form == "names" ? "path" path : path) "," int(rand() * 10000)
        }
        print "end" """,
        f"{form}.csv",
        rows=some(1000000),
        form=form,
    )
    write(f"{form}.clock.csv", f"{1700000001 + some(1000000)},tick\nend\n")
    head = "version 3 iso seconds\n" if form == "times" else "version 3\n"
    by = ""
    if form == "names":
        by = " by paths"
        head += "names paths: " + ", ".join(f'"path{number}"' for number in range(5000)) + "\n"
    head += f"cell n keyed{by} sum\ntag hit item{by} int\ntag tick none\ndepends hit tick\ndepends tick tick\n"
    head += 'on hit: add n[item] value\non tick: flush n "{key} {cell}"\n'
    job(f"{form}.job", head, f'web "{form}.csv": hit', f'clock "{form}.clock.csv": tick')
