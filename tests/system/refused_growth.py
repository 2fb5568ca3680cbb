#!/usr/bin/env python3
"""Runs the built program with one allocation refused, for each allocation in turn, and prints a table of its answers.

At the top of the repository, where `rt ci` or `rt run` has built the program, and with a C compiler:

    tests/system/refused_growth.py [--program FILE] [--jobs WORD,..] [--calls NAME;..] [--rows N]

A call is made once with ample memory, and then once for each of its allocations, with only that one refused: the first, the second
and so on, up to one more than the call makes. A small library, which is loaded before the C library, counts the program's calls of
`malloc`, `realloc` and `calloc` (starting a thread makes one too) and makes one of them report that there is no memory.

Each answer has to be status 9, with its line on standard error and nothing or whole lines of the output on standard output; or exactly
the answer with ample memory. If `main` finds no memory for its words, which are the first allocations, it ends with status 9 and
prints nothing. The script ends with status 1 if an answer is none of these.
"""
import argparse
import concurrent.futures
import os
import random
import re
import subprocess
import sys
import tempfile
import time

from demo_sources import JOB as VIEWS
from hostile import COUNTS, COUNTS_PLAN, PATHS, PATHS_PLAN, paths_files, rows

SHIM = r"""
#include <errno.h>
#include <stddef.h>
#include <stdio.h>
#include <stdlib.h>
#include <sys/syscall.h>
#include <unistd.h>
void *__libc_malloc(size_t);
void *__libc_realloc(void *, size_t);
void *__libc_calloc(size_t, size_t);
static unsigned long growths, refused;
__attribute__((constructor)) static void begin(void) {
    const char *said = getenv("REFUSED_GROWTH");
    refused = said ? strtoul(said, 0, 10) : 0;
    growths = 0;
}
static void tell(void) {
    const char *said = getenv("REFUSED_GROWTH_FD");
    char text[32];
    int size = snprintf(text, sizeof text, "%lu", growths);
    if (said && write(atoi(said), text, size) != size) syscall(SYS_exit_group, 99);
}
/* The program ends by `_exit`. */
void _exit(int status) {
    tell();
    for (;;) syscall(SYS_exit_group, status);
}
static int refuses(void) {
    if (__atomic_add_fetch(&growths, 1, __ATOMIC_SEQ_CST) != refused) return 0;
    errno = ENOMEM;
    return 1;
}
void *malloc(size_t n) { return refuses() ? 0 : __libc_malloc(n); }
void *realloc(void *at, size_t n) { return refuses() ? 0 : __libc_realloc(at, n); }
void *calloc(size_t n, size_t m) { return refuses() ? 0 : __libc_calloc(n, m); }
"""

A, B, C, END = "1,inc,5\n4,inc,2\nend\n", "2,inc,7\nend\n", "3,read\n5,read\nend\n", "end\n"

LAST = """cell p last
cell q last
tag r int
tag r2 int
tag z none
depends r r
depends r2 r2
depends z z
depends r z
depends r2 z
on r: set p value; emit "p {p}"
on r2: set q value; emit "q {q}"
on z: emit "z {p} {q}"
source s1 "s1.csv" rate 1: r
source s2 "s2.csv" rate 1: r2
source s3 "s3.csv" rate 10: z
"""

HIGHEST = """cell hi max
cell seen last
tag t int
depends t t
on t: raise hi value when value > 2; set seen value; emit "hi {hi} seen {seen}"
source s "s.csv" rate 1: t
"""

ONE_SOURCE = """cell count sum
tag inc int
tag read none
on inc: add count value
on read: emit "count {count}"; clear count
source a "a.csv": inc, read
"""

PRICES = """version 2
cell price last
cell vol sum
tag quote int
tag trade int
tag shut none
depends quote quote
depends quote trade
depends trade shut
depends shut shut
on quote: set price value
on trade: add vol value * price; emit "at {price}"
on shut: emit "vol {vol}"; clear vol
source q "q.csv" rate 1: quote
source t1 "t1.csv" rate 100: trade
source t2 "t2.csv" rate 100: trade
source s "s.csv" rate 1: shut
"""
PRICES_PLAN = "node root: quote, shut -> l r\nnode l: trade@t1\nnode r: trade@t2\n"

LONE = "node one: inc, read\n"


def counted(a=A, b=B, c=C, job=COUNTS, plan=COUNTS_PLAN):
    return {"job": job, "plan": plan, "a.csv": a, "b.csv": b, "c.csv": c}


def keyed(kinds, keys):
    """A job of so many kinds with so many keys each, and beside each other no two that depend on one another."""
    lines = [f"cell c{k} keyed sum" for k in range(kinds)]
    for k in range(kinds):
        lines += [f"tag t{k} keyed int", f"depends t{k} t{k} same",
                  f'on t{k}: add c{k}[key] value * 2 + c{k}[key]; emit "c {{c{k}[key]}}" when value > 3']
    lines += [f'source s{k} "s{k}.csv": t{k}[0..{keys - 1}]' for k in range(kinds)]
    return "\n".join(lines) + "\n"


def stored():
    """The rows that tests hold, by a few words each: the files of each."""
    found = {
        "two sources add and a third reads": counted(),
        "sources that are empty": counted(END, END, END),
        "an event that is added and read at one time": counted("3,inc,1\nend\n", END, "3,read\nend\n"),
        "the source that reads declared first": counted("3,inc,1\nend\n", END, "3,read\nend\n", COUNTS_READ_FIRST),
        "two rows of one time": counted("1,inc,5\n1,inc,6\nend\n", END, "3,read\nend\n"),
        "a source that is not closed": counted(b="2,inc,7\n"),
        "a row after the end": counted(c="3,read\nend\n4,read\n"),
        "a sum of more than 64 bits": counted("1,inc,9223372036854775807\n2,inc,9223372036854775807\nend\n", END, "3,read\nend\n"),
        "reads that do not depend on each other": counted(job=COUNTS.replace("depends read read\n", "")),
        "reads that do not depend on what is added": counted(job=COUNTS.replace("depends inc read\n", "")),
        "a plan with a clash": counted(plan="node root: -> l r\nnode l: read\nnode r: inc\n"),
        "a plan that leaves a tag out": counted(plan="node root: read -> l r\nnode l: inc@a\nnode r:\n"),
        "a plan that has a tag twice": counted(plan="node root: read -> l r\nnode l: inc\nnode r: inc@b\n"),
        "a plan of one node": counted(plan=LONE),
        "a plan that is no tree": counted(plan="node a: -> b b\nnode b: inc, read\n"),
        "a plan of no text": counted(plan=""),
        "last values": {"job": LAST, "plan": "node root: r, r2 -> l e\nnode l: z\nnode e:\n", "s1.csv": "10,r,9\nend\n",
                        "s2.csv": "4,r2,7\nend\n", "s3.csv": "5,z\nend\n"},
        "a highest value": {"job": HIGHEST, "plan": "node n: t\n", "s.csv": "1,t,1\n2,t,5\n3,t,-4\nend\n"},
        "one source": {"job": ONE_SOURCE, "plan": LONE, "a.csv": "1,inc,5\n2,inc,7\n3,read\nend\n"},
        "reads that are shared": {"job": PRICES, "plan": PRICES_PLAN, "q.csv": "1,quote,10\n5,quote,20\nend\n",
                                  "t1.csv": "2,trade,3\n6,trade,1\nend\n", "t2.csv": "3,trade,4\nend\n", "s.csv": "4,shut\n7,shut\nend\n"},
        "page views": page_views(),
        "sums by item": {"job": PATHS, "plan": PATHS_PLAN, "web.csv": "1,hit,5,7\n3,hit,65535,-1\n4,hit,5,9\nend\n",
                         "app.csv": "2,hit,64,30\n5,move[2],64\n7,hit,5,0\nend\n", "clock.csv": "6,hour\n8,hour\nend\n"},
        "quotes, blank lines and CR LF": counted('"1",inc,5\r\n\r\n4,inc,2,\r\nend,,\r\n'),
        "a bad row": counted("1,inc\nend\n"),
        "an unknown tag": counted("1,read\nend\n"),
        "a job of no text": {"job": "", "plan": ""},
    }
    lacks = counted()
    del lacks["a.csv"]
    found["a file that is not there"] = lacks
    for text in ("cell count sum $", "cell count", "on inc: clear count", "cell a sum cell a max", "cell m max tag t none on t: add m 1",
                 "tag t keyed int source s \"s.csv\": t[0..256]"):
        found[f"`{text}`"] = {"job": text, "plan": LONE}
    return found


COUNTS_READ_FIRST = re.sub(r'(source a .*\n)(source b .*\n)(source c .*\n)', r'\3\1\2', COUNTS)


def page_views():
    """Three times ten views of ten pages and as many of an app, an update and a tick."""
    web, app = [], []
    for w in range(3):
        for k in range(10):
            web.append(f"{100 * w + 2 * k + 1},view[{k}],{k + 1}\n")
            app.append(f"{100 * w + 2 * k + 2},view[{k}],10\n")
        app += ["50,update[3],94105\n"] * (w == 0) + [f"{100 * w + 100},beat\n"]
        web.append(f"{100 * w + 100},beat\n")
    return {"job": VIEWS, "plan": "node n: view, update, tick\n", "web.csv": "".join(web) + END, "app.csv": "".join(app) + END,
            "clock.csv": "100,tick\n200,tick\n300,tick\nend\n"}


def larger(count):
    """Four larger jobs: many rows of two sources that add, views of pages, sums by item, and a job of many tags."""
    rng = random.Random(1)
    views, updates = [f"view[{k}]" for k in range(10)], [f"update[{k}]" for k in range(10)]
    kinds, keys = 8, 32
    many = {f"s{k}.csv": rows([f"t{k}[{key}]" for key in range(keys)], count // 8, rng) for k in range(kinds)}
    leaves = "node root: -> l r\nnode l: " + ", ".join(f"t{k}" for k in range(4)) + "\nnode r: " + ", ".join(f"t{k}" for k in range(4, 8)) + "\n"
    return {
        f"two sources add, {count} rows": counted(rows(["inc"], count, rng), rows(["inc"], count, rng), rows(["read"], count // 10, rng)),
        f"page views, {count} rows": {
            "job": VIEWS, "plan": "node n: view, update, tick\n", "web.csv": rows(views, count, rng),
            "app.csv": rows(views + updates, count, rng), "clock.csv": rows(["tick"], 20, rng)},
        f"sums by item, {count} rows": {"plan": PATHS_PLAN, **paths_files(rng, count)},
        f"{kinds * keys} tags, {count} rows": {"job": keyed(kinds, keys), "plan": leaves, **many},
    }


CALLS = {
    "fold": ["fold", "job"], "check": ["check", "job"], "valid": ["valid", "job", "plan"], "plan": ["plan", "job"],
    "simulate": ["simulate", "job", "plan", "1"], "run": ["run", "job", "plan"], "run, greedy": ["run", "job"],
    "run, adapted": ["run", "job", "--adapt"], "run, saved": ["run", "job", "plan", "--save", "saved{refused}"],
    "run, resumed": ["run", "job", "plan", "--resume", "seen"],
}


class Answer:
    """A status, what was written, and how many growths there were: none where the call did not come to its end."""

    def __init__(self, status, out, err, growths):
        self.status, self.out, self.err, self.growths = status, out, err, growths

    def told(self):
        return self.status, self.out, self.err


def checkpoint(at):
    """Puts a checkpoint of the border 2 under `seen`, with what the cells hold at the end of a run, where the job and its sources let it run."""
    subprocess.run([PROGRAM, "run", "job", "--save", "seen"], cwd=at, stdin=subprocess.DEVNULL, capture_output=True, timeout=60)
    seen = os.path.join(at, "seen")
    if os.path.exists(seen):
        with open(seen) as it:
            text = it.read()
        with open(seen, "w") as it:
            it.write(text.replace('{"border":9223372036854775807,', '{"border":2,'))


def call(words, at, refused=0):
    # (calls run side by side in one folder, so each saves to a name of its own)
    words = [word.replace("{refused}", str(refused)) for word in words]
    reads, writes = os.pipe()
    env = {"LD_PRELOAD": LIBRARY, "REFUSED_GROWTH": str(refused), "REFUSED_GROWTH_FD": str(writes)}
    try:
        ran = subprocess.run([PROGRAM, *words], cwd=at, stdin=subprocess.DEVNULL, stdout=subprocess.PIPE, stderr=subprocess.PIPE,
                             timeout=60, env=env, pass_fds=[writes])
        os.close(writes)
        writes = -1
        told = os.read(reads, 32)
        return Answer(ran.returncode, ran.stdout, ran.stderr, int(told) if told else None)
    except subprocess.TimeoutExpired:
        return Answer("no answer", b"", b"", None)
    finally:
        os.close(reads)
        if writes >= 0:
            os.close(writes)


def fault(answer, ample, of_words):
    """Why an answer with a growth refused is wrong, or None."""
    if answer.told() == ample.told() or of_words and answer.told() == (9, b"", b""):
        return None
    if answer.status != 9:
        return f"status {answer.status} {answer.err[:80]!r}"
    if answer.err != b"flumina: no memory\n":
        return f"standard error {answer.err[:80]!r}"
    if not ample.out.startswith(answer.out) or answer.out and not answer.out.endswith(b"\n"):
        return f"standard output {answer.out[-80:]!r}"
    return None


class Row:
    """What was answered with each growth of some calls refused in turn."""

    def __init__(self):
        self.calls = self.growths = self.wanting = self.silent = self.same = self.parts = 0
        self.wrong = []

    def sweep(self, pool, words, at, title):
        ample = call(words, at)
        if ample.growths is None or ample.status not in (*range(9), 11):
            self.wrong.append(f"{title}: status {ample.status} with ample memory")
            return
        self.calls += 1
        first, reached = 1, True
        while reached:
            for n, answer in zip(range(first, first + 64), pool.map(lambda n: call(words, at, n), range(first, first + 64))):
                if answer.growths is not None and answer.growths < n:
                    reached = False
                    continue
                self.growths += 1
                self.wanting += answer.status == 9
                self.silent += answer.status == 9 and answer.err == b""
                self.same += answer.told() == ample.told()
                self.parts += answer.status == 9 and answer.out != b""
                why = fault(answer, ample, n <= 2 * len(words) + 1)
                if why:
                    self.wrong.append(f"{title}, growth {n}: {why}")
            first += 64


def main():
    global PROGRAM, LIBRARY
    reader = argparse.ArgumentParser(description="Refuses each growth of memory once.")
    reader.add_argument("--program", default="crates/flumina/out/flumina")
    reader.add_argument("--jobs", help="only those rows and jobs whose name has one of these words")
    reader.add_argument("--calls", help="only those calls, by their names in the table, with a semicolon between two")
    reader.add_argument("--rows", type=int, default=120, help="how many rows a source of a larger job has")
    given = reader.parse_args()
    PROGRAM = os.path.abspath(given.program)
    begin, wrong = time.time(), []
    with tempfile.TemporaryDirectory(prefix="refused-growth-") as room, concurrent.futures.ThreadPoolExecutor(os.cpu_count()) as pool:
        LIBRARY = os.path.join(room, "refused_growth.so")
        with open(f"{room}/shim.c", "w") as it:
            it.write(SHIM)
        subprocess.run([os.environ.get("CC", "cc"), "-O2", "-shared", "-fPIC", "-fno-builtin", "-o", LIBRARY, f"{room}/shim.c"], check=True)
        groups = [(f"{len(stored())} stored rows", stored())] + [(name, {name: files}) for name, files in larger(given.rows).items()]
        print("| Files | Command | Calls | Refused | Status 9 | of these for the words | with lines in out | As with ample memory | Wrong |")
        print("|---|---|---|---|---|---|---|---|---|")
        total = 0
        for title, jobs in groups:
            for command, words in CALLS.items():
                if given.calls and command not in given.calls.split(";"):
                    continue
                row = Row()
                for name, files in jobs.items():
                    if given.jobs and not any(word in name for word in given.jobs.split(",")):
                        continue
                    with tempfile.TemporaryDirectory(dir=room) as at:
                        for file, text in files.items():
                            with open(os.path.join(at, file), "w", newline="") as it:
                                it.write(text)
                        checkpoint(at)
                        row.sweep(pool, words, at, f"{name}, {command}")
                if row.calls:
                    print(f"| {title} | `{command}` | {row.calls} | {row.growths} | {row.wanting} | {row.silent} | {row.parts} | {row.same} | {len(row.wrong)} |", flush=True)
                wrong += row.wrong
                total += row.growths
        print(f"\n{total} allocations were refused in {time.time() - begin:.0f} s.")
    for it in wrong[:40]:
        print(f"wrong: {it}")
    return 1 if wrong else 0


if __name__ == "__main__":
    sys.exit(main())
