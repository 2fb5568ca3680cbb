#!/usr/bin/env python3
"""Runs the real program under hostile use and prints a table of what it answered.

At the top of the repository, where `rt ci` or `rt run` has built the program:

    tests/system/hostile.py [--program FILE] [--seed N] [--texts N] [--runs N] [--blanks N]

Each row of the table is one kind of use with how often it was tried; the script ends with status 1 if an answer was none
of those in docs/LANGUAGE.md: a signal, a status beyond 0 to 9 and 13, more than one line on standard error, bytes on
standard output that are not whole lines of the report, another report than that of `fold`, or a run that takes too long.
"""
import argparse
import os
import random
import resource
import subprocess
import sys
import tempfile
import threading
import time

from demo_sources import JOB as VIEWS

LINES = {
    2: "flumina: bad words at ", 3: "flumina: job: ", 4: "flumina: conflict: ", 5: "flumina: plan: ",
    6: "flumina: source ", 7: "flumina: read fault", 8: "flumina: write fault", 9: "flumina: no memory",
    13: "flumina: trace line ",
}
COUNTS = """cell count sum
tag inc int
tag read none
depends inc read
depends read read
on inc: add count value
on read: emit "count {count}"; clear count
source a "a.csv" rate 1000: inc
source b "b.csv" rate 1000: inc
source c "c.csv" rate 1: read
"""
COUNTS_PLAN = "node root: read -> l r\nnode l: inc@a\nnode r: inc@b\n"
PATHS = """version 3
cell hits keyed sum
cell most keyed max
cell seen keyed last
tag hit item int
tag move keyed item none
tag hour none
depends hit hour
depends move move
depends move hit
depends move hour
depends hour hour
on hit: add hits[item] 1; raise most[item] value / 3 - item % 7 when value != 0
on move: set seen[item] item; clear most when item == key
on hour: flush hits "{key}: {cell} {most} {seen}"; clear most
source web "web.csv" rate 1000: hit
source app "app.csv" rate 100: hit, move[0..2]
source clock "clock.csv" rate 1: hour
"""
PATHS_PLAN = "node root: hour, move -> l r\nnode l: hit@web\nnode r: hit@app\n"


class Case:
    """A folder with files in which the program is run."""

    def __init__(self, files):
        self.room = tempfile.TemporaryDirectory(prefix="hostile-")
        self.at = self.room.name
        for name, text in files.items():
            with open(os.path.join(self.at, name), "wb") as it:
                it.write(text if isinstance(text, bytes) else text.encode())


class Answer:
    def __init__(self, status, out, err, seconds):
        self.status, self.out, self.err, self.seconds = status, out, err, seconds


def run(case, *words, out=subprocess.PIPE, stdin=subprocess.DEVNULL, limits=(), seconds=60, nobody=False):
    """Runs the program in a case's folder; `limits` are pairs of a resource and its bound."""

    def before():
        if nobody and os.geteuid() == 0:
            os.setgroups([])
            os.setgid(65534)
            os.setuid(65534)
        for what, bound in limits:
            resource.setrlimit(what, (bound, bound))

    begin = time.time()
    try:
        ran = subprocess.run([PROGRAM, *words], cwd=case.at, stdin=stdin, stdout=out, stderr=subprocess.PIPE,
                             timeout=seconds, preexec_fn=before)
    except subprocess.TimeoutExpired:
        return Answer("no answer", b"", b"", time.time() - begin)
    return Answer(ran.returncode, ran.stdout or b"", ran.stderr, time.time() - begin)


class Table:
    def __init__(self):
        self.wrong = []
        self.lock = threading.Lock()

    def row(self, title, answers, wanted, check=None, seconds=10):
        """One row: the answers to a use, the statuses that are right, and a further look at each answer."""
        statuses, longest = {}, 0.0
        for it in answers:
            statuses[it.status] = statuses.get(it.status, 0) + 1
            longest = max(longest, it.seconds)
            why = self.fault(it, wanted, seconds) or (check and check(it))
            if why:
                self.wrong.append(f"{title}: status {it.status}, {why}: {it.err[:200]!r}")
        told = ", ".join(f"{n} of {status}" for status, n in sorted(statuses.items(), key=str))
        print(f"| {title} | {len(answers)} | {told} | {longest:.2f} |", flush=True)

    @staticmethod
    def fault(it, wanted, seconds):
        if it.status not in wanted:
            return f"which is none of {sorted(wanted)}"
        if it.seconds > seconds:
            return f"after {it.seconds:.1f} s"
        if it.status in LINES:
            lines = it.err.decode(errors="replace").split("\n")
            if len(lines) != 2 or lines[1] or not lines[0].startswith(LINES[it.status]):
                return "the line on standard error is not that of its status"
        elif it.status == 0 and it.err and not it.err.startswith(b"steps "):
            return "standard error at status 0"
        if it.status in (2, 3, 4, 5, 6, 7, 9) and it.out:
            return "bytes on standard output"
        return None


def rows(tags, count, rng, end=True):
    """A source of `count` rows at rising times."""
    at, text = 0, []
    for _ in range(count):
        at += rng.randint(1, 3)
        tag = rng.choice(tags)
        text.append(f"{at},{tag}\n" if tag in ("read", "tick") else f"{at},{tag},{rng.randint(-99, 99)}\n")
    return "".join(text) + ("end\n" if end else "")


def counts_files(rng, count=20):
    return {"job": COUNTS, "plan": COUNTS_PLAN, "a.csv": rows(["inc"], count, rng), "b.csv": rows(["inc"], count, rng),
            "c.csv": rows(["read"], count // 4 + 1, rng)}


def views_files(rng, count=200):
    views, updates = [f"view[{k}]" for k in range(10)], [f"update[{k}]" for k in range(10)]
    return {"job": VIEWS, "web.csv": rows(views, count, rng), "app.csv": rows(views + updates, count, rng),
            "clock.csv": rows(["tick"], count // 20 + 1, rng)}


def paths_files(rng, count=60):
    """Rows with items, and ticks that flush them."""
    files = {"job": PATHS, "clock.csv": rows(["tick"], count // 10, rng).replace("tick", "hour")}
    for name, tags in ("web.csv", ["hit"]), ("app.csv", ["hit", "move[0]", "move[2]"]):
        at, text = 0, []
        for _ in range(count):
            at += rng.randint(1, 3)
            tag, item = rng.choice(tags), rng.choice([0, 1, 2, 63, 64, 5000, 65535])
            text.append(f"{at},{tag},{item},{rng.randint(-99, 99)}\n" if tag == "hit" else f"{at},{tag},{item}\n")
        files[name] = "".join(text) + "end\n"
    return files


def mutated(text, rng):
    """A text with one or two changes of a few bytes."""
    text = bytearray(text if isinstance(text, bytes) else text.encode())
    for _ in range(rng.randint(1, 2)):
        at, how = rng.randrange(len(text) + 1), rng.randrange(24) % 7
        if how == 0:
            text[at:at + 1] = bytes([rng.randrange(256)])
        elif how == 1:
            del text[at:at + rng.randint(1, 8)]
        elif how == 2:
            text[at:at] = bytes(rng.choice(b"0123456789[]{}\"':;,.->+*()ab \n") for _ in range(rng.randint(1, 4)))
        elif how == 3:
            begin = rng.randrange(len(text) + 1)
            text[at:at] = text[begin:begin + rng.randint(1, 30)]
        elif how == 4:
            text[at:at + 1] = b""
        elif how == 5 and rng.randrange(4) == 0:
            text[at:] = b""
        else:
            text[at:at] = rng.choice([b"9223372036854775807", b"9223372036854775808", b"65536", b"\xff", b"\xe2\x82", b"end"])
    return bytes(text)


def devices(table, rng):
    good = Case(counts_files(rng))
    report = run(good, "fold", "job").out
    for words in (("fold", "job"), ("run", "job", "plan"), ("run", "job"), ("check", "job"), ("plan", "job"), ("valid", "job", "plan")):
        with open("/dev/full", "wb") as full:
            table.row(f"`{' '.join(words)}` to a full disk", [run(good, *words, out=full)], {8})
        inner, outer = os.pipe()
        os.close(inner)
        table.row(f"`{' '.join(words)}` into a pipe that is closed", [run(good, *words, out=outer)], {8})
        os.close(outer)
    for command in ("fold", "run"):
        for name in ("job", "a.csv", "c.csv"):
            case = Case(counts_files(rng))
            path = os.path.join(case.at, name)
            os.remove(path)
            table.row(f"`{command}` without its file {name}", [run(case, command, "job")], {7})
            os.mkdir(path)
            table.row(f"`{command}` with a folder as {name}", [run(case, command, "job")], {7})
            os.rmdir(path)
            with open(path, "w", encoding="ascii"):
                pass
            os.chmod(path, 0)
            os.chmod(case.at, 0o755)
            table.row(f"`{command}` with {name} that may not be read", [run(case, command, "job", nobody=True)], {7})
    case = Case(counts_files(rng))
    with open(os.path.join(case.at, "job"), "rb") as job:
        table.row("`fold /dev/stdin`, the job", [run(case, "fold", "/dev/stdin", stdin=job)], {0},
                  lambda it: it.out != run(case, "fold", "job").out and "another report")
    for command in ("fold", "run"):
        case = Case({**counts_files(rng), "piped": COUNTS.replace("a.csv", "/dev/stdin")})
        with open(os.path.join(case.at, "a.csv"), "rb") as source:
            table.row(f"`{command}` with /dev/stdin as a source", [run(case, command, "piped", stdin=source)], {0},
                      lambda it: it.out != run(case, "fold", "job").out and "another report")
    table.row("`run` of the same files, nothing hostile", [run(good, "run", "job", "plan")], {0},
              lambda it: it.out != report and "another report")
    answers = []
    for _ in range(20):
        case = Case({**counts_files(rng), "a.csv": ""})
        path = os.path.join(case.at, "a.csv")

        def grow():
            with open(path, "a", encoding="ascii") as source:
                for at in range(1, 2000):
                    source.write(f"{at},inc,1\n")
                    source.flush()
                source.write("end\n")

        writer = threading.Thread(target=grow)
        writer.start()
        answers.append(run(case, rng.choice(["fold", "run"]), "job"))
        writer.join()
    table.row("a source that grows while it is read", answers, {0, 6})


def names(table, rng):
    for name in ("../up.csv", "a b.csv", "a\nb.csv", "./././a.csv", "é€𐍈.csv", "*", "$(id)"):
        case = Case({})
        inner = os.path.join(case.at, "inner")
        os.mkdir(inner)
        text = name.encode()
        for file, body in {**counts_files(rng), "job": COUNTS.replace('"a.csv"', f'"{name}"')}.items():
            with open(os.path.join(inner, file), "wb") as it:
                it.write(body.encode())
        os.replace(os.path.join(inner, "a.csv"), os.path.join(inner.encode(), text))
        case.at = inner
        # a line feed may not occur in a text, so such a name is refused at its place
        table.row(f"a source's file named {name!r}", [run(case, "fold", "job")], {3} if "\n" in name else {0})
        with open(os.path.join(inner.encode(), text), "wb") as it:
            it.write(COUNTS.encode())
        table.row(f"a job named {name!r}", [run(case, "check", name)], {0})


def texts(table, rng, count):
    plain, views = counts_files(rng), views_files(rng)
    noise = lambda most: bytes(rng.randrange(256) for _ in range(rng.randrange(most)))
    for command in (("check", "job"), ("fold", "job"), ("run", "job", "plan")):
        said = " ".join(command)
        table.row(f"`{said}`, a job of random bytes", [run(Case({**plain, "job": noise(400)}), *command) for _ in range(count)], {0, 3})
        table.row(f"`{said}`, a job with some bytes changed",
                  [run(Case({**plain, "job": mutated(COUNTS, rng)}), *command) for _ in range(count)], {0, 3, 4, 5, 6, 7})
    table.row("`check job`, a larger job with some bytes changed",
              [run(Case({"job": mutated(VIEWS, rng)}), "check", "job") for _ in range(count)], {0, 3, 4})
    table.row("`run job plan`, a plan with some bytes changed",
              [run(Case({**plain, "plan": mutated(COUNTS_PLAN, rng)}), "run", "job", "plan") for _ in range(count)], {0, 5})
    table.row("`valid job plan`, a plan of random bytes",
              [run(Case({**plain, "plan": noise(200)}), "valid", "job", "plan") for _ in range(count)], {5})
    paths = paths_files(rng)
    table.row("`check job`, a job of version 3 with some bytes changed",
              [run(Case({"job": mutated(PATHS, rng)}), "check", "job") for _ in range(count)], {0, 3, 4})
    for command in ("fold", "run"):
        def differ(case):
            answer = run(case, command, "job")
            answer.case = case
            return answer

        answers = [differ(Case({**plain, "a.csv": mutated(plain["a.csv"], rng)})) for _ in range(count)]
        table.row(f"`{command} job`, a source with some bytes changed", answers, {0, 6},
                  lambda it: it.status == 0 and it.out != run(it.case, "fold", "job").out and "another report than that of fold")
        table.row(f"`{command} job`, a source of random bytes",
                  [differ(Case({**plain, "a.csv": noise(600)})) for _ in range(count)], {6})
        answers = [differ(Case({**paths, "app.csv": mutated(paths["app.csv"], rng)})) for _ in range(count)]
        table.row(f"`{command} job`, rows with items and some bytes changed", answers, {0, 6},
                  lambda it: it.status == 0 and it.out != run(it.case, "fold", "job").out and "another report than that of fold")
        answers = [differ(Case({**views, "app.csv": mutated(views["app.csv"], rng)})) for _ in range(count // 4 + 1)]
        table.row(f"`{command} job`, page views with some bytes changed", answers, {0, 6},
                  lambda it: it.status == 0 and it.out != run(it.case, "fold", "job").out and "another report than that of fold")


def limits(table, blanks):
    def job(text, files=None):
        return Case({"job": text, "a.csv": "end\n", **(files or {})})

    tail = 'source a "a.csv": t\n'
    one = "tag t int\n"
    at = [
        ("64 open parentheses", "cell c sum\n" + one + "on t: add c " + "(" * 64 + "1" + ")" * 64 + "\n" + tail, 0),
        ("65 open parentheses", "cell c sum\n" + one + "on t: add c " + "(" * 65 + "1" + ")" * 65 + "\n" + tail, 3),
        ("a job of 1,048,576 bytes", one + tail + " " * (1048576 - len(one + tail)), 0),
        ("a job of 1,048,577 bytes", one + tail + " " * (1048577 - len(one + tail)), 3),
        ("64 families", "".join(f"cell c{n} sum\n" for n in range(64)) + one + tail, 0),
        ("65 families", "".join(f"cell c{n} sum\n" for n in range(65)) + one + tail, 3),
        ("64 kinds", "".join(f"tag k{n} int\n" for n in range(63)) + one + tail, 0),
        ("65 kinds", "".join(f"tag k{n} int\n" for n in range(64)) + one + tail, 3),
        ("256 itags", "tag t keyed int\n" + 'source a "a.csv": t[0..255]\n', 0),
        ("257 itags", "tag t keyed int\n" + 'source a "a.csv": t[0..256]\n', 3),
        ("4,096 depends", one + "depends t t\n" * 4096 + tail, 0),
        ("4,097 depends", one + "depends t t\n" * 4097 + tail, 3),
        ("32 actions of a kind", "cell c sum\n" + one + "on t: " + "; ".join(["add c 1"] * 32) + "\n" + tail, 0),
        ("33 actions of a kind", "cell c sum\n" + one + "on t: " + "; ".join(["add c 1"] * 33) + "\n" + tail, 3),
        ("a rate of 1,000,000,000", one + 'source a "a.csv" rate 1000000000: t\n', 0),
        ("a rate of 1,000,000,001", one + 'source a "a.csv" rate 1000000001: t\n', 3),
        ("a key of 65,535", "tag t keyed int\n" + 'source a "a.csv": t[65535]\n', 0),
        ("a key of 65,536", "tag t keyed int\n" + 'source a "a.csv": t[65536]\n', 3),
        ("a slack of 60,000", one + 'source a "a.csv" slack 60000: t\n', 0),
        ("a slack of 60,001", one + 'source a "a.csv" slack 60001: t\n', 3),
        ("a name of 32 bytes", "tag " + "t" * 32 + ' int\nsource a "a.csv": ' + "t" * 32 + "\n", 0),
        ("a name of 33 bytes", "tag " + "t" * 33 + ' int\nsource a "a.csv": ' + "t" * 33 + "\n", 3),
        ("an expression of height 32", "cell c sum\n" + one + "on t: add c " + "+".join(["1"] * 32) + "\n" + tail, 0),
        ("an expression of height 33", "cell c sum\n" + one + "on t: add c " + "+".join(["1"] * 33) + "\n" + tail, 3),
    ]
    for title, text, status in at:
        table.row(title, [run(job(text), "fold", "job")], {status})
    plain = one + tail
    row = lambda value: f"1,t,{value}"
    long_row = row("0" * (4096 - len(row(""))) ) + "\n"
    for title, source, status in [
        ("a row of 4,096 bytes", long_row + "end\n", {0, 6}),
        ("a row of 4,097 bytes", "0" + long_row + "end\n", {6}),
        ("a row of 1,000,000 bytes and no line feed", "1" * 1000000, {6}),
        ("a time of 9223372036854775808", "9223372036854775808,t,1\nend\n", {6}),
        ("a value of 9223372036854775808", "1,t,9223372036854775808\nend\n", {6}),
        ("a value of -9223372036854775808", "1,t,-9223372036854775808\nend\n", {0}),
        ("a quote that is never closed", '1,"t,1\n' * 50 + "end\n", {6}),
        ("a row of commas alone, which is blank", "," * 4000 + "\nend\n", {0}),
    ]:
        for command in ("fold", "run"):
            table.row(f"{title}, under `{command}`", [run(job(plain, {"a.csv": source}), command, "job")], status)
    every = "".join(f"{n + 1},hit,{n},1\n" for n in range(65536)) + "end\n"
    for title, source, status in [
        ("an item of 65,535", "1,hit,65535,1\nend\n", {0}),
        ("an item of 65,536", "1,hit,65536,1\nend\n", {6}),
        ("an item of 5,000 digits", f"1,hit,{'0' * 5000},1\nend\n", {6}),
        ("a row without its item", "1,hit,1\nend\n", {6}),
        ("a value of -9223372036854775808 under `/` and `%`", "1,hit,6,-9223372036854775808\nend\n", {0}),
        ("65,536 items in use", every, {0}),
    ]:
        case = job(PATHS, {"web.csv": source, "app.csv": "end\n", "clock.csv": "65537,hour\nend\n"})
        for command in ("fold", "run"):
            table.row(f"{title}, under `{command}`", [run(case, command, "job")], status,
                      lambda it: it.status == 0 and it.out != run(case, "fold", "job").out and "another report than that of fold")
    conflict = "".join(f"cell c{n} keyed sum\n" for n in range(64)) + "".join(f"tag k{n} keyed int\n" for n in range(64))
    conflict += "".join(f"depends k{a} k{b}\n" for a in range(64) for b in range(64))
    for k in range(64):
        actions = "; ".join(f"add c{(k + n) % 64}[key] (value + {n}" + " + value" * 25 + ")" for n in range(32))
        conflict += f"on k{k}: {actions}\n"
    conflict += "".join(f'source s{n} "s{n}.csv": ' + ", ".join(f"k{k}[{n}]" for k in range(64)) + "\n" for n in range(4))
    table.row(f"`check` of 256 itags, 4,096 depends, 32 actions a kind, {len(conflict) // 1000} kB",
              [run(job(conflict), "check", "job")], {0, 4}, seconds=1)
    table.row("`plan --depth 6` of the same", [run(job(conflict), "plan", "job", "--depth", "6")], {0, 4}, seconds=5)

    # rows that are blank, through a pipe, with the peak of memory that the system says
    case = job(plain.replace("a.csv", "/dev/stdin"))
    peaks = []
    for count in (blanks // 10, blanks):
        feed = subprocess.Popen(f"(yes '' | head -n {count}; echo end) 2>/dev/null", shell=True, stdout=subprocess.PIPE)
        begin = time.time()
        child = subprocess.Popen([PROGRAM, "fold", "job"], cwd=case.at, stdin=feed.stdout, stdout=subprocess.PIPE, stderr=subprocess.PIPE)
        feed.stdout.close()
        out, err = child.stdout.read(), child.stderr.read()
        _, status, used = os.wait4(child.pid, 0)
        feed.wait()
        peaks.append(used.ru_maxrss)
        table.row(f"{count:,} blank rows, {used.ru_maxrss // 1024} MB at most",
                  [Answer(os.waitstatus_to_exitcode(status), out, err, time.time() - begin)], {0, 6}, seconds=10000)
    if peaks[1] > peaks[0] * 1.2 + 1024:
        table.wrong.append(f"blank rows: memory grew from {peaks[0]} to {peaks[1]} kB")


def starved(table, rng, count):
    case = Case(views_files(rng, 2000))
    report = run(case, "fold", "job").out
    whole = lambda it: it.status == 0 and it.out != report and "another report"
    for command in ("fold", "run"):
        answers = []
        for size in [n * 1024 * 1024 // 2 for n in range(2, 60)] + [rng.randint(4, 200) * 1024 * 1024 for _ in range(20)]:
            answers.append(run(case, command, "job", limits=[(resource.RLIMIT_AS, size)]))
        # below some size the system can't load the program at all, and it ends before main
        started = [it for it in answers if not (isinstance(it.status, int) and (it.status < 0 or it.status == 127))]
        table.row(f"`{command}` with less and less memory (the program was started in {len(started)} of {len(answers)})", started, {0, 9}, whole)
    answers, lock = [], threading.Lock()

    def many(number):
        for _ in range(number):
            it = run(case, "run", "job", limits=[(resource.RLIMIT_NPROC, rng.choice([0, 1, 8, 64])), (resource.RLIMIT_AS, 1 << 32)], nobody=True)
            with lock:
                answers.append(it)

    os.chmod(case.at, 0o755)
    crowd = [threading.Thread(target=many, args=(max(count // 40, 1),)) for _ in range(40)]
    for it in crowd:
        it.start()
    for it in crowd:
        it.join()
    table.row("`run`, 40 at once, with few threads allowed or none", answers, {0, 9}, whole, seconds=60)


def main():
    global PROGRAM
    words = argparse.ArgumentParser()
    words.add_argument("--program", default="crates/flumina/out/flumina")
    words.add_argument("--seed", type=int, default=1)
    words.add_argument("--texts", type=int, default=200)
    words.add_argument("--runs", type=int, default=1000)
    words.add_argument("--blanks", type=int, default=100_000_000)
    words = words.parse_args()
    PROGRAM = os.path.abspath(words.program)
    rng, table = random.Random(words.seed), Table()
    print("| Use | Tried | Statuses | Longest, s |\n|---|---|---|---|")
    devices(table, rng)
    names(table, rng)
    texts(table, rng, words.texts)
    limits(table, words.blanks)
    starved(table, rng, words.runs)
    for it in table.wrong:
        print(f"WRONG {it}")
    print(f"{len(table.wrong)} wrong answers")
    return 1 if table.wrong else 0


if __name__ == "__main__":
    sys.exit(main())
