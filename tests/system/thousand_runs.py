#!/usr/bin/env python3
"""Compares the ways to run a job, over random small jobs, plans and sources: the bytes of `fold` with those of `run` and `simulate`.

Usage: tests/system/thousand_runs.py PROGRAM [--times N] [--at-once K] [--seed S] [--keep FOLDER]

PROGRAM is the built program. N jobs are made (1000 if no number is given), K of them are run side by side (8), so that threads
are scheduled differently, and the seed S (1) determines all that is made. Each job is made acceptable by the `depends` that `check` asks for.
It is run by `fold`, by `run` with the program's own plan, with a plan of `plan --depth D` and with one that is made here, and by
`simulate` with the last two and a random seed, if the program has that command. For the last two plans `partial` is called for each node,
and `combine` twice over partials of nodes that may be apart, if the program has these. A job whose runs differ is kept in FOLDER
(`thousand_runs` if none is named). The last line is a row for a table; the status is 1 if any run differed.
"""
import argparse
import concurrent.futures
import pathlib
import random
import re
import shutil
import subprocess
import sys
import tempfile
import time

NODE = re.compile(r"^node (\w+):.*?(?:-> (\w+) (\w+))?$", re.M)
CONFLICT = re.compile(r"flumina: conflict: (\w+)(?:\[\d+\])? and (\w+)(?:\[\d+\])? on ")
KEYS = 4
ITEMS = [0, 1, 2, 3, 3, 70, 5000, 65535]
NAMES = ["harbour", "market hall", "7", "a;b", "e\u0301t\u00e9", "x" * 64, "cell", "007"]


class Job:
    """A random job: its cells, its kinds with their actions, the dependencies between them, and what its sources list."""

    def __init__(self, rng):
        self.rng = rng
        self.version = rng.choice([1, 1, 2, 3, 3])
        self.ties = rng.choice([1, 1, 2, 3]) if self.version == 3 else 1
        self.cells = [(f"c{i}", rng.random() < 0.5, rng.choice(["sum", "max", "last"])) for i in range(rng.randint(1, 3))]
        self.kinds = [(f"k{i}", rng.random() < 0.5, rng.random() < 0.7, self.version == 3 and rng.random() < 0.6) for i in range(rng.randint(1, 4))]
        self.lists = [rng.sample(NAMES, rng.randint(1, 6)) for _ in range(rng.randint(1, 2) * (self.version == 3 and rng.random() < 0.6))]
        self.names = {name: rng.choice([None, *range(len(self.lists))]) for name, many, *_ in self.cells if many}
        self.names |= {name: rng.choice([None, *range(len(self.lists))]) for name, _, _, itemed in self.kinds if itemed}
        self.depends = set()
        self.actions = [[self.action(*kind[1:]) for _ in range(rng.randint(1, 3))] for kind in self.kinds]
        for actions, kind in zip(self.actions, self.kinds):
            if rng.random() < 0.4:
                actions.append(self.emit(kind[1], kind[3]))
        self.sources = [(f"s{i}", rng.randint(1, 50), self.listed()) for i in range(rng.randint(1, 3))]
        # A clock has a kind that has no key, no item and no value, and is declared in front of some source or behind all.
        plain = [i for i, kind in enumerate(self.kinds) if not any(kind[1:])]
        clocks = range(rng.randint(0, 2) * (self.version == 3 and bool(plain)))
        self.clocks = [(f"t{i}", rng.choice([1, 3, 10, 40, 1000]), rng.choice(plain), rng.randint(0, len(self.sources))) for i in clocks]

    def listed(self):
        """What a source lists: kinds, the keyed ones with a range of keys."""
        tags = []
        for kind in sorted(self.rng.sample(range(len(self.kinds)), self.rng.randint(1, len(self.kinds)))):
            low = self.rng.randrange(KEYS) if self.kinds[kind][1] else 0
            tags.append((kind, low, self.rng.randrange(low, KEYS) if self.kinds[kind][1] else 0))
        return tags

    def cell(self, keyed, itemed):
        """A cell of some family, as an action of a kind names it, with the family's sort."""
        name, many, sort = self.rng.choice(self.cells)
        if not many:
            return name, sort
        words = ["key"] * 2 * keyed + ["item"] * 3 * itemed + [str(self.rng.randrange(KEYS))]
        return f"{name}[{self.rng.choice(words)}]", sort

    def number(self, keyed, valued, itemed):
        """An expression of one or two parts."""
        atoms = ["time", str(self.rng.randint(0, 9)), self.cell(keyed, itemed)[0]] + ["value"] * (3 * valued) + ["key"] * keyed + ["item"] * itemed
        if self.rng.random() < 0.6:
            return self.rng.choice(atoms)
        operators = ["+", "-", "*", "<", "=="] + ["/", "%"] * (self.version == 3)
        return f"({self.rng.choice(atoms)} {self.rng.choice(operators)} {self.rng.choice(atoms)})"

    def emit(self, keyed, itemed):
        """An action that tells a cell."""
        cell = self.cell(keyed, itemed)[0]
        return f'emit "{cell} {{{cell}}} at {{time}}{" of {item}" * itemed}"'

    def action(self, keyed, valued, itemed):
        """An action that fits its kind."""
        cell, sort = self.cell(keyed, itemed)
        verb = {"sum": "add", "max": "raise", "last": "set"}[sort]
        many = [name for name, keyed_cells, _ in self.cells if keyed_cells]
        value = self.rng.choice(["value"] * 3 * valued + ["1", "2"])
        forms = [f"{verb} {cell} {value}"] * 4 + [f"{verb} {cell} {self.number(keyed, valued, itemed)}", f"clear {cell}", self.emit(keyed, itemed)]
        # In version 3 a flush may name any family, and a keyed one may be cleared whole.
        beside = f" {{{self.rng.choice(self.cells)[0]}}}" * (self.version == 3) + " {item}" * itemed
        forms += [f'flush {name} "{name} {{key}} {{cell}}{beside}"' for name in many]
        forms += [f"clear {name}" for name in many if self.version == 3]
        when = f" when {self.number(keyed, valued, itemed)}" if self.rng.random() < 0.2 else ""
        return self.rng.choice(forms) + when

    def text(self):
        """The job's text."""
        ties = f" ties {self.ties}" if self.ties > 1 else ""
        lines = [f"version {self.version}{ties}"] if self.version > 1 else []
        for number, names in enumerate(self.lists):
            lines.append(f"names l{number}: " + ", ".join(f'"{name}"' for name in names))
        lines += [f"cell {name} {'keyed ' + self.by(name) if keyed else ''}{sort}" for name, keyed, sort in self.cells]
        lines += [
            f"tag {name} {'keyed ' if keyed else ''}{'item ' + self.by(name) if itemed else ''}{'int' if valued else 'none'}"
            for name, keyed, valued, itemed in self.kinds
        ]
        lines += [f"depends {self.kinds[a][0]} {self.kinds[b][0]}{' same' if same else ''}" for a, b, same in sorted(self.depends)]
        lines += [f"on {kind[0]}: {'; '.join(actions)}" for kind, actions in zip(self.kinds, self.actions)]
        for number, (name, rate, tags) in enumerate(self.sources):
            lines += self.clock_lines(number)
            listed = ", ".join(self.kinds[k][0] + (f"[{low}..{high}]" if self.kinds[k][1] else "") for k, low, high in tags)
            lines.append(f'source {name} "{name}.csv" rate {rate}: {listed}')
        lines += self.clock_lines(len(self.sources))
        return "\n".join(lines) + "\n"

    def clock_lines(self, place):
        """The lines of the clocks that are declared in front of the source at a place."""
        return [f"clock {name} every {period}: {self.kinds[kind][0]}" for name, period, kind, before in self.clocks if before == place]

    def by(self, name):
        """Which list names the keys of a family or the items of a kind, as its declaration says it."""
        return "" if self.names[name] is None else f"by l{self.names[name]} "

    def item(self, name):
        """An item of a kind, as a row gives it."""
        if self.names[name] is None:
            return self.rng.choice(ITEMS)
        shown = self.rng.choice(self.lists[self.names[name]])
        return self.rng.choice([shown, f'"{shown}"'])

    def accept(self, program, folder):
        """Adds what the program's `check` asks for, `same` first where both kinds are keyed, until the job is accepted."""
        while True:
            (folder / "job").write_text(self.text())
            _, err, status = call(program, folder, "check", "job")
            if status == 0:
                return
            asked = CONFLICT.match(err)
            if status != 4 or not asked:
                raise RuntimeError(f"check: {status} {err}")
            a, b = sorted(next(i for i, kind in enumerate(self.kinds) if kind[0] == name) for name in asked.groups())
            same = self.kinds[a][1] and self.kinds[b][1] and (a, b, True) not in self.depends
            self.depends.add((a, b, same))

    def itags(self):
        """Each itag as its kind, its key and its source."""
        of_rows = [(kind, key, name) for name, _, tags in self.sources for kind, low, high in tags for key in range(low, high + 1)]
        return of_rows + [(kind, 0, name) for name, _, kind, _ in self.clocks]

    def dependent(self, i, j):
        """Whether two itags depend on each other."""
        pair = tuple(sorted((i[0], j[0])))
        return (*pair, False) in self.depends or ((*pair, True) in self.depends and i[1] == j[1])

    def plan(self):
        """A valid plan: each node owns some itags, and what is left parts into two groups that do not depend on each other."""
        lines = []

        def grow(mine, depth):
            name = f"n{len(lines)}"
            lines.append("")
            groups = self.components(mine) if depth < 6 and self.rng.random() < 0.85 else []
            own = mine
            kids = ""
            if groups:
                own = [i for i in mine if self.rng.random() < 0.3]
                left, right = [], []
                for group in self.components([i for i in mine if i not in own]):
                    self.rng.choice([left, right]).extend(group)
                kids = f" -> {grow(left, depth + 1)}"
                kids += f" {grow(right, depth + 1)}"
            preds = ", ".join(f"{self.kinds[k][0]}{f'[{key}]' if self.kinds[k][1] else ''}@{source}" for k, key, source in own)
            lines[int(name[1:])] = f"node {name}:{' ' if preds else ''}{preds}{kids}"
            return name

        grow(self.itags(), 0)
        return "\n".join(lines) + "\n"

    def components(self, mine):
        """Groups of itags of which none depends on one of another group."""
        left, groups = list(mine), []
        while left:
            group = [left.pop()]
            for i in group:
                near = [j for j in left if self.dependent(i, j)]
                left = [j for j in left if j not in near]
                group.extend(near)
            groups.append(group)
        return groups

    def rows(self, tags):
        """The rows of a source: rising times, some of them with several rows where the job allows it, some of them heartbeats, and the end."""
        time_now, tied, lines = 0, 0, []
        for _ in range(self.rng.choice([0, 2, 10, 30, 60])):
            if lines and tied + 1 < self.ties and self.rng.random() < 0.4:
                tied += 1
            else:
                time_now, tied = time_now + self.rng.choice([1, 1, 1, 2, 5]), 0
            kind, low, high = self.rng.choice(tags)
            name, keyed, valued, itemed = self.kinds[kind]
            tag = f"{name}[{self.rng.randint(low, high)}]" if keyed else name
            if itemed:
                tag += f",{self.item(name)}"
            value = f",{self.rng.randint(-9, 9)}" if valued else ""
            lines.append(f"{time_now},beat" if self.rng.random() < 0.15 else f"{time_now},{tag}{value}")
        return "\n".join(lines + ["end"]) + "\n"


def call(program, folder, *words):
    """What the program writes to its two streams, and its status."""
    done = subprocess.run([program, *words], cwd=folder, capture_output=True, timeout=120, check=False)
    return done.stdout, done.stderr.decode(errors="replace"), done.returncode


def apart(program, folder, plan, rng):
    """Writes the partials of the nodes of a plan that may be apart, and gives two lists of the names of some of them, none within another."""
    above, may = {}, []
    for name, left, right in NODE.findall((folder / plan).read_text()):
        above.update({left: name, right: name} if left else {})
        out, err, status = call(program, folder, "partial", "job", plan, name)
        if status == 0:
            (folder / f"{plan}.{name}").write_bytes(out)
            may.append(name)
        elif status != 5 or not err.startswith(f"flumina: plan: {name} can't be apart: "):
            raise RuntimeError(f"partial: {status} {err}")

    def path(name):
        return [name] + (path(above[name]) if name in above else [])

    for _ in range(2 if may else 0):
        chosen = []
        for name in rng.sample(may, rng.randint(1, len(may))):
            if all(name not in path(other) and other not in path(name) for other in chosen):
                chosen.append(name)
        yield [f"{plan}.{name}" for name in chosen]


def compared(program, seed, simulates, combines, keep):
    """Makes and runs one job: how many runs were compared, how many of these by `combine`, how many differed, how many nodes, events and lines there were."""
    rng = random.Random(seed)
    folder = pathlib.Path(tempfile.mkdtemp(prefix="thousand_runs_"))
    job = Job(rng)
    job.accept(program, folder)
    events = 0
    for name, _, tags in job.sources:
        text = job.rows(tags)
        events += sum(1 for line in text.split("\n") if "," in line and not line.endswith(",beat"))
        (folder / f"{name}.csv").write_text(text)
    greedy, err, status = call(program, folder, "plan", "job", "--depth", str(rng.randint(0, 6)))
    if status:
        raise RuntimeError(f"plan: {status} {err}")
    (folder / "greedy").write_bytes(greedy)
    (folder / "shaped").write_text(job.plan())
    wanted, err, status = call(program, folder, "fold", "job")
    if status:
        raise RuntimeError(f"fold: {status} {err}")
    ways = [("run", "job"), ("run", "job", "greedy"), ("run", "job", "shaped")]
    if simulates:
        ways += [("simulate", "job", plan, str(rng.randrange(2**31))) for plan in ("greedy", "shaped")]
    if combines:
        ways += [("combine", "job", plan, *files) for plan in ("greedy", "shaped") for files in apart(program, folder, plan, rng)]
    bad = 0
    for words in ways:
        out, err, status = call(program, folder, *words)
        if (out, status) != (wanted, 0):
            bad += 1
            print(f"seed {seed}: {' '.join(words)}: status {status} {err.strip()}", file=sys.stderr)
    nodes = greedy.count(b"node ") + (folder / "shaped").read_text().count("node ")
    if bad:
        shutil.copytree(folder, keep / str(seed), dirs_exist_ok=True)
    shutil.rmtree(folder)
    return len(ways), sum(words[0] == "combine" for words in ways), bad, nodes, events, wanted.count(b"\n")


def main():
    words = argparse.ArgumentParser(description=__doc__.split("\n", maxsplit=1)[0])
    words.add_argument("program")
    words.add_argument("--times", type=int, default=1000)
    words.add_argument("--at-once", type=int, default=8)
    words.add_argument("--seed", type=int, default=1)
    words.add_argument("--keep", type=pathlib.Path, default=pathlib.Path("thousand_runs"))
    asked = words.parse_args()
    program = str(pathlib.Path(asked.program).resolve())
    # Words that are no command give 2; of a command that is there a missing file gives 7.
    simulates = call(program, ".", "simulate", "no such file", "no such file", "0")[2] == 7
    combines = call(program, ".", "combine", "no such job", "no such plan", "no such partial")[2] == 7
    begin = time.time()
    with concurrent.futures.ThreadPoolExecutor(asked.at_once) as pool:
        made = [pool.submit(compared, program, seed, simulates, combines, asked.keep) for seed in range(asked.seed, asked.seed + asked.times)]
        runs, combined, bad, nodes, events, lines = (sum(column) for column in zip(*(m.result() for m in made)))
    took = time.time() - begin
    print("| jobs | runs compared with fold | by combine | differ | nodes of plans | events | lines of reports | at once | simulate | seconds |")
    print("|---|---|---|---|---|---|---|---|---|---|")
    shown = "yes" if simulates else "no"
    print(f"| {asked.times} | {runs} | {combined} | {bad} | {nodes} | {events} | {lines} | {asked.at_once} | {shown} | {took:.0f} |")
    sys.exit(1 if bad else 0)


if __name__ == "__main__":
    main()
