"""Runs commands in turn, and prints tables of what they took."""

import os
import resource
import statistics
import subprocess
import sys
import time

HERE = os.path.dirname(os.path.abspath(__file__))
MEASUREMENTS = {}


def measurement(what, runs=5):
    def add(function):
        MEASUREMENTS[function.__name__] = (function, what, runs)
        return function

    return add


class Figure:
    """What some runs of a command took: the least wall and processor time, the median wall time, and the most memory held, in bytes."""

    def __init__(self):
        self.walls, self.busies, self.held = [], [], 0

    @property
    def wall(self):
        return min(self.walls)

    @property
    def busy(self):
        return max(min(self.busies), 0.001)

    @property
    def median(self):
        return statistics.median(self.walls)

    def __str__(self):
        return f"{self.wall:.2f} ({self.busy:.2f})"


def by_children():
    """The processor time of all commands so far that have ended."""
    used = resource.getrusage(resource.RUSAGE_CHILDREN)
    return used.ru_utime + used.ru_stime


class Bench:
    def __init__(self, program, before, runs):
        self.program, self.before, self.runs = program, before, runs

    def once(self, name, command, into):
        """Runs a command, which is a list of words or a line of bash; what it writes goes to NAME.txt and NAME.err."""
        words = command if isinstance(command, list) else ["bash", "-c", command]
        timed = [*self.before, "/usr/bin/time", "-o", "figures", "-f", "%M", *words]
        with open(f"{name}.txt", "wb") as out, open(f"{name}.err", "wb") as err:
            used, began = by_children(), time.monotonic()
            status = subprocess.run(timed, stdin=subprocess.DEVNULL, stdout=out, stderr=err).returncode
            into.walls.append(time.monotonic() - began)
            into.busies.append(by_children() - used)
        with open("figures") as it:
            into.held = max(into.held, int(it.read().split()[-1]) * 1024)
        return status

    def compare(self, same=(), runs=None, **commands):
        """The figures of commands by name, which alternate; those of `same` have to write the same bytes."""
        figures, same = {name: Figure() for name in commands}, list(same)
        # Else the first commands run while the inputs that were just made are written to the disk.
        os.sync()
        for _ in range(runs or self.runs):
            for name, command in commands.items():
                if self.once(name, command, figures[name]):
                    sys.exit(f"refused: {command}\n{text(f'{name}.err')}")
            for name in same:
                if text(f"{name}.txt") != text(f"{same[0]}.txt"):
                    sys.exit(f"{name} and {same[0]} write other bytes: {commands[name]}")
        return figures

    def flumina(self, *words):
        return [self.program, *words]

    def fold_and_run(self, job, plan=None):
        """The commands that fold a job, run it by a plan, if there is one, and run it without one."""
        words = {"fold": ("fold", job), "plan": ("run", job, plan), "run": ("run", job)}
        return {name: self.flumina(*it) for name, it in words.items() if None not in it}

    def of(self, *words):
        """The figure of one command of the program."""
        return self.compare(it=self.flumina(*words))["it"]


def text(name):
    with open(name, "rb") as it:
        return it.read()


def table(*heads):
    row(*heads)
    row(*["---"] * len(heads), gap="")


def row(*cells, gap=" "):
    print("|" + "|".join(f"{gap}{it}{gap}" if str(it) else " " for it in cells) + "|", flush=True)
