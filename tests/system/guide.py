#!/usr/bin/env python3
"""Runs the commands of README.md, docs/GUIDE.md and examples/README.md exactly as the pages show them, and compares what they
write with what the pages show.

    tests/system/guide.py PROGRAM

Each page is read block by block, a block being an indented paragraph. The steps below say of each block, in the page's order, what
it is: a file, a command, or what a command writes. Commands and files within a sentence are looked up there too, so a page
that changes without its step is a failure. Each page has a fresh folder. It needs bash, and mawk or gawk as `awk`.
It ends with status 1 at the first difference, and else prints how many commands it ran.

Left out, and why:
- README.md: `rt ci` and `rt run`, which prove for hours, and `tools/try.sh` itself, which needs the kit: PROGRAM stands in for it.
- docs/GUIDE.md, "Stopping and going on": a run that is stopped in the middle is the matter of tests/system/stop_and_resume.py;
  here the commands run on a run that was finished.
- docs/GUIDE.md: `flumina run JOB [PLAN] --adapt`, which shows the form of a command."""

import os
import pty
import re
import shutil
import subprocess
import sys
import tempfile

TOP = os.path.realpath(os.path.join(os.path.dirname(os.path.abspath(__file__)), "..", ".."))
ran = 0


def need(holds, what):
    if not holds:
        sys.exit(f"not as it should be: {what}")


def same(found, shown, what):
    need(found == shown, f"{what}\n--- the page shows\n{shown}--- it is\n{found}")


class Page:
    """A page's blocks in order, and its text in one line."""

    def __init__(self, name):
        self.name = name
        with open(os.path.join(TOP, name)) as it:
            text = it.read()
        paragraphs = re.split(r"\n\n+", text)
        self.blocks = [re.sub(r"^    ", "", it, flags=re.M).rstrip("\n") + "\n" for it in paragraphs if it.startswith("    ")]
        self.text = " ".join(text.split())

    def block(self, start):
        """The next block of the page, which begins like this."""
        need(self.blocks, f"{self.name} has a block more, which begins with: {start}")
        found = self.blocks.pop(0)
        need(found.startswith(start), f"the next block of {self.name} begins with: {start}\n{found}")
        return found

    def goes_on(self, start):
        """Whether the next block begins like this."""
        return bool(self.blocks) and self.blocks[0].startswith(start)

    def says(self, text):
        """The text, which has to occur in a sentence of the page."""
        need(" ".join(text.split()) in self.text, f"{self.name} says: {text}")
        return text

    def code(self, text):
        """The command or file, which has to occur between backticks in a sentence of the page."""
        self.says(f"`{text}`")
        return text

    def end(self):
        need(not self.blocks, f"{self.name} should end here, but continues with\n{''.join(self.blocks[:1])}")


class Folder:
    """A fresh folder, in which `flumina` is PROGRAM."""

    def __init__(self, program):
        self.room = tempfile.TemporaryDirectory(prefix="flumina-guide-")
        self.at = os.path.join(os.path.realpath(self.room.name), "guide")
        words = os.path.join(self.room.name, "bin")
        os.mkdir(self.at)
        os.mkdir(words)
        os.symlink(program, f"{words}/flumina")
        self.env = {**os.environ, "PATH": f"{words}:{os.environ['PATH']}"}

    def read(self, name):
        with open(os.path.join(self.at, name)) as it:
            return it.read()

    def write(self, name, text):
        with open(os.path.join(self.at, name), "w") as it:
            it.write(text)

    def edit(self, name, to, *changes):
        """Writes the file NAME with these changes as the file TO."""
        text = self.read(name)
        for old, new in changes:
            need(text.count(old) == 1, f"{name} has once: {old}\n{text}")
            text = text.replace(old, new)
        self.write(to, text)

    def call(self, command, status=0, terminal=False, below="."):
        """Runs the command in bash, and returns what it wrote on standard output and on standard error, a terminal where asked for."""
        global ran
        ran += 1
        ours, theirs = pty.openpty() if terminal else (None, subprocess.PIPE)
        made = subprocess.Popen(
            ["bash", "-c", command],
            cwd=os.path.join(self.at, below),
            env=self.env,
            stdin=subprocess.DEVNULL,
            stdout=subprocess.PIPE,
            stderr=theirs,
        )
        if terminal:
            os.close(theirs)
            err = b""
            try:
                while more := os.read(ours, 4096):
                    err += more
            except OSError:  # The terminal's end, once the command is gone.
                pass
            os.close(ours)
            out = made.stdout.read()
            made.wait()
        else:
            out, err = made.communicate(timeout=120)
        err = err.decode().replace("\r\n", "\n")
        need(made.returncode == status, f"status {made.returncode}, and not {status}, of: {command}\n{err}")
        return out.decode(), err

    def quiet(self, command, **how):
        """Runs a command that writes nothing on standard error, and returns what it wrote."""
        out, err = self.call(command, **how)
        same(err, "", f"nothing on standard error, of: {command}")
        return out

    def refused(self, command, status, shown, terminal=True, **how):
        """Runs a command that is refused: a terminal gets all that is shown, a pipe its first line."""
        out, err = self.call(command, status=status, **how)
        same(out, "", f"nothing on standard output, of: {command}")
        same(err, shown.splitlines(True)[0], f"the line on standard error, of: {command}")
        if terminal:
            same(self.call(command, status=status, terminal=True, **how)[1], shown, f"what a terminal shows, of: {command}")


def session(folder, block, **how):
    """Runs a block with prompts: a line that begins with `$ ` is a command, and those after it are what it writes."""
    for part in re.split(r"^\$ ", block, flags=re.M)[1:]:
        command, _, shown = part.partition("\n")
        refused = shown.startswith("flumina: ")
        out, err = folder.call(command, status=4 if refused else 0, **how)
        same(err if refused else out, shown, f"what is written by: {command}")


def readme(program):
    page, folder = Page("README.md"), Folder(program)
    os.makedirs(f"{folder.at}/tools")
    os.symlink(program, f"{folder.at}/tools/try.sh")
    page.code("examples/rides")
    shutil.copytree(f"{TOP}/examples/rides", f"{folder.at}/examples/rides")
    same(folder.read(f"examples/rides/{page.code('north.csv')}"), page.block("2026-03-02 08:05:00"), "the rows of north")
    same(folder.read(f"examples/rides/{page.code('rides.job')}"), page.block("version 3"), "the job")
    into, fold = page.block("cd examples/rides").splitlines()
    report = page.block("2026-03-03T00:00:00Z,day,harbour")
    same(folder.quiet(f"{into}\n{fold}"), report, "the report")
    same(folder.read("examples/rides/report.csv"), report, "the report of the example")
    session(folder, page.block("$ grep"), below="examples/rides")
    session(folder, page.block("$ ../../tools/try.sh plan"), below="examples/rides")
    same(folder.quiet(page.code("../../tools/try.sh run rides.job"), below="examples/rides"), report, "the report of the run")
    page.says("prints the four lines above")
    page.says("`(cd examples/rides && ../../tools/try.sh fold rides.job)`")
    page.end()


def log_to_report(page, folder):
    """From the log to the report."""
    folder.write(page.code("rides.log"), page.block("when,office"))
    command = page.block("awk -F, 'NR > 1 && !")
    folder.quiet(command)
    same(folder.read("north.csv"), page.block("2026-03-02 08:05:00,ride"), "north.csv")
    for name in "north.csv", "south.csv":
        with open(f"{TOP}/examples/rides/{name}") as it:
            same(folder.read(name), it.read(), f"{name} is that of the example")
    folder.write("rides.job", page.block("version 3 ties 1000 iso seconds"))
    with open(f"{TOP}/examples/rides/rides.job") as it:
        same(folder.read("rides.job"), it.read(), "rides.job is that of the example")
    folder.quiet(page.block("flumina check rides.job\nflumina fold"))
    same(folder.read(page.code("report.csv")), page.block("2026-03-03T00:00:00Z,day,harbour"), "the report")

    log, good = folder.read("rides.log"), {name: folder.read(name) for name in ("north.csv", "south.csv")}
    folder.write("rides.log", log + "2026-03-03 11:00:00,east,mill,5\n")
    out, err = folder.call(command, status=1)
    same(out + err, "line 8: 2026-03-03 11:00:00,east,mill,5\n", "a row of a third office")
    folder.refused("flumina fold rides.job", 6, "flumina: source north row 4: unclosed\n", terminal=False)
    folder.write("rides.log", log)
    folder.quiet(command)
    same("".join(folder.read(name) for name in good), "".join(good.values()), "the sources once more")
    ride = "2026-03-02 00:00:00,ride,mill,1\nend\n"
    for name in "north.csv", "south.csv":
        folder.write(name, "end\n" if name == "south.csv" else ride)
    last = folder.quiet("flumina fold rides.job")
    lines = folder.read("rides.job").splitlines(True)
    folder.write("early.job", "".join(lines[:-3] + lines[-1:] + lines[-3:-1]))
    days = [out.split("T")[0] for out in (last, folder.quiet("flumina fold early.job"))]
    same("\n".join(days), "2026-03-02\n2026-03-03", "the day of a ride at midnight, with the clock last and first")
    for name, text in good.items():
        folder.write(name, text)

    command = page.block("printf 'harbour,12.50")
    same(folder.quiet(command), page.block("harbour,1250"), "amounts in cents")
    out, err = folder.call(command.replace("0.75", "0.7"), status=1)
    same(out + err, "harbour,1250\nline 2: mill,0.7\n", "an amount of another form")


def many_names(page, folder):
    """Items by names, from a log to the sums of each path."""
    folder.quiet(page.block("awk 'BEGIN { for (n"))
    folder.quiet(page.block("sed 's/ /,hit,/"))
    folder.write(page.code("paths.head"), page.block("version 3 ties 10 iso seconds"))
    out = "".join(folder.quiet(it) for it in page.block("cat paths.head").splitlines())
    same(out, page.block("/page/"), "the first lines of the sums by path")


def late_and_open(page, folder):
    folder.write(page.code("late.csv"), page.block("100,ride,12"))
    same(folder.quiet(page.block("awk -F, '/^[0-9]/")), "30\n", page.says("prints 30"))
    source = page.code('source south "late.csv" slack 30: ride')
    job = page.code("version 3") + '\ntag ride int\non ride: emit "seen"\n'
    folder.write("slack.job", f"{job}{source}\n")
    times = "".join(f"{it},ride,seen\n" for it in page.says("100, 130, 160 and 161").replace(" and", ",").split(", "))
    same(folder.quiet("flumina fold slack.job"), times, "the events of late.csv")
    folder.write("slack.job", f"{job}{source}\n".replace("slack 30", "slack 29"))
    folder.refused("flumina fold slack.job", 6, "flumina: source south row 3: disordered, last 160, got 130\n", terminal=False)
    folder.edit("rides.job", page.code("live.job"), (page.code('"south.csv"'), page.code('"/dev/stdin"')))
    folder.edit("rides.job", page.code("live3.job"), ('"south.csv"', page.code('"/dev/fd/3"')))
    report = folder.read("report.csv")
    for command in page.block("cat south.csv").splitlines():
        out = folder.quiet(command)
        same(out, report if "flumina" in command else "", f"what is written by: {command}")


def live(page, folder):
    """A report that is written while its sources grow. The tails are those of the page; so is the run, but for a pause until it has written."""
    folder.write(page.code("hits.job"), page.block("version 3"))
    rows, start, first = page.block("printf '2026-03-02 08:05:01"), page.block("mkfifo"), page.block("2026-03-02T08:06:00Z,minute,")
    beats_at = [page.code(f"echo '2026-03-02 08:07:0{it},beat' >> web.csv") for it in (0, 1)]
    second = page.block("2026-03-02T08:07:00Z,minute,")
    page.block("tail -n +1 -F access.log")
    beats = page.block("beats()")
    end, third, resume = page.block("echo end >> web.csv"), page.block("2026-03-02T08:08:00Z,minute,"), page.block("flumina run hits.job")
    shown = "sleep 2; cat hits.csv; echo --\n"
    out, err = folder.call(f"set +m\n{rows}{start}{shown}{beats_at[0]}\n{shown}{beats_at[1]}\n{shown}{end}cat hits.csv\n")
    same(out, f"{first}--\n{first}--\n{first}{second}--\n{first}{second}{third}", f"the report while its source grows\n{err}")
    again = start.replace("flumina run hits.job --round 1 --save hits.save > hits.csv &\n", "")
    out, err = folder.call(f"set +m\nrm *.fifo\n{again}(sleep 2; kill $web) &\n{resume}cat hits.csv\n")
    same(out, first + second + third, f"the report of a run that is resumed after its end\n{err}")
    quiet = folder.quiet(f"{beats}(echo row; sleep 6; echo row) | beats | sed 's/^[0-9]*,beat$/beat/'")
    same(quiet, "row\nbeat\nrow\n", "a heartbeat between two rows")


def instead(page, folder):
    """Windows, minima and means."""
    folder.write(page.code("stats.job"), page.block("version 3"))
    same(folder.quiet("flumina fold stats.job"), page.block("150,window,63"), "the report of stats.job")
    means = folder.quiet(page.block("flumina fold stats.job | awk"))
    same(means, page.block("150,mean"), "the means")


def steps_and_counts(page, folder):
    """A trace by hand, and a plan that follows the counts."""
    folder.write(page.code("counts.job"), page.block("cell count"))
    folder.write("a.csv", page.code("3,inc,1") + "\nend\n")
    folder.write("b.csv", "end\n")
    folder.write("c.csv", page.code("3,read") + "\nend\n")
    folder.write(page.code("one.plan"), page.code("node one: inc, read") + "\n")
    same(folder.quiet(page.block("printf")), page.code("3,read,count 1") + "\n", "the report of the replay")
    tried = folder.quiet(page.block("head -n 3"))
    same(tried, page.block("arrive 0: "), "what may come next")
    same(folder.quiet(page.block("flumina plan rides.job > offices.plan")), folder.read("report.csv"), "the report of two partials")
    refused = "flumina: plan: n0 can't be apart: clock midnight\n"
    folder.refused("flumina partial rides.job offices.plan n0", 5, refused, terminal=False)
    page.says("a node that owns a clock can't be apart")
    page.block("flumina run JOB")
    folder.write("a.csv", "".join(page.code(it) + "\n" for it in ("1,inc,1", "2,inc,1", "3,inc,1")) + "end\n")
    folder.write("b.csv", "1,inc,1\n2,inc,1\nend\n")
    folder.write("c.csv", page.code("9,read") + "\nend\n")
    same(folder.quiet(page.block("sed 's/ rate")), page.block("node n0: inc@a"), "the plan by equal rates")
    same(folder.quiet(page.block("flumina run even.job")), page.block("9,read,count 5"), "the report, and the plan by the counts")
    folder.quiet(page.code("flumina run even.job even.plan"))
    for name, text in ("a.csv", "3,inc,1\n"), ("b.csv", ""), ("c.csv", "3,read\n"):
        folder.write(name, text + "end\n")


def go_on(page, folder):
    report = folder.read("report.csv")
    while page.goes_on("flumina run rides.job --save rides.save"):
        command = page.block("flumina run")
        folder.quiet(command)
        same(folder.read("report.csv"), report, f"the report of a run that saves, to which one that is resumed adds nothing: {command}")
    cut = page.block("test -z")
    border = page.says("9223372036854775807")
    folder.write("rides.save", f'{{"border":{border},"cells":[]}}')
    folder.write("report.csv", report + "2026-03")
    folder.quiet(cut)
    same(folder.read("report.csv"), report, "the report without its truncated last line")
    first = report.splitlines(True)[:3]
    folder.write("rides.save", '{"border":1772582399,"cells":[]}')
    folder.quiet(cut)
    same(folder.read("report.csv"), "".join(first), "the lines up to a border")
    for border, at in ("1772582400000", "one too great for a date in seconds"), ("17725824", "2026-03-04T00:00:00.000Z"):
        folder.write("rides.save", f'{{"border":{border},"cells":[]}}')
        folder.write("report.csv", report.replace("00Z", "00.000Z") if "Z" in at else report)
        before = folder.read("report.csv")
        out, err = folder.call(cut, status=1)
        same(out + err, "the border is no date of this form\n", f"a border of another unit: {at}")
        same(folder.read("report.csv"), before, "the report is as it was")
    folder.write("rides.save", '{"border":1000,"cells":[]}')
    folder.write("report.csv", "999,tick,9\n1000,tick,10\n1001,tick,11\n10")
    folder.quiet(cut)
    same(folder.read("report.csv"), "999,tick,9\n1000,tick,10\n", "a report with times as numbers")
    folder.write("report.csv", report)
    folder.quiet("flumina run rides.job --save rides.save > report.csv")
    same(folder.read("report.csv"), report, "the report once more")


def how_far(page, folder):
    rows = r"(?:\d+|\d+\.\d M) rows, (?:\d+|\d+\.\d M) rows/s"
    need(re.fullmatch(rf"read \d+\.\d of \d+\.\d MB, \d+ %, {rows}, report to \d+\n", page.block("read ")), "the line that a terminal shows")
    report = folder.quiet("flumina fold rides.job")
    out, err = folder.call(page.code("flumina --progress fold rides.job 2> log"))
    same(out + err, report, "a line on what was read leaves the report as it is")
    form, shown = r"  read (\d+) bytes, (\d+) rows in \d+\.\d s, \d+\.\d MB/s, \d+ rows/s\n", page.block("  read ")
    found = re.fullmatch(form, folder.read("log"))
    need(found and re.fullmatch(form, shown), f"the closing line, {folder.read('log')}")
    read = sum(len(folder.read(name)) for name in ("rides.job", "north.csv", "south.csv"))
    lines = sum(folder.read(name).count("\n") for name in ("north.csv", "south.csv"))
    need(found[1] == re.fullmatch(form, shown)[1] == str(read), f"{read} bytes were read: {folder.read('log')}")
    need(found[2] == re.fullmatch(form, shown)[2] == str(lines), f"{lines} rows were read: {folder.read('log')}")
    same(folder.quiet(page.code("flumina --no-progress fold rides.job")), report, "the same without it")


def missing_lines(page, folder):
    folder.write(page.code("closing.csv"), f"{page.code('2026-03-02 20:00:00,day')}\nend\n")
    clock = "clock midnight every 86400: day"
    folder.edit("rides.job", page.code("days.job"), (clock, page.code('source closing "closing.csv": day')))
    out, err = folder.call(page.code("flumina --hints fold days.job"))
    same(out + err, page.block("2026-03-02T20:00:00Z,day,harbour"), "what is not in a report")
    folder.write("closing.csv", f"{page.code('1772481600,day')}\nend\n")
    folder.edit("days.job", page.code("milliseconds.job"), ("iso seconds", page.code("iso milliseconds")))
    out, err = folder.call(page.code("flumina --hints fold milliseconds.job"))
    same(out + err, page.block("  no line was written"), "what is not in an empty report")


def refusals(page, folder):
    folder.refused(page.code("flumina flod rides.job"), 2, page.block("flumina: bad words"), terminal=False)
    need("\n  flumina check JOB\n" in folder.call("flumina flod", status=2, terminal=True)[1], "a terminal shows the commands")

    folder.edit("rides.job", "shape.job", (page.code("add rides[item] 1"), page.code("add rides 1")))
    folder.refused(page.code("flumina fold shape.job"), 3, page.block("flumina: job: wrong shape"))
    place = folder.quiet(page.code("""head -c 268 shape.job | awk 'END { print NR ": " $0 }'"""))
    same(place, page.code("10: on ride: add ") + "\n", "the line of a place")
    folder.write("cells.job", "".join(f"cell c{n} sum\n" for n in range(65)))
    shown = f"flumina: job: {page.code('over limit families 65')}\n"
    folder.refused("flumina fold cells.job", 3, shown, terminal=False)
    need("cell c64 sum" in folder.call("flumina fold cells.job", status=3, terminal=True)[1], "a terminal shows the 65th declaration")

    folder.edit("rides.job", "forgotten.job", (page.code("depends ride day") + "\n", ""))
    folder.refused(page.code("flumina check forgotten.job"), 4, page.block("flumina: conflict"))

    nodes = (page.code(it) for it in ("node root: -> left right", "node left: ride", "node right: day"))
    folder.write("rides.plan", "".join(f"{it}\n" for it in nodes))
    folder.refused(page.code("flumina valid rides.job rides.plan"), 5, page.block("flumina: plan: clash"))
    mended = (page.code("node root: day -> left right"), f"node left: {page.code('ride@north')}", f"node right: {page.code('ride@south')}")
    folder.write("rides.plan", "".join(f"{it}\n" for it in mended))
    folder.quiet("flumina valid rides.job rides.plan")
    folder.quiet(page.code("flumina plan rides.job"))

    command, good = page.code("flumina fold rides.job"), folder.read("north.csv")
    first, second, third, fourth = page.block("flumina: source north").splitlines(True)
    hint, rows = page.block("  north.csv, line 2"), good.splitlines(True)
    folder.write("north.csv", "when,office,station,minutes\n" + good)
    folder.refused(command, 6, first, terminal=False)
    folder.write("north.csv", good.replace("market", page.code("docks")))
    folder.refused(command, 6, second, terminal=False)
    folder.write("north.csv", "".join([rows[1], rows[0], *rows[2:]]))
    folder.refused(command, 6, third + hint)
    same(folder.quiet(page.code("sed -n 2p north.csv")), hint.splitlines(True)[1].strip() + "\n", "the row")
    folder.write("north.csv", good.replace("end\n", ""))
    folder.refused(command, 6, fourth, terminal=False)
    folder.write("north.csv", good)

    folder.refused(page.code("flumina fold guide/rides.job"), 7, page.block("flumina: read fault"), below="..")
    looked = folder.call(page.code("""awk -F'"' '/^source/ { print $2 }' guide/rides.job | xargs ls -l"""), status=123, below="..")
    need(all(it in looked[1] for it in ("north.csv", "south.csv")), f"the missing files are named\n{looked[1]}")

    folder.refused(page.code("flumina fold rides.job > /dev/full"), 8, page.block("flumina: write fault"))

    shown = page.block("flumina: save: not json").splitlines(True)
    saved, command = folder.read("rides.save"), page.code("flumina run rides.job --resume rides.save")
    folder.write("rides.save", saved[: len(saved) // 2])
    folder.refused(command, 11, shown[0], terminal=False)
    folder.quiet("flumina run counts.job --save rides.save > counts.csv")
    folder.refused(command, 11, shown[1], terminal=False)
    folder.refused("flumina run rides.job --resume north.csv", 11, shown[2], terminal=False)

    command, shown = page.code("flumina run rides.job --save no/such/folder/rides.save"), page.block("flumina: save fault")
    report = folder.read("report.csv")
    out, err = folder.call(command, status=12)
    same(out + err, report + shown.splitlines(True)[0], f"the report and the line, of: {command}")
    out, err = folder.call(command, status=12, terminal=True)
    same(out + err, report + shown, f"the report and what a terminal shows, of: {command}")

    shown = page.block("flumina: trace line 4").splitlines(True)
    command = page.code("flumina replay counts.job one.plan cut.trace")
    folder.refused(command, 13, shown[0], terminal=False)
    folder.write("cut.trace", page.code("arive 0") + "\n")
    folder.refused(command, 13, shown[1], terminal=False)
    folder.write("cut.trace", f"arrive 0\narrive 2\n{page.code('arrive 2')}\narrive 2\n")
    folder.refused(command, 13, shown[2], terminal=False)
    page.says("`flumina simulate JOB PLAN SEED --trace`")
    shown = folder.call(command, status=13, terminal=True)[1]
    need("flumina simulate JOB PLAN SEED --trace" in shown, f"a terminal shows how to make a trace\n{shown}")


def guide(program):
    page, folder = Page("docs/GUIDE.md"), Folder(program)
    for part in log_to_report, many_names, late_and_open, live, instead, steps_and_counts, go_on, how_far, missing_lines, refusals:
        part(page, folder)
    page.end()


def examples(program):
    page, folder = Page("examples/README.md"), Folder(program)
    os.symlink(f"{TOP}/examples", f"{folder.at}/examples")
    same(folder.quiet(page.block("for name in")), "", page.says("prints nothing"))
    same(folder.quiet(page.block("cd examples/rides")), "", "and for the job with names of its own folder")
    page.end()


def main():
    if len(sys.argv) != 2:
        sys.exit(f"usage: {sys.argv[0]} PROGRAM")
    program = os.path.abspath(sys.argv[1])
    for part in readme, guide, examples:
        part(program)
    print(f"{ran} calls, all as the pages show")


main()
