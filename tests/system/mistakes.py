#!/usr/bin/env python3
"""Mistakes that a new user makes: the line of each answer is the same with and without a hint, and the hint says what to do.

    tests/system/mistakes.py PROGRAM

Each call is made four times: without a terminal, where only the line is printed; with `--hints` and with FLUMINA_HINTS=1 in the environment, where the
hint follows the line; and at a terminal of its own, which shows the same, and with `--no-hints` the line alone."""

import os
import subprocess

from system import Folder, need, program

RIDES = """cell rides keyed sum
cell longest max
tag ride keyed int
tag day none
depends ride day
depends day day
on ride: add rides[key] 1; raise longest value
on day: flush rides "station {key}: {cell} rides"; emit "longest ride {longest} minutes"; clear longest
source north "north.csv": ride[1..2]
source clock "days.csv": day
"""
NORTH = "485,ride[1],12\n530,ride[2],34\n545,ride[1],7\nend\n"
FORMS = "  a row is TIME,TAG,VALUE or TIME,TAG or TIME,beat or end\n"

program()
folder = Folder()


def mistake(words, status, line, *hints, out=b""):
    """Makes a call in each way; each of the hints has to occur in what follows the line. Returns the whole hint."""
    plain = folder.call(*words)
    need(plain == (status, out, line.encode()), f"{words}: {plain}")
    asked = folder.call("--hints", *words)
    shown = asked[2].decode()
    need(asked[:2] == (status, out) and shown.startswith(line), f"--hints {words}: {asked}")
    for hint in hints:
        need(hint in shown[len(line):], f"{words}: {hint!r} is not in {shown!r}")
    by_environment = folder.call(*words, env={**os.environ, "FLUMINA_HINTS": "1"})
    need(by_environment == asked, f"FLUMINA_HINTS=1 {words}: {by_environment}")
    need(folder.at_a_terminal(*words, out=subprocess.PIPE) == (status, out, shown), f"{words} at a terminal")
    need(folder.at_a_terminal("--no-hints", *words, out=subprocess.PIPE) == (status, out, line), f"--no-hints {words}")
    return shown[len(line):]


def remark(words, *hints):
    """The same of a call that is not refused, whose hint consists of these lines and no others."""
    shown = mistake(words, 0, "", out=folder.call(*words)[1])
    need(shown == "".join(hints), f"{words}: {shown!r} is not {''.join(hints)!r}")


def job(text, **files):
    """Writes the job and its sources anew."""
    for name, bytes_ in {"rides.job": text, "north.csv": NORTH, "days.csv": "1440,day\nend\n", **files}.items():
        folder.write(name.replace("_", "."), bytes_)


# The words.
USAGE = "  flumina fold JOB\n"
job(RIDES)
mistake([], 2, "flumina: bad words at 0\n", "  after the last word: the first word is the name of a command\n", USAGE)
mistake(["flod", "rides.job"], 2, "flumina: bad words at 0\n", "  word 0, flod: the first word is the name of a command\n", USAGE)
mistake(["fold"], 2, "flumina: bad words at 1\n", "  after the last word: the name of a file is expected here")
mistake(["fold", "-x"], 2, "flumina: bad words at 1\n", "  word 1, -x: the name of a file is expected here; one that begins with - is written ./-name\n")
mistake(["fold", "rides.job", "more"], 2, "flumina: bad words at 2\n", "  word 2, more: this word is one too many\n")
mistake(["plan", "rides.job", "--depth", "7"], 2, "flumina: bad words at 3\n", "  word 3, 7: a depth is a number from 0 to 6\n")
mistake(["run", "rides.job", "--round", "0"], 2, "flumina: bad words at 3\n", "  word 3, 0: the number of rows in a round is from 1 to 4096\n")
mistake(["run", "rides.job", "--fast"], 2, "flumina: bad words at 2\n", "  word 2, --fast: there is no such option\n")
mistake(["run", "rides.job", "--save"], 2, "flumina: bad words at 3\n", "  after the last word: the name of a file is expected here, which is neither JOB nor PLAN\n")
mistake(["run", "rides.job", "--unflushed"], 2, "flumina: bad words at 2\n", "only right after --save FILE\n")
mistake(["simulate", "rides.job", "p", "2147483648"], 2, "flumina: bad words at 3\n", "a seed is a number from 0 to 2147483647\n")
mistake(["demo", "many", "1"], 2, "flumina: bad words at 1\n", "N is a number from 0 to 1000000\n")
mistake(
    ["partial", "rides.job"], 2, "flumina: bad words at 2\n",
    "  after the last word: the name of a file is expected here", "  flumina partial JOB PLAN NODE\n",
)
mistake(["partial", "rides.job", "plan"], 2, "flumina: bad words at 3\n", "  after the last word: the name of a node of the plan is expected here\n")
mistake(["partial", "rides.job", "plan", "left", "right"], 2, "flumina: bad words at 4\n", "  word 4, right: this word is one too many\n")
mistake(
    ["combine", "rides.job", "plan"], 2, "flumina: bad words at 3\n",
    "  after the last word: the name of a file is expected here", "  flumina combine JOB PLAN FILE ..\n",
)
mistake(["combine", "rides.job", "plan", "--all"], 2, "flumina: bad words at 3\n", "  word 3, --all: the name of a file is expected here")
TAKEN = "this name is there already: JOB, PLAN and each FILE have names of their own\n"
mistake(["combine", "rides.job", "plan", "left", "plan"], 2, "flumina: bad words at 4\n", "  word 4, plan: " + TAKEN)
mistake(["combine", "rides.job", "plan", "left", "left"], 2, "flumina: bad words at 4\n", "  word 4, left: " + TAKEN)
FILES = [f"part{i}" for i in range(65)]
mistake(["combine", "rides.job", "plan", *FILES], 2, "flumina: bad words at 67\n", "  word 67, part64: at most 64 FILEs can be combined\n")
for words in (["--help"], ["-h"], ["help"], ["fold", "--help"], ["run", "-h"], ["combine", "--help"], ["--hints", "help"]):
    status, out, err = folder.call(*words)
    need(status == 0 and out.startswith(b"Flumina ") and err == b"", f"{words}: {status}, {out[:40]}, {err}")

# The text of the job, and of the plan.
job(RIDES.replace("cell longest max", "cell rides max"))
mistake(["fold", "rides.job"], 3, "flumina: job: twice named at 26\n", "  rides.job, line 2, column 6\n", "  rides is named first on line 1; cells, tags, lists and sources share one set of names\n")
job(RIDES.replace("cell longest max", "cell node max"))
mistake(["fold", "rides.job"], 3, "flumina: job: unexpected at 26\n", "  that is a reserved word, which cannot be a name\n")
job(b"\xef\xbb\xbf" + RIDES.encode())
mistake(["fold", "rides.job"], 3, "flumina: job: bad token at 0\n", "  the text begins with a byte order mark: save it as UTF-8 without one\n")
job(b"\xff\xfe" + RIDES.encode("utf-16-le"))
mistake(["fold", "rides.job"], 3, "flumina: job: bad utf8 at 0\n", "  the text is UTF-16: save it as UTF-8\n")
job("node n0: ride, day\n")
mistake(["fold", "rides.job"], 3, "flumina: job: unexpected at 0\n", "  this is the text of a plan; the name of the job's comes first\n")
job(RIDES, plan=RIDES)
mistake(["run", "rides.job", "plan"], 5, "flumina: plan: unexpected at 0\n", "  this is the text of a job; the name of the plan's comes second\n")
job(RIDES.replace("ride[1..2]", "ride[1..257]"))
mistake(["fold", "rides.job"], 3, "flumina: job: over limit itags 257\n", "  each tag of each source counts, with each of its keys: at most 256;")

# The rows.
for row, reason in {
    "time,tag,minutes": "the time is not a whole number; a header is no row",
    "485.5,ride[1],12": "the time has a fraction: write it as a whole number of a smaller unit",
    "2026-03-02T08:05:00,ride[1],12": "the time is a date: write it as a number, such as seconds since 1970",
    "485;ride[1];12": "the fields of a row are separated by commas",
    "485, ride[1],12": "there is a blank beside the tag",
    "-485,ride[1],12": "the time is below 0",
    "9223372036854775808,ride[1],12": "the time is above 9223372036854775807",
    "485,ride[1],12.5": "the last field has a fraction: write it as a whole number of a smaller unit",
    "485,ride[1],twelve": "the last field is not a whole number",
    "485,ride[1],12,1": "the row has too many fields",
    "485,ride[1]": "the fields after the tag are not those of its kind",
}.items():
    job(RIDES, north_csv=row + "\nend\n")
    mistake(["fold", "rides.job"], 6, "flumina: source north row 1: bad row\n", f"  north.csv, line 1\n  {row}\n", reason, FORMS)
job(RIDES, north_csv=NORTH.replace("end\n", ""))
mistake(["fold", "rides.job"], 6, "flumina: source north row 4: unclosed\n", "  the last line of a source is: end\n")
job(RIDES, north_csv=NORTH + "600,ride[1],1\n")
mistake(["fold", "rides.job"], 6, "flumina: source north row 5: after end\n", "  only blank lines may follow the line: end\n")
job(RIDES, north_csv=NORTH.replace("ride[2]", "ride[3]"))
mistake(["fold", "rides.job"], 6, "flumina: source north row 2: unknown tag\n", "  the source north lists ride[1..2]\n")
job(RIDES, north_csv=NORTH.replace("545", "530"))
mistake(["fold", "rides.job"], 6, "flumina: source north row 3: disordered, last 530, got 530\n", "an earlier row of this source has the same time")
job(RIDES, north_csv=NORTH.replace("545", "500"))
mistake(["fold", "rides.job"], 6, "flumina: source north row 3: disordered, last 530, got 500\n", "  the row is late by 30: slack 31 on the source takes it, unless an earlier row has its time\n")
job(RIDES.replace('"north.csv":', '"north.csv" slack 31:'), north_csv=NORTH.replace("545", "500"))
need(folder.call("fold", "rides.job")[0] == 0, "the slack that the hint names takes the row")
# In version 3 rows of a source may have one time, as many as the job says, and a slack takes rows that are late by it.
TIED = "version 3 ties 2\n" + RIDES
job(TIED, north_csv=NORTH.replace("545", "530"))
need(folder.call("fold", "rides.job")[0] == 0, "two rows at one time")
job(TIED.replace(" ties 2", ""), north_csv=NORTH.replace("545", "530"))
mistake(["fold", "rides.job"], 6, "flumina: source north row 3: too many, 2\n", "  at most 1 row of a source may share a time; the first line of the job sets the limit, for example: version 3 ties 1000\n")
job(TIED, north_csv="9223372036854775807,ride[1],12\nend\n")
mistake(["fold", "rides.job"], 6, "flumina: source north row 1: bad row\n", "  the time is too great")
job(TIED, north_csv=NORTH.replace("545", "500"))
mistake(["fold", "rides.job"], 6, "flumina: source north row 3: disordered, last 530, got 500\n", "  the row is late by 30: slack 30 on the source takes it, unless 2 earlier rows have its time\n")
job(TIED.replace('"north.csv":', '"north.csv" slack 30:'), north_csv=NORTH.replace("545", "500"))
need(folder.call("fold", "rides.job")[0] == 0, "the slack that the hint names takes the row in version 3")
# The dependencies: one that is missing, all that are missing, and one at equal keys.
job(RIDES.replace("depends ride day\n", ""))
DEPENDS = "  to make these two dependent: depends ride day\n"
shown = mistake(["check", "rides.job"], 4, "flumina: conflict: ride[1] and day on rides[1]\n", "  rides.job, line 3\n  tag ride keyed int\n", DEPENDS)
need(shown.endswith(DEPENDS), f"one conflict: {shown!r}")
job(RIDES.replace("depends ride day\n", "").replace("depends day day\n", ""))
for words in (["check", "rides.job"], ["plan", "rides.job"], ["run", "rides.job"]):
    shown = mistake(words, 4, "flumina: conflict: ride[1] and day on rides[1]\n", DEPENDS, "  the job lacks 2 lines, one for each two kinds that conflict:\n")
    need("  depends ride day  # ride[1] and day on rides[1]\n" in shown and "  depends day day  # day and day on rides[" in shown, f"all conflicts: {shown!r}")
lacking = "".join(it + "\n" for it in shown.splitlines() if it.startswith("  depends "))
folder.write("mended.job", folder.read("rides.job").decode() + lacking)
need(folder.call("check", "mended.job")[0] == 0, f"the lines that the hint shows are enough: {lacking!r}")
SETS = """cell state keyed last
tag gate keyed int
tag day none
depends gate day
depends day day
on gate: set state[key] value
on day: flush state "{key} {cell}"
source gates "gates.csv": gate[1..2]
source clock "days.csv": day
"""
job(SETS, gates_csv="end\n")
mistake(["check", "rides.job"], 4, "flumina: conflict: gate[1] and gate[1] on state[1]\n", "  to make these two dependent: depends gate gate same\n")
job(SETS.replace("set state[key]", "set state[1]"), gates_csv="end\n")
mistake(["check", "rides.job"], 4, "flumina: conflict: gate[1] and gate[1] on state[1]\n", "  to make these two dependent: depends gate gate\n")

# A job that came through a pipe can't be read again, and a hint has no need to.
def piped(command, text):
    """What standard error gets where the job comes through a pipe."""
    near, far = os.pipe()
    os.write(far, text.encode())
    os.close(far)
    said = folder.call("--hints", command, f"/dev/fd/{near}", pass_fds=(near,))[2].decode()
    os.close(near)
    return said


job(RIDES, north_csv="485.5,ride[1],12\nend\n")
for command, text, *hints in [
    ("fold", RIDES.replace("cell longest max", "cell rides max"), "line 2, column 6\n  cell rides max\n       ^\n", "  rides is named first on line 1;"),
    ("check", RIDES.replace("depends ride day\n", "").replace("depends day day\n", ""), DEPENDS, "  the job lacks 2 lines, one for each two kinds that conflict:\n"),
    ("fold", RIDES, "  north.csv, line 1\n  485.5,ride[1],12\n", "  the time has a fraction:"),
]:
    shown = piped(command, text)
    need(all(hint in shown for hint in hints), f"{command} of a job from a pipe: {shown!r}")

# Partials: those of two nodes give the report; then the node, the files, and what these are.
APART = RIDES.replace("source clock", 'source south "south.csv": ride[3]\nsource clock')
PLAN = "node root: day -> left right\nnode left: ride@north\nnode right: ride@south\n"
SOUTH = "500,ride[3],5\n600,ride[3],9\nend\n"


def partial(node, text=APART, plan=PLAN, **files):
    """The bytes of a node's partial of this job, this plan and these sources, after which those of APART and PLAN are there again."""
    job(text, plan=plan, south_csv=SOUTH, **files)
    status, out, err = folder.call("partial", "rides.job", "plan", node)
    need((status, err) == (0, b"") and out, f"partial {node}: {status}, {err}")
    job(APART, plan=PLAN, south_csv=SOUTH)
    return out


left, right = partial("left"), partial("right")
folder.write("left.part", left)
folder.write("right.part", right)
report = folder.call("fold", "rides.job")
need(report[0] == 0 and report[1].count(b"\n") == 4, f"the fold: {report}")
for files in (["left.part", "right.part"], ["right.part", "left.part"], ["left.part"]):
    need(folder.call("combine", "rides.job", "plan", *files) == report, f"combine {files}")
remark(["combine", "rides.job", "plan", "left.part", "right.part"])
remark(["partial", "rides.job", "plan", "left"])

mistake(["partial", "rides.job", "plan", "middle"], 5, "flumina: plan: no node middle\n", "  the nodes of the plan: root, left, right\n")
DESK = 'tag note int\ncell notes sum\non note: add notes value\nsource desk "desk.csv": note\n'
job(APART + DESK, plan="node root: ride -> clock desk\nnode clock: day\nnode desk: note\n")
SHARED = "  a tag of the node or of one below it reads or owns that cell, and a tag of another node uses it too\n"
ABOVE = "  try a node above it, of which the root may always be apart: root\n"
ADDING = "  or let the tags of the node and those below it only add to the cell or raise it\n"
shown = mistake(["partial", "rides.job", "plan", "clock"], 5, "flumina: plan: clock can't be apart: day on rides[1]\n")
need(shown == SHARED + ABOVE + ADDING, f"a node that may not be apart: {shown!r}")
job(APART, plan=PLAN, south_csv=SOUTH)
mistake(["partial", "rides.job", "rides.plan", "left"], 7, "flumina: read fault\n", "  rides.plan: No such file or directory (os error 2)\n")
mistake(["partial", "plan", "rides.job", "left"], 3, "flumina: job: unexpected at 0\n", "  this is the text of a plan; the name of the job's comes first\n")
job(APART, plan=PLAN, south_csv=SOUTH, north_csv=NORTH.replace("485", "485.5"))
mistake(["partial", "rides.job", "plan", "left"], 6, "flumina: source north row 1: bad row\n", "  485.5,ride[1],12\n", "the time has a fraction", FORMS)
job(APART, plan=PLAN, south_csv=SOUTH)


def faulty(bytes_, what, *hints, is_written_again=True, before=()):
    """A partial whose answer is this, in a file of its own."""
    folder.write("own.part", bytes_)
    again = ["  write it again: flumina partial rides.job plan NODE > own.part\n"] if is_written_again else []
    shown = mistake(["combine", "rides.job", "plan", *before, "own.part"], 14, f"flumina: partial own.part: {what}\n")
    need(shown == "".join([*hints, *again]), f"{what}: {shown!r}")


OTHER_FILE = "  the first line is not that of a partial: this is another file, or it was changed\n"
CHANGED = "  no node sends such a line: the file was changed\n"
CUT = "  the file was cut off, or flumina partial has not ended yet\n"
lines = left.splitlines(True)
faulty(RIDES, "not json at line 1", OTHER_FILE)
faulty("{}\n", "wrong form at line 1", OTHER_FILE)
faulty(lines[0] + b"?\n", "not json at line 2", CHANGED)
faulty(lines[0] + lines[0], "wrong form at line 2", CHANGED)
faulty(lines[0] + lines[1] + lines[1], "out of order at line 3", "  that line can't follow the one before it: the file was changed\n")
for cut in (b"", lines[0][:-1], lines[0], left[:-1]):
    faulty(cut, "incomplete", CUT)
faulty(partial("left", text=APART.replace("minutes", "min")), "other job", "  it was written with another job\n")
faulty(partial("left", plan=PLAN.replace("root", "top")), "other plan", "  it was written with another plan\n")
EARLIER = "  the FILEs before it: right.part, left.part\n"
ONE = "  a node has one partial: leave out this FILE or the other\n"
BELOW = "  the partial of a node has what the nodes below it send: leave out this FILE or the other\n"
faulty(left, "node left twice", ONE, EARLIER, is_written_again=False, before=["right.part", "left.part"])
faulty(partial("root"), "node right within root", BELOW, EARLIER, is_written_again=False, before=["right.part", "left.part"])
LEFT_OVER = "  it was written when the sources that combine reads had other rows\n"
faulty(partial("left", days_csv="500,day\nend\n"), "left over", LEFT_OVER)
ROWS = "  that file has rows, which combine reads by itself: a FILE is what flumina partial wrote\n"
shown = mistake(["combine", "rides.job", "plan", "left.part", "south.csv"], 14, "flumina: partial south.csv: same as source south\n")
need(shown == ROWS, f"a source's file: {shown!r}")
mistake(["combine", "rides.job", "plan", "left.part", "no.part"], 7, "flumina: read fault\n", "  no.part: No such file or directory (os error 2)\n")
os.remove(folder.path("south.csv"))
need(folder.call("combine", "rides.job", "plan", "left.part", "right.part") == report, "a source that no one else needs is not read")

# What a job declares and does not use, and what is not there.
job(RIDES)
remark(["check", "rides.job"])
job(RIDES.replace("tag day none", "cell extra sum\ntag other int\ntag day none").replace("raise longest value", "raise longest value; add extra 1"))
UNUSED = ["  no source lists other: no event is of that kind\n", "  the cell extra is never read: no expression, text or flush names it\n"]
remark(["check", "rides.job"], *UNUSED)
os.remove(folder.path("north.csv"))
ABSENT = "  north.csv, the file of source north: No such file or directory (os error 2)\n"
remark(["check", "rides.job"], *UNUSED, ABSENT)
folder.write("rides.job", RIDES.replace("depends ride day\n", ""))
mistake(["check", "rides.job"], 4, "flumina: conflict: ride[1] and day on rides[1]\n", DEPENDS, ABSENT)
folder.write("empty.job", "")
for words in (["check", "empty.job"], ["fold", "empty.job"], ["run", "empty.job"]):
    remark(words, "  the job has no source: it reads nothing and writes nothing\n")

# What was read and is not in the report.
job(RIDES)
remark(["fold", "rides.job"])
FLUSHED = RIDES.replace('; emit "longest ride {longest} minutes"', "")
job(FLUSHED, days_csv="1,day\nend\n", north_csv="485000,ride[1],12\n530000,ride[2],34\nend\n")
for words in (["fold", "rides.job"], ["run", "rides.job"]):
    remark(
        words,
        "  no line was written; only these kinds can write one: day\n",
        "  source north: 2 events, at 485000 to 530000\n",
        "  source clock: 1 event, at 1\n",
        "  kind day came once, at 1\n",
        "  not empty at the end: rides at 2 keys, longest\n",
        "  the times of clock end at 1, those of north begin at 485000: are they in the same unit?\n",
    )
job(FLUSHED, days_csv="end\n", north_csv="end\n")
remark(
    ["fold", "rides.job"],
    "  no line was written; only these kinds can write one: day\n",
    "  source north: no event\n",
    "  source clock: no event\n",
    "  no event of kind day came\n",
)
job(RIDES, north_csv=NORTH.replace("end\n", "1500,ride[2],3\n1600,ride[2],4\nend\n"))
LOST = ["  2 events came after the last line, at 1440; the last of them is at 1600\n", "  not empty at the end: rides at 1 key, longest\n"]
for words in (["fold", "rides.job"], ["run", "rides.job"]):
    remark(words, *LOST)
job(RIDES.replace('flush rides "station {key}: {cell} rides"; ', "").replace("; clear longest", ""))
shown = folder.call("--hints", "fold", "rides.job")[2].decode()
need(shown == "  no event came after the last line, at 1440\n  not empty at the end: rides at 2 keys, longest\n", f"asked: {shown!r}")
need(folder.at_a_terminal("fold", "rides.job")[2] == "", "nothing that was lost")
job(RIDES.replace('flush rides "station {key}: {cell} rides"; emit "longest ride {longest} minutes"; ', ""))
remark(["fold", "rides.job"], "  the job has no emit and no flush: it writes nothing\n")

# The plan that `--adapt` writes can be kept as it is, whatever the report lacks.
job(RIDES, north_csv=NORTH.replace("end\n", "1500,ride[2],3\nend\n"))
for words in (["run", "rides.job", "--adapt"], ["--hints", "run", "rides.job", "--adapt"]):
    status, _, plan = folder.call(*words)
    need(status == 0 and plan.startswith(b"node ") and b"event" not in plan, f"{words}: {plan}")
print("mistakes: as it should be")
