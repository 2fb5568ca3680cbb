"""What the scripts beside it share: a job whose report grows round by round, calls of the program, and a library that is loaded before the
C library, which writes down calls that reach the system and lets some of them fail."""

import os
import pty
import re
import subprocess
import sys
import tempfile

JOB = """cell top max
tag view keyed int
tag tick none
depends view tick
depends tick tick
on view: raise top value
on tick: emit "top {top}"
source web "a.csv" rate 100: view[0..9]
source clock "t.csv" rate 1: tick
"""

WATCH = r"""
#define _GNU_SOURCE
#include <dlfcn.h>
#include <errno.h>
#include <fcntl.h>
#include <stdarg.h>
#include <stdio.h>
#include <stdlib.h>
#include <string.h>
#include <sys/stat.h>
#include <unistd.h>

static int log_to = -1;
static int (*real_open)(const char *, int, ...);
static ssize_t (*real_write)(int, const void *, size_t);
static ssize_t (*real_read)(int, void *, size_t);
static int (*real_fsync)(int);
static int (*real_rename)(const char *, const char *);

__attribute__((constructor)) static void begin(void) {
    real_open = dlsym(RTLD_NEXT, "open");
    real_write = dlsym(RTLD_NEXT, "write");
    real_read = dlsym(RTLD_NEXT, "read");
    real_fsync = dlsym(RTLD_NEXT, "fsync");
    real_rename = dlsym(RTLD_NEXT, "rename");
    const char *name = getenv("WATCH_LOG");
    if (name) log_to = real_open(name, O_WRONLY | O_CREAT | O_APPEND | O_CLOEXEC, 0666);
}

static void put(const char *call, const char *first, const char *second) {
    char line[9000];
    if (log_to < 0) return;
    int n = snprintf(line, sizeof line, "%s\t%s\t%s\n", call, first, second);
    if (n > 0) real_write(log_to, line, n);
}

/* The path of an open file, and `out` for that of standard output, which may be open more than once. */
static const char *path_of(int fd, char *room) {
    char name[64];
    struct stat it, out;
    if (fd == 1 || (!fstat(fd, &it) && !fstat(1, &out) && it.st_dev == out.st_dev && it.st_ino == out.st_ino)) return "out";
    snprintf(name, sizeof name, "/proc/self/fd/%d", fd);
    ssize_t n = readlink(name, room, 4095);
    room[n < 0 ? 0 : n] = 0;
    return room;
}

/* WATCH_FAIL is CALL:PART:ERRNO: calls whose path has the part fail, in files of which a name has it. */
static int fails(const char *call, const char *path) {
    char want[9000], *part, *code;
    const char *all = getenv("WATCH_FAIL");
    if (!all) return 0;
    snprintf(want, sizeof want, "%s", all);
    for (char *rule = strtok(want, ";"); rule; rule = strtok(NULL, ";")) {
        if (!(part = strchr(rule, ':')) || !(code = strrchr(rule, ':')) || part == code) continue;
        *part++ = 0;
        *code++ = 0;
        if (!strcmp(rule, call) && strstr(path, part)) {
            errno = atoi(code);
            return 1;
        }
    }
    return 0;
}

/* WATCH_INTERRUPT: each second read and write is interrupted. */
static int is_interrupted(void) {
    static int count;
    if (!getenv("WATCH_INTERRUPT")) return 0;
    errno = EINTR;
    return ++count & 1;
}

int open(const char *path, int flags, ...) {
    va_list rest;
    va_start(rest, flags);
    int mode = va_arg(rest, int);
    va_end(rest);
    if (flags & O_CREAT) {
        put("create", path, "");
        if (fails("create", path)) return -1;
    }
    return real_open(path, flags, mode);
}

ssize_t write(int fd, const void *bytes, size_t count) {
    char room[4096];
    if (fd == log_to) return real_write(fd, bytes, count);
    if (is_interrupted()) return -1;
    put("write", path_of(fd, room), "");
    if (fails("write", path_of(fd, room))) return -1;
    return real_write(fd, bytes, count);
}

ssize_t read(int fd, void *bytes, size_t count) {
    if (is_interrupted()) return -1;
    return real_read(fd, bytes, count);
}

int fsync(int fd) {
    char room[4096];
    const char *path = path_of(fd, room);
    put("fsync", path, "");
    if (fails("fsync", path)) return -1;
    return real_fsync(fd);
}

int rename(const char *from, const char *to) {
    put("rename", from, to);
    if (fails("rename", from)) return -1;
    return real_rename(from, to);
}
"""


def program():
    """The program's path, which is the first word of a script's call."""
    if len(sys.argv) != 2:
        sys.exit(f"usage: {sys.argv[0]} PROGRAM")
    return os.path.abspath(sys.argv[1])


def need(holds, what):
    """Ends the script at the first thing that is not as it should be."""
    if not holds:
        sys.exit(f"not as it should be: {what}")


def shown_at(near):
    """What a terminal gets until its last writer closes it, as text."""
    shown = b""
    while True:
        try:
            more = os.read(near, 65_536)
        except OSError:
            break
        if not more:
            break
        shown += more
    return shown.decode().replace("\r\n", "\n")


def going_on():
    """The commands of docs/GUIDE.md, "Stopping and going on": those that cut a report at the border of a checkpoint, and the one that resumes."""
    with open(os.path.join(os.path.dirname(os.path.abspath(__file__)), "..", "..", "docs", "GUIDE.md")) as it:
        page = re.search(r"^## Stopping and going on$(.*?)^## ", it.read(), re.M | re.S)[1]
    blocks = [block.replace("\n    ", "\n").strip() for block in re.findall(r"\n\n((?:    .*\n)+)", page)]
    cut = [block for block in blocks if "rides.save)" in block]
    on = [block for block in blocks if "--resume" in block]
    need(len(cut) == 1 and len(on) == 1, "the commands of the guide")
    return cut[0], on[0]


class Folder:
    """A folder with the job and its sources: this many views, and a tick after every few of them. A round has 4,096 of them."""

    def __init__(self, rows=300, every=10):
        self.room = tempfile.TemporaryDirectory(prefix="flumina-system-")
        self.at = os.path.realpath(self.room.name)
        self.write("job", JOB)
        self.write("a.csv", "".join(f"{t},view[{t % 10}],{t * 7919 % 10007}\n" for t in range(1, rows + 1)) + "end\n")
        self.write("t.csv", "".join(f"{t},tick\n" for t in range(every, rows, every)) + "end\n")

    def path(self, name):
        return os.path.join(self.at, name)

    def write(self, name, text):
        with open(self.path(name), "wb") as it:
            it.write(text.encode() if isinstance(text, str) else text)

    def read(self, name):
        with open(self.path(name), "rb") as it:
            return it.read()

    def names(self):
        return sorted(os.listdir(self.at))

    def call(self, *words, out=subprocess.PIPE, err=subprocess.PIPE, seconds=300, **how):
        """The status, what was written on standard output and on standard error; the status is None where the call did not end."""
        try:
            done = subprocess.run([program(), *words], cwd=self.at, stdin=subprocess.DEVNULL, stdout=out, stderr=err, timeout=seconds, **how)
        except subprocess.TimeoutExpired:
            return None, b"", b""
        return done.returncode, done.stdout, done.stderr

    def at_a_terminal(self, *words, out=subprocess.DEVNULL, env=None):
        """The status of a call whose standard error is a terminal of its own, what it wrote on standard output if that is a pipe, and what the
        terminal got."""
        near, far = pty.openpty()
        with subprocess.Popen([program(), *words], cwd=self.at, stdin=subprocess.DEVNULL, stdout=out, stderr=far, env=env) as child:
            os.close(far)
            shown = shown_at(near)
            written = child.stdout.read() if child.stdout else b""
        os.close(near)
        return child.returncode, written, shown


class Watch:
    """The library, built in a folder of its own."""

    def __init__(self):
        self.room = tempfile.TemporaryDirectory(prefix="flumina-watch-")
        source, self.library = f"{self.room.name}/watch.c", f"{self.room.name}/watch.so"
        self.log = f"{self.room.name}/log"
        with open(source, "w") as it:
            it.write(WATCH)
        subprocess.run(["cc", "-O1", "-shared", "-fPIC", "-o", self.library, source, "-ldl"], check=True)

    def env(self, **more):
        """The environment of a call that is watched; `fail` is a list of CALL:PART:ERRNO."""
        if os.path.exists(self.log):
            os.remove(self.log)
        told = {**os.environ, "LD_PRELOAD": self.library, "WATCH_LOG": self.log}
        if "fail" in more:
            told["WATCH_FAIL"] = ";".join(more["fail"])
        if more.get("interrupt"):
            told["WATCH_INTERRUPT"] = "1"
        return told

    def calls(self):
        """The calls that were made, in order: their name and what they were given."""
        with open(self.log) as it:
            return [line.rstrip("\n").split("\t") for line in it]
