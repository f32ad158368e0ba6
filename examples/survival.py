#!/usr/bin/env python3
"""What stands in a file after a write that failed or was killed, and what a name may be.

    survival.py PROGRAM        runs PROGRAM over an old session, and compares what stands afterwards

PROGRAM is `dsnroute`, built. An old session stands where the new one is to be written, and:
  a disk in memory fills up at each of 20 sizes (root, or a user who may `unshare`, mounts it);
  the host refuses the first step of the write, the second and so on: a new file, each short piece, the sync, the
  rename; a small library in front of the C library does that, which `gcc` makes;
  the program is killed before 50 of these steps, which are drawn at random;
  standard output is full, or closed, or a pipe that nobody reads;
  the session's name is a link, a pipe, standard output, the design itself, or lies in no folder;
  a design that is refused comes through a pipe.
The old session or the new one must stand, whole, and where the program wasn't killed nothing beside it. The last line
is 'N passed, M failed', and the status is 0 where none failed. It takes about a minute.
"""
import os
import random
import signal
import stat
import subprocess
import sys
import tempfile

LIBRARY = r"""
#define _GNU_SOURCE
#include <dlfcn.h>
#include <errno.h>
#include <fcntl.h>
#include <signal.h>
#include <stdarg.h>
#include <stdlib.h>
#include <sys/types.h>
#include <unistd.h>

static unsigned long taken, fails, kills;
static const char *mark;
static int (*next_open)(const char *, int, ...);
static ssize_t (*next_write)(int, const void *, size_t);
static int (*next_fsync)(int);
static int (*next_rename)(const char *, const char *);
static int (*next_fchmod)(int, mode_t);

static unsigned long number(const char *name) {
    const char *text = getenv(name);
    return text ? strtoul(text, 0, 10) : 0;
}

__attribute__((constructor)) static void start(void) {
    next_open = dlsym(RTLD_NEXT, "open");
    next_write = dlsym(RTLD_NEXT, "write");
    next_fsync = dlsym(RTLD_NEXT, "fsync");
    next_rename = dlsym(RTLD_NEXT, "rename");
    next_fchmod = dlsym(RTLD_NEXT, "fchmod");
    mark = getenv("STEP_MARK");
    kills = number("STEP_KILLS");
    fails = number("STEP_FAILS");
}

static int refused(void) {
    taken += 1;
    if (taken == kills) kill(getpid(), SIGKILL);
    if (taken != fails) return 0;
    if (mark) close(next_open(mark, O_CREAT | O_WRONLY, 0600));
    errno = ENOSPC;
    return 1;
}

int open(const char *name, int flags, ...) {
    va_list more;
    va_start(more, flags);
    mode_t mode = flags & O_CREAT ? va_arg(more, mode_t) : 0;
    va_end(more);
    if (flags & O_CREAT && refused()) return -1;
    return next_open(name, flags, mode);
}

ssize_t write(int fd, const void *bytes, size_t count) {
    if (fd > 2 && refused()) return -1;
    return next_write(fd, bytes, fd > 2 && count > 4000 ? 4000 : count);
}

int fsync(int fd) { return refused() ? -1 : next_fsync(fd); }
int rename(const char *from, const char *to) { return refused() ? -1 : next_rename(from, to); }
int fchmod(int fd, mode_t mode) { return refused() ? -1 : next_fchmod(fd, mode); }
"""

PLACES = 2000
PAGE = 4096
OLD = b"(session old)\n" * 400


def design():
    """A small board of one net whose session is long, since it has many components without pins."""
    places = "".join("(place D%d 5000 9000 front 0)\n" % k for k in range(PLACES))
    return (
        '(pcb T (parser (string_quote ") (host_cad KiCad) (host_version 8)) (resolution um 10) (unit um)\n'
        "(structure (layer F.Cu (type signal)) (boundary (rect pcb 0 0 10000 10000))\n"
        "(rule (width 200) (clearance 200)))\n"
        "(placement (component P (place C1 2000 5000 front 0) (place C2 8000 5000 front 0))\n(component Q\n%s))\n"
        "(library (image P (pin PAD 1 0 0)) (image Q) (padstack PAD (shape (circle F.Cu 1000))))\n"
        "(network (net A (pins C1-1 C2-1))) (wiring))\n" % places
    )


class Trial:
    """A program and its design, and how many comparisons held."""

    def __init__(self, program, folder, library):
        self.program = program
        self.library = library
        self.folder = folder
        self.design = os.path.join(folder, "in.dsn")
        self.passed = 0
        self.failed = 0
        with open(self.design, "w", encoding="ascii") as out:
            out.write(design())
        self.new = None

    def says(self, what, holds):
        if holds:
            self.passed += 1
        else:
            self.failed += 1
            print("  failed: %s" % what)

    def run(self, name, output=subprocess.PIPE, folder=None, design=None, **steps):
        """The status, what is put and what is noted by a run that writes the file of this name."""
        given = dict(os.environ)
        if steps:
            given["LD_PRELOAD"] = self.library
            given.update({"STEP_" + key.upper(): str(steps[key]) for key in steps})
        words = ["route", design or self.design, name, "--grid", "1000", "--workers", "1", "--passes", "1"]
        done = subprocess.run([self.program] + words, cwd=folder or self.folder, env=given, stdout=output,
                              stderr=subprocess.PIPE, timeout=120, check=False)
        return done.returncode, done.stdout, done.stderr


def held(name):
    with open(name, "rb") as read:
        return read.read()


def put(name, content):
    with open(name, "wb") as out:
        out.write(content)


def mounted(folder, size, work):
    """What work answers while a disk in memory of this size stands at the folder."""
    subprocess.run(["mount", "-t", "tmpfs", "-o", "size=%d" % size, "none", folder], check=True)
    try:
        return work()
    finally:
        subprocess.run(["umount", folder], check=True)


def on_full_disk(trial, disk, room):
    """Whether the old session stands alone after a write with so many pages of room, or the new one where it fits."""
    name = os.path.join(disk, "out.ses")
    put(name, OLD)
    status, _, _ = trial.run(name)
    fits = room * PAGE >= len(trial.new)
    want = (0, trial.new) if fits else (5, OLD)
    return (status, held(name)) == want and os.listdir(disk) == ["out.ses"]


def full_disks(trial):
    disk = os.path.join(trial.folder, "disk")
    os.mkdir(disk)
    old = -(-len(OLD) // PAGE)
    need = -(-len(trial.new) // PAGE)
    for k in range(21):
        room = need * k // 20
        holds = mounted(disk, (old + room) * PAGE, lambda: on_full_disk(trial, disk, room))
        trial.says("a disk with room for %d of %d pages" % (room, need), holds)
    print("a full disk: 20 sizes below %d pages, and one with room" % need)


def refused_steps(trial):
    """Refuses each step of a write in turn, and answers how many there are."""
    folder = os.path.join(trial.folder, "refused")
    os.mkdir(folder)
    name = os.path.join(folder, "out.ses")
    mark = os.path.join(trial.folder, "mark")
    step = 0
    while True:
        step += 1
        put(name, OLD)
        status, _, _ = trial.run(name, fails=step, mark=mark)
        if not os.path.exists(mark):
            break
        os.remove(mark)
        whole = (status, held(name)) in [(5, OLD), (0, trial.new)]
        trial.says("step %d refused: status %d" % (step, status), whole and os.listdir(folder) == ["out.ses"])
    print("steps of a write refused one by one: %d" % (step - 1))
    return step - 1


def kills(trial, steps):
    folder = os.path.join(trial.folder, "killed")
    os.mkdir(folder)
    name = os.path.join(folder, "out.ses")
    drawn = random.Random(50)
    stood = {OLD: 0, trial.new: 0}
    for _ in range(50):
        step = drawn.randint(1, steps)
        put(name, OLD)
        status, _, _ = trial.run(name, kills=step)
        content = held(name)
        trial.says("killed before step %d" % step, status == -signal.SIGKILL and content in stood)
        if content in stood:
            stood[content] += 1
    print("50 kills: the old session stood %d times, the new one %d" % (stood[OLD], stood[trial.new]))
    put(name, OLD)
    status, _, _ = trial.run(name)
    trial.says("a run after kills", (status, held(name)) == (0, trial.new))


def sinks(trial):
    name = os.path.join(trial.folder, "sink.ses")
    put(name, OLD)
    with open("/dev/full", "wb") as full:
        status, _, _ = trial.run(name, full)
    trial.says("standard output is full", (status, held(name)) == (5, trial.new))
    put(name, OLD)
    read, write = os.pipe()
    os.close(read)
    status, _, noted = trial.run(name, write)
    os.close(write)
    trial.says("nobody reads standard output", (status, held(name), noted) == (5, trial.new, b""))
    put(name, OLD)
    line = ["sh", "-c", 'exec "$@" >&-', "sh", trial.program, "route", trial.design, name, "--grid", "1000"]
    done = subprocess.run(line, stderr=subprocess.PIPE, check=False)
    trial.says("standard output is closed", (done.returncode, held(name)) == (5, trial.new))
    print("three sinks that fail")


def links(trial):
    folder = os.path.join(trial.folder, "links")
    os.mkdir(folder)
    target = os.path.join(folder, "target.ses")
    link = os.path.join(folder, "link.ses")
    os.symlink("target.ses", link)
    status, _, _ = trial.run(link)
    trial.says("a link to no file yet", (status, held(target), os.path.islink(link)) == (0, trial.new, True))
    put(target, OLD)
    os.chmod(target, 0o640)
    status, _, _ = trial.run(link)
    mode = stat.S_IMODE(os.stat(target).st_mode)
    trial.says("a link is followed", (status, held(target), os.path.islink(link)) == (0, trial.new, True))
    trial.says("its permissions are kept", mode == 0o640)
    trial.says("nothing beside", sorted(os.listdir(folder)) == ["link.ses", "target.ses"])
    os.symlink("round.ses", os.path.join(folder, "round.ses"))
    status, _, _ = trial.run(os.path.join(folder, "round.ses"))
    trial.says("a link to itself", status == 5)
    line = ["sh", "-c", 'umask 027; exec "$@" >/dev/null', "sh", trial.program, "route", trial.design, "new.ses"]
    subprocess.run(line + ["--grid", "1000"], cwd=folder, check=True)
    mode = stat.S_IMODE(os.stat(os.path.join(folder, "new.ses")).st_mode)
    trial.says("a new file's permissions", mode == 0o640)


def pipes(trial):
    status, out, _ = trial.run("/dev/stdout")
    trial.says("standard output by its name", status == 0 and out.startswith(trial.new) and b"complete 1" in out)
    pipe = os.path.join(trial.folder, "pipe")
    os.mkfifo(pipe)
    with subprocess.Popen(["cat", pipe], stdout=subprocess.PIPE) as reader:
        status, _, _ = trial.run(pipe)
        out = reader.stdout.read()
    trial.says("a named pipe", (status, out) == (0, trial.new) and stat.S_ISFIFO(os.stat(pipe).st_mode))
    status, _, _ = trial.run("/dev/full")
    trial.says("a full device", status == 5)


def same_names(trial):
    text = held(trial.design)
    for name in ["in.dsn", "./in.dsn", "hard.dsn", "soft.dsn"]:
        path = os.path.join(trial.folder, name)
        if name == "hard.dsn":
            os.link(trial.design, path)
        if name == "soft.dsn":
            os.symlink("in.dsn", path)
        status, out, noted = trial.run(name, design="in.dsn")
        trial.says("IN is OUT as %s" % name, (status, out) == (2, b"usage 3\n") and b"one file" in noted)
        trial.says("the design stays", held(trial.design) == text)
    for name in ["nowhere/out.ses", "in.dsn/out.ses", "."]:
        status, out, noted = trial.run(name, design="nothing.dsn")
        trial.says("no place at %s" % name, (status, out) == (5, b"") and b"the file can't be written: " in noted)
    print("names: links, pipes, devices, the design's own, no folder")


def refused_pipes(trial):
    """A place in a design that came through a pipe is told by line and column: the pipe isn't read again."""
    text = b"(pcb T\n  (resolution um 10)\n  (structure (layer A)))\n"
    want = (3, b"refused 24 at 30\n", b"3:3: refused")
    read, write = os.pipe()
    os.write(write, text)
    os.close(write)
    pipe = os.path.join(trial.folder, "design.pipe")
    os.mkfifo(pipe)
    with subprocess.Popen(["sh", "-c", 'printf "%s" "$0" > "$1"', text.decode("ascii"), pipe]) as writer:
        for name in ["/dev/fd/%d" % read, pipe]:
            line = [trial.program, "route", name, "out.ses"]
            try:
                done = subprocess.run(line, cwd=trial.folder, pass_fds=[read], capture_output=True, timeout=30,
                                      check=False)
                found = (done.returncode, done.stdout, done.stderr[len(name) + 1:][:len(want[2])])
            except subprocess.TimeoutExpired:
                found = "no end"
            trial.says("a place in the pipe %s: %s" % (name, found), found == want)
        writer.wait()
    os.close(read)
    print("two pipes with a design that is refused")


def made_library(folder):
    source = os.path.join(folder, "steps.c")
    library = os.path.join(folder, "steps.so")
    with open(source, "w", encoding="ascii") as out:
        out.write(LIBRARY)
    subprocess.run(["gcc", "-shared", "-fPIC", "-O1", "-o", library, source, "-ldl"], check=True)
    return library


def main(words):
    if len(words) != 1:
        sys.exit(__doc__)
    if os.geteuid() != 0:
        os.execvp("unshare", ["unshare", "--user", "--map-root-user", "--mount", sys.executable, __file__] + words)
    with tempfile.TemporaryDirectory() as folder:
        trial = Trial(os.path.abspath(words[0]), folder, made_library(folder))
        name = os.path.join(folder, "first.ses")
        trial.says("a first run", trial.run(name)[0] == 0)
        trial.new = held(name)
        full_disks(trial)
        kills(trial, refused_steps(trial))
        sinks(trial)
        links(trial)
        pipes(trial)
        same_names(trial)
        refused_pipes(trial)
        print("%d passed, %d failed" % (trial.passed, trial.failed))
        return 1 if trial.failed else 0


sys.exit(main(sys.argv[1:]))
