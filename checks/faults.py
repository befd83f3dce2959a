#!/usr/bin/env python3
"""Fails, shortens or interrupts reads and writes, and refuses each growth of the heap in turn, while the proved program works on what examples/ holds.

    checks/faults.py            prints what was tried of each command, and how often

An engineer runs it by hand; it is no part of the gate. The program runs under a small library that is preloaded, whose source stands below: it
refuses the N-th call that takes memory from the C library, from which all memory of the program comes, or fails the N-th read or write, or lets every
read and write move one byte, or interrupts the first N reads or writes as a signal does (EINTR). Expected is, of each run:

- where the N-th growth was refused, status 9 and the line `no memory`, no line where the words themselves found no memory, or the answer of an
  undisturbed run where that growth only made room ahead;
- where a read failed, status 6 and the line `read fault`;
- where a write failed, status 7, and a proper prefix of the undisturbed text;
- with short reads and writes, the undisturbed answer;
- where the first 15 reads or writes were interrupted, the undisturbed answer; where 16 were, that of a failed read or write.

It ends with 0 where all is so, with 1 where a run ended otherwise, and with 2 where it can't run.
"""
import collections
import glob
import os
import subprocess
import sys
import tempfile

ROOT = os.path.dirname(os.path.dirname(os.path.abspath(__file__)))
PROGRAM = os.environ.get("S390X") or os.path.join(ROOT, "crates", "s390x", "out", "s390x")

NO_MEMORY, NO_WORDS, READ_FAULT, WRITE_FAULT = (9, b"no memory\n"), (9, b""), (6, b"read fault\n"), 7

# How often the program makes a call that is interrupted each time.
MOST_TRIES = 16

SHIM = r"""
#define _GNU_SOURCE
#include <dlfcn.h>
#include <errno.h>
#include <stdio.h>
#include <stdlib.h>
#include <unistd.h>

static long number(const char *name) {
    const char *text = getenv(name);
    return text ? atol(text) : 0;
}

static long refused, failed_read, failed_write, interrupted_reads, interrupted_writes, is_short, growths, reads, writes;

__attribute__((constructor)) static void start(void) {
    failed_read = number("FAILED_READ");
    failed_write = number("FAILED_WRITE");
    interrupted_reads = number("INTERRUPTED_READS");
    interrupted_writes = number("INTERRUPTED_WRITES");
    is_short = number("SHORT");
    refused = number("REFUSED_GROWTH");
}

extern void *__libc_malloc(size_t);
extern void *__libc_realloc(void *, size_t);

static int refuses(void) {
    return ++growths == refused;
}

/* Tells on the standard error output how many growths there were. */
__attribute__((destructor)) static void finish(void) {
    if (getenv("COUNT_GROWTHS")) dprintf(2, "%ld\n", growths);
}

void *malloc(size_t size) {
    if (refuses()) { errno = ENOMEM; return 0; }
    return __libc_malloc(size);
}

void *realloc(void *old, size_t size) {
    if (refuses()) { errno = ENOMEM; return 0; }
    return __libc_realloc(old, size);
}

ssize_t read(int file, void *bytes, size_t count) {
    static ssize_t (*next)(int, void *, size_t);
    if (!next) next = dlsym(RTLD_NEXT, "read");
    if (file == 0 && ++reads == failed_read) { errno = EIO; return -1; }
    if (file == 0 && reads <= interrupted_reads) { errno = EINTR; return -1; }
    return next(file, bytes, is_short && count ? 1 : count);
}

ssize_t write(int file, const void *bytes, size_t count) {
    static ssize_t (*next)(int, const void *, size_t);
    if (!next) next = dlsym(RTLD_NEXT, "write");
    if (file == 1 && ++writes == failed_write) { errno = EIO; return -1; }
    if (file == 1 && writes <= interrupted_writes) { errno = EINTR; return -1; }
    return next(file, bytes, is_short && count ? 1 : count);
}
"""


def build_shim(folder):
    """The preloaded library."""
    source, library = os.path.join(folder, "shim.c"), os.path.join(folder, "shim.so")
    with open(source, "w") as file:
        file.write(SHIM)
    subprocess.run(["cc", "-shared", "-fPIC", "-O1", "-o", library, source, "-ldl"], check=True)
    return library


def run(library, words, job, **settings):
    """Status and text of the program with these settings of the library."""
    environment = dict(os.environ, LD_PRELOAD=library, **{name: str(value) for name, value in settings.items()})
    done = subprocess.run([PROGRAM] + words, input=job, stdout=subprocess.PIPE, env=environment)
    return done.returncode, done.stdout


def growths_of(library, words, job):
    """How often an undisturbed run takes memory."""
    environment = dict(os.environ, LD_PRELOAD=library, COUNT_GROWTHS="1")
    done = subprocess.run([PROGRAM] + words, input=job, stdout=subprocess.DEVNULL, stderr=subprocess.PIPE, env=environment)
    return int(done.stderr.split()[-1])


def commands():
    """The words of each run, and its input."""
    for path in sorted(glob.glob(os.path.join(ROOT, "examples", "*.job"))):
        with open(path, "rb") as file:
            job = file.read()
        for words in (["image", "4096"], ["emit"], ["show"], ["operands"], ["run", "4096", "100"]):
            yield os.path.basename(path), words, job
    for name, words in (("call.functions", ["bundle", "4096"]), ("spill.plan", ["alloc"])):
        with open(os.path.join(ROOT, "examples", name), "rb") as file:
            yield name, words, file.read()
    yield "-", ["gen", "20", "1"], b""
    yield "-", ["smp", "4096", "8192", "3", "50", "1"], b""


class Tries:
    """What was tried of one command, and what came out otherwise than expected."""

    def __init__(self, library, words, job):
        self.library, self.words, self.job = library, words, job
        self.good = run(library, words, job)
        self.counts, self.wrong = collections.Counter(), []

    def expect(self, name, answer, wanted):
        self.counts[name] += 1
        if not wanted:
            self.wrong.append(f"{' '.join(self.words)}: {name}: status {answer[0]}, {answer[1][:60]!r}")

    def growths(self):
        """Each growth refused, one after another."""
        for number in range(1, growths_of(self.library, self.words, self.job) + 1):
            answer = run(self.library, self.words, self.job, REFUSED_GROWTH=number)
            if answer == NO_WORDS and not self.counts["growths refused"]:
                self.counts["growths for the words refused"] += 1
            elif answer == self.good:
                self.counts["growths ahead refused"] += 1
            else:
                self.expect("growths refused", answer, answer == NO_MEMORY)

    def reads(self):
        for number in range(1, 6):
            answer = run(self.library, self.words, self.job, FAILED_READ=number)
            if answer == self.good:
                return
            self.expect("reads failed", answer, answer == READ_FAULT)

    def writes(self):
        for number in range(1, 6):
            answer = run(self.library, self.words, self.job, FAILED_WRITE=number, SHORT=1)
            self.expect("writes failed", answer, answer == (WRITE_FAULT, self.good[1][:number - 1]))

    def interrupted(self):
        reads_nothing = self.words[0] in ("gen", "smp")
        for count, read, written in (
            (1, self.good, self.good),
            (MOST_TRIES - 1, self.good, self.good),
            (MOST_TRIES, self.good if reads_nothing else READ_FAULT, (WRITE_FAULT, b"")),
        ):
            answer = run(self.library, self.words, self.job, INTERRUPTED_READS=count)
            self.expect("reads interrupted", answer, answer == read)
            answer = run(self.library, self.words, self.job, INTERRUPTED_WRITES=count)
            self.expect("writes interrupted", answer, answer == written)

    def short(self):
        answer = run(self.library, self.words, self.job, SHORT=1)
        self.expect("short reads and writes", answer, answer == self.good)


def main():
    if not os.access(PROGRAM, os.X_OK):
        print("the program isn't proved and built: ./s390x does it", file=sys.stderr)
        return 2
    wrong = []
    with tempfile.TemporaryDirectory() as folder:
        library = build_shim(folder)
        for name, words, job in commands():
            tries = Tries(library, words, job)
            for tried in (tries.growths, tries.reads, tries.writes, tries.interrupted, tries.short):
                tried()
            told = ", ".join(f"{count} {what}" for what, count in tries.counts.items())
            print(f"{name} {' '.join(words)}: status {tries.good[0]}; {told}")
            wrong += tries.wrong
    for line in wrong:
        print("WRONG", line)
    return 1 if wrong else 0


if __name__ == "__main__":
    sys.exit(main())
