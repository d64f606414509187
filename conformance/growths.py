#!/usr/bin/env python3
"""Each growth refused in turn. A command is run once for each request for memory that it makes: in run number N the N-th one is refused, and only that.
The outcome has to be the usual one, or want of memory (status 5 with nothing said, or an answer of 500), with the store's tables as they were before the
call that met it. The tables are read by Python's sqlite3 and compared here. The script prints how many numbers it tried of each command, and what came.

- `free`, an import of three prefixes over a file, `load 1000 --workers 4`, and the first POST, by `session` in memory and over a file;
- by the built program (./ipamd builds it; IPAMD=PROGRAM takes another one), under a library of twenty lines of C that stands in front of malloc and realloc;
- with `--try` by the program that `rt try --fail-alloc` builds, which also stops at a bad access or a number that does not fit: it is built once, with a
  number that no run comes to, and that number is written over in its two comparisons. Then `load` is run with 20 claims: with 1,000 a run takes twenty seconds.

As many runs are under way at once as there are processors (taskset gives it fewer).

    conformance/run growths [--try] [free|import|post|store|load ..]
"""
import collections
import concurrent.futures
import os
import queue
import shutil
import sqlite3
import subprocess
import sys
import tempfile
import threading
import time

TOP = os.path.abspath(os.path.join(os.path.dirname(os.path.abspath(__file__)), ".."))
# a number of four bytes that no run comes to, and how a comparison with it begins
NEVER, COMPARES = 1_234_567_891, b"\x48\x3d"
PATIENCE = 300
BLOCK = b"10.0.0.0/24\n10.0.4.0/22\n"
ROWS = b"prefix,vrf,status\n10.0.0.0/24,,active\n10.0.1.0/24,,active\n10.0.2.0/24,,container\n"
POST = b'POST /api/ipam/prefixes/ HTTP/1.1\r\nHost: x\r\nContent-Length: 24\r\n\r\n{"prefix":"10.0.0.0/24"}'
GET = b"GET /api/ipam/prefixes/1/ HTTP/1.1\r\nHost: x\r\n\r\n"
WANT = (b'HTTP/1.1 500 Internal Server Error\r\nContent-Type: application/json\r\nContent-Length: 38\r\nIpam-Place: %d\r\n\r\n'
        b'{"code":"memory","detail":"no memory"}')
ABSENT = (b'HTTP/1.1 404 Not Found\r\nContent-Type: application/json\r\nContent-Length: 55\r\nIpam-Place: 0\r\n\r\n'
          b'{"code":"not_found","detail":"prefixes 1 is not there"}')
FRONT = r"""
#define _GNU_SOURCE
#include <dlfcn.h>
#include <fcntl.h>
#include <stdatomic.h>
#include <stdio.h>
#include <stdlib.h>
#include <sys/syscall.h>
#include <unistd.h>
static atomic_long calls;
static long refused;
static void *(*real_malloc)(size_t);
static void *(*real_realloc)(void *, size_t);
__attribute__((constructor)) static void begin(void) {
    real_malloc = dlsym(RTLD_NEXT, "malloc");
    real_realloc = dlsym(RTLD_NEXT, "realloc");
    refused = atol(getenv("REFUSED"));
    atomic_store(&calls, 0);
}
__attribute__((destructor)) static void end(void) {
    int file = open(getenv("COUNTED"), O_CREAT | O_TRUNC | O_WRONLY, 0600);
    dprintf(file, "%ld", atomic_load(&calls));
    close(file);
}
void _exit(int status) {
    end();
    for (;;) syscall(SYS_exit_group, status);
}
void *malloc(size_t size) {
    if (!real_malloc) real_malloc = dlsym(RTLD_NEXT, "malloc");
    return atomic_fetch_add(&calls, 1) + 1 == refused ? NULL : real_malloc(size);
}
void *realloc(void *old, size_t size) {
    if (!real_realloc) real_realloc = dlsym(RTLD_NEXT, "realloc");
    return atomic_fetch_add(&calls, 1) + 1 == refused ? NULL : real_realloc(old, size);
}
"""


class Fronted:
    """The built program, with the library in front of its allocator."""

    def __init__(self, folder):
        self.program = os.environ.get("IPAMD", os.path.join(TOP, "crates/ipamd/out/ipamd"))
        if not os.access(self.program, os.X_OK):
            sys.exit("build the program first: ./ipamd free 10.0.0.0/8 </dev/null")
        self.library = os.path.join(folder, "front.so")
        source = os.path.join(folder, "front.c")
        with open(source, "w") as file:
            file.write(FRONT)
        subprocess.run(["cc", "-shared", "-fPIC", "-O1", "-w", "-o", self.library, source], check=True)

    def run(self, number, words, given, folder):
        counted = os.path.join(folder, "counted")
        env = {"LD_PRELOAD": self.library, "REFUSED": str(number), "COUNTED": counted}
        done = subprocess.run([self.program, *words], input=given, capture_output=True, env=env, timeout=PATIENCE)
        with open(counted) as file:
            return (done.returncode, done.stdout, done.stderr), int(file.read())


class Tried:
    """The program of `rt try`, whose number is written over."""

    def __init__(self, folder):
        self.program = os.environ.get("IPAMD_TRIED") or self.build(folder)
        with open(self.program, "rb") as file:
            text, wanted = file.read(), COMPARES + NEVER.to_bytes(4, "little")
        self.places = [at + len(COMPARES) for at in range(len(text)) if text.startswith(wanted, at)] if text.count(wanted) < 9 else []
        if len(self.places) != 2:
            sys.exit(f"the tried program compares {len(self.places)} times with the number, and not twice")

    def build(self, folder):
        """Lets rt try build the program, and holds on to it while it runs."""
        below, kept = os.path.join(folder, "try"), os.path.join(folder, "kept")
        os.mkdir(below)
        words = ["rt", "try", "--fail-alloc", str(NEVER), "--seconds", "300", "--", "free", "10.0.0.0/8"]
        tool = subprocess.Popen(words, cwd=os.path.join(TOP, "crates/ipamd"), env={**os.environ, "TMPDIR": below}, stdin=subprocess.DEVNULL,
                                stdout=subprocess.DEVNULL, stderr=subprocess.PIPE)
        said = []
        threading.Thread(target=lambda: said.append(tool.stderr.read()), daemon=True).start()
        while tool.poll() is None:
            for at, _, names in os.walk(below):
                if "program" in names and "native" in at and not os.path.exists(kept):
                    try:
                        os.link(os.path.join(at, "program"), kept)
                    except OSError:
                        pass
            time.sleep(0.02)
        if not os.path.exists(kept):
            sys.exit(f"rt try built no program: {b''.join(said)[-400:]}")
        return kept

    def run(self, number, words, given, folder):
        """Each folder has a copy of the program, which is written over."""
        program = os.path.join(folder, "tried")
        if not os.path.exists(program):
            shutil.copy(self.program, program)
            os.chmod(program, 0o700)
        with open(program, "r+b") as file:
            for at in self.places:
                file.seek(at)
                file.write((number or NEVER).to_bytes(4, "little"))
        done = subprocess.run([program, *words], input=given, capture_output=True, env={"ASAN_OPTIONS": "detect_leaks=0"}, timeout=PATIENCE)
        return (done.returncode, done.stdout, done.stderr), None


def tables(path):
    """What the tables of a store hold, by name; an absent file and one without tables hold nothing."""
    if not os.path.exists(path):
        return {}
    file = sqlite3.connect(path)
    names = [name for name, in file.execute("SELECT name FROM sqlite_master WHERE type = 'table' ORDER BY name")]
    found = {name: sorted(file.execute(f'SELECT * FROM "{name}"').fetchall()) for name in names}
    file.close()
    return {name: rows for name, rows in found.items() if rows}


class Case:
    """A command, what is on its input, and which outcomes may come beside the usual one."""

    def __init__(self, words, given, db=None, allowed=()):
        self.words, self.given, self.db, self.allowed = words, given, db, allowed

    def run(self, runner, number, folder):
        path = os.path.join(folder, "store.db")
        for end in ("", "-wal", "-shm", "-journal"):
            if os.path.exists(path + end):
                os.remove(path + end)
        if self.db is not None:
            shutil.copy(self.db, path)
        words = self.words + (["--db", path] if self.db is not None else [])
        outcome, count = runner.run(number, words, self.given, folder)
        return outcome, count, tables(path) if self.db is not None else None


def named(outcome, held, usual, usual_held, before):
    """What an outcome is, or None where it is none that may come."""
    status, output, errors = outcome
    as_before, as_after = held == before, held == usual_held
    if outcome == usual and as_after:
        return "the usual outcome"
    if errors:
        return None
    if status == 5 and output == b"" and as_before:
        return "want of memory, nothing done"
    if status == 5 and output == b"" and as_after and usual[1].startswith(b"HTTP/1.1 201"):
        return "want of memory for the answer of a change that was made"
    first = usual[1].find(b"HTTP/1.1", 8)
    if status == 5 and first > 0 and output == usual[1][:first] and as_after:
        return "the first answer, and want of memory before the second"
    if status == 0 and output == WANT % 0 + ABSENT and as_before:
        return "500 for the first request, nothing done, and the session went on"
    if status == 0 and first > 0 and output == usual[1][:first] + WANT % 1 and as_after:
        return "500 for the second request"
    return None


class Sweep:
    """A case with each number in turn, by several runs at once; a folder belongs to one run."""

    def __init__(self, name, case, runner, folders):
        self.name, self.case, self.runner, self.folders = name, case, runner, folders
        self.usual, self.total, self.usual_held = self.run(0)
        self.before = tables(case.db) if case.db is not None else None
        self.came, self.last, self.tried = collections.Counter(), 0, 0

    def run(self, number):
        folder = self.folders.get()
        try:
            return self.case.run(self.runner, number, folder)
        finally:
            self.folders.put(folder)

    def end(self):
        """The last number, as far as it is known."""
        return self.total or self.last + 100

    def take(self, number, outcome, count, held):
        what = named(outcome, held, self.usual, self.usual_held, self.before)
        if what is None:
            sys.exit(f"{self.name}: where request {number} is refused: {outcome}, and the store holds {held}")
        self.came[what] += 1
        self.tried += 1
        self.total = max(self.total, count) if self.total else None
        self.last = max(self.last, number) if what != "the usual outcome" else self.last

    def all(self, jobs):
        counted = f", {self.total} requests for memory" if self.total else ""
        print(f"{self.name}: the usual outcome is status {self.usual[0]} with {len(self.usual[1])} bytes{counted}", flush=True)
        with concurrent.futures.ThreadPoolExecutor(jobs) as pool:
            while self.tried < self.end():
                numbers = range(self.tried + 1, min(self.end(), self.tried + 100 * jobs) + 1)
                for number, told in zip(numbers, pool.map(self.run, numbers)):
                    self.take(number, *told)
        print(f"{self.name}: {self.tried} numbers tried: " + "; ".join(f"{count} {what}" for what, count in self.came.most_common()), flush=True)


def main():
    wanted = [word for word in sys.argv[1:] if word != "--try"]
    folder = tempfile.mkdtemp()
    try:
        runner = Tried(folder) if "--try" in sys.argv[1:] else Fronted(folder)
        jobs, folders = len(os.sched_getaffinity(0)), queue.SimpleQueue()
        for job in range(jobs):
            os.mkdir(os.path.join(folder, str(job)))
            folders.put(os.path.join(folder, str(job)))
        empty = os.path.join(folder, "empty.db")
        runner.run(0, ["export", "vrfs", "--db", empty], b"", folder)
        cases = {
            "free": Case(["free", "10.0.0.0/16"], BLOCK),
            "import": Case(["import", "prefixes"], ROWS, db=empty),
            "post": Case(["session"], POST + GET),
            "store": Case(["session"], POST + GET, db=empty),
            "load": Case(["load", "20" if "--try" in sys.argv[1:] else "1000", "--workers", "4"], b""),
        }
        for name in wanted or cases:
            Sweep(name, cases[name], runner, folders).all(jobs)
    finally:
        shutil.rmtree(folder, ignore_errors=True)
    print("growths: all as it should be")


if __name__ == "__main__":
    main()
