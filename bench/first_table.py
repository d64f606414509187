"""The figures that have a peer, all in one run: README's table, docs/figures.svg and the first table of docs/PERFORMANCE.md are made of the file that this
writes, docs/figures.json. docs/figures.py then makes the pages of it. Nothing else is to run at that time.

    bench/run first_table [--quick] [--out FILE]      --quick: few small rounds, whose figures say nothing; it writes no file but one that is named
"""
import argparse
import json
import os
import random
import re
import subprocess
import sys
import tempfile
import time
from dataclasses import asdict, dataclass, field

sys.path.insert(0, os.path.dirname(os.path.dirname(os.path.abspath(__file__))))
from bench import machine

TOP = os.path.abspath(os.path.join(os.path.dirname(os.path.abspath(__file__)), ".."))
os.environ.setdefault("IPAMD", os.path.join(TOP, "crates/ipamd/out/ipamd"))
os.environ.setdefault("POOLD", os.path.join(TOP, "crates/poold/out/poold"))
PROGRAM, POOLD = os.environ["IPAMD"], os.environ["POOLD"]

from bench import claim_rates, claims, free, lists, loads, pools, register, serve, stores


@dataclass
class Size:
    """How much is measured."""
    lines: int = 200_000
    patience: int = 30
    sessions: int = 40
    claims: dict = field(default_factory=lambda: claims.TAKEN)
    numbers: dict = field(default_factory=lambda: {10_000: [1]})
    least: int = claim_rates.LEAST
    runs: int = 3
    gets: int = 5
    counts: list = field(default_factory=lambda: [1, 4, 16, 32])
    creations: int = 900
    rows: int = stores.ROWS
    prefixes: int = stores.FULL_PREFIXES
    addresses: int = stores.FULL_ADDRESSES
    merged: tuple = (200_000, 80_000)


QUICK = Size(300, 5, 2, {50: [1, 2]}, {50: [1]}, 6, 1, 1, [1, 2], 5, 10, 30, 30, (200, 80))
PORT = 18380


@dataclass
class Peer:
    name: str
    figure: float
    stopped: bool = False


@dataclass
class Row:
    """A figure beside those of its peers. `key` names it where a page picks it; `unit` is `s` (less is better) or `a second` (more is better); `sync_ms` is
    what one fdatasync of 4 KiB took at that time, where the figure waits for the disk."""
    key: str
    what: str
    unit: str
    figure: float
    peers: list
    sync_ms: float = None


def free_rows(size):
    rows = []
    for found in free.measure(size.lines, 1, size.patience):
        if found.program == "ipamd":
            rows.append(Row(f"free {found.case}", f"free space of {size.lines:,} blocks, {found.case}", "s", found.seconds, []))
        else:
            rows[-1].peers.append(Peer(found.program, found.seconds, found.stopped))
    return rows


def merged_rows(size):
    rows, pick = [], random.Random(1)
    with tempfile.TemporaryDirectory() as folder:
        for family, count in zip((4, 6), size.merged):
            mine, _, name, peer = lists.merged(folder, family, count, pick)
            what = f"the fewest blocks of {count:,} random IPv{family} blocks (`prefix-check`)"
            rows.append(Row(f"fewest {family}", what, "s", mine.seconds, [Peer(name, peer.seconds)]))
    return rows


def session_rows(size):
    return [Row(f"session {name}", f"{name} by one pipelined connection", "a second", ours, [Peer("Python's http.server", theirs)])
            for name, ours, theirs in register.measure(PROGRAM, size.sessions)]


def claim_rows(kind, program, what, taken, size):
    rows = []
    for count, clients in taken.items():
        for number, (ours, theirs, best, sync) in kind.row(program, PORT, count, clients, size.runs, size.least).items():
            many = f"{number} client" + ("" if number == 1 else "s")
            by = " by poold" if program == POOLD else ""
            rows.append(Row(f"claims {what} {count} {number}", f"claims of {what}{by} among {count:,}, over a file, {many}", "a second", ours,
                            [Peer(claim_rates.NETBOX, theirs), Peer(claim_rates.SQL, best)], sync))
    return rows


def creation_rows(size):
    ours, theirs, sync = stores.creations(PROGRAM, size.runs, size.creations)
    return [Row("creations", "creations of prefixes, each on the disk before its answer", "a second", ours, [Peer("SQLite, no checks", theirs)], sync)]


def import_rows(size):
    rows = []
    for kind in ("prefixes", "ip-addresses"):
        ours, theirs, sync = stores.imports(PROGRAM, kind, size.runs, size.rows)
        what, peer = f"an import of {size.rows:,} {kind} into an empty file", Peer("sqlite3 .import, no checks", theirs)
        rows.append(Row(f"import {kind}", what, "s", ours, [peer], sync))
    with tempfile.TemporaryDirectory(dir=os.environ.get("SCRATCH")) as folder:
        what = f"a file of {size.prefixes - size.rows:,} prefixes and {size.addresses - size.rows:,} addresses"
        stores.full_file(PROGRAM, path := os.path.join(folder, "full.db"), size.prefixes - size.rows, size.addresses - size.rows)
        # (not its memory: a child of a large process is counted with that process)
        seconds, _ = stores.opening(PROGRAM, path, size.runs)
        rows.append(Row("opening", f"opening {what}", "s", seconds, []))
        taken = stores.imports_into(PROGRAM, path, "prefixes", size.runs, size.rows)
        rows.append(Row("import full", f"an import of {size.rows:,} prefixes into that file, with its opening", "s", taken, [], machine.sync_ms(folder)))
    return rows


def get_rows(size):
    rows = []
    with tempfile.TemporaryDirectory() as folder:
        os.chmod(folder, 0o755)
        runs = serve.Runs(PROGRAM, folder, 1, PORT, size.gets)
        runs.write_file()
        for count in size.counts:
            ours, theirs = serve.middle(runs.of_register(count, serve.KINDS[0], False)), serve.middle(runs.of_nginx(count))
            what = f"GETs of one record, {count} connection" + ("" if count == 1 else "s")
            rows.append(Row(f"GET {count}", what, "a second", ours, [Peer("nginx, a file of that size", theirs)]))
    return rows


def jump(size):
    """What is behind the step from one connection to four: GETs a second, by the program and by nginx, with all processors; with wrk and the server on one
    processor; and with a loop on each processor that runs where nothing else wants it, so that none sleeps."""
    found = []
    with tempfile.TemporaryDirectory() as folder:
        os.chmod(folder, 0o755)
        runs = serve.Runs(PROGRAM, folder, 1, PORT, size.runs)
        runs.write_file()
        for how, pinned in (("free", None), ("on one processor", "0"), ("no processor sleeps", None)):
            idle = range(loads.PROCESSORS) if how.startswith("no ") else []
            loops = [subprocess.Popen(["chrt", "--idle", "0", "sh", "-c", "while :; do :; done"]) for _ in idle]
            for count in (1, 4):
                ours, theirs = runs.of_register(count, serve.KINDS[0], False, pinned=pinned), runs.of_nginx(count, pinned)
                found.append({"how": how, "connections": count, "ipamd": serve.middle(ours), "nginx": serve.middle(theirs)})
            for loop in loops:
                loop.kill()
                loop.wait()
    return found


PARTS = {
    "free": free_rows,
    "fewest": merged_rows,
    "sessions": session_rows,
    "addresses": lambda size: claim_rows(claims.ADDRESSES, PROGRAM, "addresses", size.claims, size),
    "numbers": lambda size: claim_rows(pools.NUMBERS, POOLD, "AS numbers", size.numbers, size),
    "creations": creation_rows,
    "imports": import_rows,
    "gets": get_rows,
}


def version_of(words):
    done = subprocess.run(words, capture_output=True, text=True, check=False)
    found = re.search(r"\d+(?:\.\d+)+", done.stdout + done.stderr)
    return found[0] if found else sys.exit(f"first_table: {words}: {done.stderr}")


def versions():
    """Of the peers; each has to be there."""
    python = "/usr/bin/python3"
    found = {"iprange": ["iprange", "--version"], "netaddr": [python, "-c", "import netaddr; print(netaddr.__version__)"],
             "psycopg2": [python, "-c", "import psycopg2; print(psycopg2.__version__)"], "PostgreSQL": ["psql", "--version"],
             "SQLite": [python, "-c", "import sqlite3; print(sqlite3.sqlite_version)"], "nginx": ["nginx", "-v"], "Python": [python, "--version"]}
    return {name: version_of(words) for name, words in found.items()}


def measure(size):
    table = machine.of(os.environ.get("SCRATCH") or tempfile.gettempdir())
    table["versions"], table["rows"] = versions(), []
    for name, part in PARTS.items():
        begun = time.monotonic()
        table["rows"] += [asdict(row) for row in part(size)]
        print(f"first_table: {name}: {time.monotonic() - begun:.0f} s, load {os.getloadavg()[0]:.1f}", flush=True)
    table["jump"] = jump(size)
    return table


def main():
    words = argparse.ArgumentParser()
    words.add_argument("--quick", action="store_true")
    words.add_argument("--out")
    given = words.parse_args()
    begun, path = time.monotonic(), given.out or (None if given.quick else os.path.join(TOP, "docs/figures.json"))
    table = measure(QUICK if given.quick else Size())
    if path:
        with open(path, "w", encoding="utf-8") as file:
            file.write(json.dumps(table, indent=1, ensure_ascii=False) + "\n")
    if path and not given.out:
        subprocess.run([sys.executable, os.path.join(TOP, "docs/figures.py")], check=True)
    print(f"first_table: {len(table['rows'])} figures in {time.monotonic() - begun:.0f} s" + (f", in {path}" if path else ""))


if __name__ == "__main__":
    main()
