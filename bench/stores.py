"""What a file costs: durable creations a second, by a session over a file, which gets them at once and has each on the disk before it answers it, beside the
same rows written by C SQLite (Python's sqlite3: WAL, FULL, one transaction a row, prepared) on the same disk; one fdatasync of 4 KiB is timed in each run.
Then what it takes to open a file of 200,000 prefixes and 500,000 addresses. Medians of RUNS runs. SCRATCH=FOLDER has the files in that folder.
bench/first_table.py also takes the imports beside `sqlite3 .import` from here.

    bench/run store [RUNS]
"""
import ipaddress
import os
import sqlite3
import statistics
import subprocess
import sys
import tempfile
import time

sys.path.insert(0, os.path.dirname(os.path.dirname(os.path.abspath(__file__))))
from bench import machine
from bench.register import timed_once
from tools.wire import request

FULL_PREFIXES, FULL_ADDRESSES, ROWS = 200_000, 500_000, 10_000
COLUMNS = "prefix vrf status role is_pool mark_utilized description".split()
PUT = "INSERT INTO prefixes VALUES (?, ?, ?, ?, ?, ?, ?, ?) ON CONFLICT (id) DO UPDATE SET " + ", ".join(f"{column} = excluded.{column}" for column in COLUMNS)
META = "INSERT INTO meta VALUES (?, ?) ON CONFLICT (name) DO UPDATE SET value = excluded.value"


def block(n):
    return f"10.{n >> 16 & 255}.{n >> 8 & 255}.{n & 255}/32"


def created(program, folder, rows):
    """Durable creations a second by one session over a file: the requests are sent at once, and each is on the disk before it is answered. Neither the opening
    nor the first creation counts."""
    first, *others = (request("POST", "/api/ipam/prefixes/", {"prefix": block(n)}).decode() for n in range(rows + 1))
    return rows / timed_once([program, "session", "--db", os.path.join(folder, "office.db")], first, "".join(others), rows)


def put(folder, rows):
    """The same rows by C SQLite, which checks nothing: a transaction a row, on the disk before the next one (WAL, synchronous = FULL), prepared statements."""
    conn = sqlite3.connect(os.path.join(folder, "peer.db"), isolation_level=None)
    conn.execute("PRAGMA journal_mode = WAL")
    conn.execute("PRAGMA synchronous = FULL")
    conn.execute("CREATE TABLE meta (name TEXT PRIMARY KEY, value INTEGER NOT NULL) STRICT")
    conn.execute("CREATE TABLE prefixes (id INTEGER PRIMARY KEY, " + ", ".join(column + " TEXT NOT NULL" for column in COLUMNS) + ") STRICT")
    begun = time.perf_counter()
    for n in range(rows):
        conn.execute("BEGIN")
        conn.execute(PUT, (n + 1, block(n), "", "active", "", "false", "false", ""))
        conn.execute(META, ("next_prefixes", n + 2))
        conn.execute("COMMIT")
    taken = time.perf_counter() - begun
    conn.close()
    return rows / taken


def creations(program, runs, rows=900):
    """The medians of so many runs, which take turns: creations a second, those of SQLite, and one sync of the disk in milliseconds."""
    found = []
    for _ in range(runs):
        with tempfile.TemporaryDirectory(dir=os.environ.get("SCRATCH")) as folder:
            found.append((created(program, folder, rows), put(folder, rows), machine.sync_ms(folder)))
    return [statistics.median(run[part] for run in found) for part in range(3)]


def full_file(program, path, prefixes, addresses):
    """A file of so many prefixes and addresses, whose rows SQLite writes into the tables that the program made."""
    subprocess.run([program, "export", "vrfs", "--db", path], stdin=subprocess.DEVNULL, stdout=subprocess.DEVNULL, check=True)
    conn = sqlite3.connect(path)
    conn.executemany("INSERT INTO prefixes VALUES (?, ?, '', 'active', '', 'false', 'false', '')", ((n + 1, block(n)) for n in range(prefixes)))
    some = ((n, f"11.{n >> 16 & 255}.{n >> 8 & 255}.{n & 255}/8") for n in range(1, addresses + 1))
    conn.executemany("INSERT INTO ip_addresses VALUES (?, ?, '', 'active', '', '', '')", some)
    conn.executemany("UPDATE meta SET value = ? WHERE name = ?", [(prefixes + 1, "next_prefixes"), (addresses + 1, "next_ip_addresses")])
    conn.commit()
    conn.close()


def timed(words, given=None):
    """The seconds of a run, and its memory in GB at most."""
    begun = time.perf_counter()
    with open(given or os.devnull, encoding="utf-8") as source:
        child = subprocess.Popen(words, stdin=source, stdout=subprocess.DEVNULL, stderr=subprocess.PIPE)
        _, status, usage = os.wait4(child.pid, 0)
    taken, said = time.perf_counter() - begun, child.stderr.read().decode()
    child.stderr.close()
    child.returncode = os.waitstatus_to_exitcode(status)
    if child.returncode != 0:
        sys.exit(f"stores: {words}: status {child.returncode}: {said[:300]}")
    return taken, usage.ru_maxrss / 1e6


def opening(program, path, runs):
    """The medians of so many runs that open a file and close it: seconds, and GB."""
    found = [timed([program, "session", "--db", path]) for _ in range(runs)]
    return [statistics.median(run[part] for run in found) for part in range(2)]


def write_rows(path, kind, count):
    """A CSV file of rows that no file of full_file has: prefixes of 28 bits, or addresses."""
    with open(path, "w", encoding="ascii") as file:
        if kind == "prefixes":
            file.write("prefix,vrf,status,role,is_pool,mark_utilized,description\n")
            file.writelines(f"{ipaddress.IPv4Address(0xAC100000 + 16 * n)}/28,,active,,false,false,row {n}\n" for n in range(count))
        else:
            file.write("address,vrf,status,role,dns_name,description\n")
            file.writelines(f"{ipaddress.IPv4Address(0xC0A80000 + n)}/12,,active,,h{n}.example.org,row {n}\n" for n in range(count))


def imports(program, kind, runs, rows=ROWS):
    """The medians of so many runs, which take turns: the seconds of an import into an empty file, of `sqlite3 .import` into a new one, and one sync."""
    found = []
    with tempfile.TemporaryDirectory(dir=os.environ.get("SCRATCH")) as folder:
        write_rows(given := os.path.join(folder, "rows.csv"), kind, rows)
        for run in range(runs):
            ours, _ = timed([program, "import", kind, "--db", os.path.join(folder, f"{run}.db")], given)
            theirs, _ = timed(["sqlite3", os.path.join(folder, f"peer{run}.db"), ".mode csv", f".import {given} rows"])
            found.append((ours, theirs, machine.sync_ms(folder)))
    return [statistics.median(run[part] for run in found) for part in range(3)]


def imports_into(program, path, kind, runs, rows=ROWS):
    """The seconds of an import into a copy of a file, the median of so many runs."""
    found = []
    with tempfile.TemporaryDirectory(dir=os.environ.get("SCRATCH")) as folder:
        write_rows(given := os.path.join(folder, "rows.csv"), kind, rows)
        for _ in range(runs):
            subprocess.run(["cp", path, copy := os.path.join(folder, "full.db")], check=True)
            found.append(timed([program, "import", kind, "--db", copy], given)[0])
            os.remove(copy)
    return statistics.median(found)


def main(program, runs):
    ours, theirs, sync = creations(program, int(runs))
    print(f"creations a second: {ours:.0f} by ipamd, {theirs:.0f} by SQLite {sqlite3.sqlite_version}: {ours / theirs:.2f}; a sync of 4 KiB: {sync:.3f} ms")
    with tempfile.TemporaryDirectory(dir=os.environ.get("SCRATCH")) as folder:
        full_file(program, path := os.path.join(folder, "full.db"), FULL_PREFIXES, FULL_ADDRESSES)
        size = os.path.getsize(path) / 1e6
        seconds, memory = opening(program, path, int(runs))
    print(f"a file of {FULL_PREFIXES:,} prefixes and {FULL_ADDRESSES:,} addresses, {size:.0f} MB: opened and closed in {seconds:.1f} s with {memory:.2f} GB")


if __name__ == "__main__":
    main(*sys.argv[1:])
