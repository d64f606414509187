"""`migrate`: a file of version 1, written by Python's sqlite3, with 200,000 prefixes, 500,000 addresses and 10,000 ranges, becomes one of this program. It
takes at most the time of an opening of the migrated file and a second more, and 1.2 GB; every row is as it was, and what 1,000 random prefixes (with yes)
and ranges (with no) give out is what the old rows gave out.

    bench/run migrate [PREFIXES ADDRESSES RANGES]
"""
import bisect
import ipaddress
import os
import random
import resource
import shutil
import sqlite3
import subprocess
import sys
import tempfile
import time

sys.path.insert(0, os.path.dirname(os.path.dirname(os.path.abspath(__file__))))
from tools.wire import answers, request

program, prefixes, addresses, ranges = sys.argv[1], *map(int, sys.argv[2:5])
pick = random.Random(16)
folder = tempfile.mkdtemp(dir=os.environ.get("SCRATCH"))
COLUMNS = {"vrfs": "name rd enforce_unique description", "rirs": "name slug is_private description", "roles": "name slug weight description",
           "aggregates": "prefix rir description", "prefixes": "prefix vrf status role is_pool mark_utilized description",
           "ip_ranges": "start_address end_address vrf status role mark_utilized description", "ip_addresses": "address vrf status role dns_name description"}
LIMIT = 50


def text(number):
    return str(ipaddress.IPv4Address(number))


def first_file(path):
    """A file of version 1: prefixes of 28 bits from 10.0.0.0 on, a range of four to twelve addresses in some of them, and addresses here and there."""
    chosen = sorted(pick.sample(range(prefixes), ranges))
    spans = [(0x0A000000 + 16 * n + pick.randint(1, 2), 0x0A000000 + 16 * n + pick.randint(6, 14)) for n in chosen]
    hosts = sorted(pick.sample(range(0x0A000000, 0x0A000000 + 16 * prefixes), addresses))
    conn = sqlite3.connect(path)
    conn.execute("PRAGMA journal_mode = WAL")
    conn.execute("CREATE TABLE meta (name TEXT PRIMARY KEY, value INTEGER NOT NULL) STRICT")
    for table, columns in COLUMNS.items():
        conn.execute(f"CREATE TABLE {table} (id INTEGER PRIMARY KEY, " + ", ".join(c + " TEXT NOT NULL" for c in columns.split()) + ") STRICT")
    nexts = {"prefixes": prefixes + 1, "ip_ranges": ranges + 1, "ip_addresses": addresses + 1}
    conn.executemany("INSERT INTO meta VALUES (?, ?)", [("version", 1)] + [("next_" + table, nexts.get(table, 1)) for table in COLUMNS])
    conn.executemany("INSERT INTO prefixes VALUES (?, ?, '', 'active', '', 'false', 'false', '')", ((n + 1, f"{text(0x0A000000 + 16 * n)}/28") for n in range(prefixes)))
    conn.executemany("INSERT INTO ip_ranges VALUES (?, ?, ?, '', 'active', '', 'false', ?)",
                     ((n + 1, f"{text(low)}/28", f"{text(high)}/28", f"range {n}") for n, (low, high) in enumerate(spans)))
    conn.executemany("INSERT INTO ip_addresses VALUES (?, ?, '', 'active', '', '', '')", ((n + 1, f"{text(host)}/28") for n, host in enumerate(hosts)))
    conn.commit()
    conn.execute("PRAGMA wal_checkpoint(TRUNCATE)")
    conn.close()
    return spans, hosts


def rows_of(path):
    conn = sqlite3.connect(path)
    found = {table: conn.execute(f"SELECT * FROM {table} ORDER BY 1").fetchall() for table in [*COLUMNS, "meta"]}
    conn.close()
    return found


def run(words, given=b""):
    begin = time.monotonic()
    done = subprocess.run([program, *words], input=given, capture_output=True)
    return time.monotonic() - begin, done


def lists(path, paths):
    """What the register gives out at each of these paths."""
    found = []
    for at in range(0, len(paths), 500):
        given = b"".join(request("GET", f"/api/ipam/{one}/available-ips/?limit={LIMIT}") for one in paths[at:at + 500])
        found += [[one["address"] for one in rows] for _, rows in answers(run(["session", "--db", path], given)[1].stdout)]
    return found


def held(hosts, number):
    at = bisect.bisect_left(hosts, number)
    return at < len(hosts) and hosts[at] == number


def of_prefix(spans, hosts, n):
    low = 0x0A000000 + 16 * n
    at = bisect.bisect_left(spans, (low,))
    span = spans[at] if at < len(spans) and spans[at][0] < low + 16 else (1, 0)
    return [f"{text(a)}/28" for a in range(low + 1, low + 15) if not held(hosts, a) and not span[0] <= a <= span[1]]


def of_range(spans, hosts, n):
    return [f"{text(a)}/28" for a in range(spans[n][0], spans[n][1] + 1) if not held(hosts, a)]


def fail(what):
    sys.exit(f"migrate: {what}")


old = os.path.join(folder, "first.db")
spans, hosts = first_file(old)
before = rows_of(old)
for mark in ("yes", "no"):
    path = os.path.join(folder, mark + ".db")
    shutil.copy(old, path)
    _, done = run(["session", "--db", path])
    if (done.returncode, done.stderr) != (1, b"store: version 1\n"):
        fail(f"a file of version 1 is not refused: {done}")
    spent, done = run(["migrate", "--db", path, "--populated", mark])
    if (done.returncode, done.stdout, done.stderr) != (0, f"migrated {ranges}\n".encode(), b""):
        fail(f"{done}")
    opening = min(run(["session", "--db", path])[0] for _ in range(3))
    memory = resource.getrusage(resource.RUSAGE_CHILDREN).ru_maxrss / 1e6
    print(f"migrate --populated {mark}: {spent:.2f} s, an opening {opening:.2f} s, at most {memory:.2f} GB")
    if spent > opening + 1 or memory > 1.2:
        fail("it takes longer than an opening and a second, or more than 1.2 GB")
    after = rows_of(path)
    wanted = dict(before, meta=[(name, 2 if name == "version" else value) for name, value in before["meta"]],
                  ip_ranges=[row[:7] + ("true" if mark == "yes" else "false",) + row[7:] for row in before["ip_ranges"]])
    if after != wanted:
        fail("rows were changed")
    if mark == "yes":
        some = pick.sample(range(prefixes), min(1000, prefixes))
        found, right = lists(path, [f"prefixes/{n + 1}" for n in some]), [of_prefix(spans, hosts, n)[:LIMIT] for n in some]
    else:
        some = pick.sample(range(ranges), min(1000, ranges))
        found, right = lists(path, [f"ip-ranges/{n + 1}" for n in some]), [of_range(spans, hosts, n)[:LIMIT] for n in some]
    wrong = [n for n, one, other in zip(some, found, right) if one != other]
    if wrong or len(found) != len(some):
        fail(f"{len(wrong)} lists of {len(found)} are others, as number {wrong[:1]}")
shutil.rmtree(folder)
print("migrate: all as it should be")
