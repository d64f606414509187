#!/usr/bin/env python3
"""Copies a register that is being served at URL into FILE, a file of tables that ipamd opens. The register goes on meanwhile.

    copy_register.py http://127.0.0.1:8080 register-2026-11-29.db [--next KIND=N ..] [--hold FLAG] [--passes N]
    copy_register.py http://127.0.0.1:8081 pools-2026-11-29.db --pools [--next ranges=N] [--next members=N] ..

It reads all pages of all kinds over one connection. Where the register was changed between the first and the last page, it begins anew: all records of a
copy are of one moment. Ids are kept. FILE must not exist; it appears once it is whole and on the disk. The line that is printed has the numbers of records,
and `Ipam-Place`, the number of changes that the register had made since its start.

--pools  the pools of AS numbers and VLANs that poold serves at URL; FILE is one that poold opens.
--next   the next id of a kind, as `prefixes=4711`. Without it, that is the one after the greatest id that there is: a register does not tell the ids of its
         last records once they are deleted.
--hold   where a change came in between, makes the file FLAG while it reads anew, and removes it then. nginx refuses changes while there is that file, with
         503 (examples/nginx-ipamd.conf).
--passes how often it begins before it gives up (20). Then the status is 1, and there is no copy.
"""
import argparse
import contextlib
import http.client
import json
import os
import signal
import sqlite3
import sys
import tempfile
import time
import urllib.parse

PAGE = 1000
# seconds between two passes
PAUSE = 0.2
MOST_ID = 4_294_967_295
# The columns of the tables of version 2.
COLUMNS = {
    "vrfs": ["name", "rd", "enforce_unique", "description"],
    "rirs": ["name", "slug", "is_private", "description"],
    "roles": ["name", "slug", "weight", "description"],
    "aggregates": ["prefix", "rir", "description"],
    "prefixes": ["prefix", "vrf", "status", "role", "is_pool", "mark_utilized", "description"],
    "ip-ranges": ["start_address", "end_address", "vrf", "status", "role", "mark_utilized", "mark_populated", "description"],
    "ip-addresses": ["address", "vrf", "status", "role", "dns_name", "description"],
}


# The lists of pools, and the tables of their file.
POOL_LISTS = ["asn-ranges", "vlan-groups", "asns", "vlans"]
POOL_TABLES = {"ranges": "kind TEXT NOT NULL, name TEXT NOT NULL, first INTEGER NOT NULL, last INTEGER NOT NULL",
               "members": "range INTEGER NOT NULL, number INTEGER NOT NULL, name TEXT NOT NULL"}


class Changed(Exception):
    """The register was changed, or the connection ended, before all pages were read."""


class Pass:
    """One connection, all of whose answers are to be of one place. The largest register has 714 pages, and a connection 1,000 answers. A register that
    is started anew counts its places anew, but its connections are closed."""

    def __init__(self, host, port):
        self.connection, self.place = http.client.HTTPConnection(host, port, timeout=60), None

    def page(self, kind, offset):
        """The body of a page, as it came: what it says is looked at behind the pass, which is the shorter for it."""
        if self.connection.sock is None and self.place is not None:
            raise Changed
        try:
            self.connection.request("GET", f"/api/ipam/{kind}/?limit={PAGE}&offset={offset}")
            answer = self.connection.getresponse()
            body = answer.read()
        except (http.client.HTTPException, OSError) as fault:
            if self.place is None:
                raise
            raise Changed from fault
        place = answer.getheader("Ipam-Place")
        if answer.status != 200 or place is None:
            sys.exit(f"copy: {kind}: the answer is {answer.status} {body[:200].decode(errors='replace')}")
        if self.place not in (None, place):
            raise Changed
        self.place = place
        return body

    def pages(self, kind):
        """The pages of a list; one that has none is a page."""
        first = self.page(kind, 0)
        said = json.loads(first)
        return [first] + [self.page(kind, offset) for offset in range(PAGE, 0 if isinstance(said, list) else said["count"], PAGE)]

    def all(self, kinds):
        with contextlib.closing(self.connection):
            return {kind: self.pages(kind) for kind in kinds}, self.place


@contextlib.contextmanager
def held(flag):
    """The flag is there while this goes on. One that is there already is another copy's, or was left by one that was killed."""
    try:
        os.close(os.open(flag, os.O_CREAT | os.O_EXCL, 0o644))
    except FileExistsError:
        sys.exit(f"copy: {flag} exists: another copy holds changes, or was killed")
    try:
        yield
    finally:
        os.unlink(flag)


def read_all(host, port, kinds, flag, passes):
    """The pages of all these kinds, and their place."""
    with contextlib.ExitStack() as stack:
        for number in range(passes):
            if number == 1 and flag:
                stack.enter_context(held(flag))
            if number:
                time.sleep(PAUSE)
            with contextlib.suppress(Changed):
                return Pass(host, port).all(kinds)
    sys.exit(f"copy: the register was changed during each of {passes} passes; --hold refuses changes meanwhile")


def text_of(value):
    """The text of a column: that of a choice is its value, and that of nothing is empty."""
    if isinstance(value, dict):
        value = value["value"]
    if value is None:
        return ""
    return str(value).lower() if isinstance(value, bool) else str(value)


def rows_of(kind, pages):
    """The rows of a kind as its table has them, by id."""
    for page in pages:
        for row in json.loads(page)["results"]:
            yield (row["id"], *(text_of(row[name]) for name in COLUMNS[kind]))


def fill(connection, pages, nexts):
    """Makes the tables, and gives the number of rows of each kind."""
    connection.execute("CREATE TABLE meta (name TEXT PRIMARY KEY, value INTEGER NOT NULL) STRICT")
    connection.execute("INSERT INTO meta VALUES ('version', 2)")
    counts = {}
    for kind, columns in COLUMNS.items():
        table = kind.replace("-", "_")
        connection.execute(f"CREATE TABLE {table} (id INTEGER PRIMARY KEY" + "".join(f", {name} TEXT NOT NULL" for name in columns) + ") STRICT")
        connection.executemany(f"INSERT INTO {table} VALUES (?{', ?' * len(columns)})", rows_of(kind, pages[kind]))
        counts[kind], greatest = connection.execute(f"SELECT count(*), coalesce(max(id), 0) FROM {table}").fetchone()
        if counts[kind] != json.loads(pages[kind][0])["count"]:
            sys.exit(f"copy: {kind}: {counts[kind]} records were read of {json.loads(pages[kind][0])['count']}")
        if not greatest < nexts.get(kind, MOST_ID):
            sys.exit(f"copy: --next {kind}={nexts[kind]} is not above the greatest id, {greatest}")
        connection.execute("INSERT INTO meta VALUES (?, ?)", (f"next_{table}", nexts.get(kind, greatest + 1)))
    return counts


def records_of(said):
    """The records of a page, or of a list without pages."""
    return said if isinstance(said, list) else said["results"]


def pool_rows_of(pages):
    """The rows of both tables of pools, by id."""
    records = {kind: [row for page in pages[kind] for row in records_of(json.loads(page))] for kind in POOL_LISTS}
    ranges = [(row["id"], word, row["name"], row["start"], row["end"]) for kind, word in (("asn-ranges", "asn"), ("vlan-groups", "vlan"))
              for row in records[kind]]
    members = [(row["id"], row.get("range", row.get("group")), row.get("asn", row.get("vid")), row.get("name", ""))
               for kind in ("asns", "vlans") for row in records[kind]]
    return {"ranges": sorted(ranges), "members": sorted(members)}


def fill_pools(connection, pages, nexts):
    """Makes the tables of pools, and gives the number of rows of each."""
    connection.execute("CREATE TABLE meta (name TEXT PRIMARY KEY, value INTEGER NOT NULL) STRICT")
    rows = pool_rows_of(pages)
    for table, columns in POOL_TABLES.items():
        greatest = max((row[0] for row in rows[table]), default=0)
        if not greatest < nexts.get(table, MOST_ID):
            sys.exit(f"copy: --next {table}={nexts[table]} is not above the greatest id, {greatest}")
        connection.execute(f"CREATE TABLE {table} (id INTEGER PRIMARY KEY, {columns}) STRICT")
        connection.executemany(f"INSERT INTO {table} VALUES (?{', ?' * (columns.count(',') + 1)})", rows[table])
        connection.execute("INSERT INTO meta VALUES (?, ?)", (f"next_{table}", nexts.get(table, greatest + 1)))
    return {table: len(rows[table]) for table in POOL_TABLES}


def write(path, pages, nexts, filled):
    """Makes the file under another name, and gives it its own once it is on the disk."""
    folder = os.path.dirname(os.path.abspath(path))
    handle, draft = tempfile.mkstemp(prefix=os.path.basename(path) + ".", dir=folder)
    os.close(handle)
    try:
        with contextlib.closing(sqlite3.connect(draft)) as connection, connection:
            connection.execute("PRAGMA synchronous = FULL")
            connection.execute("BEGIN")
            counts = filled(connection, pages, nexts)
        os.link(draft, path)
    finally:
        os.unlink(draft)
    handle = os.open(folder, os.O_RDONLY)
    os.fsync(handle)
    os.close(handle)
    return counts


def next_of(text):
    kind, _, number = text.partition("=")
    if kind not in (*COLUMNS, *POOL_TABLES) or not number.isdecimal() or not 1 <= int(number) <= MOST_ID:
        raise argparse.ArgumentTypeError(f"{text}: it is KIND=N, and the kind one of " + ", ".join((*COLUMNS, *POOL_TABLES)))
    return kind, int(number)


def main():
    words = argparse.ArgumentParser(description=__doc__, formatter_class=argparse.RawDescriptionHelpFormatter)
    words.add_argument("url", metavar="URL")
    words.add_argument("file", metavar="FILE")
    words.add_argument("--pools", action="store_true")
    words.add_argument("--next", metavar="KIND=N", action="append", type=next_of, default=[])
    words.add_argument("--hold", metavar="FLAG")
    words.add_argument("--passes", metavar="N", type=int, default=20)
    given = words.parse_args()
    parts = urllib.parse.urlsplit(given.url)
    if parts.scheme != "http" or not parts.hostname:
        sys.exit("copy: URL is that of the register itself, as http://127.0.0.1:8080")
    # a log that is left beside a file belongs to it: SQLite would put it into the copy
    for path in (given.file, given.file + "-wal", given.file + "-journal"):
        if os.path.lexists(path):
            sys.exit(f"copy: {path} exists")
    # the flag is removed also where the copy is ended by a signal
    for number in (signal.SIGTERM, signal.SIGHUP):
        signal.signal(number, lambda *_: sys.exit("copy: ended by a signal"))
    try:
        pages, place = read_all(parts.hostname, parts.port or 80, POOL_LISTS if given.pools else COLUMNS, given.hold, given.passes)
        counts = write(given.file, pages, dict(given.next), fill_pools if given.pools else fill)
    except (OSError, http.client.HTTPException, sqlite3.Error) as fault:
        sys.exit(f"copy: {fault}")
    print(", ".join(f"{kind} {count}" for kind, count in counts.items()) + f"; place {place}")


if __name__ == "__main__":
    main()
