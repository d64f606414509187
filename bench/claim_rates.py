"""What bench/claims.py and bench/pools.py have in common: how many claims a second a program serves over a file by HTTP, beside two ways over one durable
PostgreSQL on the same disk: NetBox's own, and the best that SQL does. Debian's python3 runs it, which has psycopg2."""
import glob
import json
import multiprocessing
import os
import shutil
import socket
import statistics
import subprocess
import sys
import tempfile
import time
from dataclasses import dataclass
from typing import Callable

from bench import machine
from bench.loads import serve
from tools.wire import request

# the most items of a claim
PART = 1_000
# a run ends with so many claims at least, or after so many seconds
LEAST, MOST_SECONDS = 200, 5.0
LOCK = 100_100
NETBOX, SQL = "NetBox's way, over PostgreSQL", "the best SQL, over PostgreSQL"


class Session:
    """One connection of the program by its standard streams: a request, then its answer."""

    def __init__(self, program, *options):
        self.process = subprocess.Popen([program, "session", *options], stdin=subprocess.PIPE, stdout=subprocess.PIPE)

    def ask(self, target, body=None):
        method, wanted = ("GET", b"200") if body is None else ("POST", b"201")
        self.process.stdin.write(request(method, target, body))
        self.process.stdin.flush()
        length = 0
        status = self.process.stdout.readline()
        while (line := self.process.stdout.readline().rstrip()) != b"":
            name, value = line.split(b": ", 1)
            if name == b"Content-Length":
                length = int(value)
        answer = json.loads(self.process.stdout.read(length))
        if status.split(b" ")[1] != wanted:
            sys.exit(f"claims: {status} {answer}")
        return answer

    def claim_many(self, target, count):
        for size in [PART] * (count // PART) + [count % PART]:
            if size:
                self.ask(target, [{}] * size)

    def end(self):
        self.process.stdin.close()
        self.process.wait()


class HttpClaims:
    """Claims over one connection after another: the register ends one with its thousandth answer."""

    def __init__(self, port, target, member):
        self.port, self.text, self.member, self.socket = port, request("POST", target, {}), member, None

    def __call__(self):
        if self.socket is None:
            self.socket = socket.create_connection(("127.0.0.1", self.port))
            self.socket.setsockopt(socket.IPPROTO_TCP, socket.TCP_NODELAY, 1)
        self.socket.sendall(self.text)
        told = b""
        while b"\r\n\r\n" not in told or len(told) < self.whole(told):
            if not (more := self.socket.recv(65_536)):
                sys.exit(f"claims: the connection ended: {told!r}")
            told += more
        head, _, body = told.partition(b"\r\n\r\n")
        if not head.startswith(b"HTTP/1.1 201 "):
            sys.exit(f"claims: {told!r}")
        if b"Connection: close" in head:
            self.socket.close()
            self.socket = None
        return json.loads(body)[self.member]

    def whole(self, told):
        head = told.partition(b"\r\n\r\n")[0]
        return len(head) + 4 + int(head.partition(b"Content-Length: ")[2].split(b"\r")[0])


class Postgres:
    """A cluster of its own in a scratch folder, with Debian's settings: each commit is on the disk before it is answered."""

    def __init__(self):
        # Debian has the programs of a server where no path leads
        found = sorted(glob.glob("/usr/lib/postgresql/*/bin"), key=lambda path: int(path.split("/")[4]))
        self.path = os.pathsep.join([*found[-1:], os.environ["PATH"]])
        if not all(shutil.which(name, path=self.path) for name in ("initdb", "pg_ctl", "runuser")):
            sys.exit("claims: PostgreSQL is missing: apt-get install postgresql")
        self.folder = tempfile.mkdtemp(dir=os.environ.get("SCRATCH"))
        shutil.chown(self.folder, "postgres")
        self.run("initdb", "-D", f"{self.folder}/data", "-A", "trust", "-E", "UTF8", "--locale", "C")
        self.run("pg_ctl", "-D", f"{self.folder}/data", "-o", f"-k {self.folder} -h ''", "-w", "-l", f"{self.folder}/log", "start")

    def run(self, *words):
        subprocess.run(["runuser", "-u", "postgres", "--", shutil.which(words[0], path=self.path), *words[1:]], check=True, stdout=subprocess.DEVNULL, cwd="/")

    def cursor(self):
        """One connection of psycopg2, each of whose statements is a transaction."""
        import psycopg2
        connection = psycopg2.connect(host=self.folder, user="postgres", dbname="postgres")
        connection.autocommit = True
        return connection.cursor()

    def ask(self, *texts):
        cursor = self.cursor()
        for text in texts:
            cursor.execute(text)
        cursor.connection.close()

    def end(self):
        self.run("pg_ctl", "-D", f"{self.folder}/data", "-m", "fast", "stop")
        shutil.rmtree(self.folder)


def best_claim(first, last, given, columns, values):
    """SQL that makes the function claim(): the first gap behind a number of the table `best` by one query, which reads the index of the numbers from the front
    up to that gap, and then the insert, under a lock that ends with the transaction. A claim is one statement of a client. The second statement of the
    function sees what was committed before it had the lock."""
    return f"""CREATE FUNCTION claim() RETURNS text LANGUAGE plpgsql AS $$
DECLARE free bigint;
BEGIN
    PERFORM pg_advisory_xact_lock({LOCK});
    SELECT number + 1 INTO free FROM (SELECT number, lead(number) OVER (ORDER BY number) AS next FROM best WHERE number >= {first} AND number < {last}) gaps
        WHERE next IS DISTINCT FROM number + 1 ORDER BY number LIMIT 1;
    INSERT INTO best (number, {columns}) VALUES (free, {values});
    RETURN {given};
END $$"""


def rate(make, clients, least):
    """Claims a second by so many processes, each with a connection and a first claim of its own before the time begins; and what that first one gives."""
    context = multiprocessing.get_context("fork")
    barrier, told = context.Barrier(clients), context.SimpleQueue()

    def work():
        claim, made = make(), 0
        first = claim()
        barrier.wait()
        begun = time.perf_counter()
        while made * clients < least and time.perf_counter() - begun < MOST_SECONDS:
            claim()
            made += 1
        told.put((made, begun, time.perf_counter(), first))

    children = [context.Process(target=work) for _ in range(clients)]
    for child in children:
        child.start()
    while len(children) > 0 and all(child.exitcode in (None, 0) for child in children) and any(child.is_alive() for child in children):
        time.sleep(0.01)
    if any(child.exitcode != 0 for child in children):
        for child in children:
            child.kill()
        sys.exit("claims: a client failed")
    found = [told.get() for _ in children]
    taken = max(end for _, _, end, _ in found) - min(begun for _, begun, _, _ in found)
    return sum(made for made, _, _, _ in found) / taken, min(first for _, _, _, first in found)


@dataclass
class Claims:
    """A claim of one at a time. `made` is what is made first, `target` where it is claimed, and `given` the member that says what was claimed. `tables` is the
    SQL of the peers' tables with so many taken, and `rest` removes what was claimed since. `netbox` is a claim of NetBox's way over a cursor; `sql` is a
    statement that claims."""
    made: tuple
    target: str
    given: str
    tables: Callable
    rest: Callable
    netbox: Callable
    sql: str

    def fill(self, program, path, taken):
        session = Session(program, "--db", path)
        session.ask(*self.made)
        session.claim_many(self.target, taken)
        session.end()

    def ours(self, program, port, path, clients, least):
        with tempfile.TemporaryDirectory(dir=os.environ.get("SCRATCH")) as folder:
            copy = shutil.copy(path, os.path.join(folder, "office.db"))
            with serve(program, port, clients, "--db", copy):
                return rate(lambda: HttpClaims(port, self.target, self.given), clients, least)

    def of_netbox(self, database):
        cursor = database.cursor()
        return lambda: self.netbox(cursor)

    def of_sql(self, database):
        cursor = database.cursor()

        def claim():
            cursor.execute(self.sql)
            return cursor.fetchone()[0]
        return claim

    def once(self, program, port, path, database, taken, clients, least):
        """One run of each: of the program, of NetBox's way and of SQL, and one sync of the disk before them. The first claims are alike."""
        sync, (ours, first) = machine.sync_ms(os.path.dirname(path)), self.ours(program, port, path, clients, least)
        theirs, second = rate(lambda: self.of_netbox(database), clients, least)
        database.ask(*self.rest(taken))
        best, third = rate(lambda: self.of_sql(database), clients, least)
        database.ask(*self.rest(taken))
        if not str(first) == str(second) == str(third):
            sys.exit(f"claims: {first}, {second} and {third} are claimed first")
        return ours, theirs, best, sync

    def row(self, program, port, taken, clients, runs, least=LEAST):
        """For each number of clients the medians of so many runs."""
        database = Postgres()
        try:
            with tempfile.TemporaryDirectory(dir=os.environ.get("SCRATCH")) as folder:
                self.fill(program, path := os.path.join(folder, "office.db"), taken)
                database.ask(*self.tables(taken))
                rows = {count: [self.once(program, port, path, database, taken, count, least) for _ in range(runs)] for count in clients}
        finally:
            database.end()
        return {count: [statistics.median(part) for part in zip(*found)] for count, found in rows.items()}


def heading(what):
    names = [what, "clients", "ipamd or poold, over a file", NETBOX, SQL, "to NetBox's way", "to SQL", "one fdatasync of 4 KiB, ms"]
    return "| " + " | ".join(names) + " |\n" + "|---" * len(names) + "|"


def line(taken, clients, figures):
    ours, theirs, best, sync = figures
    return f"| {taken:,} | {clients} | {ours:,.0f} | {theirs:,.1f} | {best:,.1f} | {ours / theirs:,.1f} | {ours / best:,.1f} | {sync:.2f} |"
