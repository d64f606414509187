"""Sessions over a real file: what one process made the next one has; while a process has the file open a second one is refused, and so is sqlite3, and nothing
is changed; afterwards sqlite3 reads the file; an answered change outlives a process that is killed.

    conformance/run files
"""
import hashlib
import json
import os
import sqlite3
import subprocess
import sys
import tempfile

sys.path.insert(0, os.path.dirname(os.path.dirname(os.path.abspath(__file__))))
from tools.wire import request

program = sys.argv[1]
folder = tempfile.mkdtemp()
path = os.path.join(folder, "office.db")
checks = 0


def check(holds, what):
    global checks
    checks += 1
    if not holds:
        sys.exit(f"files: {what}")


def session(requests, *options, db=path):
    done = subprocess.run([program, "session", "--db", db, *options], input=b"".join(requests), capture_output=True)
    return done.returncode, done.stdout, done.stderr


def body_of(answer):
    return answer.split(b"\r\n\r\n", 1)[1]


def sums():
    names = sorted(os.listdir(folder))
    return [(name, hashlib.sha256(open(os.path.join(folder, name), "rb").read()).hexdigest()) for name in names]


PREFIXES = "/api/ipam/prefixes/"
NEW = {"prefix": "10.0.0.0/24"}

# what one process made the next one has
status, made, said = session([request("POST", PREFIXES, NEW)])
check(status == 0 and made.startswith(b"HTTP/1.1 201 Created\r\n") and b"Ipam-Place: 0\r\n" in made and not said, f"POST: {status} {made} {said}")
status, found, said = session([request("GET", PREFIXES + "1/")])
check(status == 0 and found.startswith(b"HTTP/1.1 200 OK\r\n") and b"Ipam-Place: 0\r\n" in found and not said, f"GET: {status} {found} {said}")
check(body_of(found) == body_of(made), f"another object: {found}")

# a role that goes is gone from the rows that had it, also for the next process; a claim is kept with the rows that it made
roles = os.path.join(folder, "roles.db")
ROLES = "/api/ipam/roles/"
status, out, said = session([
    request("POST", ROLES, {"name": "customers", "slug": "customers"}),
    request("POST", PREFIXES, {"prefix": "10.0.0.0/24", "role": 1}),
    request("POST", PREFIXES + "1/available-ips/", [{}, {}]),
    request("DELETE", ROLES + "1/"),
], db=roles)
check(status == 0 and out.count(b"HTTP/1.1 201 Created\r\n") == 3 and out.count(b"HTTP/1.1 204 No Content\r\n") == 1, f"a role: {status} {out}")
status, out, said = session([request("GET", PREFIXES + "1/"), request("POST", PREFIXES + "1/available-ips/", {})], db=roles)
answers = [json.loads(part.split(b"HTTP/1.1")[0]) for part in out.split(b"\r\n\r\n")[1:]]
check(status == 0 and answers[0]["role"] is None, f"the role is still there: {out}")
check(answers[1]["address"] == "10.0.0.3/24" and answers[1]["id"] == 3, f"a claim behind two others: {out}")

# two processes on one file
first = subprocess.Popen([program, "session", "--db", path], stdin=subprocess.PIPE, stdout=subprocess.PIPE, stderr=subprocess.PIPE)
first.stdin.write(request("POST", PREFIXES, {"prefix": "10.0.1.0/24"}))
first.stdin.flush()
answer = os.read(first.stdout.fileno(), 65536)
check(answer.startswith(b"HTTP/1.1 201 Created\r\n"), f"the first process: {answer}")
before = sums()
status, out, said = session([request("POST", PREFIXES, {"prefix": "10.0.2.0/24"})])
check(status == 4 and not out and said == b"store: the store could not be read\n", f"the second process: {status} {out} {said}")
check(sums() == before, "the second process changed a file")
try:
    sqlite3.connect(path, timeout=0).execute("SELECT count(*) FROM prefixes").fetchall()
    check(False, "sqlite3 read the file of a running process")
except sqlite3.OperationalError as error:
    check("locked" in str(error), f"sqlite3: {error}")
first.stdin.write(request("GET", PREFIXES + "2/"))
first.stdin.close()
rest = first.stdout.read()
check(first.wait() == 0 and rest.startswith(b"HTTP/1.1 200 OK\r\n"), f"the first process ended: {first.returncode} {rest}")

# sqlite3 reads the file
with sqlite3.connect(path) as conn:
    check(conn.execute("SELECT id, prefix FROM prefixes ORDER BY id").fetchall() == [(1, "10.0.0.0/24"), (2, "10.0.1.0/24")], "rows")
    check(conn.execute("PRAGMA integrity_check").fetchall() == [("ok",)], "integrity")
    check(conn.execute("SELECT value FROM meta WHERE name = 'next_prefixes'").fetchall() == [(3,)], "next id")
conn.close()

# what was answered outlives a process that is killed
killed = subprocess.Popen([program, "session", "--db", path], stdin=subprocess.PIPE, stdout=subprocess.PIPE)
killed.stdin.write(request("POST", PREFIXES, {"prefix": "10.0.3.0/24"}))
killed.stdin.flush()
answer = os.read(killed.stdout.fileno(), 65536)
check(answer.startswith(b"HTTP/1.1 201 Created\r\n"), f"the killed process: {answer}")
killed.kill()
killed.wait()
status, found, said = session([request("GET", PREFIXES + "3/")])
check(status == 0 and body_of(found) == body_of(answer), f"after a kill: {status} {found} {said}")

# what a store may hold that is refused
def changed(statement, wanted, *options):
    copy = os.path.join(folder, "copy.db")
    for name in ("copy.db", "copy.db-wal"):
        if os.path.exists(os.path.join(folder, name)):
            os.remove(os.path.join(folder, name))
    with sqlite3.connect(path) as source, sqlite3.connect(copy) as target:
        source.backup(target)
        target.execute(statement)
    source.close()
    target.close()
    answer = session([request("GET", PREFIXES)], *options, db=copy)
    check((answer[0], answer[2]) == wanted and not answer[1], f"{statement}: {answer}")


changed("UPDATE meta SET value = 9 WHERE name = 'version'", (1, b"store: version 9\n"))
changed("UPDATE prefixes SET prefix = '10.0.3.1/24' WHERE id = 3", (1, b"store: prefixes 3: unreadable\n"))
changed("UPDATE prefixes SET prefix = '10.0.0.0/24' WHERE id = 2", (1, b"store: prefixes 2: duplicate: coincides with 1\n"))
changed("UPDATE prefixes SET vrf = '7' WHERE id = 2", (1, b"store: prefixes 2: no_such: vrfs 7 is not there\n"))
changed("UPDATE meta SET value = 3 WHERE name = 'next_prefixes'", (1, b"store: prefixes: bad next id\n"))
changed("UPDATE meta SET value = -1 WHERE name = 'next_prefixes'", (4, b"store: the store could not be read\n"))
changed("DELETE FROM meta WHERE name = 'version'", (4, b"store: the store could not be read\n"))
status, out, said = session([], db=os.path.join(folder, "no", "such.db"))
check((status, out, said) == (4, b"", b"store: the store could not be read\n"), f"a folder that is not there: {status} {out} {said}")
print(f"files: {checks} checks passed")
