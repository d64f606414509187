"""Sessions of `poold` over a real file, as conformance/files.py has those of ipamd; that each program refuses the other one's file and leaves it; and that
standard error says what the table of docs/USING-POOLS.md has, and each row of it.

    conformance/run files_pools
"""
import csv
import hashlib
import io
import os
import re
import shutil
import sqlite3
import subprocess
import sys
import tempfile
import time

sys.path.insert(0, os.path.dirname(os.path.dirname(os.path.abspath(__file__))))
from model.plain_pools import request_of
from tools.wire import answers, listens

program, register = sys.argv[1:3]
folder = tempfile.mkdtemp()
path, register_path = os.path.join(folder, "pools.db"), os.path.join(folder, "office.db")
COPY = os.path.join(os.path.dirname(os.path.abspath(__file__)), "../examples/copy_register.py")
UNREAD = b"store: the store could not be read\n"
checks = 0
# what standard error said, with N for a number, and the status
lines = set()


def check(holds, what):
    global checks
    checks += 1
    if not holds:
        sys.exit(f"files: {what}")


def session(requests, db=path, of=program):
    done = subprocess.run([of, "session", "--db", db], input=b"".join(requests), capture_output=True)
    heard(of, done)
    return done.returncode, done.stdout, done.stderr


def heard(of, done):
    if of == program and done.returncode != 0:
        lines.add((re.sub(r"\d+", "N", done.stderr.decode().rstrip("\n")), done.returncode))


def sums():
    return {name: hashlib.sha256(open(os.path.join(folder, name), "rb").read()).hexdigest() for name in sorted(os.listdir(folder))}


def query(text, db=path):
    conn = sqlite3.connect(db)
    rows = conn.execute(text).fetchall()
    conn.close()
    return rows


def over_a_file():
    """What one process made the next one has, and sqlite3 reads."""
    status, out, said = session([request_of("POST", "asn-ranges/", {"name": "private", "start": 64512, "end": 65534}),
                                 request_of("POST", "vlan-groups/", {"name": "floor \u00e9", "start": 10, "end": 4094}),
                                 request_of("POST", "asn-ranges/1/available-asns/", [{}, {}, {}]),
                                 request_of("POST", "vlan-groups/2/available-vlans/", {"name": "voice"}),
                                 request_of("DELETE", "asns/2/")])
    check((status, said) == (0, b"") and [one[0] for one in answers(out)] == [201, 201, 201, 201, 204], f"made: {status} {out} {said}")
    status, out, said = session([request_of("GET", "asn-ranges/1/asns/"), request_of("GET", "vlan-groups/"), request_of("POST", "asn-ranges/1/available-asns/", {}),
                                 request_of("POST", "vlan-groups/", {"name": "next", "start": 1, "end": 1}), request_of("DELETE", "vlan-groups/3/")])
    wanted = [(200, [{"asn": 64512, "id": 1, "range": 1}, {"asn": 64514, "id": 3, "range": 1}]), (200, [{"end": 4094, "id": 2, "name": "floor \u00e9", "start": 10}]),
              (201, {"asn": 64513, "id": 5, "range": 1}), (201, {"end": 1, "id": 3, "name": "next", "start": 1}), (204, None)]
    check((status, said) == (0, b"") and answers(out) == wanted and b"Ipam-Place: 0\r\n" in out, f"found: {status} {out} {said}")
    check(query("SELECT id, kind, name, first, last FROM ranges ORDER BY id") == [(1, "asn", "private", 64512, 65534), (2, "vlan", "floor \u00e9", 10, 4094)], "ranges")
    check(query("SELECT id, range, number, name FROM members ORDER BY id") == [(1, 1, 64512, ""), (3, 1, 64514, ""), (4, 2, 10, "voice"), (5, 1, 64513, "")], "members")
    check(sorted(query("SELECT name, value FROM meta")) == [("next_members", 6), ("next_ranges", 4)], "next ids")
    check(query("PRAGMA integrity_check") == [("ok",)], "integrity")


def two_processes():
    """While one has the file, another one is refused, and so is sqlite3; an answered change outlives a process that is killed."""
    first = subprocess.Popen([program, "session", "--db", path], stdin=subprocess.PIPE, stdout=subprocess.PIPE)
    first.stdin.write(request_of("POST", "asn-ranges/1/available-asns/", {}))
    first.stdin.flush()
    answer = os.read(first.stdout.fileno(), 65536)
    check(answer.startswith(b"HTTP/1.1 201 Created\r\n"), f"the first process: {answer}")
    before = sums()
    check(session([]) == (4, b"", UNREAD), "the second process")
    check(sums() == before, "the second process changed a file")
    try:
        sqlite3.connect(path, timeout=0).execute("SELECT count(*) FROM members").fetchall()
        check(False, "sqlite3 read the file of a running process")
    except sqlite3.OperationalError as error:
        check("locked" in str(error), f"sqlite3: {error}")
    first.kill()
    first.wait()
    status, out, said = session([request_of("GET", "asn-ranges/1/asns/")])
    check(status == 0 and answers(out)[0][1][-1] == {"asn": 64515, "id": 6, "range": 1}, f"after a kill: {status} {out} {said}")


def refused(statement, wanted):
    """A copy of the file in which this was changed is refused so, and is left."""
    copy = os.path.join(folder, "copy.db")
    for name in (copy, copy + "-wal"):
        if os.path.exists(name):
            os.remove(name)
    with sqlite3.connect(path) as source, sqlite3.connect(copy) as target:
        source.backup(target)
        target.execute(statement)
    source.close()
    target.close()
    status, out, said = session([], db=copy)
    check((status, said) == wanted and not out, f"{statement}: {status} {out} {said}")


def broken_rows():
    refused("UPDATE ranges SET last = 4095 WHERE id = 2", (1, b"store: range 2\n"))
    refused("UPDATE ranges SET first = 0 WHERE id = 1", (1, b"store: range 1\n"))
    refused("INSERT INTO ranges (id, kind, name, first, last) VALUES (3, 'asn', 'private', 1, 2)", (1, b"store: range 3\n"))
    refused("INSERT INTO ranges (id, kind, name, first, last) VALUES (0, 'asn', 'zero', 1, 2)", (1, b"store: range 0\n"))
    refused("UPDATE members SET number = 64514 WHERE id = 5", (1, b"store: member 5\n"))
    refused("UPDATE members SET number = 9 WHERE id = 4", (1, b"store: member 4\n"))
    refused("UPDATE members SET range = 7 WHERE id = 3", (1, b"store: member 3\n"))
    refused("UPDATE meta SET value = 6 WHERE name = 'next_members'", (1, b"store: bad next id\n"))
    refused("UPDATE meta SET value = 0 WHERE name = 'next_ranges'", (1, b"store: bad next id\n"))
    refused("UPDATE meta SET value = -1 WHERE name = 'next_ranges'", (4, UNREAD))
    refused("DELETE FROM meta WHERE name = 'next_ranges'", (4, UNREAD))
    refused("UPDATE ranges SET kind = 'vxlan' WHERE id = 2", (4, UNREAD))
    refused("DROP TABLE members", (4, UNREAD))
    check(session([], db=os.path.join(folder, "no", "such.db")) == (4, b"", UNREAD), "a folder that is not there")


def exports():
    """`export` prints what sqlite3 reads of the file, as Python's csv writes it, and leaves the rows."""
    ranges = "SELECT name, first, last FROM ranges WHERE kind = '{}' ORDER BY id"
    members = "SELECT r.name, m.number, m.name FROM members m JOIN ranges r ON r.id = m.range WHERE r.kind = '{}' ORDER BY m.id"
    session([request_of("POST", "vlan-groups/", {"name": 'a,"b"', "start": 1, "end": 9}), request_of("POST", "vlan-groups/", {"name": "=1", "start": 1, "end": 9})])
    before = query("SELECT * FROM ranges"), query("SELECT * FROM members")
    for kind, header, rows in (("asn-ranges", "name,start,end", ranges.format("asn")), ("vlan-groups", "name,start,end", ranges.format("vlan")),
                               ("asns", "range,asn,name", members.format("asn")), ("vlans", "group,vid,name", members.format("vlan"))):
        wanted = io.StringIO()
        writer = csv.writer(wanted, lineterminator="\n")
        writer.writerows([header.split(","), *query(rows)])
        done = subprocess.run([program, "export", kind, "--db", path], stdin=subprocess.DEVNULL, capture_output=True)
        check((done.returncode, done.stdout, done.stderr) == (0, wanted.getvalue().encode(), b""), f"export {kind}: {done}")
    check(before == (query("SELECT * FROM ranges"), query("SELECT * FROM members")), "the rows after the exports")


def other_files():
    """Each program refuses the other one's file, with every command, and leaves it; an empty file becomes one of its own."""
    made = session([request_of("POST", "prefixes/", {"prefix": "10.0.0.0/24"})], db=register_path, of=register)
    check(made[0] == 0, f"a register: {made}")
    before = sums()
    check(session([request_of("GET", "asn-ranges/")], db=register_path) == (4, b"", UNREAD), "a register's file")
    check(session([request_of("GET", "prefixes/")], of=register) == (4, b"", UNREAD), "a file of pools")
    for words in (["import", "vrfs"], ["export", "vrfs"], ["report", "tree"], ["reverse", "--prefix", "1"]):
        done = subprocess.run([register, *words, "--db", path], input=b"name\nred\n", capture_output=True)
        check((done.returncode, done.stdout, done.stderr) == (4, b"", UNREAD), f"a file of pools, {words}: {done}")
    after = sums()
    check({name: sum for name, sum in after.items() if not name.endswith("-wal")} == {name: sum for name, sum in before.items() if not name.endswith("-wal")},
          f"a file of the other program was changed: {before} {after}")
    check(session([request_of("GET", "prefixes/1/")], db=register_path, of=register)[0] == 0, "the register afterwards")
    check(session([request_of("GET", "asn-ranges/")])[0] == 0, "the pools afterwards")
    empty = os.path.join(folder, "empty.db")
    open(empty, "w").close()
    check(session([request_of("GET", "asn-ranges/")], db=empty)[0] == 0 and query("SELECT count(*) FROM meta", empty) == [(2,)], "an empty file")


def copied():
    """A copy of pools that are served is the file that they leave, and is served."""
    live, copy, port = os.path.join(folder, "live.db"), os.path.join(folder, "live_copy.db"), 18491
    shutil.copy(path, live)
    server = subprocess.Popen([program, "serve", "--bind", f"127.0.0.1:{port}", "--workers", "2", "--db", live], stdin=subprocess.DEVNULL)
    for _ in range(300):
        if listens(port):
            break
        time.sleep(0.1)
    nexts = [word for name in ("ranges", "members") for word in ("--next", f"{name}={dict(query('SELECT name, value FROM meta'))['next_' + name]}")]
    made = subprocess.run([sys.executable, COPY, f"http://127.0.0.1:{port}", copy, "--pools", *nexts], capture_output=True, text=True)
    server.terminate()
    server.wait()
    check(made.returncode == 0 and made.stdout.endswith("; place 0\n"), f"a copy: {made}")
    check(session([], db=copy)[0] == 0, "a copy is opened")
    for table in ("meta", "ranges", "members"):
        text = f"SELECT * FROM {table} ORDER BY 1"
        check(query(text, copy) == query(text, path), f"a copy has the rows of {table}")


def table_of_page():
    """Each line that standard error has is in the table of docs/USING-POOLS.md, and each row of it was seen."""
    done = subprocess.run([program], stdin=subprocess.DEVNULL, capture_output=True)
    heard(program, done)
    with open(os.path.join(os.path.dirname(os.path.abspath(__file__)), "../docs/USING-POOLS.md"), encoding="utf-8") as page:
        part = page.read().split("\n## What standard error says\n")[1].split("\n## ")[0]
    rows = {(line, int(status)) for line, status in re.findall(r"^\| `([^`]+)` \| (\d) \|", part, re.M)}
    check(lines == rows, f"in the table or here alone: {sorted(lines ^ rows)}")


over_a_file()
two_processes()
broken_rows()
other_files()
copied()
exports()
table_of_page()
shutil.rmtree(folder)
print(f"files: {checks} checks passed")
