"""`serve` over a real file, killed under load. In each round four clients claim addresses of one prefix over HTTP, one at a time, and the program is killed by
a signal that it cannot catch. Then the file is opened again: every claim that was answered is there as it was answered, no address was given twice, and
there are at most as many more as there were clients. Of poold, clients claim numbers of two ranges that have all numbers in common.

    conformance/run kill [ROUNDS [PORT]]
    conformance/run kill_pools [ROUNDS [PORT]]
"""
import http.client
import json
import os
import random
import shutil
import socket
import sqlite3
import subprocess
import sys
import tempfile
import threading
import time

sys.path.insert(0, os.path.dirname(os.path.dirname(os.path.abspath(__file__))))
from tools.wire import answers, listens, request

name, program, rounds, port = sys.argv[1], sys.argv[2], int(sys.argv[3]), int(sys.argv[4])
CLIENTS = 4
# how many answers each client has before the program is killed, at least
FEW = 20
# and in how many seconds
PATIENCE = 120
PAGE = 1000
# what is made first, where each client claims, and what a claim gives
if name == "ipamd":
    MADE = [("/api/ipam/prefixes/", {"prefix": "10.0.0.0/12"})]
    CLAIMS = ["/api/ipam/prefixes/1/available-ips/"] * CLIENTS
    GIVEN = "address"
else:
    MADE = [("/api/ipam/asn-ranges/", {"name": f"range {n}", "start": 4200000000, "end": 4294967294}) for n in (1, 2)]
    CLAIMS = [f"/api/ipam/asn-ranges/{1 + client % 2}/available-asns/" for client in range(CLIENTS)]
    GIVEN = "asn"
folder = tempfile.mkdtemp()
path = os.path.join(folder, "office.db")
server = None


def give_up(what):
    if server is not None and server.poll() is None:
        server.kill()
    shutil.rmtree(folder, ignore_errors=True)
    sys.exit(f"kill: {what}")


def session(requests):
    done = subprocess.run([program, "session", "--db", path], input=b"".join(requests), capture_output=True)
    if done.returncode != 0 or done.stderr:
        give_up(f"a session ended {done.returncode}: {done.stderr}")
    return done.stdout


def pages():
    # the addresses of the file, page by page
    rows, offset = [], 0
    while True:
        (status, page), = answers(session([request("GET", f"/api/ipam/ip-addresses/?limit={PAGE}&offset={offset}")]))
        if status != 200:
            give_up(f"a list is answered {status}: {page}")
        rows += page["results"]
        offset += PAGE
        if page["next"] is None:
            if len(rows) != page["count"]:
                give_up(f"{len(rows)} of {page['count']} rows")
            return rows


def members():
    # the numbers of both ranges of the file
    (first, ours), (second, theirs) = answers(session([request("GET", f"/api/ipam/asn-ranges/{n}/asns/") for n in (1, 2)]))
    if (first, second) != (200, 200):
        give_up(f"lists are answered {first} and {second}")
    return ours + theirs


def stored():
    # what the file has, as objects by their ids
    found = pages() if name == "ipamd" else members()
    rows = {row["id"]: row for row in found}
    if len(rows) != len(found):
        give_up(f"{len(rows)} ids of {len(found)} rows")
    return rows


def start():
    global server
    server = subprocess.Popen([program, "serve", "--bind", f"127.0.0.1:{port}", "--workers", str(CLIENTS), "--db", path],
                              stdin=subprocess.DEVNULL, stdout=subprocess.DEVNULL, stderr=subprocess.PIPE)
    for _ in range(1200):
        if listens(port):
            return
        if server.poll() is not None:
            give_up(f"the program ended {server.returncode}: {server.stderr.read()}")
        time.sleep(0.05)
    give_up(f"the port {port} does not listen")


def client(claim, answered, wrong):
    # claims one after another until the program is gone
    connection = None
    while True:
        try:
            if connection is None:
                connection = http.client.HTTPConnection("127.0.0.1", port, timeout=30)
                connection.connect()
                connection.sock.setsockopt(socket.IPPROTO_TCP, socket.TCP_NODELAY, 1)
            connection.request("POST", claim, "{}")
            answer = connection.getresponse()
            body = answer.read()
            if answer.status != 201:
                wrong.append((answer.status, body))
                return
            answered.append(json.loads(body))
            if answer.will_close:
                connection.close()
                connection = None
        except (OSError, http.client.HTTPException):
            # the answer did not come, or not whole
            return


for number, (status, made) in enumerate(answers(session([request("POST", *one) for one in MADE])), 1):
    if status != 201 or made["id"] != number:
        give_up(f"what is made first: {status} {made}")

known = {}
for number in range(1, rounds + 1):
    start()
    told, wrong = [[] for _ in range(CLIENTS)], []
    threads = [threading.Thread(target=client, args=(CLAIMS[i], told[i], wrong)) for i in range(CLIENTS)]
    for thread in threads:
        thread.start()
    patience = time.monotonic() + PATIENCE
    while any(len(rows) < FEW for rows in told) and not wrong and time.monotonic() < patience:
        time.sleep(0.01)
    time.sleep(random.uniform(0, 0.7))
    server.kill()
    server.wait()
    for thread in threads:
        thread.join()
    if wrong:
        give_up(f"round {number}: a claim is answered {wrong[0]}")
    fresh = [row for rows in told for row in rows]
    if any(len(rows) < FEW for rows in told):
        give_up(f"round {number}: the clients had {[len(rows) for rows in told]} answers in {PATIENCE} seconds")
    rows = stored()
    for row in fresh:
        if row["id"] in known:
            give_up(f"round {number}: id {row['id']} was given before")
        known[row["id"]] = row
    for id, row in known.items():
        if rows.get(id) != row:
            give_up(f"round {number}: answered {row}, and the file has {rows.get(id)}")
    given = [row[GIVEN] for row in rows.values()]
    if len(set(given)) != len(given):
        give_up(f"round {number}: {max(given, key=given.count)} was given twice")
    # what was made and not answered: at most one claim of each client, and later rounds do not get its place
    more = [row for id, row in rows.items() if id not in known]
    if len(more) > CLIENTS:
        give_up(f"round {number}: {len(more)} rows that nobody was told of")
    for row in more:
        known[row["id"]] = row
    print(f"round {number}: {len(fresh)} claims answered, {len(rows)} in the file, {len(more)} of them not answered")

with sqlite3.connect(path) as file:
    if file.execute("PRAGMA integrity_check").fetchall() != [("ok",)]:
        give_up("the file is not whole")
file.close()
shutil.rmtree(folder)
print("kill: all as it should be")
