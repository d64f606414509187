"""What a full log looks like: `serve` over a file in memory (/dev/shm) until 1,000,000 items are spent; the refusal of the next change, a list that is
answered all the same, and a change behind a restart. Half of the items are spent by claims of 1,000 addresses, the others by changes of nothing.
With --memory: what the history takes in memory, of 500,000 claims of one address each, and of 999,999 changed descriptions of 200 characters; and what is left
of it behind a restart.

    conformance/run full_log [--memory] [PORT]
"""
import json
import os
import re
import sys
import tempfile
import time

sys.path.insert(0, os.path.dirname(os.path.dirname(os.path.abspath(__file__))))
from bench.full import Connection, Server, request

MOST, AT_ONCE = 1_000_000, 100


def answers(port, requests):
    """What is answered to so many requests, a thousand to a connection and a hundred at once: status, place and body of the last one that succeeded, and of
    the first that did not."""
    last = None
    for at in range(0, len(requests), 1000):
        connection = Connection(port)
        for part in range(at, min(at + 1000, len(requests)), AT_ONCE):
            some = requests[part:part + AT_ONCE]
            connection.send(some)
            for _ in some:
                status, body = connection.answer()
                if status >= 300:
                    connection.end()
                    return last, (status, body)
                last = (status, body)
        connection.end()
    return last, None


def place_of(port):
    """The place of an answer to a list: the changes since the start."""
    connection = Connection(port)
    connection.send([request("GET", "vrfs/?limit=1")])
    head = b"".join(iter(connection.file.readline, b"\r\n"))
    connection.end()
    return int(re.search(rb"Ipam-Place: (\d+)", head)[1])


def history(program, port, name, first, changes):
    """What the history of these changes takes in memory: the process before it, behind it, and behind a restart that has the same records and no history."""
    with tempfile.TemporaryDirectory(dir="/dev/shm") as folder:
        path = os.path.join(folder, "office.db")
        server = Server(program, port, "--db", path)
        answers(port, [first])
        before = server.memory()[0]
        for at in range(0, len(changes), 100_000):
            _, refused = answers(port, changes[at:at + 100_000])
            if refused:
                sys.exit(f"full_log: {name}: {refused}")
        behind, place = server.memory()[0], place_of(port)
        server.end()
        server = Server(program, port, "--db", path)
        page, _ = answers(port, [request("GET", "prefixes/?limit=1")])
        if page[0] != 200:
            sys.exit(f"full_log: {name}: behind a restart: {page}")
        left = server.memory()[0]
        server.end()
    print(f"{name}: {before:.3f} GB, {behind:.3f} GB behind {place - 1:,} changes, {left:.3f} GB behind a restart: {(behind - left) * 1e9 / (place - 1):,.0f} bytes a change", flush=True)


def memory(program, port):
    prefix = request("POST", "prefixes/", {"prefix": "10.0.0.0/8"})
    history(program, port, "claims of one address", prefix, [request("POST", "prefixes/1/available-ips/", {})] * 500_000)
    texts = [request("PATCH", "prefixes/1/", {"description": letter * 200}) for letter in "ab"]
    history(program, port, "changed descriptions of 200 characters", prefix, [texts[n % 2] for n in range(MOST - 1)])


def main(program, port):
    with tempfile.TemporaryDirectory(dir="/dev/shm") as folder:
        path, start = os.path.join(folder, "office.db"), time.monotonic()
        server = Server(program, port, "--db", path)
        answers(port, [request("POST", "prefixes/", {"prefix": "10.0.0.0/8"})])
        for _ in range(500):
            _, refused = answers(port, [request("POST", "prefixes/1/available-ips/", [{}] * 1000)])
            if refused:
                sys.exit(f"full_log: a claim: {refused}")
        spent = 1 + 500_000
        print(f"{spent:,} items are spent by 501 changes; Ipam-Place says {place_of(port)}")
        change = request("PATCH", "prefixes/1/", {})
        _, refused = answers(port, [change] * (MOST - spent))
        if refused:
            sys.exit(f"full_log: before the log is full: {refused}")
        print(f"1,000,000 items; Ipam-Place says {place_of(port)}; {time.monotonic() - start:.0f} s, {server.memory()[1]:.2f} GB at most")
        _, refused = answers(port, [change])
        if refused != (507, b'{"code":"limit","detail":"log would exceed 1000000"}'):
            sys.exit(f"full_log: the log is full, and a change is answered {refused}")
        print(f"the next change: {refused[0]} {refused[1].decode()}")
        page, _ = answers(port, [request("GET", "prefixes/?limit=1")])
        print(f"a list: {page[0]}, {json.loads(page[1])['count']} prefixes")
        server.end()
        start = time.monotonic()
        server = Server(program, port, "--db", path)
        done, refused = answers(port, [change])
        if refused:
            sys.exit(f"full_log: behind a restart: {refused}")
        print(f"behind a restart, {time.monotonic() - start:.1f} s later: {done[0]}, Ipam-Place says {place_of(port)}")
        server.end()
    print("full_log: all as it should be")


if __name__ == "__main__":
    is_memory = sys.argv[2:3] == ["--memory"]
    (memory if is_memory else main)(sys.argv[1], int((sys.argv[2 + is_memory:] or [18460])[0]))
