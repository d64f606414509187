"""A full register over HTTP, in memory and with one worker: 200,000 prefixes with one role and 500,000 addresses in no order are made over one connection
after another, a thousand requests each. Then, each the best of some: a filtered page of few addresses and one of many, a page of prefixes, a figure of a
/8, a claim that is refused; a prefix more; last, how long it takes to delete the role that all prefixes have, with the memory before it and after it. A
second register is filled with 10,000 ranges, and a third with 500,000 addresses by claims, over a file, and opened again. No peer.

    bench/run full [PORT]
"""
import json
import os
import random
import socket
import subprocess
import sys
import tempfile
import time

sys.path.insert(0, os.path.dirname(os.path.dirname(os.path.abspath(__file__))))
from bench import machine
from tools import wire

BASE = "/api/ipam/"
PREFIXES, ADDRESSES, RANGES = 200_000, 500_000, 10_000
# A connection ends with its thousandth answer.
EACH = 1_000


class Server:
    def __init__(self, program, port, *options):
        self.port = port
        self.process = subprocess.Popen([program, "serve", "--bind", f"127.0.0.1:{port}", "--workers", "1", *options], stdout=subprocess.PIPE)
        for _ in range(600):
            try:
                socket.create_connection(("127.0.0.1", port)).close()
                return
            except OSError:
                time.sleep(0.1)
        sys.exit("full: the port does not listen")

    def memory(self):
        """The memory of the process now and at most, in GB."""
        with open(f"/proc/{self.process.pid}/status") as status:
            lines = dict(line.split(":", 1) for line in status)
        return [int(lines[name].split()[0]) / 1e6 for name in ("VmRSS", "VmHWM")]

    def end(self):
        self.process.kill()
        self.process.wait()


class Connection:
    def __init__(self, port):
        self.socket = socket.create_connection(("127.0.0.1", port))
        self.socket.setsockopt(socket.IPPROTO_TCP, socket.TCP_NODELAY, 1)
        self.file = self.socket.makefile("rb")

    def send(self, requests):
        self.socket.sendall(b"".join(requests))

    def answer(self):
        status, length = int(self.file.readline().split()[1]), 0
        while (line := self.file.readline().rstrip()) != b"":
            if line.startswith(b"Content-Length: "):
                length = int(line[16:])
        return status, self.file.read(length)

    def end(self):
        self.file.close()
        self.socket.close()


def request(method, path, body=None):
    return wire.request(method, BASE + path, body)


def make(port, requests):
    """Sends requests, a thousand to a connection and a hundred at once, and gives the seconds; each is to be answered 201."""
    start = time.perf_counter()
    for at in range(0, len(requests), EACH):
        connection = Connection(port)
        for part in range(at, min(at + EACH, len(requests)), 100):
            some = requests[part:min(part + 100, at + EACH)]
            connection.send(some)
            for one in some:
                status, body = connection.answer()
                if status != 201:
                    sys.exit(f"full: {one!r} {status} {body!r}")
        connection.end()
    return time.perf_counter() - start


def ask(port, one, wanted, times=20):
    """The least seconds of so many of the same request, and the last body."""
    connection, best = Connection(port), None
    for _ in range(times):
        start = time.perf_counter()
        connection.send([one])
        status, body = connection.answer()
        took = time.perf_counter() - start
        best = took if best is None else min(best, took)
        if status != wanted:
            sys.exit(f"full: {one!r} {status} {body!r}")
    connection.end()
    return best, body


def text_of(number):
    return ".".join(str(number >> shift & 255) for shift in (24, 16, 8, 0))


def in_memory(program, port):
    server = Server(program, port)
    pick = random.Random(1)
    make(port, [request("POST", "roles/", {"name": "customers", "slug": "customers"})])
    blocks = [0x0B000000 + n for n in pick.sample(range(1 << 24), PREFIXES - 1)]
    some = [request("POST", "prefixes/", {"prefix": f"{text_of(n)}/32", "role": 1, "status": "active"}) for n in blocks]
    took = make(port, [request("POST", "prefixes/", {"prefix": "10.0.0.0/8"})] + some)
    print(f"{PREFIXES:,} prefixes in no order over HTTP: {took:.1f} s")
    hosts = [0x0A000000 + 1 + n for n in pick.sample(range((1 << 24) - 2), ADDRESSES)]
    took = make(port, [request("POST", "ip-addresses/", {"address": f"{text_of(n)}/8"}) for n in hosts])
    print(f"{ADDRESSES:,} addresses in no order over HTTP: {took:.1f} s; memory {server.memory()[0]:.2f} GB")
    inside = text_of(hosts[0] & 0xFFFFF000)
    few, body = ask(port, request("GET", f"ip-addresses/?parent={inside}/20&limit=50"), 200)
    many, _ = ask(port, request("GET", "ip-addresses/?parent=10.0.0.0/9&limit=50"), 200)
    print(f"a page of 50 of the {json.loads(body)['count']} addresses of a /20: {few * 1e3:.3f} ms; of those of a /9: {many * 1e3:.1f} ms")
    page, _ = ask(port, request("GET", "prefixes/?limit=1000"), 200)
    print(f"a page of 1,000 prefixes: {page * 1e3:.2f} ms")
    figure, body = ask(port, request("GET", "prefixes/1/utilization/"), 200)
    claim, _ = ask(port, request("POST", "prefixes/1/available-ips/", {}), 507 if ADDRESSES == 500_000 else 201)
    print(f"the figure of the /8 ({json.loads(body)['utilization']} percent): {figure * 1e3:.3f} ms; a claim that is refused since the register is full: {claim * 1e3:.3f} ms")
    ask(port, request("DELETE", "prefixes/2/"), 204, 1)
    took = make(port, [request("POST", "prefixes/", {"prefix": "13.0.0.0/32"})])
    print(f"a prefix made beside the others, whose row stands before 500,000 in the list of the keeper in memory: {took * 1e3:.1f} ms")
    before = server.memory()[1]
    start = time.perf_counter()
    ask(port, request("DELETE", "roles/1/"), 204, 1)
    took = time.perf_counter() - start
    _, body = ask(port, request("GET", "prefixes/?role_id=1&limit=1"), 200, 1)
    if json.loads(body)["count"] != 0:
        sys.exit("full: a prefix has the role that is gone")
    print(f"a role that {PREFIXES - 1:,} prefixes have is deleted in {took:.2f} s; memory at most {before:.2f} GB before it, {server.memory()[1]:.2f} GB with it")
    server.end()


def ranges(program, port):
    """Ranges alone: the keeper in memory keeps all rows in one list, so a row of another kind before many others is dear there."""
    server = Server(program, port)
    pick = random.Random(1)
    some = [request("POST", "ip-ranges/", {"start_address": f"12.{n >> 8}.{n & 255}.10/24", "end_address": f"12.{n >> 8}.{n & 255}.19/24"})
            for n in pick.sample(range(1 << 16), RANGES)]
    make(port, some[:-1_000])
    took = make(port, some[-1_000:])
    print(f"a range beside 9,000 to 10,000 others: {took * 1e3:.1f} microseconds, over HTTP, a hundred at once")
    server.end()


def over_a_file(program, port):
    with tempfile.TemporaryDirectory() as folder:
        path = os.path.join(folder, "office.db")
        server = Server(program, port, "--db", path)
        make(port, [request("POST", "prefixes/", {"prefix": "10.0.0.0/8"})])
        claims = request("POST", "prefixes/1/available-ips/", [{}] * EACH)
        took = make(port, [claims] * (ADDRESSES // EACH))
        print(f"{ADDRESSES:,} addresses by claims of 1,000, over a file: {took:.1f} s; one fdatasync of 4 KiB: {machine.sync_ms(folder):.2f} ms")
        server.end()
        start = time.perf_counter()
        server = Server(program, port, "--db", path)
        ask(port, request("GET", "prefixes/1/"), 200, 1)
        print(f"opened again in {time.perf_counter() - start:.1f} s, {server.memory()[1]:.2f} GB")
        server.end()


if __name__ == "__main__":
    in_memory(sys.argv[1], int(sys.argv[2]))
    ranges(sys.argv[1], int(sys.argv[2]) + 1)
    over_a_file(sys.argv[1], int(sys.argv[2]) + 2)
