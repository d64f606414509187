#!/usr/bin/env python3
"""Random and mutated streams of bytes to `session` and to `serve` over TCP. A stream is some real requests (those of crates/ipamd/stdin), some of them
mutated (lengths, line ends, nul bytes, huge numbers, bytes put in, left out, turned, doubled), perhaps cut anywhere, perhaps with bytes at random behind. Among
the requests stand unmutated ones whose answers say their number. Of each stream it is looked that

- the program does not end by a signal, and its status is that of its words (0; 3 where the reader of its output went away);
- what it writes is a sequence of whole HTTP answers with their fields, each status, code and place one of those that docs/USING.md has; the numbers rise, so
  that the answers come in the order of the requests; nothing stands behind an answer that closes;
- cut into pieces of another size the same stream has the same answers (every fourth stream of `session`, at one byte each where it is short);
- memory stays below a bound.

    conformance/run fuzz [--session N] [--serve N] [--seed S]      the built program (./ipamd builds it; IPAMD=PROGRAM takes another one)
"""
import argparse
import json
import os
import random
import re
import resource
import signal
import socket
import struct
import subprocess
import sys
import tempfile
import threading
import time

sys.path.insert(0, os.path.dirname(os.path.dirname(os.path.abspath(__file__))))
from tools.wire import listens

TOP = os.path.join(os.path.dirname(os.path.abspath(__file__)), "..")
STATUSES = {200: "OK", 201: "Created", 204: "No Content", 400: "Bad Request", 404: "Not Found", 405: "Method Not Allowed", 409: "Conflict",
            413: "Payload Too Large", 501: "Not Implemented", 507: "Insufficient Storage"}
WITHOUT_PLACE = {"bad_head", "too_large", "coding", "no_route", "method", "bad_json", "field", "host_bits"}
CLOSING = {"bad_head", "too_large", "coding"}
MARK = re.compile(rb'"previous":"/api/ipam/roles/\?limit=777&offset=(\d+)"')
MOST_MEMORY = {"session": 64, "serve": 512}  # MB
PATIENCE = 60


class Broken(Exception):
    """What is not as it has to be."""


def documented():
    """The codes of docs/USING.md with their statuses, from the rows of its tables that begin with the status of a refusal."""
    codes = {}
    with open(os.path.join(TOP, "docs/USING.md"), encoding="utf-8") as page:
        for line in page:
            if re.match(r"\| [45]\d\d\b", line):
                for code in re.findall(r"`([a-z_]+)`", "|".join(line.split("|")[1:3])):
                    codes.setdefault(code, set()).add(int(line[2:5]))
    return codes


CODES = documented()


# ---- streams

def real_requests():
    """The requests of the gate's conversation, one by one."""
    with open(os.path.join(TOP, "crates/ipamd/stdin"), "rb") as file:
        text = file.read()
    found = []
    while text:
        head, _, rest = text.partition(b"\r\n\r\n")
        length = re.search(rb"(?i)\r\ncontent-length: *(\d+)", head)
        size = len(head) + 4 + (int(length[1]) if length else 0)
        found.append(text[:size])
        text = text[size:]
    return [one for one in found if len(one) < 20_000 and not re.search(rb"(?i)\r\n(connection|transfer-encoding):| HTTP/1\.0", one)]


def post(kind, body):
    return b"POST /api/ipam/%s/ HTTP/1.1\r\nHost: x\r\nContent-Length: %d\r\n\r\n%s" % (kind, len(body), body)


# a populated range, and an address in it, which no other request is near
IN_RANGE = [post(b"ip-ranges", b'{"start_address":"198.18.0.10/24","end_address":"198.18.0.20/24","mark_populated":true}'),
            post(b"ip-addresses", b'{"address":"198.18.0.15/24"}')]


class Mutator:
    def __init__(self, seed, requests):
        self.pick, self.requests = random.Random(seed), requests

    def mark(self, number):
        return b"GET /api/ipam/roles/?limit=777&offset=%d HTTP/1.1\r\nHost: x\r\n\r\n" % (number + 777)

    def mutated(self, text):
        way = self.pick.choice([self.turn, self.put, self.leave, self.double, self.end_of_line, self.number, self.length, self.field, self.deep, self.long])
        return way(text)

    def place(self, text):
        return self.pick.randrange(len(text) + 1)

    def turn(self, text):
        at = self.place(text)
        return text[:at] + bytes([self.pick.randrange(256)]) + text[at + 1:]

    def put(self, text):
        at = self.place(text)
        some = self.pick.choice([b"\0", b"\r", b"\n", b"\r\n", b"\r\n\r\n", b" ", b"\t", b":", b"/", b"?", b"%", b"%00", b"\xff", b"\xc3", b"\x7f", b"{", b"[", b'"', b"\\",
                                 bytes(self.pick.randrange(256) for _ in range(self.pick.randrange(1, 40)))])
        return text[:at] + some + text[at:]

    def leave(self, text):
        at = self.place(text)
        return text[:at] + text[at + self.pick.choice([1, 1, 2, 5, 20]):]

    def double(self, text):
        at, to = sorted((self.place(text), self.place(text)))
        return text[:to] + text[at:to] * self.pick.choice([1, 1, 2, 30]) + text[to:]

    def end_of_line(self, text):
        return text.replace(b"\r\n", self.pick.choice([b"\n", b"\r", b"\n\r", b"\r\r\n", b"\r\n ", b"\0\r\n"]), self.pick.choice([1, 1, 2, 9]))

    def number(self, text):
        found = list(re.finditer(rb"\d+", text))
        if not found:
            return text
        one = self.pick.choice(found)
        value = self.pick.choice([b"0", b"00", b"-1", b"4294967295", b"4294967296", b"18446744073709551616", b"9" * 40, b"1e400", b"1.5", b"-0", b"129", b"9" * 5000])
        return text[:one.start()] + value + text[one.end():]

    def length(self, text):
        wrong = self.pick.choice([b"0", b"1", b"4194304", b"4194305", b"9999999999999999999", b"00000000000000000001", b"+5", b"0x5", b"", b"5, 5", b"5 5", b"-1"])
        if b"Content-Length: " in text and self.pick.random() < 0.8:
            return re.sub(rb"Content-Length: \d+", b"Content-Length: " + wrong, text, count=1)
        return text.replace(b"\r\n", b"\r\nContent-Length: " + wrong + b"\r\n", 1)

    def field(self, text):
        some = self.pick.choice([b"Transfer-Encoding: chunked", b"Connection: close", b"Connection: x, y,close", b"Content-Length: 0", b"Expect: 100-continue", b": x", b"A B: c",
                                 b"A:" + b"x" * self.pick.choice([1, 16000, 17000]), b"\r\n".join(b"F%d: x" % n for n in range(self.pick.choice([61, 63, 64, 70])))])
        return text.replace(b"\r\n", b"\r\n" + some + b"\r\n", 1)

    def deep(self, text):
        count, sign = self.pick.choice([1, 100, 126, 127, 128, 5000]), self.pick.choice([b"[]", b"{}"])
        body = b'{"name":"x","x":' + (sign[:1] + (b'"a":' if sign == b"{}" else b"")) * count + b"0" + sign[1:] * self.pick.choice([count, count, 0]) + b"}"
        return b"POST /api/ipam/vrfs/ HTTP/1.1\r\nHost: x\r\nContent-Length: %d\r\n\r\n" % len(body) + body

    def long(self, text):
        return text.replace(b"/", b"/" + self.pick.choice([b"a", b"%41", b"\xc3\xa9", b"x?"]) * self.pick.choice([10, 5000, 17000]), 1)

    def stream(self):
        if self.pick.random() < 0.03:
            return self.pick.randbytes(self.pick.choice([1, 10, 100, 5000, 40_000]))
        parts, dirty = [], self.pick.choice([0, 0.1, 0.3, 1])
        for number in range(self.pick.choice([1, 2, 4, 8, 20])):
            request = self.pick.choice(self.requests)
            for _ in range(self.pick.choice([1, 1, 1, 2, 4]) if self.pick.random() < dirty else 0):
                request = self.mutated(request)
            parts += [request, self.mark(number)]
        text = b"".join((IN_RANGE if self.pick.random() < 0.05 else []) + parts)
        if self.pick.random() < 0.3:
            text = text[:self.place(text)]
        return text + (self.pick.randbytes(30) if self.pick.random() < 0.1 else b"")


# ---- answers

def read_head(text):
    head, end, rest = text.partition(b"\r\n\r\n")
    lines = head.split(b"\r\n")
    found = re.fullmatch(rb"HTTP/1\.1 (\d{3}) ([A-Za-z ]+)", lines[0])
    if not end or not found or STATUSES.get(int(found[1])) != found[2].decode():
        raise Broken(f"no head of an answer: {text[:200]!r}")
    names, fields = ["Content-Type", "Content-Length", "Allow", "Ipam-Place", "Connection"], {}
    for line in lines[1:]:
        name, _, value = line.decode("ascii").partition(": ")
        if name not in names:
            raise Broken(f"a field that is not in its order: {head!r}")
        names, fields[name] = names[names.index(name) + 1:], value
    return int(found[1]), fields, rest


def read_body(status, fields, rest, has_heads):
    """The value of the body, or None where there is none, and what follows it."""
    if status == 204:
        if "Content-Length" in fields or "Content-Type" in fields:
            raise Broken("a body where there is none")
        return None, rest
    length = int(fields["Content-Length"])
    if has_heads and status in (404, 405) and (rest == b"" or rest.startswith(b"HTTP/1.1 ")):
        return None, rest
    if fields["Content-Type"] != "application/json" or len(rest) < length:
        raise Broken(f"a body that is short: {fields} {rest[:200]!r}")
    return json.loads(rest[:length]), rest[length:]


def check_answer(status, fields, value):
    code = value.get("code") if isinstance(value, dict) and status >= 400 else None
    if value is not None and status >= 400 and (status not in CODES.get(code, ()) or set(value) != {"code", "detail"}):
        raise Broken(f"a refusal that is none: {status} {value}")
    if value is not None and ("Ipam-Place" in fields) != (code not in WITHOUT_PLACE):
        raise Broken(f"the place: {fields} {code}")
    if (status == 405) != ("Allow" in fields) or code in CLOSING and fields.get("Connection") != "close":
        raise Broken(f"the fields: {status} {fields} {code}")
    return code or str(status)


def check_answers(text, has_heads, tally, may_be_cut=False):
    """Looks at all answers, and counts them by their codes."""
    place, last = -1, -1
    while text:
        if may_be_cut and (b"\r\n\r\n" not in text or len(text.partition(b"\r\n\r\n")[2]) < int((re.search(rb"Content-Length: (\d+)", text) or [0, 0])[1])):
            return
        status, fields, rest = read_head(text)
        value, rest = read_body(status, fields, rest, has_heads)
        mark = MARK.search(text[:len(text) - len(rest)])
        if mark:
            if int(mark[1]) <= last:
                raise Broken(f"answers out of order: {mark[1]} behind {last}")
            last = int(mark[1])
        if "Ipam-Place" in fields:
            if int(fields["Ipam-Place"]) < place:
                raise Broken(f"a place that falls: {fields['Ipam-Place']} behind {place}")
            place = int(fields["Ipam-Place"])
        name = check_answer(status, fields, value)
        tally[name] = tally.get(name, 0) + 1
        if fields.get("Connection") == "close" and rest:
            raise Broken(f"bytes behind an answer that closes: {rest[:200]!r}")
        text = rest


# ---- session

def run_session(program, text, piece, goes_away):
    """What it writes, its status, and its memory in MB; the reader may go away at once."""
    child = subprocess.Popen([program, "session"], stdin=subprocess.PIPE, stdout=subprocess.PIPE, stderr=subprocess.DEVNULL, bufsize=0)
    if goes_away:
        child.stdout.close()

    def write():
        try:
            for at in range(0, len(text), piece):
                child.stdin.write(text[at:at + piece])
            child.stdin.close()
        except OSError:
            pass

    writer = threading.Thread(target=write)
    writer.start()
    watch = threading.Timer(PATIENCE, child.kill)
    watch.start()
    told = b"" if goes_away else child.stdout.read()
    _, status, usage = os.wait4(child.pid, 0)
    child.returncode = os.waitstatus_to_exitcode(status)
    watch.cancel()
    writer.join()
    for end in (child.stdin, child.stdout):
        try:
            end.close()
        except OSError:
            pass
    return told, child.returncode, usage.ru_maxrss / 1000


def one_session(program, number, mutator, tally):
    """One stream, or two runs of it; gives the memory."""
    text = mutator.stream()
    try:
        goes_away = number % 50 == 49
        told, status, memory = run_session(program, text, mutator.pick.choice([1 << 30, 4096, 1000, 7]), goes_away)
        if status not in ((0, 3) if goes_away else (0,)):
            raise Broken(f"status {status}")
        if memory > MOST_MEMORY["session"]:
            raise Broken(f"{memory:.0f} MB")
        check_answers(told, b"HEAD" in text, tally)
        if number % 4 == 0 and not goes_away:
            again, status, _ = run_session(program, text, 1 if len(text) < 3000 else mutator.pick.randrange(1, len(text)), False)
            if again != told or status != 0:
                raise Broken(f"in other pieces the answers are others, status {status}")
    except Exception as fault:
        keep(text, fault)
    return memory


def keep(text, fault):
    with tempfile.NamedTemporaryFile(delete=False, suffix=".stream") as file:
        file.write(text)
    sys.exit(f"fuzz: {fault} (the stream is kept in {file.name})")


# ---- serve

def one_connection(port, text, mutator, tally):
    """One stream over a connection of its own, read to its end, or ended by the client at some moment."""
    way = mutator.pick.choice(["read", "read", "read", "pieces", "reset", "leave"])
    with socket.create_connection(("127.0.0.1", port), timeout=PATIENCE) as peer:
        told = b""
        peer.setsockopt(socket.IPPROTO_TCP, socket.TCP_NODELAY, 1)
        try:
            piece = mutator.pick.choice([1, 50, 1000]) if way == "pieces" and len(text) < 3000 else 1 << 30
            for at in range(0, len(text), piece):
                peer.sendall(text[at:at + piece])
            if way == "reset":
                peer.setsockopt(socket.SOL_SOCKET, socket.SO_LINGER, struct.pack("ii", 1, 0))
            if way in ("reset", "leave"):
                return way
            peer.shutdown(socket.SHUT_WR)
        except (ConnectionResetError, BrokenPipeError, OSError):
            pass  # it closed before all was sent, as it may; what it wrote can be lost then
        try:
            while more := peer.recv(65536):
                told += more
        except ConnectionResetError:
            way = "cut"
        check_answers(told, b"HEAD" in text, tally, may_be_cut=way == "cut")
    return way


def memory_of(child):
    """The memory of a running process at most, in MB."""
    with open(f"/proc/{child.pid}/status") as status:
        return int(re.search(r"VmHWM:\s+(\d+)", status.read())[1]) / 1000


def fuzz_serve(program, count, seed, requests, port):
    workers = 4
    each = (count + workers - 1) // workers
    child = subprocess.Popen([program, "serve", "--bind", f"127.0.0.1:{port}", "--workers", str(workers), "--connections", str(each)],
                             stdin=subprocess.DEVNULL, stdout=subprocess.PIPE, stderr=subprocess.PIPE)
    while not listens(port):
        if child.poll() is not None:
            sys.exit(f"fuzz: serve ended {child.returncode}")
        time.sleep(0.05)
    tally, ways, memory = {}, {}, 0
    for number in range(each * workers):
        mutator = Mutator(f"{seed} serve {number}", requests)
        text = mutator.stream()
        try:
            if child.poll() is not None and number < each * workers - 1:
                raise Broken(f"serve ended {child.returncode} before connection {number}: {child.stderr.read()!r}")
            way = one_connection(port, text, mutator, tally)
            ways[way] = ways.get(way, 0) + 1
            if number % 200 == 0:
                memory = memory_of(child)
                if memory > MOST_MEMORY["serve"]:
                    raise Broken(f"{memory:.0f} MB")
        except Exception as fault:
            child.kill()
            keep(text, f"connection {number}: {type(fault).__name__} {fault}")
    told = child.communicate(timeout=PATIENCE + 60)
    if child.returncode != 0 or not re.fullmatch(rb"entries \d+\n", told[0]) or told[1]:
        sys.exit(f"fuzz: serve ended {child.returncode} {told}")
    print(f"fuzz: {each * workers} connections to serve ({', '.join(f'{n} {way}' for way, n in sorted(ways.items()))}), at most {memory:.0f} MB, {told[0].decode().strip()}")
    return tally


def main():
    words = argparse.ArgumentParser()
    words.add_argument("--session", type=int, default=2000)
    words.add_argument("--serve", type=int, default=20_000)
    words.add_argument("--seed", default="1")
    words.add_argument("--port", type=int, default=18420)
    given = words.parse_args()
    program = os.environ.get("IPAMD", os.path.join(TOP, "crates/ipamd/out/ipamd"))
    if not os.access(program, os.X_OK):
        sys.exit("build the program first: ./ipamd free 10.0.0.0/8 </dev/null")
    resource.setrlimit(resource.RLIMIT_CORE, (0, 0))
    signal.signal(signal.SIGPIPE, signal.SIG_IGN)
    requests, start, tally, memory = real_requests(), time.monotonic(), {}, 0
    for number in range(given.session):
        memory = max(memory, one_session(program, number, Mutator(f"{given.seed} session {number}", requests), tally))
    print(f"fuzz: {given.session} streams to session, at most {memory:.0f} MB, {time.monotonic() - start:.0f} s")
    start = time.monotonic()
    if given.serve:
        for name, count in fuzz_serve(program, given.serve, given.seed, requests, given.port).items():
            tally[name] = tally.get(name, 0) + count
    print("  " + ", ".join(f"{name} {count}" for name, count in sorted(tally.items())))
    print(f"fuzz: {given.session} streams, {given.serve} connections, seed {given.seed}, {len(requests)} real requests, {time.monotonic() - start:.0f} s for serve; "
          "no signal, no answer out of order, each as documented")


if __name__ == "__main__":
    main()
