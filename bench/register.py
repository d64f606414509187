"""Requests a second of `ipamd session`: runs of 999 pipelined requests, first of POSTs of different prefixes, then of GETs of one prefix, beside a plain
server of Python's http.server over the same bytes, which keeps its rows in a dict and checks nothing. The time begins when a process has answered a request
before them, so that the start of neither program counts.

    bench/run register [RUNS]
"""
import io
import json
import os
import subprocess
import sys
import threading
import time
from http.server import BaseHTTPRequestHandler

HERE = os.path.dirname(os.path.abspath(__file__))
PATH = "/api/ipam/prefixes/"


def post(block):
    body = json.dumps({"prefix": block}, separators=(",", ":"))
    return f"POST {PATH} HTTP/1.1\r\nHost: 127.0.0.1:8080\r\nContent-Length: {len(body)}\r\n\r\n{body}"


def posts():
    """One request, and those that are timed."""
    return post("10.200.0.0/24"), "".join(post(f"10.{n // 256}.{n % 256}.0/24") for n in range(999))


def gets():
    return post("10.0.0.0/24"), f"GET {PATH}1/ HTTP/1.1\r\nHost: 127.0.0.1:8080\r\nUser-Agent: curl/8.5.0\r\nAccept: */*\r\n\r\n" * 999


class Peer(BaseHTTPRequestHandler):
    """Rows in a dict; no rule is checked, and no depth or children are counted."""
    protocol_version = "HTTP/1.1"
    rows = {}

    def __init__(self):
        self.rfile, self.wfile = sys.stdin.buffer, io.BufferedWriter(sys.stdout.buffer)
        self.client_address, self.close_connection = ("", 0), False
        while not self.close_connection:
            self.handle_one_request()
        self.wfile.flush()

    def answer(self, status, value):
        body = json.dumps(value, separators=(",", ":"), sort_keys=True).encode()
        self.send_response(status)
        self.send_header("Content-Length", str(len(body)))
        self.end_headers()
        self.wfile.write(body)

    def do_POST(self):
        row = json.loads(self.rfile.read(int(self.headers["Content-Length"])))
        row["id"] = len(self.rows) + 1
        self.rows[row["id"]] = row
        self.answer(201, row)

    def do_GET(self):
        self.answer(200, self.rows[int(self.path.split("/")[-2])])

    def log_message(self, *_):
        pass


def read_answer(output):
    """One answer, read to its end."""
    length = 0
    while (line := output.readline()) not in (b"\r\n", b""):
        if line.startswith(b"Content-Length: "):
            length = int(line[16:])
    output.read(length)


def timed_once(command, first, others, count=999):
    """The seconds from the writing of the second request on to the end of the last of so many answers: the process runs by then."""
    child = subprocess.Popen(command, stdin=subprocess.PIPE, stdout=subprocess.PIPE)
    child.stdin.write(first.encode())
    child.stdin.flush()
    read_answer(child.stdout)

    def write():
        child.stdin.write(others.encode())
        child.stdin.close()

    writer, begin = threading.Thread(target=write), time.perf_counter()
    writer.start()
    answers = child.stdout.read().count(b"HTTP/1.1 20")
    took = time.perf_counter() - begin
    writer.join()
    if answers != count or child.wait() != 0:
        sys.exit(f"{command[0]}: {answers} answers of {count}, status {child.returncode}")
    return took


def rate(command, requests, runs):
    """Requests a second, in the mean of some runs."""
    return 999 * runs / sum(timed_once(command, *requests) for _ in range(runs))


def measure(program, runs):
    """For each kind of request its name, how many a second the program answers, and how many the peer."""
    for name, requests in (("POST", posts()), ("GET", gets())):
        yield name, rate([program, "session"], requests, runs), rate([sys.executable, "-S", __file__, "peer"], requests, max(3, runs // 20))


def main():
    runs = int(sys.argv[1]) if len(sys.argv) > 1 else 100
    program = os.environ.get("IPAMD", os.path.join(HERE, "..", "crates", "ipamd", "out", "ipamd"))
    print(f"load {os.getloadavg()[0]:.1f}, {runs} runs of 999 requests behind a first one, a process for each run")
    for name, ours, theirs in measure(program, runs):
        print(f"{name}: ipamd {ours:,.0f} a second, http.server {theirs:,.0f}, ratio {ours / theirs:.1f}")


if __name__ == "__main__":
    Peer() if sys.argv[1:] == ["peer"] else main()
