"""Servers under load by wrk: `ipamd serve`, and nginx as its users tune it. bench/serve.py and bench/first_table.py use it."""
import os
import re
import subprocess
import sys
import time
from dataclasses import dataclass

from bench.full import Connection, request
from tools.wire import listens

PROCESSORS = os.cpu_count() or 1
PATH = "/api/ipam/"
# worker_processes and keepalive_requests are as they are where nobody sets them; a connection to `serve` has a thousand answers, too
NGINX = """worker_processes auto; daemon off; pid {folder}/nginx.pid; error_log {folder}/errors;
events {{ worker_connections 1024; }}
http {{
    access_log off; sendfile on; tcp_nopush on; keepalive_requests 1000;
    open_file_cache max=1000 inactive=60s; open_file_cache_valid 60s;
    server {{ listen 127.0.0.1:{port} backlog=1024; location / {{ root {folder}; default_type application/json; }} }}
}}
"""
# a request that is the same each time is written once; where BODY has a %, each request has a part of an address there that no other has. wrk has no counter
# that its threads share, so each has a second part of the addresses to itself
PARTS = """
local threads = 0
function setup(thread) thread:set("mine", threads); threads = threads + 1 end
function init(words)
    wrk.method, wrk.body, n = words[1], words[2], 0
    whole = wrk.format()
end
function request()
    if not wrk.body or not wrk.body:find("%%") then return whole end
    n = n + 1
    local part = string.format("%d.%d.%d", mine * 8 + math.floor(n / 65536) % 8, math.floor(n / 256) % 256, n % 256)
    return wrk.format(nil, nil, nil, (wrk.body:gsub("%%", part)))
end
"""


@dataclass
class Load:
    """Answers a second; the 99th percentile of the time to an answer, and the longest, in milliseconds."""
    rate: float
    late: float
    longest: float


def milliseconds(text):
    number, unit = re.fullmatch(r"([\d.]+)(us|ms|s|m)", text).groups()
    return float(number) * {"us": 1e-3, "ms": 1, "s": 1e3, "m": 6e4}[unit]


def load(port, target, connections, seconds, folder, method="GET", body=None, pinned=None):
    """What wrk finds, by as many threads as connections, but no more than processors. `pinned` is the processor that wrk runs on, as taskset has it."""
    script = os.path.join(folder, "parts.lua")
    words = ["taskset", "-c", pinned] if pinned else []
    words += ["wrk", "--latency", "-t", str(min(connections, PROCESSORS)), "-c", str(connections), "-d", f"{seconds}s"]
    if method != "GET":
        with open(script, "w", encoding="ascii") as file:
            file.write(PARTS)
        words += ["-s", script]
    words += [f"http://127.0.0.1:{port}{target}"] + (["--", method, body] if method != "GET" else [])
    told = subprocess.run(words, capture_output=True, text=True, check=True).stdout
    faults = re.search(r"Socket errors: connect (\d+), read (\d+), write (\d+), timeout (\d+)", told)
    # a few connections may end while wrk reads from them
    if "Non-2xx" in told or faults and 1000 * sum(map(int, faults.groups())) > int(re.search(r"(\d+) requests in", told)[1]):
        sys.exit(f"{method} {target} by {connections} connections: {told}")
    return Load(float(re.search(r"Requests/sec: +([\d.]+)", told)[1]), milliseconds(re.search(r"99% +(\S+)", told)[1]),
                milliseconds(re.search(r"^ +Latency +\S+ +\S+ +(\S+) +\S+$", told, re.M)[1]))


class Running:
    """A server that listens, until it is ended."""

    def __init__(self, words, port, pinned=None):
        if listens(port):
            sys.exit(f"the port {port} is taken")
        self.port = port
        whole = (["taskset", "-c", pinned] if pinned else []) + words
        self.process = subprocess.Popen(whole, stdin=subprocess.DEVNULL, stdout=subprocess.DEVNULL, stderr=subprocess.PIPE)
        for _ in range(600):
            if listens(port):
                return
            if self.process.poll() is not None:
                sys.exit(f"{words[0]}: it ended with status {self.process.returncode}: {self.process.stderr.read().decode()[:500]}")
            time.sleep(0.05)
        sys.exit(f"{words[0]}: the port {port} does not listen")

    def __enter__(self):
        return self

    def __exit__(self, *_):
        self.process.terminate()
        self.process.wait()
        self.process.stderr.close()
        while listens(self.port):
            time.sleep(0.02)


def serve(program, port, workers, *options, pinned=None):
    return Running([program, "serve", "--bind", f"127.0.0.1:{port}", "--workers", str(workers), *options], port, pinned)


def nginx(folder, port, pinned=None):
    """It sends the files of the folder, which a worker of nginx, another user, has to be able to read."""
    with open(os.path.join(folder, "nginx.conf"), "w", encoding="ascii") as file:
        file.write(NGINX.format(folder=folder, port=port))
    return Running(["nginx", "-c", os.path.join(folder, "nginx.conf"), "-p", folder], port, pinned)


def fill(port):
    """One prefix for the claims and 50 addresses in it; the body of the prefix."""
    connection = Connection(port)
    connection.send([request("POST", "prefixes/", {"prefix": "10.0.0.0/8"}), request("POST", "prefixes/1/available-ips/", [{}] * 50),
                     request("GET", "prefixes/1/")])
    (made, _), (claimed, _), (status, body) = connection.answer(), connection.answer(), connection.answer()
    connection.end()
    if (made, claimed, status) != (201, 201, 200):
        sys.exit(f"a register is filled: {made}, {claimed}, {status}")
    return body
