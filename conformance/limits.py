"""How little stack the program needs, and whether its memory grows with what it is asked. For each kind of request the least stack (`ulimit -s`, to 4 KB)
with which `session` gives the right answers, and `serve`, whose threads get stacks of that size too; the memory of a session after 10, 100 and 1,000
requests; that of `serve` after 1,000 to 100,000, and with bodies of 4 MiB.

    conformance/run limits [PORT]
"""
import os
import re
import resource
import subprocess
import sys
import time

sys.path.insert(0, os.path.dirname(os.path.dirname(os.path.abspath(__file__))))
from bench.full import Connection, Server, request
from conformance.hostile import BAD_JSON, GET, PAGE, nested, post, tower

MOST_STACK, STEP = 8192, 4


def rows(count):
    """So many prefixes, a page of all of them, and how the answers end."""
    sent = b"".join(request("POST", "prefixes/", {"prefix": f"10.{n >> 8}.{n & 255}.0/24"}) for n in range(count))
    return sent + request("GET", f"prefixes/?limit={count}"), f'"prefix":"10.{count - 1 >> 8}.{count - 1 & 255}.0/24","role":null,"status":{{"label":"Active","value":"active"}},"vrf":null}}]}}'.encode()


# what is asked, the bytes, and how the answers have to end
PAGE_OF_MANY, END_OF_MANY = rows(998)
ASKED = [
    ("one GET of an empty list", GET, PAGE),
    ("a body of 126 arrays in one another", post("prefixes/", nested(126)), b'"vrf":null}'),
    ("one of 100,000 arrays, refused", post("prefixes/", b"[" * 100_000), BAD_JSON),
    ("128 prefixes in one another, and claims", *tower()),
    ("a page of 998 prefixes, made before", PAGE_OF_MANY, END_OF_MANY),
    ("a claim of 1,000 addresses", request("POST", "prefixes/", {"prefix": "10.0.0.0/16"}) + request("POST", "prefixes/1/available-ips/", [{}] * 1000), b'"vrf":null}]'),
]


def with_stack(kilobytes):
    return lambda: resource.setrlimit(resource.RLIMIT_STACK, (kilobytes * 1024, kilobytes * 1024))


def session_works(program, kilobytes, sent, end):
    try:
        done = subprocess.run([program, "session"], input=sent, capture_output=True, env={}, preexec_fn=with_stack(kilobytes))
    except (OSError, subprocess.SubprocessError):
        return False
    return done.returncode == 0 and done.stdout.endswith(end)


def serve_works(program, kilobytes, sent, end, port):
    """One connection to `serve`, which is to take one and to end."""
    try:
        child = subprocess.Popen([program, "serve", "--bind", f"127.0.0.1:{port}", "--workers", "1", "--connections", "1"], env={}, stdin=subprocess.DEVNULL,
                                 stdout=subprocess.DEVNULL, stderr=subprocess.DEVNULL, preexec_fn=with_stack(kilobytes))
    except (OSError, subprocess.SubprocessError):
        return False
    while child.poll() is None and f":{port:04X} 00000000:0000 0A" not in open("/proc/net/tcp").read():
        time.sleep(0.002)
    talk = None
    if child.poll() is None:
        talk = subprocess.run([sys.executable, "-c", "import socket, sys\ns = socket.create_connection(('127.0.0.1', %d), timeout=30)\ns.sendall(sys.stdin.buffer.read())\n"
                               "s.shutdown(1)\nwhile m := s.recv(65536):\n sys.stdout.buffer.write(m)" % port], input=sent, capture_output=True)
    try:
        status = child.wait(30)
    except subprocess.TimeoutExpired:
        child.kill()
        status = child.wait()
    return talk is not None and status == 0 and talk.stdout.endswith(end)


def least(works):
    """The least stack in KB with which it works, or None; more is taken to work too."""
    low, high = 0, MOST_STACK // STEP
    if not works(MOST_STACK):
        return None
    while high - low > 1:
        middle = (low + high) // 2
        low, high = (low, middle) if works(middle * STEP) else (middle, high)
    return high * STEP


def stacks(program, port):
    print(f"{'least stack, KB':44} session   serve")
    for name, sent, end in ASKED:
        ours = least(lambda size: session_works(program, size, sent, end))
        served = least(lambda size: serve_works(program, size, sent, end, port))
        print(f"{name:44} {ours!s:>7} {served!s:>7}", flush=True)
        if ours is None or served is None:
            sys.exit(f"limits: {name}: not even with {MOST_STACK} KB")


def session_memory(program):
    found = []
    for count in (10, 100, 1000):
        sent = b"".join(request("POST", "prefixes/", {"prefix": f"10.0.{n}.0/24"}) for n in range(8)) + request("GET", "prefixes/") * (count - 8)
        done = subprocess.run(["/usr/bin/time", "-f", "%M", program, "session"], input=sent, capture_output=True)
        if done.returncode != 0 or done.stdout.count(b"HTTP/1.1 200 OK") != count - 8:
            sys.exit(f"limits: a session of {count} requests")
        found.append(f"{count}: {int(done.stderr.split()[-1]):,} KB")
    print("memory of a session by its requests, eight creations and then lists: " + ", ".join(found))


def ask_often(port, one, times, wanted):
    """Sends the same request so many times, up to a thousand over a connection and a hundred at once."""
    for at in range(0, times, 1000):
        connection = Connection(port)
        for part in range(at, min(at + 1000, times), 100):
            some = min(100, times - part)
            connection.send([one] * some)
            if any(connection.answer()[0] != wanted for _ in range(some)):
                sys.exit(f"limits: {one[:60]!r}")
        connection.end()


def serve_memory(program, port):
    server = Server(program, port)
    ask_often(port, request("POST", "prefixes/", {"prefix": "10.0.0.0/8"}), 1, 201)
    found, done = [], 0
    for count in (1_000, 10_000, 100_000):
        ask_often(port, request("GET", "prefixes/"), count - done, 200)
        done = count
        found.append(f"{count:,}: {server.memory()[0] * 1e3:.1f} MB")
    print("memory of serve by its requests, lists alone: " + ", ".join(found))
    large = b'{"name":"x","x":"' + b"a" * (4_194_304 - 19) + b'"}'
    one = b"POST /api/ipam/prefixes/ HTTP/1.1\r\nHost: x\r\nContent-Length: %d\r\n\r\n" % len(large) + large
    found = []
    for count in (1, 9, 40):
        for _ in range(count):
            connection = Connection(port)
            connection.send([one])
            if connection.answer()[0] != 400:
                sys.exit("limits: a large body")
            connection.end()
        found.append(f"{server.memory()[1] * 1e3:.1f} MB")
    print("at most, after 1, 10 and 50 bodies of 4,194,304 bytes: " + ", ".join(found))
    numbers = b"[" + b"1," * 2_097_150 + b"1]"
    one = b"POST /api/ipam/prefixes/ HTTP/1.1\r\nHost: x\r\nContent-Length: %d\r\n\r\n" % len(numbers) + numbers
    connection = Connection(port)
    connection.send([one])
    if connection.answer()[0] != 400:
        sys.exit("limits: a list of numbers")
    connection.end()
    print(f"at most, after one body of 2,097,151 numbers: {server.memory()[1] * 1e3:.1f} MB")
    server.end()


if __name__ == "__main__":
    assert re.search(rb"200 OK", PAGE) and os.path.exists("/usr/bin/time")
    session_memory(sys.argv[1])
    serve_memory(sys.argv[1], int(sys.argv[2]))
    stacks(sys.argv[1], int(sys.argv[2]) + 1)
