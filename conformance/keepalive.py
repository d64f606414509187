"""How long a connection stands, over a real port: one that is used for two minutes is not cut off, an upload of 100 KB at 1 KB a second is served, and a
client that is silent or that sends a byte at a time frees its worker in 30 to 40 seconds, one that takes no answer in two minutes.

    conformance/run keepalive [PORT]
"""
import os
import socket
import subprocess
import sys
import threading
import time

sys.path.insert(0, os.path.dirname(os.path.dirname(os.path.abspath(__file__))))
from bench.full import BASE, Connection, make, request

# A client that sends nothing more is let go after so many seconds.
LEAST, MOST = 29.0, 40.0
ASKED = request("GET", "prefixes/?limit=1")


class Wrong(Exception):
    """What a connection did that it should not."""


def answered(connection, sent, wanted):
    connection.send([sent])
    status, _ = connection.answer()
    if status != wanted:
        raise Wrong(f"{status} in the place of {wanted}")


def is_cut_off(connection, since):
    """The seconds from then on until the other side ends the connection."""
    connection.socket.settimeout(MOST + 20)
    if connection.socket.recv(1) != b"":
        raise Wrong("bytes that were not asked for")
    took = time.monotonic() - since
    if not LEAST <= took <= MOST:
        raise Wrong(f"cut off after {took:.1f} s")
    return took


def used(port):
    connection, start = Connection(port), time.monotonic()
    while time.monotonic() - start < 120:
        answered(connection, ASKED, 200)
        time.sleep(5)
    answered(connection, ASKED, 200)
    return f"a request every 5 s for {time.monotonic() - start:.0f} s, all answered"


def silent(port):
    connection = Connection(port)
    return f"nothing sent: let go after {is_cut_off(connection, time.monotonic()):.1f} s"


def idle(port):
    connection = Connection(port)
    answered(connection, ASKED, 200)
    time.sleep(20)
    answered(connection, ASKED, 200)
    return f"nothing more sent behind an answer at 20 s: let go {is_cut_off(connection, time.monotonic()):.1f} s after it"


def upload(port):
    connection, body = Connection(port), b'{"prefix":"10.9.0.0/16"}'.ljust(100_000)
    connection.send([f"POST {BASE}prefixes/ HTTP/1.1\r\nHost: x\r\nContent-Length: {len(body)}\r\n\r\n".encode()])
    start = time.monotonic()
    for at in range(0, len(body), 1000):
        time.sleep(1)
        connection.send([body[at:at + 1000]])
    status, _ = connection.answer()
    if status != 201:
        raise Wrong(f"{status}")
    took = time.monotonic() - start
    return f"100 KB at 1 KB a second: served after {took:.0f} s, and let go {is_cut_off(connection, time.monotonic()):.1f} s after that"


def drip(port):
    connection, start = Connection(port), time.monotonic()
    connection.socket.settimeout(1)
    for _ in range(100):
        try:
            connection.socket.send(b"x")
            if connection.socket.recv(1) == b"":
                break
        except TimeoutError:
            continue
        except OSError:
            break
    took = time.monotonic() - start
    if not LEAST <= took <= MOST:
        raise Wrong(f"cut off after {took:.1f} s")
    return f"a byte a second: let go after {took:.1f} s"


def still_sending(port):
    connection = Connection(port)
    connection.send([f"POST {BASE}prefixes/ HTTP/1.1\r\nHost: x\r\nContent-Length: 5000000\r\n\r\n".encode()])
    for _ in range(8):
        connection.send([b" " * 5000])
        time.sleep(0.05)
    told = connection.file.read()
    if not told.startswith(b"HTTP/1.1 413 ") or b"\r\n\r\n" not in told:
        raise Wrong(f"{told[:60]!r}")
    return "a body too large, of which more comes: its answer 413 arrives whole"


def unread(port):
    """Over one worker: many large answers, of which nothing is taken, and another client behind them."""
    # the thousandth answer ends their connection
    make(port, [request("POST", "prefixes/", {"prefix": f"10.{n >> 8}.{n & 255}.0/24"}) for n in range(1000)])
    greedy = socket.socket()
    greedy.setsockopt(socket.SOL_SOCKET, socket.SO_RCVBUF, 4096)
    greedy.connect(("127.0.0.1", port))
    greedy.sendall(request("GET", "prefixes/?limit=1000") * 200)
    time.sleep(1)
    start, other = time.monotonic(), Connection(port)
    # a write waits for the base time, of which there may be three: two of the answer, and the end of the connection
    other.socket.settimeout(3 * MOST + 20)
    answered(other, ASKED, 200)
    took = time.monotonic() - start
    if took > 3 * MOST:
        raise Wrong(f"the next client waited {took:.1f} s")
    greedy.close()
    return f"answers that nobody takes: the next client of the worker is answered after {took:.1f} s"


def serve(program, port, workers):
    process = subprocess.Popen([program, "serve", "--bind", f"127.0.0.1:{port}", "--workers", str(workers)], stdout=subprocess.DEVNULL)
    for _ in range(100):
        try:
            socket.create_connection(("127.0.0.1", port)).close()
            return process
        except OSError:
            time.sleep(0.1)
    process.kill()
    sys.exit(f"keepalive: the port {port} does not listen")


def main(program, port):
    told, wrong = [], []

    def run(case, at):
        try:
            told.append(case(at))
        except (Wrong, OSError, IndexError, ValueError) as why:
            wrong.append(f"{case.__name__}: {why!r}")

    servers = [serve(program, port, 16), serve(program, port + 1, 1)]
    try:
        cases = [(case, port) for case in (used, silent, idle, upload, drip, still_sending)] + [(unread, port + 1)]
        threads = [threading.Thread(target=run, args=case) for case in cases]
        for thread in threads:
            thread.start()
        for thread in threads:
            thread.join()
    finally:
        for server in servers:
            server.kill()
            server.wait()
    print("\n".join(sorted(told)))
    if wrong:
        sys.exit("keepalive: " + "; ".join(wrong))


if __name__ == "__main__":
    main(sys.argv[1], int(sys.argv[2]))
