"""HTTP as benches speak it themselves: a request as bytes, the answers of a stream, whether a port listens, and requests over one connection after another."""
import json
import time


def request(method, target, body=None):
    text = b"" if body is None else json.dumps(body, separators=(",", ":")).encode()
    length = f"Content-Length: {len(text)}\r\n" if text else ""
    return f"{method} {target} HTTP/1.1\r\nHost: x\r\n{length}\r\n".encode() + text


def answers(output):
    """The status and the value of each answer of a stream."""
    found = []
    while output:
        head, _, rest = output.partition(b"\r\n\r\n")
        length = next((int(line[16:]) for line in head.split(b"\r\n") if line.startswith(b"Content-Length: ")), 0)
        found.append((int(head.split(b" ")[1]), json.loads(rest[:length]) if length else None))
        output = rest[length:]
    return found


def listens(port):
    with open("/proc/net/tcp", encoding="ascii") as table:
        return any(f":{port:04X} 00000000:0000 0A" in line for line in table)


class Asker:
    """Requests over one connection after another: a new one before the old one is old."""

    def __init__(self, connect, token=None, base="/api/ipam/"):
        self.connect, self.base, self.connection, self.count, self.since = connect, base, None, 0, 0.0
        self.head = {"Authorization": f"Token {token}"} if token else {}

    def ask(self, method, path, body=None):
        """The status, the head and the body of the answer."""
        if self.connection is None or self.count == 500 or time.monotonic() - self.since > 15:
            self.end()
            self.connection, self.count, self.since = self.connect(), 0, time.monotonic()
        self.count += 1
        self.connection.request(method, self.base + path, None if body is None else json.dumps(body), self.head)
        answer = self.connection.getresponse()
        return answer.status, answer.headers, answer.read()

    def end(self):
        if self.connection is not None:
            self.connection.close()
            self.connection = None
