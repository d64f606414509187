"""A register with nginx in front of it for the tests of NetBox's form, and between both a proxy that can break what the handler asks besides the change."""
import http.client
import http.server
import json
import os
import shutil
import ssl
import subprocess
import tempfile
import threading
import time

TOP = os.path.abspath(os.path.join(os.path.dirname(os.path.abspath(__file__)), ".."))
PROGRAM = os.environ.get("IPAMD", os.path.join(TOP, "crates/ipamd/out/ipamd"))
POOLS = os.environ.get("POOLD", os.path.join(TOP, "crates/poold/out/poold"))
CHANGES = ("POST", "PUT", "PATCH", "DELETE")


def wait_for(port):
    """Until a socket listens on this port of this machine."""
    wanted = f":{port:04X} 00000000:0000 0A"
    for _ in range(600):
        with open("/proc/net/tcp") as table:
            if any(wanted in line for line in table):
                return
        time.sleep(0.1)
    raise RuntimeError(f"the port {port} does not listen")


class Answer:
    def __init__(self, status, headers, text):
        self.status, self.headers, self.text = status, headers, text

    @property
    def value(self):
        return json.loads(self.text)


# The register closes a connection over which no request comes for 30 seconds.
LONGEST_IDLE = 10


class Link:
    """A client's connection, which is made again if it was closed or idle."""

    def __init__(self, connect, headers):
        self.connect, self.headers, self.connection, self.answered = connect, headers, None, 0

    def ask(self, method, path, body=None, **headers):
        if isinstance(body, (dict, list)):
            body = json.dumps(body).encode()
        if self.connection is None or time.monotonic() - self.answered > LONGEST_IDLE:
            self.connection = self.connect()
        try:
            self.connection.request(method, path, body, {**self.headers, **headers})
            answer = self.connection.getresponse()
            text = answer.read()
        except (http.client.HTTPException, OSError):
            self.connection.close()
            self.connection = None
            raise
        self.answered = time.monotonic()
        if answer.will_close:
            self.connection.close()
            self.connection = None
        return Answer(answer.status, answer.headers, text)


class Breaker:
    """Hands requests on to the register, and counts its changes. A GET whose path `breaks` names is answered as `mode` says, a change as `mode_of_changes`
    says; and the first answers, as many as `moved`, are of moments of their own."""

    MODES = {
        "an error": (500, b'{"code":"memory","detail":"no memory"}'), "no record": (404, b'{"code":"not_found","detail":"vrfs 1 is not there"}'),
        "no JSON": (200, b"<html>"), "another JSON": (200, b"[1,null]"), "null": (200, b"null"), "an empty object": (200, b"{}"),
        "much": (200, b'{"x":"' + b"a" * 3_000_000 + b'"}'), "a closed connection": None, "half an answer": (200, b'{"id":1,'),
    }

    MORE = {"silence": None, "20,001 records": (200, b'{"count":20001,"next":null,"previous":null,"results":[]}')}

    def __init__(self, port, inner):
        self.breaks, self.mode, self.mode_of_changes, self.changes, self.moved = (), None, None, 0, 0
        self.many = 0
        self.server = http.server.ThreadingHTTPServer(("127.0.0.1", port), type("Handler", (Handler,), {"breaker": self, "inner": inner}))
        self.server.daemon_threads = True
        threading.Thread(target=self.server.serve_forever, daemon=True).start()


class Handler(http.server.BaseHTTPRequestHandler):
    """One connection from nginx to a Breaker."""

    protocol_version, breaker, inner = "HTTP/1.1", None, None

    def log_message(self, *_):
        pass

    def handle_any(self):
        body = self.rfile.read(int(self.headers.get("Content-Length") or 0))
        if self.command in CHANGES:
            self.breaker.changes += 1
            if self.breaker.mode_of_changes:
                return self.broken(self.breaker.mode_of_changes)
        elif self.breaker.mode and self.breaker.breaks and self.path.startswith(self.breaker.breaks):
            return self.broken(self.breaker.mode)
        elif self.breaker.many and self.path.startswith("/api/ipam/prefixes/?"):
            return self.page(self.breaker.many)
        link = http.client.HTTPConnection("127.0.0.1", self.inner, timeout=60)
        link.request(self.command, self.path, body or None)
        answer = link.getresponse()
        headers = {name: value for name, value in answer.headers.items() if name != "Connection"}
        if self.breaker.moved:
            self.breaker.moved -= 1
            headers["Ipam-Place"] = f"{1_000_000 + self.breaker.moved}"
        self.answer(answer.status, answer.read(), headers)
        return link.close()

    def page(self, count):
        """A page of so many prefixes, which the register need not have."""
        query = dict(pair.split("=") for pair in self.path.split("?")[1].split("&"))
        first, limit = int(query["offset"]), int(query["limit"])
        rows = [{"children": 0, "depth": 0, "description": f"number {n}", "family": 4, "id": n + 1, "is_pool": False, "mark_utilized": False, "role": None,
                 "prefix": f"10.{n // 256}.{n % 256}.0/24", "status": {"label": "Active", "value": "active"}, "vrf": None}
                for n in range(first, min(count, first + limit))]
        text = json.dumps({"count": count, "next": None, "previous": None, "results": rows}).encode()
        self.answer(200, text, {"Content-Length": str(len(text)), "Ipam-Place": "1"})

    def broken(self, mode):
        self.close_connection = True
        if mode == "silence":
            time.sleep(3)
        if mode not in ("silence", "a closed connection"):
            status, text = {**Breaker.MODES, **Breaker.MORE}[mode]
            self.answer(status, text, {"Content-Length": str(len(text) + (9 if mode == "half an answer" else 0)), "Connection": "close"})

    def answer(self, status, text, headers):
        self.send_response_only(status)
        for name, value in headers.items():
            self.send_header(name, value)
        self.end_headers()
        self.wfile.write(text)

    do_GET = do_POST = do_PATCH = do_DELETE = do_PUT = do_HEAD = do_OPTIONS = handle_any


class Front:
    """A new register at `port`, nginx at `port` + 1, and between both a Breaker at `port` + 2. Where there are to be pools too, poold is at `port` + 3, and a
    Breaker between it and nginx at `port` + 4."""

    def __init__(self, port, between=True, read_timeout="60s", pools=False):
        self.port, self.between, self.children, self.env = port, between, [], {**os.environ, "READ_TIMEOUT": read_timeout}
        self.pools = pools

    def __enter__(self):
        self.folder = tempfile.mkdtemp()
        errors = open(os.path.join(self.folder, "serve_errors"), "w")
        self.start([PROGRAM, "serve", "--bind", f"127.0.0.1:{self.port}", "--workers", "16"], errors)
        wait_for(self.port)
        self.breaker = Breaker(self.port + 2, self.port) if self.between else None
        inner = self.port + 2 if self.between else self.port
        self.pool_breaker = None
        if self.pools:
            self.start([POOLS, "serve", "--bind", f"127.0.0.1:{self.port + 3}", "--workers", "8"], errors)
            wait_for(self.port + 3)
            self.pool_breaker = Breaker(self.port + 4, self.port + 3)
            self.env["POOLS"] = str(self.port + 4)
        self.start([os.path.join(TOP, "conformance/front.sh"), self.folder, str(inner), str(self.port + 1)], errors)
        wait_for(self.port + 1)
        with open(os.path.join(self.folder, "token")) as token:
            self.token = token.read().strip()
        self.link = self.new_link()
        self.plain = Link(lambda: http.client.HTTPConnection("127.0.0.1", self.port, timeout=60), {})
        self.base = f"https://localhost:{self.port + 1}"
        return self

    def __exit__(self, *_):
        for child in reversed(self.children):
            child.terminate()
            child.wait()
        for breaker in filter(None, (self.breaker, self.pool_breaker)):
            breaker.server.shutdown()
            breaker.server.server_close()
        shutil.rmtree(self.folder)

    def start(self, command, errors):
        self.children.append(subprocess.Popen(command, stdin=subprocess.DEVNULL, stdout=subprocess.DEVNULL, stderr=errors, env=self.env))

    def new_link(self):
        context = ssl.create_default_context(cafile=self.certificate())
        return Link(lambda: http.client.HTTPSConnection("localhost", self.port + 1, context=context, timeout=60), {"Authorization": f"Token {self.token}"})

    def certificate(self):
        return os.path.join(self.folder, "register.pem")

    def ask(self, method, path, body=None, **headers):
        """A request of NetBox's form. None makes more than one change."""
        before = self.changes()
        answer = self.link.ask(method, "/api/ipam/" + path, body, **headers)
        made = self.changes() - before
        assert made <= (1 if method in CHANGES else 0), f"{method} {path} made {made} changes"
        return answer

    def changes(self):
        """How many changes were sent to both programs, as far as they are counted."""
        return sum(breaker.changes for breaker in (self.breaker, self.pool_breaker) if breaker)

    def want(self, status, method, path, body=None):
        """The value of an answer with this status."""
        answer = self.ask(method, path, body)
        assert answer.status == status, f"{method} {path} {str(body)[:200]}: {answer.status} {answer.text[:300]}"
        return answer.value if answer.text else None

    def errors(self):
        """What nginx wrote into its log of errors."""
        with open(os.path.join(self.folder, "errors")) as file:
            return file.read()


class Claims:
    """Prints a line for each claim, and the sum."""

    def __init__(self):
        self.held = self.failed = 0

    def check(self, claim, test, *words):
        started = time.monotonic()
        try:
            more = test(*words)
            self.held += 1
            print(f"holds   {claim}{': ' + more if more else ''}  ({time.monotonic() - started:.1f} s)", flush=True)
        except Exception as fault:  # noqa: BLE001
            self.failed += 1
            print(f"FAILED  {claim}: {type(fault).__name__} {str(fault)[:600]}", flush=True)
