"""examples/copy_register.py while a register is used: four clients change it over HTTP, each change that is accepted is kept with its place, and copies are
made meanwhile. Of each copy the changes up to its place are made once more in an empty register, which is stopped then: its exports, reports and rows have
to be those of the copy, which is opened with status 0. Copies without --hold, where changes have pauses; with --hold, where they have none, by nginx with
examples/nginx-ipamd.conf, where all reading goes on; copies that are given up, ended by a signal, and refused; a register that is started anew while it is
copied; the lines of cron in docs/OPERATING.md; and examples/ipamd-from. With --full a register of 200,000 prefixes and 500,000 addresses is copied too, with the time that it
takes.

    conformance/run copies [--full] [PORT]
"""
import argparse
import contextlib
import glob
import http.client
import json
import os
import random
import re
import shutil
import socket
import sqlite3
import ssl
import subprocess
import sys
import tempfile
import threading
import time

sys.path.insert(0, os.path.dirname(os.path.dirname(os.path.abspath(__file__))))
from tools.wire import Asker, listens

TOP = os.path.abspath(os.path.join(os.path.dirname(os.path.abspath(__file__)), ".."))
COPY = os.path.join(TOP, "examples/copy_register.py")
FROM = os.path.join(TOP, "examples/ipamd-from")
POOLS = os.environ.get("POOLD", os.path.join(TOP, "crates/poold/out/poold"))
KINDS = ["vrfs", "rirs", "roles", "aggregates", "prefixes", "ip-ranges", "ip-addresses"]
CLIENTS = 4


def fail(text):
    sys.exit(f"copies: {text}")


def wait_for(port, child, what):
    for _ in range(600):
        if listens(port):
            return
        if child.poll() is not None:
            break
        time.sleep(0.1)
    fail(f"{what} does not listen")


class Server:
    """`serve` over a file."""

    def __init__(self, program, port, path, workers=16):
        self.port = port
        words = [program, "serve", "--bind", f"127.0.0.1:{port}", "--workers", str(workers), "--db", path]
        self.child = subprocess.Popen(words, stdin=subprocess.DEVNULL, stdout=subprocess.DEVNULL)
        wait_for(port, self.child, "serve")

    def end(self):
        self.child.terminate()
        self.child.wait()
        while listens(self.port):
            time.sleep(0.05)


class Proxy:
    """nginx with examples/nginx-ipamd.conf but for its ports and files."""

    def __init__(self, folder, inner, outer):
        self.port, self.flag, self.folder = outer, f"{folder}/hold", folder
        self.child = subprocess.Popen([os.path.join(TOP, "conformance/front.sh"), folder, str(inner), str(outer)], stderr=subprocess.DEVNULL)
        wait_for(outer, self.child, "nginx")
        with open(f"{folder}/token") as file:
            self.token = file.read().strip()

    def connection(self):
        return http.client.HTTPSConnection("localhost", self.port, timeout=60, context=ssl.create_default_context(cafile=f"{self.folder}/register.pem"))

    def asker(self):
        return Asker(self.connection, self.token, "/register/api/ipam/")

    def end(self):
        self.child.terminate()
        self.child.wait()


def direct(port):
    return Asker(lambda: http.client.HTTPConnection("127.0.0.1", port, timeout=60))


class Client(threading.Thread):
    """Changes records of each kind in no order. Each change that is accepted is kept with its place."""

    def __init__(self, number, asker, pause, changes):
        super().__init__(daemon=True)
        self.number, self.asker, self.pause, self.changes = number, asker, pause, changes
        self.pick, self.ids, self.over, self.held, self.fault = random.Random(number), {kind: [] for kind in KINDS}, threading.Event(), 0, None

    def run(self):
        try:
            while not self.over.is_set():
                self.change(*self.some_change())
                if self.pause:
                    time.sleep(self.pick.uniform(0, self.pause))
        except Exception as fault:
            self.fault = fault
        self.asker.end()

    def change(self, method, path, body=None):
        status, head, answer = self.asker.ask(method, path, body)
        if status == 503:
            self.held += 1
            if head["Retry-After"] != "2" or json.loads(answer)["code"] != "held":
                raise ValueError(f"{status} {answer!r}")
            time.sleep(0.05)
        elif status >= 500:
            raise ValueError(f"{method} {path} {body}: {status} {answer!r}")
        elif status < 300:
            self.changes.append((int(head["Ipam-Place"]), method, path, body, status, answer))
            if status == 201:
                made = json.loads(answer)
                for row in made if isinstance(made, list) else [made]:
                    self.ids[self.kind_of(path, row)].append(row["id"])

    @staticmethod
    def kind_of(path, row):
        if "available" in path:
            return "ip-addresses" if "address" in row else "prefixes"
        return path.split("/")[0]

    def one(self, kind):
        return self.pick.choice(self.ids[kind]) if self.ids[kind] else 1

    def some_name(self):
        return f"{self.number} {self.pick.randrange(1000)} \"'é\\"

    def some_block(self, least, most):
        length = self.pick.randint(least, most)
        number = (10 << 24) + (self.number << 20) + self.pick.randrange(1 << 20)
        number &= ~((1 << 32 - length) - 1)
        return ".".join(str(number >> shift & 255) for shift in (24, 16, 8, 0)) + f"/{length}"

    def some_change(self):
        pick = self.pick
        vrf, role = pick.choice([None, None, self.one("vrfs")]), pick.choice([None, self.one("roles")])
        slug = f"s-{self.number}-{pick.randrange(1000)}"
        status = pick.choice(["active", "reserved", "deprecated"])
        makes = [
            ("prefixes", {"prefix": self.some_block(20, 28), "vrf": vrf, "role": role, "status": pick.choice([status, "container"]),
                          "is_pool": pick.random() < 0.3}),
            ("prefixes", {"prefix": f"2001:db8:{self.number:x}:{pick.randrange(65536):x}::/64", "description": self.some_name()}),
            ("ip-addresses", {"address": self.some_block(32, 32)[:-2] + "20", "vrf": vrf, "status": status, "dns_name": f"Host{pick.randrange(1000)}.Example",
                              "role": pick.choice(["vip", None])}),
            ("ip-ranges", {"start_address": f"10.{self.number}.{pick.randrange(256)}.10/24", "end_address": f"10.{self.number}.{pick.randrange(256)}.99/24",
                           "role": role, "status": status, "mark_populated": pick.random() < 0.3}),
            ("vrfs", {"name": self.some_name(), "rd": pick.choice([None, slug]), "enforce_unique": pick.random() < 0.5}),
            ("roles", {"name": self.some_name(), "slug": slug, "weight": pick.randrange(1000)}),
            ("rirs", {"name": self.some_name(), "slug": slug, "is_private": pick.random() < 0.5}),
            ("aggregates", {"prefix": f"{11 + pick.randrange(100)}.{self.number}.0.0/16", "rir": self.one("rirs")}),
        ]
        kind, body = pick.choice(makes)
        what = pick.randrange(10)
        if what < 4:
            return "POST", f"{kind}/", body
        if what == 4:
            return "POST", f"prefixes/{self.one('prefixes')}/available-ips/", [{"description": self.some_name()}] * pick.randint(1, 5)
        if what == 5:
            return "POST", f"prefixes/{self.one('prefixes')}/available-prefixes/", {"prefix_length": pick.randint(24, 30), "role": role}
        kind = pick.choice(KINDS)
        if what < 8:
            return "PATCH", f"{kind}/{self.one(kind)}/", {"description": self.some_name()}
        return "DELETE", f"{kind}/{self.one(kind)}/"


class Reader(threading.Thread):
    """Asks for pages without a pause. Each has to be answered."""

    def __init__(self, asker, flag):
        super().__init__(daemon=True)
        self.asker, self.flag, self.over, self.fault, self.while_held = asker, flag, threading.Event(), None, 0

    def run(self):
        while not self.over.is_set():
            before = os.path.exists(self.flag)
            status, _, body = self.asker.ask("GET", "prefixes/?limit=100")
            if status != 200:
                self.fault = f"{status} {body[:100]!r}"
                return
            self.while_held += before and os.path.exists(self.flag)
        self.asker.end()


@contextlib.contextmanager
def working(threads):
    for thread in threads:
        thread.start()
    yield
    for thread in threads:
        thread.over.set()
    for thread in threads:
        thread.join()
        if thread.fault is not None:
            fail(f"a client: {thread.fault!r}")


def copy(url, path, *words, wanted=0, said=r"; place (\d+)\n\Z"):
    """A copy, which ends with this status and says this, whose first group is given."""
    done = subprocess.run([sys.executable, COPY, url, path, *words], capture_output=True, text=True, timeout=300)
    found = re.search(said, done.stdout + done.stderr)
    if done.returncode != wanted or not found or (wanted == 0) != os.path.exists(path) or glob.glob(path + ".*"):
        fail(f"{words}: status {done.returncode}, {done.stdout}{done.stderr}; {os.listdir(os.path.dirname(path))}")
    return found[1] if found.groups() else None


def output(program, *words):
    done = subprocess.run([program, *words], stdin=subprocess.DEVNULL, capture_output=True)
    if done.returncode != 0 or done.stderr:
        fail(f"{words}: status {done.returncode}, {done.stderr.decode()}")
    return done.stdout


def rows(path):
    with contextlib.closing(sqlite3.connect(path)) as connection:
        return {kind: connection.execute(f"SELECT * FROM {kind.replace('-', '_')} ORDER BY id").fetchall() for kind in KINDS}


def numbers(path):
    with contextlib.closing(sqlite3.connect(path)) as connection:
        return dict(connection.execute("SELECT name, value FROM meta"))


def compare(program, copied, stopped):
    """That two files say the same: exports, reports, rows, and next ids but for those behind deleted last rows. Gives how many of the latter differ."""
    output(program, "session", "--db", copied)
    for words in [("export", kind) for kind in KINDS] + [("report", "tree"), ("report", "utilization")]:
        if output(program, *words, "--db", copied) != output(program, *words, "--db", stopped):
            fail(f"{' '.join(words)}: {copied} has not what {stopped} has")
    ours, theirs = rows(copied), rows(stopped)
    if ours != theirs:
        fail(f"rows: {copied} has not those of {stopped}")
    differ = 0
    for name, value in numbers(stopped).items():
        kind = name.removeprefix("next_").replace("_", "-")
        least = max([row[0] for row in theirs[kind]], default=0) + 1 if kind in theirs else value
        if numbers(copied)[name] != least or least > value:
            fail(f"{name}: {numbers(copied)[name]} in {copied}, {value} in {stopped}, and {least - 1} is the greatest id")
        differ += least != value
    return differ


def replay(program, port, folder, changes, copies):
    """Makes the changes once more, in the order of their places, and compares each copy with the register that is stopped at its place."""
    changes.sort(key=lambda change: change[0])
    if [change[0] for change in changes] != list(range(len(changes))):
        fail("the places of the changes are not 0, 1, 2 ..")
    path, done, differ = f"{folder}/replayed.db", 0, 0
    for place, copied in sorted(copies):
        server, asker = Server(program, port, path, 2), direct(port)
        for _, method, target, body, status, answer in changes[done:place]:
            told = asker.ask(method, target, body)
            if (told[0], told[2]) != (status, answer):
                fail(f"{method} {target}: {told[0]} {told[2]!r} where it was {status} {answer!r}")
        asker.end()
        server.end()
        done = place
        differ += compare(program, copied, path)
    return differ


class Told(threading.Thread):
    """A register that says place 0 always. It ends the first connection behind the third page, as one that is started anew; the second one has another
    record."""

    def __init__(self):
        super().__init__(daemon=True)
        self.socket = socket.create_server(("127.0.0.1", 0))

    def run(self):
        for count in (3, 1000):
            connection, _ = self.socket.accept()
            with connection, connection.makefile("rb") as lines:
                for _ in range(count):
                    target = lines.readline()
                    while lines.readline() not in (b"\r\n", b""):
                        pass
                    if target == b"":
                        break
                    name = "old" if count == 3 else "new"
                    some = [{"id": 1, "name": name, "rd": None, "enforce_unique": True, "description": ""}] if b"/vrfs/" in target else []
                    body = json.dumps({"count": len(some), "next": None, "previous": None, "results": some}).encode()
                    connection.sendall(b"HTTP/1.1 200 OK\r\nIpam-Place: 0\r\nContent-Length: %d\r\n\r\n" % len(body) + body)


def started_anew(folder):
    register = Told()
    register.start()
    copy(f"http://127.0.0.1:{register.socket.getsockname()[1]}", f"{folder}/anew.db")
    found = [row[1] for row in rows(f"{folder}/anew.db")["vrfs"]]
    if found != ["new"]:
        fail(f"a register that is started anew while it is copied: {found}")
    print("   a register that ends the connection in the middle of a pass, and says the same place behind it: copied anew")


def fill(asker, changes):
    """Some pages of prefixes and addresses to begin with."""
    client = Client(0, asker, 0, changes)
    client.change("POST", "prefixes/", {"prefix": "10.200.0.0/16", "status": "container"})
    client.change("POST", "prefixes/1/available-prefixes/", [{"prefix_length": 27}] * 1000)
    client.change("POST", "prefixes/", {"prefix": "10.201.0.0/16"})
    for _ in range(2):
        client.change("POST", "prefixes/1002/available-ips/", [{}] * 1000)


def with_pauses(port, folder, changes, url):
    copies = []
    with working([Client(number, direct(port), 0.4, changes) for number in range(1, CLIENTS + 1)]):
        for number in range(5):
            time.sleep(1)
            path = f"{folder}/pauses{number}.db"
            copies.append((int(copy(url, path)), path))
    print(f"   {len(copies)} copies beside {CLIENTS} clients with pauses, at the places {', '.join(str(place) for place, _ in copies)}")
    return copies


def without_pauses(port, folder, changes, url):
    """Copies that can't be made: given up, and ended by a signal while changes are held for no use, since these clients pass the proxy by."""
    flag = f"{folder}/other_flag"
    with working([Client(number, direct(port), 0, changes) for number in range(11, 11 + CLIENTS)]):
        time.sleep(0.5)
        copy(url, f"{folder}/none.db", "--passes", "3", wanted=1, said="changed during each of 3 passes")
        child = subprocess.Popen([sys.executable, COPY, url, f"{folder}/none.db", "--passes", "1000", "--hold", flag], stderr=subprocess.PIPE)
        while not os.path.exists(flag):
            time.sleep(0.01)
        child.terminate()
        _, said = child.communicate()
        if child.returncode != 1 or b"signal" not in said or os.path.exists(flag) or glob.glob(f"{folder}/none.db*"):
            fail(f"a copy that is ended: {child.returncode} {said!r}, {os.listdir(folder)}")
        open(flag, "w").close()
        copy(url, f"{folder}/none.db", "--hold", flag, wanted=1, said="another copy holds changes")
        if not os.path.exists(flag):
            fail("the flag of another copy is removed")
    print(f"   beside {CLIENTS} clients without a pause: given up after 3 passes; ended by a signal, the flag is removed; "
          "beside another copy's flag refused; no file is left")


def refused(folder, url):
    done = f"{folder}/pauses0.db"
    before = open(done, "rb").read()
    told = subprocess.run([sys.executable, COPY, url, done], capture_output=True, text=True)
    if told.returncode != 1 or "exists" not in told.stderr or open(done, "rb").read() != before:
        fail(f"over a file that is there: {told.stderr}")
    open(f"{folder}/none.db-wal", "w").close()
    copy(url, f"{folder}/none.db", wanted=1, said="none.db-wal exists")
    os.remove(f"{folder}/none.db-wal")
    copy(url, f"{folder}/none.db", "--next", "prefixes=1", wanted=1, said="is not above the greatest id")
    copy("http://127.0.0.1:9", f"{folder}/none.db", wanted=1, said="refused")
    print("   refused: over a file that is there, beside a log that is left, with a next id that is taken, of a register that is not there")


def with_hold(proxy, folder, changes, url):
    copies, clients = [], [Client(number, proxy.asker(), 0, changes) for number in range(21, 21 + CLIENTS)]
    reader = Reader(proxy.asker(), proxy.flag)
    with working(clients + [reader]):
        for number in range(3):
            time.sleep(0.5)
            before, path = len(changes), f"{folder}/hold{number}.db"
            copies.append((int(copy(url, path, "--hold", proxy.flag)), path))
            if os.path.exists(proxy.flag):
                fail("the flag is there behind the copy")
            time.sleep(0.5)
            if len(changes) == before:
                fail("no change was accepted behind the copy")
    held = sum(client.held for client in clients)
    if held == 0 or reader.while_held == 0:
        fail(f"{held} changes were held, {reader.while_held} pages were answered meanwhile")
    print(f"   {len(copies)} copies with --hold beside {CLIENTS} clients without a pause, at the places {', '.join(str(place) for place, _ in copies)}; "
          f"{held} changes answered 503, {reader.while_held} pages answered meanwhile")
    return copies


def with_next(program, port, folder, live):
    """A copy with all next ids given is the file itself."""
    words = [word for name, value in numbers(live).items() if name != "version" for word in ("--next", f"{name[5:].replace('_', '-')}={value}")]
    server = Server(program, port, live, 2)
    copy(f"http://127.0.0.1:{port}", f"{folder}/next.db", *words)
    server.end()
    if rows(live) != rows(f"{folder}/next.db") or numbers(live) != numbers(f"{folder}/next.db"):
        fail("with --next for each kind the copy is not the file")
    server, asker = Server(program, port, f"{folder}/next.db", 2), direct(port)
    status, _, answer = asker.ask("POST", "vrfs/", {"name": "the next one"})
    if status != 201 or json.loads(answer)["id"] != numbers(live)["next_vrfs"]:
        fail(f"the copy is served: {status} {answer!r}")
    asker.end()
    server.end()
    print("   with --next for each kind: the rows and the numbers of the stopped file, and the copy is served with the next id")


LISTED = ("prefix-list", "--table", "global", "--family", "4", "--style", "plain", "--name", "OFFICE")


def cron_lines(has_pools):
    """The commands of cron in docs/OPERATING.md; that of the pools only if they are served."""
    with open(os.path.join(TOP, "docs/OPERATING.md")) as page:
        lines = re.findall(r"^    (?:[\d*]+ ){2}\* \* \* root (.*)$", page.read(), re.M)
    if not has_pools:
        print("   poold is not built: no copy of pools")
    return [line for line in lines if has_pools or " --pools " not in line]


def cron(program, port, folder):
    """The lines of cron in docs/OPERATING.md, as they are written but for the folders and the ports."""
    place = f"{folder}/backups"
    os.makedirs(f"{folder}/bin")
    os.makedirs(place)
    os.symlink(program, f"{folder}/bin/ipamd")
    shutil.copy(COPY, f"{folder}/bin/copy_register.py")
    os.chmod(f"{folder}/bin/copy_register.py", 0o755)
    pools = Server(POOLS, port + 2, f"{folder}/pools.db", 2) if os.access(POOLS, os.X_OK) else None
    lines = cron_lines(pools is not None)
    old, kept = [f"{place}/register-2000-01-01.db", f"{place}/pools-2000-01-01.db"], f"{place}/other.db"
    for path in (*old, kept):
        open(path, "w").close()
        os.utime(path, (0, 0))
    for line in lines:
        if "router.txt" in line:
            # a router that has the list of the register
            with open(f"{place}/router.txt", "wb") as file:
                file.write(output(program, *LISTED, "--db", f"{place}/hour.db"))
        if " reverse " in line:
            store = sqlite3.connect(f"{place}/hour.db")
            line = line.replace("--prefix 1", f"--prefix {store.execute('SELECT min(id) FROM prefixes').fetchone()[0]}")
            store.close()
        for mine, ours in ((r"\%", "%"), ("/var/backups", place), ("127.0.0.1:8080", f"127.0.0.1:{port}"),
                           ("127.0.0.1:8081", f"127.0.0.1:{port + 2}"), ("/run/ipamd.hold", f"{folder}/cron_hold")):
            line = line.replace(mine, ours)
        done = subprocess.run(["sh", "-c", line], env={"PATH": f"{folder}/bin:{os.path.dirname(sys.executable)}:/usr/bin:/bin"}, capture_output=True, text=True)
        if done.returncode != 0 or done.stdout or done.stderr:
            fail(f"{line}: status {done.returncode}, {done.stdout}{done.stderr}")
    if pools is not None:
        pools.end()
        output(POOLS, "session", "--db", f"{place}/pools-{time.strftime('%F')}.db")
    copied = f"{place}/register-{time.strftime('%F')}.db"
    for name, words in (("utilization.txt", ("report", "utilization")), ("prefixes.csv", ("export", "prefixes"))):
        with open(f"{place}/{name}", "rb") as file:
            if file.read() != output(program, *words, "--db", copied):
                fail(f"{name} has not what the copy has")
    if any(os.path.exists(path) for path in old) or not os.path.exists(kept):
        fail("the old copies")
    if not os.path.exists(f"{place}/names.txt"):
        fail("no names")
    print(f"   {len(lines)} lines of cron: a copy, its reports, a router's list compared, names, and the removal of old copies")


def ran_from(folder, *words, given=b"", wanted=0):
    """What ipamd-from prints and says, over a register that is being served."""
    done = subprocess.run([FROM, *words], env={"PATH": f"{folder}/bin:{os.path.dirname(sys.executable)}:/usr/bin:/bin"}, input=given, capture_output=True)
    if done.returncode != wanted:
        fail(f"ipamd-from {words}: status {done.returncode}, {done.stderr.decode()}")
    return done.stdout, done.stderr.decode()


def from_url(program, folder, url, path):
    """Commands over the register that is being served print what they print over its copy, and what is no command is refused."""
    first = sqlite3.connect(path).execute("SELECT min(id) FROM prefixes").fetchone()[0]
    asked = [("export", kind) for kind in KINDS] + [("report", "tree"), ("report", "utilization"), LISTED, ("reverse", "--prefix", str(first))]
    for words in asked:
        printed, said = ran_from(folder, url, *words)
        if printed != output(program, *words, "--db", path):
            fail(f"ipamd-from {words} does not print what the copy has")
        if not re.fullmatch(rf"ipamd-from: {re.escape(url)}, \d{{4}}-\d\d-\d\d \d\d:\d\d:\d\dZ, place \d+\n", said):
            fail(f"ipamd-from {words} says {said}")
    if ran_from(folder, url, "prefix-check", *LISTED[1:], given=output(program, *LISTED, "--db", path))[0]:
        fail("ipamd-from prefix-check: the register's own list differs")
    for words in ((), (url,), (url, "import", "vrfs"), (url, "session"), (url, "export", "vrfs", "--db", path), (url, "export", "vrfs", f"--db={path}")):
        if ran_from(folder, *words, wanted=2)[0]:
            fail(f"ipamd-from {words} prints something")
    ran_from(folder, "http://127.0.0.1:1", "export", "vrfs", wanted=4)
    ran_from(folder, url, "export", "gadgets", wanted=2)
    print(f"   ipamd-from: {len(asked)} commands over the register that is served print what its copy has")


def full(program, port, folder):
    """A file of 200,000 prefixes and 500,000 addresses, which is served and copied."""
    path = f"{folder}/full.db"
    output(program, "session", "--db", path)
    with contextlib.closing(sqlite3.connect(path)) as connection, connection:
        connection.executemany("INSERT INTO prefixes VALUES (?, ?, '', 'active', '', 'false', 'false', '')",
                               ((n + 1, f"{20 + (n >> 16)}.{n >> 8 & 255}.{n & 255}.0/24") for n in range(200_000)))
        connection.executemany("INSERT INTO ip_addresses VALUES (?, ?, '', 'active', '', ?, '')",
                               ((n + 1, f"10.{n >> 16}.{n >> 8 & 255}.{n & 255}/8", f"h{n}.example.net") for n in range(500_000)))
        connection.execute("UPDATE meta SET value = 200001 WHERE name = 'next_prefixes'")
        connection.execute("UPDATE meta SET value = 500001 WHERE name = 'next_ip_addresses'")
    server = Server(program, port, path, 2)
    start = time.monotonic()
    child = subprocess.Popen([sys.executable, COPY, f"http://127.0.0.1:{port}", f"{folder}/full_copy.db"], stdout=subprocess.DEVNULL)
    _, status, usage = os.wait4(child.pid, 0)
    whole = time.monotonic() - start
    if status != 0:
        fail(f"a copy of a full register: {status}")
    start, asker, pages = time.monotonic(), direct(port), 0
    for kind in KINDS:
        count = json.loads(asker.ask("GET", f"{kind}/?limit=1")[2])["count"]
        for offset in range(0, count, 1000):
            pages += asker.ask("GET", f"{kind}/?limit=1000&offset={offset}")[0] == 200
    took = time.monotonic() - start
    asker.end()
    server.end()
    if rows(path) != rows(f"{folder}/full_copy.db") or numbers(path) != numbers(f"{folder}/full_copy.db"):
        fail("the copy of the full register is not the file")
    size = os.path.getsize(f"{folder}/full_copy.db") / 1e6
    print(f"   200,000 prefixes and 500,000 addresses: copied in {whole:.1f} s with {usage.ru_maxrss / 1e3:.0f} MB, the file {size:.0f} MB; "
          f"{pages} pages are read in {took:.1f} s")


def main():
    words = argparse.ArgumentParser()
    words.add_argument("program")
    words.add_argument("port", nargs="?", type=int, default=18470)
    words.add_argument("--full", action="store_true")
    given = words.parse_args()
    program, port = given.program, given.port
    with tempfile.TemporaryDirectory() as folder:
        live, url, changes, proxy = f"{folder}/live.db", f"http://127.0.0.1:{port}", [], None
        started_anew(folder)
        server = Server(program, port, live)
        try:
            asker = direct(port)
            fill(asker, changes)
            asker.end()
            copies = with_pauses(port, folder, changes, url)
            without_pauses(port, folder, changes, url)
            refused(folder, url)
            proxy = Proxy(folder, port, port + 1)
            copies += with_hold(proxy, folder, changes, url)
            path = f"{folder}/last.db"
            copies.append((int(copy(url, path)), path))
            cron(program, port, folder)
            from_url(program, folder, url, path)
        finally:
            server.end()
            if proxy is not None:
                proxy.end()
        compare(program, path, live)
        with_next(program, port, folder, live)
        differ = replay(program, port, folder, changes, copies)
        if given.full:
            full(program, port, folder)
    print(f"copies: {len(copies)} copies beside {len(changes):,} changes; each is opened with status 0, "
          f"and has the exports, reports and rows of the register stopped at its place; {differ} next ids are those behind deleted last rows")


if __name__ == "__main__":
    main()
