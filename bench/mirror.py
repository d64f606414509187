"""`mirror` under load.

First, over 10,000 prefixes in memory: answers a second of a GET of one prefix by 1, 4 and 16 readers, with as many connections: while the operator is idle,
and in a second in which it makes up to 1,000 changes (a session ends with its thousandth answer); beside `serve` with as many workers, and nginx as
bench/serve.py has it, which sends a file of the size of the answer. Each figure is the median of RUNS runs (3 where it is not set) of SECONDS seconds.

Then over a file of 200,000 prefixes: the longest that a reader takes to answer a list which looks at all of them (the copy is held no longer), with the
operator idle and while it makes 100 changes a second; and the memory of the process beside that of `serve`.

It ends with status 1 where 4 readers to 1 are less than 0.9 of what nginx has, 16 readers are fewer answers than 4, the operator's writing slows readers by
more than 10 %, a list takes more than 10 ms, the two copies take 1 GB, or the whole takes 6 GB.

    bench/run mirror [SECONDS [PORT]]
"""
import os
import socket
import statistics
import subprocess
import sys
import tempfile
import threading
import time

sys.path.insert(0, os.path.dirname(os.path.dirname(os.path.abspath(__file__))))
from bench import loads
from bench.full import EACH, Connection, Server, make, request, text_of

READERS = [1, 4, 16]
SOME, FULL, ROWS = 10_000, 200_000, 10_000
# how many changes the operator makes a second: beside GETs, and beside lists; how many at once; and how many claims are one request
PACE, SLOW_PACE, BURST, CLAIMS = 1_000, 100, 10, 1_000
# what is to hold: 4 readers to 1 beside nginx, answers while the operator writes, seconds of a list, GB of two copies, GB of the whole
SCALES, SLOWED, LIST, COPIES, WHOLE = 0.9, 0.9, 0.010, 1.0, 6.0


def post(n):
    return request("POST", "prefixes/", {"prefix": f"{text_of(0x0A000000 + 256 * n)}/24"})


def listens(port, process):
    for _ in range(1_200):
        try:
            socket.create_connection(("127.0.0.1", port)).close()
            return
        except OSError:
            if process.poll() is not None:
                sys.exit(f"mirror: {process.args}: it ended with status {process.returncode}")
            time.sleep(0.1)
    sys.exit("mirror: the port does not listen")


class Operator(Connection):
    """The operator's requests over the input and the output of a process. A session ends with its thousandth answer."""

    def __init__(self, process):
        self.process, self.file, self.left = process, process.stdout, EACH

    def send(self, requests):
        self.process.stdin.write(b"".join(requests))
        self.process.stdin.flush()

    def make(self, requests, wanted):
        self.left -= len(requests)
        for at in range(0, len(requests), 100):
            some = requests[at:at + 100]
            self.send(some)
            for one in some:
                status, body = self.answer()
                if status != wanted:
                    sys.exit(f"mirror: {one!r} {status} {body!r}")

    def fill(self, count):
        """Makes a block, and so many in it by lists of claims."""
        self.make([request("POST", "prefixes/", {"prefix": "10.0.0.0/8"})], 201)
        claims = [{"prefix_length": 24}] * CLAIMS
        for _ in range(count // CLAIMS):
            self.make([request("POST", "prefixes/1/available-prefixes/", claims)], 201)

    def write(self, prefixes, pace, until):
        """Changes the prefixes one after another, so many a second, until the event is set or the session is at its end; gives how many a
        second there were."""
        begun, made = time.perf_counter(), 0
        while not until.is_set() and self.left > BURST:
            self.make([request("PATCH", f"prefixes/{(made + n) % prefixes + 1}/", {"description": f"{made + n}"}) for n in range(BURST)], 200)
            made += BURST
            time.sleep(max(0.0, begun + made / pace - time.perf_counter()))
        return made / (time.perf_counter() - begun)


class Mirror(Server):
    def __init__(self, program, port, readers, *options):
        self.port = port
        self.process = subprocess.Popen([program, "mirror", "--bind", f"127.0.0.1:{port}", "--readers", str(readers), *options],
                                        stdin=subprocess.PIPE, stdout=subprocess.PIPE)
        listens(port, self.process)
        self.operator = Operator(self.process)


class Serve(Server):
    def __init__(self, program, port, workers, *options):
        self.port = port
        self.process = subprocess.Popen([program, "serve", "--bind", f"127.0.0.1:{port}", "--workers", str(workers), *options],
                                        stdin=subprocess.DEVNULL, stdout=subprocess.DEVNULL)
        listens(port, self.process)


class Runs:
    """So many runs of so many seconds, on one port."""

    def __init__(self, program, folder, seconds, port, runs):
        self.program, self.folder, self.seconds, self.port, self.runs = program, folder, seconds, port, runs

    def middle(self, count, path="/api/ipam/prefixes/1/"):
        return statistics.median(self.rate(count, path, self.seconds) for _ in range(self.runs))

    def rate(self, count, path, seconds):
        """The answers a second to so many connections."""
        return loads.load(self.port, path, count, seconds, self.folder).rate

    def mirrored_once(self, count):
        """The figures of an idle operator and of one that writes, and the body of an answer."""
        server = Mirror(self.program, self.port, count)
        server.operator.fill(SOME)
        reader = Connection(self.port)
        reader.send([request("GET", f"prefixes/1/?least={SOME // CLAIMS}")])
        status, body = reader.answer()
        reader.end()
        if status != 200:
            sys.exit(f"mirror: a reader does not see the operator's changes: {status} {body!r}")
        path = "/api/ipam/prefixes/1/"
        idle = self.rate(count, path, self.seconds)
        written = writing(server.operator, SOME, PACE, lambda: self.rate(count, path, 1))
        server.end()
        return idle, written[0], written[1], body

    def mirrored(self, count):
        """The medians of these figures: each run has an operator of its own, since a session ends with its thousandth answer."""
        found = [self.mirrored_once(count) for _ in range(self.runs)]
        return [statistics.median(one[n] for one in found) for n in range(3)] + [found[0][3]]

    def served(self, count):
        server = Serve(self.program, self.port, count)
        make(self.port, [post(n) for n in range(SOME)])
        found = self.middle(count)
        server.end()
        return found

    def peer(self, folder, count):
        with loads.nginx(folder, self.port):
            return self.middle(count, "/1")


def writing(operator, prefixes, pace, what):
    """What is found while the operator writes, and how many changes a second it made."""
    until, made = threading.Event(), []
    writer = threading.Thread(target=lambda: made.append(operator.write(prefixes, pace, until)))
    writer.start()
    found = what()
    until.set()
    writer.join()
    if not made:
        sys.exit("mirror: the operator's session ended")
    return found, made[0]


def rates(runs, folder):
    """The table of answers a second; what is not as it is to be."""
    print(f"answers a second of a GET among {SOME:,} prefixes, median of {runs.runs} runs of {runs.seconds} seconds")
    print("| readers | mirror | while the operator writes | its changes a second | serve | nginx |\n|---|---|---|---|---|---|")
    rows = {}
    for count in READERS:
        idle, busy, made, body = runs.mirrored(count)
        with open(os.path.join(folder, "1"), "wb") as out:
            out.write(body)
        rows[count] = (idle, busy, runs.served(count), runs.peer(folder, count))
        idle, busy, served, peer = rows[count]
        print(f"| {count} | {idle:,.0f} | {busy:,.0f} | {made:,.0f} | {served:,.0f} | {peer:,.0f} |", flush=True)
    wrong = []
    if rows[4][0] / rows[1][0] < SCALES * rows[4][3] / rows[1][3]:
        wrong.append("4 readers to 1 are less than 0.9 of nginx")
    if rows[16][0] < rows[4][0]:
        wrong.append("16 readers answer less than 4")
    wrong += [f"the operator slows {count} readers by more than 10 %" for count, row in rows.items() if row[1] < SLOWED * row[0]]
    return wrong


def fill(program, store):
    """A file of a full register, by imports."""
    for at in range(0, FULL, ROWS):
        rows = "prefix\n" + "".join(f"{text_of(0x0B000000 + n)}/32\n" for n in range(at, at + ROWS))
        subprocess.run([program, "import", "prefixes", "--db", store], input=rows.encode(), stdout=subprocess.DEVNULL, check=True)


def longest(port, path, times=200):
    """The seconds of the longest of so many answers."""
    reader, found = Connection(port), 0.0
    for _ in range(times):
        begun = time.perf_counter()
        reader.send([request("GET", path)])
        status, body = reader.answer()
        found = max(found, time.perf_counter() - begun)
        if status != 200:
            sys.exit(f"mirror: {path} {status} {body!r}")
    reader.end()
    return found


def whole(runs, folder):
    """Lists and memory of a full register; what is not as it is to be."""
    store, wrong = os.path.join(folder, "full.db"), []
    fill(runs.program, store)
    server = Mirror(runs.program, runs.port, 4, "--db", store)
    for path in (f"prefixes/?limit=1&offset={FULL - 1}", "prefixes/?limit=1000", "prefixes/?status=reserved"):
        idle = longest(runs.port, path)
        busy, _ = writing(server.operator, FULL, SLOW_PACE, lambda path=path: longest(runs.port, path))
        print(f"the longest answer to {path} over {FULL:,} prefixes: {idle * 1e3:.1f} ms; while the operator writes {busy * 1e3:.1f} ms", flush=True)
        if max(idle, busy) > LIST:
            wrong.append(f"{path} takes more than {LIST * 1e3:.0f} ms")
    memory = server.memory()
    server.end()
    alone = Serve(runs.program, runs.port, 4, "--db", store)
    copies = memory[0] - alone.memory()[0]
    alone.end()
    print(f"memory: {memory[0]:.2f} GB, at most {memory[1]:.2f} GB; that is {copies:.2f} GB more than `serve`")
    if copies >= COPIES:
        wrong.append(f"the copies take {copies:.2f} GB")
    if memory[1] >= WHOLE:
        wrong.append(f"the whole takes {memory[1]:.2f} GB")
    return wrong


def main(program, seconds, port, runs):
    with tempfile.TemporaryDirectory() as folder:
        os.chmod(folder, 0o755)  # a worker of nginx is another user
        all_runs = Runs(program, folder, int(seconds), int(port), int(runs))
        wrong = rates(all_runs, folder) + whole(all_runs, folder)
    if wrong:
        sys.exit("mirror: " + "; ".join(wrong))


if __name__ == "__main__":
    main(*sys.argv[1:])
