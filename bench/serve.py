"""`serve` under load: answers a second of a GET of one prefix, of a list of 50 addresses, of a creation and of a claim of one address, with 1, 4, 16 and 32
connections and as many workers, in memory and over a file; beside it nginx, which sends a file with the bytes of the GET's answer, as its users tune it:
sendfile, tcp_nopush, open_file_cache, a worker for each processor. The client is wrk. Each figure is the median of RUNS runs (RUNS=5 bench/run serve; 1
where it is not set; MEMORY_ONLY=yes leaves out what is over a file); a second line has the 99th percentile of the time to an answer (the median of the
runs) and the longest answer of all runs, in milliseconds.

    bench/run serve [SECONDS [PORT]]
"""
import os
import statistics
import sys
import tempfile

sys.path.insert(0, os.path.dirname(os.path.dirname(os.path.abspath(__file__))))
from bench.loads import PATH, fill, load, nginx, serve
from bench.machine import sync_ms

COUNTS = [1, 4, 16, 32]
# what is asked: its name, target, method and body
KINDS = [
    ("GET", "prefixes/1/", "GET", None),
    ("list of 50", "ip-addresses/?limit=50", "GET", None),
    ("creation", "prefixes/", "POST", '{"prefix":"%.0/32"}'),
    ("claim", "prefixes/1/available-ips/", "POST", "{}"),
]


class Runs:
    """So many runs of so many seconds each, on one port, with files in one folder."""

    def __init__(self, program, folder, seconds, port, runs):
        self.program, self.folder, self.seconds, self.port, self.runs = program, folder, seconds, port, runs

    def of_register(self, connections, kind, stored, workers=None, pinned=None):
        """The runs of a kind of request, each over a register of its own."""
        _, target, method, body = kind
        found = []
        for _ in range(self.runs):
            for end in ("", "-wal", "-shm"):
                if os.path.exists(path := os.path.join(self.folder, "office.db" + end)):
                    os.remove(path)
            options = ["--db", os.path.join(self.folder, "office.db")] if stored else []
            with serve(self.program, self.port, workers or connections, *options, pinned=pinned):
                fill(self.port)
                found.append(load(self.port, PATH + target, connections, self.seconds, self.folder, method, body, pinned))
        return found

    def write_file(self):
        """The file that nginx sends is what a GET answers."""
        with serve(self.program, self.port, 1):
            body = fill(self.port)
        with open(os.path.join(self.folder, "1"), "wb") as file:
            file.write(body)

    def of_nginx(self, connections, pinned=None):
        with nginx(self.folder, self.port, pinned):
            return [load(self.port, "/1", connections, self.seconds, self.folder, pinned=pinned) for _ in range(self.runs)]


def middle(loads):
    return statistics.median(one.rate for one in loads)


def print_row(name, rows):
    """Two lines: answers a second, and the median of the 99th percentiles with the longest answer of all runs."""
    print(f"{name:28}" + "".join(f" {middle(loads):16.0f}" for loads in rows))
    times = [f"{statistics.median(one.late for one in loads):.2f}, {max(one.longest for one in loads):.1f}" for loads in rows]
    print(f"{'  99th percentile, longest':28}" + "".join(f" {text:>16}" for text in times), flush=True)


def main(program, seconds, port, runs):
    with tempfile.TemporaryDirectory(dir=os.environ.get("SCRATCH")) as folder:
        os.chmod(folder, 0o755)
        all_runs = Runs(program, folder, int(seconds), int(port), int(runs))
        print(f"answers a second by wrk, {seconds} seconds each, median of {runs}; as many workers as connections; nginx with a worker for each processor")
        print(f"{'':28}" + "".join(f" {count:16}" for count in COUNTS))
        all_runs.write_file()
        print_row("nginx, a file", [all_runs.of_nginx(count) for count in COUNTS])
        for stored in [False] if os.environ.get("MEMORY_ONLY") else [False, True]:
            if stored:
                print(f"one fdatasync of 4 KiB takes {sync_ms(folder):.2f} ms")
            for kind in KINDS:
                print_row(f"{kind[0]}, {'over a file' if stored else 'in memory'}", [all_runs.of_register(count, kind, stored) for count in COUNTS])


if __name__ == "__main__":
    main(*sys.argv[1:])
