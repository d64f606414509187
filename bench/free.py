"""Times `ipamd free` beside Debian's `iprange --except` (IPv4) and Python's netaddr on inputs made from a seed, checks that the blocks are the same, and
prints times, peak memory and ratios.

    bench/run free [LINES [SEED]]
"""
import ipaddress
import os
import random
import shutil
import subprocess
import sys
import tempfile
import time
from dataclasses import dataclass

TOP = os.path.dirname(os.path.dirname(os.path.abspath(__file__)))
PROGRAM = os.environ.get("IPAMD", os.path.join(TOP, "crates", "ipamd", "out", "ipamd"))
NETADDR = """
import sys, netaddr
left = netaddr.IPSet([sys.argv[1]]) - netaddr.IPSet(line.strip() for line in sys.stdin)
sys.stdout.write("".join(f"{b}\\n" for b in left.iter_cidrs()))
"""
as_block = ipaddress.ip_network


@dataclass
class Found:
    """What one program took for one input: seconds, the best of some runs, or those after which it was stopped; and MB at most."""
    case: str
    program: str
    seconds: float
    memory: int
    stopped: bool = False


def blocks(within, low, high, count, rng):
    net = ipaddress.ip_network(within)
    width = net.max_prefixlen
    for _ in range(count):
        length = rng.randint(low, high)
        first = int(net.network_address) + (rng.randrange(2 ** (length - net.prefixlen)) << (width - length))
        yield f"{ipaddress.ip_address(first) if width == 32 else ipaddress.IPv6Address(first)}/{length}"


def run(command, stdin, times=3, limit=60):
    """Standard output, seconds (the best of some runs), and peak memory in MB; no output where the limit is passed."""
    best, peak, text = None, 0, None
    for _ in range(times):
        with open(stdin) as source, tempfile.TemporaryFile() as sink, tempfile.NamedTemporaryFile("r") as memory:
            start = time.perf_counter()
            status = subprocess.call(["timeout", str(limit), "/usr/bin/time", "-f", "%M", "-o", memory.name] + command, stdin=source, stdout=sink)
            took = time.perf_counter() - start
            if status == 124:
                return None, took, 0
            if status:
                sys.exit(f"{command}: status {status}")
            sink.seek(0)
            text = sink.read().decode()
            peak = max(peak, int(memory.read().split()[-1]) // 1024)
        best = took if best is None or took < best else best
    return text, best, peak


def has_netaddr(python):
    return subprocess.run([python, "-c", "import netaddr"], capture_output=True).returncode == 0


def cases(lines, seed):
    """The inputs: a name, the block whose free space is asked for, and the lines."""
    rng = random.Random(seed)
    four = list(blocks("10.0.0.0/8", 24, 32, lines, rng))
    six = list(blocks("2001:db8::/32", 48, 128, lines, rng))
    in_order = sorted(four, key=lambda text: (int(as_block(text).network_address), as_block(text).prefixlen))
    return [("IPv4, random", "10.0.0.0/8", four), ("IPv4, sorted", "10.0.0.0/8", in_order),
            ("IPv4, equal", "10.0.0.0/8", ["10.0.0.0/24"] * lines), ("IPv6, random", "2001:db8::/32", six)]


def peers_of(within, path, outer, python):
    """The peers: a name, the command, and how often it is run."""
    if ":" not in within and shutil.which("iprange"):
        yield "iprange", ["iprange", outer, "--except", path], 3
    if python:
        yield "netaddr", [python, "-c", NETADDR, within], 1


def measure(lines, seed, limit=60):
    """Each program on each input, ours first; each peer prints the same blocks."""
    python = next((path for path in ("/usr/bin/python3", sys.executable) if has_netaddr(path)), None)
    for name, within, rows in cases(lines, seed):
        with tempfile.TemporaryDirectory() as folder:
            path, outer = os.path.join(folder, "lines"), os.path.join(folder, "outer")
            with open(path, "w") as file:
                file.write("".join(row + "\n" for row in rows))
            with open(outer, "w") as file:
                file.write(within + "\n")
            text, took, peak = run([PROGRAM, "free", within], path)
            wanted = sorted(as_block(row) for row in text.split())
            yield Found(name, "ipamd", took, peak)
            for peer, command, times in peers_of(within, path, outer, python):
                told, took, peak = run(command, path, times, limit)
                if told is not None and sorted(as_block(row) for row in told.split()) != wanted:
                    sys.exit(f"{name}: {peer} prints other blocks")
                yield Found(name, peer, took, peak, told is None)


def main():
    if not os.path.exists(PROGRAM):
        sys.exit("build the program first: ./ipamd free 10.0.0.0/8 </dev/null")
    lines = int(sys.argv[1]) if len(sys.argv) > 1 else 200_000
    seed = int(sys.argv[2]) if len(sys.argv) > 2 else 1
    print(f"{lines} lines, seed {seed}, best of 3 runs; all programs print the same blocks")
    print(f"{'input':14} {'program':8} {'seconds':>8} {'MB':>5}  ratio")
    for found in measure(lines, seed):
        if found.program == "ipamd":
            ours = found.seconds
        end = "  stopped there" if found.stopped else ""
        print(f"{found.case:14} {found.program:8} {found.seconds:8.3f} {found.memory:5} {found.seconds / ours:6.2f}{end}", flush=True)


if __name__ == "__main__":
    main()
