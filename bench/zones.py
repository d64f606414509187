"""The commands on reverse zones, whole processes: 500,000 addresses with names of 40 bytes, half of them IPv6, and 200,000 hosts that stand twice each, beside
`reverse` of an empty prefix of the same file; and 4,194,304 bytes of PTR lines read. Medians of five. What is printed is compared with lines that are made
here.

    bench/run zones
"""
import ipaddress
import os
import sqlite3
import subprocess
import sys
import tempfile

from bench.timed_runs import runs

PROGRAM = os.environ["IPAMD"]
MOST = 4_194_304
FOUR, SIX = int(ipaddress.ip_address("10.0.0.0")), int(ipaddress.ip_address("2001:db8::"))


def name(n):
    return f"host-{n:08}.site-{n % 1000:04}.example-office.net"[:40]


def line(host, n):
    return f"{host.reverse_pointer}. IN PTR {name(n)}.\n"


def register(path, hosts):
    """A file of three prefixes, the last one without addresses, and of addresses with names: made as SQLite alone would."""
    subprocess.run([PROGRAM, "import", "prefixes", "--db", path], input=b"prefix\n10.0.0.0/8\n2001:db8::/32\n192.0.2.0/24\n", check=True, stdout=subprocess.DEVNULL)
    subprocess.run([PROGRAM, "session", "--db", path], stdin=subprocess.DEVNULL, check=True)
    store = sqlite3.connect(path)
    store.executemany("INSERT INTO ip_addresses VALUES (?, ?, '', 'active', ?, ?, '')",
                      ((at, f"{host}/{host.max_prefixlen}", role, name(n)) for at, (host, role, n) in enumerate(hosts, 1)))
    store.execute("UPDATE meta SET value = ? WHERE name = 'next_ip_addresses'", (len(hosts) + 1,))
    store.commit()
    store.close()


def timed(what, path, prefix, wanted):
    words = [PROGRAM, "reverse", "--db", path, "--prefix"]
    empty, full = runs([*words, "3"]), runs([*words, str(prefix)])
    if full.text != wanted:
        sys.exit(f"zones: {what}: other lines")
    print(f"{what}: {full.seconds - empty.seconds:.2f} s and {max(0, full.memory - empty.memory):.0f} MB beyond an empty prefix, {empty.seconds:.2f} s and {empty.memory:.0f} MB", flush=True)


def main():
    four = [(ipaddress.ip_address(FOUR + 7 * n), "", n) for n in range(250_000)]
    six = [(ipaddress.ip_address(SIX + (n << 40) + 1), "", n) for n in range(250_000)]
    with tempfile.TemporaryDirectory() as folder:
        path = os.path.join(folder, "many.db")
        register(path, four + six)
        timed("250,000 names of IPv4 among 500,000", path, 1, "".join(line(host, n) for host, _, n in four))
        timed("250,000 names of IPv6 among 500,000", path, 2, "".join(line(host, n) for host, _, n in six))
        path = os.path.join(folder, "twice.db")
        # (a third time each would make the opening long: that takes the square of their number)
        twice = [(host, "vip", n) for host, _, n in four[:200_000]]
        register(path, twice + twice)
        timed("200,000 hosts that stand twice", path, 1, "".join(2 * line(host, n) for host, _, n in twice))
        lines, size, pairs = [], 0, []
        for host, _, n in four:
            text = line(host, n)
            if size + len(text) > MOST:
                break
            lines.append(text)
            pairs.append(f"{host},{name(n)}\n")
            size += len(text)
        path = os.path.join(folder, "lines")
        with open(path, "w") as out:
            out.write("".join(lines))
        read = runs([PROGRAM, "reverse-read"], path)
        if read.text != "address,dns_name\n" + "".join(pairs):
            sys.exit("zones: other pairs")
        print(f"reverse-read of {size:,} bytes, {len(pairs):,} lines: {read.seconds:.2f} s, {read.memory:.0f} MB")


main()
