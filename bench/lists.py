"""The commands on prefix lists, whole processes: the fewest blocks of 200,000 random IPv4 blocks beside iprange and of 80,000 IPv6 blocks beside netaddr's
cidr_merge; a table of 200,000 prefixes printed, and compared with 4 MiB of lines in no order; ::/1 compared with 4 MiB of single addresses. All outputs are
compared with blocks reckoned here. With frr a router reads both families, and what it shows is compared again. iprange, netaddr and frr are used where they
are there.

    bench/run lists [SEED]
"""
import ipaddress
import os
import random
import re
import shutil
import statistics
import subprocess
import sys
import tempfile
import time

sys.path.insert(0, os.path.dirname(os.path.dirname(os.path.abspath(__file__))))
from bench.timed_runs import Run, runs

PROGRAM = os.environ["IPAMD"]
MOST = 4_194_304
WIDTH = {4: 32, 6: 128}
MERGE = """
import sys, netaddr
sys.stdout.write("".join(f"{b}\\n" for b in netaddr.cidr_merge(line.strip() for line in sys.stdin)))
"""


def text_of(family, first, length):
    return f"{ipaddress.IPv4Address(first) if family == 4 else ipaddress.IPv6Address(first)}/{length}"


def spans_of(family, blocks):
    """The spans of addresses of blocks, each a pair of the first and the address behind the last, in order and apart."""
    found = []
    for first, length in sorted(blocks):
        end = first + 2 ** (WIDTH[family] - length)
        if found and first <= found[-1][1]:
            found[-1][1] = max(found[-1][1], end)
        else:
            found.append([first, end])
    return found


def fewest(family, spans):
    """The blocks of spans: the largest that begin at the first address that is left."""
    for first, end in spans:
        while first < end:
            size = min(first & -first or 2 ** WIDTH[family], 2 ** ((end - first).bit_length() - 1))
            yield text_of(family, first, WIDTH[family] - (size.bit_length() - 1))
            first += size


def beyond(have, by):
    """The spans of the one list without those of the other."""
    at, found = 0, []
    for first, end in have:
        while at < len(by) and by[at][1] <= first:
            at += 1
        look = at
        while look < len(by) and by[look][0] < end:
            if first < by[look][0]:
                found.append((first, by[look][0]))
            first = max(first, by[look][1])
            look += 1
        if first < end:
            found.append((first, end))
    return found


def listing(command, family, style, *more):
    return [PROGRAM, command, "--table", "global", "--family", str(family), "--style", style, "--name", "OFFICE", *more]


def same(what, found, wanted):
    if found != wanted:
        at = next((i for i, (a, b) in enumerate(zip(found, wanted)) if a != b), min(len(found), len(wanted)))
        sys.exit(f"lists: {what}: line {at + 1} is {found[at:at + 1]}, not {wanted[at:at + 1]}; {len(found)} lines, not {len(wanted)}")


def random_blocks(family, count, rng):
    within, low, high = (0x0A000000, 24, 32) if family == 4 else (0x20010DB8 << 96, 48, 128)
    inside = 8 if family == 4 else 32
    for _ in range(count):
        length = rng.randint(low, high)
        yield within + (rng.randrange(2 ** (length - inside)) << (WIDTH[family] - length)), length


def write(path, lines):
    with open(path, "w") as out:
        out.write("".join(line + "\n" for line in lines))


def merged(folder, family, count, rng):
    """`fewest` by `prefix-check` over an empty register, beside a peer: the run, the number of lines, and the name and the run of the peer, where it is installed."""
    blocks = list(random_blocks(family, count, rng))
    path = os.path.join(folder, "merge")
    write(path, (text_of(family, *block) for block in blocks))
    if os.path.getsize(path) > MOST:
        sys.exit(f"lists: {os.path.getsize(path)} bytes")
    mine = runs(listing("prefix-check", family, "plain"), path)
    wanted = list(fewest(family, spans_of(family, blocks)))
    same(f"fewest of IPv{family}", mine.text.split("\n")[:-1], [f"beyond {block}" for block in wanted])
    if family == 4 and shutil.which("iprange"):
        peer, name = runs(["iprange", path]), "iprange"
    elif family == 6 and subprocess.run(["/usr/bin/python3", "-c", "import netaddr"], capture_output=True).returncode == 0:
        peer, name = runs(["/usr/bin/python3", "-c", MERGE], path, 1), "netaddr"
    else:
        return mine, len(wanted), None, None
    key = lambda text: (int(ipaddress.ip_network(text).network_address), text)
    same(name, sorted((str(ipaddress.ip_network(line)) for line in peer.text.split()), key=key), sorted((str(ipaddress.ip_network(block)) for block in wanted), key=key))
    return mine, len(wanted), name, peer


def print_merged(folder, family, count, rng):
    mine, lines, name, peer = merged(folder, family, count, rng)
    print(f"fewest of {count:,} random IPv{family} blocks, {lines:,} lines: {mine.seconds:.3f} s, {mine.memory:.0f} MB", flush=True)
    print("    its peer is not installed" if peer is None else f"    {name}: {peer.seconds:.3f} s, {peer.memory:.0f} MB, the same blocks: {peer.seconds / mine.seconds:.2f} times ours")


def fill(folder, count, rng):
    """A file of so many prefixes, by imports of 10,000 rows, and their blocks."""
    blocks = [(0x0A000000 + 16 * at, 28) for at in rng.sample(range(2 ** 20), count)]
    for at in range(0, count, 10_000):
        write(os.path.join(folder, "rows"), ["prefix", *(text_of(4, *block) for block in blocks[at:at + 10_000])])
        Run([PROGRAM, "import", "prefixes", "--db", os.path.join(folder, "full.db")], os.path.join(folder, "rows"))
    return blocks


def printed(folder, blocks):
    """A full table printed, beside the same command over the other family."""
    words = ["--db", os.path.join(folder, "full.db")]
    pairs = [(Run(listing("prefix-list", 4, "ios", *words)), Run(listing("prefix-list", 6, "ios", *words))) for _ in range(11)]
    wanted = [f"ip prefix-list OFFICE seq {5 * at} permit {block}" for at, block in enumerate(fewest(4, spans_of(4, blocks)), 1)]
    same("prefix-list", pairs[0][0].text.split("\n")[:-1], wanted)
    more = statistics.median(one.seconds - other.seconds for one, other in pairs)
    print(f"prefix-list of {len(blocks):,} prefixes, {len(wanted):,} lines: {more:.2f} s more than over the other family, {pairs[0][1].seconds:.2f} s (median of 11 pairs)", flush=True)
    return statistics.median(other.seconds for _, other in pairs), statistics.median(other.memory for _, other in pairs)


def compared(folder, blocks, opening, rng):
    """A full table compared with as many bytes of lines as may be, in no order."""
    lines, size, others = [], 0, []
    while True:
        block = rng.choice(blocks) if rng.random() < 0.5 else (0x0A000000 + 8 * rng.randrange(2 ** 21), 29)
        line = text_of(4, *block)
        if size + len(line) + 1 > MOST:
            break
        others.append(block)
        lines.append(line)
        size += len(line) + 1
    write(os.path.join(folder, "lines"), lines)
    run = runs(listing("prefix-check", 4, "plain", "--db", os.path.join(folder, "full.db")), os.path.join(folder, "lines"))
    have, by = spans_of(4, blocks), spans_of(4, others)
    wanted = [f"missing {block}" for block in fewest(4, beyond(have, by))] + [f"beyond {block}" for block in fewest(4, beyond(by, have))]
    same("prefix-check", run.text.split("\n")[:-1], wanted)
    print(f"prefix-check of them with {size:,} bytes in no order, {len(wanted):,} lines: {run.seconds - opening[0]:.2f} s and {max(0, run.memory - opening[1]):.0f} MB beyond the opening", flush=True)


def single(folder, rng):
    """::/1 compared with as many bytes of single addresses as may be."""
    path, db = os.path.join(folder, "singles"), os.path.join(folder, "half.db")
    write(path, ["prefix", "::/1"])
    Run([PROGRAM, "import", "prefixes", "--db", db], path)
    lines, size, blocks = [], 0, []
    while True:
        block = (rng.randrange(2 ** 127), 128)
        line = text_of(6, *block)
        if size + len(line) + 1 > MOST:
            break
        blocks.append(block)
        lines.append(line)
        size += len(line) + 1
    write(path, lines)
    run = Run(listing("prefix-check", 6, "plain", "--db", db), path)
    wanted = [f"missing {block}" for block in fewest(6, beyond([(0, 2 ** 127)], spans_of(6, blocks)))]
    same("::/1", run.text.split("\n")[:-1], wanted)
    print(f"::/1 with {len(lines):,} single addresses, {len(wanted):,} lines: {run.seconds:.2f} s, {run.memory:.0f} MB", flush=True)


def router(folder, rng):
    """A router reads what is printed for both families, and what it shows has the same addresses."""
    zebra = "/usr/lib/frr/zebra"
    if not os.path.exists(zebra):
        print("frr is not installed: no router read the lists")
        return
    db, rows = os.path.join(folder, "router.db"), os.path.join(folder, "rows")
    write(rows, ["prefix", *{text_of(family, *block) for family in (4, 6) for block in random_blocks(family, 2_000, rng)}])
    Run([PROGRAM, "import", "prefixes", "--db", db], rows)
    # zebra runs as the user of its package, and writes into a folder of its own
    own = os.path.join(folder, "frr")
    os.mkdir(own)
    os.chmod(folder, 0o711)
    shutil.chown(own, "frr", "frr")
    daemon = subprocess.Popen([zebra, "--vty_socket", own, "-i", f"{own}/zebra.pid", "-z", f"{own}/zserv.api"], stdout=subprocess.DEVNULL, stderr=subprocess.DEVNULL)
    try:
        time.sleep(2)
        for family, front in ((4, "ip"), (6, "ipv6")):
            path = os.path.join(folder, "list")
            listed = Run(listing("prefix-list", family, "ios", "--db", db))
            with open(path, "w") as out:
                out.write(listed.text)
            subprocess.run(["vtysh", "--vty_socket", own, "-f", path], check=True, stdout=subprocess.DEVNULL)
            shown = subprocess.run(["vtysh", "--vty_socket", own, "-c", "show running-config"], check=True, capture_output=True).stdout.decode()
            cut = [line for line in shown.splitlines() if re.match(f"{front} prefix-list OFFICE ", line)]
            write(path, cut)
            if Run(listing("prefix-check", family, "ios", "--db", db), path).text:
                sys.exit(f"lists: frr shows other addresses of IPv{family}")
            print(f"frr read {len(cut):,} lines of IPv{family}, and what it shows has the same addresses", flush=True)
    finally:
        daemon.kill()


def main():
    rng = random.Random(int(sys.argv[1]))
    with tempfile.TemporaryDirectory() as folder:
        print_merged(folder, 4, 200_000, rng)
        print_merged(folder, 6, 80_000, rng)
        single(folder, rng)
        router(folder, rng)
        blocks = fill(folder, 200_000, rng)
        compared(folder, blocks, printed(folder, blocks), rng)


if __name__ == "__main__":
    main()
