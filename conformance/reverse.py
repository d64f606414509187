"""Names of addresses for conformance/reverse.sh, and PTR lines by Python's `ipaddress`, which knows nothing of the program.

reverse.py names N        N pairs `address,name`, sorted by address: a /22 of IPv4 without its ends, and hosts of an IPv6 /48; some names have `_`
reverse.py rows           pairs on the input, as a file for `import ip-addresses`
reverse.py lines          pairs on the input, as PTR lines
reverse.py pairs          PTR lines on the input (a TTL, tabs and letters of either case are read), as pairs, sorted by address and name
reverse.py digs PORT      pairs on the input, as a batch for `dig -f`
"""

import ipaddress
import random
import sys

FOUR = ipaddress.ip_network("10.2.0.0/22")
SIX = ipaddress.ip_network("2001:db8:47::/48")


def names(count):
    chosen = random.Random(1035)
    hosts = list(FOUR.hosts())[:count]
    taken = set()
    while len(hosts) + len(taken) < count:
        taken.add(SIX[chosen.randrange(1, 2 ** 80)])
    for n, host in enumerate(hosts + sorted(taken)):
        label = chosen.choice(["host", "www", "_dmarc", "a_b", "x-1", "h" * 60])
        yield host, f"{label}{n % 1000}.site{n % 7}.example.net"


def pairs():
    for line in sys.stdin:
        host, name = line.rstrip("\n").split(",")
        yield ipaddress.ip_address(host), name


def host_of(owner):
    labels = owner.lower().split(".")
    if labels[-3:] == ["in-addr", "arpa", ""]:
        return ipaddress.ip_address(".".join(reversed(labels[:-3])))
    if labels[-3:] == ["ip6", "arpa", ""] and len(labels) == 35:
        return ipaddress.ip_address(int("".join(reversed(labels[:-3])), 16).to_bytes(16, "big"))
    raise SystemExit(f"no owner of an address: {owner}")


def read_lines():
    for line in sys.stdin:
        words = line.split()
        if [word.upper() for word in words[-3:-1]] != ["IN", "PTR"] or not words[-1].endswith("."):
            raise SystemExit(f"no PTR line: {line!r}")
        yield host_of(words[0]), words[-1][:-1].lower()


def main(word, *rest):
    if word == "names":
        for host, name in names(int(rest[0])):
            print(f"{host},{name}")
    elif word == "rows":
        print("address,vrf,status,role,dns_name,description")
        for host, name in pairs():
            print(f"{host}/{host.max_prefixlen},,active,,{name},")
    elif word == "lines":
        for host, name in pairs():
            print(f"{host.reverse_pointer}. IN PTR {name}.")
    elif word == "pairs":
        for host, name in sorted(read_lines(), key=lambda pair: (pair[0].version, pair[0], pair[1])):
            print(f"{host},{name}")
    elif word == "digs":
        for host, _ in pairs():
            print(f"@127.0.0.1 -p {rest[0]} -x {host} +short +tries=3")
    else:
        raise SystemExit(__doc__)


main(*sys.argv[1:])
