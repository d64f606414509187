#!/usr/bin/env python3
"""Whole zone files of the names in a register, for named, NSD, Knot or PowerDNS; the serial is raised only if the rest of the zone differs.

    zone_files.py list PREFIX [--ns A,B]                 the reverse zones that a prefix needs, a line each
    ipamd reverse --prefix 1 --db office.db | zone_files.py reverse --zone 2.0.192.in-addr.arpa WORDS
    ipamd export ip-addresses --db office.db | zone_files.py forward --zone example.net --table global WORDS
    zone_files.py read --zone 2.0.192.in-addr.arpa < FILE | ipamd import ip-addresses --db office.db

WORDS are --primary NAME, --contact MAIL, --ns A,B, and any of --ttl SECONDS (3600), --serial N (1), --into FILE, --misfits skip. --table is global or
the name of a VRF. --status active,reserved,.. says which addresses `forward` writes (all). Each option has one value, and is given once.

Without --into the zone is printed. With it FILE is replaced if anything but the serial differs: the new serial is N if that is ahead of the old one
(RFC 1982), or else the old one and 1. A line says which it was. Reverse zones end at an octet or a nibble, or are those of RFC 2317
(`0-26.2.0.192.in-addr.arpa`), for which `list` prints the lines of the zone above as comments. The lines of other zones are left out. A name that servers
refuse for a host (`_`, `-x`) is named, and nothing is written; with --misfits skip it is left out, and standard error has their number. An NS in the zone
needs an address there.

`read` takes any zone file (RFC 1035 5.1) without $INCLUDE, and prints the addresses and names of its PTR, A and AAAA records, each once.

The status is 0, 1 if the input or a name is refused, or 2 for other words.
"""
import csv
import ipaddress
import os
import re
import sys
import tempfile

LABEL = re.compile(r"[a-z0-9]([a-z0-9-]{0,61}[a-z0-9])?")
SOA = re.compile(r"(@ IN SOA \S+ \S+ )(\d+)( \d+ \d+ \d+ \d+)")
TIMES = "7200 3600 1209600 3600"
FAMILIES = {"in-addr.arpa": (4, 10, 8), "ip6.arpa": (6, 16, 4)}


class Refused(Exception):
    """What a line on standard error says."""


class Usage(Exception):
    """Other words than the usage has."""


def is_host(name):
    """Whether servers take the name for a host (RFC 952, RFC 1123)."""
    return len(name) <= 253 and all(LABEL.fullmatch(label) for label in name.split("."))


# ---- words

def options(words, known):
    """The options that are given, by their names."""
    found = {}
    rest = list(words)
    while rest:
        name, is_joined, value = rest.pop(0).partition("=")
        if not is_joined and not rest:
            raise Usage
        if name not in known or name in found:
            raise Usage
        found[name] = value if is_joined else rest.pop(0)
    return found


def number(text, most):
    if not re.fullmatch(r"0|[1-9]\d{0,9}", text) or int(text) > most:
        raise Usage
    return int(text)


def host_name(text):
    name = text.lower().removesuffix(".")
    if not is_host(name):
        raise Usage
    return name


def mailbox(text):
    """A mail address as a name: the dots before the @ are escaped (RFC 1035 8)."""
    local, _, domain = text.rpartition("@")
    if not re.fullmatch(r"[A-Za-z0-9_+-]+([.][A-Za-z0-9_+-]+)*", local):
        raise Usage
    return local.replace(".", "\\.") + "." + host_name(domain)


# ---- reverse zones

def label_of(address, place):
    """The octet or nibble of an address at a place, counted from the first."""
    _, base, bits = FAMILIES["in-addr.arpa" if address.version == 4 else "ip6.arpa"]
    shift = address.max_prefixlen - bits * (place + 1)
    part = int(address) >> shift & 2 ** bits - 1
    return f"{part:x}" if base == 16 else str(part)


def zone_of(network):
    """The name of the zone of a network that ends at an octet or a nibble, or of one below a /24."""
    top, bits = ("in-addr.arpa", 8) if network.version == 4 else ("ip6.arpa", 4)
    first = network.network_address
    labels = [label_of(first, place) for place in range(network.prefixlen // bits)]
    if network.version == 4 and network.prefixlen > 24:
        labels = labels[:3] + [f"{label_of(first, 3)}-{network.prefixlen}"]
    return ".".join([*reversed(labels), top])


def zones_needed(network):
    """The networks of the zones that a prefix needs."""
    if network.version == 4 and network.prefixlen > 24:
        return [network]
    bits = 8 if network.version == 4 else 4
    length = -(-network.prefixlen // bits) * bits
    if network.version == 6 and length > 124:
        return [network.supernet(new_prefix=124)]
    return list(network.subnets(new_prefix=length))


def network_of(zone):
    """The network of a reverse zone."""
    for top, (family, base, bits) in FAMILIES.items():
        if zone == top or zone.endswith("." + top):
            labels = zone.removesuffix(top).rstrip(".").split(".") if zone != top else []
            break
    else:
        raise Usage
    length = None
    if family == 4 and len(labels) == 4 and (classless := re.fullmatch(r"(\d+)-(2[5-9]|3[0-2])", labels[0])):
        labels[0], length = classless[1], int(classless[2])
    whole = 32 if family == 4 else 128
    length = len(labels) * bits if length is None else length
    try:
        parts = [int(label, base) for label in reversed(labels)]
    except ValueError:
        raise Usage from None
    if any(part >> bits for part in parts) or len(parts) * bits > whole:
        raise Usage
    value = 0
    for part in parts:
        value = value << bits | part
    value <<= whole - len(parts) * bits
    address = ipaddress.IPv4Address(value) if family == 4 else ipaddress.IPv6Address(value)
    try:
        network = ipaddress.ip_network((address, length))
    except ValueError:
        raise Usage from None
    if zone_of(network) != zone:
        raise Usage
    return network


def address_of(owner):
    """The address of an owner that has all octets or nibbles."""
    labels = owner.removesuffix(".").split(".")
    try:
        if labels[4:] == ["in-addr", "arpa"]:
            return ipaddress.IPv4Address(".".join(reversed(labels[:4])))
        if labels[32:] == ["ip6", "arpa"] and all(len(label) == 1 for label in labels[:32]):
            return ipaddress.IPv6Address(int("".join(reversed(labels[:32])), 16))
    except ValueError:
        pass
    raise Refused(f"{owner}: not the owner of an address")


def pairs(lines):
    """The addresses and names of PTR lines as `ipamd reverse` prints them."""
    for at, line in enumerate(lines, 1):
        words = line.split()
        if len(words) != 4 or words[1:3] != ["IN", "PTR"] or not words[3].endswith("."):
            raise Refused(f"line {at}: not a PTR line")
        yield address_of(words[0]), words[3].removesuffix(".")


def reverse_records(network, lines, misfits):
    """The PTR records of a zone, each once, in the order of the lines. No line at all is what a command leaves that failed."""
    zone = zone_of(network)
    is_classless = network.version == 4 and network.prefixlen > 24
    found, count = {}, 0
    for count, (address, name) in enumerate(pairs(lines), 1):
        if address.version != network.version or address not in network:
            continue
        if not is_host(name):
            misfits.add(f"{address} {name}")
            continue
        owner = f"{label_of(address, 3)}.{zone}" if is_classless else address.reverse_pointer
        found[f"{owner}. IN PTR {name}."] = True
    if count == 0:
        raise Refused("no PTR line is on the input")
    return list(found)


def above(network, servers):
    """What the zone above a zone below /24 has to say, as comments (RFC 2317)."""
    own = zone_of(network).split(".")[0]
    yield f"; in {zone_of(network.supernet(new_prefix=24))}.:"
    for server in servers:
        yield f"; {own} IN NS {server}."
    for address in network:
        yield f"; {label_of(address, 3)} IN CNAME {label_of(address, 3)}.{own}"


# ---- forward zones

def forward_records(zone, table, statuses, lines, misfits):
    """The A and AAAA records of a zone, each once, in the order of the rows."""
    found, rows = {}, csv.DictReader(lines)
    if not {"address", "vrf", "status", "dns_name"} <= set(rows.fieldnames or ()):
        raise Refused("no export of ip-addresses is on the input")
    for row in rows:
        name = row["dns_name"].lower().removesuffix(".")
        in_zone = name == zone or name.endswith("." + zone)
        if row["vrf"] != table or (statuses and row["status"] not in statuses) or not in_zone:
            continue
        address = ipaddress.ip_interface(row["address"]).ip
        if not is_host(name.removeprefix("*.")):
            misfits.add(f"{address} {name}")
            continue
        found[f"{name}. IN {'A' if address.version == 4 else 'AAAA'} {address}"] = True
    return list(found)


# ---- a zone file that is read

TOKEN = re.compile(r'[ \t\r]+|;.*|([()])|("(?:[^"\\]|\\.)*"|(?:[^ \t\r;()"\\]|\\.)+)|(.)')
TTL = re.compile(r"(\d+[smhdw]?)+", re.I)


def entries(lines):
    """The entries of a zone file: the line where one begins, whether a blank comes first, and its words. Parentheses join lines."""
    words, depth, began, is_blank = [], 0, 1, False
    for at, line in enumerate(lines, 1):
        line = line.rstrip("\n")
        if depth == 0:
            words, began, is_blank = [], at, line[:1] in (" ", "\t")
        for bracket, word, other in (found.groups() for found in TOKEN.finditer(line)):
            if other or (bracket == ")" and depth == 0):
                raise Refused(f"line {at}: not a line of a zone file")
            depth += {"(": 1, ")": -1}.get(bracket, 0)
            if word:
                words.append(word)
        if depth == 0 and words:
            yield began, is_blank, words
    if depth:
        raise Refused(f"line {began}: a parenthesis is not closed")


def absolute(name, origin):
    """A name with all its labels and without the last period, in lower case."""
    name = name.lower()
    if name == "@":
        return origin
    return name.removesuffix(".") if name.endswith(".") else f"{name}.{origin}"


def records_of(zone, lines):
    """The line, owner, type and data of each record of the class IN."""
    origin, owner = zone, None
    for at, is_blank, words in entries(lines):
        if words[0].upper() in ("$ORIGIN", "$TTL") and not is_blank:
            if len(words) != 2:
                raise Refused(f"line {at}: not a line of a zone file")
            origin = absolute(words[1], origin) if words[0].upper() == "$ORIGIN" else origin
            continue
        if words[0].startswith("$"):
            raise Refused(f"line {at}: {words[0]} is not read")
        if not is_blank:
            owner = absolute(words.pop(0), origin)
        while words and (words[0].upper() == "IN" or TTL.fullmatch(words[0])):
            words.pop(0)
        if owner is None or len(words) < 2:
            raise Refused(f"line {at}: not a line of a zone file")
        yield at, owner, words[0].upper(), [absolute(word, origin) for word in words[1:]] if words[0].upper() == "PTR" else words[1:]


def host_of(owner, zone):
    """The address of the owner of a PTR record, also in a zone of RFC 2317."""
    part, *rest = owner.split(".")
    if rest and ".".join(rest) == zone and re.match(r"\d+-(2[5-9]|3[0-2])[.]", zone):
        owner = ".".join([part, *rest[1:]])
    return address_of(owner)


def zone_pairs(zone, lines):
    """The addresses and names of a zone file, each pair once."""
    found = {}
    for at, owner, kind, data in records_of(zone, lines):
        if kind not in ("PTR", "A", "AAAA"):
            continue
        try:
            address, name = (host_of(owner, zone), data[0]) if kind == "PTR" else (ipaddress.ip_address(data[0]), owner)
        except (ValueError, Refused):
            raise Refused(f"line {at}: a {kind} record without an address") from None
        if len(data) != 1 or "\\" in name or (kind != "PTR" and address.version != (4 if kind == "A" else 6)):
            raise Refused(f"line {at}: not the {kind} record of a host")
        found[f"{address},{name}"] = True
    return list(found)


# ---- the zone

def zone_text(zone, asked, serial, records):
    head = [f"$ORIGIN {zone}.", f"$TTL {asked['ttl']}", f"@ IN SOA {asked['primary']}. {asked['contact']}. {serial} {TIMES}"]
    return "\n".join(head + [f"@ IN NS {server}." for server in asked["ns"]] + records) + "\n"


def without_address(zone, servers, records):
    """The first name server in the zone that has no address there."""
    owners = {record.split(" ")[0] for record in records if record.split(" ")[2] in ("A", "AAAA")}
    return next((server for server in servers if (server == zone or server.endswith("." + zone)) and server + "." not in owners), None)


def next_serial(old, wanted):
    """The serial after an old one: the wanted one if it is ahead (RFC 1982), or one more."""
    ahead = wanted is not None and 0 < (wanted - old) % 2 ** 32 < 2 ** 31
    return wanted if ahead else (old + 1) % 2 ** 32 or 1


def replace(path, text):
    folder = os.path.dirname(os.path.abspath(path))
    with tempfile.NamedTemporaryFile("w", dir=folder, delete=False) as file:
        file.write(text)
        file.flush()
        os.fsync(file.fileno())
    os.chmod(file.name, 0o644)
    os.replace(file.name, path)


def put(zone, asked, records):
    """Prints the zone, or brings its file up to date."""
    path, first = asked["into"], 1 if asked["serial"] is None else asked["serial"]
    if path is None:
        sys.stdout.write(zone_text(zone, asked, first, records))
        return
    serial = first
    if os.path.exists(path):
        with open(path) as file:
            old = file.read()
        lines = old.split("\n")
        was = SOA.fullmatch(lines[2]) if len(lines) > 2 else None
        if was is None:
            raise Refused(f"{path}: not a zone of this program")
        if old == zone_text(zone, asked, int(was[2]), records):
            print(f"{path}: unchanged, serial {was[2]}, {len(records)} records")
            return
        serial = next_serial(int(was[2]), asked["serial"])
    replace(path, zone_text(zone, asked, serial, records))
    print(f"{path}: serial {serial}, {len(records)} records")


STATUSES = {"active", "reserved", "deprecated", "dhcp", "slaac"}
KNOWN = ("--zone", "--primary", "--contact", "--ns", "--ttl", "--serial", "--into", "--misfits")


def asked_for(found):
    """The values of the options that both kinds of zones have."""
    if not {"--zone", "--primary", "--contact", "--ns"} <= set(found) or found.get("--misfits", "skip") != "skip":
        raise Usage
    servers = [host_name(server) for server in found["--ns"].split(",")]
    if len(set(servers)) != len(servers):
        raise Usage
    return {
        "primary": host_name(found["--primary"]),
        "contact": mailbox(found["--contact"]),
        "ns": servers,
        "ttl": number(found.get("--ttl", "3600"), 2 ** 31 - 1),
        "serial": number(found["--serial"], 2 ** 32 - 1) if "--serial" in found else None,
        "into": found.get("--into"),
    }


def make(kind, words):
    found = options(words, KNOWN + (("--table", "--status") if kind == "forward" else ()))
    asked = asked_for(found)
    zone = found["--zone"].lower().removesuffix(".")
    misfits = set()
    if kind == "reverse":
        records = reverse_records(network_of(zone), sys.stdin, misfits)
    else:
        if not is_host(zone) or "--table" not in found:
            raise Usage
        table = "" if found["--table"] == "global" else found["--table"]
        statuses = found["--status"].split(",") if "--status" in found else []
        if not set(statuses) <= STATUSES:
            raise Usage
        records = forward_records(zone, table, statuses, sys.stdin, misfits)
    if misfits and "--misfits" not in found:
        raise Refused(f"{min(misfits)}: the name does not fit the zone")
    if lacking := without_address(zone, asked["ns"], records):
        raise Refused(f"{lacking}: the NS is in the zone and has no address there")
    if misfits:
        print(f"zone_files.py: {len(misfits)} names left out", file=sys.stderr)
    put(zone, asked, records)


def read_zone(words):
    found = options(words, ("--zone",))
    if "--zone" not in found:
        raise Usage
    print("\n".join(["address,dns_name", *zone_pairs(found["--zone"].lower().removesuffix("."), sys.stdin)]))


def list_zones(prefix, words):
    found = options(words, ("--ns",))
    servers = [host_name(server) for server in found["--ns"].split(",")] if "--ns" in found else []
    try:
        network = ipaddress.ip_network(prefix)
    except ValueError:
        raise Usage from None
    for needed in zones_needed(network):
        print(zone_of(needed))
        if needed.version == 4 and needed.prefixlen > 24:
            print("\n".join(above(needed, servers)))


def main(words):
    if words in (["help"], ["--help"], ["-h"]):
        print(__doc__.rstrip())
        return 0
    try:
        if words[:1] == ["list"] and len(words) > 1:
            list_zones(words[1], words[2:])
        elif words[:1] == ["read"]:
            read_zone(words[1:])
        elif words[:1] in (["reverse"], ["forward"]):
            make(words[0], words[1:])
        else:
            raise Usage
    except Usage:
        print(__doc__.rstrip(), file=sys.stderr)
        return 2
    except (Refused, OSError) as fault:
        print(f"zone_files.py: {fault}", file=sys.stderr)
        return 1
    return 0


if __name__ == "__main__":
    sys.exit(main(sys.argv[1:]))
