"""What is ipamd's alone of the edges of docs/openapi.json: its bodies and records, texts of addresses and blocks, references, and kinds that are full;
conformance/openapi_edges.py has the rest."""
import os
import shutil
import sqlite3
import subprocess
import sys

from conformance.openapi_edges import API, CLASSES, NO_NUMBERS, Edge, Edges, Place, quoted, request, success_of, value_edges
from conformance.openapi_reading import faults
from model.plain_texts import host_text, read_host, width

# the kinds that are filled here; bench/full.py fills the others
FULL = ("vrfs", "rirs", "roles", "aggregates")
TABLES = ("vrfs", "rirs", "roles", "aggregates", "prefixes", "ip_ranges", "ip_addresses")
# what the registers of the edges begin with: nothing names the first record of a kind, so that it can be deleted
ROWS = [("vrfs", {"name": "one"}), ("vrfs", {"name": "two", "rd": "1:1"}), ("rirs", {"name": "one", "slug": "one"}), ("rirs", {"name": "two", "slug": "two"}),
        ("roles", {"name": "one", "slug": "one"}), ("aggregates", {"prefix": "198.51.100.0/24", "rir": 2}), ("prefixes", {"prefix": "10.0.0.0/8"}),
        ("prefixes", {"prefix": "fd00::/64"}), ("ip-ranges", {"start_address": "fd00:1::/64", "end_address": "fd00:1::ffff/64"}),
        ("ip-addresses", {"address": "fd00:2::1/64"})]
# a table that has a block twice, and is not to enforce uniqueness: its VRF is the third one
TWICE = [("vrfs", {"name": "three", "enforce_unique": False})] + [("prefixes", {"prefix": "10.9.0.0/24", "vrf": 3})] * 2
# bodies that are accepted; one member at a time is put to an edge
VALID = {"NewVrf": {"name": "n"}, "NewRir": {"name": "n", "slug": "n"}, "NewRole": {"name": "n", "slug": "n"},
         "NewAggregate": {"prefix": "192.0.2.0/24", "rir": 1}, "NewPrefix": {"prefix": "192.0.2.0/24"},
         "NewIpRange": {"start_address": "192.0.2.1/24", "end_address": "192.0.2.9/24"},
         "NewIpAddress": {"address": "fd00:3::1/64"}, "BlockClaim": {"prefix_length": 24}, "AddressClaim": {}}
# texts of addresses and blocks: the ends of each part, and one past them
NETS = ["0.0.0.0/0", "0.0.0.0/1", "::/0", "::/1", "255.255.255.255/32", "255.255.255.255/33", "255.255.255.256/32", "1.2.3.4", "1.2.3.4/", "1.2.3/24",
        "1.2.3.4.5/32", "01.2.3.4/32", "1.2.3.4/032", "1.2.3.4/-1", "1.2.3.4/31", "1.2.3.5/31", "1.2.3.4/32 ", " 1.2.3.4/32", "1.2.3.4/32\n", "1.2.3.4/32/32",
        "::1/128", "::1/129", "::1/127", "::2/127", "1:2:3:4:5:6:7:8/128", "1:2:3:4:5:6:7/128", "1:2:3:4:5:6:7:8:9/128", "1:2:3:4:5:6:7::/128",
        "::2:3:4:5:6:7:8/128", "1:2:3:4::5:6:7:8/128", "1::2::3/128", "1:::2/128", ":1::2/128", "ffff::/16", "FFFF::/16", "10000::/16", "g::/16",
        "::1.2.3.4/128", "::1.2.3.256/128", "1:2:3:4:5:6:1.2.3.4/128", "1:2:3:4:5:6:7:1.2.3.4/128", "1:2:3:4:5::1.2.3.4/128", "1:2:3:4:5:6::1.2.3.4/128",
        "1.2.3.4::/128", "::1%1/128", "250.249.200.199/32", "100.99.10.9/32", "260.0.0.0/32", "128.0.0.0/9", "64.0.0.0/10", "96.0.0.0/19", "96.0.64.0/20",
        "96.1.0.0/29", "96.2.0.0/30", "4000::/9", "5000::/10", "6000::/99", "6100::/100", "6200::/109", "6300::/110", "6400::/119", "6500::/120", ""]
HOST_NAMES = ["", "a", "A", "*", "*.a", "a.*", "a.", "a..b", ".", ".a", "-", "_", "a b", "a\n", "a.b.c-d_e"]


class RegisterEdges(Edges):
    valid, listing = VALID, API + "vrfs/"

    def claimed_from(self, template):
        # from the prefix of IPv6, so that each status is allowed
        return "2" if template == API + "prefixes/{id}/available-ips/" else "1"

    def values(self, name, schema):
        if name in ("prefix", "address", "start_address", "end_address"):
            found = NETS
        elif name == "dns_name":
            most = schema["x-max-bytes"]
            found = HOST_NAMES + ["a" * most, "a" * (most + 1), "\u00e9" * (most // 2), "\u00e9" * (most // 2 + 1)]
            found += list(CLASSES) + ["a." + sign for sign in CLASSES]
        else:
            return value_edges(schema)
        return list(dict.fromkeys([quoted(text) for text in found] + NO_NUMBERS))

    def texts_of_parameter(self, schema):
        return NETS if schema.get("format") == "cidr-block" else super().texts_of_parameter(schema)

    def companions(self, name, value):
        """The other end of a range, beside one that is well formed."""
        found = read_host(value) if isinstance(value, str) else None
        if name not in ("start_address", "end_address") or not found:
            return {}
        other = found[1] + (1 if name == "start_address" else -1)
        if not 0 <= other < 2 ** width(found[0]):
            return None
        return {"end_address" if name == "start_address" else "start_address": host_text(found[0], other, found[2])}

    def is_reference(self, schema):
        return schema.get("maximum") == self.document.limits["ids"] + 1

    def rule_code(self, schema, value, place):
        codes = [code for code in faults(schema, value) if code not in ("field", "host_bits", "bad_json")]
        there = self.document.limits["ids"] if place.register == "named" else 1
        if not codes and self.is_reference(schema) and value not in (None, there):
            codes = ["no_such"]
        if not codes and schema.get("maximum") == 255 and not 8 < value <= 32:
            codes = ["wanted_length"]
        return codes[0] if codes else None

    def own_body_edges(self, template, place, item, shapes):
        """The last id as a reference, and ranges of each size."""
        named = Place(self, place.operation, place.method, place.target, place.base, "named")
        for name, one in item["properties"].items():
            if self.is_reference(one):
                yield from (named.of_member(name, one, str(self.document.limits["ids"]), shape) for shape in shapes)
        if template == API + "ip-ranges/":
            yield from self.size_edges(place)

    def size_edges(self, place):
        """Ranges with so many addresses as one may have, and with one fewer or more."""
        size = self.document.resolved(self.document.raw["components"]["schemas"]["IpRange"])["properties"]["size"]
        for count, code in ((size["minimum"] - 1, "range_order"), (size["minimum"], None), (size["maximum"], None), (size["maximum"] + 1, "range_size")):
            body = {"start_address": "fd00:9::/64", "end_address": host_text(6, read_host("fd00:9::")[1] + count - 1, 64)}
            yield place.edge(f"of {count} addresses", body, 400 if code else success_of(place.operation), code)

    def own_edges(self):
        """Kinds that are full, or full but for one record, ids that are used up, and a table with a block twice that is to enforce uniqueness."""
        target = API + "vrfs/{id}/"
        for enforced, status, code in ((False, 200, None), (True, 400, "coincide")):
            yield Edge(f"a table with a block twice, to enforce {enforced}", request("PATCH", target.replace("{id}", "3"), {"enforce_unique": enforced}), status, code,
                       "twice", self.document.paths[target]["patch"])
        for kind in self.document.limits["records"]:
            create, target = self.document.paths[API + kind + "/"]["post"], API + kind + "/"
            body = self.body_of(target, "post")
            if kind in FULL:
                yield Edge(f"the last of the {kind}", request("POST", target, body), 201, None, kind + " but one", create)
                yield Edge(f"one more of the {kind}", request("POST", target, body), 507, "limit", kind + " all", create)
            body = {**body, "rir": self.document.limits["ids"]} if kind == "aggregates" else body
            yield Edge(f"no id is left for {kind}", request("POST", target, body), 507, "limit", "last", create)

    def make(self, folder):
        """`small`; `twice`, which has a block twice besides; `last`, whose first records have the last id; `named`, where VRFs, RIRs and roles do; and those of
        a kind that is full, or full but for one record."""
        small, twice = (os.path.join(folder, name) for name in ("small", "twice"))
        self.create(small, ROWS)
        shutil.copy(small, twice)
        self.create(twice, TWICE)
        last, rows = self.document.limits["ids"], self.document.limits["records"]
        for name, tables in (("last", TABLES), ("named", TABLES[:3])):
            shutil.copy(small, os.path.join(folder, name))
            store = sqlite3.connect(os.path.join(folder, name))
            for table in tables:
                store.execute(f"UPDATE {table} SET id = ? WHERE id = 1", (last,))
                store.execute("UPDATE meta SET value = ? WHERE name = ?", (last + 1, "next_" + table))
            store.commit()
            store.close()
        for kind in FULL:
            for name, count in ((f"{kind} but one", rows[kind] - 1), (f"{kind} all", rows[kind])):
                shutil.copy(small, os.path.join(folder, name))
                self.fill(os.path.join(folder, name), kind, count - sum(one == kind for one, _ in ROWS))

    def create(self, path, rows):
        sent = b"".join(request("POST", API + kind + "/", row) for kind, row in rows)
        done = subprocess.run([self.program, "session", "--db", path], input=sent, capture_output=True)
        if done.returncode != 0 or done.stdout.count(b"HTTP/1.1 201 Created") != len(rows):
            sys.exit(f"openapi: the register of the edges: {done.stdout[-2000:]!r}")

    def fill(self, path, kind, count):
        """So many records more, by an import."""
        columns = {"vrfs": "name", "rirs": "name,slug", "roles": "name,slug", "aggregates": "prefix,rir"}[kind]
        rows = [f"10.{n >> 8}.{n & 255}.0/24,two" if kind == "aggregates" else ",".join([f"x{n}"] * len(columns.split(","))) for n in range(count)]
        done = subprocess.run([self.program, "import", kind, "--db", path], input="\n".join([columns] + rows), capture_output=True, text=True)
        if done.stdout != f"created {count} present 0\n":
            sys.exit(f"openapi: {count} {kind}: {done.stdout} {done.stderr}")
