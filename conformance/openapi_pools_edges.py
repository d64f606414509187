"""What is poold's alone of the edges of docs/openapi-pools.json: its bodies and rows, the numbers of each kind, and pools that are full;
conformance/openapi_edges.py has the rest."""
import os
import shutil
import sqlite3
import subprocess
import sys

from conformance.openapi_edges import API, Edge, Edges, request

# what is claimed by an item, what a range is made of, and which number is recorded
VALID = {"NewRange": {"name": "n", "start": 7, "end": 9}, "AsnClaim": {}, "VlanClaim": {"name": "n"}, "NewAsns": {"asn": 64513, "name": "n"},
         "NewVlans": {"vid": 10, "name": "n"}, "RangeEdit": {"name": "n", "start": 7, "end": 9}, "AsnEdit": {"name": "n"}, "VlanEdit": {"name": "n"}}
# the first and the last number of the range and of the group that are recorded in
RECORDED = {"asn-ranges": (64512, 65534), "vlan-groups": (1, 4094)}
# what the pools of the edges begin with: a range and a group without members, which can be deleted, and one of each with a member
ROWS = [("asn-ranges/", {"name": "one", "start": 64512, "end": 65534}), ("vlan-groups/", {"name": "one", "start": 1, "end": 4094}),
        ("asn-ranges/", {"name": "two", "start": 4200000000, "end": 4294967295}), ("vlan-groups/", {"name": "two", "start": 1, "end": 4094}),
        ("asn-ranges/3/available-asns/", {}), ("vlan-groups/4/available-vlans/", {"name": "voice"})]
# of each kind the id of its first row above, what a row is in the document, and what is claimed from it
KINDS = {"asn-ranges": ("1", "AsnRange", "available-asns/"), "vlan-groups": ("2", "VlanGroup", "available-vlans/")}
# of the first part of a path the id of a row above
IDS = {"asn-ranges": "1", "asns": "1", "vlan-groups": "2", "vlans": "2"}


class PoolEdges(Edges):
    valid, listing = VALID, API + "asn-ranges/"

    def here(self, template):
        return IDS[template.removeprefix(API).split("/")[0]]

    def last(self, template):
        return "last " + self.here(template)

    def most(self, ranges):
        """The greatest number of this kind."""
        return self.document.resolved(self.document.raw["components"]["schemas"][KINDS[ranges][1]])["properties"]["end"]["maximum"]

    def companions(self, name, value):
        """The other end of a range, which is the same number."""
        if name not in ("start", "end") or not isinstance(value, int) or isinstance(value, bool) or value < 0:
            return {}
        return {"end" if name == "start" else "start": value}

    def items(self, base, count):
        """Numbers that are recorded are each there once."""
        number = next((name for name in ("asn", "vid") if name in base), None)
        return [{**base, number: base[number] + place} if number else base for place in range(count)]

    def rule_code(self, schema, value, place):
        ranges = place.operation["tags"][0]
        first, last = RECORDED[ranges] if place.operation["operationId"].startswith("record") else (1, self.most(ranges))
        return "bounds" if schema.get("type") == "integer" and not first <= value <= last else None

    def own_body_edges(self, template, place, item, shapes):
        """Ranges from the first number to the last, and past both; and a name that is taken."""
        if "start" not in item["properties"]:
            return
        most, done = self.most(place.operation["tags"][0]), 200 if place.operation["operationId"].startswith("edit") else 201
        for first, last in ((1, 1), (1, 2), (2, 1), (1, most), (most, most), (most, most - 1), (0, most), (1, most + 1), (most + 1, most + 1)):
            code = "field" if last > 4294967295 else "bounds" if not 1 <= first <= last <= most else None
            yield place.edge(f"from {first} to {last}", {"name": "n", "start": first, "end": last}, self.document.status(code) if code else done, code)
        yield place.edge("with a name that is taken", {**place.base, "name": "two"}, 400, "name_taken")

    def own_edges(self):
        """Claims of all numbers and of one more; what is full, or full but for one row; a range that has members; and ids that are used up."""
        for ranges, (number, _, claims) in KINDS.items():
            base, paths = API + ranges + "/", self.document.paths
            create, claim, cut = paths[base]["post"], paths[base + "{id}/" + claims]["post"], paths[base + "{id}/"]["delete"]
            new, item, target = self.body_of(base, "post"), self.body_of(base + "{id}/" + claims, "post"), f"{base}{number}/{claims}"
            for count, status, code in ((3, 201, None), (4, 409, "no_space")):
                yield Edge(f"{count} of three {claims}", request("POST", f"{base}{5 if ranges == 'asn-ranges' else 6}/{claims}", [item] * count), status, code, "few", claim)
            yield Edge(f"a range with members of {ranges}", request("DELETE", f"{base}{int(number) + 2}/"), 409, "in_use", "small", cut)
            yield Edge(f"the last of the {ranges}", request("POST", base, new), 201, None, "ranges but one", create)
            yield Edge(f"one more of the {ranges}", request("POST", base, new), 507, "limit", "ranges all", create)
            yield Edge(f"the last of the members of {ranges}", request("POST", target, [item]), 201, None, "members but one", claim)
            yield Edge(f"two in place of the last member of {ranges}", request("POST", target, [item] * 2), 507, "limit", "members but one", claim)
            yield Edge(f"one more member of {ranges}", request("POST", target, item), 507, "limit", "members all", claim)
            yield from self.record_edges(ranges, number)
            yield Edge(f"no id is left for {ranges}", request("POST", base, new), 507, "limit", self.last(base), create)

    def record_edges(self, ranges, number):
        """Numbers past the ends of a range, one that a member has, one for two items, and members that are full, or full but for one row."""
        base, members, name = API + ranges + "/", *{"asn-ranges": ("asns/", "asn"), "vlan-groups": ("vlans/", "vid")}[ranges]
        operation, item = self.document.paths[f"{base}{{id}}/{members}"]["post"], self.body_of(f"{base}{{id}}/{members}", "post")
        target, taken = f"{base}{number}/{members}", {"asn-ranges": (3, 4200000000), "vlan-groups": (4, 1)}[ranges]
        first, last = RECORDED[ranges]
        for one, status, code in ((first - 1, 400, "bounds"), (first, 201, None), (last, 201, None), (last + 1, 400, "bounds")):
            yield Edge(f"number {one} of {ranges}", request("POST", target, {**item, name: one}), status, code, "small", operation)
        yield Edge(f"a number that is taken of {ranges}", request("POST", f"{base}{taken[0]}/{members}", {**item, name: taken[1]}), 409, "taken", "small", operation)
        yield Edge(f"a number for two items of {ranges}", request("POST", target, [item] * 2), 409, "taken", "small", operation)
        yield Edge(f"the last of the members is recorded of {ranges}", request("POST", target, [item]), 201, None, "members but one", operation)
        yield Edge(f"two are recorded in place of the last of {ranges}", request("POST", target, self.items(item, 2)), 507, "limit", "members but one", operation)
        yield Edge(f"one more is recorded of {ranges}", request("POST", target, item), 507, "limit", "members all", operation)

    def make(self, folder):
        """`small`; `last 1` and `last 2`, where the range and the group without members have the last id, and so has the member of the kind; `few`, with three
        numbers of each kind; and those that are full, or full but for one row."""
        small, last = os.path.join(folder, "small"), self.document.limits["ids"]
        done = subprocess.run([self.program, "session", "--db", small], input=b"".join(request("POST", API + path, row) for path, row in ROWS), capture_output=True)
        if done.returncode != 0 or done.stdout.count(b"HTTP/1.1 201 Created") != len(ROWS):
            sys.exit(f"openapi: the pools of the edges: {done.stdout[-2000:]!r}")
        for number in ("1", "2"):
            self.changed(folder, "last " + number, [f"UPDATE {table} SET id = {last} WHERE id = {number}" for table in ("ranges", "members")]
                         + [f"UPDATE meta SET value = {last + 1}"])
        self.changed(folder, "few", ["INSERT INTO ranges VALUES (5, 'asn', 'few', 20, 22), (6, 'vlan', 'few', 20, 22)", "UPDATE meta SET value = 9"])
        for name, left in (("but one", 1), ("all", 0)):
            ranges, members = (self.document.limits[which] - left for which in ("ranges", "members"))
            self.changed(folder, f"ranges {name}", [f"{counted(4, ranges)} INSERT INTO ranges SELECT n, 'vlan', 'x' || n, 1, 2 FROM numbers",
                                                    f"UPDATE meta SET value = {ranges + 1} WHERE name = 'next_ranges'"])
            self.changed(folder, f"members {name}", [f"{counted(2, members)} INSERT INTO members SELECT n, 3, 4200000000 + n, '' FROM numbers",
                                                     f"UPDATE meta SET value = {members + 1} WHERE name = 'next_members'"])

    def changed(self, folder, name, statements):
        """A copy of `small` in which this was changed."""
        shutil.copy(os.path.join(folder, "small"), os.path.join(folder, name))
        store = sqlite3.connect(os.path.join(folder, name))
        for statement in statements:
            store.execute(statement)
        store.commit()
        store.close()


def counted(first, last):
    """A table of the numbers behind the first, to the last."""
    return f"WITH RECURSIVE numbers(n) AS (SELECT {first + 1} UNION ALL SELECT n + 1 FROM numbers WHERE n < {last})"
