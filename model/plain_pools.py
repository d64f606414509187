"""Pools of numbers once more, as plainly as it can be said: rows are dicts in lists, a rule goes over all rows, and nothing is kept beside
them. It was written from the rules alone and not from the sources of `poold`, so that it may disagree with it: `conformance/run agree_pools`
compares the two byte for byte.

It reads a stream of HTTP/1.1 requests and writes the stream of answers, as `poold session` does without rows at first:

    python3 model/plain_pools.py < requests > answers        the answers to a stream
    python3 model/plain_pools.py --rows                      checks it by rows that were written by hand

Heads are taken to be well formed, as in model/plain_register.py, which has what both read and write of HTTP.
"""
import itertools
import json
import os
import re
import sys

sys.path.insert(0, os.path.dirname(os.path.dirname(os.path.abspath(__file__))))
from model.plain_register import MOST_ITEMS, MOST_LOG, Service, converse, limit_refused, page_of
from model.plain_texts import MOST_ID, REQUIRED, Malformed, Refused, a_number, a_text, encoded, field, limit_of, offset_of, parameter_id, read_members, read_query

# the greatest number of a range, and how many rows there may be of both kinds together
MOST_NUMBER = {"asn": 4294967295, "vlan": 4094}
MOST_RANGES, MOST_MEMBERS = 1000, 100000
# of each kind: its ranges and its members, as paths name them, and the member that says of what range a member is, and its number
WORDS = {"asn": ("asn-ranges", "asns", "range", "asn"), "vlan": ("vlan-groups", "vlans", "group", "vid")}
RANGE = [("name", a_text(1, 100), REQUIRED), ("start", a_number(0, 4294967295), REQUIRED), ("end", a_number(0, 4294967295), REQUIRED)]
# what an edit may give a range or a member; what it does not give stays
EDIT = {True: RANGE, "asn": [("name", a_text(0, 100), "")], "vlan": [("name", a_text(1, 100), REQUIRED)]}
ITEM = {"asn": [], "vlan": [("name", a_text(1, 100), REQUIRED)]}
# what an item is that records a chosen number
CHOSEN = {"asn": [("asn", a_number(0, 4294967295), REQUIRED), ("name", a_text(0, 100), "")],
          "vlan": [("vid", a_number(0, 4294967295), REQUIRED), ("name", a_text(1, 100), REQUIRED)]}


class Pools:
    """The rows, their rules and the calls. What is refused is raised, and leaves all as it was."""

    def __init__(self):
        self.ranges, self.members = [], []
        self.next_range, self.next_member = 1, 1
        self.place, self.spent = 0, 0

    def absent(self, number):
        return Refused(404, "not_found", f"{number} is not there", asked=True)

    def range_of(self, kind, number):
        found = [row for row in self.ranges if row["id"] == number and row["kind"] == kind]
        if not found:
            raise self.absent(number)
        return found[0]

    def member_of(self, kind, number):
        found = [member for member in self.members if member["id"] == number and self.kind_of(member) == kind]
        if not found:
            raise self.absent(number)
        return found[0]

    def kind_of(self, member):
        return next(row["kind"] for row in self.ranges if row["id"] == member["range"])

    def check_room(self, which, rows, most, next_id, count):
        if len(rows) + count > most:
            raise limit_refused(which, most)
        if next_id + count > MOST_ID + 1:
            raise limit_refused("ids", MOST_ID)
        self.check_log(count)

    def check_log(self, count):
        if self.spent + count > MOST_LOG:
            raise limit_refused("log", MOST_LOG)

    def accept(self, count=1):
        self.place += 1
        self.spent += count

    # -- the calls

    def check_range(self, kind, draft, others):
        for row in others:
            if row["kind"] == kind and row["name"] == draft["name"]:
                raise Refused(400, "name_taken", f"the name is that of {row['id']}", asked=True)
        if not 1 <= draft["start"] <= draft["end"] <= MOST_NUMBER[kind]:
            raise Refused(400, "bounds", "first and last do not fit", asked=True)

    def check_unused(self, held):
        if held:
            raise Refused(409, "in_use", f"named by member {min(held)}", asked=True)

    def add_range(self, kind, draft):
        self.check_range(kind, draft, self.ranges)
        self.check_room("ranges", self.ranges, MOST_RANGES, self.next_range, 1)
        row = dict(draft, id=self.next_range, kind=kind)
        self.ranges.append(row)
        self.next_range += 1
        self.accept()
        return self.range_view(row)

    def cut_range(self, kind, number):
        row = self.range_of(kind, number)
        self.check_unused([member["id"] for member in self.members if member["range"] == number])
        self.check_log(1)
        self.ranges.remove(row)
        self.accept()

    def cut_member(self, kind, number):
        member = self.member_of(kind, number)
        self.check_log(1)
        self.members.remove(member)
        self.accept()

    def edit_range(self, kind, number, given):
        row = self.range_of(kind, number)
        new = dict(row, **given)
        self.check_range(kind, new, [other for other in self.ranges if other is not row])
        self.check_unused([member["id"] for member in self.members if member["range"] == number and not new["start"] <= member["number"] <= new["end"]])
        self.check_log(1)
        row.update(given)
        self.accept()
        return self.range_view(row)

    def edit_member(self, kind, number, given):
        member = self.member_of(kind, number)
        self.check_log(1)
        member.update(given)
        self.accept()
        return self.member_view(kind, member)

    def taken(self, row):
        """The member of each number that is taken. No two ranges of ASNs give out one number; each group of VLANs has its own numbers."""
        if row["kind"] == "asn":
            pool = {one["id"] for one in self.ranges if one["kind"] == "asn"}
        else:
            pool = {row["id"]}
        return {member["number"]: member["id"] for member in self.members if member["range"] in pool}

    def free(self, row):
        """The free numbers of a range, in order."""
        taken = self.taken(row)
        return (number for number in range(row["start"], row["end"] + 1) if number not in taken)

    def available(self, kind, number, limit):
        return list(itertools.islice(self.free(self.range_of(kind, number)), limit))

    def claim(self, kind, number, items):
        row = self.range_of(kind, number)
        if len(items) > MOST_ITEMS:
            raise limit_refused("claims", MOST_ITEMS)
        found = list(itertools.islice(self.free(row), len(items)))
        if len(found) < len(items):
            raise Refused(409, "no_space", f"no space for claim {len(found)}", asked=True)
        return self.give(kind, number, found, items)

    def record(self, kind, number, items):
        row, chosen = self.range_of(kind, number), []
        if len(items) > MOST_ITEMS:
            raise limit_refused("items", MOST_ITEMS)
        taken = self.taken(row)
        for item in items:
            one = item[WORDS[kind][3]]
            if not row["start"] <= one <= row["end"]:
                raise Refused(400, "bounds", f"number {one} is not in the range", asked=True)
            if one in taken:
                raise Refused(409, "taken", f"number {one} is that of member {taken[one]}", asked=True)
            if one in chosen:
                raise Refused(409, "taken", f"number {one} is that of an earlier item", asked=True)
            chosen.append(one)
        return self.give(kind, number, chosen, items)

    def give(self, kind, number, numbers, items):
        """Makes a member of each number."""
        self.check_room("members", self.members, MOST_MEMBERS, self.next_member, len(items))
        made = [{"id": self.next_member + place, "range": number, "number": one, "name": item.get("name", "")}
                for place, (one, item) in enumerate(zip(numbers, items))]
        self.members += made
        self.next_member += len(made)
        self.accept(len(made))
        return [self.member_view(kind, member) for member in made]

    # -- what is answered

    def range_view(self, row):
        return {name: row[name] for name in ("end", "id", "name", "start")}

    def member_view(self, kind, member):
        _, _, range_name, number_name = WORDS[kind]
        seen = {"id": member["id"], range_name: member["range"], number_name: member["number"]}
        return dict(seen, name=member["name"]) if kind == "vlan" or member["name"] else seen

    def list_ranges(self, kind):
        return [self.range_view(row) for row in self.ranges if row["kind"] == kind]

    def list_members(self, kind, number):
        self.range_of(kind, number)
        return [self.member_view(kind, member) for member in self.members if member["range"] == number]

    def page(self, kind, path, pairs):
        """A page of the members of all ranges of a kind, with what is asked of each."""
        _, _, range_name, number_name = WORDS[kind]
        asked, given = {}, []
        for name, of_member, read in ((number_name, "number", parameter_id), (range_name + "_id", "range", parameter_id), ("name", "name", str)):
            if name in pairs:
                try:
                    asked[of_member] = read(pairs[name])
                except Malformed:
                    raise field(name)
                given.append(f"{name}={encoded(pairs[name])}")
        limit, offset = limit_of(pairs, 50), offset_of(pairs)
        found = [member for member in self.members if self.kind_of(member) == kind and all(member[name] == value for name, value in asked.items())]
        return page_of(found, lambda member: self.member_view(kind, member), path, given, limit, offset)


class PoolService(Service):
    """The paths of the pools, and what a request is answered."""

    def __init__(self):
        self.register = Pools()

    def route(self, path):
        """The kind, what is named, its id or None, and what is asked of it; and the methods of the path."""
        match = re.fullmatch(r"/api/ipam/([a-z-]+)/(?:([1-9][0-9]{0,9})/(?:([a-z-]+)/)?)?", path)
        if match and not (match[2] and int(match[2]) > MOST_ID + 1):
            number = match[2] and int(match[2])
            for kind, (ranges, members, _, _) in WORDS.items():
                parts = {(ranges, False, None): ["GET", "POST"], (ranges, True, None): ["GET", "PATCH", "DELETE"], (ranges, True, f"available-{members}"): ["GET", "POST"],
                         (ranges, True, members): ["GET", "POST"], (members, False, None): ["GET"], (members, True, None): ["GET", "PATCH", "DELETE"]}
                methods = parts.get((match[1], number is not None, match[3]))
                if methods:
                    return kind, match[1] == ranges, number, match[3], methods
        raise Refused(404, "no_route", "no such path")

    def answer(self, method, target, body):
        path, _, query = target.partition(b"?")
        kind, is_range, number, asked, methods = self.route(path.decode("latin-1"))
        if method not in methods:
            raise Refused(405, "method", "the path does not have this method", allow=methods)
        pools = self.register
        if method == "DELETE":
            (pools.cut_range if is_range else pools.cut_member)(kind, number)
            return 204, None
        if method == "PATCH":
            given = read_members(self.read_object(body), EDIT[is_range or kind], whole=False)
            return 200, (pools.edit_range if is_range else pools.edit_member)(kind, number, given)
        if number is not None and not asked:
            return 200, pools.range_view(pools.range_of(kind, number)) if is_range else pools.member_view(kind, pools.member_of(kind, number))
        if number is None and not is_range:
            return 200, pools.page(kind, path.decode("latin-1"), read_query(query))
        if number is None:
            if method == "GET":
                return 200, pools.list_ranges(kind)
            return 201, pools.add_range(kind, read_members(self.read_object(body), RANGE, whole=True))
        is_claim = asked.startswith("available-")
        if method == "GET":
            return 200, pools.available(kind, number, limit_of(read_query(query), 50)) if is_claim else pools.list_members(kind, number)
        items, as_list = self.read_items(body, (ITEM if is_claim else CHOSEN)[kind])
        made = (pools.claim if is_claim else pools.record)(kind, number, items)
        return 201, made if as_list else made[0]


# ---- rows that were written by hand: what is asked, and the status and the body that are wanted

ROWS = [
    ("POST", "asn-ranges/", {"name": "a", "start": 64512, "end": 64514}, 201, {"end": 64514, "id": 1, "name": "a", "start": 64512}),
    ("POST", "asn-ranges/1/available-asns/", [{}, {}], 201, [{"asn": 64512, "id": 1, "range": 1}, {"asn": 64513, "id": 2, "range": 1}]),
    ("POST", "asn-ranges/", {"name": "b", "start": 64513, "end": 64515}, 201, {"end": 64515, "id": 2, "name": "b", "start": 64513}),
    ("GET", "asn-ranges/2/available-asns/", None, 200, [64514, 64515]),
    ("GET", "asn-ranges/2/available-asns/?limit=1", None, 200, [64514]),
    ("POST", "asn-ranges/2/available-asns/", [{}, {}, {}], 409, {"code": "no_space", "detail": "no space for claim 2"}),
    ("POST", "vlan-groups/", {"name": "a", "start": 1, "end": 4094}, 201, {"end": 4094, "id": 3, "name": "a", "start": 1}),
    ("POST", "vlan-groups/3/available-vlans/", {"name": "voice"}, 201, {"group": 3, "id": 3, "name": "voice", "vid": 1}),
    ("POST", "vlan-groups/", {"name": "b", "start": 1, "end": 2}, 201, {"end": 2, "id": 4, "name": "b", "start": 1}),
    ("POST", "vlan-groups/4/available-vlans/", [{"name": "voice"}], 201, [{"group": 4, "id": 4, "name": "voice", "vid": 1}]),
    ("GET", "vlan-groups/3/vlans/", None, 200, [{"group": 3, "id": 3, "name": "voice", "vid": 1}]),
    ("GET", "asn-ranges/3/asns/", None, 404, {"code": "not_found", "detail": "3 is not there"}),
    ("GET", "asn-ranges/3/vlans/", None, 404, {"code": "no_route", "detail": "no such path"}),
    ("GET", "asn-ranges/9/available-asns/?limit=x", None, 400, {"code": "field", "detail": "limit is missing or malformed"}),
    ("GET", "asn-ranges/1/", None, 200, {"end": 64514, "id": 1, "name": "a", "start": 64512}),
    ("GET", "vlan-groups/1/", None, 404, {"code": "not_found", "detail": "1 is not there"}),
    ("GET", "asns/2/", None, 200, {"asn": 64513, "id": 2, "range": 1}),
    ("GET", "asns/3/", None, 404, {"code": "not_found", "detail": "3 is not there"}),
    ("PUT", "asn-ranges/1/", {}, 405, {"code": "method", "detail": "the path does not have this method"}),
    ("POST", "asn-ranges/", {"name": "a", "start": 0, "end": 1}, 400, {"code": "name_taken", "detail": "the name is that of 1"}),
    ("POST", "asn-ranges/", {"name": "c", "start": 0, "end": 1}, 400, {"code": "bounds", "detail": "first and last do not fit"}),
    ("POST", "asn-ranges/", {"name": "c", "start": 2, "end": 1}, 400, {"code": "bounds", "detail": "first and last do not fit"}),
    ("POST", "vlan-groups/", {"name": "c", "start": 1, "end": 4095}, 400, {"code": "bounds", "detail": "first and last do not fit"}),
    ("POST", "vlan-groups/", {"name": "c", "start": 1, "end": 4294967296}, 400, {"code": "field", "detail": "end is missing or malformed"}),
    ("POST", "vlan-groups/", {"name": "c", "start": 1.0, "end": 2}, 400, {"code": "field", "detail": "start is missing or malformed"}),
    ("POST", "vlan-groups/", {"start": -1}, 400, {"code": "field", "detail": "name is missing or malformed"}),
    ("POST", "vlan-groups/4/available-vlans/", {}, 400, {"code": "field", "detail": "name is missing or malformed"}),
    ("POST", "asn-ranges/1/available-asns/", [], 400, {"code": "field", "detail": "body is missing or malformed"}),
    ("POST", "asn-ranges/1/available-asns/", [5], 400, {"code": "bad_json", "detail": "the body is not the JSON that is asked for"}),
    ("POST", "asn-ranges/9/available-asns/", [{}] * 1001, 404, {"code": "not_found", "detail": "9 is not there"}),
    ("POST", "asn-ranges/1/available-asns/", [{}] * 1001, 507, {"code": "limit", "detail": "claims would exceed 1000"}),
    ("POST", "asn-ranges/1/available-asns/", {"name": 5}, 201, {"asn": 64514, "id": 5, "range": 1}),
    ("POST", "asn-ranges/2/asns/", {"asn": 64515, "name": "edge"}, 201, {"asn": 64515, "id": 6, "name": "edge", "range": 2}),
    ("POST", "vlan-groups/4/vlans/", {"vid": 2, "name": "voice"}, 201, {"group": 4, "id": 7, "name": "voice", "vid": 2}),
    ("GET", "asn-ranges/2/asns/", None, 200, [{"asn": 64515, "id": 6, "name": "edge", "range": 2}]),
    ("POST", "asn-ranges/9/asns/", [{"asn": 1}] * 1001, 404, {"code": "not_found", "detail": "9 is not there"}),
    ("POST", "asn-ranges/2/asns/", [{"asn": 1}] * 1001, 507, {"code": "limit", "detail": "items would exceed 1000"}),
    ("POST", "asn-ranges/2/asns/", {"asn": 64512}, 400, {"code": "bounds", "detail": "number 64512 is not in the range"}),
    ("POST", "asn-ranges/2/asns/", [{"asn": 64514, "name": ""}, {"asn": 64516}], 409, {"code": "taken", "detail": "number 64514 is that of member 5"}),
    ("POST", "vlan-groups/3/vlans/", [{"vid": 9, "name": "a"}, {"vid": 8, "name": "b"}, {"vid": 9, "name": "c"}], 409,
     {"code": "taken", "detail": "number 9 is that of an earlier item"}),
    ("POST", "vlan-groups/3/vlans/", [{"vid": 9, "name": "a"}, {"vid": 0, "name": "b"}, {"vid": 9, "name": "c"}], 400,
     {"code": "bounds", "detail": "number 0 is not in the range"}),
    ("POST", "vlan-groups/3/vlans/", {"vid": 1}, 400, {"code": "field", "detail": "name is missing or malformed"}),
    ("POST", "vlan-groups/3/vlans/", {"vid": -1, "name": "a"}, 400, {"code": "field", "detail": "vid is missing or malformed"}),
    ("POST", "asn-ranges/2/asns/", {"name": 5}, 400, {"code": "field", "detail": "asn is missing or malformed"}),
    ("POST", "asn-ranges/2/asns/", {"asn": 64513, "name": None}, 400, {"code": "field", "detail": "name is missing or malformed"}),
    ("POST", "asn-ranges/2/asns/", [], 400, {"code": "field", "detail": "body is missing or malformed"}),
    ("DELETE", "asns/6/", None, 204, None),
    ("DELETE", "vlans/7/", None, 204, None),
    ("DELETE", "asn-ranges/1/", None, 409, {"code": "in_use", "detail": "named by member 1"}),
    ("DELETE", "vlans/5/", None, 404, {"code": "not_found", "detail": "5 is not there"}),
    ("DELETE", "asns/1/", None, 204, None),
    ("DELETE", "asns/1/", None, 404, {"code": "not_found", "detail": "1 is not there"}),
    ("GET", "asn-ranges/1/asns/", None, 200, [{"asn": 64513, "id": 2, "range": 1}, {"asn": 64514, "id": 5, "range": 1}]),
    ("POST", "asn-ranges/1/available-asns/", {}, 201, {"asn": 64512, "id": 8, "range": 1}),
    ("PATCH", "vlans/4/", {"name": "data", "vid": 2}, 200, {"group": 4, "id": 4, "name": "data", "vid": 1}),
    ("PATCH", "vlans/4/", {"name": ""}, 400, {"code": "field", "detail": "name is missing or malformed"}),
    ("PATCH", "vlans/5/", {"name": "data"}, 404, {"code": "not_found", "detail": "5 is not there"}),
    ("PATCH", "asns/5/", {"name": "edge"}, 200, {"asn": 64514, "id": 5, "name": "edge", "range": 1}),
    ("PATCH", "asns/5/", {}, 200, {"asn": 64514, "id": 5, "name": "edge", "range": 1}),
    ("PATCH", "asns/5/", {"name": ""}, 200, {"asn": 64514, "id": 5, "range": 1}),
    ("PATCH", "asns/5/", [], 400, {"code": "bad_json", "detail": "the body is not the JSON that is asked for"}),
    ("PATCH", "asn-ranges/9/", {"name": "a", "start": 9, "end": 8}, 404, {"code": "not_found", "detail": "9 is not there"}),
    ("PATCH", "asn-ranges/2/", {"name": "a", "start": 9, "end": 8}, 400, {"code": "name_taken", "detail": "the name is that of 1"}),
    ("PATCH", "asn-ranges/1/", {"name": "a", "start": 64515}, 400, {"code": "bounds", "detail": "first and last do not fit"}),
    ("PATCH", "vlan-groups/4/", {"end": 4095}, 400, {"code": "bounds", "detail": "first and last do not fit"}),
    ("PATCH", "asn-ranges/1/", {"start": 64514}, 409, {"code": "in_use", "detail": "named by member 2"}),
    ("PATCH", "asn-ranges/1/", {"end": 64513}, 409, {"code": "in_use", "detail": "named by member 5"}),
    ("PATCH", "asn-ranges/1/", {"end": 64513, "start": -1}, 400, {"code": "field", "detail": "start is missing or malformed"}),
    ("PATCH", "vlan-groups/4/", {"end": 3, "name": "c"}, 200, {"end": 3, "id": 4, "name": "c", "start": 1}),
    ("GET", "vlan-groups/4/available-vlans/", None, 200, [2, 3]),
    ("PATCH", "vlan-groups/4/", {}, 200, {"end": 3, "id": 4, "name": "c", "start": 1}),
    ("GET", "asns/?limit=2", None, 200, {"count": 3, "next": "/api/ipam/asns/?limit=2&offset=2", "previous": None,
                                         "results": [{"asn": 64513, "id": 2, "range": 1}, {"asn": 64514, "id": 5, "range": 1}]}),
    ("GET", "asns/?offset=2&limit=2&range_id=1", None, 200,
     {"count": 3, "next": None, "previous": "/api/ipam/asns/?range_id=1&limit=2&offset=0", "results": [{"asn": 64512, "id": 8, "range": 1}]}),
    ("GET", "asns/?asn=64514&range_id=2", None, 200, {"count": 0, "next": None, "previous": None, "results": []}),
    ("GET", "asns/?offset=9", None, 200, {"count": 3, "next": None, "previous": "/api/ipam/asns/?limit=50&offset=0", "results": []}),
    ("GET", "vlans/?name=voice", None, 200, {"count": 1, "next": None, "previous": None, "results": [{"group": 3, "id": 3, "name": "voice", "vid": 1}]}),
    ("GET", "vlans/?vid=1&group_id=4&limit=1", None, 200, {"count": 1, "next": None, "previous": None, "results": [{"group": 4, "id": 4, "name": "data", "vid": 1}]}),
    ("GET", "vlans/?vid=0", None, 400, {"code": "field", "detail": "vid is missing or malformed"}),
    ("GET", "vlans/?group_id=01&limit=x", None, 400, {"code": "field", "detail": "group_id is missing or malformed"}),
    ("GET", "asns/?limit=x&offset=x", None, 400, {"code": "field", "detail": "limit is missing or malformed"}),
    ("GET", "asns/?offset=-1", None, 400, {"code": "field", "detail": "offset is missing or malformed"}),
    ("POST", "asns/", {}, 405, {"code": "method", "detail": "the path does not have this method"}),
    ("DELETE", "vlans/4/", None, 204, None),
    ("DELETE", "vlan-groups/4/", None, 204, None),
    ("GET", "vlan-groups/", None, 200, [{"end": 4094, "id": 3, "name": "a", "start": 1}]),
]


def request_of(method, path, body=None):
    text = b"" if body is None else json.dumps(body, separators=(",", ":")).encode()
    length = f"Content-Length: {len(text)}\r\n" if text else ""
    return f"{method} /api/ipam/{path} HTTP/1.1\r\nHost: x\r\n{length}\r\n".encode() + text


def check_row(row, place, answer):
    """Says what is not as the row has it, and else gives the place of what follows."""
    method, path, body, status, wanted = row
    head, _, found = answer.partition(b"\r\n\r\n")
    if (int(head.split(b" ")[1]), json.loads(found) if found else None) != (status, wanted):
        sys.exit(f"plain_pools: {method} {path} {body}: {answer!r} and not {status} {wanted!r}")
    has_place = not (status >= 400 and wanted["code"] in ("no_route", "method", "bad_json", "field"))
    if re.findall(rb"\r\nIpam-Place: ([0-9]+)", head) != [str(place).encode()] * has_place:
        sys.exit(f"plain_pools: {method} {path} {body}: another place than {place}: {answer!r}")
    return place + (status in (201, 204) or method == "PATCH" and status == 200)


def conversation():
    """The requests of the rows and the answers to them, which are checked."""
    requests = [request_of(*row[:3]) for row in ROWS]
    answers, place = list(converse(b"".join(requests), PoolService())), 0
    for row, answer in zip(ROWS, answers, strict=True):
        place = check_row(row, place, answer)
    return requests, answers


def main():
    if sys.argv[1:] == ["--rows"]:
        print(f"plain_pools: {len(conversation()[0])} rows are as they should be")
        return
    for answer in converse(sys.stdin.buffer.read(), PoolService()):
        sys.stdout.buffer.write(answer)


if __name__ == "__main__":
    main()
