"""The register once more, as plainly as it can be said: rows are dicts in lists, a rule goes over all rows, and nothing is kept beside
them. It was written from the rules alone and not from the sources of `ipamd`, so that it may disagree with it: conformance/run agree
compares the two byte for byte, and model/worked_rows.py has rows whose answers were written by hand.

It reads a stream of HTTP/1.1 requests and writes the stream of answers, as `ipamd session` does with an empty register:

    python3 model/plain_register.py [--global-unique no] [--without-claims] < requests > answers

With `--without-claims` the paths of available things, of claims and of figures are no paths. Heads are taken to be well formed: that
a head is refused for its grammar is not shown here, only what its fields say of the body and of the connection.
"""
import argparse
import itertools
import json
import os
import re
import sys

sys.path.insert(0, os.path.dirname(os.path.dirname(os.path.abspath(__file__))))
from model.plain_texts import (ADDRESS_ROLES, BAD_JSON, BLOCK_ITEM, KINDS, MEMBERS, MOST_ID, STATUSES, Malformed, Refused, ascii_lower, contains, encoded,
                         field, host_text, last_of, limit_of, offset_of, one_of, parameter_block, parameter_block_or_host, parameter_family,
                         parameter_id, parameter_id_or_null, read_json, read_members, read_query, rule, strictly_inside, width)

MOST_ROWS = {"vrfs": 1000, "rirs": 1000, "roles": 1000, "aggregates": 1000, "prefixes": 200000, "ip-ranges": 10000, "ip-addresses": 500000}
MOST_ITEMS, MOST_LOG = 1000, 1000000
MOST_HEAD, MOST_BODY, MOST_ANSWERS = 16384, 4194304, 1000
SHARED_ROLES = {"anycast", "vip", "vrrp", "hsrp", "glbp", "carp"}
LABELS = {"dhcp": "DHCP", "slaac": "SLAAC", "vip": "VIP", "vrrp": "VRRP", "hsrp": "HSRP", "glbp": "GLBP", "carp": "CARP"}
PHRASES = {200: "OK", 201: "Created", 204: "No Content", 400: "Bad Request", 404: "Not Found", 405: "Method Not Allowed", 409: "Conflict",
           413: "Payload Too Large", 501: "Not Implemented", 507: "Insufficient Storage"}


# ---- filters: the name of a parameter, how it is read, and which rows it leaves

def equal(name):
    return lambda row, value: row[name] == value


def host_of(row):
    return row["address"][:2] + (width(row["address"][0]),)


def range_has(row, block):
    start, end = row["start_address"], row["end_address"]
    return start[0] == block[0] and start[1] <= block[1] and last_of(block) <= end[1]


def family_of(row):
    return row.get("prefix", row.get("start_address", row.get("address")))[0]


FAMILY = ("family", parameter_family, lambda row, value: family_of(row) == value)
VRF_ID = ("vrf_id", parameter_id_or_null, equal("vrf"))
ROLE_ID = ("role_id", parameter_id_or_null, equal("role"))


def status_filter(kind):
    return ("status", one_of(STATUSES[kind]), equal("status"))


def text_filter(name):
    return (name, str, equal(name))


FILTERS = {
    "vrfs": [text_filter("name"), text_filter("rd")],
    "rirs": [text_filter("name"), text_filter("slug")],
    "roles": [text_filter("name"), text_filter("slug")],
    "aggregates": [FAMILY, ("rir_id", parameter_id, equal("rir"))],
    "prefixes": [FAMILY, VRF_ID, status_filter("prefixes"), ROLE_ID, ("prefix", parameter_block, equal("prefix")),
                 ("within", parameter_block, lambda row, block: strictly_inside(row["prefix"], block)),
                 ("within_include", parameter_block, lambda row, block: contains(block, row["prefix"])),
                 ("contains", parameter_block_or_host, lambda row, block: contains(row["prefix"], block))],
    "ip-ranges": [FAMILY, VRF_ID, status_filter("ip-ranges"), ROLE_ID, ("contains", parameter_block_or_host, range_has)],
    "ip-addresses": [FAMILY, VRF_ID, status_filter("ip-addresses"), ("role", one_of(ADDRESS_ROLES), equal("role")),
                     ("parent", parameter_block, lambda row, block: contains(block, host_of(row))),
                     ("dns_name", str, lambda row, name: row["dns_name"] == ascii_lower(name))],
}


# ---- the register

def union_size(spans, first, last):
    """How many numbers from first to last the spans have, each once."""
    count, reached = 0, first - 1
    for low, high in sorted(spans):
        low, high = max(low, reached + 1), min(high, last)
        if low <= high:
            count, reached = count + high - low + 1, high
    return count


def percent(count, size):
    return min(100, 100 * count // size)


def not_there(kind, number):
    return Refused(404, "not_found", f"{kind} {number} is not there", asked=True)


def no_such(kind, number):
    return rule("no_such", f"{kind} {number} is not there")


def limit_refused(which, most):
    return Refused(507, "limit", f"{which} would exceed {most}", asked=True)


class Register:
    """The state, its rules and its calls. What is refused is raised, and leaves all as it was."""

    def __init__(self, global_unique=True):
        self.global_unique = global_unique
        self.rows = {kind: [] for kind in KINDS}
        self.next = {kind: 1 for kind in KINDS}
        self.place, self.spent = 0, 0

    def find(self, kind, number):
        return next((row for row in self.rows[kind] if row["id"] == number), None)

    def get(self, kind, number):
        row = self.find(kind, number)
        if row is None:
            raise not_there(kind, number)
        return row

    def others(self, kind, row):
        return [other for other in self.rows[kind] if other["id"] != row["id"]]

    def enforces(self, vrf):
        return self.global_unique if vrf is None else self.find("vrfs", vrf)["enforce_unique"]

    # -- the rules of a row beside the rows of other ids

    def check_references(self, row, names):
        for name, kind in names:
            if row[name] is not None and self.find(kind, row[name]) is None:
                raise no_such(kind, row[name])

    def check_taken(self, kind, row, name, code):
        for other in self.others(kind, row):
            if row[name] is not None and other[name] == row[name]:
                raise rule(code, f"the {name} is that of {other['id']}")

    def check_vrfs(self, row, before):
        self.check_taken("vrfs", row, "rd", "rd_taken")
        if before is not None and row["enforce_unique"] and not before["enforce_unique"]:
            for kind, clash in (("prefixes", self.blocks_clash), ("ip-addresses", self.hosts_clash)):
                held = [one for one in self.rows[kind] if one["vrf"] == row["id"]]
                for one, other in itertools.combinations(held, 2):
                    if clash(one, other):
                        raise rule("coincide", f"{kind} {one['id']} and {other['id']} coincide")

    def check_rirs(self, row, before):
        self.check_taken("rirs", row, "name", "name_taken")
        self.check_taken("rirs", row, "slug", "slug_taken")

    def check_roles(self, row, before):
        self.check_taken("roles", row, "name", "name_taken")
        self.check_taken("roles", row, "slug", "slug_taken")

    def check_aggregates(self, row, before):
        self.check_references(row, [("rir", "rirs")])
        self.check_mask(row["prefix"])
        for other in self.others("aggregates", row):
            if contains(other["prefix"], row["prefix"]) or contains(row["prefix"], other["prefix"]):
                raise rule("aggregate_overlap", f"overlaps aggregate {other['id']}")

    def check_mask(self, block):
        if block[2] == 0:
            raise rule("zero_mask", "a mask of length 0 is refused")

    @staticmethod
    def blocks_clash(one, other):
        return one["prefix"] == other["prefix"]

    @staticmethod
    def hosts_clash(one, other):
        return host_of(one) == host_of(other) and not (one["role"] in SHARED_ROLES and other["role"] in SHARED_ROLES)

    def check_duplicate(self, kind, row, clash):
        if self.enforces(row["vrf"]):
            for other in self.others(kind, row):
                if other["vrf"] == row["vrf"] and clash(row, other):
                    raise rule("duplicate", f"coincides with {other['id']}")

    def check_prefixes(self, row, before):
        self.check_references(row, [("vrf", "vrfs"), ("role", "roles")])
        self.check_mask(row["prefix"])
        self.check_duplicate("prefixes", row, self.blocks_clash)

    def check_ip_ranges(self, row, before):
        self.check_references(row, [("vrf", "vrfs"), ("role", "roles")])
        start, end = row["start_address"], row["end_address"]
        if start[0] != end[0]:
            raise rule("range_family", "start and end differ in family")
        if start[2] != end[2]:
            raise rule("range_mask", "start and end differ in mask")
        self.check_mask(start)
        if end[1] <= start[1]:
            raise rule("range_order", "the end must be greater than the start")
        if end[1] - start[1] + 1 > 4294967295:
            raise rule("range_size", "a range has at most 4294967295 addresses")
        for other in self.others("ip-ranges", row):
            if (other["vrf"] == row["vrf"] and other["start_address"][0] == start[0]
                    and other["start_address"][1] <= end[1] and start[1] <= other["end_address"][1]):
                raise rule("range_overlap", f"overlaps range {other['id']}")

    @staticmethod
    def check_address_texts(status, family, dns_name):
        if status == "slaac" and family == 4:
            raise rule("slaac_family", "slaac is for IPv6 only")
        if dns_name and not re.fullmatch(r"(\*|[A-Za-z0-9_-]+)(\.[A-Za-z0-9_-]+)*\.?", dns_name):
            raise rule("dns_name", "not a DNS name")

    def check_ip_addresses(self, row, before):
        self.check_references(row, [("vrf", "vrfs")])
        self.check_mask(row["address"])
        self.check_address_texts(row["status"], row["address"][0], row["dns_name"])
        self.check_duplicate("ip-addresses", row, self.hosts_clash)

    def check_populated(self, row, before):
        """No address comes into a range of its table that somebody else fills; one that was there before stays."""
        if before is None or host_of(row) != host_of(before) or row["vrf"] != before["vrf"]:
            family, host = host_of(row)[:2]
            for one in self.rows["ip-ranges"]:
                if (one["mark_populated"] and one["vrf"] == row["vrf"] and one["start_address"][0] == family
                        and one["start_address"][1] <= host <= one["end_address"][1]):
                    raise rule("populated", f"inside populated range {one['id']}")

    def check(self, kind, row, before):
        getattr(self, "check_" + kind.replace("-", "_"))(row, before)
        if kind == "ip-addresses":
            self.check_populated(row, before)

    def check_room(self, kind, count):
        if len(self.rows[kind]) + count > MOST_ROWS[kind]:
            raise limit_refused(kind, MOST_ROWS[kind])
        if self.next[kind] + count > MOST_ID + 1:
            raise limit_refused("ids", MOST_ID)

    def check_log(self, count):
        if self.spent + count > MOST_LOG:
            raise limit_refused("log", MOST_LOG)

    # -- changes; each is accepted whole, and makes the place of what follows one greater

    def accept(self, count=1):
        self.place += 1
        self.spent += count

    def add(self, kind, row):
        row = dict(row, id=self.next[kind])
        if "dns_name" in row:
            row["dns_name"] = ascii_lower(row["dns_name"])
        self.rows[kind].append(row)
        self.next[kind] += 1
        return row

    def create(self, kind, row):
        self.check(kind, dict(row, id=0), None)
        self.check_room(kind, 1)
        self.check_log(1)
        self.accept()
        return self.view(kind, self.add(kind, row))

    def change(self, kind, number, edit):
        before = self.get(kind, number)
        row = dict(before, **edit)
        self.check(kind, row, before)
        self.check_log(1)
        if "dns_name" in row:
            row["dns_name"] = ascii_lower(row["dns_name"])
        self.rows[kind][self.rows[kind].index(before)] = row
        self.accept()
        return self.view(kind, row)

    def delete(self, kind, number):
        row = self.get(kind, number)
        named_by = {"vrfs": ["prefixes", "ip-ranges", "ip-addresses"], "rirs": ["aggregates"]}
        for other in named_by.get(kind, []):
            for one in self.rows[other]:
                if one["vrf" if kind == "vrfs" else "rir"] == number:
                    raise Refused(409, "in_use", f"named by {other} {one['id']}", asked=True)
        self.check_log(1)
        self.rows[kind].remove(row)
        if kind == "roles":
            for one in self.rows["prefixes"] + self.rows["ip-ranges"]:
                if one["role"] == number:
                    one["role"] = None
        self.accept()

    # -- what is available, and claims of it

    def sees_all(self, parent):
        return parent["vrf"] is None and parent["status"] == "container"

    def child_blocks(self, parent):
        return [row["prefix"] for row in self.rows["prefixes"] if strictly_inside(row["prefix"], parent["prefix"])
                and (self.sees_all(parent) or row["vrf"] == parent["vrf"])]

    def child_hosts(self, parent):
        return [row["address"][1] for row in self.rows["ip-addresses"] if contains(parent["prefix"], host_of(row))
                and (self.sees_all(parent) or row["vrf"] == parent["vrf"])]

    def range_spans(self, vrf, family, mark):
        return [(row["start_address"][1], row["end_address"][1]) for row in self.rows["ip-ranges"]
                if row["vrf"] == vrf and row["start_address"][0] == family and row[mark]]

    def free_blocks(self, within, taken):
        """The fewest blocks that make up what no block of `taken` has, in address order."""
        if any(contains(block, within) for block in taken):
            return
        inside = [block for block in taken if contains(within, block)]
        if not inside:
            yield within
            return
        family, first, length = within
        half = 2 ** (width(family) - length - 1)
        yield from self.free_blocks((family, first, length + 1), inside)
        yield from self.free_blocks((family, first + half, length + 1), inside)

    def free_numbers(self, first, last, taken, spans):
        """The numbers from first to last that are neither taken nor in a span, in order."""
        taken, at = set(taken), first
        while at <= last:
            behind = max([high for low, high in spans if low <= at <= high], default=None)
            if behind is not None:
                at = behind + 1
                continue
            if at not in taken:
                yield at
            at += 1

    def free_in_prefix(self, parent):
        family, first, length = parent["prefix"]
        last = last_of(parent["prefix"])
        if not parent["is_pool"] and length < (31 if family == 4 else 127):
            first, last = first + 1, last - (1 if family == 4 else 0)
        return self.free_numbers(first, last, self.child_hosts(parent), self.range_spans(parent["vrf"], family, "mark_populated"))

    def free_in_range(self, parent):
        if parent["mark_populated"]:
            return iter(())
        start, end = parent["start_address"], parent["end_address"]
        taken = [row["address"][1] for row in self.rows["ip-addresses"] if row["vrf"] == parent["vrf"] and row["address"][0] == start[0]]
        return self.free_numbers(start[1], end[1], taken, [])

    def mask_of(self, kind, parent):
        return parent["prefix"][2] if kind == "prefixes" else parent["start_address"][2]

    def free_addresses(self, kind, parent):
        return self.free_in_prefix(parent) if kind == "prefixes" else self.free_in_range(parent)

    def available_prefixes(self, kind, number, limit):
        parent = self.get(kind, number)
        found = itertools.islice(self.free_blocks(parent["prefix"], self.child_blocks(parent)), limit)
        return [{"family": block[0], "prefix": host_text(*block), "vrf": parent["vrf"]} for block in found]

    def available_ips(self, kind, number, limit):
        parent = self.get(kind, number)
        family, mask = family_of(parent), self.mask_of(kind, parent)
        found = itertools.islice(self.free_addresses(kind, parent), limit)
        return [{"address": host_text(family, host, mask), "family": family, "vrf": parent["vrf"]} for host in found]

    def no_space(self, item):
        return Refused(409, "no_space", f"no space for claim {item}", asked=True)

    def check_claims(self, items):
        if len(items) > MOST_ITEMS:
            raise limit_refused("claims", MOST_ITEMS)

    def claim_prefixes(self, kind, number, items):
        parent = self.get(kind, number)
        self.check_claims(items)
        family, _, length = parent["prefix"]
        for item in items:
            if not length < item["prefix_length"] <= width(family):
                raise rule("wanted_length", "the length does not fit the prefix")
            self.check_references(item, [("role", "roles")])
        taken, planned = self.child_blocks(parent), []
        for place, item in enumerate(items):
            fits = (block for block in self.free_blocks(parent["prefix"], taken) if block[2] <= item["prefix_length"])
            block = next(fits, None)
            if block is None:
                raise self.no_space(place)
            planned.append((family, block[1], item["prefix_length"]))
            taken.append(planned[-1])
        made = [{"prefix": block, "vrf": parent["vrf"]} | {name: item[name] for name, _, _ in BLOCK_ITEM}
                for block, item in zip(planned, items)]
        return self.claim("prefixes", made)

    def claim_ips(self, kind, number, items):
        parent = self.get(kind, number)
        self.check_claims(items)
        family, mask = family_of(parent), self.mask_of(kind, parent)
        for item in items:
            self.check_address_texts(item["status"], family, item["dns_name"])
        found = list(itertools.islice(self.free_addresses(kind, parent), len(items)))
        if len(found) < len(items):
            raise self.no_space(len(found))
        return self.claim("ip-addresses", [dict(item, address=(family, host, mask), vrf=parent["vrf"]) for host, item in zip(found, items)])

    def claim(self, kind, made):
        self.check_room(kind, len(made))
        self.check_log(len(made))
        rows = [self.add(kind, row) for row in made]
        self.accept(len(made))
        return [self.view(kind, row) for row in rows]

    # -- figures

    def utilization(self, kind, number):
        row = self.get(kind, number)
        if row.get("mark_utilized"):
            return 100
        if kind == "ip-ranges":
            first, last = row["start_address"][1], row["end_address"][1]
            hosts = [(one["address"][1],) * 2 for one in self.rows["ip-addresses"]
                     if one["vrf"] == row["vrf"] and one["address"][0] == row["start_address"][0]]
            return percent(union_size(hosts, first, last), last - first + 1)
        block = row["prefix"]
        first, last, size = block[1], last_of(block), 2 ** (width(block[0]) - block[2])
        if kind == "aggregates":
            inside = [one["prefix"] for one in self.rows["prefixes"] if contains(block, one["prefix"])]
            return percent(union_size([(one[1], last_of(one)) for one in inside], first, last), size)
        if row["status"] == "container":
            inside = [one["prefix"] for one in self.rows["prefixes"] if one["vrf"] == row["vrf"] and strictly_inside(one["prefix"], block)]
            return percent(union_size([(one[1], last_of(one)) for one in inside], first, last), size)
        spans = [(host, host) for host in self.child_hosts(row)] + self.range_spans(row["vrf"], block[0], "mark_utilized")
        if block[0] == 4 and block[2] < 31 and not row["is_pool"]:
            size -= 2
        return percent(union_size(spans, first, last), size)

    # -- what is answered

    def view(self, kind, row):
        seen = dict(row)
        if kind in ("aggregates", "prefixes", "ip-ranges", "ip-addresses"):
            seen["family"] = family_of(row)
        for name in ("prefix", "start_address", "end_address", "address"):
            if name in row:
                seen[name] = host_text(*row[name])
        for name in ("status", "role"):
            if isinstance(row.get(name), str):
                seen[name] = {"label": LABELS.get(row[name], row[name].capitalize()), "value": row[name]}
        if kind == "ip-ranges":
            seen["size"] = row["end_address"][1] - row["start_address"][1] + 1
        if kind == "prefixes":
            table = [other["prefix"] for other in self.rows["prefixes"] if other["vrf"] == row["vrf"]]
            seen["depth"] = len({block for block in table if strictly_inside(row["prefix"], block)})
            seen["children"] = len([block for block in table if strictly_inside(block, row["prefix"])])
        return seen

    def page(self, kind, path, pairs):
        tests, given = [], []
        for name, read, meets in FILTERS[kind]:
            if name in pairs:
                try:
                    tests.append((meets, read(pairs[name])))
                except Malformed:
                    raise field(name)
                given.append(f"{name}={encoded(pairs[name])}")
        limit, offset = limit_of(pairs, 50), offset_of(pairs)
        rows = [row for row in self.rows[kind] if all(meets(row, value) for meets, value in tests)]
        return page_of(rows, lambda row: self.view(kind, row), path, given, limit, offset)


# ---- requests and answers

def page_of(rows, view, path, given, limit, offset):
    """A page of rows, with the links to those beside it, which have the parameters that were given."""
    def link(at):
        return path + "?" + "&".join(given + [f"limit={limit}", f"offset={at}"])
    return {"count": len(rows), "next": None if offset + limit >= len(rows) else link(offset + limit),
            "previous": None if offset == 0 else link(max(0, offset - limit)), "results": [view(row) for row in rows[offset:offset + limit]]}


class Service:
    """The paths of the register, and what a request is answered."""

    def __init__(self, global_unique=True, claims=True):
        self.register, self.claims = Register(global_unique), claims

    def route(self, path):
        """The kind, the id or None, and what is asked of the row; and the methods of the path."""
        match = re.fullmatch(r"/api/ipam/([a-z-]+)/(?:([1-9][0-9]{0,9})/(?:([a-z-]+)/)?)?", path)
        none = Refused(404, "no_route", "no such path")
        if not match or match[1] not in KINDS or (match[2] and int(match[2]) > MOST_ID + 1):
            raise none
        kind, number, asked = match[1], match[2] and int(match[2]), match[3]
        if asked is None:
            return kind, number, asked, ["GET", "PATCH", "DELETE"] if number else ["GET", "POST"]
        kinds = {"available-prefixes": ["prefixes"], "available-ips": ["prefixes", "ip-ranges"], "utilization": ["prefixes", "ip-ranges", "aggregates"]}
        if not self.claims or kind not in kinds.get(asked, []):
            raise none
        return kind, number, asked, ["GET"] if asked == "utilization" else ["GET", "POST"]

    def read_items(self, body, members):
        """The items of a claim, and whether they came as a list."""
        value = read_json(body)
        if isinstance(value, dict):
            return [read_members(value, members, whole=True)], False
        if not isinstance(value, list) or not all(isinstance(item, dict) for item in value):
            raise BAD_JSON
        if not value:
            raise field("body")
        return [read_members(item, members, whole=True) for item in value], True

    def read_object(self, body):
        value = read_json(body)
        if not isinstance(value, dict):
            raise BAD_JSON
        return value

    def answer(self, method, target, body):
        """The status and the value of an answer; what is refused is raised."""
        path, _, query = target.partition(b"?")
        path = path.decode("latin-1")
        kind, number, asked, methods = self.route(path)
        if method not in methods:
            raise Refused(405, "method", "the path does not have this method", allow=methods)
        register, pairs = self.register, read_query(query)
        if asked == "utilization":
            return 200, {"utilization": register.utilization(kind, number)}
        if asked is not None and method == "GET":
            read = register.available_prefixes if asked == "available-prefixes" else register.available_ips
            return 200, read(kind, number, limit_of(pairs, 1000 if asked == "available-prefixes" else 50))
        if asked is not None:
            claim = register.claim_prefixes if asked == "available-prefixes" else register.claim_ips
            items, as_list = self.read_items(body, MEMBERS["claims of blocks" if asked == "available-prefixes" else "claims of addresses"])
            made = claim(kind, number, items)
            return 201, made if as_list else made[0]
        if method == "POST":
            return 201, register.create(kind, read_members(self.read_object(body), MEMBERS[kind], whole=True))
        if method == "PATCH":
            return 200, register.change(kind, number, read_members(self.read_object(body), MEMBERS[kind], whole=False))
        if method == "DELETE":
            register.delete(kind, number)
            return 204, None
        return 200, register.view(kind, register.get(kind, number)) if number else register.page(kind, path, pairs)

    def respond(self, method, target, body, close):
        place, asked, allow = self.register.place, True, None
        try:
            status, value = self.answer(method, target, body)
        except Refused as refused:
            status, value = refused.status, {"code": refused.code, "detail": refused.detail}
            asked, allow = refused.asked, refused.allow
        return answer_text(status, value, allow, place if asked else None, close, method == "HEAD")


def answer_text(status, value, allow=None, place=None, close=False, bare=False):
    text = b"" if value is None else json.dumps(value, ensure_ascii=False, separators=(",", ":"), sort_keys=True).encode()
    lines = [f"HTTP/1.1 {status} {PHRASES[status]}"]
    if text:
        lines += ["Content-Type: application/json", f"Content-Length: {len(text)}"]
    if allow:
        lines.append("Allow: " + ", ".join(allow))
    if place is not None:
        lines.append(f"Ipam-Place: {place}")
    if close:
        lines.append("Connection: close")
    return ("\r\n".join(lines) + "\r\n\r\n").encode() + (b"" if bare else text)


def broken(status, code, detail):
    return answer_text(status, {"code": code, "detail": detail}, close=True)


BAD_HEAD = broken(400, "bad_head", "the request could not be read")


def read_head(head):
    """The method, the target, whether the request is of version 1.0, and the fields as pairs."""
    first, *lines = head.decode("latin-1").split("\r\n")
    method, target, version = first.split(" ")
    fields = [line.split(":", 1) for line in lines]
    return method, target.encode("latin-1"), version == "HTTP/1.0", [(name.lower(), value.strip(" \t")) for name, value in fields]


def body_length(fields):
    """The length of the body, or the answer by which the request is refused."""
    lengths = [value for name, value in fields if name == "content-length"]
    if any(name == "transfer-encoding" for name, _ in fields):
        return broken(501, "coding", "transfer codings are not served")
    if len(lengths) > 1 or not all(re.fullmatch("[0-9]{1,19}", value) for value in lengths):
        return BAD_HEAD
    length = int(lengths[0]) if lengths else 0
    return length if length <= MOST_BODY else broken(413, "too_large", f"the body exceeds {MOST_BODY} bytes")


def converse(stream, service):
    """The answers to the requests of a stream, one by one."""
    for count in range(1, MOST_ANSWERS + 1):
        if not stream:
            return
        end = stream[:MOST_HEAD].find(b"\r\n\r\n")
        if end < 0:
            yield BAD_HEAD if len(stream) < MOST_HEAD else broken(413, "too_large", f"the head exceeds {MOST_HEAD} bytes")
            return
        method, target, is_old, fields = read_head(stream[:end])
        length = body_length(fields)
        if not isinstance(length, int):
            yield length
            return
        body, behind = stream[end + 4:end + 4 + length], stream[end + 4 + length:]
        if len(body) < length:
            yield BAD_HEAD
            return
        tokens = [token.strip(" \t").lower() for name, value in fields if name == "connection" for token in value.split(",")]
        close = is_old or "close" in tokens or count == MOST_ANSWERS
        yield service.respond(method, target, body, close)
        if close:
            return
        stream = behind


def main():
    words = argparse.ArgumentParser(description="A plain register over standard input and output.")
    words.add_argument("--global-unique", choices=["yes", "no"], default="yes")
    words.add_argument("--without-claims", action="store_true")
    given = words.parse_args()
    for answer in converse(sys.stdin.buffer.read(), Service(given.global_unique == "yes", not given.without_claims)):
        sys.stdout.buffer.write(answer)


if __name__ == "__main__":
    main()
