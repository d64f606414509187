"""What is said in a random conversation with pools: requests in which ranges have numbers in common, and bad values are frequent."""
import json
import random
from urllib.parse import quote

from model.plain_pools import MOST_NUMBER, WORDS

# what members of bodies are in place of what they should be
NOT_WELL = [None, "", 0, 1, -1, -0.0, 1.0, 7.5, "1", True, [], {}, "x" * 101, "a\u0007", "\u20ac" * 100, 4095, 4294967295, 4294967296, 2 ** 64]
NAMES = ["a", "b", "c", "d e", "\u00e9", '"\\']
# where ranges begin: few places, so that ranges of one kind have numbers in common; small, or at the end of the kind
PLACES = {"asn": [1, 3, 64512, 64515, 4294967290], "vlan": [1, 2, 5, 100, 4090]}


class Talker:
    """What is said in one conversation: few names and few numbers, and mostly ids of rows that are there, so that rows meet."""

    def __init__(self, seed, service):
        self.pick = random.Random(seed)
        self.pools = service.register

    def chance(self, part):
        return self.pick.random() < part

    def kind(self):
        return self.pick.choice(["asn", "vlan"])

    def range_id(self, kind):
        there = [row["id"] for row in self.pools.ranges if row["kind"] == kind or self.chance(0.05)]
        return self.pick.choice(there) if there and self.chance(0.96) else self.pick.choice([1, 2, 3, 99, 4294967295])

    def member_id(self, kind):
        there = [row["id"] for row in self.pools.members if self.pools.kind_of(row) == kind or self.chance(0.05)]
        return self.pick.choice(there) if there and self.chance(0.96) else self.pick.choice([1, 2, 3, 99, 4294967295])

    def row(self, number):
        """The id of a row, in a path."""
        return number if self.chance(0.99) else self.pick.choice([0, 4294967296, "01", "x"])

    def value(self, value):
        return value if self.chance(0.98) else self.pick.choice(NOT_WELL)

    # -- bodies

    def draft(self, kind):
        first = self.pick.choice(PLACES[kind])
        last = min(first + self.pick.choice([0, 1, 2, 4, 8, 20]), MOST_NUMBER[kind])
        if self.chance(0.04):
            first, last = self.pick.choice([(0, last), (last + 1, first), (first, MOST_NUMBER[kind] + 1), (first, MOST_NUMBER[kind]), (0, 0)])
        body = {"name": self.value(self.pick.choice(NAMES) + str(self.pick.randrange(3))), "start": self.value(first), "end": self.value(last)}
        if self.chance(0.03):
            del body[self.pick.choice(sorted(body))]
        return dict(body, **{"x": self.pick.choice(NOT_WELL)}) if self.chance(0.1) else body

    def item(self, kind):
        body = {"name": self.value(self.pick.choice(NAMES))} if kind == "vlan" or self.chance(0.2) else {}
        return {} if self.chance(0.02) else body

    def claim(self, kind):
        if self.chance(0.5):
            return self.item(kind)
        items = [self.item(kind) for _ in range(self.pick.choice([1, 1, 2, 2, 3, 9]) if self.chance(0.97) else self.pick.choice([0, 40, 1000, 1001]))]
        return items if self.chance(0.98) else items + [self.pick.choice([5, [], None])]

    def chosen(self, kind, number):
        """What records a number: one of the range mostly, or one beside it."""
        row = next((row for row in self.pools.ranges if row["id"] == number), {"start": 1, "end": 9})
        one = self.pick.randint(row["start"], min(row["start"] + 12, row["end"])) if self.chance(0.95) else self.pick.choice([row["start"] - 1, row["end"] + 1, row["end"]])
        body = {WORDS[kind][3]: self.value(one)}
        if self.chance(0.98 if kind == "vlan" else 0.4):
            body["name"] = self.value(self.pick.choice(NAMES if kind == "vlan" else NAMES + [""]))
        return {} if self.chance(0.02) else body

    def record(self, kind, number):
        if self.chance(0.5):
            return self.chosen(kind, number)
        items = [self.chosen(kind, number) for _ in range(self.pick.choice([1, 2, 2, 3, 4]) if self.chance(0.97) else self.pick.choice([0, 1000, 1001]))]
        return items if self.chance(0.98) else items + [self.pick.choice([5, [], None])]

    def range_edit(self, kind, number):
        """Other bounds for a range: mostly some of what there is, a little more or a little less."""
        row = next((row for row in self.pools.ranges if row["id"] == number), {"start": 1, "end": 9})
        body = {name: self.value(row[name] + self.pick.choice([-2, -1, 0, 1, 2, 4])) for name in ("start", "end") if self.chance(0.5)}
        if self.chance(0.4):
            body["name"] = self.value(self.pick.choice(NAMES) + str(self.pick.randrange(3)))
        return dict(body, **{"x": self.pick.choice(NOT_WELL)}) if self.chance(0.1) else body

    def member_edit(self, kind):
        body = {"name": self.value(self.pick.choice(NAMES if kind == "vlan" else NAMES + [""]))} if self.chance(0.9) else {}
        return dict(body, **{WORDS[kind][3]: self.pick.choice(NOT_WELL)}) if self.chance(0.1) else body

    def text(self, body):
        text = json.dumps(body, ensure_ascii=self.chance(0.3), separators=self.pick.choice([(",", ":"), (", ", ": ")]))
        if self.chance(0.01):
            text = self.pick.choice([text[:-1], text + "}", "[" + text + "]", "null", "", text.replace(":", ": 0", 1), '{"x":[1e999]}', '{"x":"\\udc00"}'])
        return text.encode()

    # -- targets

    def asked(self, kind):
        """What a list may ask of each member: mostly what some member has."""
        _, _, range_name, number_name = WORDS[kind]
        one = self.pick.choice(self.pools.members) if self.pools.members else {"number": 1, "range": 1, "name": "a"}
        number, row = (one[name] if self.chance(0.9) else self.pick.choice(["", "0", "01", "x", "%31", 4294967296]) for name in ("number", "range"))
        offset = self.pick.choice(["0", "1", "2", "9", "4294967295", "4294967296", "01"])
        return [f"{number_name}={number}", f"{range_name}_id={row}", "name=" + quote(one["name"]), f"offset={offset}"]

    def query(self, kind, members):
        if self.chance(0.5):
            return ""
        pairs = [f"limit={self.pick.choice(['0', '1', '2', '3', '7', '1001', '9999999999'])}" for _ in range(self.pick.choice([0, 1, 1, 2]))]
        if self.chance(0.1):
            pairs.append("limit=" + self.pick.choice(["", "x", "01", "+1", "-1", "1.0", "99999999999", "%31", "%ff"]))
        pairs += self.pick.choice([[], [], ["offset=x"], ["name=%"], [""]])
        if members and self.chance(0.9):
            pairs += [pair for pair in self.asked(kind) if self.chance(0.4)]
        self.pick.shuffle(pairs)
        return "?" + "&".join(pairs)

    def request(self):
        kind = self.kind()
        ranges, members, _, _ = WORDS[kind]
        few = len(self.pools.ranges) < 4
        asked = self.pick.choices(["make", "list", "cut range", "cut member", "free", "claim", "given", "record", "range", "member", "edit range", "edit member", "page"],
                                  [8 if few else 3, 1, 0.7, 5, 5, 10, 2, 8, 1, 1, 4, 3, 4])[0]
        method, body = "GET", b""
        if asked in ("make", "list"):
            target = f"/api/ipam/{ranges}/"
            if asked == "make":
                method, body = "POST", self.text(self.draft(kind))
        elif asked == "page":
            target = f"/api/ipam/{members}/"
        elif asked in ("cut member", "member", "edit member"):
            method = {"cut member": "DELETE", "edit member": "PATCH"}.get(asked, "GET")
            target = f"/api/ipam/{members}/{self.row(self.member_id(kind))}/"
            body = self.text(self.member_edit(kind)) if asked == "edit member" else b""
        else:
            part = {"cut range": "", "range": "", "edit range": "", "given": members + "/", "record": members + "/"}.get(asked, f"available-{members}/")
            number = self.range_id(kind)
            target = f"/api/ipam/{ranges}/{self.row(number)}/{part}"
            method = {"cut range": "DELETE", "edit range": "PATCH", "claim": "POST", "record": "POST"}.get(asked, "GET")
            said = {"claim": lambda: self.claim(kind), "record": lambda: self.record(kind, number), "edit range": lambda: self.range_edit(kind, number)}.get(asked)
            body = self.text(said()) if said else b""
        if self.chance(0.02):
            method = self.pick.choice(["GET", "POST", "DELETE", "PATCH", "PUT", "HEAD", "get"])
        if self.chance(0.01):
            target = self.pick.choice([target[:-1], target.upper(), target + "x/", target.replace("vlan", "asn"), target.replace("asns", "vlans")])
        length = f"Content-Length: {len(body)}\r\n" if body or self.chance(0.1) else ""
        return f"{method} {target}{self.query(kind, asked == 'page')} HTTP/1.1\r\nHost: x\r\n{length}\r\n".encode() + body
