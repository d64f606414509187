"""What is said in a random conversation with a register: requests in which conflicts, clashes, overlaps, full prefixes and bad values are frequent."""
import json
import random
import re

KINDS = ["vrfs", "rirs", "roles", "aggregates", "prefixes", "ip-ranges", "ip-addresses"]
# how often each is asked for, beside the others
WEIGHTS = [4, 2, 3, 3, 10, 6, 10]
# what addresses and blocks are taken from, two for a conversation: a family, a first address, a length; small, or at an end of the family
LANDS = [(4, 0x0A000000, 27), (4, 0x0A000000, 28), (4, 0xFFFFFFF0, 28), (4, 0, 29), (4, 0xC0000200, 24),
         (6, 0x20010DB8 << 96, 124), (6, 2 ** 128 - 32, 123), (6, 0x20010DB8_00000000_00000001_00000000, 122)]
DNS_NAMES = ["a", "A.b", "*.a", "a.", "x_1-2.Example.com", ""]
NO_DNS_NAMES = [".", "a..b", "a.*", "*", "-", "a b", "\u00e9", "a" * 255, "a" * 256]
# how many rows there are at most, before they are changed and removed in place of more
FEW = {"vrfs": 3, "rirs": 3, "roles": 4, "aggregates": 5}
ADDRESS_ROLES = ["loopback", "secondary", "anycast", "vip", "vrrp", "hsrp", "glbp", "carp"]
STATUSES = ["container", "active", "reserved", "deprecated", "dhcp", "slaac"]
CLAIMS = {"prefixes": ["available-prefixes", "available-ips"], "ip-ranges": ["available-ips"]}
FIGURES = ["prefixes", "ip-ranges", "aggregates"]
NOT_WELL = [None, "", 0, 1, -1, 7.5, "1", True, False, [], {}, "x" * 101, "x" * 201, "a\u0007", "\u20ac" * 90, 4294967295, 4294967296, 32767, 32768]
# the bytes that a target may have
PRINTED = range(0x21, 0x7F)
FILTERS = {"vrfs": ["name", "rd"], "rirs": ["name", "slug"], "roles": ["name", "slug"], "aggregates": ["family", "rir_id"],
           "prefixes": ["family", "vrf_id", "status", "role_id", "prefix", "within", "within_include", "contains"],
           "ip-ranges": ["family", "vrf_id", "status", "role_id", "contains"],
           "ip-addresses": ["family", "vrf_id", "status", "role", "parent", "dns_name"]}


class Talker:
    """What is said in one conversation: few names and few addresses, and mostly ids of rows that are there, so that rows meet."""

    def __init__(self, seed, service):
        self.pick = random.Random(seed)
        self.claims, self.rows = service.claims, service.register.rows
        self.lands = self.pick.sample(LANDS, 2)

    def chance(self, part):
        return self.pick.random() < part

    # -- texts

    def address(self, family, number):
        if family == 4:
            return ".".join(str(number >> shift & 255) for shift in (24, 16, 8, 0))
        groups = [f"{number >> shift & 0xFFFF:x}" for shift in range(112, -16, -16)]
        text = ":".join(groups)
        if self.chance(0.5):
            text = re.sub(r"(^|:)(0(:|$)){2,}", "::", text, count=1)
        return text.upper() if self.chance(0.3) else text

    def place(self):
        family, first, length = self.pick.choice(self.lands)
        width = 32 if family == 4 else 128
        return family, width, first, length, first + self.pick.randrange(8 if self.chance(0.6) else 2 ** (width - length))

    def block(self):
        family, width, first, least, number = self.place()
        length = self.pick.choice([least - 1, least, least, least + 1, least + 1, least + 2, width - 1, width, self.pick.randint(least, width)])
        if self.chance(0.96):
            number = number >> (width - length) << (width - length)
        if self.chance(0.02):
            length, number = 0, 0
        text = f"{self.address(family, number)}/{length}"
        return text if self.chance(0.98) else self.pick.choice([text + "9", text.split("/")[0], text[1:], "/" + text, text + "/0", ""])

    def host(self):
        family, width, _, least, number = self.place()
        text = self.address(family, number)
        mask = self.pick.choice([least, least, least, least, width, 0] if self.chance(0.2) else [least])
        if self.chance(0.02):
            return self.pick.choice([text + "/", text + "/129", text + ".1", ":" + text, "1:2:3:4:5:6:7:" + text, "::" + text])
        return text if self.chance(0.1) else f"{text}/{mask}"

    def ends(self):
        """Two hosts that are mostly near one another, in order, and of one mask."""
        family, width, first, least, number = self.place()
        if self.chance(0.1):
            return self.host(), self.host()
        end = min(number + self.pick.choice([0, 1, 2, 3, 5, 8, 2 ** 32 - 2, 2 ** 32 - 1] if self.chance(0.1) else [1, 2, 3, 5, 8]), 2 ** width - 1)
        return f"{self.address(family, number)}/{least}", f"{self.address(family, end)}/{least}"

    def number(self, kind):
        """The id of a row, as a member or a parameter."""
        there = [row["id"] for row in self.rows[kind]]
        return self.pick.choice(there) if there and self.chance(0.95) else self.pick.choice([1, 2, 3, 99, 4294967295])

    def row(self, kind):
        """The id of a row, in a path."""
        return self.number(kind) if self.chance(0.99) else self.pick.choice([0, 4294967296, "01", "x"])

    def name(self):
        return self.pick.choice(["a", "b", "c", "A", "d e", "\u00e9", "a&b=c"])

    def dns_name(self):
        return self.pick.choice(DNS_NAMES if self.chance(0.9) else NO_DNS_NAMES)

    # -- bodies

    def member(self, kind, name):
        if self.chance(0.02):
            return self.pick.choice(NOT_WELL)
        if name in ("prefix", "start_address", "end_address", "address"):
            return self.block() if name == "prefix" else self.host()
        if name == "status":
            return self.pick.choice(STATUSES if self.chance(0.2) else STATUSES[1:4] + STATUSES[:1] * (kind == "prefixes"))
        if name == "role" and kind == "ip-addresses":
            return self.pick.choice(ADDRESS_ROLES + [None, "", "vip", "vip", "hsrp"])
        if name in ("vrf", "role", "rir"):
            return self.number(name + "s") if name == "rir" or self.chance(0.7) else None
        return {"name": self.name, "dns_name": self.dns_name, "slug": lambda: self.pick.choice("abc"), "rd": lambda: self.pick.choice(["1:1", "1:2", "", None]),
                "weight": lambda: self.pick.choice([0, 7, 32767]), "prefix_length": self.wanted_length,
                "enforce_unique": lambda: self.chance(0.4),
                "description": lambda: self.pick.choice(["", "d", "\u00e9\u20ac\U0001F600", '"\\'])}.get(name, lambda: self.chance(0.4))()

    def wanted_length(self):
        _, width, _, least, _ = self.place()
        return self.pick.choice([least, least + 1, least + 2, width - 2, width - 1, width, 33, 0, self.pick.randint(least, width)])

    def members(self, kind, needed, others):
        body = {name: self.member(kind, name) for name in needed if self.chance(0.98)}
        if "start_address" in body and "end_address" in body and self.chance(0.9):
            body["start_address"], body["end_address"] = self.ends()
        body.update({name: self.member(kind, name) for name in others if self.chance(0.3)})
        return body

    def draft(self, kind):
        own = {"vrfs": (["name"], ["rd", "enforce_unique"]), "rirs": (["name", "slug"], ["is_private"]), "roles": (["name", "slug"], ["weight"]),
               "aggregates": (["prefix", "rir"], []), "prefixes": (["prefix"], ["vrf", "vrf", "status", "role", "is_pool", "mark_utilized"]),
               "ip-ranges": (["start_address", "end_address"], ["vrf", "status", "role", "mark_utilized", "mark_populated"]),
               "ip-addresses": (["address"], ["vrf", "status", "role", "dns_name"])}
        return own[kind][0], own[kind][1] + ["description"]

    def text(self, body):
        text = json.dumps(body, ensure_ascii=self.chance(0.3), separators=self.pick.choice([(",", ":"), (", ", ": ")]))
        if self.chance(0.01):
            text = self.pick.choice([text[:-1], text + "}", "[" + text + "]", "null", "", text.replace(":", ": 0", 1), '{"x":[1e999]}', '{"x":"\\udc00"}',
                                     '{"x":-0,"x":1}'])
        return self.mangled(text.encode(), range(256)) if self.chance(0.03) else text.encode()

    def mangled(self, text, signs):
        """The text with one byte put in, left out or replaced."""
        at = self.pick.randint(0, len(text))
        put_in = [b"", bytes([self.pick.choice(signs)]), bytes([self.pick.choice(b'"\\{}[]:,0-.eE+u%&=/')])]
        return text[:at] + self.pick.choice(put_in) + text[at + self.pick.choice([0, 1]):]

    def item(self, asked):
        if asked == "available-prefixes":
            return self.members("prefixes", ["prefix_length"], ["status", "role", "is_pool", "mark_utilized", "description"])
        return self.members("ip-addresses", [], ["status", "role", "dns_name", "description"])

    def claim(self, asked):
        if self.chance(0.5):
            return self.item(asked)
        items = [self.item(asked) for _ in range(self.pick.choice([1, 2, 2, 3, 4, 9]) if self.chance(0.95) else self.pick.choice([0, 40, 1001]))]
        return items if self.chance(0.98) else items + [self.pick.choice([5, [], None])]

    # -- targets

    def value(self, name):
        if self.chance(0.03):
            return self.pick.choice(["", "x", "null", "0", "01", "+1", "4294967296", "%ff", "%", "a%2", "%00"])
        values = {"name": self.name, "rd": lambda: self.pick.choice(["1:1", "1:2", ""]), "slug": lambda: self.pick.choice("abc"), "dns_name": self.dns_name,
                  "family": lambda: self.pick.choice("46"), "status": lambda: self.pick.choice(STATUSES), "role": lambda: self.pick.choice(ADDRESS_ROLES),
                  "limit": lambda: self.pick.choice(["0", "1", "2", "3", "1001", "9999999999"]),
                  "offset": lambda: self.pick.choice(["0", "1", "2", "7", "4294967295"])}
        if name in ("vrf_id", "role_id", "rir_id"):
            return "null" if self.chance(0.3) else str(self.number(name[:-3] + "s"))
        found = values.get(name, self.host if name == "contains" and self.chance(0.4) else self.block)()
        if name == "contains" and self.chance(0.5):
            found = found.split("/")[0]
        return "".join(sign if sign.isascii() and sign.isalnum() or sign in ".:/-_*" and self.chance(0.7) else "".join(f"%{byte:02x}" for byte in sign.encode())
                       for sign in found)

    def query(self, names):
        pairs = [f"{name}={self.value(name)}" for name in self.pick.sample(names, self.pick.choice([0, 1, 1, 1, 2, 3]) % (len(names) + 1))]
        pairs += [f"{name}={self.value(name)}" for name in ("limit", "offset") if self.chance(0.4)]
        self.pick.shuffle(pairs)
        text = "?" + "&".join(pairs + self.pick.choice([[], [], [], ["x=1"], [""]])) if pairs else ""
        return self.mangled(text.encode(), PRINTED).decode() if self.chance(0.03) else text

    def request(self):
        kind = self.pick.choices(KINDS, WEIGHTS)[0]
        needed, others = self.draft(kind)
        target, body = f"/api/ipam/{kind}/", b""
        if self.chance(0.03):
            # a table begins or ends to enforce
            body = self.text({"enforce_unique": self.chance(0.5)})
            return f"PATCH /api/ipam/vrfs/{self.number('vrfs')}/ HTTP/1.1\r\nHost: x\r\nContent-Length: {len(body)}\r\n\r\n".encode() + body
        if self.claims and kind in FIGURES and self.chance(0.5 if self.rows[kind] else 0.1):
            asked = self.pick.choice(CLAIMS.get(kind, []) * 2 + ["utilization"])
            method = "GET" if asked == "utilization" else self.pick.choice(["GET", "POST"])
            body = self.text(self.claim(asked)) if method == "POST" else b""
            target += f"{self.row(kind)}/{asked}/" + (self.query([]) if self.chance(0.5) else "")
        else:
            method = self.pick.choices(["POST", "GET", "LIST", "PATCH", "DELETE", "PUT"], [10, 2, 5, 8, 2.5, 0.3])[0]
            if len(self.rows[kind]) < 5 and self.chance(0.5):
                method = "POST"
            if method == "POST" and len(self.rows[kind]) >= FEW.get(kind, 30):
                method = self.pick.choice(["PATCH", "DELETE"])
            if method == "POST":
                body = self.text(self.members(kind, needed, others))
            elif method == "LIST":
                method, target = "GET", target + self.query(FILTERS[kind])
            else:
                target += f"{self.row(kind)}/"
                body = self.text(self.members(kind, [], needed + others)) if method == "PATCH" else b""
        if self.chance(0.01):
            target, method = self.pick.choice([(target[:-1], method), (target, "HEAD"), (target.upper(), method), (target + "x/", method), (target, "get")])
        length = f"Content-Length: {len(body)}\r\n" if body or self.chance(0.1) else ""
        return f"{method} {target} HTTP/1.1\r\nHost: x\r\n{length}\r\n".encode() + body
