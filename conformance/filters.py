"""Random lists of NetBox's form, compared with what Python's `ipaddress` says of all records: each filter in several spellings, several of one name, pages,
and filters that are not served, which are always refused. netbox.py runs it."""
import ipaddress
import random
import urllib.parse

BLOCKS = ["10.0.0.0/24", "10.0.0.7/24", "10.0.0.0/25", "10.0.0.64/26", "10.0.0.0/8", "2001:db8::/32", "2001:DB8::/33", "2001:0db8:0:0::1/64",
          "0.0.0.0/0", "::/0"]
SEARCHED = ("name", "rd", "slug", "dns_name", "prefix", "address", "start_address", "end_address", "description")
HOSTS = [f"10.0.0.{n}" for n in (1, 2, 3, 70, 130)] + ["2001:db8::1", "2001:DB8:0::2", "2001:db8:0:0:0:0:0:3", "::ffff:1.2.3.4"]
TEXTS = ["", "one", "two words", "ä&=+%/?#", "ONE", "x\"y\\z", "__proto__"]
STATUS = {"prefixes": ["container", "active", "reserved", "deprecated"], "ip-ranges": ["active", "reserved", "deprecated"],
          "ip-addresses": ["active", "reserved", "deprecated", "dhcp", "slaac"]}
ROLES = ["loopback", "secondary", "anycast", "vip", "vrrp", "hsrp", "glbp", "carp"]
UNSERVED = ["tenant", "site_id", "name__ic", "Address", "LIMIT", "limit[]", "tag", "within_", 'a"b', "__proto__", "constructor", "toString"]


def net(text):
    return ipaddress.ip_network(text, strict=False)


def inside(inner, outer):
    return inner.version == outer.version and inner.subnet_of(outer)


def has(row, block):
    """Whether a range has all addresses of a block."""
    first, last = ipaddress.ip_interface(row["start_address"]).ip, ipaddress.ip_interface(row["end_address"]).ip
    return block.version == first.version and first <= block[0] and block[-1] <= last


def is_host(own, asked):
    """Whether an address with its mask is the one that is asked for, with its mask or with any."""
    own = ipaddress.ip_interface(own)
    return own == ipaddress.ip_interface(asked) if "/" in asked else own.ip == ipaddress.ip_address(asked)


def length(row):
    return net(row.get("prefix") or row["address"]).prefixlen


def search(row, word):
    """What `q` means."""
    word = word.strip().lower()
    if any(word in (row[name] or "").lower() for name in SEARCHED if name in row):
        return True
    try:
        block = net(word)
    except ValueError:
        return False
    return has(row, block) if "size" in row else "prefix" in row and inside(block, net(row["prefix"]))


class Model:
    """All records of a register, and what each filter means of one."""

    def __init__(self, rows):
        self.rows = rows
        rd = {row["id"]: row["rd"] for row in rows["vrfs"]}
        slug = {kind: {row["id"]: row["slug"] for row in rows[kind]} for kind in ("roles", "rirs")}
        same = {name: lambda row, text, name=name: row[name] == text for name in ("name", "slug", "rd", "description")}
        id_of = {f"{name}_id": lambda row, text, name=name: str(row[name] or "null") == text for name in ("vrf", "role", "rir")}
        flags = {name: lambda row, text, name=name: row[name] == (text.lower() in ("true", "1")) for name in ("is_pool", "mark_utilized")}
        self.tests = {
            **same, **id_of, **flags, "id": lambda row, text: str(row["id"]) == text, "q": search, "family": lambda row, text: str(row["family"]) == text,
            "status": lambda row, text: row["status"]["value"] == text, "mask_length": lambda row, text: str(length(row)) == text,
            "prefix": lambda row, text: net(row["prefix"]) == net(text), "within_include": lambda row, text: inside(net(row["prefix"]), net(text)),
            "within": lambda row, text: inside(net(row["prefix"]), net(text)) and net(row["prefix"]) != net(text),
            "contains": lambda row, text: has(row, net(text)) if "size" in row else inside(net(text), net(row["prefix"])),
            "parent": lambda row, text: inside(net(ipaddress.ip_interface(row["address"]).ip), net(text)),
            "address": lambda row, text: is_host(row["address"], text), "start_address": lambda row, text: is_host(row["start_address"], text),
            "end_address": lambda row, text: is_host(row["end_address"], text), "dns_name": lambda row, text: row["dns_name"] == text.lower(),
            "vrf": lambda row, text: rd.get(row["vrf"], "null") == text, "rir": lambda row, text: slug["rirs"][row["rir"]] == text,
            "role": lambda row, text: (slug["roles"].get(row["role"], "null") if "dns_name" not in row else (row["role"] or {}).get("value")) == text,
        }

    def values(self, kind, name):
        """Texts that a filter can have."""
        hosts = HOSTS + [f"{host}/{mask}" for host in HOSTS for mask in ((24, 25) if ":" not in host else (64, 65))]
        return {
            "id": ["1", "2", "3", "99", "4294967295"], "q": TEXTS + ["10.0.0", "10.0.0.70", "2001:DB8::2", "10.0.0.64/27"], "family": ["4", "6"],
            "status": STATUS.get(kind, []), "mask_length": ["24", "25", "64", "0"], "address": hosts, "start_address": hosts, "end_address": hosts,
            "vrf": ["65000:1", "65000:2", "null"], "rir": ["a", "b"], "role": ROLES if kind == "ip-addresses" else ["a", "b", "null"],
            "vrf_id": ["1", "2", "99", "null"], "role_id": ["1", "2", "null"], "rir_id": ["1", "2"], "is_pool": ["true", "False", "1", "0"],
            "mark_utilized": ["true", "false"], "dns_name": ["a.example", "A.EXAMPLE", "", "b"], "contains": BLOCKS + HOSTS, "name": TEXTS + ["a", "b"],
            "slug": ["a", "b", "c", ""], "rd": ["65000:1", "65000:2", ""], "description": TEXTS,
        }.get(name, BLOCKS)


FILTERS = {
    "vrfs": ["id", "name", "rd", "description", "q"], "rirs": ["id", "name", "slug", "description", "q"], "roles": ["id", "name", "slug", "description", "q"],
    "aggregates": ["id", "family", "rir_id", "rir", "prefix", "description", "q"],
    "prefixes": ["id", "family", "vrf_id", "vrf", "role_id", "role", "status", "prefix", "within", "within_include", "contains", "mask_length", "is_pool",
                 "mark_utilized", "description", "q"],
    "ip-ranges": ["id", "family", "vrf_id", "vrf", "role_id", "role", "status", "contains", "start_address", "end_address", "description", "q"],
    "ip-addresses": ["id", "family", "vrf_id", "vrf", "status", "role", "parent", "dns_name", "address", "mask_length", "description", "q"],
}


def fill(front, pick):
    """Records of all kinds."""
    for n in (1, 2):
        front.plain.ask("POST", "/api/ipam/vrfs/", {"name": TEXTS[n], "rd": f"65000:{n}", "description": TEXTS[n], "enforce_unique": False})
        front.plain.ask("POST", "/api/ipam/vrfs/", {"name": TEXTS[n], "description": TEXTS[n]})
        for kind in ("roles", "rirs"):
            front.plain.ask("POST", f"/api/ipam/{kind}/", {"name": "ab"[n - 1], "slug": "ab"[n - 1], "description": TEXTS[n + 1]})
    for n, block in enumerate(("10.0.0.0/8", "2001:db8::/32")):
        front.plain.ask("POST", "/api/ipam/aggregates/", {"prefix": block, "rir": n + 1, "description": TEXTS[n]})
    for _ in range(60):
        more = {"vrf": pick.choice([None, 1, 2]), "description": pick.choice(TEXTS)}
        block = str(net(pick.choice(BLOCKS[:8])))
        front.plain.ask("POST", "/api/ipam/prefixes/", {**more, "prefix": block, "role": pick.choice([None, 1, 2]), "status": pick.choice(STATUS["prefixes"]),
                                                       "is_pool": pick.random() < 0.5, "mark_utilized": pick.random() < 0.3})
        host = pick.choice(HOSTS)
        mask = pick.choice((24, 25)) if ":" not in host else pick.choice((64, 65))
        front.plain.ask("POST", "/api/ipam/ip-addresses/", {**more, "address": f"{host}/{mask}", "role": pick.choice([None] + ROLES),
                                                           "status": pick.choice(STATUS["ip-addresses"]), "dns_name": pick.choice(["a.example", "b", ""])})
        first, last = sorted(pick.sample(range(1, 250), 2))
        front.plain.ask("POST", "/api/ipam/ip-ranges/", {**more, "start_address": f"10.0.0.{first}/24", "end_address": f"10.0.0.{last}/24",
                                                        "role": pick.choice([None, 1, 2]), "status": pick.choice(STATUS["ip-ranges"])})


def run(front, count, seed):
    pick = random.Random(seed)
    fill(front, pick)
    model = Model({kind: front.plain.ask("GET", f"/api/ipam/{kind}/?limit=1000").value["results"] for kind in FILTERS})
    found = refused = 0
    for _ in range(count):
        kind = pick.choice(list(FILTERS))
        pairs = []
        names = pick.sample(FILTERS[kind], pick.choice([1, 1, 2, 3]))
        if kind == "ip-addresses" and pick.random() < 0.3:
            names = pick.sample(["address", "parent", "vrf_id"], 2)
        elif pick.random() < 0.1:
            names = ["id", pick.choice(FILTERS[kind][1:])]
        for name in names:
            pairs += [(name, text) for text in pick.sample(model.values(kind, name), pick.choice([1, 1, 1, 2]))]
        limit, offset = pick.choice([(50, 0), (1, 0), (2, 1), (3, 5)])
        isolated = pick.random() < 0.1
        if isolated:
            pairs.insert(pick.randint(0, len(pairs)), (pick.choice(UNSERVED), "1"))
        pick.shuffle(pairs)
        query = urllib.parse.urlencode(pairs + [("limit", limit), ("offset", offset)])
        answer = front.ask("GET", f"{kind}/?{query}")
        if isolated:
            assert answer.status == 400, f"{kind}/?{query}: {answer.status}"
            refused += 1
            continue
        asked = {name: [text for other, text in pairs if other == name] for name, _ in pairs}
        wanted = [row["id"] for row in model.rows[kind] if all(any(model.tests[name](row, text) for text in texts) for name, texts in asked.items())]
        assert answer.status == 200, f"{kind}/?{query}: {answer.status} {answer.text[:200]}"
        page = answer.value
        ids = [row["id"] for row in page["results"]]
        assert (page["count"], ids) == (len(wanted), wanted[offset:offset + limit]), f"{kind}/?{query}: {page['count']} {ids}, wanted {wanted}"
        assert (page["next"] is None) == (offset + limit >= len(wanted)) and (page["previous"] is None) == (offset == 0)
        if page["next"]:
            later = front.link.ask("GET", page["next"][len(front.base):]).value
            assert [row["id"] for row in later["results"]] == wanted[offset + limit:offset + 2 * limit], page["next"]
        found += len(ids) > 0
    assert found > count / 5 and refused > count / 20
    return f"{count} random lists, {found} with records, {refused} refused"
