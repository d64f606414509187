"""A property test by Debian's python3-hypothesis: a random record that is written through NetBox's form and read back is that record; whatever the body, the
answer is JSON in NetBox's form, and no request makes more than one change (Front.ask sees to that)."""
import ipaddress
import json

from hypothesis import HealthCheck, given, settings, strategies as st

SETTINGS = settings(max_examples=150, deadline=None, database=None, derandomize=True, suppress_health_check=list(HealthCheck))
TEXT = st.text(st.characters(blacklist_categories=("Cc", "Cs")), max_size=200)
NAME = st.text(st.characters(blacklist_categories=("Cc", "Cs")), min_size=1, max_size=100)
SLUG = st.text("abcXYZ019-_", min_size=1, max_size=100)
REFERENCE = st.sampled_from([None, 1, "1", {"id": 1}, {"id": 1, "display": "x"}])
BLOCK = st.one_of(st.tuples(st.integers(0, 2**32 - 1), st.integers(1, 32)).map(lambda two: ipaddress.ip_network((two[0], two[1]), strict=False)),
                  st.tuples(st.integers(2**32, 2**128 - 1), st.integers(1, 128)).map(lambda two: ipaddress.ip_network((two[0], two[1]), strict=False)))
HOST = st.one_of(st.tuples(st.integers(0, 2**32 - 1), st.integers(1, 32)), st.tuples(st.integers(2**32, 2**128 - 1), st.integers(1, 128)))
LABEL = st.text("abcXYZ019-_", min_size=1, max_size=40)


@st.composite
def ranges(draw):
    """The two ends of a range."""
    wide = draw(st.booleans())
    first = draw(st.integers(2**32, 2**128 - 2**33) if wide else st.integers(0, 2**32 - 2**20))
    last = first + draw(st.integers(1, 2**19))
    mask = draw(st.integers(1, 128 if wide else 32))
    make = ipaddress.IPv6Address if wide else ipaddress.IPv4Address
    return f"{make(first)}/{mask}", f"{make(last)}/{mask}"


def host(two):
    make = ipaddress.IPv6Address if two[0] >= 2**32 else ipaddress.IPv4Address
    return f"{make(two[0])}/{two[1]}"


STATUSES = ["active", "reserved", "deprecated"]
ROLES = [None, "loopback", "secondary", "anycast", "vip", "vrrp", "hsrp", "glbp", "carp"]
KINDS = {
    "vrfs": ({"name": NAME}, {"rd": st.none() | st.text("0123456789:", min_size=1, max_size=21), "enforce_unique": st.booleans()}),
    "rirs": ({"name": NAME, "slug": SLUG}, {"is_private": st.booleans()}),
    "roles": ({"name": NAME, "slug": SLUG}, {"weight": st.integers(0, 32767)}),
    "aggregates": ({"prefix": BLOCK.map(str), "rir": REFERENCE.filter(bool)}, {}),
    "prefixes": ({"prefix": BLOCK.map(str)}, {"vrf": REFERENCE, "role": REFERENCE, "status": st.sampled_from(["container"] + STATUSES),
                                             "is_pool": st.booleans(), "mark_utilized": st.booleans()}),
    "ip-ranges": ({"ends": ranges()}, {"vrf": REFERENCE, "role": REFERENCE, "status": st.sampled_from(STATUSES), "mark_utilized": st.booleans(),
                                       "mark_populated": st.just(False)}),
    "ip-addresses": ({"address": HOST.map(host)}, {"vrf": REFERENCE, "role": st.sampled_from(ROLES), "status": st.sampled_from(STATUSES + ["dhcp"]),
                                                   "dns_name": st.lists(LABEL, min_size=1, max_size=4).map(".".join)}),
}
DEFAULTS = {"rd": None, "enforce_unique": True, "is_private": False, "weight": 1000, "vrf": None, "role": None, "status": "active", "is_pool": False,
            "mark_utilized": False, "mark_populated": False, "dns_name": "", "description": ""}


def flat(name, value):
    """A member as it would be written: a choice by its value, a reference by its id, a name of the DNS in lower case."""
    if name == "dns_name":
        return value.lower()
    if name in ("vrf", "rir") or name == "role" and value not in ROLES:
        return int(value["id"]) if isinstance(value, dict) and "id" in value else int(value) if isinstance(value, str) else flat("status", value)
    return value["value"] if isinstance(value, dict) else value


def written(front):
    """POST, GET, a list by its id, PATCH and PUT of what was read, DELETE."""
    front.want(201, "POST", "vrfs/", {"name": "first", "enforce_unique": False})
    for kind in ("roles", "rirs"):
        front.want(201, "POST", f"{kind}/", {"name": "first", "slug": "first"})
    seen = []

    @SETTINGS
    @given(st.data())
    def test(data):
        kind = data.draw(st.sampled_from(list(KINDS)))
        required, optional = KINDS[kind]
        row = data.draw(st.fixed_dictionaries(required, optional={"description": TEXT, **optional}))
        if "ends" in row:
            row["start_address"], row["end_address"] = row.pop("ends")
        wanted = {name: flat(name, value) for name, value in {**{name: DEFAULTS[name] for name in ("description", *optional)}, **row}.items()}
        made = front.want(201, "POST", f"{kind}/", row)
        path = f"{kind}/{made['id']}/"
        assert {name: flat(name, made[name]) for name in wanted} == wanted, (row, made)
        assert front.want(200, "GET", path) == made == front.want(200, "GET", f"{kind}/?id={made['id']}")["results"][0]
        whole = {**made, **wanted}
        assert front.want(200, "PUT", path, whole) == made == front.want(200, "PATCH", f"{kind}/", [whole])[0]
        front.want(204, "DELETE", path)
        seen.append(kind)

    test()
    assert {*seen} == {*KINDS}
    return f"{len(seen)} random records"


MEMBER = st.text(max_size=8) | st.sampled_from(["id", "prefix", "vrf", "name", "role", "status", "prefix_length", "__proto__", "tenant", "description"])
JSON = st.recursive(st.none() | st.booleans() | st.integers(-10**17, 10**17) | st.floats(allow_nan=False) | st.text(max_size=20),
                    lambda part: st.lists(part, max_size=4) | st.dictionaries(MEMBER, part, max_size=5), max_leaves=12)
BODY = JSON.map(lambda value: json.dumps(value).encode()) | st.binary(max_size=40)
PATHS = ["prefixes/", "prefixes/1/", "prefixes/1/available-ips/", "prefixes/1/available-prefixes/", "vrfs/", "vrfs/1/", "ip-addresses/", "ip-ranges/", "rirs/",
         "aggregates/1/", "roles/1/", "prefixes/1/utilization/", "prefixes/9/available-ips/"]


def answered(front):
    """Whatever is sent, the answer is JSON: a record, a list, or a refusal with a list of texts for each member or a `detail`."""
    front.want(201, "POST", "prefixes/", {"prefix": "10.0.0.0/8"})
    statuses = {}

    @SETTINGS
    @given(st.sampled_from(["POST", "PUT", "PATCH", "DELETE"]), st.sampled_from(PATHS), BODY)
    def test(method, path, body):
        if method == "DELETE" and path.endswith("1/"):
            return
        answer = front.ask(method, path, body)
        statuses[answer.status] = statuses.get(answer.status, 0) + 1
        assert answer.status in (200, 201, 204, 400, 404, 405, 409, 413), (method, path, body, answer.status, answer.text)
        if answer.status >= 400:
            said = answer.value[0] if isinstance(answer.value, list) else answer.value
            assert isinstance(said.get("detail"), str) or all(isinstance(text, str) for texts in said.values() for text in texts), said

    test()
    return ", ".join(f"{count} with {status}" for status, count in sorted(statuses.items()))
