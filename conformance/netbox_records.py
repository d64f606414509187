"""What docs/CLIENTS.md says of records, requests, filters and refusals of NetBox's form, by requests over HTTP. What has to be answered is written by hand, in
the form of NetBox 4.1."""
import json
import subprocess

BASE = None
VRF = {"id": 1, "url": "/api/ipam/vrfs/1/", "display": "guests (65000:10)", "name": "guests", "rd": "65000:10", "description": ""}
ROLE = {"id": 1, "url": "/api/ipam/roles/1/", "display": "LAN", "name": "LAN", "slug": "lan", "description": ""}
RIR = {"id": 1, "url": "/api/ipam/rirs/1/", "display": "ARIN", "name": "ARIN", "slug": "arin", "description": ""}
ALL = {"id": 1, "description": "", "tags": [], "custom_fields": {}, "created": None, "last_updated": None}
HAS_TENANT = {"comments": "", "tenant": None}
ACTIVE = {"value": "active", "label": "Active"}
# by kind what is posted, and the record that is answered
RECORDS = {
    "vrfs": ({"name": "guests", "rd": "65000:10"}, {
        "display": "guests (65000:10)", "name": "guests", "rd": "65000:10", "enforce_unique": True, "import_targets": [], "export_targets": [], **HAS_TENANT}),
    "rirs": ({"name": "ARIN", "slug": "arin"}, {"display": "ARIN", "name": "ARIN", "slug": "arin", "is_private": False}),
    "roles": ({"name": "LAN", "slug": "lan"}, {"display": "LAN", "name": "LAN", "slug": "lan", "weight": 1000}),
    "aggregates": ({"prefix": "10.0.0.0/8", "rir": 1}, {
        "display": "10.0.0.0/8", "prefix": "10.0.0.0/8", "family": {"value": 4, "label": "IPv4"}, "rir": RIR, "date_added": None, **HAS_TENANT}),
    "prefixes": ({"prefix": "2001:DB8::/32", "vrf": 1, "role": 1}, {
        "display": "2001:db8::/32", "prefix": "2001:db8::/32", "family": {"value": 6, "label": "IPv6"}, "vrf": VRF, "role": ROLE, "status": ACTIVE,
        "is_pool": False, "mark_utilized": False, "children": 0, "_depth": 0, "site": None, "scope_type": None, "scope_id": None, "vlan": None, **HAS_TENANT}),
    "ip-ranges": ({"start_address": "10.20.0.100/24", "end_address": "10.20.0.199/24", "vrf": 1, "role": 1}, {
        "display": "10.20.0.100-199/24", "start_address": "10.20.0.100/24", "end_address": "10.20.0.199/24", "size": 100,
        "family": {"value": 4, "label": "IPv4"}, "vrf": VRF, "role": ROLE, "status": ACTIVE, "mark_utilized": False, "mark_populated": False, **HAS_TENANT}),
    "ip-addresses": ({"address": "2001:db8::10/64", "vrf": 1, "role": "vip", "dns_name": "GW.example"}, {
        "display": "2001:db8::10/64", "address": "2001:db8::10/64", "family": {"value": 6, "label": "IPv6"}, "vrf": VRF, "status": ACTIVE,
        "role": {"value": "vip", "label": "VIP"}, "dns_name": "gw.example", "nat_inside": None, "nat_outside": [], "assigned_object": None,
        "assigned_object_type": None, "assigned_object_id": None, **HAS_TENANT}),
}


def without_host(value, base):
    """The value with paths in place of links of this host."""
    return json.loads(json.dumps(value).replace(base, ""))


def records(front):
    """Each kind: POST, GET, a list, a list of one."""
    for kind, (posted, told) in RECORDS.items():
        path = f"{kind}/1/"
        wanted = {**ALL, "url": f"/api/ipam/{path}", "display_url": f"/web/#/{kind}/1", **told}
        for got in (front.want(201, "POST", f"{kind}/", posted), front.want(200, "GET", path), front.want(200, "GET", f"{kind}/")["results"][0]):
            got = without_host(got, front.base)
            assert got == wanted, f"{kind}: {[(name, got.get(name), wanted.get(name)) for name in {*got, *wanted} if got.get(name) != wanted.get(name)]}"
    return f"{len(RECORDS)} kinds"


def displays(front):
    """What ranges, VRFs and prefixes are shown as."""
    for start, end, shown in (("10.20.1.5/16", "10.20.2.9/16", "10.20.1.5-2.9/16"), ("2001:db8::10/64", "2001:db8::1f/64", "2001:db8::10-1f/64"),
                              ("10.0.0.1/4", "11.0.0.1/4", "10.0.0.1-11.0.0.1/4"), ("2001:db8::/64", "2001:db8::ffff/64", "2001:db8::-ffff/64")):
        made = front.want(201, "POST", "ip-ranges/", {"start_address": start, "end_address": end})
        assert made["display"] == shown, made["display"]
        front.want(204, "DELETE", f"ip-ranges/{made['id']}/")
    made = front.want(201, "POST", "vrfs/", {"name": "staff"})
    assert made["display"] == "staff"
    front.want(204, "DELETE", f"vrfs/{made['id']}/")


def free(front):
    """Lists of free addresses and blocks, utilisation, claimed records."""
    made = front.want(201, "POST", "prefixes/", {"prefix": "10.30.0.0/24", "vrf": 1})
    path = f"prefixes/{made['id']}/"
    address, = front.want(200, "GET", path + "available-ips/?limit=1")
    block, = front.want(200, "GET", path + "available-prefixes/")
    vrf = {**VRF, "url": front.base + VRF["url"]}
    assert address == {"address": "10.30.0.1/24", "family": 4, "vrf": vrf}, address
    assert block == {"prefix": "10.30.0.0/24", "family": 4, "vrf": vrf}, block
    assert len(front.want(200, "GET", path + "available-ips/")) == 50 and front.want(200, "GET", path + "utilization/") == {"utilization": 0}
    one = front.want(201, "POST", path + "available-ips/", {})
    more = front.want(201, "POST", path + "available-ips/", [{"status": "dhcp"}, {"dns_name": "b.example"}])
    for claimed, text in zip([one, *more], ("10.30.0.1/24", "10.30.0.2/24", "10.30.0.3/24")):
        assert (claimed["address"], claimed["url"]) == (text, f"{front.base}/api/ipam/ip-addresses/{claimed['id']}/") and claimed["vrf"] == vrf
        assert front.want(200, "GET", f"ip-addresses/{claimed['id']}/") == claimed
    block = front.want(201, "POST", path + "available-prefixes/", {"prefix_length": 28, "role": {"slug": "lan"}})
    assert block["url"] == f"{front.base}/api/ipam/prefixes/{block['id']}/" and block["role"]["name"] == "LAN" and block["_depth"] == 1
    span = front.want(201, "POST", "ip-ranges/1/available-ips/", {})
    assert span["address"] == "10.20.0.100/24" and span["url"].endswith(f"/ip-addresses/{span['id']}/")
    assert front.want(200, "GET", "ip-ranges/1/available-ips/?limit=1")[0]["vrf"] == vrf


def references(front):
    """References as an id, a text of digits, an object with an id, and by attributes."""
    front.want(201, "POST", "vrfs/", {"name": "guests", "rd": "65000:11"})
    for n, vrf in enumerate((1, "1", {"id": 1}, {"id": 1, "name": "other"}, {"rd": "65000:10"}, {"name": "guests", "rd": "65000:10"})):
        made = front.want(201, "POST", "prefixes/", {"prefix": f"10.50.{n}.0/24", "vrf": vrf, "role": {"name": "LAN"}})
        assert made["vrf"]["id"] == 1 and made["role"]["id"] == 1, made
    for vrf in ({"name": "guests"}, {"name": "none"}, {"rd": "1", "name": "guests"}, {"tenant": 1}, {}, [], "guests", True, 9, {"id": 9}, {"id": [1]},
                {"id": None}):
        said = front.want(400, "POST", "prefixes/", {"prefix": "10.51.0.0/24", "vrf": vrf})
        assert list(said) == ["vrf"] and isinstance(said["vrf"], list), (vrf, said)
    assert front.want(400, "POST", "aggregates/", {"prefix": "11.0.0.0/8", "rir": {"slug": "x"}})["rir"]


def members(front):
    """Members that are only answered, and that the register does not have."""
    path = f"prefixes/{front.want(201, 'POST', 'prefixes/', {'prefix': '10.52.0.0/24', 'vrf': 1, 'role': 1})['id']}/"
    whole = front.want(200, "GET", path)
    flat = {**whole, "vrf": whole["vrf"]["id"], "status": whole["status"]["value"]}
    assert front.want(200, "PATCH", path, flat) == whole == front.want(200, "PUT", path, flat)
    front.want(200, "PATCH", path, {"id": 99, "url": "x", "display": "y", "family": 6, "size": 1, "children": 9, "_depth": 9, "prefix_count": 3,
                                    "created": "x", "last_updated": "x", "display_url": "x"})
    assert front.want(200, "GET", path) == whole
    front.want(200, "PATCH", path, {"tenant": None, "tags": [], "comments": "", "custom_fields": {}, "x": {"y": None}})
    for name, value in (("tenant", 1), ("tags", ["x"]), ("comments", "x"), ("custom_fields", {"x": 1}), ("site", {"id": 1}), ("x", False),
                        ("__proto__", {"id": 2}), ("constructor", "x")):
        assert front.want(400, "PATCH", path, f'{{"description":"x","{name}":{json.dumps(value)}}}'.encode()) == {name: [f"the register has no {name} here"]}
    assert front.want(200, "GET", path) == whole


def puts(front):
    """PUT, and lists of one."""
    made = front.want(201, "POST", "roles/", {"name": "x", "slug": "x", "weight": 7, "description": "stays"})
    path = f"roles/{made['id']}/"
    assert front.want(400, "PUT", path, {"name": "y"}) == {"slug": ["This field is required."]}
    put = front.want(200, "PUT", path, {"name": "y", "slug": "y"})
    assert (put["name"], put["weight"], put["description"]) == ("y", 7, "stays")
    assert [one["name"] for one in front.want(200, "PUT", "roles/", [{"id": made["id"], "name": "z", "slug": "z"}])] == ["z"]
    assert [one["weight"] for one in front.want(200, "PATCH", "roles/", [{"id": made["id"], "weight": 9}])] == [9]
    assert [one["name"] for one in front.want(201, "POST", "roles/", [{"name": "q", "slug": "q"}])] == ["q"]
    front.want(204, "DELETE", "roles/", [{"id": made["id"]}])
    front.want(404, "GET", path)
    before = front.want(200, "GET", "roles/")
    for method in ("POST", "PUT", "PATCH", "DELETE"):
        two = [{"id": 1, "name": "1", "slug": "1"}, {"id": 2, "name": "2", "slug": "2"}]
        assert "exactly one record" in front.want(400, method, "roles/", two)["detail"]
    for method, body in (("PATCH", [{"name": "x"}]), ("PATCH", [{"id": "1/../2"}]), ("PUT", [{"id": 0, "name": "a", "slug": "a"}]),
                         ("DELETE", [{"id": -1}])):
        assert "id" in front.want(400, method, "roles/", body)[0]
    assert [front.want(status, method, "roles/", []) for method, status in (("POST", 201), ("PUT", 200), ("PATCH", 200), ("DELETE", 204))] == [[], [], [], None]
    assert front.want(200, "GET", "roles/") == before


def claims_named(front):
    """What a claim may name of what it is claimed from."""
    parent = front.want(201, "POST", "prefixes/", {"prefix": "10.53.0.0/16", "vrf": 1})
    path = f"prefixes/{parent['id']}/"
    front.want(201, "POST", path + "available-ips/", {"vrf": 1, "prefix": "10.53.0.0/16", "address": None})
    front.want(201, "POST", path + "available-prefixes/", {"prefix_length": 24, "vrf": {"name": "guests", "rd": "65000:10"}, "parent": "10.53.0.0/16"})
    front.want(201, "POST", path + "available-ips/", [{"vrf": {"id": 1}}, {"vrf": None, "tenant": None}])
    for body, name in (({"vrf": 2}, "vrf"), ([{}, {"vrf": 2}], "vrf"), ({"prefix": "10.54.0.0/16"}, "prefix"), ({"address": "10.53.0.9/16"}, "address")):
        assert list(front.want(400, "POST", path + "available-ips/", body)) == [name]
    assert front.want(400, "POST", path + "available-prefixes/", {"prefix_length": 8}) == {"prefix_length": ["the length does not fit the prefix"]}
    assert front.want(200, "GET", "ip-addresses/?parent=10.53.0.0/16&vrf_id=1")["count"] == 3


def terraform(front):
    """What Terraform's provider sends, by curl: null members, lists of one for claims, PUT of whole records, the status."""
    def curl(method, path, body=None):
        words = ["curl", "-sS", "--cacert", front.certificate(), "-H", f"Authorization: Token {front.token}", "-H", "Content-Type: application/json",
                 "-H", "Accept: application/json", "-X", method, "-w", "\n%{http_code}", front.base + path]
        told = subprocess.run(words + (["-d", json.dumps(body)] if body is not None else []), capture_output=True, text=True, check=True).stdout
        text, status = told.rsplit("\n", 1)
        return int(status), json.loads(text) if text else None
    assert curl("GET", "/api/status/") == (200, {"netbox-version": "4.1.0"})
    status, vrf = curl("POST", "/api/ipam/vrfs/", {"name": "tf", "rd": None, "tenant": None, "tags": [], "export_targets": [], "import_targets": []})
    assert status == 201
    sent = {"prefix": "10.55.0.0/24", "status": "active", "description": "", "is_pool": False, "mark_utilized": False, "vrf": vrf["id"], "tenant": None,
            "site": None, "vlan": None, "role": None, "tags": [], "custom_fields": {}}
    status, prefix = curl("POST", "/api/ipam/prefixes/", sent)
    assert status == 201 and prefix["vrf"]["id"] == vrf["id"]
    status, put = curl("PUT", f"/api/ipam/prefixes/{prefix['id']}/", {**sent, "description": "changed", "status": "reserved"})
    assert status == 200 and (put["description"], put["status"]["value"]) == ("changed", "reserved")
    claimed = curl("POST", f"/api/ipam/prefixes/{prefix['id']}/available-ips/", [{"vrf": {"id": vrf["id"], "name": None, "rd": None}}])
    assert claimed[0] == 201 and claimed[1][0]["address"] == "10.55.0.1/24"
    address = {"address": "10.55.0.1/24", "status": "active", "dns_name": "tf.example", "description": "", "vrf": vrf["id"], "tenant": None, "role": "",
               "nat_inside": None, "nat_outside": [], "assigned_object_id": None, "assigned_object_type": None, "tags": []}
    assert curl("PUT", f"/api/ipam/ip-addresses/{claimed[1][0]['id']}/", address)[1]["dns_name"] == "tf.example"
    block = curl("POST", f"/api/ipam/prefixes/{prefix['id']}/available-prefixes/", [{"prefix_length": 28}])
    assert block[0] == 201 and block[1][0]["prefix"] == "10.55.0.0/28", block
    for path in (f"ip-addresses/{claimed[1][0]['id']}", f"prefixes/{block[1][0]['id']}", f"prefixes/{prefix['id']}", f"vrfs/{vrf['id']}"):
        assert curl("DELETE", f"/api/ipam/{path}/") == (204, None) and curl("GET", f"/api/ipam/{path}/")[0] == 404
