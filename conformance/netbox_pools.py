"""AS numbers and VLANs in NetBox's form, by requests over HTTP through nginx, and the break of what the handler asks besides a change. What has to be answered
is written by hand, in the form of NetBox 4.1."""
import json
import os
import subprocess

from conformance.netbox_front import TOP, Breaker, Front

ALL = {"description": "", "tags": [], "custom_fields": {}, "created": None, "last_updated": None}
GROUP = {"id": 2, "url": "/api/ipam/vlan-groups/2/", "display": "Floor 1", "name": "Floor 1", "slug": "floor-1", "description": ""}
RANGE = {"id": 1, "url": "/api/ipam/asn-ranges/1/", "display": "private (64512-64600)", "name": "private", "description": ""}
# by the path of the record what is posted, and what is answered
RECORDS = {
    "asn-ranges/1": ({"name": "private", "slug": "private", "rir": 1, "start": 64512, "end": 64600}, {
        "display": "private (64512-64600)", "name": "private", "slug": "private", "rir": None, "start": 64512, "end": 64600, "tenant": None}),
    "vlan-groups/2": ({"name": "Floor 1", "slug": "floor-1", "vid_ranges": [[10, 199]], "scope_type": None}, {
        "display": "Floor 1", "name": "Floor 1", "slug": "floor-1", "min_vid": 10, "max_vid": 199, "vid_ranges": [[10, 199]], "scope_type": None,
        "scope_id": None, "scope": None}),
    "asns/1": ({"asn": 64520, "rir": {"slug": "arin"}, "description": "edge"}, {
        "display": "AS64520", "asn": 64520, "rir": None, "range": RANGE, "description": "edge", "tenant": None, "comments": ""}),
    "vlans/2": ({"vid": 20, "name": "data", "group": {"slug": "floor-1"}, "status": "active", "site": None, "tenant": None, "role": None}, {
        "display": "data (20)", "vid": 20, "name": "data", "group": GROUP, "status": {"value": "active", "label": "Active"}, "site": None, "role": None,
        "tenant": None, "comments": "", "l2vpn_termination": None}),
}


def without_host(value, base):
    """The value with paths in place of links of this host."""
    return json.loads(json.dumps(value).replace(base, ""))


def records(front):
    """Each kind: POST, GET, a list."""
    front.want(201, "POST", "rirs/", {"name": "ARIN", "slug": "arin"})
    for path, (posted, told) in RECORDS.items():
        kind, number = path.split("/")
        wanted = {**ALL, "id": int(number), "url": f"/api/ipam/{path}/", "display_url": f"/web/#/{path}", **told}
        for got in (front.want(201, "POST", f"{kind}/", posted), front.want(200, "GET", f"{path}/"), front.want(200, "GET", f"{kind}/")["results"][0]):
            got = without_host(got, front.base)
            assert got == wanted, f"{kind}: {[(name, got.get(name), wanted.get(name)) for name in {*got, *wanted} if got.get(name) != wanted.get(name)]}"
    front.want(201, "POST", "asn-ranges/", {"name": "wide", "start": 65536, "end": 131072})
    assert front.want(201, "POST", "asns/", {"asn": 65537})["display"] == "AS65537 (1.1)"
    return f"{len(RECORDS)} kinds"


def requests(front):
    """What a request may name, and what it may not."""
    whole = front.want(200, "GET", "vlans/2/")
    flat = {**whole, "group": whole["group"]["id"], "status": "active", "name": "phones"}
    assert front.want(200, "PUT", "vlans/2/", flat)["name"] == "phones"
    assert front.want(200, "PATCH", "vlans/2/", {"name": "data", "vid": 20, "group": {"slug": "floor-1"}})["name"] == "data"
    assert front.want(200, "PATCH", "asns/1/", {"description": "edge 2"})["description"] == "edge 2"
    assert front.want(200, "PATCH", "asns/1/", {"description": ""})["description"] == ""
    assert front.want(200, "PATCH", "vlan-groups/2/", {"max_vid": 300})["vid_ranges"] == [[10, 300]]
    assert front.want(200, "PUT", "asn-ranges/1/", {"name": "private", "start": 64512, "end": 64700})["display"] == "private (64512-64700)"
    for method, path, body, name in (
            ("PATCH", "vlans/2/", {"vid": 21}, "vid"), ("PATCH", "vlans/2/", {"group": 3}, "group"), ("PATCH", "vlans/2/", {"status": "reserved"}, "status"),
            ("PATCH", "vlans/2/", {"role": 1}, "role"), ("PATCH", "asns/1/", {"asn": 64521}, "asn"), ("POST", "vlans/", {"vid": 30, "name": "x"}, "group"),
            ("POST", "vlans/", {"vid": 9, "name": "x", "group": 2}, "vid"), ("POST", "asns/", {"asn": 1}, "asn"), ("POST", "asns/", {"asn": 64521, "rir": 9}, "rir"),
            ("POST", "vlan-groups/", {"name": "a", "slug": "b"}, "slug"), ("POST", "vlan-groups/", {"name": "Floor 1"}, "name"),
            ("POST", "vlan-groups/", {"name": "a", "vid_ranges": [[1, 2], [4, 5]]}, "vid_ranges"), ("PATCH", "vlan-groups/2/", {"min_vid": 4095}, "vid_ranges"),
            ("POST", "asn-ranges/", {"name": "a", "start": 5, "end": 4}, "end")):
        said = front.want(400, method, path, body)
        assert list(said) == [name], (method, path, body, said)
    assert list(front.want(400, "POST", "vlans/", {"vid": 20, "name": "x", "group": 2})) == ["vid"]
    assert "detail" in front.want(409, "PATCH", "vlan-groups/2/", {"vid_ranges": [[10, 19]]})
    assert "detail" in front.want(409, "DELETE", "vlan-groups/2/")
    assert front.want(400, "POST", "vlans/", [{"vid": 40, "name": "x", "group": 2}, {"vid": 41, "name": "x", "group": 2}])["detail"]
    inner = front.want(201, "POST", "asn-ranges/", {"name": "inner", "start": 64530, "end": 64539})
    for asn, owner in ((64535, "inner"), (64540, "private")):
        made = front.want(201, "POST", "asns/", {"asn": asn})
        assert made["range"]["name"] == owner, made
        front.want(204, "DELETE", f"asns/{made['id']}/")
    front.want(204, "DELETE", f"asn-ranges/{inner['id']}/")
    one, = front.want(201, "POST", "vlans/", [{"vid": 40, "name": "x", "group": 2}])
    front.want(204, "DELETE", f"vlans/{one['id']}/")
    front.want(404, "GET", f"vlans/{one['id']}/")


def free(front):
    """Free numbers are objects; claimed records have their own links."""
    group = {**GROUP, "url": front.base + GROUP["url"]}
    assert front.want(200, "GET", "vlan-groups/2/available-vlans/?limit=2") == [{"vid": 10, "group": group}, {"vid": 11, "group": group}]
    assert front.want(200, "GET", "asn-ranges/1/available-asns/?limit=1") == [{"asn": 64512, "rir": None}]
    one = front.want(201, "POST", "vlan-groups/2/available-vlans/", {"name": "voice", "group": 2})
    assert (one["vid"], one["url"]) == (10, f"{front.base}/api/ipam/vlans/{one['id']}/") and front.want(200, "GET", f"vlans/{one['id']}/") == one
    assert [it["vid"] for it in front.want(201, "POST", "vlan-groups/2/available-vlans/", [{"name": "a"}, {"name": "b"}])] == [11, 12]
    assert [it["asn"] for it in front.want(201, "POST", "asn-ranges/1/available-asns/", [{}, {"rir": 1}])] == [64512, 64513]
    assert list(front.want(400, "POST", "vlan-groups/2/available-vlans/", {"name": "x", "group": 1})) == ["group"]
    assert list(front.want(400, "POST", "asn-ranges/1/available-asns/", {"description": "x"})) == ["description"]


def filters(front):
    """Pages and filters of each kind."""
    for query, vids in (("vid=20", [20]), ("vid=20&vid=10", [20, 10]), ("name=voice", [10]), ("group_id=2&name=a", [11]), ("group=floor-1&vid=12", [12]),
                        ("group_id=3", []), ("status=active&vid=11", [11]), ("q=voi", [10]), ("id=2", [20]), ("limit=2&offset=1", [10, 11])):
        assert [one["vid"] for one in front.want(200, "GET", "vlans/?" + query)["results"]] == vids, query
    for query, asns in (("asn=64520", [64520]), ("range_id=1&limit=2", [64520, 64512]), ("asn=1", [])):
        assert [one["asn"] for one in front.want(200, "GET", "asns/?" + query)["results"]] == asns, query
    for path, count in (("vlan-groups/?slug=floor-1", 1), ("vlan-groups/?name=floor 1", 0), ("vlan-groups/?min_vid=10", 1), ("asn-ranges/?name=wide", 1),
                        ("asn-ranges/?start=64512&end=64700", 1), ("asn-ranges/?brief=true", 2)):
        assert front.want(200, "GET", path.replace(" ", "%20"))["count"] == count, path
    assert list(front.want(400, "GET", "vlans/?site=1")) == ["site"] and list(front.want(400, "GET", "vlans/?vid=x")) == ["vid"]
    page = front.want(200, "GET", "asn-ranges/?limit=1")
    assert page["count"] == 2 and page["next"] == f"{front.base}/api/ipam/asn-ranges/?limit=1&offset=1"


def broken(front):
    """A change of poold has its status, whatever becomes of the further request; one that can't be prepared is not made."""
    front.pool_breaker.breaks = ("/api/ipam/vlan-groups/2/", "/api/ipam/vlan-groups/?")
    for mode in Breaker.MODES:
        front.pool_breaker.mode = mode
        made = front.want(201, "POST", "vlans/", {"vid": 50, "name": "x", "group": 2})
        assert made["vid"] == 50 and made["group"]["id"] == 2, (mode, made)
        front.want(204, "DELETE", f"vlans/{made['id']}/")
        before = front.pool_breaker.changes
        assert front.ask("POST", "vlans/", {"vid": 50, "name": "x", "group": {"slug": "floor-1"}}).status >= 400 and front.pool_breaker.changes == before, mode
    front.pool_breaker.mode = None
    return f"{len(Breaker.MODES)} ways"


def without(port):
    """Without poold its kinds are 502, and the others are served."""
    with Front(port) as front:
        assert "detail" in front.want(502, "GET", "vlans/") and front.want(200, "GET", "prefixes/")["count"] == 0


def run(command, front):
    done = subprocess.run(command, cwd=TOP, stdin=subprocess.DEVNULL, stdout=subprocess.PIPE, stderr=subprocess.STDOUT, text=True, check=False,
                          env={**os.environ, "REQUESTS_CA_BUNDLE": front.certificate(), "ANSIBLE_NOCOLOR": "1"})
    assert done.returncode == 0, f"status {done.returncode}: {done.stdout[-1500:]}"
    return done.stdout.rstrip("\n").split("\n")


def pynetbox(port):
    with Front(port, pools=True) as front:
        return run(["/usr/bin/python3", "examples/client_pools.py", front.base, front.token], front)[-1]


def plays(port):
    """Groups and VLANs by Ansible: made, changed and removed, and a second run of each changes nothing."""
    with Front(port, pools=True) as front:
        words = ["-e", f"url={front.base}", "-e", f"token={front.token}"]
        for play, changed, groups, left in (("pools", 4, ["office", "Second floor"], [("office", 10, "voice"), ("office", 20, "data")]),
                                            ("pools_changed", 3, ["office"], [("office", 10, "phones")])):
            for expected in (changed, 0):
                said = run(["ansible-playbook", f"conformance/plays/{play}.yml", *words], front)[-2:]
                assert any(f"changed={expected} " in line and "failed=0" in line for line in said), (play, said)
            vlans = front.want(200, "GET", "vlans/")["results"]
            assert [(one["group"]["name"], one["vid"], one["name"]) for one in vlans] == left, vlans
            assert [one["name"] for one in front.want(200, "GET", "vlan-groups/")["results"]] == groups
