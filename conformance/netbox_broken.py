"""NetBox's form while the requests that the handler makes next to a change fail: the client gets the status of the change, which is there once; and while
pages of a list are of different moments."""
from conformance.netbox_front import Breaker, Front

FURTHER = ("/api/ipam/vrfs/", "/api/ipam/roles/", "/api/ipam/rirs/")


def setting(front):
    front.want(201, "POST", "vrfs/", {"name": "guests"})
    front.want(201, "POST", "roles/", {"name": "LAN", "slug": "lan"})
    front.want(201, "POST", "rirs/", {"name": "ARIN", "slug": "arin"})
    front.want(201, "POST", "prefixes/", {"prefix": "10.0.0.0/16", "vrf": 1, "role": 1})
    front.want(201, "POST", "ip-ranges/", {"start_address": "10.9.0.1/24", "end_address": "10.9.0.200/24", "vrf": 1})


def bare(front, kind):
    """A reference whose record could not be read."""
    return {"id": 1, "url": f"{front.base}/api/ipam/{kind}/1/"}


def changes(front):
    """Every change with a reference, with each way in which the further request can fail."""
    setting(front)
    for n, mode in enumerate(Breaker.MODES):
        front.breaker.mode, front.breaker.breaks = mode, FURTHER
        steps = [
            (201, "POST", "prefixes/", {"prefix": f"10.{n + 20}.0.0/24", "vrf": 1, "role": 1}),
            (201, "POST", "aggregates/", {"prefix": f"{n + 20}.0.0.0/8", "rir": 1}),
            (201, "POST", "prefixes/", [{"prefix": f"10.{n + 20}.1.0/24", "vrf": {"id": 1}}]), (200, "PATCH", "prefixes/1/", {"description": mode}),
            (200, "PUT", "prefixes/1/", {"prefix": "10.0.0.0/16", "description": mode + "!"}), (200, "PATCH", "prefixes/", [{"id": 1, "is_pool": n % 2 == 0}]),
            (201, "POST", "prefixes/1/available-ips/", {}), (201, "POST", "prefixes/1/available-ips/", [{}, {"dns_name": f"m{n}"}]),
            (201, "POST", "ip-ranges/1/available-ips/", {}), (201, "POST", "prefixes/1/available-prefixes/", {"prefix_length": 28, "role": 1}),
        ]
        for status, method, path, body in steps:
            counts = {kind: front.plain.ask("GET", f"/api/ipam/{kind}/?limit=1").value["count"] for kind in ("prefixes", "aggregates", "ip-addresses")}
            made = front.breaker.changes
            told = front.want(status, method, path, body)
            assert front.breaker.changes == made + 1, f"{mode}: {method} {path}: {front.breaker.changes - made} changes"
            rows = told if isinstance(told, list) else [told]
            assert isinstance(told, list) == isinstance(body, list)
            for row in rows:
                kind = row["url"].split("/")[-3]
                assert row.get("vrf", bare(front, "vrfs")) == bare(front, "vrfs") and row.get("rir", bare(front, "rirs")) == bare(front, "rirs"), row
                assert front.plain.ask("GET", f"/api/ipam/{kind}/{row['id']}/").status == 200
            if status == 201:
                counts[kind] += len(rows)
            there = {kind: front.plain.ask("GET", f"/api/ipam/{kind}/?limit=1").value["count"] for kind in counts}
            assert there == counts, f"{mode}: {method} {path}: {there} in place of {counts}"
        assert front.plain.ask("GET", "/api/ipam/prefixes/1/").value["description"] == mode + "!"
        assert front.want(200, "GET", "prefixes/1/")["vrf"] == bare(front, "vrfs") and front.want(200, "GET", "prefixes/")["count"] > 3
    front.breaker.mode = None
    return f"{len(Breaker.MODES)} faults, {len(steps)} changes with each"


def before(front):
    """What has to be read before a change cannot be: nothing is changed."""
    for mode in Breaker.MODES:
        front.breaker.mode, front.breaker.breaks = mode, FURTHER + ("/api/ipam/prefixes/1/",)
        made = front.breaker.changes
        for method, path, body in (("POST", "prefixes/", {"prefix": "10.99.0.0/24", "vrf": {"name": "guests"}}),
                                   ("POST", "prefixes/1/available-ips/", {"vrf": 1}), ("PATCH", "prefixes/1/", {"role": {"slug": "lan"}})):
            answer = front.ask(method, path, body)
            assert answer.status >= 400 and isinstance(answer.value, dict), f"{mode}: {method} {path}: {answer.status} {answer.text[:200]}"
        assert front.breaker.changes == made
    front.breaker.mode = None


def unanswered(front):
    """The register does not answer a change, or answers what is no JSON."""
    front.breaker.breaks = ("/api/ipam/",)
    for mode, status in (("a closed connection", 502), ("no JSON", 200), ("another JSON", 200), ("half an answer", 200)):
        front.breaker.mode_of_changes = mode
        made = front.breaker.changes
        answer = front.ask("POST", "prefixes/", {"prefix": "10.98.0.0/24"})
        said = "ask whether it was made" if status == 502 else "the change was made"
        assert answer.status == status and said in answer.value["detail"] and front.breaker.changes == made + 1, (mode, answer.status, answer.text[:200])
        assert answer.headers["Content-Type"] == "application/json"
    front.breaker.mode_of_changes = None


def late(port):
    """The register does not answer in time: 504 for what was asked; a change that it answered has its status."""
    with Front(port, read_timeout="1s") as front:
        setting(front)
        front.breaker.mode, front.breaker.breaks = "silence", FURTHER
        made = front.want(201, "POST", "prefixes/1/available-ips/", {})
        assert made["vrf"] == bare(front, "vrfs"), made
        for path in ("/api/ipam/vrfs/1/", "/register/api/ipam/vrfs/1/"):
            answer = front.link.ask("GET", path)
            assert answer.status == 504 and "in time" in answer.value["detail"], (answer.status, answer.text)
        front.breaker.mode_of_changes = "silence"
        before = front.breaker.changes
        answer = front.ask("POST", "prefixes/1/available-ips/", {})
        assert answer.status == 504 and "ask whether it was made" in answer.value["detail"] and front.breaker.changes == before + 1


def missing(front):
    """What docs/CLIENTS.md says of what is not there, and of the views."""
    for path in ("route-targets/", "services/", "fhrp-groups/", "../dcim/sites/", "../tenancy/tenants/", "../extras/tags/",
                 "../graphql/", "../schema/", "../users/users/", "../docs/"):
        assert "detail" in front.want(404, "GET", path), path
    for name in ("tenant", "tags", "comments", "custom_fields", "nat_inside", "site", "vlan"):
        assert front.want(400, "PATCH", "prefixes/1/", {name: [1]}) == {name: [f"the register has no {name} here"]}
    for name in ("tenant", "tag", "description__ic", "created", "site_id", "vrf__n"):
        assert front.want(400, "GET", f"prefixes/?{name}=x") == {name: [f"filter {name} is not served for prefixes"]}
    made = front.want(200, "GET", "prefixes/1/")
    assert front.want(200, "GET", "prefixes/1/?format=json&ordering=id") == made and made["created"] is None and "prefix_count" not in made
    brief = {name: made[name] for name in ("id", "url", "display", "description", "family", "prefix", "_depth")}
    assert front.want(200, "GET", "prefixes/1/?brief=true") == brief == front.want(200, "GET", "prefixes/?id=1&brief=1")["results"][0]
    assert front.want(200, "GET", "prefixes/?id=1&fields=id,vrf")["results"] == [{"id": 1, "vrf": made["vrf"]}]
    for query in ("format=csv", "ordering=prefix", "ordering=-id"):
        assert list(front.want(400, "GET", f"prefixes/?{query}")) == [query.split("=")[0]]
    front.breaker.mode, front.breaker.breaks = "20,001 records", ("/api/ipam/prefixes/?",)
    assert "more than 20000 records" in front.want(400, "GET", "prefixes/?q=x")["detail"]
    assert front.want(200, "GET", "prefixes/?status=active")["count"] == 20001
    front.breaker.mode = None


def long(front):
    """A search through as many records as are read at most."""
    front.breaker.many, front.breaker.breaks = 20_000, ()
    two = [*range(1, 257), *range(769, 1025)]
    for query, ids in (("q=number", range(1, 20_001)), ("q=number 77", [n + 1 for n in range(20_000) if str(n).startswith("77")]),
                       ("mask_length=24&q=10.7.7.7", [7 * 256 + 8]), ("within=10.0.0.0/16&within=10.3.0.0/16&is_pool=false", two)):
        found, target = [], "/api/ipam/prefixes/?limit=0&" + query.replace(" ", "%20")
        while target:
            page = front.link.ask("GET", target).value
            assert page["count"] == len(ids), (query, page["count"], len(ids))
            found += [one["id"] for one in page["results"]]
            target = page["next"] and len(found) < 2000 and page["next"][len(front.base):]
        assert found == [*ids][:len(found)] and len(found) in (len(ids), 2000), query
    front.breaker.many = 20_001
    assert "more than 20000 records" in front.want(400, "GET", "prefixes/?q=number")["detail"]
    front.breaker.many = 0


def moments(front):
    """Pages whose `Ipam-Place` differ are read again, three times, then 503."""
    for moved, status in ((0, 200), (2, 200), (4, 200), (6, 503)):
        front.breaker.moved = moved
        answer = front.ask("GET", "prefixes/?id=1&id=2&id=3")
        assert answer.status == status and front.breaker.moved == 0, f"{moved} pages: {answer.status} {answer.text[:200]}"
    assert "try again" in answer.value["detail"]
