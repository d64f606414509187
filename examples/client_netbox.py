#!/usr/bin/python3
"""What pynetbox does with a register behind nginx (Debian's python3-pynetbox 7.0.0, examples/nginx-ipamd.conf), as with NetBox: each kind of record, claims,
filters and refusals, and that a claimed address is never taken for another record. It needs an empty register and a token.

    REQUESTS_CA_BUNDLE=register.pem /usr/bin/python3 examples/client_netbox.py https://register.example.net TOKEN
"""
import sys

import pynetbox

MANY = 2500
# of each kind a record, what it is shown as, and a change of it
KINDS = [
    ("vrfs", {"name": "guests", "rd": "65000:10"}, "guests", {"description": "visitors"}),
    ("rirs", {"name": "RIPE NCC", "slug": "ripe-ncc", "is_private": False}, "RIPE NCC", {"is_private": True}),
    ("roles", {"name": "Office LAN", "slug": "office-lan"}, "Office LAN", {"weight": 200}),
    ("aggregates", {"prefix": "10.0.0.0/8", "rir": {"slug": "ripe-ncc"}}, "10.0.0.0/8", {"description": "all"}),
    ("prefixes", {"prefix": "10.20.0.0/24", "vrf": {"name": "guests"}, "role": {"slug": "office-lan"}}, "10.20.0.0/24", {"status": "reserved"}),
    ("ip_ranges", {"start_address": "10.20.0.100/24", "end_address": "10.20.0.199/24", "vrf": {"rd": "65000:10"}}, "10.20.0.100-199/24",
     {"mark_utilized": True}),
    ("ip_addresses", {"address": "10.20.0.1/24", "vrf": {"name": "guests"}, "role": "vip"}, "10.20.0.1/24", {"dns_name": "gw.example.net"}),
]
# of each kind one to be deleted
REMOVED = [
    ("vrfs", {"name": "old"}), ("rirs", {"name": "old", "slug": "old"}), ("roles", {"name": "old", "slug": "old"}),
    ("aggregates", {"prefix": "192.0.2.0/24", "rir": {"slug": "ripe-ncc"}}), ("prefixes", {"prefix": "192.0.2.0/24"}),
    ("ip_ranges", {"start_address": "192.0.2.10/24", "end_address": "192.0.2.19/24"}), ("ip_addresses", {"address": "192.0.2.1/24"}),
]


def raises(what, call):
    """That the call raises this, and what it says."""
    try:
        call()
    except what as fault:
        return str(getattr(fault, "error", fault))
    sys.exit(f"client_netbox: {what.__name__} did not come")


def value_of(member):
    """A choice by its value."""
    return getattr(member, "value", member)


def version(nb, url):
    """The version, the status, choices, tokens."""
    assert nb.version == "4.1" and nb.status() == {"netbox-version": "4.1.0"}
    choices = nb.ipam.ip_addresses.choices()
    assert [one["value"] for one in choices["status"]] == ["active", "reserved", "deprecated", "dhcp", "slaac"] and len(choices["role"]) == 8
    assert [one["display_name"] for one in nb.ipam.prefixes.choices()["status"]] == ["Container", "Active", "Reserved", "Deprecated"]
    assert len(nb.ipam.ip_ranges.choices()["status"]) == 3
    assert nb.ipam.vrfs.choices() == nb.ipam.rirs.choices() == nb.ipam.roles.choices() == nb.ipam.aggregates.choices() == {}
    for token in (None, "0" * 40):
        stranger = pynetbox.api(url, token=token)
        raises(pynetbox.RequestError, stranger.ipam.prefixes.count)
        raises(pynetbox.RequestError, stranger.status)
        assert stranger.version == "4.1"
    print("version, status and choices; no token and a wrong one: RequestError")


def records(ipam):
    """Each kind: create, get, all, filter, count, str, update, save, update of a list."""
    for kind, made, shown, change in KINDS:
        endpoint = getattr(ipam, kind)
        record = endpoint.create(made)
        assert str(record) == shown and record.endpoint.name == kind.replace("_", "-"), (kind, str(record))
        again = endpoint.get(record.id)
        assert dict(again) == dict(record) and str(again) == shown and endpoint.get(99) is None
        assert [dict(one) for one in endpoint.all()] == [dict(one) for one in endpoint.filter(id=[record.id, 99])] == [dict(record)]
        assert endpoint.count() == 1 == len(endpoint.filter(shown.split("-")[0])) and endpoint.count(id=99) == 0
        (name, value), = change.items()
        assert again.update(change) and value_of(getattr(endpoint.get(record.id), name)) == value
        again.description = "changed"
        assert again.save() and endpoint.get(record.id).description == "changed"
        record = endpoint.get(record.id)
        record.description = "again"
        assert [one.description for one in endpoint.update([record])] == ["again"] and endpoint.update([{"id": record.id, "description": ""}])
        print(f"{kind}: create, get, all, filter, count, str, update, save")


def references(ipam):
    """A reference is a record; its members are read without a further request, others by one."""
    prefix, span, address = ipam.prefixes.get(1), ipam.ip_ranges.get(1), ipam.ip_addresses.get(1)
    assert prefix.vrf.name == span.vrf.name == address.vrf.name == "guests" and prefix.vrf.rd == "65000:10" and prefix.vrf.enforce_unique
    assert str(prefix.role) == "Office LAN" and prefix.role.slug == "office-lan" and str(ipam.aggregates.get(1).rir) == "RIPE NCC"
    assert prefix.family.value == 4 and prefix.family.label == "IPv4" and prefix.tags == [] and prefix.tenant is None
    assert prefix.vrf == ipam.vrfs.get(1) and prefix.status.label == "Reserved" and address.role.label == "VIP"
    prefix.vrf = None
    assert prefix.save() and ipam.prefixes.get(1).vrf is None and ipam.prefixes.get(1).update({"vrf": 1}) and ipam.prefixes.get(1).vrf.id == 1
    print("references: record.vrf.name, record.role.slug, aggregate.rir")


def claims(ipam):
    """What is free is listed and claimed; a claimed record is what it is, and no record is taken for another."""
    office = ipam.prefixes.get(1)
    free = office.available_ips.list()
    assert str(free[0]) == "10.20.0.2/24" and free[0].family == 4 and free[0].vrf.name == "guests"
    assert [str(one) for one in office.available_prefixes.list()] == ["10.20.0.0/24"]
    others = [ipam.prefixes.create(prefix=f"10.9{n}.0.0/24") for n in range(6)]
    address = office.available_ips.create({"dns_name": "a.example.net"})
    more = office.available_ips.create([{}, {"description": "printer"}])
    assert [str(one) for one in (address, *more)] == ["10.20.0.2/24", "10.20.0.3/24", "10.20.0.4/24"]
    taken = ipam.ip_ranges.get(1).available_ips.create()
    assert str(taken) == "10.20.0.100/24" and {one.endpoint.name for one in (address, *more, taken)} == {"ip-addresses"}
    before = [dict(one) for one in ipam.prefixes.all()]
    # the prefixes and the range with the numbers of these addresses are there, and stay as they are
    assert all(ipam.prefixes.get(one.id) for one in (address, *more, taken))
    address.description = "claimed"
    assert address.save() and ipam.ip_addresses.get(address.id).description == "claimed"
    assert address.delete() and more[0].delete() and taken.delete() and ipam.ip_addresses.get(taken.id) is None
    assert [dict(one) for one in ipam.prefixes.all()] == before and ipam.ip_ranges.get(1)
    block = office.available_prefixes.create({"prefix_length": 26})
    assert str(block) == "10.20.0.0/26" and block.endpoint.name == "prefixes" and block.update({"description": "claimed"}) and block.delete()
    raises(pynetbox.AllocationError, lambda: office.available_prefixes.create([{"prefix_length": 25}] * 3))
    assert ipam.prefixes.delete([others[0]]) and ipam.prefixes.get(others[0].id) is None
    print("claims: available_ips and available_prefixes, of prefixes and ranges; save() and delete() of a claimed record act on that record")


def found(ipam):
    """Filters, also several of one name."""
    assert [one.id for one in ipam.ip_addresses.filter(address="10.20.0.1/24", vrf_id=1)] == [1] == [one.id for one in ipam.ip_addresses.filter(address="10.20.0.1")]
    assert ipam.ip_addresses.get(address="10.20.0.1/25") is None and ipam.ip_addresses.get(address=["10.20.0.1/24", "10.1.1.1"]).id == 1
    assert ipam.vrfs.get(rd="65000:10").name == "guests" and ipam.roles.get(slug="office-lan").id == 1 == ipam.aggregates.get(prefix="10.0.0.0/8").id
    assert ipam.prefixes.get(vrf="65000:10", role="office-lan").id == 1 and ipam.prefixes.count(status=["active", "reserved"]) == 6
    assert ipam.prefixes.count(mask_length=24, is_pool=False) == 6 and ipam.ip_ranges.get(start_address="10.20.0.100").id == 1
    assert ipam.prefixes.get(q="10.20.0.77").id == 1 and ipam.ip_addresses.get(q="GW.EXAMPLE").id == 1
    for name in ("tenant", "site_id", "description__ic", "cf_x"):
        assert f"filter {name} is not served" in raises(pynetbox.RequestError, lambda: ipam.prefixes.count(**{name: "1"}))
    print("filters: by address, rd, slug, prefix, length, q, several of one name; others: RequestError")


def refused(ipam):
    """Refusals, and that what is refused changes nothing."""
    told = raises(pynetbox.RequestError, lambda: ipam.prefixes.create(prefix="10.20.0.0/24", vrf=1))
    assert told == '{"prefix":["coincides with 1"]}', told
    assert raises(pynetbox.RequestError, lambda: ipam.prefixes.create(prefix="10.98.0.0/24", vrf={"name": "none"})).startswith('{"vrf":["Related object not found')
    assert raises(pynetbox.RequestError, lambda: ipam.prefixes.create(prefix="10.98.0.0/24", tenant=1, tags=["x"])) == \
        '{"tenant":["the register has no tenant here"],"tags":["the register has no tags here"]}'
    assert "exactly one record" in raises(pynetbox.RequestError, lambda: ipam.prefixes.create([{"prefix": "10.97.0.0/24"}, {"prefix": "10.98.0.0/24"}]))
    assert "exactly one record" in raises(pynetbox.RequestError, lambda: ipam.prefixes.delete([1, 2]))
    assert "named by" in raises(pynetbox.RequestError, ipam.vrfs.get(1).delete)
    raises(pynetbox.RequestError, lambda: list(ipam.vlans.all()))
    assert ipam.prefixes.count(prefix=["10.97.0.0/24", "10.98.0.0/24"]) == 0 and ipam.prefixes.get(1)
    print("refusals: by the name of the member; several records in one request, other kinds: RequestError, and nothing is changed")


def pages(ipam):
    """All of many records, page after page."""
    net = ipam.prefixes.create(prefix="10.40.0.0/16")
    for _ in range(MANY // 500):
        net.available_ips.create([{} for _ in range(500)])
    there = ipam.ip_addresses.count()
    ids = [one.id for one in ipam.ip_addresses.all()]
    assert there > MANY and len(ids) == there and ids == sorted(set(ids))
    assert len({one.id for one in ipam.ip_addresses.filter(parent="10.40.0.0/16")}) == MANY
    found = [one.id for one in ipam.ip_addresses.filter(parent="10.40.0.0/16", mask_length=16, status=["active", "dhcp"])]
    assert len(found) == MANY and found == sorted({*found})
    print(f"pages: all() and filter() give {there} and {MANY} addresses")


def deleted(ipam):
    """Of each kind a record is deleted by itself and by its endpoint, and no other record with it."""
    for kind, made in REMOVED:
        endpoint = getattr(ipam, kind)
        before = {name: getattr(ipam, name).count() for name, _ in REMOVED}
        record = endpoint.create(made)
        assert endpoint.count() == before[kind] + 1 and record.delete() is True and endpoint.get(record.id) is None
        record = endpoint.create(made)
        assert endpoint.delete([record]) and endpoint.get(record.id) is None
        assert {name: getattr(ipam, name).count() for name, _ in REMOVED} == before, kind
    print("delete() of each kind: that record and no other")


def main():
    if len(sys.argv) != 3:
        sys.exit("usage: client_netbox.py URL TOKEN")
    nb = pynetbox.api(sys.argv[1], token=sys.argv[2])
    if nb.ipam.vrfs.count() or nb.ipam.prefixes.count():
        sys.exit("client_netbox: the register is not empty")
    version(nb, sys.argv[1])
    records(nb.ipam)
    references(nb.ipam)
    claims(nb.ipam)
    found(nb.ipam)
    refused(nb.ipam)
    pages(nb.ipam)
    deleted(nb.ipam)
    print(f"client_netbox: all as it should be, with pynetbox {pynetbox.__version__}")


if __name__ == "__main__":
    main()
