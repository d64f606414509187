#!/usr/bin/python3
"""What pynetbox does with AS numbers and VLANs behind nginx, as over NetBox (Debian's python3-pynetbox 7.0.0). It wants empty pools.

    REQUESTS_CA_BUNDLE=register.pem /usr/bin/python3 examples/client_pools.py https://register.example.net TOKEN
"""
import sys

import pynetbox
from pynetbox.core.endpoint import DetailEndpoint


def raises(what, call):
    """That the call raises this, and what it says."""
    try:
        call()
    except what as fault:
        return str(fault)
    sys.exit(f"client_pools: {what.__name__} was to come")


def groups(ipam):
    """Ranges and groups are made, found, changed and removed."""
    private = ipam.asn_ranges.create(name="private", slug="private", start=64512, end=64514)
    floor = ipam.vlan_groups.create(name="Floor 1", slug="floor-1", vid_ranges=[[10, 12]])
    spare = ipam.vlan_groups.create(name="spare", slug="spare", min_vid=1, max_vid=2)
    assert (private.display, str(floor), floor.vid_ranges) == ("private (64512-64514)", "Floor 1", [[10, 12]])
    assert ipam.vlan_groups.get(slug="floor-1").id == floor.id and ipam.vlan_groups.get(floor.id).name == "Floor 1"
    assert ipam.asn_ranges.get(name="other") is None and ipam.vlan_groups.count() == 2
    assert spare.update({"name": "more"}) and ipam.vlan_groups.get(spare.id).slug == "more" and spare.delete()
    private.end = 64600
    assert private.save() and ipam.asn_ranges.get(private.id).end == 64600
    print("ranges and groups: made, found, changed and removed")
    return private, floor


def numbers(ipam, private, floor):
    """Numbers in use are recorded, free ones listed and claimed, and given back by delete()."""
    data = ipam.vlans.create(vid=11, name="data", group=floor.id, status="active")
    edge = ipam.asns.create(asn=64513, description="edge")
    assert (data.display, str(data.group), str(edge), edge.description) == ("data (11)", "Floor 1", "AS64513", "edge")
    assert [one.vid for one in floor.available_vlans.list()] == [10, 12]
    voice = floor.available_vlans.create({"name": "voice"})
    assert (str(voice), voice.vid, voice.group.id) == ("voice", 10, floor.id)
    available = DetailEndpoint(private, "available-asns")
    assert [one["asn"] for one in available.list()][:2] == [64512, 64514]
    assert [one["asn"] for one in available.create([{}, {}])] == [64512, 64514]
    assert [one.asn for one in ipam.asns.filter(range_id=private.id)] == [64513, 64512, 64514]
    voice.name = "phones"
    assert voice.save() and ipam.vlans.get(vid=10, group_id=floor.id).name == "phones" and ipam.vlans.get(group="floor-1", name="data").vid == 11
    assert ipam.vlans.update([voice]) and len(list(ipam.vlans.all())) == 2
    assert "is that of member" in raises(pynetbox.RequestError, lambda: ipam.vlans.create(vid=10, name="x", group=floor.id))
    raises(pynetbox.RequestError, floor.delete)
    assert ipam.vlans.create(vid=12, name="last", group=floor.id)
    raises(pynetbox.AllocationError, lambda: floor.available_vlans.create({"name": "none is free"}))
    assert all(one.delete() for one in ipam.vlans.all()) and ipam.vlans.count() == 0 and ipam.vlan_groups.count() == 1
    edge.description = "edge 2"
    assert edge.save() and ipam.asns.get(asn=64513).description == "edge 2" and ipam.asns.update([{"id": edge.id, "description": "edge"}])
    assert edge.delete() and [one.asn for one in ipam.asns.all()] == [64512, 64514] and ipam.asns.count() == 2
    assert all(one.delete() for one in (*ipam.asns.all(), private, floor)) and ipam.asn_ranges.count() == ipam.vlan_groups.count() == 0
    print("numbers: recorded, listed, claimed, renamed and given back; delete() of a VLAN leaves its group")


def main():
    if len(sys.argv) != 3:
        sys.exit("usage: client_pools.py URL TOKEN")
    ipam = pynetbox.api(sys.argv[1], token=sys.argv[2]).ipam
    numbers(ipam, *groups(ipam))
    print("client_pools: all as it should be")


if __name__ == "__main__":
    main()
