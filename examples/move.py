#!/usr/bin/env python3
"""Moves a register's space here from NetBox, from phpIPAM or from a spreadsheet: VRFs, roles, prefixes and addresses; and AS numbers and VLANs into pools.

    move.py netbox DIR [OPTIONS]         DIR has prefixes.json and ip-addresses.json, as NetBox's REST API answers them, and asn-ranges.json, asns.json,
                                         vlan-groups.json and vlans.json, if there are any
    move.py phpipam DIR [OPTIONS]        DIR has vrf.json, subnets.json and addresses.json, as phpIPAM's API answers them, and l2domains.json and
                                         vlans.json, if there are any
    move.py spreadsheet FILE [OPTIONS]   a CSV with some of the columns network, mask, name, use, status, remark, vlan, site, asn

--csv DIR writes a CSV file of each kind. --to URL makes the rows in the register that is served at URL, as http://127.0.0.1:8080, and --pools URL those of
the pools in what `poold` serves there: each row that is not there yet. What is refused is named on standard error, and the rest goes on; the status is 1
then. The same command again makes what is still missing. A VLAN without a group goes into one that is named for its site, else into --group NAME. AS numbers
go into --asn-range NAME. If the pools have a group or a range of this name, it keeps its bounds.
"""
import argparse
import csv
import ipaddress
import json
import os
import sys

import move_pools
from register import Refused, Register

COLUMNS = {
    "vrfs": ["name", "rd", "enforce_unique", "description"],
    "roles": ["name", "slug", "weight", "description"],
    "prefixes": ["prefix", "vrf", "status", "role", "is_pool", "mark_utilized", "description"],
    "ip-addresses": ["address", "vrf", "status", "role", "dns_name", "description"],
}
# The name of a row among the others of its kind.
KEYS = {"vrfs": ("name",), "roles": ("name",), "prefixes": ("prefix", "vrf"), "ip-addresses": ("address", "vrf")}


class Office:
    """What was read: rows by kind, with names in place of references, those of the pools too, and a count of what has no place here."""

    def __init__(self, group=None, asn_range=None):
        self.rows = {kind: [] for kind in COLUMNS}
        self.left_out = {}
        self.numbers = move_pools.Numbers(self.leave_out, group, asn_range)

    def add(self, kind, **row):
        self.rows[kind].append({name: row.get(name) for name in COLUMNS[kind] if row.get(name) not in (None, "")})

    def name(self, kind, name, **more):
        """Notes the VRF or the role of a row, once, and gives its name."""
        if name and not any(row["name"] == name for row in self.rows[kind]):
            self.add(kind, name=name, **more)
        return name or None

    def leave_out(self, what):
        self.left_out[what] = self.left_out.get(what, 0) + 1


def slug_of(name):
    return "".join(sign if sign.isalnum() and sign.isascii() else "-" for sign in name.lower())


def text_of(value):
    return " ".join(str(value or "").split())[:200]


# ---- NetBox: rows as its REST API answers them

NO_PLACE = ["tenant", "site", "scope", "vlan", "nat_inside", "assigned_object", "comments", "tags", "custom_fields"]


def answers_of(folder, name, member, needed=True):
    """The rows of an answer that was kept as a file; none if there is no such file, and it is not needed."""
    path = os.path.join(folder, name)
    if not needed and not os.path.exists(path):
        return []
    with open(path) as file:
        return json.load(file)[member]


def netbox_common(office, row):
    for name in NO_PLACE:
        if row.get(name):
            office.leave_out(name)
    vrf = row["vrf"] and office.name("vrfs", row["vrf"]["name"], rd=row["vrf"].get("rd"))
    return {"vrf": vrf, "status": row["status"]["value"], "description": text_of(row["description"])}


def read_netbox(office, folder):
    for row in answers_of(folder, "prefixes.json", "results"):
        role = row["role"] and office.name("roles", row["role"]["name"], slug=row["role"]["slug"])
        office.add("prefixes", prefix=row["prefix"], role=role, is_pool=row["is_pool"], mark_utilized=row["mark_utilized"], **netbox_common(office, row))
    for row in answers_of(folder, "ip-addresses.json", "results"):
        role = row["role"] and row["role"]["value"]
        office.add("ip-addresses", address=row["address"], role=role, dns_name=row["dns_name"], **netbox_common(office, row))
    move_pools.read_netbox(office.numbers, lambda kind: answers_of(folder, f"{kind}.json", "results", needed=False))


# ---- phpIPAM: subnets that name the subnet that they lie in, and addresses that name their subnet

TAGS = {"1": "deprecated", "2": "active", "3": "reserved", "4": "dhcp"}


def read_phpipam(office, folder):
    vrfs = {row["vrfId"]: office.name("vrfs", row["name"], rd=row["rd"], description=text_of(row["description"]))
            for row in answers_of(folder, "vrf.json", "data")}
    subnets = {row["id"]: row for row in answers_of(folder, "subnets.json", "data")}
    parents = {row["masterSubnetId"] for row in subnets.values()}
    for row in subnets.values():
        if row["isFolder"] == "1":
            office.leave_out("folder")
            continue
        office.add("prefixes", prefix=f"{row['subnet']}/{row['mask']}", vrf=vrfs.get(row["vrfId"]), status="container" if row["id"] in parents else "active",
                   mark_utilized=row["isFull"] == "1", is_pool=row["isPool"] == "1", description=text_of(row["description"]))
    for row in answers_of(folder, "addresses.json", "data"):
        subnet = subnets[row["subnetId"]]
        for name in ("mac", "owner", "note"):
            if row.get(name):
                office.leave_out(name)
        office.add("ip-addresses", address=f"{row['ip']}/{subnet['mask']}", vrf=vrfs.get(subnet["vrfId"]), status=TAGS[row["tag"]], dns_name=row["hostname"],
                   description=text_of(row["description"]))
    move_pools.read_phpipam(office.numbers, lambda kind: answers_of(folder, f"{kind}.json", "data", needed=False))


# ---- a spreadsheet: a line is a network, or one address where its mask is empty

SHEET = ("network", "mask", "name", "use", "status", "remark", "vlan", "site", "asn")
# The columns that say nothing of an AS number or a VLAN.
OF_A_NETWORK = {"mask", "use", "status", "remark"}
STATUSES = {"": "active", "used": "active", "reserved": "reserved", "old": "deprecated"}


def read_spreadsheet(office, path):
    networks = []
    with open(path, newline="", encoding="utf-8-sig") as file:
        lines = list(csv.DictReader(file))
    for line in lines:
        line = dict.fromkeys(SHEET, "") | {name.strip().lower(): (value or "").strip() for name, value in line.items()}
        for name in {*line} - {*SHEET} | (set() if line["network"] else OF_A_NETWORK) | (set() if line["vlan"] else {"site"}):
            if line[name]:
                office.leave_out(name)
        move_pools.read_line(office.numbers, line)
        if line["network"]:
            read_network(office, line, networks)


def read_network(office, line, networks):
    """A line of a spreadsheet that has a network or an address; `networks` are those of the lines before."""
    status, words = STATUSES[line["status"].lower()], text_of(line["remark"])
    if line["mask"]:
        # a mask is a length or a netmask; an address of the network stands often where its first one should
        network = ipaddress.ip_network(f"{line['network']}/{line['mask']}", strict=False)
        networks.append(network)
        role = office.name("roles", line["use"], slug=slug_of(line["use"]))
        office.add("prefixes", prefix=str(network), status=status, role=role, description=text_of(f"{line['name']} {words}"))
        return
    address = ipaddress.ip_address(line["network"])
    around = max((one for one in networks if address in one), key=lambda one: one.prefixlen, default=None)
    length = around.prefixlen if around else address.max_prefixlen
    office.add("ip-addresses", address=f"{address}/{length}", status=status, dns_name=line["name"], description=words)


# ---- what is done with it

def write_csv(office, folder):
    os.makedirs(folder, exist_ok=True)
    for kind, columns in COLUMNS.items():
        with open(os.path.join(folder, kind + ".csv"), "w", newline="") as file:
            writer = csv.DictWriter(file, columns, lineterminator="\n")
            writer.writeheader()
            for row in office.rows[kind]:
                writer.writerow({name: str(value).lower() if isinstance(value, bool) else value for name, value in row.items()})
    move_pools.write_csv(office.numbers, folder)


def key_of(kind, row):
    return tuple(row.get(name) for name in KEYS[kind])


def references(kind, row, ids):
    """The row with ids in place of the names of its VRF and its role; the role of an address is no row."""
    named = {name: ids[name + "s", row[name]] for name in ("vrf", "role") if name in row and not (kind == "ip-addresses" and name == "role")}
    return {**row, **named}


def make_all(office, register):
    """Makes what is not there, and gives how many rows were made, were there, and were refused."""
    ids, made, present, refused = {}, 0, 0, 0
    for kind, rows in office.rows.items():
        there = {key_of(kind, row): row["id"] for row in register.rows(kind)}
        for row in rows:
            try:
                row = references(kind, row, ids)
                number = there.get(key_of(kind, row))
                present += number is not None
                if number is None:
                    number = there[key_of(kind, row)] = register.make(kind, row)["id"]
                    made += 1
                ids[kind, row.get("name")] = number
            except Refused as refusal:
                refused += 1
                print(f"{kind} {row[KEYS[kind][0]]}: {refusal}", file=sys.stderr)
    return made, present, refused


def words():
    found = argparse.ArgumentParser(description=__doc__, formatter_class=argparse.RawDescriptionHelpFormatter)
    found.add_argument("source", choices=["netbox", "phpipam", "spreadsheet"])
    found.add_argument("path")
    for option in ("--csv", "--to", "--pools", "--group", "--asn-range"):
        found.add_argument(option)
    return found.parse_args()


def main():
    given, refused = words(), 0
    office = Office(given.group, given.asn_range)
    {"netbox": read_netbox, "phpipam": read_phpipam, "spreadsheet": read_spreadsheet}[given.source](office, given.path)
    office.numbers.close()
    rows = {**office.rows, **{kind: found for kind, found in office.numbers.rows.items() if found}}
    print(", ".join(f"{len(found)} {kind}" for kind, found in rows.items()))
    if office.left_out:
        print("left out: " + ", ".join(f"{what} of {count}" for what, count in sorted(office.left_out.items())))
    if given.csv:
        write_csv(office, given.csv)
    if given.pools:
        making = move_pools.make_all(office.numbers, Register(given.pools))
        print(f"pools: made {making.made}, present {making.present}, refused {making.refused}")
        refused += making.refused
    if given.to:
        made, present, wrong = make_all(office, Register(given.to))
        print(f"made {made}, present {present}, refused {wrong}")
        refused += wrong
    sys.exit(1 if refused else 0)


if __name__ == "__main__":
    main()
