"""The AS numbers and VLANs of a move (move.py): ranges and groups with what is given out of them, from the files of NetBox, phpIPAM or a spreadsheet, and
how they get into pools that `poold` serves."""
import csv
import os
import re
import sys
import unicodedata

from register import Refused

COLUMNS = {
    "asn-ranges": ["name", "start", "end"],
    "vlan-groups": ["name", "start", "end"],
    "asns": ["range", "asn", "name"],
    "vlans": ["group", "vid", "name"],
}
# Of members of a kind: the kind that gives them out, and how their rows name that and the number.
MEMBERS = {"asns": ("asn-ranges", "range", "asn"), "vlans": ("vlan-groups", "group", "vid")}
LAST_VLAN = 4094
LONGEST_NAME = 100


def name_of(value):
    return " ".join(str(value or "").split())[:LONGEST_NAME]


def slug_of(name):
    """The slug that NetBox makes of a name, as its form of the pools does (netbox/pool_rows.js)."""
    plain = unicodedata.normalize("NFKD", name).encode("ascii", "ignore").decode().lower()
    return re.sub(r"[ -]+", "-", re.sub(r"[^a-z0-9_ -]", "", plain)).strip("-_")


class Numbers:
    """Rows by kind, with names in place of references. `leave_out` counts what has no place."""

    def __init__(self, leave_out, group=None, asn_range=None):
        self.rows = {kind: [] for kind in COLUMNS}
        self.leave_out, self.group, self.asn_range = leave_out, name_of(group), name_of(asn_range)
        # ranges and groups that the source does not have, by kind and name: one of this name in the pools keeps its bounds
        self.made_up = set()

    def named(self, kind, name):
        return next((row for row in self.rows[kind] if row["name"] == name), None)

    def name_of(self, value):
        if len(str(value or "")) > LONGEST_NAME:
            self.leave_out("end of a name")
        return name_of(value)

    def add_range(self, kind, name, start, end):
        """A range or a group, and its name. NetBox may have two groups of one name, of two sites: the second is told apart by its number."""
        name, number = self.name_of(name), 2
        while self.named(kind, name):
            name, number = f"{name_of(name.rsplit(' #', 1)[0])[:90]} #{number}", number + 1
        self.rows[kind].append({"name": name, "start": start, "end": end})
        return name

    def make_up(self, kind, name, start, end):
        self.made_up.add((kind, self.add_range(kind, name, start, end)))

    def add_member(self, kind, within, number, name):
        """A member, once: a spreadsheet has a VLAN on the line of each of its networks."""
        _, owner, numbered = MEMBERS[kind]
        row = {owner: within, numbered: int(number), "name": self.name_of(name)}
        if row not in self.rows[kind]:
            self.rows[kind].append(row)

    def add_vlan(self, vid, name, group=None, site=None):
        """A VLAN of this group, else of one that is named for its site, else of the one that was asked for."""
        group = group or name_of(site) or self.group
        if not group:
            self.leave_out("VLAN without a group")
            return
        if not self.named("vlan-groups", group):
            self.make_up("vlan-groups", group, 1, LAST_VLAN)
        self.add_member("vlans", group, vid, name or f"VLAN {vid}")

    def add_asn(self, number, name):
        if not self.asn_range:
            self.leave_out("AS number without a range")
            return
        self.add_member("asns", self.asn_range, number, name)

    def close(self):
        """The range that was asked for, if the source has none of its name: from the least of its numbers to the greatest."""
        numbers = [row["asn"] for row in self.rows["asns"]]
        if numbers and not self.named("asn-ranges", self.asn_range):
            self.make_up("asn-ranges", self.asn_range, min(numbers), max(numbers))


# ---- what each source has

NO_PLACE = {
    "asn-ranges": ["rir", "tenant", "description", "comments", "tags", "custom_fields"],
    "asns": ["rir", "tenant", "comments", "tags", "custom_fields"],
    "vlan-groups": ["scope", "tenant", "description", "comments", "tags", "custom_fields"],
    "vlans": ["tenant", "role", "qinq_role", "qinq_svlan", "description", "l2vpn_termination", "comments", "tags", "custom_fields"],
}


def bounds_of(group):
    """The least and the greatest VLAN of a group: `vid_ranges` since NetBox 4.1, before that `min_vid` and `max_vid`."""
    ranges = group.get("vid_ranges") or [[group.get("min_vid", 1), group.get("max_vid", LAST_VLAN)]]
    return min(first for first, _ in ranges), max(last for _, last in ranges), len(ranges)


def read_netbox(numbers, rows_of):
    """Of NetBox, whose answers `rows_of` gives by kind."""
    for kind, fields in NO_PLACE.items():
        for row in rows_of(kind):
            for field in fields:
                if row.get(field):
                    numbers.leave_out(field)
            if row.get("slug") and row["slug"] != slug_of(row["name"]):
                numbers.leave_out("slug")
    for row in rows_of("asn-ranges"):
        numbers.add_range("asn-ranges", row["name"], row["start"], row["end"])
    groups = {}
    for row in rows_of("vlan-groups"):
        start, end, count = bounds_of(row)
        groups[row["id"]] = numbers.add_range("vlan-groups", row["name"], start, end)
        if count > 1:
            numbers.leave_out("gap of vid_ranges")
    for row in rows_of("asns"):
        numbers.add_asn(row["asn"], row["description"])
    for row in rows_of("vlans"):
        if row["status"]["value"] != "active":
            numbers.leave_out("status of a VLAN")
        if row["group"] and row["site"]:
            numbers.leave_out("site of a VLAN")
        numbers.add_vlan(row["vid"], row["name"], row["group"] and groups[row["group"]["id"]], row["site"] and row["site"]["name"])


def read_phpipam(numbers, rows_of):
    """Of phpIPAM: a group for each of its L2 domains."""
    for row in [*rows_of("l2domains"), *rows_of("vlans")]:
        for field in ("description", "customer_id"):
            if row.get(field):
                numbers.leave_out(field)
    domains = {row["id"]: numbers.add_range("vlan-groups", row["name"], 1, LAST_VLAN) for row in rows_of("l2domains")}
    for row in rows_of("vlans"):
        numbers.add_vlan(row["number"], row["name"], domains.get(row["domainId"]))


def read_line(numbers, line):
    """Of a line of a spreadsheet: its columns vlan, with site, and asn, if it has them."""
    if line.get("vlan"):
        numbers.add_vlan(line["vlan"], line["name"], site=line.get("site"))
    if line.get("asn"):
        numbers.add_asn(line["asn"], line["name"])


# ---- what is done with it

def write_csv(numbers, folder):
    """The files that `poold import` takes, if there is anything to write."""
    if not any(numbers.rows.values()):
        return
    for kind, columns in COLUMNS.items():
        with open(os.path.join(folder, kind + ".csv"), "w", newline="") as file:
            writer = csv.DictWriter(file, columns, lineterminator="\n")
            writer.writeheader()
            writer.writerows(numbers.rows[kind])


class Making:
    """Makes what is not there, and counts the rows that were made, were there, and were refused."""

    def __init__(self, register):
        self.register, self.made, self.present, self.refused = register, 0, 0, 0

    def make(self, path, row, there, sought):
        """Makes the row, unless one that has what is sought is there."""
        if any(sought.items() <= other.items() for other in there):
            self.present += 1
            return
        try:
            there.append(self.register.ask("POST", path, {name: value for name, value in row.items() if value != ""}))
            self.made += 1
        except Refused as refusal:
            self.refused += 1
            print(f"{path} {' '.join(str(value) for value in row.values())}: {refusal}", file=sys.stderr)

    def make_members(self, kind, row, ids, there):
        """A member, by the id of its range or group."""
        owners, owner, number = MEMBERS[kind]
        if row[owner] not in ids[owners]:
            self.refused += 1
            print(f"{kind} {row[number]}: no {owner} has the name {row[owner]}", file=sys.stderr)
            return
        path = f"{owners}/{ids[owners][row[owner]]}/{kind}/"
        if path not in there:
            there[path] = [{"name": "", **one} for one in self.register.ask("GET", path)]
        member = {number: row[number], "name": row["name"]}
        self.make(path, member, there[path], member)


def make_all(numbers, register):
    making, ids, there = Making(register), {}, {}
    for kind in ("asn-ranges", "vlan-groups"):
        rows = register.ask("GET", f"{kind}/")
        for row in numbers.rows[kind]:
            sought = {"name": row["name"]} if (kind, row["name"]) in numbers.made_up else row
            making.make(f"{kind}/", row, rows, sought)
        ids[kind] = {row["name"]: row["id"] for row in rows}
    for kind in MEMBERS:
        for row in numbers.rows[kind]:
            making.make_members(kind, row, ids, there)
    return making
