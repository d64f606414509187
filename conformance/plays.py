"""Ansible's collection netbox.netbox over a register behind nginx: examples/ansible-ipam.yml and conformance/plays/. Each play is run twice. It has to change what
it says and no other record, the first time alone but for claims, and to give the errors of the table in docs/CLIENTS.md.

    conformance/plays.py INNER OUTER TOKEN CERTIFICATE      an empty register is served at http://127.0.0.1:INNER, nginx in front of it at https://localhost:OUTER
"""
import json
import os
import re
import subprocess
import sys

TOP = os.path.abspath(os.path.join(os.path.dirname(os.path.abspath(__file__)), ".."))
sys.path.insert(0, os.path.join(TOP, "examples"))
from register import Register  # noqa: E402

KINDS = ["vrfs", "rirs", "roles", "aggregates", "prefixes", "ip-ranges", "ip-addresses"]
# What is there before: hosts and blocks that are in several tables, and hosts that have several masks.
BEFORE = [
    ("vrfs", {"name": "blue"}), ("vrfs", {"name": "green", "rd": "65000:2"}), ("vrfs", {"name": "yellow"}),
    ("rirs", {"name": "A", "slug": "a"}), ("rirs", {"name": "B", "slug": "b"}), ("rirs", {"name": "C", "slug": "c"}),
    ("roles", {"name": "LAN", "slug": "lan"}), ("roles", {"name": "WAN", "slug": "wan"}), ("roles", {"name": "DMZ", "slug": "dmz"}),
    ("aggregates", {"prefix": "10.0.0.0/8", "rir": 1}), ("aggregates", {"prefix": "172.16.0.0/12", "rir": 1}),
    ("aggregates", {"prefix": "2001:db8::/32", "rir": 2}),
    ("prefixes", {"prefix": "10.60.0.0/24"}), ("prefixes", {"prefix": "10.60.0.0/24", "vrf": 1}), ("prefixes", {"prefix": "10.60.0.0/24", "vrf": 2, "role": 3}),
    ("prefixes", {"prefix": "10.61.0.0/24"}), ("prefixes", {"prefix": "10.62.0.0/30"}), ("prefixes", {"prefix": "10.62.0.0/31"}),
    ("prefixes", {"prefix": "10.62.0.2/31"}),
    ("ip-ranges", {"start_address": "10.60.0.100/24", "end_address": "10.60.0.199/24"}),
    ("ip-ranges", {"start_address": "10.60.0.100/24", "end_address": "10.60.0.199/24", "vrf": 1}),
    ("ip-ranges", {"start_address": "10.62.0.1/30", "end_address": "10.62.0.2/30", "mark_populated": True}),
    ("ip-addresses", {"address": "10.60.0.1/24"}), ("ip-addresses", {"address": "10.60.0.1/24", "vrf": 1}),
    ("ip-addresses", {"address": "10.60.0.1/24", "vrf": 2}),
    ("ip-addresses", {"address": "10.60.0.7/24"}), ("ip-addresses", {"address": "10.60.0.8/24"}), ("ip-addresses", {"address": "10.60.0.8/25", "vrf": 1}),
    ("ip-addresses", {"address": "2001:db8:60::1/64"}), ("ip-addresses", {"address": "2001:db8:60::2/64"}),
]
# What each run of a play makes of the records: (kind, id): its members that are looked at, or None where it is deleted.
EXAMPLE = {
    ("vrfs", 4): {"name": "staff", "rd": "65000:50", "enforce_unique": True, "description": "people who work here"},
    ("rirs", 4): {"name": "RIPE NCC", "slug": "ripe-ncc", "is_private": False, "description": ""},
    ("aggregates", 4): {"prefix": "198.51.100.0/24", "rir": 4, "description": "from the registry"},
    ("roles", 4): {"name": "Server LAN", "slug": "server-lan", "weight": 200, "description": ""},
    ("prefixes", 8): {"prefix": "10.50.0.0/16", "vrf": 4, "status": "container", "role": 4, "is_pool": False, "mark_utilized": False, "description": "halls"},
    ("prefixes", 9): {"prefix": "2001:db8:50::/48", "vrf": None, "status": "active", "role": None, "is_pool": False, "mark_utilized": True, "description": ""},
    ("prefixes", 10): {"prefix": "10.50.0.0/24", "vrf": 4, "status": "active", "role": None, "is_pool": False, "mark_utilized": False, "description": ""},
    ("ip-addresses", 9): {"address": "10.50.0.1/24", "vrf": 4, "status": "active", "role": "vip", "dns_name": "gw.example.net", "description": ""},
    ("ip-addresses", 10): {"address": "2001:db8:50::1/64", "vrf": None, "status": "slaac", "role": None, "dns_name": "", "description": "printer"},
    ("ip-addresses", 11): {"address": "10.50.0.2/24", "vrf": 4, "status": "active", "role": None, "dns_name": "new.example.net", "description": ""},
}
EXAMPLE_AGAIN = {
    ("prefixes", 11): {**EXAMPLE["prefixes", 10], "prefix": "10.50.1.0/24"},
    ("ip-addresses", 12): {**EXAMPLE["ip-addresses", 11], "address": "10.50.0.3/24"},
}
CHANGE = {
    ("vrfs", 1): {"name": "blue", "rd": None, "enforce_unique": True, "description": "changed"},
    ("aggregates", 3): {"prefix": "2001:db8::/32", "rir": 2, "description": "changed"},
    ("rirs", 2): {"name": "B", "slug": "b", "is_private": True, "description": ""},
    ("roles", 2): {"name": "WAN", "slug": "wan", "weight": 7, "description": ""},
    ("prefixes", 2): {"prefix": "10.60.0.0/24", "vrf": 1, "status": "reserved", "role": 1, "is_pool": False, "mark_utilized": False, "description": ""},
    ("ip-addresses", 2): {"address": "10.60.0.1/24", "vrf": 1, "status": "deprecated", "role": None, "dns_name": "blue.example.net", "description": ""},
}
ABSENT = {("ip-addresses", 3): None, ("ip-addresses", 5): None, ("ip-addresses", 7): None, ("aggregates", 2): None, ("prefixes", 3): None,
          ("vrfs", 3): None, ("rirs", 3): None, ("roles", 3): None}
NOT_FOUND = '{"detail":"Not found."}'
# What does not work, by the task of conformance/plays/refused.yml, and a part of what the task says.
REFUSED = {
    "tags": NOT_FOUND, "tenant": NOT_FOUND, "site": NOT_FOUND, "import_targets": NOT_FOUND, "assigned_object": NOT_FOUND,
    "other kinds": NOT_FOUND,
    # these plays run without poold
    "vlan": '{"detail":"the register did not answer',
    "comments": "the register has no comments here", "custom_fields": "the register has no custom_fields here",
    "nat_inside": "the register has no nat_inside here",
    "comments of a new record": '{"comments":["the register has no comments here"]}',
    "custom_fields of a new record": '{"custom_fields":["the register has no custom_fields here"]}',
    "nat_inside of a new record": '{"nat_inside":["the register has no nat_inside here"]}',
    "present in a prefix": "A prefix and assigned_object is required",
    "address with another mask": '{"address":["coincides with 2"]}',
    "several tables": "More than one result returned for 10.60.0.0/24",
    "several tables, one address": "More than one result returned for 10.60.0.1/24",
    "no block of that length": '{"prefix_length":["the length does not fit the prefix"]}',
    "in use": '{"detail":"named by prefixes 2"}',
    "user's filters": '{"comments":["filter comments is not served for prefixes"]}',
    "no such status": "Unknown was not found as a valid choice for prefixes",
    "a wrong token": '{"detail":"no such token or password"}',
}


def fail(text):
    sys.exit(f"plays: {text}")


def plain(row):
    """The members of a record that a play can set, a choice by its value."""
    left_out = ("id", "family", "depth", "children", "size")
    return {name: value["value"] if isinstance(value, dict) else value for name, value in row.items() if name not in left_out}


class Plays:
    def __init__(self, inner, outer, token, certificate):
        self.inner = f"http://127.0.0.1:{inner}"
        self.words = ["-e", f"url=https://localhost:{outer}", "-e", f"token={token}", "-e", "ansible_python_interpreter=/usr/bin/python3"]
        # by this name, since it goes before the module's own `validate_certs`
        self.env = {**os.environ, "REQUESTS_CA_BUNDLE": certificate, "ANSIBLE_STDOUT_CALLBACK": "ansible.posix.json", "ANSIBLE_LOCALHOST_WARNING": "false",
                    "ANSIBLE_INVENTORY_UNPARSED_WARNING": "false", "LC_ALL": "C.UTF-8"}
        self.tasks = 0

    def records(self):
        register = Register(self.inner)
        return {(kind, row["id"]): plain(row) for kind in KINDS for row in register.rows(kind)}

    def run(self, play, *words):
        """What each task says, by its name."""
        command = ["ansible-playbook", os.path.join(TOP, play), *self.words, *words]
        done = subprocess.run(command, env=self.env, stdin=subprocess.DEVNULL, capture_output=True, text=True)
        try:
            tasks = json.loads(done.stdout[done.stdout.index("{"):])["plays"][0]["tasks"]
        except (ValueError, LookupError):
            fail(f"{play}: {done.stdout}{done.stderr}")
        told = {task["task"]["name"]: task["hosts"]["localhost"] for task in tasks}
        self.tasks += len(told)
        return told

    def changes(self, play, wanted, changed, *words):
        """That a play makes just these changes, by just these tasks (all, where None), and no task fails."""
        before = self.records()
        told = self.run(play, *words)
        failed = {name: task.get("msg") for name, task in told.items() if task.get("failed")}
        found = [name for name, task in told.items() if task["changed"]]
        if failed or found != (list(told) if changed is None else changed):
            fail(f"{play}: changed by {found}, failed {failed}")
        after = {**before, **wanted}
        after = {key: row for key, row in after.items() if row is not None}
        if self.records() != after:
            there = self.records()
            fail(f"{play}: {[(key, after.get(key), there.get(key)) for key in sorted({*after, *there}) if after.get(key) != there.get(key)]}")
        return told

    def refused(self, play, wanted):
        """That each task fails with this text, and nothing is changed."""
        before = self.records()
        told = self.run(play)
        for name, task in told.items():
            said = re.sub(r"\s+", " ", str(task.get("msg", "")) + str(task.get("module_stderr", "")))
            if not task.get("failed") or wanted.get(name, "no text is wanted") not in said:
                fail(f"{play}: {name}: {'failed' if task.get('failed') else 'did not fail'}: {said}")
        if self.records() != before or sorted(told) != sorted(wanted):
            fail(f"{play}: a record was changed, or not these tasks were run: {sorted({*told} ^ {*wanted})}")

    def lookups(self, play):
        told = self.run(play)
        said = [task.get("msg") for task in told.values()]
        if said[:2] != [["10.60.0.0/24"], ["A", "B", "C"]] or "filter tenant is not served for prefixes" not in said[2]:
            fail(f"{play}: {said}")


def main():
    plays = Plays(*sys.argv[1:])
    if plays.records():
        fail("the register is not empty")
    register = Register(plays.inner)
    for kind, row in BEFORE:
        register.make(kind, row)
    example, claims = "examples/ansible-ipam.yml", ["claim the first free /24", "claim the first free address"]
    plays.lookups("conformance/plays/lookup.yml")
    plays.changes(example, EXAMPLE, None)
    plays.changes(example, EXAMPLE_AGAIN, claims)
    plays.changes("conformance/plays/change.yml", CHANGE, None)
    plays.changes("conformance/plays/change.yml", {}, [])
    plays.changes("conformance/plays/nothing.yml", {}, [])
    plays.refused("conformance/plays/refused.yml", REFUSED)
    plays.changes("conformance/plays/absent.yml", {}, None, "--check")
    plays.changes("conformance/plays/absent.yml", ABSENT, None)
    plays.changes("conformance/plays/absent.yml", {}, [])
    print(f"plays: {plays.tasks} tasks of Ansible's netbox.netbox, each as it should be: a second run changes nothing but by claims, "
          "and `absent` takes the named record and no other")


if __name__ == "__main__":
    main()
