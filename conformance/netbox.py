"""NetBox's form of requests and answers (netbox/, examples/nginx-ipamd.conf): a line for each claim of docs/CLIENTS.md, then the sum; status 1 if one does not
hold. Units by node; requests over HTTP through nginx, with further requests that fail, hostile bodies, random records and filters; pynetbox; Ansible's
plays, each twice; the rates of both forms. --short leaves the plays and the rates out.

    conformance/run netbox [--short] [PORT]      it uses PORT to PORT + 5
"""
import os
import re
import subprocess
import sys

sys.path.insert(0, os.path.dirname(os.path.dirname(os.path.abspath(__file__))))
from conformance import filters, netbox_broken, netbox_pools, netbox_random, netbox_records, netbox_wire
from conformance.netbox_front import TOP, Claims, Front

# what is asked of one register, in this order: the claim, and its test
RECORDS = [
    ("Records have the members of NetBox 4.1", netbox_records.records),
    ("`display` is what NetBox shows", netbox_records.displays),
    ("Free space is listed and claimed as with NetBox", netbox_records.free),
    ("A reference is an id, an object with its id, or an object with its name, rd or slug", netbox_records.references),
    ("Members that NetBox only answers are ignored, and others are refused by name", netbox_records.members),
    ("PUT demands the required members, and leaves absent ones", netbox_records.puts),
    ("A claim may name the VRF and the block that it is claimed from", netbox_records.claims_named),
    ("The requests of Terraform's provider work", netbox_records.terraform),
]
BROKEN = [
    ("A change that the register answered has its status", netbox_broken.changes),
    ("A change that cannot be prepared is not made", netbox_broken.before),
    ("A change that was not answered is 502, and was sent once", netbox_broken.unanswered),
    ("A list that is searched is of one moment", netbox_broken.moments),
    ("A search through 20,000 records finds each once", netbox_broken.long),
    ("What is not there has the answers below", netbox_broken.missing),
]
WIRE = [
    ("No path leads past the handler", netbox_wire.paths),
    ("Methods that a path does not have are 405", netbox_wire.methods),
    ("Links have the host of the request", netbox_wire.hosts),
    ("Refusals name the member, and have the register's code in a header", netbox_wire.refusals),
    ("Held changes, wrong tokens and large bodies have a `detail`", netbox_wire.own_refusals),
    ("A hostile body holds nobody up for 200 ms", netbox_wire.bodies),
    ("The longest page fits", netbox_wire.largest),
]
POOLS = [
    ("AS numbers and VLANs have the members of NetBox 4.1", netbox_pools.records),
    ("An AS number goes into the smallest range that has it, a VLAN into its group", netbox_pools.requests),
    ("Free numbers are listed as objects, and claimed", netbox_pools.free),
    ("Filters of AS numbers and VLANs find what they mean", netbox_pools.filters),
    ("A change of AS numbers and VLANs has its status too", netbox_pools.broken),
]
FILTERS = [("Filters find what they mean, in any spelling and several of one name", lambda front: filters.run(front, 400, 1))]
RANDOM = [
    ("A random record that is written and read back is that record", netbox_random.written),
    ("No request makes more than one change, and every answer is JSON", netbox_random.answered),
]


def run(command, **more):
    """A program that has to end with status 0; its last line."""
    done = subprocess.run(command, cwd=TOP, stdin=subprocess.DEVNULL, stdout=subprocess.PIPE, stderr=subprocess.STDOUT, text=True, check=False, **more)
    assert done.returncode == 0, f"status {done.returncode}: {done.stdout[-1500:]}"
    return done.stdout.rstrip("\n").split("\n")[-1]


def units():
    done = subprocess.run(["node", "--test"], cwd=os.path.join(TOP, "netbox"), stdout=subprocess.PIPE, stderr=subprocess.STDOUT, text=True, check=False)
    assert done.returncode == 0, done.stdout[-3000:]
    return next(line for line in done.stdout.split("\n") if line.startswith("# pass"))[2:]


def pynetbox(port):
    with Front(port) as front:
        return run(["/usr/bin/python3", "examples/client_netbox.py", front.base, front.token], env={**os.environ, "REQUESTS_CA_BUNDLE": front.certificate()})


def plays(port):
    with Front(port, between=False) as front:
        return run(["/usr/bin/python3", "conformance/plays.py", str(port), str(port + 1), front.token, front.certificate()])


# what has registers of its own: the claim, its test, and whether it takes minutes
ALONE = [
    ("Without the register there is a `detail`", netbox_wire.gone, False),
    ("A register that is too slow is 504", netbox_broken.late, False),
    ("The register's own form is unchanged behind nginx", netbox_wire.plain, False),
    ("pynetbox does with every kind what it does with NetBox", pynetbox, False),
    ("Ansible's modules find, create, change and delete, twice in a row", plays, True),
    ("Without poold, AS numbers and VLANs are 502", netbox_pools.without, False),
    ("pynetbox does with AS numbers and VLANs what it does with NetBox", netbox_pools.pynetbox, False),
    ("Ansible makes, renames and removes VLANs, twice in a row", netbox_pools.plays, True),
]


def pages():
    """docs/CLIENTS.md claims what is tested here, and nothing else."""
    with open(os.path.join(TOP, "docs/CLIENTS.md")) as page:
        said = re.findall(r"^- \*\*(.+?)\.\*\*", page.read().split("## What works")[1].split("\n## ")[0], re.M)
    tested = [one[0] for group in (RECORDS, BROKEN, WIRE, FILTERS, RANDOM, POOLS, ALONE) for one in group]
    assert sorted(said) == sorted(tested), f"only there or here: {sorted({*said} ^ {*tested})}"


def main():
    short = "--short" in sys.argv
    port = next((int(word) for word in sys.argv[1:] if word.isdigit()), 18460)
    claims = Claims()
    claims.check("docs/CLIENTS.md claims what is tested here", pages)
    claims.check("The units of netbox/ pass", units)
    for group in (RECORDS, BROKEN, WIRE, FILTERS, RANDOM):
        with Front(port) as front:
            for claim, test in group:
                claims.check(claim, test, front)
    with Front(port, pools=True) as front:
        for claim, test in POOLS:
            claims.check(claim, test, front)
    for claim, test, is_long in ALONE:
        if not (short and is_long):
            claims.check(claim, test, port)
    if not short:
        claims.check("Requests a second, by four connections", netbox_wire.rates, port)
    print(f"netbox: {claims.held} claims hold, {claims.failed} do not")
    sys.exit(1 if claims.failed else 0)


if __name__ == "__main__":
    main()
