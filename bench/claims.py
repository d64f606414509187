"""Claims a second of one address at a time by `ipamd serve` over a file, in a prefix whose first 1,000, 10,000 and 100,000 addresses are taken, by 1, 4 and 16
clients at once; beside two ways over one durable PostgreSQL on the same disk, with Debian's settings:
- NetBox's own: all child addresses are read by one connection of psycopg2 a client, the free ones are found by sets of netaddr, as NetBox 4 does it, and
  one row is inserted, under its advisory lock. It has no Django, no permissions and no log of changes; so it is quicker than NetBox;
- the best that SQL does: one statement a claim, in which the first gap is found by one query over an index, and then inserted, under an advisory lock.
All clients are processes of Python, which claim one address after another. A run has 200 claims at least, or five seconds; each figure is the median of
three, which take turns. Each first address claimed is compared, and one fdatasync of 4 KiB is timed before each run. Last, three times in a full register.

    bench/run claims [PORT]
"""
import os
import sys
import time

sys.path.insert(0, os.path.dirname(os.path.dirname(os.path.abspath(__file__))))
from bench.claim_rates import LOCK, PART, Claims, Session, best_claim, heading, line

PREFIX, FIRST, LENGTH = "10.0.0.0/14", 0x0A000000, 14
# how many addresses the prefix has, and by how many clients they are claimed
TAKEN = {1_000: [1, 4, 16], 10_000: [1, 4, 16], 100_000: [1]}
CLAIMS = "/api/ipam/prefixes/1/available-ips/"
# A full register has 500,000 addresses; a connection ends with its thousandth answer.
WHOLE, FULL = "10.0.0.0/8", 500_000
COLUMNS = ("id bigserial PRIMARY KEY, {}, vrf_id bigint, status varchar(50) NOT NULL, role varchar(50), dns_name varchar(255) NOT NULL, "
           "description varchar(200) NOT NULL")


def tables(taken):
    """NetBox's tables and their indexes; and one of numbers for SQL's best, with a row for the first address of the prefix, which is given to nobody."""
    return [f"CREATE TABLE ipam_ipaddress ({COLUMNS.format('address inet NOT NULL')})",
            "CREATE TABLE ipam_iprange (id bigserial PRIMARY KEY, start_address inet NOT NULL, end_address inet NOT NULL, vrf_id bigint, "
            "mark_populated boolean NOT NULL)",
            "CREATE INDEX ON ipam_ipaddress (CAST(HOST(address) AS inet)); CREATE INDEX ON ipam_ipaddress (vrf_id); CREATE INDEX ON ipam_iprange (vrf_id)",
            "INSERT INTO ipam_ipaddress (address, status, dns_name, description) "
            f"SELECT set_masklen('10.0.0.0'::inet + n, {LENGTH}), 'active', '', '' FROM generate_series(1, {taken}) n",
            f"CREATE TABLE best ({COLUMNS.format('number bigint NOT NULL UNIQUE')})",
            f"INSERT INTO best (number, status, dns_name, description) SELECT {FIRST} + n, 'active', '', '' FROM generate_series(0, {taken}) n",
            best_claim(FIRST, FIRST + 2 ** (32 - LENGTH) - 2, f"host('0.0.0.0'::inet + free) || '/{LENGTH}'", "status, dns_name, description",
                       "'active', '', ''"),
            "VACUUM ANALYZE"]


def rest(taken):
    return [f"DELETE FROM ipam_ipaddress WHERE id > {taken}", f"DELETE FROM best WHERE id > {taken + 1}", "VACUUM ANALYZE"]


def netbox(cursor):
    """A claim as NetBox 4 makes it (`Prefix.get_first_available_ip`), without Django, permissions and the log of changes: sets of netaddr, under its lock."""
    import netaddr
    cursor.execute("SELECT pg_advisory_lock(%s)", (LOCK,))
    cursor.execute("SELECT address FROM ipam_ipaddress WHERE CAST(HOST(address) AS inet) <<= %s AND vrf_id IS NULL", (PREFIX,))
    children = netaddr.IPSet([netaddr.IPNetwork(row[0]).ip for row in cursor.fetchall()])
    cursor.execute("SELECT start_address, end_address FROM ipam_iprange WHERE start_address <<= %s AND vrf_id IS NULL AND mark_populated", (PREFIX,))
    ranges = netaddr.IPSet([netaddr.IPRange(netaddr.IPNetwork(row[0]).ip, netaddr.IPNetwork(row[1]).ip) for row in cursor.fetchall()])
    prefix = netaddr.IPNetwork(PREFIX)
    available = netaddr.IPSet(prefix) - children - ranges
    available -= netaddr.IPSet([netaddr.IPAddress(prefix.first), netaddr.IPAddress(prefix.last)])
    address = f"{next(iter(available))}/{prefix.prefixlen}"
    cursor.execute("INSERT INTO ipam_ipaddress (address, status, dns_name, description) VALUES (%s, 'active', '', '')", (address,))
    cursor.execute("SELECT pg_advisory_unlock(%s)", (LOCK,))
    return address


ADDRESSES = Claims(("/api/ipam/prefixes/", {"prefix": PREFIX}), CLAIMS, "address", tables, rest, netbox, "SELECT claim()")


def full(program):
    """Milliseconds of a figure, of a list of 1,000 free addresses and of a claim in a /8 that has all addresses of a full register."""
    session = Session(program)
    session.ask("/api/ipam/prefixes/", {"prefix": WHOLE})
    session.claim_many(CLAIMS, FULL - 100)

    def best(target, body=None):
        times = []
        for _ in range(20):
            start = time.perf_counter()
            session.ask(target, body)
            times.append(time.perf_counter() - start)
        return min(times) * 1_000

    figure = best("/api/ipam/prefixes/1/utilization/")
    listed = best(f"{CLAIMS}?limit={PART}")
    claim = best(CLAIMS, {})
    session.end()
    return figure, listed, claim


def main(program, port):
    print(heading("addresses in the prefix"))
    for taken, clients in TAKEN.items():
        for count, figures in ADDRESSES.row(program, int(port), taken, clients, 3).items():
            print(line(taken, count, figures), flush=True)
    figure, listed, claim = full(program)
    print(f"In {WHOLE} with {FULL:,} addresses: its figure {figure:.2f} ms, a list of 1,000 free addresses {listed:.2f} ms, a claim {claim:.3f} ms, best of 20")


if __name__ == "__main__":
    main(*sys.argv[1:])
