"""Claims a second of one number at a time by `poold serve` over a file, in a range of numbers of autonomous systems, of which 100, 10,000 and 90,000 are given
out, by 1, 4 and 16 clients; beside NetBox's own way (a set of all numbers without those that were read from PostgreSQL) and the best that SQL does, both as
bench/claims.py has them. Each first number claimed is compared. Last, claims in memory by one client: among 90,000 numbers there are to be at least 0.8 of
those among 100 a second, or the script ends with status 1.

    bench/run pools [PORT]
"""
import os
import sys
import time

sys.path.insert(0, os.path.dirname(os.path.dirname(os.path.abspath(__file__))))
from bench.claim_rates import LOCK, Claims, Session, best_claim, heading, line

FIRST, LAST = 4_200_000_000, 4_200_099_999
TAKEN = {100: [1, 4, 16], 10_000: [1, 4, 16], 90_000: [1]}
# what the claims a second in memory among the most are to be of those among the fewest
LEAST = 0.8
CLAIMS = "/api/ipam/asn-ranges/1/available-asns/"


def tables(taken):
    """NetBox's table; and one for SQL's best, with a row for the number before the first one, which is given to nobody."""
    return ["CREATE TABLE ipam_asn (id bigserial PRIMARY KEY, asn bigint NOT NULL UNIQUE, description varchar(200) NOT NULL)",
            f"INSERT INTO ipam_asn (asn, description) SELECT {FIRST} + n, '' FROM generate_series(0, {taken - 1}) n",
            "CREATE TABLE best (id bigserial PRIMARY KEY, number bigint NOT NULL UNIQUE, description varchar(200) NOT NULL)",
            f"INSERT INTO best (number, description) SELECT {FIRST} - 1 + n, '' FROM generate_series(0, {taken}) n",
            best_claim(FIRST - 1, LAST, "free", "description", "''"), "VACUUM ANALYZE"]


def rest(taken):
    return [f"DELETE FROM ipam_asn WHERE id > {taken}", f"DELETE FROM best WHERE id > {taken + 1}", "VACUUM ANALYZE"]


def netbox(cursor):
    """A claim as NetBox 4 makes it (`ASNRange.get_available_asns`), without Django, permissions and the log of changes: a set of all numbers, under a lock."""
    cursor.execute("SELECT pg_advisory_lock(%s)", (LOCK,))
    cursor.execute("SELECT asn FROM ipam_asn WHERE asn >= %s AND asn <= %s", (FIRST, LAST))
    number = sorted(set(range(FIRST, LAST + 1)) - {row[0] for row in cursor.fetchall()})[0]
    cursor.execute("INSERT INTO ipam_asn (asn, description) VALUES (%s, '')", (number,))
    cursor.execute("SELECT pg_advisory_unlock(%s)", (LOCK,))
    return number


NUMBERS = Claims(("/api/ipam/asn-ranges/", {"name": "private", "start": FIRST, "end": LAST}), CLAIMS, "asn", tables, rest, netbox, "SELECT claim()")


def in_memory(program, taken, count=800):
    """Claims a second of one session, each sent when the last one is answered."""
    session = Session(program)
    session.ask(*NUMBERS.made)
    session.claim_many(CLAIMS, taken)
    begun = time.perf_counter()
    for _ in range(count):
        session.ask(CLAIMS, {})
    found = count / (time.perf_counter() - begun)
    session.end()
    return found


def main(program, port):
    print(heading("AS numbers given out"))
    for taken, clients in TAKEN.items():
        for count, figures in NUMBERS.row(program, int(port), taken, clients, 3).items():
            print(line(taken, count, figures), flush=True)
    fewest, most = in_memory(program, min(TAKEN)), in_memory(program, max(TAKEN))
    print(f"in memory, one client: {fewest:,.0f} a second among {min(TAKEN):,}, {most:,.0f} among {max(TAKEN):,}")
    if most < LEAST * fewest:
        sys.exit(f"pools: among {max(TAKEN):,} there are less than {LEAST} of the claims a second among {min(TAKEN):,}")


if __name__ == "__main__":
    main(*sys.argv[1:])
