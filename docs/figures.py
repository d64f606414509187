#!/usr/bin/env python3
"""Writes what the pages say of the figures with a peer, which bench/run first_table measures: README's table, the first tables of docs/PERFORMANCE.md, and
docs/figures.svg, in which each figure with a peer is a bar: how many times as fast as the peer the program is, on a logarithmic scale. The picture is 800
pixels wide and has a background of its own, so that it can be read in a light and in a dark theme.

    python3 docs/figures.py            writes them, of docs/figures.json
    python3 docs/figures.py --check    ends with 1 if one of them is not what would be written; prints nothing if all is well
"""
import html
import json
import math
import os
import re
import sys
from dataclasses import dataclass

HERE = os.path.dirname(os.path.abspath(__file__))
TOP = os.path.dirname(HERE)
TABLE = os.path.join(HERE, "figures.json")
# what is between these lines of a page is written here
BEGIN, END = "<!-- written by docs/figures.py, of docs/figures.json -->\n", "<!-- up to here -->\n"
FONT = "font-family='DejaVu Sans, Verdana, Helvetica, sans-serif'"
PAGE, LEFT, PEERS, ROW, TOP_OF_BARS = 800, 345, 620, 19, 58
LEAST, DECADE = -2.2, 46
FASTER, SLOWER = "#2f6fb5", "#c8641e"
VERSION_OF = {"iprange": "iprange", "netaddr": "netaddr", "NetBox's way, over PostgreSQL": "PostgreSQL", "the best SQL, over PostgreSQL": "PostgreSQL",
              "SQLite, no checks": "SQLite", "sqlite3 .import, no checks": "SQLite", "nginx, a file of that size": "nginx", "Python's http.server": "Python"}
# README's rows: the key of a figure; the GET is the one with the worst ratio
PICKED = ["free IPv4, random", "claims addresses 10000 1", "claims addresses 10000 16", "GET", "import prefixes"]
# the ways to run GETs by one and by four connections
WAYS = {"free": "as above", "on one processor": "all on one processor", "no processor sleeps": "no processor asleep"}
# how the figures were measured, and what they mean
METHODS = """\
- If two programs print the same thing, it is compared: free blocks, fewest blocks, the first claimed address.
- **Claims**: the lowest addresses of a prefix are taken, as many as the row says; each claim returns the lowest free
  one. A client is a Python process that waits for each answer. A figure is the median of three runs of 200 claims or
  five seconds. On all three sides a claim is on the disk before its answer, and claims wait for one another.
- **NetBox's way** reads the prefix's addresses (psycopg2, a connection per client) and finds the free ones by sets of
  netaddr, as NetBox 4 does. It inserts a row, under its advisory lock. It is faster than NetBox: Django, permissions and
  the log of changes are left out. For an AS number it takes a set of the range's numbers.
- **The best SQL** is one statement per claim: a function takes the advisory lock, finds the first gap by a query over
  an index, and inserts it. It reads the index up to the gap. PostgreSQL has Debian's settings, and the same disk.
- **Creations** are sent over one connection without waiting; each is on the disk before its answer. SQLite inserts the
  same rows without checks.
- **GETs**: wrk for one second, the median of five runs, as many workers as connections. nginx sends a file with the
  answer's bytes, with sendfile, tcp_nopush, open_file_cache and one worker per processor.
- `free` stores its whole input and output, since it prints nothing until all input is checked.
"""


@dataclass
class Bar:
    what: str
    peer: str
    times: float
    # the peer was stopped before its end
    more: bool


# ---- figures as text

def short(words):
    """A row or a peer where there is little room."""
    return re.sub(r" \(`[^)]*\)|, over PostgreSQL|, no checks|, a file of that size| before its answer", "", words)


def better(row, peer):
    """How many times better than the peer the program is."""
    return peer["figure"] / row["figure"] if row["unit"] == "s" else row["figure"] / peer["figure"]


def of_times(times):
    return f"{times:,.0f}" if times >= 10 else f"{times:.1f}" if times >= 2 else f"{times:.2f}" if times >= 0.01 else f"{times:.3f}"


def plain(unit, figure):
    """A figure without its unit."""
    if unit == "s":
        return f"{figure:.3f}" if figure < 1 else f"{figure:.2f}" if figure < 10 else f"{figure:.1f}"
    return f"{figure:,.0f}" if figure >= 100 else f"{figure:.1f}"


def with_unit(row, peer=None):
    of = row if peer is None else peer
    more = "more than " if of.get("stopped") else ""
    return more + plain(row["unit"], of["figure"]) + (" s" if row["unit"] == "s" else " a second")


def machine_text(table):
    return (f"{table['date'][:10]}, one run on {table['processors']} processors ({table['processor']}), {table['memory_gib']} GiB, Linux "
            f"{table['kernel']}, {table['disk']}; load {table['load']} before it. A loop of 20 million additions in Python took "
            f"{table['python_loop_seconds']} s, and one fdatasync of 4 KiB {table['sync_ms']:.2f} ms.")


def wrapped(text, width=120):
    lines, line = [], ""
    for word in text.split():
        if line and len(line) + 1 + len(word) > width:
            lines.append(line)
            line = "  " if text.startswith("- ") else ""
            line += word
        else:
            line = f"{line} {word}" if line else word
    return "".join(one + "\n" for one in lines + [line])


# ---- the pages

def worst_get(table):
    return min((row for row in table["rows"] if row["key"].startswith("GET ")), key=lambda row: better(row, row["peers"][0]))


def readme_block(table):
    rows = {row["key"]: row for row in table["rows"]}
    counts = ", ".join(row["key"][4:] for row in table["rows"] if row["key"].startswith("GET "))
    worst = {**worst_get(table), "what": f"{worst_get(table)['what']}: of {counts} the worst for ipamd"}
    picked = [worst if key == "GET" else rows[key] for key in PICKED]
    return "".join(table_lines(table, picked)) + "\n" + wrapped(machine_text(table))


def table_lines(table, rows):
    yield "| What | ipamd | Peer | Its figure | Times better | One fdatasync of 4 KiB |\n|---|---|---|---|---|---|\n"
    for row in rows:
        sync = "" if row["sync_ms"] is None else f"{row['sync_ms']:.2f} ms"
        own = with_unit(row)
        for peer in row["peers"] or [None]:
            if peer is None:
                yield f"| {row['what']} | {own} | | | | {sync} |\n"
            else:
                name, more = f"{peer['name']} ({table['versions'][VERSION_OF[peer['name']]]})", "more than " if peer["stopped"] else ""
                yield f"| {row['what']} | {own} | {name} | {with_unit(row, peer)} | {more}{of_times(better(row, peer))} | {sync} |\n"


def others(table):
    """The rows that have no table of their own."""
    return [row for row in table["rows"] if not row["key"].startswith(("claims ", "GET "))]


def peer_lines(table):
    yield "| What | ipamd | Peer | Its figure | Times better |\n|---|---|---|---|---|\n"
    for row in others(table):
        own = with_unit(row)
        for peer in row["peers"] or [None]:
            if peer is None:
                yield f"| {row['what']} | {own} | | | |\n"
            else:
                more = "more than " if peer["stopped"] else ""
                yield f"| {row['what']} | {own} | {peer['name']} | {with_unit(row, peer)} | {more}{of_times(better(row, peer))} |\n"


def claim_lines(table):
    """Claims a second, a line for each number of taken ones and of clients."""
    yield "| Taken before | Clients | ipamd | NetBox's way | The best SQL |\n|---|---|---|---|---|\n"
    for row in table["rows"]:
        if row["key"].startswith("claims "):
            kind, count, clients = re.fullmatch(r"claims (.*) (\d+) (\d+)", row["key"]).groups()
            figures = [row["figure"]] + [peer["figure"] for peer in row["peers"]]
            what = f"{int(count):,} {kind}" + (" (`poold`)" if kind == "AS numbers" else "")
            yield f"| {what} | {clients} | " + " | ".join(plain(row["unit"], one) for one in figures) + " |\n"


def get_lines(table):
    """GETs a second, a line for each number of connections; and the other ways to run one and four."""
    yield "| Connections | ipamd | nginx |\n|---|---|---|\n"
    for row in table["rows"]:
        if row["key"].startswith("GET "):
            yield f"| {row['key'][4:]} | {plain(row['unit'], row['figure'])} | {plain(row['unit'], row['peers'][0]['figure'])} |\n"
    for one in table["jump"]:
        if one["how"] != "free":
            yield f"| {one['connections']}; {WAYS[one['how']]} | {one['ipamd']:,.0f} | {one['nginx']:,.0f} |\n"


def peers_text(table):
    syncs = [row["sync_ms"] for row in table["rows"] if row["sync_ms"] is not None]
    return ("Peers: " + ", ".join(f"{name} {version}" for name, version in table["versions"].items())
            + f". While the rows with a file ran, an fdatasync of 4 KiB took {min(syncs):.2f} to {max(syncs):.2f} ms.")


def jump_text(table):
    """Why four connections have more than four times the GETs of one."""
    of = {one["how"]: one["ipamd"] for one in table["jump"] if one["connections"] == 1}
    best = max(WAYS, key=of.get)
    return (f"- For each GET of one connection wrk and the server wake each other. With {WAYS[best]} there are {of[best] / of['free']:.1f} times as many.")


def performance_block(table):
    notes = wrapped(jump_text(table)) + METHODS
    return "\n".join([wrapped(machine_text(table) + " " + peers_text(table)), "".join(peer_lines(table)), "Claims a second, over a file:\n", "".join(claim_lines(table)),
                      "GETs a second of one record, in memory:\n", "".join(get_lines(table)), notes])


def with_block(text, block):
    """The page with the block between its two lines."""
    before, found, rest = text.partition(BEGIN)
    _, found_end, behind = rest.partition(END)
    if not found or not found_end:
        sys.exit("figures: a page lacks the two lines between which the figures are written")
    return before + BEGIN + block + END + behind


# ---- the picture

def read_bars(table):
    return [Bar(short(row["what"]), short(peer["name"]), better(row, peer), peer["stopped"]) for row in table["rows"] for peer in row["peers"]]


def at(times):
    """Where a number of times is on the scale."""
    return LEFT + (max(math.log10(times), LEAST) - LEAST) * DECADE


def text(left, top, words, size=11, ink="#111", more=""):
    return f"<text x='{left:.1f}' y='{top}' font-size='{size}' fill='{ink}' {FONT}{more}>{html.escape(words)}</text>"


def draw(bars):
    bottom = TOP_OF_BARS + len(bars) * ROW
    parts = [text(14, 22, "How many times as fast as its peer ipamd is", 15, more=" font-weight='bold'"),
             text(14, 40, "Blue: ipamd is faster. Orange: the peer is faster. The scale is logarithmic.", 12),
             text(PEERS, 40, "Peer", 12, more=" font-weight='bold'")]
    for power in range(-2, 4):
        x = at(10 ** power)
        parts.append(f"<line x1='{x:.1f}' y1='{TOP_OF_BARS}' x2='{x:.1f}' y2='{bottom}' stroke='{'#444' if power == 0 else '#ddd'}'/>")
        parts.append(text(x, bottom + 15, f"{10 ** power:,}" if power >= 0 else str(10 ** power), 11, "#444", " text-anchor='middle'"))
    for place, bar in enumerate(bars):
        top, one, end = TOP_OF_BARS + place * ROW, at(1), at(bar.times)
        parts.append(text(14, top + 13, bar.what))
        left, wide, ink = min(one, end), max(abs(end - one), 1), FASTER if bar.times >= 1 else SLOWER
        parts.append(f"<rect x='{left:.1f}' y='{top + 4}' width='{wide:.1f}' height='{ROW - 7}' fill='{ink}'/>")
        parts.append(text(max(one, end) + 5, top + 13, ("more than " if bar.more else "") + of_times(bar.times), 11, more=" font-weight='bold'"))
        parts.append(text(PEERS, top + 13, bar.peer))
    height = bottom + 26
    head = f"<svg xmlns='http://www.w3.org/2000/svg' viewBox='0 0 {PAGE} {height}' width='{PAGE}' height='{height}'>"
    return "\n".join([head, f"<rect width='{PAGE}' height='{height}' fill='white'/>"] + parts + ["</svg>"]) + "\n"


def main():
    checks = sys.argv[1:] == ["--check"]
    if not os.path.exists(TABLE):
        sys.exit(0 if checks else "figures: docs/figures.json is not there: bench/run first_table writes it")
    with open(TABLE, encoding="utf-8") as file:
        table = json.load(file)
    bad = []
    for name, block in (("README.md", readme_block), ("docs/PERFORMANCE.md", performance_block), ("docs/figures.svg", None)):
        path = os.path.join(TOP, name)
        with open(path, encoding="utf-8") as file:
            found = file.read()
        wanted = with_block(found, block(table)) if block else draw(read_bars(table))
        if found != wanted and checks:
            bad.append(f"figures: {name} is not that of docs/figures.json; python3 docs/figures.py writes it")
        elif found != wanted:
            with open(path, "w", encoding="utf-8") as file:
                file.write(wanted)
    if bad:
        sys.exit("\n".join(bad))


if __name__ == "__main__":
    main()
