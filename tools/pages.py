#!/usr/bin/env python3
"""Finds what README.md, CHANGES.md and docs/*.md name and the code does not have: files, headings, names, options, statuses, codes, limits and figures.

usage: tools/pages.py [PAGE ..]     prints each with its place; silent, with status 0, if there is none

.ci/checks.py looks up the programs of bench, conformance, model, mutations and tools, in scripts too; docs/proof_page.py the lines of docs/PROOF.md;
docs/figures.py the tables of figures. conformance/run pages runs the commands. What is named and belongs to another program is in tools/pages.txt, a line
each: the kind as it is printed, a colon, a space, the text.
"""
import glob
import os
import re
import subprocess
import sys

TOP = os.path.dirname(os.path.dirname(os.path.abspath(__file__)))
SPAN = re.compile(r"(?<!`)(`+)(?!`)(.+?)(?<!`)\1(?!`)", re.S)
# The limits: how a row of a table whose second column is `At most` begins, and the constants whose numbers its second cell has, in their order.
LIMITS = (
    ("VRFs, RIRs, roles, aggregates", "ipam_data MOST_VRFS", "ipam_data MOST_RIRS", "ipam_data MOST_ROLES", "ipam_data MOST_AGGREGATES"),
    ("prefixes", "ipam_data MOST_PREFIXES"),
    ("ranges and groups", "number_pools MOST_RANGES"),
    ("ranges", "ipam_data MOST_RANGES"),
    ("addresses", "ipam_data MOST_ADDRESSES"),
    ("AS numbers and VLANs", "number_pools MOST_MEMBERS"),
    ("ids of", "ipam_data LAST_ID"),
    ("items of the log", "ipam_data MOST_SPENT"),
    ("items of a claim", "ipam_data MOST_ITEMS", "number_pools MOST_CLAIMED"),
    ("the head of a request", "http_session HEAD_LIMIT", "http_session head_fields"),
    ("the body of a request", "http_session BODY_LIMIT"),
    ("answers on a connection", "http_session answers"),
    ("time for a whole request", "machine_serving PATIENCE", "ipam_listen BYTES_A_SECOND"),
    ("records on a page, blocks of `report free`", "rest_query most_listed", "command_files MOST_BLOCKS"),
    ("numbers of a free list", "number_pools MOST_CLAIMED"),
    ("lines of `free`", "command_free MOST_LINES", "command_streams LINE"),
    ("CSV files, prefix lists, PTR lines", "csv_import MOST_BYTES", "command_lists MOST_BYTES", "command_zones MOST_BYTES"),
    ("rows of a CSV file", "ipam_data MOST_ROWS"),
    ("workers; readers of `mirror`", "word_values most_workers", "command_words MOST_READERS"),
    ("connections of each", "word_values most_connections"),
    ("claims of `load`", "command_words MOST_CLAIMS"),
)
UNIT = "ms|s|µs|[GMK]i?B|minutes|hours|times as (?:fast|quick|slow|much|many)|a second|instructions"
FIGURE = re.compile(rf"(?<![\w.,:/-])(\d[\d,]*(?:\.\d+)?)(?: to \d[\d,.]*\d)? ({UNIT})(?!\w)")
# the options of a command over a store
STORE = {"db", "global-unique"}
GENERATED = re.compile(r"<!-- written by .*?<!-- up to here -->", re.S)


def read(path):
    with open(os.path.join(TOP, path), encoding="utf-8", errors="replace") as file:
        return file.read()


def pages():
    return ["README.md", "CHANGES.md"] + sorted(os.path.relpath(path, TOP) for path in glob.glob(f"{TOP}/docs/*.md"))


def spans(text):
    """The code of a page: what is in backticks, and each line of a block."""
    blocks = re.sub(r"^```.*?^```", lambda found: "\n" + re.sub("^", "    ", found[0], flags=re.M) + "\n", text, flags=re.M | re.S)
    yield from (found[2] for found in SPAN.finditer(text))
    yield from (line.strip() for block in re.findall(r"(?<=\n\n)(?: {4}[^\n]*\n+)+", blocks) for line in block.split("\n") if line.strip())


# ---- files and headings

def anchors(text):
    """The anchors of a page's headings, as GitHub makes them."""
    text = re.sub(r"^```.*?^```", "", text, flags=re.M | re.S)
    plain = (re.sub(r"\[([^\]]*)\]\([^)]*\)", r"\1", heading) for heading in re.findall(r"^#+ +(.*?) *$", text, re.M))
    return {re.sub(r"[^\w\- ]", "", heading.lower()).replace(" ", "-") for heading in plain}


def links(page, text):
    for target, anchor in re.findall(r"\]\(([^)\s#]*)(?:#([^)\s]*))?[^)]*\)", text):
        if re.match(r"[a-z]+:", target):
            continue
        path = os.path.normpath(os.path.join(os.path.dirname(page), target)) if target else page
        if not os.path.exists(f"{TOP}/{path}"):
            yield "file", path
        elif anchor and path.endswith(".md") and anchor not in anchors(read(path)):
            yield "heading", f"{path}#{anchor}"


def files(page, text):
    """The paths in code that begin with a folder of the repository or a crate; a part in capitals is anything."""
    folders = sorted({path.split("/")[0] for path in tracked() if "/" in path and not path.startswith(".")} | set(os.listdir(f"{TOP}/crates")))
    path = re.compile(rf"(?<![\w/.$~@-])((?:{'|'.join(folders)})/[\w./*-]*\w)")
    for found in (found for span in spans(text) for found in path.findall(span)):
        # (what is made, as `crates/CRATE/out`, is there later)
        wanted = re.sub(r"\b[A-Z]+\b", "*", found)
        named = (f"{TOP}/{at}{path}{end}" for at in ("", "crates/", "examples/") for path in (wanted, os.path.splitext(wanted)[0]) for end in ("", ".*"))
        if "/out/" not in wanted and not any(map(glob.glob, named)):
            yield "file", found


# ---- names

def tracked():
    return subprocess.run(["git", "ls-files"], cwd=TOP, capture_output=True, text=True, check=True).stdout.splitlines()


def names_in(text):
    """The names of code: with `_`, or with a capital letter in their midst."""
    found = (name for span in spans(text) for name in re.findall(r"(?<![\w$/-])[A-Za-z_]\w*(?![\w*])", span))
    return {name for name in found if "_" in name or re.match(r"[A-Z]+[a-z0-9]+[A-Z]", name)}


def known_names():
    """The words of all files but pages and pictures, and of their paths."""
    listed = tracked()
    known = set(re.findall(rb"\w+", "\n".join(listed).encode()))
    for path in listed:
        if not path.endswith((".md", ".svg", ".png", ".edit", ".control")) and os.path.isfile(f"{TOP}/{path}"):
            with open(f"{TOP}/{path}", "rb") as file:
                known.update(re.findall(rb"\w+", file.read()))
    return {name.decode() for name in known}


def names(page, text, known):
    yield from (("name", name) for name in names_in(text) - known)


# ---- commands and options

def grammar():
    """The options of each command of a program."""
    found = {}
    for program, path in (("ipamd", "crates/command_grammar/src/lib.rt"), ("poold", "crates/pool_words/src/commands.rt")):
        bodies = dict(re.findall(r"fn (\w+)_command<.*?\n\{\n(.*?)\n\}", read(path), re.S))

        def own(name):
            """The options that this function adds, and those that the function has which it calls."""
            body = bodies[name]
            called = [own(it) for it in re.findall(r"(\w+)_command\(", body) if it in bodies and it != "plain"]
            return set(re.findall(r'(?:needed|option)\(alloc, "([\w-]+)"\)', body)).union(STORE if "stored(" in body else (), *called)

        found[program] = {name.replace("_", "-"): own(name) for name in bodies if name not in ("plain", "list", "counted")}
    # `version` and `help` are those of both programs
    found["poold"].update((name, found["ipamd"][name]) for name in ("version", "help"))
    return found


def options(page, text, grammars, others):
    for span in spans(text):
        for program, command, rest in re.findall(r"(?<![\w/:-])(?:\./)?(ipamd|poold) ([a-z][\w-]*)([^|;&<>\n]*)", span):
            if command not in grammars[program]:
                yield "command", f"{program} {command}"
            else:
                given = set(re.findall(r"(?<!\w)--([a-z][\w-]*)", rest))
                yield from (("option", f"{program} {command} --{name}") for name in given - grammars[program][command])
        for name in re.findall(r"(?<![\w-])--[a-z][\w-]*", span):
            if name not in others and not any(name[2:] in its for commands in grammars.values() for its in commands.values()):
                yield "option", name


def options_of_scripts():
    scripts = (path for path in tracked() if path.endswith((".py", ".sh", "/run")) or path in ("build", "install.sh", "ipamd", "poold"))
    return {name for path in scripts for name in re.findall(r"(?<![\w-])--[a-z][\w-]*", read(path))}


# ---- statuses and codes

def refusals():
    """The codes of refusals with their statuses: of the register, the pools, a reader, and nginx."""
    own, pools, rest = read("crates/ipam_data/specs/Answers.antt"), read("crates/pool_json/specs/Words.antt"), read("crates/pool_rest/specs/Answers.antt")
    found = {("400", code) for code in re.findall(r'^rule_code .* = codes "(\w+)"', own, re.M)} | {("400", "bounds"), ("503", "behind")}
    for words, statuses, of in ((own, own, "refusal_status_of"), (pools, rest, "pool_refusal_status")):
        status = dict(re.findall(rf"^{of} \(?(?:pool\.)?(\w+).*? = (\d+)$", statuses, re.M))
        found |= {(status[name], code) for name, code in re.findall(r'^code_of \(?(\w+).*? = codes "(\w+)"', words, re.M)}
    found |= set(re.findall(r"""return (\d+) '\{"code":"(\w+)\"""", read("examples/nginx-ipamd.conf")))
    return found | set(re.findall(r"\((\d+), '(\w+)'", read("netbox/refusals.js")))


def statuses(page, text, known, http, ends):
    for status, code in re.findall(r"(?<![\w,])([1-5]\d\d)(?: \| | )`(\w+)`", text):
        if code in {code for _, code in known} and (status, code) not in known:
            yield "code", f"{status} {code}"
    named = re.findall(r"(?<!\w)(?:status(?:es)?|answered|returns) (\d|\d{3})(?![\w,.]\w| \w+s)", text)
    rows = "".join(re.findall(r"^\| Status \|[^\n]*\n\|[-| ]*\n((?:\|[^\n]*\n)+)", text, re.M))
    for status in named + re.findall(r"^\| (\d+) \|", rows, re.M):
        if status not in (http if len(status) == 3 else ends):
            yield "status", status


# ---- limits and figures

def constants():
    found = {}
    for path in glob.glob(f"{TOP}/crates/*/src/**/*.rt", recursive=True):
        for name, number in re.findall(r"^\s*(?:pub(?:\(crate\))? )?const (\w+): \w+ = ([\d_]+);", read(path), re.M):
            found[f"{path[len(TOP):].split('/')[2]} {name}"] = int(number.replace("_", ""))
    for path in glob.glob(f"{TOP}/crates/*/specs/**/*.antt", recursive=True):
        for name, number in re.findall(r"^(\w+) = (\d+)$", read(path), re.M):
            found[f"{path[len(TOP):].split('/')[2]} {name}"] = int(number)
    found["http_session answers"] = found["http_session LAST_ITEM"] + 1
    found["http_session head_fields"] = int(re.search(r"\[EMPTY_HEADER_SPAN; (\d+)\]", read("crates/http_session/src/head.rt"))[1])
    return found


def limits(page, text, known):
    for table in re.findall(r"^\| [^|\n]* \| At most \|[^\n]*\n\|[-| ]*\n((?:\|[^\n]*\n)+)", text, re.M):
        for row in table.splitlines():
            what, most = (cell.strip() for cell in row.split("|")[1:3])
            limit = next((limit for limit in LIMITS if what.startswith(limit[0])), None)
            numbers = [int(number.replace(",", "")) for number in re.findall(r"\d[\d,]*", most)]
            wanted = [known[name] for name in limit[1:]] if limit else []
            if not limit or numbers != wanted and set(numbers) != set(wanted):
                yield "limit", f"{what}: {most}" + (f" (the code has {', '.join(map(str, wanted))})" if limit else "")


def figures(page, text, measured):
    """Figures with their units, if docs/PERFORMANCE.md has none that they are rounded from, and docs/figures.py did not write them."""
    if page in ("docs/PERFORMANCE.md", "CHANGES.md", "docs/PROVING.md"):
        return
    for number, unit in FIGURE.findall(GENERATED.sub("", text)):
        value, places = number.replace(",", ""), len(number.partition(".")[2])
        if not any(f"{one:.{places}f}" == value for one in measured):
            yield "figure", f"{number} {unit}"


def line_of(text, what):
    """The first line that has the text, or else its begin or its end."""
    at = next((at for part in (what, what.split(": ")[0], what.split()[-1], what.split()[0]) if (at := text.find(part)) >= 0), 0)
    return text.count("\n", 0, at) + 1


def main():
    texts = {page: read(page) for page in sys.argv[1:] or pages()}
    known = known_names()
    grammars, others, pairs, numbers = grammar(), options_of_scripts(), refusals(), constants()
    http = set(re.findall(r"n == (\d+)", read("crates/rest_ipam/specs/Statuses.antt"))) | set(re.findall(r"return (\d{3})", read("examples/nginx-ipamd.conf")))
    # (70 is that of `./ipamd` and `./poold`, which build the programs)
    ends = {"70"} | set(re.findall(r"^pub const [A-Z]+: u8 = (\d);", read("crates/command_streams/src/lib.rt"), re.M))
    measured = [float(number.replace(",", "")) for number in re.findall(r"\d[\d,]*(?:\.\d+)?", read("docs/PERFORMANCE.md"))]
    measured += [number / size for number in numbers.values() for size in (1024, 1024 * 1024) if number % size == 0]
    with open(f"{TOP}/tools/pages.txt", encoding="utf-8") as file:
        plain = {line.strip() for line in file if not line.startswith("#")}
    wrong = []
    for page, text in texts.items():
        for kind, what in (*links(page, text), *files(page, text), *names(page, text, known), *options(page, text, grammars, others),
                           *statuses(page, text, pairs, http, ends), *limits(page, text, numbers), *figures(page, text, measured)):
            if f"{kind}: {what}" not in plain:
                wrong.append(f"{page}:{line_of(text, what)}: {kind}: {what}")
    print("\n".join(dict.fromkeys(wrong)), end="\n" if wrong else "")
    sys.exit(bool(wrong))


if __name__ == "__main__":
    main()
