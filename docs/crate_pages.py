#!/usr/bin/env python3
"""Writes what the crates' pages (docs/crates/) take from elsewhere: the crates that a crate depends on, in the first paragraph, from crates.txt; and the table below
`## Mutation tests`, from crates/CRATE/must-fail, which CI tries, and mutations/edits/CRATE. What a page says below that table stays.

    python3 docs/crate_pages.py            writes them
    python3 docs/crate_pages.py --check    ends with 1 if a page has something else, or if a crate has no page or a page no crate; prints nothing if all is well
"""
import os
import re
import sys
import textwrap

from layers import read_crates

TOP = os.path.abspath(os.path.join(os.path.dirname(os.path.abspath(__file__)), ".."))
HEAD = "| Where | Deliberate bugs that the prover must reject |\n|---|---|\n"
SECTION = re.compile(r"(^## Mutation tests\n\n)(?:None\.\n|\| Where \|[^\n]*\n(?:\|[^\n]*\n)*)", re.M)
BELOW = re.compile(r"\A(# [^\n]*\n\n)([^\n]*?\.)\sIt\sdepends\son\s[^.]*\.\n")
WIDTH = 120


def names(folder):
    path = os.path.join(TOP, folder)
    return sorted(name.removesuffix(".edit") for name in os.listdir(path) if name.endswith(".edit")) if os.path.isdir(path) else []


def table(crate):
    rows = [(f"CI (`crates/{crate}/must-fail`)", names(f"crates/{crate}/must-fail")), (f"`mutations/edits/{crate}`", names(f"mutations/edits/{crate}"))]
    lines = [f"| {where} | " + ", ".join(f"`{name}`" for name in found) + " |\n" for where, found in rows if found]
    return HEAD + "".join(lines) if lines else "None.\n"


def below(crate, crates):
    own = [name for name in crates[crate][0] if name in crates]
    kit = [name for name in crates[crate][0] if name not in crates]
    return "It depends on " + (", ".join(own) or "no other crate of this repository") + ("; of the kit on " + ", ".join(kit) if kit else "") + "."


def page_of(text, crate, crates):
    """The page as it is to be, and why it cannot be written, if so."""
    if not BELOW.search(text):
        return text, "has no first paragraph that says on what the crate depends"
    if "## Mutation tests\n" not in text and table(crate) != "None.\n":
        return text, "has no section `## Mutation tests`"
    text = BELOW.sub(lambda found: found.group(1) + textwrap.fill(f"{found.group(2)} {below(crate, crates)}", WIDTH, break_on_hyphens=False) + "\n", text)
    return SECTION.sub(lambda found: found.group(1) + table(crate), text), None


def main():
    crates, _ = read_crates(os.path.join(TOP, "crates.txt"))
    pages = os.path.join(TOP, "docs/crates")
    there = {page.removesuffix(".md") for page in os.listdir(pages)}
    bad = [f"crate_pages: {name} has no page" for name in crates if name not in there]
    bad += [f"crate_pages: docs/crates/{name}.md is of no crate" for name in sorted(there - set(crates))]
    for crate in sorted(there & set(crates)):
        path = os.path.join(pages, f"{crate}.md")
        with open(path, encoding="utf-8") as file:
            text = file.read()
        wanted, fault = page_of(text, crate, crates)
        if fault:
            bad.append(f"crate_pages: docs/crates/{crate}.md {fault}")
        elif wanted != text and sys.argv[1:] == ["--check"]:
            bad.append(f"crate_pages: docs/crates/{crate}.md is not up to date; python3 docs/crate_pages.py writes it")
        elif wanted != text:
            with open(path, "w", encoding="utf-8") as file:
                file.write(wanted)
    if bad:
        sys.exit("\n".join(bad))


if __name__ == "__main__":
    main()
