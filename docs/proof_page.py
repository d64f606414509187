#!/usr/bin/env python3
"""Writes the line numbers of docs/PROOF.md. A link of the page to a line goes to the declaration of the name before it:

    `Headline.least` [Headline.antt:35](../crates/ipam_headline/specs/Headline.antt#L35)

that is the one line of the file with `pub least`, `record least` or `fn least`. A link with a title goes to the one line that has the title's text:

    [tcp.rt:244](../crates/ipam_listen/src/tcp.rt#L244 "ghost told =")

    python3 docs/proof_page.py            writes the numbers
    python3 docs/proof_page.py --check    ends with 1 if a number is another one, or if a text or a declaration is in no line of its file, or in two; prints
                                          nothing if all is well
"""
import os
import re
import sys

HERE = os.path.dirname(os.path.abspath(__file__))
PAGE = os.path.join(HERE, "PROOF.md")
LINK = re.compile(r'(`[^`\n]+` )?\[([^\]\[]+?):\d+\]\(([^)#\s]+)#L\d+(?: "([^"]+)")?\)')


def line_of(path, text, is_there):
    """The line of the file of which that holds, and what is wrong, if so; `text` names it."""
    try:
        with open(os.path.join(HERE, path), encoding="utf-8") as file:
            lines = [number for number, line in enumerate(file, 1) if is_there(line)]
    except OSError as why:
        return None, f"proof_page: docs/PROOF.md: {why}"
    if len(lines) != 1:
        return None, f"proof_page: docs/PROOF.md: `{text}` is in {len(lines)} lines of {path}"
    return lines[0], None


def declares(name):
    """Whether a line declares the name: the last part of one like `Headline.least`."""
    declaration = re.compile(rf"\b(?:pub|record|fn) {re.escape(name)}\b")
    return lambda line: bool(declaration.search(line))


def with_lines(page):
    """The page with the lines of today, and what is wrong."""
    wrong = []

    def link(found):
        before, name, path, title = found.groups()
        before = before or ""
        if title:
            line, fault = line_of(path, title, lambda it: title in it)
        elif before:
            declared = before.strip("` ").split(".")[-1]
            line, fault = line_of(path, declared, declares(declared))
        else:
            line, fault = None, f"proof_page: docs/PROOF.md: the link to {path} has neither a name before it nor a title"
        if fault:
            wrong.append(fault)
            return found.group(0)
        return f"{before}[{name}:{line}]({path}#L{line}" + (f' "{title}")' if title else ")")

    return LINK.sub(link, page), wrong


def main():
    with open(PAGE, encoding="utf-8") as file:
        page = file.read()
    wanted, wrong = with_lines(page)
    if wanted != page and sys.argv[1:] == ["--check"]:
        wrong.append("proof_page: docs/PROOF.md is not up to date; python3 docs/proof_page.py writes it")
    elif wanted != page:
        with open(PAGE, "w", encoding="utf-8") as file:
            file.write(wanted)
    if wrong:
        sys.exit("\n".join(wrong))


if __name__ == "__main__":
    main()
