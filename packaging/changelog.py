#!/usr/bin/env python3
"""CHANGES.md on standard input as a Debian changelog: an entry for each heading, an item for each point of a list. The version of the first entry is
the one that is given, which is that of the first heading but where a package of another version is made.   changelog.py VERSION < CHANGES.md"""
import datetime
import re
import sys
import textwrap

MAINTAINER = "Tingsaom maintainers <maintainers@users.noreply.tingsaom.example>"


def entry(version, date, body):
    day = datetime.date.fromisoformat(date).strftime("%a, %d %b %Y")
    points = [" ".join(point.split()) for point in re.findall(r"^- (.*(?:\n  .*)*)", body, re.M)]
    wrapper = textwrap.TextWrapper(76, initial_indent="  * ", subsequent_indent="    ", break_long_words=False, break_on_hyphens=False)
    lines = [line for point in points for line in wrapper.wrap(point)]
    return "\n".join([f"ipamd ({version}) bookworm; urgency=medium", "", *lines, "", f" -- {MAINTAINER}  {day} 00:00:00 +0000", ""])


def main():
    parts = re.split(r"^## ([0-9][0-9.]*), ([0-9-]+)\n", sys.stdin.read(), flags=re.M)
    entries = list(zip(parts[1::3], parts[2::3], parts[3::3]))
    if sys.argv[1] != entries[0][0]:
        entries[0] = (sys.argv[1], *entries[0][1:])
    print("\n".join(entry(*one) for one in entries), end="")


if __name__ == "__main__":
    main()
