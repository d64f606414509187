#!/usr/bin/env python3
"""Draws the prefixes of a register as a tree, from what `report tree` prints: a table under another, and in each a prefix to the right of those that
contain it, in the colour of its status. Prints an SVG.

    ipamd report tree --db FILE | python3 docs/tree.py > tree.svg
"""
import html
import re
import sys

COLOURS = {"container": "#dbe9f6", "active": "#e2f0d9", "reserved": "#fff2cc", "deprecated": "#ececec"}
LINE, STEP, WIDE, HIGH, MARGIN = 26, 30, 250, 20, 16
FONT = "font-family='DejaVu Sans, Verdana, sans-serif'"
# a prefix is indented by two spaces more than what contains it; one at the top, by two
PREFIX = re.compile(r"  ((?:  )*)(\S+) (container|active|reserved|deprecated)")


def text(left, top, words, size=12, colour="#000"):
    return f"<text x='{left}' y='{top}' font-size='{size}' fill='{colour}' {FONT}>{html.escape(words)}</text>"


def draw_prefix(depth, block, status, above, top):
    """A prefix with the line to what contains it. `above` has the places of the prefixes around it, outermost first."""
    left, parts = MARGIN + depth * STEP, []
    if above:
        parts.append(f"<path d='M{left - STEP + 10} {above[-1]} V{top + HIGH // 2} H{left}' fill='none' stroke='#999'/>")
    parts.append(f"<rect x='{left}' y='{top}' width='{WIDE}' height='{HIGH}' rx='4' fill='{COLOURS[status]}' stroke='#777'/>")
    return parts + [text(left + 8, top + 14, block), text(left + WIDE + 8, top + 14, status, 11, "#555")]


def draw(lines):
    """The parts of the picture, its width and its height."""
    parts, above, top, deepest = [], [], MARGIN, 0
    for number, line in enumerate(lines, 1):
        found = PREFIX.fullmatch(line)
        if not found:
            if not re.fullmatch(r"global|vrf \d+", line):
                sys.exit(f"line {number} is none of `report tree`: {line}")
            top += 14 if parts else 0
            parts.append(text(MARGIN, top + 14, line, 13))
            above = []
        else:
            depth = len(found[1]) // 2
            deepest, above = max(deepest, depth), above[:depth]
            parts += draw_prefix(depth, found[2], found[3], above, top)
            above.append(top + HIGH)
        top += LINE
    return parts, MARGIN * 2 + deepest * STEP + WIDE + 100, top + MARGIN


def main():
    if len(sys.argv) != 1:
        sys.exit("usage: ipamd report tree --db FILE | python3 docs/tree.py > tree.svg")
    parts, width, height = draw(sys.stdin.read().splitlines())
    print(f"<svg xmlns='http://www.w3.org/2000/svg' viewBox='0 0 {width} {height}' width='{width}' height='{height}'>")
    print("\n".join([f"<rect width='{width}' height='{height}' fill='white'/>"] + parts + ["</svg>"]))


if __name__ == "__main__":
    main()
