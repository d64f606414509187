#!/usr/bin/env python3
"""Draws the crates in layers, from crates.txt: a band for each of its comments, the last one on top. Crates depend on crates of their own band and of those
below. Crates of tests are dashed. Crates of the kit are not drawn. The picture is 800 pixels wide and has a background of its own, so that it can be read in
a light and in a dark theme.

    python3 docs/layers.py            writes docs/layers.svg
    python3 docs/layers.py --check    ends with 1 if a crate depends on one of a layer above, if docs/layers.svg is not what would be written, or if
                                      docs/ARCHITECTURE.md does not list the layers of crates.txt with the same crates in the same order; prints
                                      nothing if all is well
"""
import html
import os
import re
import sys

HERE = os.path.dirname(os.path.abspath(__file__))
COLOURS = ["#dbe9f6", "#e2f0d9", "#fff2cc", "#fce4d6", "#e8e0f0", "#d9eeee", "#f4dbe6", "#ececec", "#e0e7d0", "#f0e0c8"]
PAGE, MARGIN, HIGH, GAP, PER_LINE, TITLE = 800, 14, 26, 8, 6, 26
WIDE = (PAGE - 4 * MARGIN - (PER_LINE - 1) * GAP) / PER_LINE
FONT = "font-family='DejaVu Sans, Verdana, Helvetica, sans-serif'"


def read_crates(path):
    """The crates as name, what each depends on, and the number of the group; and the titles of the groups."""
    crates, titles = {}, []
    with open(path) as file:
        for line in file:
            line = line.strip()
            if line.startswith("#"):
                titles.append(line[1:].strip().rstrip(".").replace("`", ""))
            elif line:
                head, _, below = line.partition(":")
                crates[head.split()[0]] = (below.split(), len(titles) - 1)
    return crates, titles


def box(name, left, top, below):
    words = html.escape(f"{name} depends on " + (", ".join(below) if below else "nothing"))
    dashed, ink = (" stroke-dasharray='4 3'", "#555") if name.endswith("_trial") else ("", "#111")
    return (f"<g><title>{words}</title><rect x='{left:.1f}' y='{top}' width='{WIDE:.1f}' height='{HIGH}' rx='4' fill='white' stroke='#666'{dashed}/>"
            f"<text x='{left + WIDE / 2:.1f}' y='{top + 17}' text-anchor='middle' font-size='12' fill='{ink}' {FONT}>{html.escape(name)}</text></g>")


def band(number, title, crates, top):
    """A layer with its title and its crates, and its height."""
    names = [name for name in crates if crates[name][1] == number]
    lines = (len(names) + PER_LINE - 1) // PER_LINE
    high = TITLE + lines * (HIGH + GAP) + 4
    parts = [f"<rect x='{MARGIN}' y='{top}' width='{PAGE - 2 * MARGIN}' height='{high}' rx='6' fill='{COLOURS[number % len(COLOURS)]}'/>",
             f"<text x='{2 * MARGIN}' y='{top + 18}' font-size='14' font-weight='bold' fill='#111' {FONT}>{html.escape(title)}</text>"]
    for place, name in enumerate(names):
        left = 2 * MARGIN + place % PER_LINE * (WIDE + GAP)
        parts.append(box(name, left, top + TITLE + place // PER_LINE * (HIGH + GAP), crates[name][0]))
    return parts, high


def upward(crates):
    """A line for each crate that depends on one of a layer above."""
    return [f"layers: {name} depends on {other}, which is in a layer above: move one of them in crates.txt"
            for name in crates for other in crates[name][0] if other in crates and crates[other][1] > crates[name][1]]


def draw(crates, titles):
    parts, top = [], MARGIN
    for number in reversed(range(len(titles))):
        more, high = band(number, titles[number], crates, top)
        parts += more
        top += high + GAP
    top += 18
    parts.append(f"<text x='{MARGIN}' y='{top}' font-size='13' fill='#111' {FONT}>Crates depend on crates of their own layer and of those below. "
                 "Dashed: crates of tests.</text>")
    height = top + MARGIN
    head = f"<svg xmlns='http://www.w3.org/2000/svg' viewBox='0 0 {PAGE} {height}' width='{PAGE}' height='{height}'>"
    return "\n".join([head, f"<rect width='{PAGE}' height='{height}' fill='white'/>"] + parts + ["</svg>"]) + "\n"


def layers_of(crates, titles):
    """The layers of crates.txt as a title and the names of its crates."""
    return [(title, [name for name in crates if crates[name][1] == number]) for number, title in enumerate(titles)]


def read_map(text):
    """The layers of docs/ARCHITECTURE.md: a heading, and below it a list whose items begin with a crate."""
    parts = re.split(r"^### (.*)$", text.partition("\n## The map\n")[2].partition("\n## ")[0], flags=re.M)[1:]
    return [(title.replace("`", ""), re.findall(r"^- \*\*([a-z0-9_]+)\*\*:", body, flags=re.M)) for title, body in zip(parts[::2], parts[1::2])]


def differences(layers, others, page):
    """A line for each layer that the page lacks or lists otherwise."""
    said = dict(others)
    lines = [f"layers: {page} lists `{title}` as {', '.join(said.get(title, ['nothing']))}; crates.txt has {', '.join(names)}" for title, names in layers if said.get(title) != names]
    return lines or ([f"layers: {page} has the layers in another order, or one more"] if layers != others else [])


def check(text, path, layers):
    """Each page that is not that of crates.txt, a line each."""
    lines = [] if os.path.exists(path) and open(path).read() == text else ["layers: docs/layers.svg is not that of crates.txt; python3 docs/layers.py writes it"]
    return lines + differences(layers, read_map(open(os.path.join(HERE, "ARCHITECTURE.md")).read()), "docs/ARCHITECTURE.md")


def main():
    crates, titles = read_crates(os.path.join(HERE, "..", "crates.txt"))
    text = draw(crates, titles)
    path = os.path.join(HERE, "layers.svg")
    if sys.argv[1:] == ["--check"]:
        lines = upward(crates) + check(text, path, layers_of(crates, titles))
        if lines:
            sys.exit("\n".join(lines))
        return
    with open(path, "w") as file:
        file.write(text)


if __name__ == "__main__":
    main()
