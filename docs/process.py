#!/usr/bin/env python3
"""Draws a running process of `serve`, and one of `mirror`: threads, what they share, the file. The picture is 800 pixels wide and has a background of its own, so
that it can be read in a light and in a dark theme.

    python3 docs/process.py            writes docs/process.svg
    python3 docs/process.py --check    ends with 1 if docs/process.svg is not what would be written; prints nothing if all is well
"""
import html
import os
import sys

PATH = os.path.join(os.path.dirname(os.path.abspath(__file__)), "process.svg")
FONT = "font-family='DejaVu Sans, Verdana, Helvetica, sans-serif'"
WIDE, HIGH = 800, 640
THREAD, SHARED, OUTSIDE = "#e2f0d9", "#dbe9f6", "#f4f4f4"


def text(left, top, words, size=12, more=""):
    return f"<text x='{left}' y='{top}' font-size='{size}' fill='#111' {FONT}{more}>{html.escape(words)}</text>"


def box(left, top, wide, high, lines, fill):
    """A box whose first line is its title."""
    parts = [f"<rect x='{left}' y='{top}' width='{wide}' height='{high}' rx='5' fill='{fill}' stroke='#666'/>"]
    for place, line in enumerate(lines):
        parts.append(text(left + 9, top + 17 + 15 * place, line, 12, " font-weight='bold'" if place == 0 else ""))
    return parts


def arrow(x1, y1, x2, y2, tail=" marker-start='url(#tail)'"):
    return [f"<line x1='{x1}' y1='{y1}' x2='{x2}' y2='{y2}' stroke='#444' stroke-width='1.4'{tail} marker-end='url(#head)'/>"]


def frame(top, high, words):
    return [f"<rect x='170' y='{top}' width='470' height='{high}' rx='8' fill='none' stroke='#333' stroke-width='1.6' stroke-dasharray='6 4'/>", text(182, top + 20, words, 13, " font-weight='bold'")]


def serve(top):
    parts = frame(top, 270, "ipamd serve: one process")
    parts += box(14, top + 76, 118, 62, ["Clients", "HTTP, or nginx", "in front of them"], OUTSIDE)
    parts += box(184, top + 30, 440, 42, ["main thread", "opens the file, binds the port, starts the workers and waits for them"], THREAD)
    for place, name in enumerate(("worker 1", "worker 2", "worker N")):
        y = top + 80 + 60 * place
        parts += box(184, y, 196, 50, [f"{name}: a thread", "lane (accepts), seat, routes"], THREAD)
        parts += arrow(132, top + 92 + 16 * place, 184, y + 25)
        parts += arrow(380, y + 25, 428, top + 106 + 34 * place)
    parts += box(428, top + 80, 196, 170, ["history_lock", "one caller at a time"], SHARED)
    parts += box(440, top + 124, 172, 114, ["Register", "rows of seven kinds", "trees of blocks", "log of changes (places)", "keeper: stored tables"], "white")
    parts += arrow(612, top + 205, 656, top + 205)
    parts += box(656, top + 165, 130, 82, ["FILE, FILE-wal", "SQLite: a change", "is on the disk", "before its answer"], OUTSIDE)
    return parts


def mirror(top):
    parts = frame(top, 270, "ipamd mirror: one process")
    parts += box(14, top + 44, 118, 48, ["Operator", "stdin, stdout"], OUTSIDE)
    parts += arrow(132, top + 68, 184, top + 68)
    parts += box(184, top + 36, 440, 76, ["main thread: the operator's session", "has the register for itself, without a lock;", "publishes each accepted change", "before its answer is sent"], THREAD)
    parts += arrow(624, top + 68, 656, top + 68)
    parts += box(656, top + 46, 130, 44, ["FILE, FILE-wal", "with --db FILE"], OUTSIDE)
    parts += box(428, top + 150, 196, 106, ["Two copies of the VRFs", "and prefixes (left_right)", "shown: readers read it", "spare: takes the change;", "then the two swap"], SHARED)
    parts += arrow(526, top + 112, 526, top + 150, "")
    parts += box(14, top + 172, 118, 48, ["Clients", "HTTP; they read"], OUTSIDE)
    for place, name in enumerate(("reader 1", "reader N")):
        y = top + 144 + 60 * place
        parts += box(184, y, 196, 50, [f"{name}: a thread", "lane (accepts), look, routes"], THREAD)
        parts += arrow(132, top + 188 + 16 * place, 184, y + 25)
        parts += arrow(380, y + 25, 428, top + 184 + 40 * place)
    return parts


def draw():
    head = f"<svg xmlns='http://www.w3.org/2000/svg' viewBox='0 0 {WIDE} {HIGH}' width='{WIDE}' height='{HIGH}'>"
    marks = "<defs><marker id='head' viewBox='0 0 8 8' refX='7' refY='4' markerWidth='7' markerHeight='7' orient='auto'><path d='M0 0 L8 4 L0 8 z' fill='#444'/></marker>" \
            "<marker id='tail' viewBox='0 0 8 8' refX='1' refY='4' markerWidth='7' markerHeight='7' orient='auto'><path d='M8 0 L0 4 L8 8 z' fill='#444'/></marker></defs>"
    legend = text(14, HIGH - 14, "Green: a thread. Blue: shared by threads. Grey: outside the process.", 12)
    return "\n".join([head, marks, f"<rect width='{WIDE}' height='{HIGH}' fill='white'/>"] + serve(14) + mirror(310) + [legend, "</svg>"]) + "\n"


def main():
    wanted = draw()
    if sys.argv[1:] == ["--check"]:
        if not os.path.exists(PATH) or open(PATH, encoding="utf-8").read() != wanted:
            sys.exit("process: docs/process.svg is not up to date; python3 docs/process.py writes it")
        return
    with open(PATH, "w", encoding="utf-8") as file:
        file.write(wanted)


if __name__ == "__main__":
    main()
