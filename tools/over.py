#!/usr/bin/env python3
"""Proves a crate over the sources of the crates below it, where no library of theirs was proved and kept: for a change in a crate high up, minutes in place of
hours. What the crates below promise is taken from their texts, so only `rt ci` is the verdict.

It prints what the prover says but for the lines of what is proved, and at the end how many functions were. What was checked is kept in a folder, by the full
names of modules, so that all crates of a checkout, and copies of it, may share one. A check of a crate near the top takes six gigabytes.

usage: tools/run over CRATE [MODULE | MODULE::FUNCTION ..] [--holes] [--test] [--jobs N] [--kept FOLDER]
       without a module, all of the crate; --holes goes past open goals; --test checks the test functions too
       FOLDER is ~/.cache/ipamd-over, if none is given
"""
import argparse
import os
import re
import subprocess
import sys

TOP = os.path.dirname(os.path.dirname(os.path.abspath(__file__)))
PROVED = re.compile(r"^fn \S+: proved", re.M)
# What is printed while it works, and one line for each function that is proved.
ROUTINE = re.compile(r"^(?:fn \S+: proved|checked |so far: |statements |\s*$)")


def lines_of_crates():
    """What each crate depends on."""
    with open(f"{TOP}/crates.txt", encoding="utf-8") as file:
        lines = [line.strip() for line in file if ":" in line and not line.startswith("#")]
    return {line.split()[0].rstrip(":"): line.split(":", 1)[1].split() for line in lines}


def crates_below(crate, lines):
    """The crates of the repository that the crate rests on, lowest first."""
    found, rest = set(), [crate]
    while rest:
        new = [name for name in lines[rest.pop()] if name in lines and name not in found]
        found.update(new)
        rest += new
    return [name for name in lines if name in found]


def command(top, crate, only, *more):
    """The check of these functions of a crate, with the crates below, which are in the folder `top`, taken as sources."""
    lines = lines_of_crates()
    below = crates_below(crate, lines)
    home = os.path.dirname(subprocess.run(["rt", "doc"], capture_output=True, text=True, check=True).stdout.split()[-1])
    outside = sorted({name for used in below + [crate] for name in lines[used] if name not in lines} | {"core"})
    root = "src/lib.rt" if os.path.exists(f"{top}/crates/{crate}/src/lib.rt") else "src/main.rt"
    said = [f"{home}/bin/rattle", "check", "--crate-name", crate, root]
    said += ["--extern", f"std={home}/rlibs/std.rlib", "-L", f"dependency={home}/rlibs"]
    for name in outside:
        said += ["--extern", f"{name}={home}/rlibs/{name}.rlib"]
    for name in below:
        said += ["--lib", f"{name}:{','.join(['core', 'std'] + lines[name])}={top}/crates/{name}/src/lib.rt"]
    said += ["--antt-project", f"{home}/rattle/logic/antt-project.json", "--logic-built", f"{home}/logic_built", "--links", f"{crate}="]
    for path in only:
        said += ["--only", path]
    return said + list(more)


def asked():
    parser = argparse.ArgumentParser(usage="tools/run over CRATE [MODULE | MODULE::FUNCTION ..] [--holes] [--test] [--jobs N] [--kept FOLDER]")
    parser.add_argument("crate")
    parser.add_argument("modules", nargs="*")
    parser.add_argument("--holes", action="store_true")
    parser.add_argument("--test", action="store_true")
    parser.add_argument("--jobs", default="2")
    parser.add_argument("--kept", default=os.path.expanduser("~/.cache/ipamd-over"))
    given = parser.parse_args()
    if given.crate not in lines_of_crates():
        parser.error(f"there is no crate {given.crate}")
    return given


def main():
    given = asked()
    os.makedirs(given.kept, exist_ok=True)
    more = ["--jobs", given.jobs, "--incremental", given.kept]
    more += ["--allow-holes"] if given.holes else []
    more += ["--test"] if given.test else []
    only = [f"{given.crate}::{module}" for module in given.modules] or [given.crate]
    how = {"stdout": subprocess.PIPE, "stderr": subprocess.STDOUT, "text": True, "errors": "replace"}
    run = subprocess.run(command(TOP, given.crate, only, *more), cwd=f"{TOP}/crates/{given.crate}", **how)
    for line in run.stdout.splitlines():
        if not ROUTINE.match(line):
            print(line)
    print(f"{given.crate}: {len(PROVED.findall(run.stdout))} functions proved")
    sys.exit(run.returncode)


if __name__ == "__main__":
    main()
