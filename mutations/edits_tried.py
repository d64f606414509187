#!/usr/bin/env python3
"""Which crates' mutation tests of mutations/edits were all refused over the text that the crate has now. They take hours together, so they are tried crate by
crate. mutations/edits_tried.txt has a line for each crate whose edits were all refused, written by mutations/run edits alone: the crate; the checksum of its sources,
definitions, proofs and edits; that of the crates below it and the kit; how many edits; how many of them were not shown (refused for a name that the edit takes
away, or for a limit of the prover); and the date. A `?` stands for what was not noted then.

usage: mutations/run edits_tried left             prints the crates that have edits and were not tried over the text that they have now
       mutations/run edits_tried left --below     prints those, too, whose edits were tried over other crates below, or with another kit
"""
import datetime
import functools
import hashlib
import os
import subprocess
import sys

sys.path.insert(0, os.path.dirname(os.path.dirname(os.path.abspath(__file__))))
from mutations import edit_files

TOP, EDITS = edit_files.TOP, edit_files.EDITS
NOTED = f"{EDITS}_tried.txt"


def files_below(folder):
    """The files below a folder, in one order whatever the file system's is."""
    for at, folders, names in os.walk(folder):
        folders.sort()
        for name in sorted(names):
            yield os.path.join(at, name)


def sum_of(*folders, ending="", below=TOP):
    """The checksum of the files below these folders, with their paths below another one."""
    total = hashlib.sha256()
    for folder in folders:
        for path in files_below(folder):
            if path.endswith(ending):
                with open(path, "rb") as file:
                    total.update(repr((os.path.relpath(path, below), file.read())).encode())
    return total


def sources(crate):
    return [f"{TOP}/crates/{crate}/{part}" for part in ("src", "specs", "proofs")]


@functools.lru_cache(maxsize=None)
def kit():
    return subprocess.run(["rt", "version"], capture_output=True, text=True, check=True).stdout.strip()


@functools.lru_cache(maxsize=None)
def below_of():
    """What each crate depends on."""
    with open(f"{TOP}/crates.txt", encoding="utf-8") as file:
        lines = [line.split(":", 1) for line in file if ":" in line and not line.startswith("#")]
    return {name.split()[0]: rest.split() for name, rest in lines}


def all_below(crate):
    found, left = set(), list(below_of().get(crate, []))
    while left:
        name = left.pop()
        if name in below_of() and name not in found:
            found.add(name)
            left += below_of()[name]
    return sorted(found)


def checksums(crate):
    """The checksum of the crate and its edits, and that of the crates below and the kit."""
    own = sum_of(*sources(crate))
    own.update(sum_of(f"{EDITS}/{crate}", ending=".edit", below=EDITS).digest())
    below = hashlib.sha256(kit().encode())
    for name in all_below(crate):
        below.update(sum_of(*sources(name)).digest())
    return own.hexdigest()[:16], below.hexdigest()[:16]


def noted():
    """The lines of the file, by crate."""
    if not os.path.exists(NOTED):
        return {}
    with open(NOTED, encoding="utf-8") as file:
        return {line.split()[0]: line.split() for line in file if line.strip()}


def left(with_below=False):
    """The crates that have edits and were not tried over the text that they have now."""
    lines, many = noted(), 2 if with_below else 1
    for crate in sorted({crate for crate, _ in edit_files.outside(".edit")}):
        if lines.get(crate, [""] * 3)[1 : 1 + many] != list(checksums(crate)[:many]):
            yield crate


def note(counts):
    """Notes crates whose edits were all refused just now, by how many edits there are, how many were refused, and how many of these were shown."""
    lines = noted()
    for crate, (every, refused, shown) in counts.items():
        lines[crate] = [crate, *checksums(crate), str(every), str(refused - shown), datetime.date.today().isoformat()]
    with open(NOTED, "w", encoding="utf-8") as file:
        file.writelines(" ".join(lines[crate]) + "\n" for crate in sorted(lines))


def main():
    if sys.argv[1:] not in (["left"], ["left", "--below"]):
        sys.exit(__doc__)
    print("\n".join(left("--below" in sys.argv)))


if __name__ == "__main__":
    main()
