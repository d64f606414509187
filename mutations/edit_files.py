#!/usr/bin/env python3
"""Mutation tests as files: deliberate bugs that the prover must refuse, and controls, which are harmless texts in the same place that it must pass.

A file has lines `file: PATH` (of the crate's src/), `old: TEXT` and `new: TEXT`. Each TEXT is one line and stands once in the file as the pairs before it have
left it. CI tries those of crates/CRATE/must-fail; mutations/edits/CRATE has the others (NAME.edit), and a control (NAME.control) for each that CI tries.

usage: mutations/run edit_files      says which of them do not apply, or have no control; its status is then 1
"""
import glob
import os
import sys

TOP = os.path.dirname(os.path.dirname(os.path.abspath(__file__)))
EDITS = f"{TOP}/mutations/edits"


class NotApplied(Exception):
    pass


def in_ci():
    """The files of the mutation tests that CI tries, by crate and name."""
    found = glob.glob(f"{TOP}/crates/*/must-fail/*.edit")
    return {(it.split("/")[-3], os.path.basename(it)[: -len(".edit")]): it for it in sorted(found)}


def outside(ending):
    """The files of mutations/edits with this ending, by crate and name."""
    found = glob.glob(f"{EDITS}/*/*{ending}")
    return {(it.split("/")[-2], os.path.basename(it)[: -len(ending)]): it for it in sorted(found)}


def pairs_in(path):
    """The (file, old, new) of a mutation test's lines, in order."""
    pairs, file, old = [], None, None
    with open(path, encoding="utf-8") as lines:
        for line in lines.read().split("\n"):
            if line.startswith("file: "):
                file = line[len("file: "):].strip()
            elif line.startswith("old: "):
                old = line[len("old: "):]
            elif line.startswith("new: "):
                if file is None or old is None:
                    raise NotApplied("a line `new:` stands before its `file:` and `old:`")
                pairs.append((file, old, line[len("new: "):]))
                old = None
    if not pairs:
        raise NotApplied("it has no pair of lines `old:` and `new:`")
    return pairs


def edited(path, folder):
    """The texts of a crate's files, by their path in its folder, as this mutation test changes them."""
    texts = {}
    for file, old, new in pairs_in(path):
        if file not in texts:
            with open(f"{folder}/{file}", encoding="utf-8") as text:
                texts[file] = text.read()
        count = texts[file].count(old)
        if count != 1:
            raise NotApplied(f"its text stands {count} times in {file}: {old.strip()[:100]}")
        texts[file] = texts[file].replace(old, new)
    return texts


def faults():
    """A line for each file that does not apply, and for each mutation test of CI without a control."""
    tests, controls = in_ci(), outside(".control")
    for of in (tests, controls, outside(".edit")):
        for (crate, name), path in of.items():
            try:
                edited(path, f"{TOP}/crates/{crate}")
            except (NotApplied, OSError) as why:
                yield f"{os.path.relpath(path, TOP)}: {why}"
    for crate, name in sorted(set(tests) - set(controls)):
        yield f"crates/{crate}/must-fail/{name}.edit has no control in mutations/edits/{crate}"
    for crate, name in sorted(set(controls) - set(tests)):
        yield f"mutations/edits/{crate}/{name}.control belongs to no mutation test of CI"


def main():
    found = list(faults())
    print("\n".join(found), end="\n" if found else "")
    sys.exit(bool(found))


if __name__ == "__main__":
    main()
