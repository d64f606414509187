#!/usr/bin/env python3
"""Tries mutation tests of definitions: deliberate mistakes in a crate's definitions, each of which a law of a crate above must refuse.

An edit of mutations/definitions/ names the law that is to refuse it (`law: CRATE::LAW`), a file below crates/ (`file:`), and pairs of lines `old:` and
`new:`, where the old text is once in the file. CI can't try these: its mutation tests change a file of the crate that refuses them. So the crates are
copied, and the law is checked over all crates below it, taken as sources: only the lemmas that the law rests on are checked. It takes about 25
processor seconds an edit, and a gigabyte. A file that ends in .control is a harmless change, and its law is to be proved.

It prints one line for each: the law, the first declaration of the law's crate that was refused, and the first one of a crate below, if any. Its status
is 1 if an edit was proved, or a control refused.

usage: mutations/run definitions [NAME..]
"""
import os
import re
import shutil
import subprocess
import sys
import tempfile

sys.path.insert(0, os.path.dirname(os.path.dirname(os.path.abspath(__file__))))
from tools.over import command, crates_below, lines_of_crates

TOP = os.path.abspath(os.path.join(os.path.dirname(os.path.abspath(__file__)), ".."))
FOLDER = os.path.join(TOP, "mutations", "definitions")


def read_edit(path):
    """The law's crate, the law, the file, and the pairs of texts."""
    law, file, pairs = None, None, []
    with open(path, encoding="utf-8") as text:
        for line in text.read().splitlines():
            word, _, rest = line.partition(": ")
            if word == "law":
                law = rest
            elif word == "file":
                file = rest
            elif word == "old":
                pairs.append([rest, None])
            elif word == "new":
                pairs[-1][1] = rest
    return law.split("::") + [file, pairs]


def refused_for(crate, told):
    """The first declaration of the law's crate that was refused, and the first one below it, if any."""
    own = re.search(r"^\./(\S+)\.antt:\d+:\d+: error: .*?`([^`]+)`", told, re.M)
    below = re.search(r"^/\S*/crates/(\S+)\.antt:\d+:\d+: error: .*?`([^`]+)`", told, re.M)
    named = [f"{crate}/{own.group(1)} {own.group(2)}"] if own else []
    named += [f"{below.group(1)} {below.group(2)}"] if below else []
    return ", and ".join(named) or "nothing that is named"


def try_edit(copy, path):
    """One line on the edit, and whether it went as it is to."""
    crate, law, file, pairs = read_edit(path)
    at = f"{copy}/crates/{file}"
    with open(at, encoding="utf-8") as text:
        before = after = text.read()
    for old, new in pairs:
        if after.count(old) != 1:
            return f"does not apply: {old}", False
        after = after.replace(old, new)
    with open(at, "w", encoding="utf-8") as text:
        text.write(after)
    words = command(copy, crate, [f"{crate}::{law}"], "--jobs", "1")
    ran = subprocess.run(words, cwd=f"{copy}/crates/{crate}", capture_output=True, text=True, errors="replace")
    with open(at, "w", encoding="utf-8") as text:
        text.write(before)
    told = ran.stdout + ran.stderr
    proved = re.search(rf"^fn {crate}::{law}: proved", told, re.M) is not None
    if path.endswith(".control"):
        return f"{crate}::{law} {'proved' if proved else 'refused at ' + refused_for(crate, told)}", proved
    return f"{crate}::{law} {'PROVED' if proved else 'refused at ' + refused_for(crate, told)}", not proved and "error" in told


def main():
    names = sorted(name for name in os.listdir(FOLDER) if not sys.argv[1:] or name.rsplit(".", 1)[0] in sys.argv[1:])
    well = True
    lines = lines_of_crates()
    laws = {read_edit(f"{FOLDER}/{name}")[0] for name in names}
    with tempfile.TemporaryDirectory() as copy:
        for crate in laws.union(*(crates_below(law, lines) for law in laws)):
            for part in ("src", "specs", "proofs"):
                shutil.copytree(f"{TOP}/crates/{crate}/{part}", f"{copy}/crates/{crate}/{part}")
        for name in names:
            line, fine = try_edit(copy, f"{FOLDER}/{name}")
            print(f"{name}: {line}", flush=True)
            well = well and fine
    sys.exit(0 if well else 1)


if __name__ == "__main__":
    main()
