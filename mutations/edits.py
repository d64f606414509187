#!/usr/bin/env python3
"""Tries mutation tests: deliberate bugs, each of which the prover must refuse. Those of mutations/edits are outside CI; CI itself tries those of
crates/*/must-fail. It copies the crates asked for and what they depend on, puts their edits into must-fail/, and runs `rt ci` in the copy, which proves all
of them side by side and tries each edit over what the check of its crate left. It prints what `rt` says as it goes, then a sum. A refusal for a name that the
edit takes away, or for a limit of the prover, says nothing of a contract and counts as *not shown*. Its status is 0 if every edit was refused and shown.

What CI has proved on this machine is taken from there, if the kit keeps it, and so are the edits that an earlier run tried: a run that was stopped loses
little. mutations/edits_reasons.txt gets the reason of each refusal, the prover's first line; mutations/edits_tried.txt gets a line for each crate that was tried.

usage: mutations/run edits [CRATE..]              the edits of mutations/edits; with no name, those of all crates
       mutations/run edits --controls [CRATE..]   the controls: harmless texts in the place of each mutation test of CI, which the prover must pass. All of a
                                             crate's are in at once; each is tried alone only where the crate is then refused
environment: EDITS_IN=FOLDER                 where the copy is made and stays, with all that `rt ci` said in its file `log` (default: a new folder, removed at the end)
             RT_JOBS=N                       as for `rt ci`
"""
import os
import re
import shutil
import subprocess
import sys
import tempfile

sys.path.insert(0, os.path.dirname(os.path.dirname(os.path.abspath(__file__))))
from mutations import edit_files, edits_tried

TOP, EDITS = edit_files.TOP, edit_files.EDITS
REASONS = f"{EDITS}_reasons.txt"
# What a crate's folder has beside its sources.
NOT_COPIED = ("out", "must-fail")
SAID = re.compile(r"^rt: must-fail (\w+)/(\S+)\.edit: (.*)")
NOT_SHOWN = re.compile(r"refused, as it must be \((?:only because a proof file names|only by a limit of the prover)")
REASON = re.compile(r"refused, as it must be(?: \(([^)]*)\))?:? ?(.*)")


def lines_of_crates():
    """The line of crates.txt of each crate, and the crates that it depends on."""
    with open(f"{TOP}/crates.txt", encoding="utf-8") as file:
        lines = [line.strip() for line in file if ":" in line and not line.startswith("#")]
    line_of = {line.split()[0].rstrip(":"): line for line in lines}
    return line_of, {name: [it for it in line.split(":", 1)[1].split() if it in line_of] for name, line in line_of.items()}


def with_all_below(asked, below):
    """These crates and all that they depend on."""
    found, left = set(), list(asked)
    while left:
        name = left.pop()
        if name not in found:
            found.add(name)
            left += below[name]
    return found


def copy_crates(to, asked):
    """Copies the sources of the crates that these need."""
    line_of, below = lines_of_crates()
    needed = with_all_below(asked, below)
    shutil.rmtree(f"{to}/crates", ignore_errors=True)
    shutil.copy(f"{TOP}/HANDLES", to)
    with open(f"{to}/crates.txt", "w", encoding="utf-8") as file:
        file.writelines(f"{line}\n" for name, line in line_of.items() if name in needed)
    for name in needed:
        at = f"{TOP}/crates/{name}"
        shutil.copytree(at, f"{to}/crates/{name}", ignore=lambda folder, parts, at=at: NOT_COPIED if folder == at else ())


def of_crates(asked, ending):
    """The files of mutations/edits with this ending that are of these crates."""
    return {it: path for it, path in edit_files.outside(ending).items() if it[0] in asked}


def put_edits(to, asked, ending):
    """Puts the edits with that ending of these crates where `rt ci` tries them, each alone."""
    for (crate, name), path in of_crates(asked, ending).items():
        os.makedirs(f"{to}/crates/{crate}/must-fail", exist_ok=True)
        shutil.copy(path, f"{to}/crates/{crate}/must-fail/{name}.edit")


def apply_controls(to, crate, controls):
    """Applies these controls of a crate to its sources, one after another, and formats them. Returns those whose text an earlier one has changed."""
    folder, left = f"{to}/crates/{crate}", []
    for path in controls:
        try:
            texts = edit_files.edited(path, folder)
        except edit_files.NotApplied:
            left.append(path)
            continue
        for file, text in texts.items():
            with open(f"{folder}/{file}", "w", encoding="utf-8") as changed:
                changed.write(text)
    subprocess.run(["rt", "fmt"], cwd=folder, check=True, stdout=subprocess.DEVNULL)
    return left


def try_all(copy):
    """Runs CI in the copy, and returns what it said of each edit, by crate and name."""
    said = {}
    with open(f"{copy}/log", "w", encoding="utf-8") as log:
        with subprocess.Popen(["rt", "ci"], cwd=copy, stdin=subprocess.DEVNULL, stdout=subprocess.PIPE, stderr=subprocess.STDOUT) as ci:
            for told in ci.stdout:
                line = told.decode(errors="replace")
                print(line, end="", file=log, flush=True)
                if line.startswith("rt: "):
                    print(line[4:], end="", flush=True)
                if found := SAID.match(line):
                    said[found[1], found[2]] = found[3]
    return said


def is_refused(text):
    return text.startswith("refused")


def is_shown(text):
    return is_refused(text) and not NOT_SHOWN.match(text)


def write_reasons(said):
    """Puts the reason of each of these refusals into the file of reasons, in the place of an older one."""
    reasons = {}
    if os.path.exists(REASONS):
        with open(REASONS, encoding="utf-8") as file:
            reasons = dict(line.rstrip("\n").split(": ", 1) for line in file if ": " in line)
    for (crate, name), text in said.items():
        limits, first = REASON.match(text).groups() if is_refused(text) else ("", text)
        reasons[f"{crate}/{name}"] = (f"not shown ({limits.split(',')[0]}): {first}" if limits else first).strip()
    there = {f"{crate}/{name}" for crate, name in edit_files.outside(".edit")}
    with open(REASONS, "w", encoding="utf-8") as file:
        file.writelines(f"{name}: {reasons[name]}\n" for name in sorted(reasons) if name in there)


def run(asked, change):
    """Runs CI in a copy of these crates that was changed so, and returns what was said of each edit, and of which crates it said that they are proved."""
    folder = os.environ.get("EDITS_IN")
    copy = os.path.abspath(folder) if folder else tempfile.mkdtemp()
    os.makedirs(copy, exist_ok=True)
    try:
        copy_crates(copy, asked)
        change(copy)
        said = try_all(copy)
        with open(f"{copy}/log", encoding="utf-8") as log:
            return said, set(re.findall(r"^rt: (\w+) (?:proved|is kept)", log.read(), re.MULTILINE))
    finally:
        if not folder:
            shutil.rmtree(copy)


def are_proved(crate):
    """Whether a crate is proved with its controls in: as many at once as change texts of their own."""
    left = list(of_crates([crate], ".control").values())
    while left:
        some = left

        def change(copy):
            nonlocal left
            left = apply_controls(copy, crate, some)

        _, proved = run([crate], change)
        if crate not in proved or left == some:
            return False
    return True


def try_controls_of(crate):
    """Tries the controls of a crate, together; where it is refused then, each alone. Returns those that the prover refused."""
    if are_proved(crate):
        return []
    said, _ = run([crate], lambda copy: put_edits(copy, [crate], ".control"))
    mine = {it: said.get(it, "not tried") for it in of_crates([crate], ".control")}
    failed = [it for it, text in mine.items() if not text.startswith("NOT REFUSED")]
    for it in failed:
        print(f"control {'/'.join(it)}: {mine[it]}")
    return failed


def try_controls(asked):
    """Tries the controls: each must be proved."""
    failed = 0
    for crate in asked:
        refused, every = len(try_controls_of(crate)), len(of_crates([crate], ".control"))
        print(f"{crate}: {every - refused} of {every} controls proved", flush=True)
        failed += refused
    return not failed


def try_edits(asked):
    """Tries the edits: each must be refused, and for what it says."""
    sums = {name: edits_tried.checksums(name) for name in asked}
    said, _ = run(asked, lambda copy: put_edits(copy, asked, ".edit"))
    write_reasons(said)
    counts = {}
    for name in asked:
        mine = [it for it in edit_files.outside(".edit") if it[0] == name]
        texts = [said.get(it, "") for it in mine]
        counts[name] = len(mine), sum(map(is_refused, texts)), sum(map(is_shown, texts))
    # (a crate that was changed meanwhile was tried over another text)
    done = {name: it for name, it in counts.items() if it[0] == it[1] and sums[name] == edits_tried.checksums(name)}
    edits_tried.note(done)
    every, refused, shown = (sum(it) for it in zip(*counts.values()))
    print(f"{refused} of {every} edits refused, {refused - shown} of them not shown")
    return shown == every


def main():
    words = sys.argv[1:]
    is_control = words[:1] == ["--controls"]
    ending = ".control" if is_control else ".edit"
    there = sorted({crate for crate, _ in edit_files.outside(ending)})
    asked = words[is_control:] or there
    for name in asked:
        if name not in there:
            sys.exit(f"edits: no crate {name} with files *{ending} in mutations/edits")
    sys.exit(not (try_controls if is_control else try_edits)(asked))


if __name__ == "__main__":
    main()
