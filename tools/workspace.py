"""Makes a workspace in FOLDER with a program over crates of this repository: the crates that the program's line of crates.txt names and all below them, and
the program, whose files are those of TEXTS that end with `.in`, without that ending. (`rt ci` stops on an .rt outside a listed crate.)
The program is formatted. With arguments after `--` it is proved, built and run with them: what it prints is in FOLDER/out; if it fails, the prover's
errors are printed, all is in FOLDER/log, and the status is 1. What FOLDER has built of a crate stays if the crate's text is the same.

    tools/run workspace FOLDER TEXTS LINE [--with "KEY=VALUE.."].. [--from CRATE=FOLDER].. [-- ARGUMENT..]

--with: `@KEY@` in a file, or in its path, is VALUE; with several, each file is made for each. --from: a crate of another folder.
"""
import argparse
import os
import re
import shutil
import subprocess
import sys

TOP = os.path.dirname(os.path.dirname(os.path.abspath(__file__)))
PARTS = ("src", "specs", "proofs")
ERRORS = re.compile(r"error|no proof|not proved|goal")


def name_of(line):
    return line.split(":", 1)[0].split()[0]


def lines_of_crates():
    """The lines of crates.txt, by crate, in their order."""
    with open(f"{TOP}/crates.txt", encoding="utf-8") as file:
        return {name_of(line): line.strip() for line in file if ":" in line and not line.startswith("#")}


def with_all_below(line, lines):
    """The crates of the repository that a line names, and all below them."""
    found, left = set(), line.split(":", 1)[1].split()
    while left:
        name = left.pop()
        if name in lines and name not in found:
            found.add(name)
            left += lines[name].split(":", 1)[1].split()
    return found


def copy_crate(source, target):
    os.makedirs(target, exist_ok=True)
    for part in PARTS:
        shutil.rmtree(f"{target}/{part}", ignore_errors=True)
        if os.path.isdir(f"{source}/{part}"):
            shutil.copytree(f"{source}/{part}", f"{target}/{part}")


def filled(text, values):
    for key, value in values.items():
        text = text.replace(f"@{key}@", value)
    if left := re.search(r"@[A-Z]+@", text):
        sys.exit(f"workspace: nothing is said of {left[0]}")
    return text


def write_program(texts, target, values):
    """Writes the files of the program."""
    for at, _, names in os.walk(texts):
        for name in names:
            if name.endswith(".in"):
                path = filled(os.path.join(target, os.path.relpath(os.path.join(at, name[: -len(".in")]), texts)), values)
                os.makedirs(os.path.dirname(path), exist_ok=True)
                with open(os.path.join(at, name), encoding="utf-8") as file:
                    text = filled(file.read(), values)
                with open(path, "w", encoding="utf-8") as file:
                    file.write(text)


def make(folder, texts, line, values=({},), other=()):
    """Makes the workspace, and returns the folder of the program in it."""
    lines, program = lines_of_crates(), f"{folder}/crates/{name_of(line)}"
    below = with_all_below(line, lines)
    for name in below:
        copy_crate(dict(other).get(name, f"{TOP}/crates/{name}"), f"{folder}/crates/{name}")
    shutil.copy(f"{TOP}/HANDLES", folder)
    with open(f"{folder}/crates.txt", "w", encoding="utf-8") as file:
        file.writelines(f"{it}\n" for name, it in [*lines.items(), ("", line)] if name in below or it == line)
    for part in PARTS:
        shutil.rmtree(f"{program}/{part}", ignore_errors=True)
    for one in values:
        write_program(texts, program, one)
    subprocess.run(["rt", "fmt"], cwd=program, check=True, stdout=subprocess.DEVNULL)
    return program


def run(folder, program, words):
    with open(f"{folder}/out", "wb") as out, open(f"{folder}/log", "wb") as log:
        status = subprocess.run(["rt", "run", "--", *words], cwd=program, stdout=out, stderr=log).returncode
    if status:
        for name in ("log", "out"):
            with open(f"{folder}/{name}", encoding="utf-8", errors="replace") as file:
                sys.stderr.writelines(line for line in file if ERRORS.search(line))
        sys.exit(f"workspace: {os.path.basename(program)} did not run: {folder}/log")


def pairs(text):
    return dict(word.split("=", 1) for word in text.split())


def main():
    given = sys.argv[1:]
    words = given[given.index("--") + 1:] if "--" in given else None
    options = argparse.ArgumentParser()
    options.add_argument("folder")
    options.add_argument("texts")
    options.add_argument("line")
    options.add_argument("--with", action="append", type=pairs, dest="values")
    options.add_argument("--from", action="append", type=pairs, dest="other", default=[])
    asked = options.parse_args(given[: given.index("--")] if "--" in given else given)
    folder = os.path.abspath(asked.folder)
    os.makedirs(folder, exist_ok=True)
    program = make(folder, asked.texts, asked.line, asked.values or [{}], {name: at for one in asked.other for name, at in one.items()})
    if words is not None:
        run(folder, program, words)


if __name__ == "__main__":
    main()
