#!/usr/bin/env python3
"""The checks of the repository that take seconds: what is made from something else is up to date, mutation tests apply, scripts can be read, and what pages and
scripts name is there.

usage: .ci/checks.py      prints what is wrong, and what should be looked at; its status is 1 if something is wrong
"""
import importlib.machinery
import importlib.util
import os
import re
import subprocess
import sys

TOP = os.path.dirname(os.path.dirname(os.path.abspath(__file__)))
SCRIPTS = (".ci", "bench", "conformance", "docs", "examples", "model", "mutations", "netbox", "packaging", "tools", "web")
# Each prints what is not up to date, and how it is made.
MADE = (
    ["docs/layers.py", "--check"],
    ["docs/process.py", "--check"],
    ["docs/crate_pages.py", "--check"],
    ["docs/figures.py", "--check"],
    ["docs/proof_page.py", "--check"],
    ["model/worked_rows.py"],
    ["mutations/edit_files.py"],
    ["mutations/planted.py", "--texts"],
    ["model/pool_conversation.py"],
    ["model/documents.py"],
    ["tools/prose.py"],
    ["tools/prose.py", "--crates"],
    ["tools/pages.py"],
)
SHELLS = {"sh": "sh", "bash": "bash"}
# The folders whose programs are started by their `run`.
FOLDERS = ("bench", "conformance", "model", "mutations", "tools")
# A file or a program of one of them, where a page or a script names it. (After a `$`, a `/`, a `.` or a `-` it is another one.)
NAMED = re.compile(rf"(?<![\w$./-])({'|'.join(FOLDERS)})/(run (?:--)?\w+|[\w.]*\w)")
# Written when mutation tests are tried.
MADE_LATER = ("mutations/edits_reasons.txt",)


def run(*words):
    ran = subprocess.run(words, cwd=TOP, capture_output=True, text=True, errors="replace")
    return ran.returncode, (ran.stdout + ran.stderr).strip()


def language(path):
    """What runs a script, by its ending or its first line, if it is known here."""
    if path.endswith(".py"):
        return "python3"
    if path.endswith(".sh"):
        return "bash"
    with open(f"{TOP}/{path}", "rb") as file:
        first = file.readline(200).decode(errors="replace")
    words = first.removeprefix("#!").split() if first.startswith("#!") else []
    return os.path.basename(words[-1]) if words else None


def unreadable():
    """The scripts that don't compile."""
    _, listed = run("git", "ls-files", "--", *SCRIPTS)
    for path in listed.splitlines():
        if not os.path.isfile(f"{TOP}/{path}") or os.path.islink(f"{TOP}/{path}"):
            continue
        kind = language(path)
        if kind == "python3":
            try:
                with open(f"{TOP}/{path}", encoding="utf-8") as file:
                    compile(file.read(), path, "exec")
            except (SyntaxError, ValueError) as why:
                yield f"{path}: {why}"
        elif kind in SHELLS:
            status, said = run(SHELLS[kind], "-n", path)
            if status:
                yield said


def programs():
    """What can be started, by folder."""
    found = {}
    for folder in FOLDERS:
        loader = importlib.machinery.SourceFileLoader(f"{folder}_run", f"{TOP}/{folder}/run")
        module = importlib.util.module_from_spec(importlib.util.spec_from_loader(loader.name, loader))
        loader.exec_module(module)
        found[folder] = {it.name: it for it in module.PROGRAMS}
    return found


def not_there():
    """What pages and scripts name of the folders of programs, and is not there; and the programs whose file is not there."""
    there = programs()
    for folder, its in there.items():
        for program in its.values():
            if not os.path.exists(f"{TOP}/{folder}/{program.file}"):
                yield f"{folder}/run {program.name}: there is no {folder}/{program.file}"
    _, listed = run("git", "ls-files", "--", "*.md", *SCRIPTS)
    for path in listed.splitlines():
        if os.path.islink(f"{TOP}/{path}") or path.endswith((".png", ".edit", ".control")) or not os.path.isfile(f"{TOP}/{path}"):
            continue
        with open(f"{TOP}/{path}", encoding="utf-8", errors="replace") as file:
            text = file.read()
        for folder, name in NAMED.findall(text):
            is_there = name[4:] in there[folder] or name[4:].startswith("--") if name.startswith("run ") else os.path.exists(f"{TOP}/{folder}/{name}")
            if not is_there and f"{folder}/{name}" not in MADE_LATER:
                yield f"{path}: there is no {folder}/{name}"


def public_functions():
    """How many public functions the libraries have, if docs/PROMISES.md says another number: each is to be examined."""
    _, listed = run("git", "grep", "-hE", r"^\s*pub fn ", "--", ":(glob)crates/*/src/**/*.rt", ":(glob,exclude)crates/*_trial/**")
    count = len(listed.splitlines())
    with open(f"{TOP}/docs/PROMISES.md", encoding="utf-8") as file:
        if f"The {count} public functions" not in file.read():
            yield f"docs/PROMISES.md: the libraries have {count} public functions; examine the new ones, and write the number"


def another_version():
    """Whether the first heading of CHANGES.md is of another version than the programs print."""
    with open(f"{TOP}/crates/program_entry/src/about.rt", encoding="utf-8") as file:
        version = re.search(r'^pub const VERSION: &str = "(.*)";$', file.read(), re.M)[1]
    with open(f"{TOP}/CHANGES.md", encoding="utf-8") as file:
        heading = re.search(r"^## ([0-9][0-9.]*)", file.read(), re.M)[1]
    if heading != version:
        yield f"CHANGES.md: the first heading is of version {heading}, and the programs print {version}"


def main():
    sys.dont_write_bytecode = True
    wrong = []
    for words in MADE:
        status, said = run(sys.executable, *words)
        if status:
            wrong.append(said or f"{words[0]} ends with status {status}")
    wrong += unreadable()
    wrong += not_there()
    wrong += public_functions()
    wrong += another_version()
    _, left = run(sys.executable, "mutations/edits_tried.py", "left")
    if left:
        print(f"note: the mutation tests outside CI of {len(left.split())} crates were not tried over the text that they have now: {' '.join(left.split())}")
    if wrong:
        print("\n".join(wrong))
    sys.exit(bool(wrong))


if __name__ == "__main__":
    main()
