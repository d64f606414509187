#!/usr/bin/env python3
"""Plants bugs where no contract speaks, and says of each whether the test sees it that must: at files, sockets, arguments and limits, where the proof ends.

Each mutations/planted/CRATE/NAME.edit is one bug of the crate CRATE. Its first line is `seen by: CRATE MODULE::TEST`, with the test that must fail;
`seen by: check`, where the prover must refuse the crate itself; or `seen by: CRATE check`, where it must refuse one above it. Then comes an edit as in
crates/*/must-fail: `file: src/lib.rt`, `old: TEXT`, which that file has once, and `new: TEXT`; further pairs apply to what the earlier ones made. Each bug is
put into a copy of the crates that are needed, and `rt try --test` runs there in the test's crate, from which the other tests are taken (or `rt check`, over
the libraries that this checkout has proved). It prints a line a bug and, at the end, a sum; its status is 1 where one is not seen. A test that does not end
sees nothing. A bug takes one to five minutes.

usage: mutations/run planted [CRATE | CRATE/NAME ..]     all bugs, where none is named
       mutations/run planted --texts                     the bugs that can't be planted, or whose test is not there; it builds nothing, and CI runs it
environment: RT=COMMAND                             what runs as `rt`
"""
import os
import re
import shutil
import subprocess
import sys
import tempfile

sys.path.insert(0, os.path.dirname(os.path.dirname(os.path.abspath(__file__))))
from mutations.edits import lines_of_crates, with_all_below

TOP = os.path.dirname(os.path.dirname(os.path.abspath(__file__)))
PLANTED = f"{TOP}/mutations/planted"
RT = os.environ.get("RT", "rt")
# A test is compiled first, and runs checked, which is slow; one that does not end sees nothing.
SECONDS, TEST_SECONDS = 3600, 1200
REFUSED = re.compile(r"^fn \S+: (?:no proof|not proved)", re.M)
PART = re.compile(r"^(seen by|file|old|new): ?(.*)$")
A_TEST = re.compile(r"(?:^///.*\n)*^#\[test\]\nfn (\w+)\((?:.*\n)*?\}\n", re.M)


class Wrong(Exception):
    """A bug that can't be planted."""


class Bug:
    def __init__(self, crate, name):
        self.crate, self.name, self.seen_by, self.file, self.pairs = crate, name, None, None, []
        with open(f"{PLANTED}/{crate}/{name}.edit", encoding="utf-8") as it:
            for line in it.read().splitlines():
                self.read(line)
        if not self.seen_by or not self.pairs or any(new is None for _, _, new in self.pairs):
            raise Wrong("it has no test or no change")

    def read(self, line):
        found = PART.match(line)
        if not found:
            raise Wrong(f"no such line: {line}")
        word, text = found.groups()
        if word == "seen by":
            self.seen_by = text.split()
        elif word == "file":
            self.file = text
        elif word == "old":
            self.pairs.append((self.file, text, None))
        else:
            self.pairs[-1] = (*self.pairs[-1][:2], text)

    def tried_in(self):
        """The crate whose check or tests must see it."""
        return self.crate if self.seen_by == ["check"] else self.seen_by[0]

    def by_check(self):
        """Whether the prover must see it."""
        return self.seen_by[-1] == "check"

    def plant(self, crates):
        """Puts it into the crates of this folder."""
        for path, text in self.texts(crates).items():
            with open(path, "w", encoding="utf-8") as it:
                it.write(text)

    def texts(self, crates):
        """What it makes of the files of the crates of this folder."""
        made = {}
        for file, old, new in self.pairs:
            path = f"{crates}/{self.crate}/{file}"
            if path not in made:
                with open(path, encoding="utf-8") as it:
                    made[path] = it.read()
            if made[path].count(old) != 1:
                raise Wrong(f"{file} has this {made[path].count(old)} times: {old.strip()}")
            made[path] = made[path].replace(old, new)
        return made

    def has_test(self, crates):
        """Whether the test that must see it is in the crates of this folder."""
        if self.by_check():
            return os.path.isdir(f"{crates}/{self.tried_in()}")
        module, test = self.seen_by[1].rsplit("::", 1)
        path = f"{crates}/{self.tried_in()}/src/{module.replace('::', '/')}.rt"
        if not os.path.isfile(path):
            return False
        with open(path, encoding="utf-8") as it:
            return test in A_TEST.findall(it.read())


def linked(source, target):
    """A file at two places, or a copy of it, where they are on two disks."""
    try:
        os.link(source, target)
    except OSError:
        shutil.copy2(source, target)


def copy_crates(copy, name, line_of, below, is_proved):
    """The crates that one needs, and their lines; where it is to be proved, with the libraries that were proved."""
    needed = with_all_below([name], below)
    shutil.copy(f"{TOP}/HANDLES", copy)
    with open(f"{copy}/crates.txt", "w", encoding="utf-8") as file:
        file.writelines(f"{line}\n" for it, line in line_of.items() if it in needed)
    for it in needed:
        shutil.copytree(f"{TOP}/crates/{it}", f"{copy}/crates/{it}", ignore=shutil.ignore_patterns("out", "must-fail"))
        library = f"{TOP}/crates/{it}/out/rlib"
        if is_proved and os.path.isdir(library):
            shutil.copytree(library, f"{copy}/crates/{it}/out/rlib", copy_function=linked)


def leave_test(folder, test):
    """Takes all tests but this one from a crate, so that no other one is compiled and run."""
    for at, _, names in os.walk(f"{folder}/src"):
        for name in names:
            path = f"{at}/{name}"
            module = os.path.relpath(path, f"{folder}/src").removesuffix(".rt").replace("/", "::")
            with open(path, encoding="utf-8") as it:
                text = it.read()
            left = A_TEST.sub(lambda found: found.group(0) if f"{module}::{found.group(1)}" == test else "", text)
            with open(path, "w", encoding="utf-8") as it:
                it.write(left)


def run_in(folder, words):
    """What a command says. One that takes too long is ended, with all that it started."""
    how = {"stdin": subprocess.DEVNULL, "stdout": subprocess.PIPE, "stderr": subprocess.STDOUT, "start_new_session": True}
    with subprocess.Popen([RT, *words], cwd=folder, **how) as run:
        try:
            said, _ = run.communicate(timeout=SECONDS)
        except subprocess.TimeoutExpired:
            os.killpg(run.pid, 15)
            said, _ = run.communicate()
    return run.returncode, said.decode(errors="replace")


def outcome(bug, copy):
    """Whether the bug is seen, and what was said of it."""
    folder = f"{copy}/crates/{bug.tried_in()}"
    if bug.by_check():
        status, said = run_in(folder, ["check"])
        if REFUSED.search(said):
            return True, "refused by the prover"
        return False, "proved" if status == 0 else "no verdict: " + last_of(said)
    test = bug.seen_by[1]
    leave_test(folder, test)
    _, said = run_in(folder, ["try", "--test", "--seconds", str(TEST_SECONDS)])
    found = re.search(rf"^test {re.escape(test)} \.\.\. (\w+)(?:\n +.*)*", said, re.M)
    if not found:
        return False, f"{test} did not run: {last_of(said)}"
    if "no-answer" in found.group(0):
        return False, f"{test} did not end"
    return found.group(1) == "FAILED", f"{test} {'fails' if found.group(1) == 'FAILED' else 'passes'}"


def last_of(said):
    lines = [line for line in said.splitlines() if "error" in line] or said.splitlines() or [""]
    return lines[0][:200]


def tried(crate, name, line_of, below):
    with tempfile.TemporaryDirectory(prefix="planted-") as copy:
        try:
            bug = Bug(crate, name)
            if bug.tried_in() not in line_of:
                raise Wrong(f"there is no crate {bug.tried_in()}")
            copy_crates(copy, bug.tried_in(), line_of, below, bug.by_check())
            if not os.path.isdir(f"{copy}/crates/{crate}"):
                raise Wrong(f"{bug.tried_in()} does not need {crate}")
            bug.plant(f"{copy}/crates")
            return outcome(bug, copy)
        except Wrong as why:
            return False, f"bad edit: {why}"


def bugs_asked(asked):
    """The bugs that were named, or all."""
    every = [(crate, it[:-5]) for crate in sorted(os.listdir(PLANTED)) for it in sorted(os.listdir(f"{PLANTED}/{crate}")) if it.endswith(".edit")]
    chosen = [(crate, name) for crate, name in every if not asked or crate in asked or f"{crate}/{name}" in asked]
    missing = [it for it in asked if not any(it in (crate, f"{crate}/{name}") for crate, name in chosen)]
    if missing:
        sys.exit(f"no such bug: {' '.join(missing)}")
    return chosen


def unplantable(crate, name):
    """Why a bug can't be planted, if it can't."""
    try:
        bug = Bug(crate, name)
        bug.texts(f"{TOP}/crates")
        return None if bug.has_test(f"{TOP}/crates") else f"there is no {' '.join(bug.seen_by)}"
    except (Wrong, OSError) as why:
        return str(why)


def look():
    """Says which bugs can't be planted."""
    found = [(crate, name, unplantable(crate, name)) for crate, name in bugs_asked([])]
    for crate, name, why in found:
        if why:
            print(f"mutations/planted/{crate}/{name}.edit: {why}")
    sys.exit(any(why for _, _, why in found))


def main():
    if sys.argv[1:] == ["--texts"]:
        look()
    chosen = bugs_asked(sys.argv[1:])
    line_of, below = lines_of_crates()
    seen = 0
    for crate, name in chosen:
        is_seen, said = tried(crate, name, line_of, below)
        seen += is_seen
        print(f"{crate}/{name}: {'seen' if is_seen else 'NOT SEEN'}: {said}", flush=True)
    print(f"{seen} of {len(chosen)} seen")
    sys.exit(seen < len(chosen))


if __name__ == "__main__":
    main()
