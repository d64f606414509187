#!/usr/bin/env python3
"""Reads what `rt ci` said, and fails where a mutation test showed nothing.

`rt ci` counts a mutation test as refused whatever the reason, and passes over one that does not apply. Here a test is a failure if it is a BAD EDIT, or is
refused only because a proof names what it takes away, or only by a limit of the prover.

usage: .ci/shown.py FILE STATUS      what `rt ci` said, and its exit status; prints nothing if each mutation test showed what it says, and ends with that status
"""
import re
import sys

SAYS_NOTHING = ("BAD EDIT", "only because a proof file names", "only by a limit of the prover")
COUNTED = re.compile(r"^(\d+) passed, (\d+) failed")


def main():
    said, status = sys.argv[1], int(sys.argv[2])
    with open(said, encoding="utf-8", errors="replace") as file:
        lines = [line.rstrip("\n") for line in file]
    empty = [line for line in lines if line.startswith("rt: ") and any(it in line for it in SAYS_NOTHING)]
    if not empty:
        sys.exit(status)
    counts = next((found for line in reversed(lines) if (found := COUNTED.match(line))), None)
    passed, failed = (int(counts[1]), int(counts[2])) if counts else (0, 1)
    # (`rt ci` counts a bad edit as neither)
    passed -= sum(SAYS_NOTHING[0] not in line for line in empty)
    print("These mutation tests show nothing of a contract:")
    for line in empty:
        print(f"  {line.removeprefix('rt: ')}")
    print(f"{passed} passed, {failed + len(empty)} failed")
    sys.exit(1)


if __name__ == "__main__":
    main()
