"""Runs the tests of the page one after another: the named ones, or all; conformance/page.sh says what they need.   page_all.py PORT [NAME...]"""
import importlib
import os
import sys
import time

sys.path.insert(0, os.path.dirname(os.path.dirname(os.path.abspath(__file__))))
from conformance.page_stand import Stand

NAMES = ["office", "hostile", "stops", "reading", "windows", "numbers", "large", "pictures"]


def main():
    port, names = int(sys.argv[1]), sys.argv[2:] or NAMES
    for name in names:
        start = time.monotonic()
        module = importlib.import_module(f"conformance.page_{name}")
        if hasattr(module, "run"):
            stand = Stand(port)
            try:
                module.run(stand)
            finally:
                stand.end()
        else:
            module.run_alone(port)
        print(f"    {name}: {time.monotonic() - start:.0f} s", file=sys.stderr)


if __name__ == "__main__":
    main()
