#!/usr/bin/env python3
"""docs/openapi-pools.json, compared with the program `poold`; conformance/openapi.sh says how.

    openapi_pools.py [--program PROGRAM] [--streams N] [--requests N] [--seed N]
"""
import os
import sys

sys.path.insert(0, os.path.dirname(os.path.dirname(os.path.abspath(__file__))))
from conformance import openapi
from conformance.agree_pools import Start
from conformance.openapi_pools_edges import PoolEdges


def main():
    given = openapi.options("POOLD", "poold")
    document = openapi.read_document("docs/openapi-pools.json")
    openapi.compare(document, given, Start, PoolEdges(document, given.program))


if __name__ == "__main__":
    main()
