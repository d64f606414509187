"""Random conversations with `poold session` and with the plain pools (model/plain_pools.py), compared byte for byte, as conformance/agree.py has those of the
register.

    conformance/run agree_pools [--streams N] [--requests N] [--seed N] [--stored]
"""
import os
import sys

sys.path.insert(0, os.path.dirname(os.path.dirname(os.path.abspath(__file__))))
from conformance import agree
from model.plain_pools import PoolService, conversation
from model.pool_talker import Talker


class Start:
    """How a conversation of a seed begins."""

    def __init__(self, seed, given):
        self.words, self.listed = [], b"GET /api/ipam/asn-ranges/ HTTP/1.1\r\n"
        self.service = PoolService()
        self.talker = Talker(seed, self.service)


def main():
    given = agree.options().parse_args()
    agree.check_rows(given.program, *conversation())
    agree.compare(given, Start)


if __name__ == "__main__":
    main()
