#!/usr/bin/env python3
"""A conversation with `poold session`, for the test of `poold_trial`: the rows of model/plain_pools.py, which were written by hand, a claim of 40
numbers, and what a seed of model/pool_talker.py says behind them. The answers are those of the plain pools.

usage: model/run pool_conversation [--write]     says whether the test has this conversation, or writes it there
"""
import os
import sys

sys.path.insert(0, os.path.dirname(os.path.dirname(os.path.abspath(__file__))))
from model.plain_pools import PoolService, conversation, request_of
from model.plain_register import converse
from model.pool_talker import Talker

TOP = os.path.dirname(os.path.dirname(os.path.abspath(__file__)))
PLACE = f"{TOP}/crates/poold_trial/src/conversation.rt"
SEED, SPOKEN = 1, 120
HEAD = """//! A conversation with the pools, and its answers by other pools, written from the rules alone: model/pool_conversation.py makes it.

/// What is asked: {} requests, each on a line.
pub(crate) const ASKED: &str = "\\
{}";

/// The answers, likewise.
pub(crate) const ANSWERED: &str = "\\
{}";
"""


def is_text(request):
    try:
        request.decode()
        return True
    except UnicodeDecodeError:
        return False


def exchanges():
    """The requests and their answers, one after another over one service."""
    service = PoolService()
    talker = Talker(SEED, service)
    asked = conversation()[0] + [request_of("POST", "vlan-groups/3/available-vlans/", [{"name": f"room {at}"} for at in range(40)])]
    for request in asked:
        yield request, b"".join(converse(request, service))
    for _ in range(SPOKEN):
        request = talker.request()
        if is_text(request) and len(request) < 1000:
            yield request, b"".join(converse(request, service))


def literal(text):
    """The text as a line of a string of the source, which goes on behind it."""
    out = ""
    for it in text.decode():
        out += {"\\": "\\\\", '"': '\\"', "\r": "\\r", "\n": "\\n", "\t": "\\t"}.get(it) or (it if " " <= it != "\x7f" else f"\\u{{{ord(it):x}}}")
    return out + "\\\n"


def written():
    pairs = list(exchanges())
    return HEAD.format(len(pairs), "".join(literal(asked) for asked, _ in pairs), "".join(literal(told) for _, told in pairs))


def without_comment(text):
    """The text without its first line, which says what makes it: nothing is proved again for that."""
    return text.split("\n", 1)[1]


def main():
    if sys.argv[1:] == ["--write"]:
        with open(PLACE, "w", encoding="utf-8") as file:
            file.write(written())
        return
    with open(PLACE, encoding="utf-8") as file:
        if without_comment(file.read()) != without_comment(written()):
            sys.exit("crates/poold_trial/src/conversation.rt is not what model/pool_conversation.py --write writes")


if __name__ == "__main__":
    main()
