"""Checks what the plain register (model/plain_register.py) says is available, claims and figures, block by block and address by address:
each candidate of a small block is tried by the definition itself, with no splitting and no union of spans. The registers are those that the
random conversations of model/talker.py make.

    model/run plain_count [STREAMS]
"""
import os
import sys

sys.path.insert(0, os.path.dirname(os.path.dirname(os.path.abspath(__file__))))
from model.plain_register import Service, converse, family_of
from model.plain_texts import contains, last_of, strictly_inside, width
from model.talker import Talker

MOST = 256


def in_table(row, parent):
    return row["vrf"] == parent["vrf"] or parent["vrf"] is None and parent.get("status") == "container"


def numbers(block):
    return range(block[1], last_of(block) + 1)


def blocks_of(within):
    """All blocks inside a small one, by first address and then by length."""
    family, first, length = within
    for number in numbers(within):
        for longer in range(length, width(family) + 1):
            if number % 2 ** (width(family) - longer) == 0:
                yield (family, number, longer)


def is_free(block, taken):
    return not any(block[0] == one[0] and any(one[1] <= number <= last_of(one) for number in numbers(block)) for one in taken)


def enclosing(block):
    family, first, length = block
    size = 2 ** (width(family) - length + 1)
    return (family, first // size * size, length - 1)


def available(within, taken):
    """Free blocks inside, whose enclosing block is not both inside and free."""
    return [block for block in blocks_of(within) if is_free(block, taken)
            and not (contains(within, enclosing(block)) and is_free(enclosing(block), taken))]


def usable(register, parent):
    """The addresses of a prefix that may be claimed, each asked for itself."""
    block = parent["prefix"]
    for number in numbers(block):
        omitted = not parent["is_pool"] and (block[0] == 4 and block[2] < 31 and number in (block[1], last_of(block))
                                             or block[0] == 6 and block[2] < 127 and number == block[1])
        held = any(row["address"][:2] == (block[0], number) and in_table(row, parent) for row in register.rows["ip-addresses"])
        if not omitted and not held and not in_a_range(register, parent["vrf"], block[0], number, "mark_populated"):
            yield number


def in_a_range(register, vrf, family, number, mark):
    return any(row["vrf"] == vrf and family_of(row) == family and row["start_address"][1] <= number <= row["end_address"][1]
               and row[mark] for row in register.rows["ip-ranges"])


def figure(register, kind, row):
    """The figure, with each address of the block or range asked for itself."""
    if row.get("mark_utilized"):
        return 100
    if kind == "ip-ranges":
        family, all_numbers = family_of(row), range(row["start_address"][1], row["end_address"][1] + 1)
    else:
        family, all_numbers = row["prefix"][0], numbers(row["prefix"])
    size = len(all_numbers)
    hosts = {one["address"][1] for one in register.rows["ip-addresses"] if family_of(one) == family and one["vrf"] == row.get("vrf")}
    if kind == "aggregates" or row["status"] == "container":
        blocks = [one["prefix"] for one in register.rows["prefixes"] if contains(row["prefix"], one["prefix"])
                  and (kind == "aggregates" or one["vrf"] == row["vrf"] and strictly_inside(one["prefix"], row["prefix"]))]
        count = sum(any(block[1] <= number <= last_of(block) for block in blocks) for number in all_numbers)
    elif kind == "ip-ranges":
        count = sum(number in hosts for number in all_numbers)
    else:
        count = sum(number in hosts or in_a_range(register, row["vrf"], family, number, "mark_utilized") for number in all_numbers)
        size -= 2 if family == 4 and row["prefix"][2] < 31 and not row["is_pool"] else 0
    return min(100, 100 * count // size)


def first_fit(within, length, taken):
    return next((block for block in blocks_of(within) if block[2] == length and is_free(block, taken)), None)


def check_prefix(register, row):
    taken = [one["prefix"] for one in register.rows["prefixes"] if strictly_inside(one["prefix"], row["prefix"]) and in_table(one, row)]
    found = list(register.free_blocks(row["prefix"], taken))
    assert sorted(taken) == sorted(register.child_blocks(row)) and found == available(row["prefix"], taken), row
    assert list(register.free_in_prefix(row)) == list(usable(register, row)), row
    for length in range(row["prefix"][2] + 1, width(row["prefix"][0]) + 1):
        fit = next((block[:2] + (length,) for block in found if block[2] <= length), None)
        assert fit == first_fit(row["prefix"], length, taken), (row, length)


def check_range(register, row):
    hosts = {one["address"][1] for one in register.rows["ip-addresses"] if one["vrf"] == row["vrf"] and family_of(one) == family_of(row)}
    wanted = [number for number in range(row["start_address"][1], row["end_address"][1] + 1) if number not in hosts and not row["mark_populated"]]
    assert list(register.free_in_range(row)) == wanted, row


def is_small(row):
    first, last = (row["prefix"][1], last_of(row["prefix"])) if "prefix" in row else (row["start_address"][1], row["end_address"][1])
    return last - first < MOST


def check(register):
    """How many rows were looked at."""
    rows = [(kind, row) for kind in ("prefixes", "ip-ranges", "aggregates") for row in register.rows[kind] if is_small(row)]
    for kind, row in rows:
        assert register.utilization(kind, row["id"]) == figure(register, kind, row), row
        if kind == "prefixes":
            check_prefix(register, row)
        if kind == "ip-ranges":
            check_range(register, row)
    return len(rows)


def main():
    streams, count = int(sys.argv[1]) if len(sys.argv) > 1 else 20, 0
    for seed in range(streams):
        service = Service(seed % 4 != 0)
        talker = Talker(seed, service)
        for number in range(400):
            list(converse(talker.request(), service))
            if number % 40 == 39:
                count += check(service.register)
    print(f"plain_count: {count} prefixes, ranges and aggregates of {streams} registers are as the definitions say")


if __name__ == "__main__":
    main()
