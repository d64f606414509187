#!/usr/bin/env python3
"""Compares the text of addresses with Python's `ipaddress`, over random and mutated texts.

usage: conformance/run text_compare [COUNT [SEED]]

A small program over inet_num is made in a temporary folder, proved and built there by `rt run`, and given every text. Of
each it prints what read_addr, read_host and read_block answer, a value as its canonical text. Two things are compared:
the accepted texts, values and canonical texts with `ipaddress`, and the faults with the rule as it is written in the
documents of this repository, spelled here once more by splitting at the colons. The differences on purpose are counted:

  zone         `fe80::1%eth0`: ipaddress takes a zone, we refuse it
  no length    `10.0.0.0`: ipaddress takes it as a network of one address, read_block asks for a length (Length)
  mask         `10.0.0.0/255.0.0.0`: ipaddress takes masks of IPv4, we refuse them (Length)
  leading zero `10.0.0.0/08`: ipaddress takes it, we refuse it (Length)
  mapped       `::ffff:192.0.2.1`: newer versions of ipaddress write a dotted tail, we write groups
"""
import ipaddress
import os
import random
import re
import subprocess
import sys
import tempfile
import time
from collections import Counter

sys.path.insert(0, os.path.dirname(os.path.dirname(os.path.abspath(__file__))))
from tools import workspace

# ---- texts

def random_group(rng):
    value = rng.choice([0, 0, 0, 1, rng.randrange(16), rng.randrange(256), rng.randrange(65536), 0xffff])
    text = rng.choice(["%x", "%x", "%X", "%04x", "%02x"]) % value
    return text


def random_quad(rng):
    return ".".join(str(rng.choice([0, 1, 9, 10, 99, 100, 255, rng.randrange(256)])) for _ in range(4))


def random_six(rng):
    groups = [random_group(rng) for _ in range(8)]
    if rng.random() < 0.25:
        groups[6:] = [random_quad(rng)]
    if rng.random() < 0.6:
        i = rng.randrange(len(groups) + 1)
        j = rng.randrange(i, len(groups) + 1)
        return ":".join(groups[:i]) + "::" + ":".join(groups[j:])
    return ":".join(groups)


def random_text(rng):
    text = random_quad(rng) if rng.random() < 0.35 else random_six(rng)
    form = rng.random()
    if form < 0.5:
        width = 128 if ":" in text else 32
        length = rng.choice([0, 1, 8, 24, 32, 33, 64, 127, 128, 129, 255, 256, 999, rng.randrange(width + 1), width])
        if form < 0.25 and length <= width and valid(text):
            text = cleared(text, length)
        text += "/" + rng.choice(["%d", "%d", "%d", "%02d", "+%d", " %d", "%d/", "%d "]) % length
        if form < 0.01:
            text = text.split("/")[0] + "/255.255.255." + rng.choice(["0", "255"])
    return text


def cleared(text, length):
    """The network address of this length."""
    value = ipaddress.ip_address(text)
    family = ipaddress.IPv4Network if value.version == 4 else ipaddress.IPv6Network
    return str(family((int(value), length), strict=False).network_address)


def valid(text):
    try:
        ipaddress.ip_address(text)
        return True
    except ValueError:
        return False


ALPHABET = "0123456789abcdefABCDEFg:::::....//% +-x\u0663"


def mutated(rng, text):
    for _ in range(rng.choice([0, 1, 1, 2, 3])):
        i = rng.randrange(len(text) + 1)
        kind = rng.random()
        if kind < 0.35:
            text = text[:i] + rng.choice(ALPHABET) + text[i:]
        elif kind < 0.65:
            text = text[:i] + text[i + 1:]
        elif kind < 0.9:
            text = text[:i] + rng.choice(ALPHABET) + text[i + 1:]
        else:
            j = rng.randrange(len(text) + 1)
            text = text[:min(i, j)] + text[max(i, j):]
    return text


# ---- the rule, once more

def is_octet(part):
    return re.fullmatch("0|[1-9][0-9]{0,2}", part, re.ASCII) is not None and int(part) <= 255


def is_group(piece):
    return re.fullmatch("[0-9a-fA-F]{1,4}", piece, re.ASCII) is not None


def fault_of_address(text):
    """None for an address, else the first fault."""
    if ":" not in text:
        parts = text.split(".")
        if len(parts) != 4:
            return "Shape"
        return None if all(map(is_octet, parts)) else "Octet"
    twice = text.find("::")
    if twice >= 0 and text.find("::", twice + 1) >= 0:
        return "Shape"
    if re.match(":(?!:)", text) or re.search("(?<!:):$", text):
        return "Shape"
    pieces = [p for p in text.split(":") if p]
    last = text.split(":")[-1]
    count = len(pieces) + ("." in last)
    if (count > 7) if twice >= 0 else (count != 8):
        return "Shape"
    if "." in last and len(last.split(".")) != 4:
        return "Shape"
    groups = pieces[:-1] if "." in last else pieces
    if not all(map(is_group, groups)):
        return "Group"
    if "." in last and not all(map(is_octet, last.split("."))):
        return "Octet"
    return None


def canonical(address):
    """The canonical text of an ipaddress value: its own text, but for an IPv4-mapped one in groups."""
    text = str(address)
    if address.version == 6 and "." in text:
        low = int(address) & 0xffffffff
        text = "::ffff:%x:%x" % (low >> 16, low & 0xffff)
    return text


def ruled(text):
    """What the rule says of the text as an address, a host and a block, values by ipaddress."""
    fault = fault_of_address(text)
    address = fault or canonical(ipaddress.ip_address(text))
    front, slash, rest = text.partition("/")
    fault = fault_of_address(front)
    if fault:
        return address, fault, fault
    value = ipaddress.ip_address(front)
    width = value.max_prefixlen
    if slash and (not re.fullmatch("0|[1-9][0-9]{0,2}", rest, re.ASCII) or int(rest) > width):
        return address, "Length", "Length"
    length = int(rest) if slash else width
    host = "%s/%03d" % (canonical(value), length)
    if not slash:
        return address, host, "Length"
    family = ipaddress.IPv4Network if value.version == 4 else ipaddress.IPv6Network
    network = family((int(value), length), strict=False)
    block = "%s/%d" % (canonical(network.network_address), length)
    return address, host, block if network.network_address == value else "HostBits " + block


def peer(text, kind):
    """What ipaddress alone says."""
    try:
        if kind == "address":
            return canonical(ipaddress.ip_address(text))
        network = ipaddress.ip_network(text, strict=True)
        return "%s/%d" % (canonical(network.network_address), network.prefixlen)
    except ValueError:
        return None


def is_fault(answer):
    return answer.split(" ")[0] in ("Octet", "Group", "Shape", "Length", "HostBits")


def purpose(text, kind, ours, theirs):
    """Why the two differ on purpose, or None."""
    front, slash, rest = text.partition("/")
    if theirs is not None and is_fault(ours):
        if "%" in front:
            return "zone"
        if kind == "block" and ours == "Length":
            if not slash:
                return "no length"
            if "." in rest:
                return "mask"
            if re.fullmatch("0[0-9]+", rest, re.ASCII):
                return "leading zero"
    return None


# ---- the run

def answers_of(texts, repository, folder):
    driver = workspace.make(folder, os.path.join(repository, "conformance", "text_compare"), "text_driver: inet_num")
    given = os.path.join(folder, "texts")
    with open(given, "w", encoding="utf-8") as f:
        f.writelines(text + "\n" for text in texts)
    start = time.time()
    with open(given, "rb") as f:
        run = subprocess.run(["rt", "run"], cwd=driver, stdin=f, stdout=subprocess.PIPE, stderr=subprocess.PIPE)
    lines = run.stdout.decode().split("\n")
    print("rt run: status %d, %.1f s with the proof and the build" % (run.returncode, time.time() - start))
    if run.returncode != 0:
        print(run.stderr.decode()[-3000:], "\n".join(lines[-20:]))
        sys.exit(1)
    return [line.split("|") for line in lines if line.count("|") == 2]


def main():
    count = int(sys.argv[1]) if len(sys.argv) > 1 else 1000000
    seed = int(sys.argv[2]) if len(sys.argv) > 2 else 1
    rng = random.Random(seed)
    texts = [mutated(rng, random_text(rng)) for _ in range(count)]
    repository = os.path.dirname(os.path.dirname(os.path.abspath(__file__)))
    with tempfile.TemporaryDirectory() as folder:
        answers = answers_of(texts, repository, folder)
    if len(answers) != count:
        print("answers: %d of %d" % (len(answers), count))
        sys.exit(1)
    kinds, reasons, wrong = Counter(), Counter(), 0
    for text, ours in zip(texts, answers):
        kinds[("address " + ours[0].split(" ")[0]) if is_fault(ours[0]) else "address read"] += 1
        kinds[("block " + ours[2].split(" ")[0]) if is_fault(ours[2]) else "block read"] += 1
        if tuple(ours) != ruled(text):
            wrong += 1
            if wrong <= 20:
                print("DIFFERS from the rule: %r: %r, the rule %r" % (text, ours, ruled(text)))
        for kind, answer in (("address", ours[0]), ("block", ours[2])):
            theirs = peer(text, kind)
            if (None if is_fault(answer) else answer) == theirs:
                continue
            why = purpose(text, kind, answer, theirs)
            if why is None:
                wrong += 1
                if wrong <= 20:
                    print("DIFFERS: %r as %s: %r, ipaddress %r" % (text, kind, answer, theirs))
            else:
                reasons[why] += 1
    print("Python %s, seed %d: %d texts, %d different" % (sys.version.split()[0], seed, count, len(set(texts))))
    print("answers: " + ", ".join("%s %d" % item for item in sorted(kinds.items())))
    print("differences on purpose: " + (", ".join("%s %d" % item for item in sorted(reasons.items())) or "none"))
    print("unexplained differences: %d" % wrong)
    sys.exit(1 if wrong else 0)


if __name__ == "__main__":
    main()
