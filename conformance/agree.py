"""Random conversations with the program and with the plain register of model/plain_register.py, compared byte for byte: conflicts, clashes, overlaps,
coincidences, full prefixes, roles that are removed and bad values are frequent in them, and each ends in one of the ways in which a connection ends (the
thousandth answer is one). It tells how many answers of each kind agreed, or the first that did not. The worked rows come first. Without claims, what is
available, claims and figures are no paths; stored, each conversation is two, over one file.

    conformance/run agree [--streams N] [--requests N] [--seed N] [--without-claims] [--stored]
"""
import argparse
import os
import re
import subprocess
import sys
import tempfile
from concurrent.futures import ThreadPoolExecutor

sys.path.insert(0, os.path.dirname(os.path.dirname(os.path.abspath(__file__))))
from model.plain_register import Service, converse
from model.talker import Talker
from model.worked_rows import conversation

LIST = b"GET /api/ipam/vrfs/ HTTP/1.1\r\n"


def closings(listed):
    """What closes a connection, by the first line of a request for a list; what stands behind it is not read."""
    found = [listed + fields + b"\r\n" for fields in [
        b"Connection: keep-alive, CLOSE\r\n", b"connection: x\r\nConnection:\tclose\r\n", b"Transfer-Encoding:\r\nContent-Length: x\r\n",
        b"Content-Length: 1\r\ncontent-length: 1\r\n", b"Content-Length:\r\n", b"Content-Length: +1\r\n", b"Content-Length: 4194305\r\n",
        b"Content-Length: 9999999999999999999\r\n", b"Content-Length: 00000000000000000001\r\n", b"X: " + b"a" * 16384 + b"\r\n"]]
    return found + [b"DELETE /api/ipam/ip-addresses/1/ HTTP/1.0\r\nConnection: keep-alive\r\n\r\n", b"HEAD /x HTTP/1.0\r\n\r\n"]


def cut(listed):
    """What is cut by the end of the input."""
    return [b"", listed, listed[:9], listed + b"Content-Length: 4194304\r\n\r\nbody", b"G", listed + b"X: " + b"a" * 16382]


def first_difference(requests, ours, plain):
    """The request that is answered in two ways, and both answers."""
    for request, answer in zip(requests, plain):
        if ours[:len(answer)] != answer:
            return f"request  {request!r}\nprogram  {ours[:max(len(answer) + 200, 600)]!r}\nplain    {answer!r}"
        ours = ours[len(answer):]
    return f"behind the last answer of the plain register: {ours[:400]!r}"


class Start:
    """How a conversation of a seed begins: what the program is told, the first line of a request for a list, the plain register, and who talks."""

    def __init__(self, seed, given):
        unique = "yes" if seed % 4 else "no"
        self.words = ["--global-unique", unique]
        self.listed = LIST
        self.service = Service(unique == "yes", not given.without_claims)
        self.talker = Talker(seed, self.service)


def conversations(start, given):
    """Random requests, as one conversation or, over a store, as two, of which the second begins with what the first left."""
    requests = []
    for _ in range(given.requests):
        requests.append(start.talker.request())
        list(converse(requests[-1], start.service))
    requests.append(start.talker.pick.choice([one + start.listed + b"\r\n" for one in closings(start.listed)] + cut(start.listed)))
    half = len(requests) // 2
    return [requests[:half], requests[half:]] if given.stored else [requests]


def agrees(seed, given, start_of):
    """What differs, or None, and the answers of the plain register."""
    answers, spoken = [], conversations(start_of(seed, given), given)
    start = start_of(seed, given)
    with tempfile.TemporaryDirectory() as folder:
        words = [given.program, "session", *start.words] + (["--db", os.path.join(folder, "office.db")] if given.stored else [])
        for requests in spoken:
            start.service.register.place = start.service.register.spent = 0
            plain = list(converse(b"".join(requests), start.service))
            done = subprocess.run(words, input=b"".join(requests), capture_output=True)
            if done.returncode != 0 or done.stdout != b"".join(plain):
                told = f"stream {seed}, {' '.join(start.words)}, status {done.returncode} {done.stderr[:200]!r}\n"
                return told + first_difference(requests, done.stdout, plain), answers
            answers += plain
    return None, answers


def check_rows(program, requests, answers):
    """The worked rows, with the program's answers."""
    done = subprocess.run([program, "session"], input=b"".join(requests), capture_output=True)
    if done.returncode != 0 or done.stdout != b"".join(answers):
        sys.exit(f"agree: worked rows, status {done.returncode} {done.stderr[:200]!r}\n" + first_difference(requests, done.stdout, answers))
    print(f"agree: {len(answers)} requests of the worked rows")


def options():
    words = argparse.ArgumentParser()
    words.add_argument("--program", required=True)
    words.add_argument("--streams", type=int, default=200)
    words.add_argument("--requests", type=int, default=300)
    words.add_argument("--seed", type=int, default=1)
    words.add_argument("--stored", action="store_true")
    return words


def compare(given, start_of):
    """Random conversations, until all agree or one does not."""
    answers = {}
    with ThreadPoolExecutor(2) as pool:
        for difference, plain in pool.map(lambda seed: agrees(seed, given, start_of), range(given.seed, given.seed + given.streams)):
            if difference:
                sys.exit(f"agree: {difference}")
            for answer in plain:
                code = re.search(rb'^\{"code":"([a-z_]+)"', answer.partition(b"\r\n\r\n")[2])
                name = answer[9:12].decode() + (" " + code[1].decode() if code else "")
                answers[name] = answers.get(name, 0) + 1
    print(f"agree: {given.streams} streams of {given.requests} requests, all answers are the same")
    print("\n".join(f"{count:8} {name}" for name, count in sorted(answers.items())))


def main():
    words = options()
    words.add_argument("--without-claims", action="store_true")
    given = words.parse_args()
    found = conversation(not given.without_claims)
    check_rows(given.program, found.requests, found.answers)
    compare(given, Start)


if __name__ == "__main__":
    main()
