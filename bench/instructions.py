"""Instructions of a request, by `valgrind --tool=callgrind`: of 990 pipelined requests of one kind in a session, in memory and over a file. What the start,
the end and the first ten requests take is taken away.

    bench/run instructions [KIND..]          get, post, claim, list, or a kind with `-file`, such as post-file; all where none is named
    bench/run instructions --profile KIND    the functions that take most of them
"""
import os
import re
import subprocess
import sys
import tempfile

sys.path.insert(0, os.path.dirname(os.path.dirname(os.path.abspath(__file__))))
from bench.register import HERE, PATH, post

PROGRAM = os.environ.get("IPAMD", os.path.join(HERE, "..", "crates", "ipamd", "out", "ipamd"))
# A move or a clearing of memory counts as its loads and stores, and not as one instruction a byte, as `rep movsb` would.
TUNED = "glibc.cpu.x86_rep_stosb_threshold=100000000:glibc.cpu.x86_rep_movsb_threshold=100000000"
FEW, MANY = 10, 1000


def request(method, path, body=""):
    length = f"Content-Length: {len(body)}\r\n" if body else ""
    return f"{method} {path} HTTP/1.1\r\nHost: 127.0.0.1:8080\r\nUser-Agent: curl/8.5.0\r\nAccept: */*\r\n{length}\r\n{body}"


def gets(count):
    return post("10.0.0.0/24") + request("GET", f"{PATH}1/") * (count - 1)


def posts(count):
    return "".join(post(f"10.{n // 256}.{n % 256}.0/24") for n in range(count))


def claims(count):
    return post("10.0.0.0/16") + request("POST", f"{PATH}1/available-ips/", "{}") * (count - 1)


def lists(count):
    made = [post(f"10.{n // 256}.{n % 256}.0/24") for n in range(FEW - 1)]
    return "".join(made) + request("GET", f"{PATH}?limit=50") * (count - len(made))


KINDS = {"get": gets, "post": posts, "claim": claims, "list": lists}


def counted(kind, count, scratch):
    """The instructions of a session of so many requests, and the file that callgrind wrote."""
    name, _, store = kind.partition("-")
    words = ["--db", os.path.join(scratch, f"{kind}-{count}.sqlite")] if store else []
    out = os.path.join(scratch, f"{kind}-{count}.callgrind")
    command = ["valgrind", "--tool=callgrind", f"--callgrind-out-file={out}", PROGRAM, "session", *words]
    ran = subprocess.run(command, input=KINDS[name](count).encode(), env={**os.environ, "GLIBC_TUNABLES": TUNED}, capture_output=True)
    answers = ran.stdout.count(b"HTTP/1.1 20")
    if ran.returncode or answers != count:
        sys.exit(f"{kind}: status {ran.returncode}, {answers} answers of {count}: {ran.stderr[-600:].decode(errors='replace')}")
    return int(re.search(rb"Collected : (\d+)", ran.stderr)[1]), out


def main():
    words = sys.argv[1:]
    profile = words[:1] == ["--profile"]
    kinds = words[1:] if profile else words or [*KINDS, *(f"{kind}-file" for kind in KINDS)]
    unknown = [kind for kind in kinds if kind.partition("-")[0] not in KINDS or kind.partition("-")[2] not in ("", "file")]
    if unknown or profile and not kinds:
        sys.exit(f"instructions: no kind {' '.join(unknown)}; the kinds are {', '.join(KINDS)}, each also with -file")
    if not os.access(PROGRAM, os.X_OK):
        sys.exit("build the program first: ./ipamd free 10.0.0.0/8 </dev/null")
    with tempfile.TemporaryDirectory() as scratch:
        for kind in kinds:
            few, _ = counted(kind, FEW, scratch)
            many, out = counted(kind, MANY, scratch)
            print(f"{kind}: {(many - few) / (MANY - FEW):,.0f} instructions a request", flush=True)
            if profile:
                print(subprocess.run(["callgrind_annotate", out], capture_output=True, text=True).stdout, flush=True)


if __name__ == "__main__":
    main()
