#!/usr/bin/env python3
"""Hostile bytes to `session`, byte for byte: what is sent and what has to come back were written by hand, from the rules of requests (docs/USING.md,
docs/crates/http_session.md, RFC 9112, RFC 8259) and not from what the program answers. Each case has a process of its own over an empty register, and
its bytes are handed over whole and in pieces of 1, 7 and 4,096 bytes. Where a case closes the connection it is sent once more with the input left open: the
answer has to come, and the program to end, without another byte. The conversation that the gate runs (crates/ipamd/stdin) has the cases that leave a
connection open; here are those that end one.

    conformance/run hostile [PROGRAM]        the built program (./ipamd builds it; IPAMD=PROGRAM takes another one)
"""
import os
import subprocess
import sys
import threading
import time

TOP = os.path.join(os.path.dirname(os.path.abspath(__file__)), "..")
MOST_HEAD, MOST_BODY = 16384, 4194304
PATIENCE = 60
PHRASES = {200: "OK", 201: "Created", 400: "Bad Request", 404: "Not Found", 405: "Method Not Allowed", 413: "Payload Too Large", 501: "Not Implemented"}


def answer(status, body, place=None, close=False, allow=None):
    lines = [f"HTTP/1.1 {status} {PHRASES[status]}", "Content-Type: application/json", f"Content-Length: {len(body)}"]
    lines += [f"Allow: {allow}"] if allow else []
    lines += [f"Ipam-Place: {place}"] if place is not None else []
    lines += ["Connection: close"] if close else []
    return "\r\n".join(lines + ["", body]).encode()


def refusal(code, detail):
    return '{"code":"%s","detail":"%s"}' % (code, detail)


BAD_HEAD = answer(400, refusal("bad_head", "the request could not be read"), close=True)
LARGE_HEAD = answer(413, refusal("too_large", "the head exceeds 16384 bytes"), close=True)
LARGE_BODY = answer(413, refusal("too_large", "the body exceeds 4194304 bytes"), close=True)
CODING = answer(501, refusal("coding", "transfer codings are not served"), close=True)
BAD_JSON = answer(400, refusal("bad_json", "the body is not the JSON that is asked for"))
NO_ROUTE = answer(404, refusal("no_route", "no such path"))
EMPTY = '{"count":0,"next":null,"previous":null,"results":[]}'
PAGE, LAST_PAGE = answer(200, EMPTY, place=0), answer(200, EMPTY, place=0, close=True)
PREFIX = ('{"children":%d,"depth":%d,"description":"","family":%d,"id":%d,"is_pool":false,"mark_utilized":false,"prefix":"%s","role":null,'
          '"status":{"label":"Active","value":"active"},"vrf":null}')

LIST = b"GET /api/ipam/vrfs/ HTTP/1.1\r\n"
GET = LIST + b"Host: x\r\n\r\n"


def post(path, body):
    return f"POST /api/ipam/{path} HTTP/1.1\r\nHost: x\r\nContent-Length: {len(body)}\r\n\r\n".encode() + body


def up_to(text, size, letter=b"a"):
    return text + letter * (size - len(text))


def head_of(size):
    """A whole head of so many bytes."""
    return up_to(LIST + b"A: ", size - 4) + b"\r\n\r\n"


def fields(count):
    return LIST + b"".join(b"A%d: b\r\n" % number for number in range(count)) + b"\r\n"


def nested(deep):
    return b'{"prefix":"10.0.0.0/24","x":' + b"[" * deep + b"]" * deep + b"}"


def prefix_made(block, number, place, children=0, depth=0):
    return answer(201, PREFIX % (children, depth, 6 if ":" in block else 4, number, block), place=place)


def row_of(block, number, place, children, depth):
    return answer(200, PREFIX % (children, depth, 6, number, block), place=place)


def tower():
    """The 128 prefixes :: of the lengths 1 to 128, and claims among them."""
    sent = b"".join(post("prefixes/", b'{"prefix":"::/%d"}' % length) for length in range(1, 129))
    wanted = b"".join(prefix_made(f"::/{length}", length, length - 1, 0, length - 1) for length in range(1, 129))
    claim = b'{"prefix_length":128}'
    sent += b"".join(f"GET /api/ipam/prefixes/{number}/ HTTP/1.1\r\nHost: x\r\n\r\n".encode() for number in (1, 128))
    wanted += row_of("::/1", 1, 128, 127, 0) + row_of("::/128", 128, 128, 0, 127)
    sent += post("prefixes/1/available-prefixes/", claim) + post("prefixes/127/available-prefixes/", claim)
    return sent, wanted + prefix_made("4000::/128", 129, 128, 0, 1) + prefix_made("::1/128", 130, 129, 0, 127)


# what is shown, what is sent, what comes back
HEADS = [
    ("a head that runs on to 16,384 bytes", up_to(b"GET / HTTP/1.1\r\nA: ", MOST_HEAD), LARGE_HEAD),
    ("and far beyond", up_to(b"GET / HTTP/1.1\r\nA: ", 3 * MOST_HEAD), LARGE_HEAD),
    ("a head whose last byte is number 16,384", head_of(MOST_HEAD), PAGE),
    ("a head whose last byte is number 16,385", head_of(MOST_HEAD + 1), LARGE_HEAD),
    ("a fault at byte 16,000 of a head", up_to(LIST + b"A: ", 16000) + b"\x00" + b"a" * 500, BAD_HEAD),
    ("empty lines count among its bytes", b"\r\n" * 8192, LARGE_HEAD),
    ("64 fields", fields(64), PAGE),
    ("65 fields", fields(65), BAD_HEAD),
    ("a first byte that no request has", b"\x00", BAD_HEAD),
    ("a TLS greeting", bytes.fromhex("16030100c8010000c40303"), BAD_HEAD),
    ("another version", b"GET / HTTP/2.0\r\n\r\n", BAD_HEAD),
    ("a line feed in the method", b"GE\nT / HTTP/1.1\r\n\r\n", BAD_HEAD),
    ("a nul byte in a target", b"GET /\x00 HTTP/1.1\r\n\r\n", BAD_HEAD),
    ("a nul byte in a value", LIST + b"A: b\x00c\r\n\r\n", BAD_HEAD),
    ("the character U+007F in a value", LIST + b"A: \x7f\r\n\r\n", BAD_HEAD),
    ("a blank in a name", LIST + b"A B: c\r\n\r\n", BAD_HEAD),
    ("a blank before the colon", LIST + b"Content-Length : 1\r\n\r\nx", BAD_HEAD),
    ("no name", LIST + b": c\r\n\r\n", BAD_HEAD),
    ("a folded line", LIST + b"A: b\r\n c\r\n\r\n", BAD_HEAD),
    ("a carriage return alone", LIST + b"A: b\rB: c\r\n\r\n", BAD_HEAD),
    ("bytes from 0x80 in a value", LIST + b"A: \x80\xff\r\n\r\n", PAGE),
    ("line feeds alone", b"GET /api/ipam/vrfs/ HTTP/1.1\nHost: x\n\n", PAGE),
    ("empty lines before a request", b"\r\n\r\n\n" + GET, PAGE),
]
CUTS = [
    ("the end inside a head", b"GET / HTTP/1.1\r\nHost", BAD_HEAD),
    ("the end behind one byte", b"G", BAD_HEAD),
    ("the end behind an empty line", GET + b"\r\n", PAGE + BAD_HEAD),
    ("the end before the last line feed", GET[:-1], BAD_HEAD),
    ("the end inside the body of the second request", post("vrfs/", b"[]") + b"POST /api/ipam/vrfs/ HTTP/1.1\r\nContent-Length: 9\r\n\r\n{\"name\":", BAD_JSON + BAD_HEAD),
    ("the end inside a body of an absent path", b"POST /x HTTP/1.1\r\nContent-Length: 2\r\n\r\n{", BAD_HEAD),
    ("no byte", b"", b""),
]
LENGTHS = [
    ("two lengths of 0", LIST + b"Content-Length: 0\r\nContent-Length: 0\r\n\r\n", BAD_HEAD),
    ("two lengths, one of another case", LIST + b"content-length: 0\r\nCONTENT-LENGTH: 5\r\n\r\n", BAD_HEAD),
    ("a length of 4,194,305", LIST + b"Content-Length: 4194305\r\n\r\n", LARGE_BODY),
    ("a length of 19 nines", LIST + b"Content-Length: 9999999999999999999\r\n\r\n", LARGE_BODY),
    ("a length of 20 digits", LIST + b"Content-Length: 00000000000000000000\r\n\r\n", BAD_HEAD),
    ("no digit", LIST + b"Content-Length:\r\n\r\n", BAD_HEAD),
    ("a sign", LIST + b"Content-Length: +1\r\n\r\nx", BAD_HEAD),
    ("a list of lengths", LIST + b"Content-Length: 1, 1\r\n\r\nx", BAD_HEAD),
    ("a length in hexadecimal", LIST + b"Content-Length: 0x1\r\n\r\nx", BAD_HEAD),
    ("zeros before a length", LIST + b"Content-Length: 0000000000000000005\r\n\r\n12345" + GET, PAGE + PAGE),
    ("a coding before a length that is none", LIST + b"Transfer-Encoding: chunked\r\nContent-Length: x\r\n\r\n", CODING),
    ("a coding behind two lengths", LIST + b"Content-Length: 1\r\nContent-Length: 2\r\nTransfer-Encoding: gzip\r\n\r\n", CODING),
    ("a coding without a value", LIST + b"transfer-encoding:\r\n\r\n", CODING),
    ("chunks are no requests", LIST + b"Transfer-Encoding: chunked\r\n\r\n5\r\nGET /\r\n0\r\n\r\n" + GET, CODING),
    ("a request in the body of another", b"GET /api/ipam/vrfs/ HTTP/1.1\r\nContent-Length: %d\r\n\r\n" % len(GET) + GET + GET, PAGE + PAGE),
]
BODIES = [
    ("126 arrays in one another, in an object", post("prefixes/", nested(126)), prefix_made("10.0.0.0/24", 1, 0)),
    ("127 arrays", post("prefixes/", nested(127)), BAD_JSON),
    ("a hundred thousand arrays that do not end", post("prefixes/", b"[" * 100_000), BAD_JSON),
    ("a number that is too large", post("prefixes/", b'{"prefix":"10.0.0.0/24","x":1e400}'), BAD_JSON),
    ("half of a pair", post("prefixes/", b'{"prefix":"10.0.0.0/24","x":"\\ud800"}'), BAD_JSON),
    ("a byte that is no UTF-8", post("prefixes/", b'{"prefix":"10.0.0.0/24","x":"\xff"}'), BAD_JSON),
    ("a byte order mark", post("prefixes/", b'\xef\xbb\xbf{"prefix":"10.0.0.0/24"}'), BAD_JSON),
    ("two values", post("prefixes/", b'{"prefix":"10.0.0.0/24"}{}'), BAD_JSON),
    ("a member twice: the last counts", post("prefixes/", b'{"prefix":"10.0.0.0/24","prefix":"10.0.1.0/24"}'), prefix_made("10.0.1.0/24", 1, 0)),
    ("128 prefixes in one another", *tower()),
]
ENDS = [
    ("1,001 requests", GET * 1001, PAGE * 999 + LAST_PAGE),
    ("version 1.0", b"GET /api/ipam/vrfs/ HTTP/1.0\r\nConnection: keep-alive\r\n\r\n" + GET, LAST_PAGE),
    ("a token among others", LIST + b"Connection: keep-alive,\tCLOSE \r\n\r\n" + GET, LAST_PAGE),
    ("a word that begins like it", LIST + b"Connection: closed\r\n\r\n" + GET, PAGE + PAGE),
    ("a good request before a bad one", GET + b"\x01" + GET, PAGE + BAD_HEAD),
    ("an encoded path, and another case of a method", b"GET /api/ipam/%76rfs/ HTTP/1.1\r\n\r\nget /api/ipam/vrfs/ HTTP/1.1\r\n\r\n",
     NO_ROUTE + answer(405, refusal("method", "the path does not have this method"), allow="GET, POST")),
    ("a wish to be asked first is not looked at", b"POST /api/ipam/vrfs/ HTTP/1.1\r\nExpect: 100-continue\r\nContent-Length: 2\r\n\r\n[]", BAD_JSON),
]
CASES = HEADS + CUTS + LENGTHS + BODIES + ENDS


def talk(program, sent, piece, is_left_open):
    """What comes back, the status, and whether the program ended by itself; a process that is left open is ended when the time is over."""
    child = subprocess.Popen([program, "session"], stdin=subprocess.PIPE, stdout=subprocess.PIPE, stderr=subprocess.DEVNULL, bufsize=0)

    def write():
        try:
            for at in range(0, len(sent), piece):
                child.stdin.write(sent[at:at + piece])
            if not is_left_open:
                child.stdin.close()
        except OSError:
            pass  # it does not read behind its last answer

    writer = threading.Thread(target=write)
    writer.start()
    watch = threading.Timer(PATIENCE, child.kill)
    watch.start()
    told = child.stdout.read()
    status = child.wait()
    watch.cancel()
    writer.join()
    try:
        child.stdin.close()
    except OSError:
        pass
    return told, status


def check(program, name, sent, wanted, piece, is_left_open):
    told, status = talk(program, sent, piece, is_left_open)
    if told != wanted or status != 0:
        at = next((n for n, (one, other) in enumerate(zip(told, wanted)) if one != other), min(len(told), len(wanted)))
        sys.exit(f"hostile: {name}, in pieces of {piece}{', input left open' if is_left_open else ''}: status {status}, from byte {at}\n"
                 f"sent    {sent[:300]!r}\nanswer  {told[at:at + 400]!r}\nwanted  {wanted[at:at + 400]!r}")


def main():
    program = sys.argv[1] if len(sys.argv) > 1 else os.environ.get("IPAMD", os.path.join(TOP, "crates/ipamd/out/ipamd"))
    if not os.access(program, os.X_OK):
        sys.exit("build the program first: ./ipamd free 10.0.0.0/8 </dev/null")
    assert len(refusal("bad_head", "the request could not be read")) == 60
    runs, start, names = 0, time.monotonic(), {name for name, _, _ in CASES}
    for name, sent, wanted in CASES:
        for piece in (1, 7, 4096, 1 << 30):
            if len(sent) <= piece * 60_000:
                check(program, name, sent, wanted, piece, False)
                runs += 1
        if b"\r\nConnection: close\r\n" in wanted and (name, sent, wanted) not in CUTS:
            check(program, name, sent, wanted, 1 << 30, True)
            runs += 1
    print(f"hostile: {len(names)} cases in {runs} runs, {time.monotonic() - start:.0f} s, all byte for byte as they should be")


if __name__ == "__main__":
    main()
