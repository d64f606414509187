"""The words in which model/worked_kinds.py and model/worked_claims.py say their rows.

A row is a request and its answer, as it has to be. The path is that behind `/api/ipam/`. A body is a text that is sent as it stands, or a
dict. What is wanted of the body of the answer is a text (all of it), a dict (these members, and others may stand beside them; the results
of a page are their ids), a list (the blocks or addresses of a list, in order), bytes (the whole answer, with its head), or nothing.

`keep` is a name for the id of the row that is made: `@name` stands for that id from then on, in paths, bodies and answers. What a group
made is removed at its end, so that each group begins with an empty register, but for the ids that were given.
"""
import json
from dataclasses import dataclass


@dataclass
class Row:
    shows: str
    method: str
    path: str
    body: object
    status: int
    wanted: object = None
    keep: str = None


@dataclass
class Raw:
    """A request that is sent as it stands."""
    shows: str
    request: bytes
    status: int
    wanted: object = None


@dataclass
class Group:
    title: str
    rows: list
    is_last: bool = False


def post(shows, path, body, status, wanted=None, keep=None):
    return Row(shows, "POST", path, body, status, wanted, keep)


def patch(shows, path, body, status, wanted=None):
    return Row(shows, "PATCH", path, body, status, wanted)


def get(shows, path, status, wanted=None):
    return Row(shows, "GET", path, None, status, wanted)


def delete(shows, path, status, wanted=None):
    return Row(shows, "DELETE", path, None, status, wanted)


def ask(shows, method, path, status, wanted=None):
    return Row(shows, method, path, None, status, wanted)


def no(code, detail):
    """The body of a refusal."""
    return '{"code":"%s","detail":"%s"}' % (code, detail)


def bad(name):
    return no("field", f"{name} is missing or malformed")


def made(kind, **members):
    """A row of the register that those behind it need."""
    keep = members.pop("keep")
    return post(f"{kind}: {keep}", f"{kind}/", members, 201, None, keep)


BAD_JSON = no("bad_json", "the body is not the JSON that is asked for")
NO_ROUTE = no("no_route", "no such path")
NO_METHOD = no("method", "the path does not have this method")
ZERO_MASK = no("zero_mask", "a mask of length 0 is refused")


def request_of(row):
    if isinstance(row, Raw):
        return row.request
    body = row.body if isinstance(row.body, (str, bytes, type(None))) else json.dumps(row.body, ensure_ascii=False, separators=(",", ":"))
    body = body.encode() if isinstance(body, str) else body
    length = "" if body is None else f"Content-Length: {len(body)}\r\n"
    path = row.path if row.path.startswith("/") else "/api/ipam/" + row.path
    return f"{row.method} {path} HTTP/1.1\r\nHost: x\r\n{length}\r\n".encode() + (body or b"")
