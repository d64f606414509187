"""The worked rows as one conversation with an empty register: their requests, and the answers that they have to have.

    model/run worked_rows            checks all that is said below, and that the files have what would be written
    model/run worked_rows --write    checks, and writes the files

Each row's status, the place of its answer and what it says of the body were written by hand, and the plain register
(model/plain_register.py) has to agree with them; the bytes that no row gives are those of the plain register. The conversation is
written as what goes in (`stdin`) and what has to come out (`stdout`) into crates/ipamd, where the gate runs the program on it.
"""
import json
import os
import re
import sys
from dataclasses import replace

sys.path.insert(0, os.path.dirname(os.path.dirname(os.path.abspath(__file__))))
from model.plain_register import Service, converse
from model.row_words import Raw, delete, request_of
from model.worked_claims import CLAIM_GROUPS
from model.worked_kinds import END, KIND_GROUPS

# where the files are, and whether claims are in them
FILES = {"crates/ipamd/": True}
TOP = os.path.join(os.path.dirname(os.path.abspath(__file__)), "..")
REMOVED = ["ip-addresses", "ip-ranges", "prefixes", "aggregates", "roles", "rirs", "vrfs"]
WITHOUT_PLACE = ["bad_head", "too_large", "coding", "no_route", "method", "bad_json", "field", "host_bits"]
OF_CLAIMS = re.compile(r"/(available-prefixes|available-ips|utilization)/")


def fail(row, what, answer):
    sys.exit(f"worked_rows: {row.shows}: {what}\n{request_of(row)[:400]!r}\n{answer[:1000]!r}")


class Conversation:
    def __init__(self, claims):
        self.service, self.claims = Service(), claims
        self.requests, self.answers = [], []
        self.names, self.made, self.changes = {}, [], 0

    def named(self, value):
        """The value with the ids in place of their names."""
        if isinstance(value, dict):
            return {name: self.named(one) for name, one in value.items()}
        if isinstance(value, list):
            return [self.named(one) for one in value]
        if isinstance(value, str) and value[1:] in self.names and value[0] == "@":
            return self.names[value[1:]]
        return re.sub(r"@([a-z0-9]+)", lambda found: str(self.names[found[1]]), value) if isinstance(value, str) else value

    def say(self, row):
        """Sends a row's request, checks its answer by what the row says, and notes what it made."""
        if not isinstance(row, Raw):
            row = replace(row, path=self.named(row.path), body=row.body if isinstance(row.body, bytes) else self.named(row.body))
        request = request_of(row)
        answer = b"".join(converse(request, self.service))
        self.requests.append(request)
        self.answers.append(answer)
        head, _, body = answer.partition(b"\r\n\r\n")
        if head.split(b" ")[1] != str(row.status).encode():
            fail(row, f"the status is not {row.status}", answer)
        self.check_place(row, head, body, answer)
        self.note(row, body)
        self.check_body(row, body, answer)

    def check_place(self, row, head, body, answer):
        code = json.loads(body).get("code") if row.status >= 400 and body else None
        has_place = code not in WITHOUT_PLACE and getattr(row, "method", "") != "HEAD"
        wanted = [str(self.changes).encode()] if has_place else []
        if re.findall(b"\r\nIpam-Place: ([0-9]+)", head) != wanted:
            fail(row, f"the place is not {wanted}", answer)

    def note(self, row, body):
        if row.status in (201, 204) or getattr(row, "method", "") == "PATCH" and row.status == 200:
            self.changes += 1
        if row.status == 201:
            kind = "ip-addresses" if "available-ips" in row.path else row.path.split("/")[0]
            rows = json.loads(body)
            self.made += [(kind.partition("?")[0], one["id"]) for one in (rows if isinstance(rows, list) else [rows])]
            if row.keep:
                self.names[row.keep] = rows["id"]
        if row.status == 204:
            kind, number = row.path.split("/")[:2]
            self.made.remove((kind, int(number)))

    def check_body(self, row, body, answer):
        wanted = row.wanted if isinstance(row.wanted, bytes) else self.named(row.wanted)
        if wanted is None or isinstance(wanted, bytes) and wanted == answer or isinstance(wanted, str) and wanted.encode() == body:
            return
        if isinstance(wanted, dict):
            found = json.loads(body)
            if isinstance(found.get("results"), list):
                found["results"] = [one["id"] for one in found["results"]]
            if all(name in found and found[name] == value for name, value in wanted.items()):
                return
        if isinstance(wanted, list) and [one.get("prefix", one.get("address")) for one in json.loads(body)] == wanted:
            return
        fail(row, f"this is wanted: {wanted!r}", answer)

    def take(self, group):
        self.names = {}
        for row in group.rows:
            if self.claims or isinstance(row, Raw) or not OF_CLAIMS.search(row.path) or row.status == 404:
                self.say(row)
        if not group.is_last:
            for kind in REMOVED:
                for number in [number for one, number in self.made if one == kind]:
                    self.say(delete(f"{group.title}: what it made is removed", f"{kind}/{number}/", 204))


def conversation(claims):
    found = Conversation(claims)
    for group in KIND_GROUPS + (CLAIM_GROUPS if claims else []) + [END]:
        found.take(group)
    whole = b"".join(converse(b"".join(found.requests), Service()))
    if whole != b"".join(found.answers) or len(found.answers) > 1000:
        sys.exit("worked_rows: in one stream the answers are others")
    return found


def main():
    for path, claims in FILES.items():
        found = conversation(claims)
        for name, text in (("stdin", b"".join(found.requests)), ("stdout", b"".join(found.answers))):
            place = os.path.join(TOP, path + name)
            if sys.argv[1:] == ["--write"]:
                with open(place, "wb") as file:
                    file.write(text)
            elif not os.path.exists(place) or open(place, "rb").read() != text:
                sys.exit(f"worked_rows: {path}{name} is not what the rows make; model/worked_rows.py --write writes it")
        print(f"worked_rows: {len(found.answers)} requests {'with' if claims else 'without'} claims agree")


if __name__ == "__main__":
    main()
