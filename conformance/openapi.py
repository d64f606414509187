"""docs/openapi.json, compared with the program; conformance/openapi.sh says how.

    openapi.py [--program PROGRAM] [--streams N] [--requests N] [--seed N]
"""
import argparse
import json
import os
import re
import subprocess
import sys
from collections import Counter

from jsonschema import Draft202012Validator

sys.path.insert(0, os.path.dirname(os.path.dirname(os.path.abspath(__file__))))
from conformance.agree import Start, closings, cut
from conformance.openapi_reading import EARLY, METHODS, Document, accepts, answers_in, wrong_in
from conformance.openapi_register_edges import RegisterEdges
from model import documents
from model.plain_register import converse

HERE = os.path.dirname(os.path.abspath(__file__))
# ---- the document alone

def schemas_in(node, is_schema=False):
    """The Schema Objects of the document, outermost ones."""
    if isinstance(node, list):
        for one in node:
            yield from schemas_in(one)
    elif isinstance(node, dict):
        for name, one in node.items():
            if name == "schema":
                yield one
            elif name == "schemas":
                yield from one.values()
            else:
                yield from schemas_in(one)


def check_document(document):
    with open(os.path.join(HERE, "openapi_3.1_schema.json"), encoding="utf-8") as text:
        schema = json.load(text)
    Draft202012Validator.check_schema(schema)
    for error in Draft202012Validator(schema).iter_errors(document.raw):
        sys.exit(f"openapi: the document: {error.json_path}: {error.message[:300]}")
    count = 0
    for one in schemas_in(document.raw):
        Draft202012Validator.check_schema(one)
        count += 1
    names = [item[method]["operationId"] for item in document.paths.values() for method in METHODS if method in item]
    if len(set(names)) != len(names):
        sys.exit("openapi: an operationId stands twice")
    for template, item in document.paths.items():
        if re.findall(r"\{(\w+)\}", template) != [one["name"] for one in item.get("parameters", []) if one["in"] == "path"]:
            sys.exit(f"openapi: the parameters of {template}")
    used = set(re.findall(r'"#/components/(\w+/\w+)"', json.dumps(document.raw)))
    unused = {f"{part}/{name}" for part, found in document.raw["components"].items() for name in found} - used
    if unused:
        sys.exit(f"openapi: nothing names {sorted(unused)}")
    print(f"openapi: {len(document.paths)} paths, {len(names)} operations, {count} schemas: valid")


# ---- random conversations

def check_answer(document, request, answer):
    """Compares an answer with what the document says of the request; gives the operation and the code that are counted."""
    head, _, body = request.partition(b"\r\n\r\n")
    method, target, _ = head.split(b"\r\n")[0].split(b" ")
    early, operation = document.early(method.decode("latin-1"), target, body)
    if answer.code in ("bad_head", "too_large", "coding"):
        early = None
    said = operation or (document.other_path if early and early[0] == "no_route" else document.other_method)
    wrong = wrong_in(document, answer, said, method == b"HEAD")
    if not wrong and method != b"HEAD":
        found = answer.code if answer.code in EARLY else None
        if found != (early and early[0]) or early and early[1] and answer.value["detail"] != early[1]:
            wrong = f"the document says {early}"
    if not wrong and answer.status < 300 and not accepts(operation, body):
        wrong = "the document does not allow this body"
    if not wrong and answer.status == 405 and answer.headers["Allow"] != document.methods(document.route(unquoted(target))[1]):
        wrong = f"Allow: {answer.headers['Allow']}"
    if wrong:
        sys.exit(f"openapi: {wrong}\nrequest  {request[:2000]!r}\nanswer   {answer.status} {answer.headers} {answer.text[:2000]!r}")
    return operation["operationId"] if operation else "none", f"{answer.status} {answer.code or ''}".strip()


def unquoted(target):
    return target.partition(b"?")[0].decode("latin-1")


def conversation(start, count):
    """Random requests, and one that closes the connection or is cut."""
    requests = []
    for _ in range(count):
        requests.append(start.talker.request())
        list(converse(requests[-1], start.service))
    return requests, start.talker.pick.choice(closings(start.listed) + cut(start.listed))


def replay(document, given, start_of, listed):
    """`listed`: what the document says of the list that a conversation ends with."""
    seen = Counter()
    for seed in range(given.seed, given.seed + given.streams):
        start = start_of(seed, given)
        requests, last = conversation(start, given.requests)
        done = subprocess.run([given.program, "session", *start.words], input=b"".join(requests) + last, capture_output=True)
        methods = [one.split(b" ")[0].decode("latin-1") for one in requests]
        answers = answers_in(done.stdout, methods)
        if done.returncode != 0 or not len(requests) <= len(answers) <= len(requests) + 1:
            sys.exit(f"openapi: stream {seed}: status {done.returncode}, {len(answers)} answers")
        for request, answer in zip(requests, answers):
            seen[check_answer(document, request, answer)] += 1
        for answer in answers[len(requests):]:
            wrong = wrong_in(document, answer, listed)
            if wrong and (last.startswith(start.listed) or answer.code in ("bad_head", "too_large", "coding")):
                sys.exit(f"openapi: {wrong}\nrequest  {last[:300]!r}\nanswer   {answer.text!r}")
            seen["the end of a conversation", f"{answer.status} {answer.code or ''}".strip()] += 1
    return tell(document, seen)


def tell(document, seen):
    """Says how many answers there were; the refusals that were among them."""
    codes = Counter()
    for (_, what), count in seen.items():
        codes[what] += count
    operations = {item[method]["operationId"] for item in document.paths.values() for method in METHODS if method in item}
    print(f"openapi: {sum(seen.values())} answers of random conversations, all as the document says")
    print("   " + ", ".join(f"{what} {count}" for what, count in sorted(codes.items())))
    done = {name for name, what in seen if what.startswith("2")}
    print(f"   operations without a success: {', '.join(sorted(operations - done)) or 'none'}")
    return {what.split(" ")[-1] for what in codes}


def options(variable, name):
    """The words of the command line, for the program of this name or of this variable of the environment."""
    words = argparse.ArgumentParser()
    words.add_argument("--program", default=os.environ.get(variable, os.path.join(HERE, "..", "crates", name, "out", name)))
    words.add_argument("--streams", type=int, default=20)
    words.add_argument("--requests", type=int, default=300)
    words.add_argument("--seed", type=int, default=1)
    words.set_defaults(without_claims=False)
    return words.parse_args()


def read_document(path):
    """The document of this file, which is what is made."""
    document = Document(documents.read(path))
    check_document(document)
    return document


def compare(document, given, start_of, edges):
    """Random conversations, and requests at the edges."""
    seen = replay(document, given, start_of, document.paths[edges.listing]["get"]) | edges.check()
    print(f"openapi: refusals of the document that neither saw: {', '.join(sorted(set(document.refusals) - seen)) or 'none'}")


def main():
    given = options("IPAMD", "ipamd")
    document = read_document("docs/openapi.json")
    compare(document, given, Start, RegisterEdges(document, given.program))


if __name__ == "__main__":
    main()
