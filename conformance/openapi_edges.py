"""Requests at the edges of a document: of each operation each parameter, member and limit at a bound and past it, with the one status and code that the
document gives it. Each request has a process of its own, over a file that was made for it; conformance/openapi.sh says how. What is ipamd's alone is in
conformance/openapi_register_edges.py, what is poold's in conformance/openapi_pools_edges.py.
"""
import json
import os
import shutil
import subprocess
import sys
import tempfile
from collections import Counter
from concurrent.futures import ThreadPoolExecutor
from dataclasses import dataclass

from conformance.openapi_reading import METHODS, accepts, answers_in, as_parameter, faults, wrong_in

API = "/api/ipam/"
NUMBERS = ["0", "1", "-1", "-0", "1.0", "1e0", "1.5", "01", "+1", "18446744073709551615", "18446744073709551616", "1e400"]
NO_NUMBERS = ['""', '"1"', "true", "null", "[]", "{}", "NaN"]
# one byte, two, three and four; and the ends of what texts may have
SIGNS = ["a", "\u00e9", "\u20ac", "\U0001f600"]
CONTROLS = ["\u0000", "\u0009", "\u000a", "\u001f", "\u0020", "\u007e", "\u007f", "\u0080", "\u009f", "\u2028", "\ufeff"]
# the ends of the classes of letters and digits, and their neighbours
CLASSES = "/09:@AZ[`az{_-.,*"


@dataclass
class Edge:
    """A request, the file that it meets, and what is to come: a status, and a code where it is refused."""
    name: str
    sent: bytes
    status: int
    code: str = None
    register: str = "small"
    operation: dict = None
    limited: bool = False  # no file may grow, as on a full disk


def request(method, target, body=None):
    text = b"" if body is None else body if isinstance(body, bytes) else json.dumps(body, ensure_ascii=False).encode("utf-8", "surrogatepass")
    length = f"Content-Length: {len(text)}\r\n" if body is not None else ""
    return f"{method} {target} HTTP/1.1\r\nHost: x\r\n{length}\r\n".encode("latin-1") + text


# ---- values at the edges of a schema, as JSON texts

def quoted(text):
    return json.dumps(text, ensure_ascii=False)


def text_edges(schema):
    least, most = schema.get("minLength", 0), schema["maxLength"]
    found = [sign * length for sign in SIGNS for length in (least - 1, least, most, most + 1) if length >= 0]
    found += ["a" + sign + "b" for sign in CONTROLS] + list(CLASSES) + ["a\n"]
    return [quoted(text) for text in dict.fromkeys(found)] + ['"\\ud800"', '"\\u0061"']


def word_edges(schema):
    words = [word for word in schema["enum"] if isinstance(word, str)]
    return [quoted(word) for word in words] + [quoted(word) for one in words[:2] for word in (one.upper(), one + " ", one[:-1], one + one)] + ['""']


def number_edges(schema):
    least, most = schema["minimum"], schema["maximum"]
    return [str(number) for number in (least - 1, least, most, most + 1)] + NUMBERS


def value_edges(schema):
    """JSON texts of values, in no order; what each is answered is for the document to say."""
    types = schema.get("type", [])
    if "integer" in types:
        found = number_edges(schema)
    elif "enum" in schema:
        found = word_edges(schema)
    elif "boolean" in types:
        found = ["true", "false", "0", "1", '"true"', "True"]
    else:
        found = text_edges(schema)
    return list(dict.fromkeys(found + NO_NUMBERS))


def joined(base, others, member, name):
    """An object with the members of the base but this one, as text."""
    kept = {**{one: value for one, value in base.items() if one != name}, **others}
    return "{" + ",".join([f"{quoted(one)}:{json.dumps(value)}" for one, value in kept.items()] + [member]) + "}"


def success_of(operation):
    return next(int(one) for one in operation["responses"] if one.startswith("2"))


def padded(target, size, base):
    """A creation whose body has this size."""
    text = json.dumps({**base, "x": ""}).encode()
    return request("POST", target, text[:-2] + b"a" * (size - len(text)) + text[-2:])


# ---- what both programs have

class Edges:
    """The edges of a document. A program of its own says by what bodies and records they are tried, and adds its own."""
    # bodies that are accepted, by the names of their schemas; one member at a time is put to an edge
    valid = {}
    # a path whose GET lists and whose POST creates
    listing = None

    def __init__(self, document, program):
        self.document, self.program = document, program

    # -- what a program says of itself

    def here(self, template):
        """The id of a record of this path that is there in `small`, and that can be deleted."""
        return "1"

    def last(self, template):
        """The file in which a record of this path has the last id."""
        return "last"

    def claimed_from(self, template):
        """The id of the record to whose path bodies are sent."""
        return self.here(template)

    def values(self, name, schema):
        return value_edges(schema)

    def companions(self, name, value):
        """Other members beside a member with this value, so that only the latter is at an edge; None where there are none."""
        return {}

    def items(self, base, count):
        """So many items of a list, which are accepted together; the first is the body itself."""
        return [base] * count

    def rule_code(self, schema, value, place):
        """The code with which a rule refuses the value that its schema allows, or None."""
        return None

    def own_body_edges(self, template, place, item, shapes):
        return ()

    def own_edges(self):
        return ()

    def make(self, folder):
        """Makes the files that the edges meet."""
        raise NotImplementedError

    # -- bodies

    def target(self, template):
        return template.replace("{id}", self.here(template))

    def body_of(self, template, method):
        """A body that the operation accepts, or None where it has none."""
        asked = self.document.raw["paths"][template][method].get("requestBody")
        return asked and self.valid.get(asked["content"]["application/json"]["schema"]["$ref"].split("/")[-1], {})

    def body_edges(self, template, method, operation):
        base, schema = self.body_of(template, method), operation["requestBody"]["content"]["application/json"]["schema"]
        place = Place(self, operation, method, template.replace("{id}", self.claimed_from(template)), base)
        item, shapes = schema, [lambda text: text]
        if "oneOf" in schema:
            item, shapes = schema["oneOf"][0], shapes + [lambda text: f"[{text}]", lambda text: f"[{json.dumps(self.items(base, 2)[1])},{text}]"]
        for name, one in item["properties"].items():
            for shape in shapes:
                yield from (place.of_member(name, one, text, shape) for text in self.values(name, one))
            if name in base:
                code = "field" if name in item.get("required", []) else None
                yield place.edge(f"without {name}", {other: value for other, value in base.items() if other != name}, 400 if code else success_of(operation), code)
        yield from self.shape_edges(place, schema)
        yield from self.own_body_edges(template, place, item, shapes)

    def shape_edges(self, place, schema):
        """What is no object, and for a claim lists of each size."""
        success = success_of(place.operation)
        for text in (b"", b"{", b"[]", b"null", b"1", b'"x"', b"[1]", b"[[]]", b"[{},1]", b"\xff", b"{}x"):
            early, _ = self.document.early(place.method.upper(), place.target.encode(), text)
            if early:
                yield place.edge(repr(text), text, self.document.status(early[0]), early[0])
        yield place.edge("with another member", {**place.base, "x": [None]}, success)
        if "oneOf" in schema:
            most = schema["oneOf"][1]["maxItems"]
            yield from (place.edge(f"of {count} items", self.items(place.base, count), success) for count in (1, most - 1, most))
            code = schema["oneOf"][1].get("x-refused", {}).get("maxItems", "field")
            yield place.edge(f"of {most + 1} items", self.items(place.base, most + 1), self.document.status(code), code)

    # -- parameters, paths and methods

    def texts_of_parameter(self, schema):
        if "oneOf" in schema or schema.get("type") == "integer" and "maximum" in schema:
            numbers = schema["oneOf"][0] if "oneOf" in schema else schema
            return number_edges(numbers) + ["null", "", "x", " 1", "1 ", "0x1", "9999999999", "10000000000"]
        if "enum" in schema:
            return [str(word) for word in schema["enum"]] + ["", "4.0", "x", str(schema["enum"][0]).upper() + " ", "04"]
        return ["", "a", "\u00e9", "a" * 4000, "\u0000", "%"]

    def parameter_edges(self, template, operation):
        target = self.target(template)
        for one in operation.get("parameters", []):
            schema, name = one["schema"], one["name"]
            for text in dict.fromkeys(self.texts_of_parameter(schema)):
                query = "".join(f"%{byte:02X}" for byte in text.encode())
                code = "field" if faults(schema, as_parameter(schema, text)) else None
                yield Edge(f"get {target} {name}={text[:60]}", request("GET", f"{target}?{name}={query}"), 400 if code else 200, code, "small", operation)

    def path_edges(self, template, item):
        """The ids of a path, for each of its methods; the last id that a record can have is there in a file of its own."""
        last = self.document.limits["ids"]
        texts = ["0", "1", self.here(template), "01", "+1", "-1", "1.0", "x", "", "1x", "%31", str(last), str(last + 1), str(last + 2), "99999999999"]
        for method in [one for one in METHODS if one in item]:
            operation, body = item[method], self.body_of(template, method)
            for text, register in [(text, "small") for text in dict.fromkeys(texts)] + [(str(last), self.last(template))]:
                target = template.replace("{id}", text)
                code = "no_route" if self.document.route(target)[1] is not item else None if register != "small" or text == self.here(template) else "not_found"
                if register != "small" and method == "post":
                    code = "limit"  # no id is left for what is claimed
                status = self.document.status(code) if code else success_of(operation)
                yield Edge(f"{method} {target} in {register}", request(method.upper(), target, body), status, code, register, operation)

    def method_edges(self, template, item):
        target = self.target(template)
        for method in ("GET", "POST", "PUT", "PATCH", "DELETE", "HEAD", "OPTIONS", "TRACE", "get", "Post"):
            if method.lower() not in item or method != method.upper():
                body, code = {} if method in ("POST", "PUT", "PATCH") else None, None if method == "HEAD" else "method"
                yield Edge(f"{method} {target}", request(method, target, body), 405, code)
        for path in (target[:-1], target + "/", target.upper(), target[1:], target.replace("/ipam/", "/ipam//"), target + "x/", target.replace("a", "%61", 1)):
            if self.document.route(path)[1] is None:
                yield Edge(f"GET {path}", request("GET", path), 404, "no_route")

    # -- limits that no schema has

    def limit_edges(self):
        limits, line = self.document.limits, f"GET {self.listing} HTTP/1.1\r\n".encode()
        listing, create, base = self.document.paths[self.listing]["get"], self.document.paths[self.listing]["post"], self.body_of(self.listing, "post")
        for size, status, code in ((limits["head_bytes"], 200, None), (limits["head_bytes"] + 1, 413, "too_large")):
            yield Edge(f"a head of {size} bytes", line + b"A: " + b"a" * (size - len(line) - 7) + b"\r\n\r\n", status, code, "small", listing)
        for count, status, code in ((limits["head_fields"], 200, None), (limits["head_fields"] + 1, 400, "bad_head")):
            yield Edge(f"{count} fields", line + b"".join(b"A%d: b\r\n" % number for number in range(count)) + b"\r\n", status, code, "small", listing)
        for size, status, code in ((limits["body_bytes"], 201, None), (limits["body_bytes"] + 1, 413, "too_large")):
            yield Edge(f"a body of {size} bytes", padded(self.listing, size, base), status, code, "small", create)
        for depth, status, code in ((limits["body_depth"], 201, None), (limits["body_depth"] + 1, 400, "bad_json")):
            body = joined(base, {}, '"x":' + "[" * (depth - 1) + "]" * (depth - 1), "x").encode()
            yield Edge(f"a body {depth} deep", request("POST", self.listing, body), status, code, "small", create)
        yield Edge("a coding", line + b"Transfer-Encoding: chunked\r\n\r\n", 501, "coding", "small", listing)

    def framing_edges(self):
        """Each operation with a request that is refused before its path is looked at."""
        many = "".join(f"A{number}: b\r\n" for number in range(self.document.limits["head_fields"] + 1))
        long = f"Content-Length: {self.document.limits['body_bytes'] + 1}\r\n"
        for template, item in self.document.paths.items():
            for method in [one for one in METHODS if one in item]:
                line = f"{method.upper()} {self.target(template)} HTTP/1.1\r\n"
                for fields, code in ((many, "bad_head"), (long, "too_large"), ("Transfer-Encoding: gzip\r\n", "coding")):
                    yield Edge(f"{method} {template} {code}", f"{line}{fields}\r\n".encode(), self.document.status(code), code, "small", item[method])

    def full_disk_edges(self):
        """Each operation where the file cannot grow: what changes is answered 503, what reads as ever."""
        for template, item in self.document.paths.items():
            for method in [one for one in METHODS if one in item]:
                sent = request(method.upper(), self.target(template), self.body_of(template, method))
                status, code = (success_of(item[method]), None) if method == "get" else (self.document.status("keeper"), "keeper")
                yield Edge(f"{method} {template} on a full disk", sent, status, code, "small", item[method], True)

    # -- all of them

    def all(self):
        for template, item in self.document.paths.items():
            for method in METHODS:
                if method in item and "requestBody" in item[method]:
                    yield from self.body_edges(template, method, item[method])
            yield from self.parameter_edges(template, item.get("get", {}))
            if "{id}" in template:
                yield from self.path_edges(template, item)
            yield from self.method_edges(template, item)
        yield from self.limit_edges()
        yield from self.framing_edges()
        yield from self.full_disk_edges()
        yield from self.own_edges()

    def differs(self, folder, number, edge):
        """What is answered otherwise than the document says, or None."""
        path = os.path.join(folder, str(number))
        shutil.copy(os.path.join(folder, edge.register), path)
        command = ["bash", "-c", 'trap "" XFSZ; ulimit -f 4; exec "$@"', "-"] if edge.limited else []
        done = subprocess.run([*command, self.program, "session", "--db", path], input=edge.sent, capture_output=True)
        os.remove(path)
        is_head = edge.sent.startswith(b"HEAD ")
        answers = answers_in(done.stdout, ["HEAD"] if is_head else [])
        if done.returncode != 0 or len(answers) != 1:
            return f"status {done.returncode} {done.stderr[:200]!r}, {len(answers)} answers"
        answer, document = answers[0], self.document
        said = edge.operation if edge.operation and edge.code != "no_route" else document.other_path if edge.status == 404 else document.other_method
        wrong = wrong_in(document, answer, said, is_head)
        if not wrong and (answer.status, answer.code) != (edge.status, edge.code):
            wrong = f"wanted {edge.status} {edge.code or ''}"
        if not wrong and answer.status < 300 and not accepts(edge.operation, edge.sent.partition(b"\r\n\r\n")[2]):
            wrong = "the document does not allow this body"
        return wrong and f"{wrong}\nanswer   {answer.status} {answer.text[:600]!r}"

    def check_connection(self):
        """The last answer of a connection says that it closes, and no other does; what is behind it is not answered."""
        most, operation = self.document.limits["answers_of_a_connection"], self.document.paths[self.listing]["get"]
        done = subprocess.run([self.program, "session"], input=request("GET", self.listing) * (most + 1), capture_output=True)
        answers = answers_in(done.stdout, [])
        wrong = next((found for found in (wrong_in(self.document, answer, operation) for answer in answers) if found), None)
        if wrong or done.returncode != 0 or ["Connection" in answer.headers for answer in answers] != [False] * (most - 1) + [True]:
            sys.exit(f"openapi: {most + 1} requests on a connection: {len(answers)} answers, {wrong}")

    def check(self):
        """Tries all of them; gives the codes that were seen."""
        self.check_connection()
        edges = [edge for edge in self.all() if edge]
        with tempfile.TemporaryDirectory(dir="/dev/shm" if os.access("/dev/shm", os.W_OK) else None) as folder:
            self.make(folder)
            with ThreadPoolExecutor(2) as pool:
                for edge, wrong in zip(edges, pool.map(lambda pair: self.differs(folder, *pair), enumerate(edges))):
                    if wrong:
                        sys.exit(f"openapi: {edge.name}: {wrong}\nrequest  {edge.sent[:600]!r}")
        told = Counter(f"{edge.status} {edge.code or ''}".strip() for edge in edges)
        print(f"openapi: {len(edges)} requests at the edges ({len({edge.sent for edge in edges})} different ones), all as the document says")
        print("   " + ", ".join(f"{what} {count}" for what, count in sorted(told.items())))
        return {edge.code for edge in edges}


@dataclass
class Place:
    """Where a body is sent: an operation, its method and target, a body that it accepts, and the file that it meets."""
    edges: Edges
    operation: dict
    method: str
    target: str
    base: dict
    register: str = "small"

    def edge(self, name, body, status, code=None):
        return Edge(f"{self.method} {self.target} {name}", request(self.method.upper(), self.target, body), status, code, self.register, self.operation)

    def of_member(self, name, schema, text, shape):
        """One member with this JSON text in the body; `shape` makes the body of the object."""
        try:
            value = json.loads(text)
        except ValueError:
            value = None
        others = self.edges.companions(name, value)
        if others is None:
            return None
        body = shape(joined(self.base, others, f"{quoted(name)}:{text}", name)).encode("utf-8", "surrogatepass")
        early, _ = self.edges.document.early(self.method.upper(), self.target.encode(), body)
        code = early[0] if early else self.edges.rule_code(schema, value, self)
        return self.edge(f"{name} {text[:60]}", body, self.edges.document.status(code) if code else success_of(self.operation), code)
