"""How conformance/openapi.py reads docs/openapi.json: which values a schema allows, what the document says of a request before the register is asked, and
what an answer has that the document does not say."""
import json
import re

from jsonschema import Draft202012Validator, FormatChecker, exceptions, validators

from model.plain_texts import Refused, read_block, read_json, read_query

METHODS = ("get", "post", "patch", "delete")
# what is decided before the register is asked
EARLY = ("no_route", "method", "bad_json", "field", "host_bits")


# ---- schemas: numbers are whole where they are written so, patterns are those of ECMA-262

def ecma_pattern(validator, pattern, instance, schema):
    """In Python `$` stands before a last line feed too."""
    if isinstance(instance, str) and not re.search(re.sub(r"\$$", r"\\Z", pattern), instance):
        yield exceptions.ValidationError(f"{instance!r} does not match {pattern!r}")


def most_bytes(validator, most, instance, schema):
    if isinstance(instance, str) and len(instance.encode("utf-8", "surrogatepass")) > most:
        yield exceptions.ValidationError(f"{instance!r} has more than {most} bytes")


FORMATS = FormatChecker(formats=())


@FORMATS.checks("cidr-block")
def has_no_host_bits(value):
    return not isinstance(value, str) or "/" not in value or not read_block(value)[1]


Validator = validators.extend(
    Draft202012Validator, {"pattern": ecma_pattern, "x-max-bytes": most_bytes},
    type_checker=Draft202012Validator.TYPE_CHECKER.redefine("integer", lambda _, value: isinstance(value, int) and not isinstance(value, bool)))


def faults(schema, value):
    """The codes with which the value is refused, by the keywords that it breaks."""
    return [error.schema.get("x-refused", {}).get(error.validator, "field") for error in Validator(schema, format_checker=FORMATS).iter_errors(value)]


def same(schema, value):
    return Validator(schema, format_checker=FORMATS).is_valid(value)


# ---- the document, with each reference replaced by what it names

class Document:
    def __init__(self, text):
        self.raw = json.loads(text)
        self.paths = self.resolved(self.raw["paths"])
        self.other_path, self.other_method = self.resolved(self.raw["x-other-paths"]), self.resolved(self.raw["x-other-methods"])
        self.refusals = {one["properties"]["code"]["const"]: one for name, one in self.raw["components"]["schemas"].items() if name.endswith("Refusal")}
        self.limits = self.raw["x-limits"]

    def resolved(self, node):
        """What stands beside a reference is joined to what it names; no schema contains itself."""
        if isinstance(node, list):
            return [self.resolved(one) for one in node]
        if not isinstance(node, dict):
            return node
        found = {name: self.resolved(one) for name, one in node.items() if name != "$ref"}
        if "$ref" in node:
            there = self.raw
            for name in node["$ref"].removeprefix("#/").split("/"):
                there = there[name]
            found = {**self.resolved(there), **found}
        return found

    def status(self, code):
        return self.refusals[code]["x-status"]

    def route(self, path):
        """The path item whose template the path has, and its template."""
        for template, item in self.paths.items():
            match = re.fullmatch(re.escape(template).replace(r"\{id\}", "([^/]+)"), path)
            if match and all(same(one["schema"], as_number(match[1])) for one in item.get("parameters", [])):
                return template, item
        return None, None

    def methods(self, item):
        return ", ".join(method.upper() for method in METHODS if method in item)

    # -- what the document says of a request, before the register is asked

    def early(self, method, target, body):
        """The code and the detail of a refusal, or None; and the operation, where there is one."""
        path, _, query = target.partition(b"?")
        template, item = self.route(path.decode("latin-1"))
        if item is None:
            return ("no_route", None), None
        if method.lower() not in METHODS or method != method.upper() or method.lower() not in item:
            return ("method", None), None
        operation = item[method.lower()]
        if "requestBody" in operation:
            return self.of_body(operation["requestBody"]["content"]["application/json"]["schema"], body), operation
        pairs = read_query(query)
        for one in operation.get("parameters", []):
            if one["name"] in pairs and faults(one["schema"], as_parameter(one["schema"], pairs[one["name"]])):
                return ("field", f"{one['name']} is missing or malformed"), operation
        return None, operation

    def of_body(self, schema, body):
        try:
            value = read_json(body)
        except Refused:
            return "bad_json", None
        if "oneOf" not in schema:
            return self.of_object(schema, value)
        item, items = schema["oneOf"]
        if isinstance(value, dict):
            return self.of_object(item, value)
        if not isinstance(value, list) or not all(isinstance(one, dict) for one in value):
            return schema["x-refused"]["type"], None
        if len(value) < items["minItems"]:
            return "field", "body is missing or malformed"
        return next((found for found in (self.of_object(item, one) for one in value) if found), None)

    def of_object(self, schema, value):
        """The first member that is malformed, or missing and required, in the order of the document."""
        if not isinstance(value, dict):
            return schema["x-refused"]["type"], None
        for name, one in schema["properties"].items():
            codes = faults(one, value[name]) if name in value else ["field"] if name in schema.get("required", []) else []
            if "field" in codes:
                return "field", f"{name} is missing or malformed"
            if "host_bits" in codes:
                return "host_bits", None
        return None


def accepts(operation, body):
    """Whether the whole schema of an operation allows the body, or it has none."""
    return "requestBody" not in operation or same(operation["requestBody"]["content"]["application/json"]["schema"], read_json(body))


def as_number(text):
    """A parameter that is to be a number: decimal, without a sign or a leading zero."""
    return int(text) if re.fullmatch("0|[1-9][0-9]*", text) else text


def as_parameter(schema, text):
    return text if schema.get("type") == "string" else as_number(text)


# ---- answers

class Answer:
    def __init__(self, head, body):
        first, *lines = head.decode("latin-1").split("\r\n")
        self.status, self.phrase = int(first[9:12]), first[13:]
        self.headers = {name: value for name, _, value in (line.partition(": ") for line in lines)}
        self.text, self.value = body, json.loads(body) if body else None
        self.code = self.value["code"] if self.status >= 400 and body else None


def answers_in(stream, methods):
    """The answers of a stream; one to HEAD has no body."""
    found = []
    while stream:
        head, _, behind = stream.partition(b"\r\n\r\n")
        length = re.search(rb"\r\nContent-Length: ([0-9]+)(?:\r\n|$)", head)
        size = int(length[1]) if length and not (len(found) < len(methods) and methods[len(found)] == "HEAD") else 0
        found.append(Answer(head, behind[:size]))
        stream = behind[size:]
    return found


def wrong_in(document, answer, operation, is_head=False):
    """What the answer has that the document does not say, or None. `operation`: that of the request, or the answer where there is none."""
    said = operation if "responses" not in operation else operation["responses"].get(str(answer.status))
    if said is None:
        return f"status {answer.status} is not in the document"
    for name, header in said.get("headers", {}).items():
        if name not in answer.headers:
            if header.get("required"):
                return f"{name} is missing"
        elif not same(header["schema"], as_number(answer.headers[name])):
            return f"{name}: {answer.headers[name]}"
    extra = set(answer.headers) - set(said.get("headers", {})) - {"Content-Type", "Content-Length"}
    if extra:
        return f"{extra} is not in the document"
    if is_head:
        return None
    if ("content" in said) != bool(answer.text):
        return "a body, or none"
    return wrong_body(document, answer, said) if answer.text else None


def wrong_body(document, answer, said):
    if [answer.headers.get("Content-Type")] != list(said["content"]):
        return f"Content-Type {answer.headers.get('Content-Type')}"
    for error in Validator(said["content"]["application/json"]["schema"], format_checker=FORMATS).iter_errors(answer.value):
        return f"{error.json_path}: {error.message[:300]}"
    if answer.code and document.refusals[answer.code]["x-status"] != answer.status:
        return f"{answer.code} with status {answer.status}"
    if answer.code and document.refusals[answer.code]["x-place"] != ("Ipam-Place" in answer.headers):
        return f"{answer.code}: Ipam-Place"
    return None
