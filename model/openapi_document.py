"""docs/openapi.json: the HTTP interface of `ipamd` as an OpenAPI 3.1 document; conformance/openapi.py writes and checks it.

Names, their order, defaults and limits are those of model/plain_texts.py and model/plain_register.py, so that each is said once.
"""
import json
import os
import re

from model.plain_register import FILTERS, MOST_ANSWERS, MOST_BODY, MOST_HEAD, MOST_ITEMS, MOST_LOG, MOST_ROWS, PHRASES
from model.plain_texts import ADDRESS_ROLES, KINDS, MEMBERS, MOST_DEPTH, MOST_ID, REQUIRED, STATUSES

TOP = os.path.abspath(os.path.join(os.path.dirname(os.path.abspath(__file__)), ".."))
MOST_FIELDS, MOST_LISTED, MOST_SKIPPED = 64, 1000, 4294967295
ONE = {"vrfs": "Vrf", "rirs": "Rir", "roles": "Role", "aggregates": "Aggregate", "prefixes": "Prefix", "ip-ranges": "IpRange", "ip-addresses": "IpAddress"}
MANY = {"vrfs": "Vrfs", "rirs": "Rirs", "roles": "Roles", "aggregates": "Aggregates", "prefixes": "Prefixes", "ip-ranges": "IpRanges",
        "ip-addresses": "IpAddresses"}
ABOUT = """The HTTP interface of `ipamd serve` and `ipamd session`. docs/USING.md explains it; this document has each path, parameter, body, answer and
refusal with its bounds.

- A value that its schema does not allow is refused with the code `field`, unless `x-refused` in the schema names another code for the keyword that it breaks.
  `zero_mask`, `dns_name` and `limit` are refusals of the register: it comes after all members are read. Where a body may be an object or a list, the schema
  of what it is counts.
- Parameters and members are read in the order in which they stand here, and the first that is malformed is named in the refusal.
- Unknown parameters and members are ignored. If one occurs twice, the last one counts.
- A number in a path or a query is decimal, without a sign or a leading zero. A number in a body has no fraction and no exponent.
- Patterns are those of ECMA-262. The format `cidr-block` asks for more: no bit is set past the length of a block. `x-max-bytes` counts bytes of UTF-8.
- The register checks its rules after all members are read. So a body that its schema allows can still be refused, by the codes of the answer.
- `x-limits` has the limits that no schema has. `x-other-paths` and `x-other-methods` say what is answered where this document has no path or no method;
  an answer to HEAD has no body.
- `Content-Type` and `Authorization` of a request are ignored. There is no authentication and no TLS: put a proxy in front."""


# ---- schemas of texts and numbers

def ref(name, **more):
    return {"$ref": "#/components/schemas/" + name, **more}


def text(least, most, **more):
    return {"type": "string", "minLength": least, "maxLength": most, "pattern": "^[^\\u0000-\\u001f\\u007f]*$", **more}


OCTET = "(?:25[0-5]|2[0-4][0-9]|1[0-9]{2}|[1-9]?[0-9])"
QUAD = f"(?:{OCTET}\\.){{3}}{OCTET}"


def ipv6(group, least, tail):
    """A pattern of IPv6 texts: `::` stands for at least so many groups, and a dotted quad may be last where there is a tail."""
    def some(most):
        found = f"(?:{group}:){{0,{most - 1}}}{group}"
        return f"(?:{found}|(?:{group}:){{0,{most - 2}}}{QUAD})?" if tail and most > 1 else f"(?:{found})?" if most else ""
    whole = [f"(?:{group}:){{7}}{group}"] + ([f"(?:{group}:){{6}}{QUAD}"] if tail else [])
    short = [(f"(?:{group}:){{{before - 1}}}{group}" if before else "") + "::" + some(8 - least - before) for before in range(9 - least)]
    return "(?:" + "|".join(whole + short) + ")"


LENGTHS = {4: "(?:3[0-2]|[12]?[0-9])", 6: "(?:12[0-8]|1[01][0-9]|[1-9]?[0-9])"}
ADDRESSES = {4: QUAD, 6: ipv6("[0-9A-Fa-f]{1,4}", 1, True)}
CANONICAL = {4: QUAD, 6: ipv6("(?:0|[1-9a-f][0-9a-f]{0,3})", 2, False)}


def patterns(addresses, behind):
    """One pattern for each family, with what stands behind its address."""
    return [{"pattern": f"^{addresses[family]}{behind.replace('LENGTH', LENGTHS[family])}$"} for family in (4, 6)]


ZERO = {"pattern": "/0$"}
DNS_LABELS = "(?:\\.[A-Za-z0-9_-]+)*\\.?"


def texts():
    return {
        "Name": text(1, 100, description="Characters are counted, not bytes."),
        "Slug": {"type": "string", "minLength": 1, "maxLength": 100, "pattern": "^[A-Za-z0-9_-]*$"},
        "Rd": text(0, 21, type=["string", "null"], description="A route distinguisher. The empty text and null are none."),
        "Description": text(0, 200),
        "DnsName": {"type": "string", "x-max-bytes": 255, "pattern": f"^(?:(?:\\*|[A-Za-z0-9_-]+){DNS_LABELS})?$", "x-refused": {"pattern": "dns_name"},
                    "description": "It is stored in lower case."},
        "BlockText": {"type": "string", "format": "cidr-block", "anyOf": patterns(ADDRESSES, "/LENGTH"),
                      "description": "A block, as 10.0.0.0/24 or 2001:db8::/32."},
        "Block": ref("BlockText", **{"not": ZERO, "x-refused": {"format": "host_bits", "not": "zero_mask"}}),
        "BlockOrAddress": {"type": "string", "format": "cidr-block", "anyOf": patterns(ADDRESSES, "(?:/LENGTH)?"),
                           "description": "A block, or an address alone, which is the block of this address."},
        "Host": {"type": "string", "anyOf": patterns(ADDRESSES, "(?:/LENGTH)?"), "not": ZERO, "x-refused": {"not": "zero_mask"},
                 "description": "An address with its mask, as 10.0.0.1/24. Without one the mask is 32, or 128 for IPv6."},
        "CanonicalBlock": {"type": "string", "format": "cidr-block", "anyOf": patterns(CANONICAL, "/LENGTH"), "not": ZERO,
                           "description": "A block in canonical form (RFC 5952)."},
        "CanonicalHost": {"type": "string", "anyOf": patterns(CANONICAL, "/LENGTH"), "not": ZERO,
                          "description": "An address with its mask in canonical form (RFC 5952)."},
        "LowerDnsName": {"type": "string", "maxLength": 255, "pattern": f"^(?:(?:\\*|[a-z0-9_-]+){DNS_LABELS.replace('A-Z', '')})?$"},
    }


def numbers():
    whole = {"type": "integer"}
    return {
        "Id": {**whole, "minimum": 1, "maximum": MOST_ID + 1, "description": f"The id of a record. No record has an id above {MOST_ID}."},
        "IdOrNull": {**whole, "type": ["integer", "null"], "minimum": 1, "maximum": MOST_ID + 1, "description": "The id of a record; null is none."},
        "IdOrNullWord": {"oneOf": [ref("Id"), {"const": "null"}], "description": "An id, or `null` for the records without one."},
        "RowId": {**whole, "minimum": 1, "maximum": MOST_ID},
        "RowIdOrNull": {"type": ["integer", "null"], "minimum": 1, "maximum": MOST_ID},
        "Weight": {**whole, "minimum": 0, "maximum": 32767},
        "PrefixLength": {**whole, "minimum": 0, "maximum": 255,
                         "description": "It has to be above the length of the prefix, and at most 32, or 128 for IPv6 (else `wanted_length`)."},
        "Family": {**whole, "enum": [4, 6]},
    }


STATUS_NAMES = {"prefixes": "PrefixStatus", "ip-ranges": "RangeStatus", "ip-addresses": "AddressStatus"}


def label(value):
    return value.capitalize() if value in ("container", "active", "reserved", "deprecated", "loopback", "secondary", "anycast") else value.upper()


def choices():
    found = {"AddressRoleWord": {"type": "string", "enum": ADDRESS_ROLES},
             "AddressRole": {"type": ["string", "null"], "enum": ADDRESS_ROLES + ["", None], "description": "The empty text and null are none."},
             "AddressRoleChoice": {"enum": [{"label": label(value), "value": value} for value in ADDRESS_ROLES] + [None]}}
    for kind, name in STATUS_NAMES.items():
        found[name] = {"type": "string", "enum": STATUSES[kind]}
        found[name + "Choice"] = {"enum": [{"label": label(value), "value": value} for value in STATUSES[kind]]}
    return found


# ---- bodies

OF_MEMBER = {"name": "Name", "slug": "Slug", "rd": "Rd", "description": "Description", "weight": "Weight", "prefix": "Block", "rir": "Id", "vrf": "IdOrNull",
             "start_address": "Host", "end_address": "Host", "address": "Host", "dns_name": "DnsName", "prefix_length": "PrefixLength"}
OF_VIEW = {**OF_MEMBER, "prefix": "CanonicalBlock", "rir": "RowId", "vrf": "RowIdOrNull", "start_address": "CanonicalHost", "end_address": "CanonicalHost",
           "address": "CanonicalHost", "dns_name": "LowerDnsName"}
KIND_OF_CLAIM = {"claims of blocks": "prefixes", "claims of addresses": "ip-addresses"}


def member(kind, name):
    kind = KIND_OF_CLAIM.get(kind, kind)
    if name == "status":
        return ref(STATUS_NAMES[kind])
    if name == "role":
        return ref("AddressRole" if kind == "ip-addresses" else "IdOrNull")
    return ref(OF_MEMBER[name]) if name in OF_MEMBER else {"type": "boolean"}


def body(kind, whole):
    """The members in the order in which they are read; in a change none is required, and an absent one leaves its field."""
    properties = {name: member(kind, name) | ({"default": default} if whole and default is not REQUIRED else {}) for name, _, default in MEMBERS[kind]}
    needed = [name for name, _, default in MEMBERS[kind] if default is REQUIRED]
    return {"type": "object", "x-refused": {"type": "bad_json"}, "properties": properties, **({"required": needed} if whole and needed else {})}


def closed(properties):
    return {"type": "object", "properties": dict(sorted(properties.items())), "required": sorted(properties), "additionalProperties": False}


def view(kind):
    def shown(name):
        if name == "status":
            return ref(STATUS_NAMES[kind] + "Choice")
        if name == "role":
            return ref("AddressRoleChoice" if kind == "ip-addresses" else "RowIdOrNull")
        if name == "rd":
            return text(1, 21, type=["string", "null"])
        return ref(OF_VIEW[name]) if name in OF_VIEW else {"type": "boolean"}
    properties = {"id": ref("RowId"), **{name: shown(name) for name, _, _ in MEMBERS[kind]}}
    if kind in ("aggregates", "prefixes", "ip-ranges", "ip-addresses"):
        properties["family"] = ref("Family")
    if kind == "prefixes":
        properties["depth"] = {"type": "integer", "minimum": 0, "maximum": 127,
                               "description": "How many different blocks of its table strictly contain its block."}
        properties["children"] = {"type": "integer", "minimum": 0, "maximum": MOST_ROWS[kind] - 1,
                                  "description": "How many prefixes of its table are strictly inside it."}
    if kind == "ip-ranges":
        properties["size"] = {"type": "integer", "minimum": 2, "maximum": 4294967295}
    return closed(properties)


def page(kind, one, most):
    page_of = "(?:[^#\\s]*&)?limit=(?:[1-9][0-9]{0,2}|1000)&offset=(?:0|[1-9][0-9]{0,9})"
    target = {"type": ["string", "null"], "pattern": f"^/api/ipam/{kind}/\\?{page_of}$"}
    return closed({"count": {"type": "integer", "minimum": 0, "maximum": most}, "next": target, "previous": target,
                   "results": {"type": "array", "maxItems": MOST_LISTED, "items": ref(one)}})


def claim(item):
    """One object, or a list of them."""
    return {"type": ["object", "array"], "x-refused": {"type": "bad_json"}, "oneOf": [ref(item), claim_list(item)]}


def claim_list(item):
    return {"type": "array", "minItems": 1, "maxItems": MOST_ITEMS, "items": ref(item), "x-refused": {"maxItems": "limit"}}


def bodies():
    found = {"BlockClaimItem": body("claims of blocks", True), "AddressClaimItem": body("claims of addresses", True)}
    found |= {"BlockClaim": claim("BlockClaimItem"), "AddressClaim": claim("AddressClaimItem")}
    for kind in KINDS:
        found |= {"New" + ONE[kind]: body(kind, True), "Changed" + ONE[kind]: body(kind, False), ONE[kind]: view(kind), ONE[kind] + "Page": page(kind, ONE[kind], MOST_ROWS[kind])}
    for name, item in (("ClaimedPrefixes", "Prefix"), ("ClaimedAddresses", "IpAddress")):
        found[name] = {"description": "One record for one object, a list for a list.",
                       "oneOf": [ref(item), {"type": "array", "minItems": 1, "maxItems": MOST_ITEMS, "items": ref(item)}]}
    table = {"family": ref("Family"), "vrf": ref("RowIdOrNull")}
    for name, part in (("AvailablePrefixes", {"prefix": ref("CanonicalBlock")}), ("AvailableAddresses", {"address": ref("CanonicalHost")})):
        found[name] = {"type": "array", "maxItems": MOST_LISTED, "items": closed(table | part)}
    return found | {"Utilization": closed({"utilization": {"type": "integer", "minimum": 0, "maximum": 100}})}


# ---- refusals: the code, the status, its detail (a text, or a pattern after `^`), whether the register was asked, and the cause

KIND, ID = f"(?:{'|'.join(KINDS)})", "[1-9][0-9]{0,9}"
REFUSALS = [
    ("bad_head", 400, "the request could not be read", False, "The head cannot be read, or the input ends inside a request. The connection closes."),
    ("too_large", 413, f"^the (?:head exceeds {MOST_HEAD}|body exceeds {MOST_BODY}) bytes$", False, "The head or the body is too long. The connection closes."),
    ("coding", 501, "transfer codings are not served", False, "The request has a Transfer-Encoding. The connection closes."),
    ("no_route", 404, "no such path", False, "The path does not exist."),
    ("method", 405, "the path does not have this method", False, "The path does not have this method; Allow lists its methods."),
    ("bad_json", 400, "the body is not the JSON that is asked for", False, "The body is no JSON object; for claims, neither an object nor a list of objects."),
    ("field", 400, "^[a-z_]+ is missing or malformed$", False, "A member or a parameter is malformed, or missing and required."),
    ("host_bits", 400, "^host bits are set, the prefix is [0-9a-f.:]+/[0-9]{1,3}$", False, "Bits are set past the length of a block."),
    ("not_found", 404, f"^{KIND} {ID} is not there$", True, "The record of the path does not exist."),
    ("no_such", 400, f"^(?:vrfs|rirs|roles) {ID} is not there$", True, "The VRF, role or RIR that a record names does not exist."),
    ("name_taken", 400, f"^the name is that of {ID}$", True, "Another RIR or role has this name."),
    ("slug_taken", 400, f"^the slug is that of {ID}$", True, "Another RIR or role has this slug."),
    ("rd_taken", 400, f"^the rd is that of {ID}$", True, "Another VRF has this route distinguisher."),
    ("coincide", 400, f"^(?:prefixes|ip-addresses) {ID} and {ID} coincide$", True, "The VRF is to enforce uniqueness, and two of its records are duplicates."),
    ("zero_mask", 400, "a mask of length 0 is refused", True, "A prefix, aggregate, range or address of length 0."),
    ("aggregate_overlap", 400, f"^overlaps aggregate {ID}$", True, "Another aggregate has some of its addresses."),
    ("duplicate", 400, f"^coincides with {ID}$", True, "The table enforces uniqueness, and another prefix has the block, or another address the host."),
    ("range_family", 400, "start and end differ in family", True, "The two ends of a range differ in family."),
    ("range_mask", 400, "start and end differ in mask", True, "The two ends of a range differ in mask."),
    ("range_order", 400, "the end must be greater than the start", True, "The end of a range is not above its start."),
    ("range_size", 400, "a range has at most 4294967295 addresses", True, "A range has too many addresses."),
    ("range_overlap", 400, f"^overlaps range {ID}$", True, "Another range of the table has some of its addresses."),
    ("populated", 400, f"^inside populated range {ID}$", True, "A range of the table that somebody else fills has the host."),
    ("slaac_family", 400, "slaac is for IPv6 only", True, "The status slaac with an IPv4 address."),
    ("dns_name", 400, "not a DNS name", True, "Labels are letters, digits, `_` and `-`, joined by periods; a `*` may come first, a period last."),
    ("wanted_length", 400, "the length does not fit the prefix", True, "A claim asks for a length that does not fit the prefix."),
    ("in_use", 409, f"^named by (?:aggregates|prefixes|ip-ranges|ip-addresses) {ID}$", True, "A record names the VRF or RIR that is to be deleted."),
    ("no_space", 409, "^no space for claim (?:0|[1-9][0-9]{0,2})$", True, "An item of a claim finds no space; the detail has its number, from 0."),
    ("memory", 500, "no memory", True, "Out of memory; nothing is changed."),
    ("keeper", 503, "the store could not be written", True, "The file could not be written; nothing is changed."),
    ("limit", 507, f"^(?:{'|'.join(KINDS)}|claims|log|ids) would exceed [1-9][0-9]*$", True, "A limit is reached."),
]
CLOSES = ("bad_head", "too_large", "coding")


def refusal_name(code):
    return "".join(word.capitalize() for word in code.split("_")) + "Refusal"


def refusals(book=REFUSALS):
    found = {}
    for code, status, detail, asked, cause in book:
        said = {"type": "string", "pattern": detail} if detail.startswith("^") else {"const": detail}
        found[refusal_name(code)] = {"description": cause, "x-status": status, "x-place": asked, **closed({"code": {"const": code}, "detail": said})}
    return found


# ---- answers

def content(schema):
    return {"application/json": {"schema": schema}}


def headers(places, close=False):
    """`places`: whether each answer of this status has a place."""
    found = {"Ipam-Place": {"$ref": f"#/components/headers/{'IpamPlace' if all(places) else 'IpamPlaceIfAsked'}"}} if any(places) else {}
    return found | {"Connection": {"$ref": f"#/components/headers/{'ConnectionClose' if close else 'Connection'}"}}


def refused(status, codes, book=REFUSALS):
    """The answer of a status with these refusals, of which some have known details, or a pattern of them."""
    asked = {code: has_place for code, _, _, has_place, _ in book}

    def schema(code, details):
        told = {"pattern": details} if isinstance(details, str) else {"enum": details}
        return ref(refusal_name(code)) if details is None else {"allOf": [ref(refusal_name(code)), {"properties": {"detail": told}}]}
    schemas = [schema(code, details) for code, details in codes]
    said = " ".join(f"`{code}`" for code, _ in codes)
    return {"description": f"{PHRASES_ALL[status]}: {said}", "headers": headers([asked[code] for code, _ in codes], all(code in CLOSES for code, _ in codes)),
            "content": content(schemas[0] if len(schemas) == 1 else {"oneOf": schemas})}


PHRASES_ALL = {**PHRASES, 500: "Internal Server Error", 503: "Service Unavailable"}


def answers(status, schema, codes, book=REFUSALS):
    """What an operation answers: its success, and its refusals as a dict of codes and their known details."""
    statuses = {code: its_status for code, its_status, _, _, _ in book}
    codes = {"bad_head": None, **codes, "too_large": None, "memory": None, "coding": None}
    found = {str(status): {"description": PHRASES_ALL[status], "headers": headers([True]), **({"content": content(schema)} if schema else {})}}
    for code in sorted({statuses[code] for code in codes}):
        found[str(code)] = refused(code, [(name, details) for name, details in codes.items() if statuses[name] == code], book)
    return found


def fields(names):
    return {"field": [f"{name} is missing or malformed" for name in names]}


def limits(*kinds):
    most = {**MOST_ROWS, "claims": MOST_ITEMS, "ids": MOST_ID, "log": MOST_LOG}
    return {"limit": [f"{which} would exceed {most[which]}" for which in kinds]}


RULES = {"vrfs": ["rd_taken"], "rirs": ["name_taken", "slug_taken"], "roles": ["name_taken", "slug_taken"],
         "aggregates": ["host_bits", "no_such", "zero_mask", "aggregate_overlap"], "prefixes": ["host_bits", "no_such", "zero_mask", "duplicate"],
         "ip-ranges": ["no_such", "range_family", "range_mask", "zero_mask", "range_order", "range_size", "range_overlap"],
         "ip-addresses": ["no_such", "zero_mask", "slaac_family", "dns_name", "duplicate", "populated"]}


def checked(kind):
    return {"bad_json": None, **fields([name for name, _, _ in MEMBERS[kind]]), **{code: None for code in RULES[kind]}, "keeper": None}


# ---- operations

ID_PARAMETER = {"$ref": "#/components/parameters/id"}
ID_OF_PATH = {"name": "id", "in": "path", "required": True, "description": "The id of a record. Any other text makes another path (404 `no_route`).",
              "schema": ref("Id", **{"x-refused": {"type": "no_route", "minimum": "no_route", "maximum": "no_route"}})}
OF_FILTER = {"family": "Family", "vrf_id": "IdOrNullWord", "role_id": "IdOrNullWord", "rir_id": "Id", "prefix": "BlockText", "within": "BlockText",
             "within_include": "BlockText", "contains": "BlockOrAddress", "parent": "BlockText", "role": "AddressRoleWord"}
ANY_TEXT = {"type": "string"}


def parameter(kind, name):
    schema = ref(STATUS_NAMES[kind]) if name == "status" else ref(OF_FILTER[name]) if name in OF_FILTER else ANY_TEXT
    return {"name": name, "in": "query", "schema": schema}


def listed(default):
    return {"name": "limit", "in": "query", "description": f"How many are listed at most; 0 and every number above {MOST_LISTED} count as {MOST_LISTED}.",
            "schema": {"type": "integer", "minimum": 0, "maximum": 9999999999, "default": default}}


SKIPPED = {"name": "offset", "in": "query", "description": "How many records are skipped.",
           "schema": {"type": "integer", "minimum": 0, "maximum": MOST_SKIPPED, "default": 0}}


def operation(kind, name, summary, status, schema, codes, parameters=(), asked=None):
    found = {"operationId": name, "summary": summary, "tags": [kind]}
    if parameters:
        found["parameters"] = list(parameters)
    if asked:
        found["requestBody"] = {"required": True, "content": content(ref(asked))}
    return {**found, "responses": answers(status, schema, codes)}


def rows_path(kind):
    one, many = ONE[kind], MANY[kind]
    parameters = [parameter(kind, name) for name, _, _ in FILTERS[kind]] + [listed(50), SKIPPED]
    bounded = [one["name"] for one in parameters if one["schema"] != ANY_TEXT]
    return {
        "get": operation(kind, "list" + many, "A page of the records that pass all filters, by id", 200, ref(one + "Page"),
                         fields(bounded), parameters),
        "post": operation(kind, "create" + one, "Create a record", 201, ref(one), {**checked(kind), **limits(kind, "ids", "log")}, asked="New" + one),
    }


def row_path(kind):
    one, there = ONE[kind], {"not_found": f"^{kind} ", "no_route": None}
    coincide = {"coincide": None} if kind == "vrfs" else {}
    in_use = {"in_use": None} if kind in ("vrfs", "rirs") else {}
    return {
        "parameters": [ID_PARAMETER],
        "get": operation(kind, "get" + one, "One record", 200, ref(one), there),
        "patch": operation(kind, "change" + one, "Change some members of a record; an absent one stays as it is", 200, ref(one),
                           {**checked(kind), **coincide, **there, **limits("log")}, asked="Changed" + one),
        "delete": operation(kind, "delete" + one, "Delete a record", 204, None, {**there, **in_use, "keeper": None, **limits("log")}),
    }


def available_path(kind, blocks):
    what, made = ("Prefixes", "prefixes") if blocks else ("Addresses", "ip-addresses")
    claims = "claims of blocks" if blocks else "claims of addresses"
    there = {"not_found": f"^{kind} ", "no_route": None}
    codes = {"bad_json": None, **fields([name for name, _, _ in MEMBERS[claims]] + ["body"]), "no_space": None, "keeper": None, **there,
             **dict.fromkeys(["wanted_length", "no_such"] if blocks else ["slaac_family", "dns_name"]), **limits("claims", made, "ids", "log")}
    return {
        "parameters": [ID_PARAMETER],
        "get": operation(kind, f"listAvailable{what}Of{ONE[kind]}", "The first free blocks or addresses, in address order", 200, ref("Available" + what),
                         {**fields(["limit"]), **there}, [listed(1000 if blocks else 50)]),
        "post": operation(kind, f"claim{what}Of{ONE[kind]}", "Claim the lowest free block or address for each item: all of them, or none", 201,
                          ref("Claimed" + what), codes, asked="BlockClaim" if blocks else "AddressClaim"),
    }


def figure_path(kind):
    there = {"not_found": f"^{kind} ", "no_route": None}
    return {"parameters": [ID_PARAMETER],
            "get": operation(kind, f"utilizationOf{ONE[kind]}", "How much of it is used, in whole percent", 200, ref("Utilization"), there)}


def paths():
    found = {}
    for kind in KINDS:
        found[f"/api/ipam/{kind}/"] = rows_path(kind)
        found[f"/api/ipam/{kind}/{{id}}/"] = row_path(kind)
        if kind == "prefixes":
            found[f"/api/ipam/{kind}/{{id}}/available-prefixes/"] = available_path(kind, True)
        if kind in ("prefixes", "ip-ranges"):
            found[f"/api/ipam/{kind}/{{id}}/available-ips/"] = available_path(kind, False)
        if kind in ("prefixes", "ip-ranges", "aggregates"):
            found[f"/api/ipam/{kind}/{{id}}/utilization/"] = figure_path(kind)
    return found


# ---- the document

def shared_headers(methods):
    place = {"description": "The number of changes that the register accepted before this answer, since its start.",
             "schema": {"type": "integer", "minimum": 0, "maximum": MOST_LOG}}
    close = {"schema": {"const": "close"}}
    return {"IpamPlace": {**place, "required": True},
            "IpamPlaceIfAsked": {**place, "description": place["description"] + " A refusal without it (`x-place`: false) was decided without the register."},
            "Connection": {"description": "If it is there, the connection closes: after a request of HTTP/1.0, after one with `Connection: close`, "
                                          f"and after the answer number {MOST_ANSWERS}.", **close},
            "ConnectionClose": {"description": "The connection closes.", "required": True, **close},
            "Allow": {"description": "The methods of the path.", "required": True, "schema": {"enum": methods}}}


def version():
    """The version of the programs, a constant of theirs."""
    with open(os.path.join(TOP, "crates/program_entry/src/about.rt"), encoding="utf-8") as text:
        return re.search(r'^pub const VERSION: &str = "(.*)";$', text.read(), re.M)[1]


def other_answers(book=REFUSALS):
    """What is answered where the document has no path, or no method."""
    method = refused(405, [("method", None)], book)
    method["headers"] = {"Allow": {"$ref": "#/components/headers/Allow"}, **method["headers"]}
    return {"NoRoute": refused(404, [("no_route", None)], book), "MethodNotAllowed": method}


OTHERS = {"x-other-paths": {"$ref": "#/components/responses/NoRoute"}, "x-other-methods": {"$ref": "#/components/responses/MethodNotAllowed"}}


def document():
    return {
        "openapi": "3.1.0",
        "info": {"title": "ipamd", "summary": "A register of IPv4 and IPv6 address space", "version": version(), "description": ABOUT},
        "servers": [{"url": "http://127.0.0.1:8080", "description": "As in the examples of docs/USING.md; `--bind` says where it listens."}],
        "security": [],
        "tags": [{"name": kind} for kind in KINDS],
        "paths": paths(),
        "components": {
            "schemas": {**texts(), **numbers(), **choices(), **bodies(), **refusals()},
            "parameters": {"id": ID_OF_PATH},
            "headers": shared_headers(["GET, POST", "GET, PATCH, DELETE", "GET"]),
            "responses": other_answers(),
        },
        **OTHERS,
        "x-limits": {"head_bytes": MOST_HEAD, "head_fields": MOST_FIELDS, "body_bytes": MOST_BODY, "body_depth": MOST_DEPTH,
                     "answers_of_a_connection": MOST_ANSWERS, "log_items": MOST_LOG, "ids": MOST_ID, "records": MOST_ROWS},
    }


def compact(value, indent=0, used=0):
    """JSON in which an object or an array is on one line where it fits."""
    line = json.dumps(value, ensure_ascii=False)
    if len(line) + max(indent, used) <= 150 or not isinstance(value, (dict, list)) or not value:
        return line
    pad = " " * (indent + 1)
    if isinstance(value, dict):
        parts, ends = [f"{json.dumps(name)}: {compact(one, indent + 1, indent + len(name) + 5)}" for name, one in value.items()], "{}"
    else:
        parts, ends = [compact(one, indent + 1) for one in value], "[]"
    return ends[0] + "\n" + ",\n".join(pad + part for part in parts) + "\n" + " " * indent + ends[1]


def written(made):
    """The text of a document."""
    return compact(made) + "\n"
