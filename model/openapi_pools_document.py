"""docs/openapi-pools.json: the HTTP interface of `poold` as an OpenAPI 3.1 document; conformance/openapi_pools.py writes and checks it.

Names, their order and limits are those of model/plain_pools.py; what is the same as in the register's document is made by model/openapi_document.py.
"""
from model.openapi_document import (ID_OF_PATH, ID_PARAMETER, MOST_FIELDS, MOST_LISTED, OTHERS, REFUSALS, SKIPPED, answers, claim, closed, content, fields, listed,
                              other_answers, page, ref, refusals, shared_headers, text, version)
from model.plain_pools import CHOSEN, EDIT, ITEM, MOST_MEMBERS, MOST_NUMBER, MOST_RANGES, RANGE, WORDS
from model.plain_register import MOST_ANSWERS, MOST_BODY, MOST_HEAD, MOST_ITEMS, MOST_LOG
from model.plain_texts import MOST_DEPTH, MOST_ID, REQUIRED

# of each kind: what a range is called, and what a member is
ONE = {"asn": ("AsnRange", "Asn"), "vlan": ("VlanGroup", "Vlan")}
ID = "[1-9][0-9]{0,9}"
ONE_NUMBER = "number (?:0|[1-9][0-9]{0,9})"
MOST = {"ranges": MOST_RANGES, "members": MOST_MEMBERS, "claims": MOST_ITEMS, "items": MOST_ITEMS, "ids": MOST_ID, "log": MOST_LOG}
ABOUT = """The HTTP interface of `poold serve` and `poold session`. docs/USING-POOLS.md explains it; this document has each path, parameter, body, answer and
refusal with its bounds.

- A value that its schema does not allow is refused with the code `field`, unless `x-refused` in the schema names another code for the keyword that it breaks.
  Where a body may be an object or a list, the schema of what it is counts.
- Members are read in the order in which they stand here, and the first that is malformed is named in the refusal. Unknown parameters and members are ignored.
  If one occurs twice, the last one counts.
- A number in a path or a query is decimal, without a sign or a leading zero. A number in a body has no fraction and no exponent. Patterns are those of ECMA-262.
- The pools check their rules after all members are read. So a body that its schema allows can still be refused, by the codes of the answer.
- `x-limits` has the limits that no schema has. `x-other-paths` and `x-other-methods` say what is answered where this document has no path or no method;
  an answer to HEAD has no body.
- `Content-Type` and `Authorization` of a request are ignored. There is no authentication and no TLS: put a proxy in front."""

# what is refused as by the register, and what is not
ALIKE = ("bad_head", "too_large", "coding", "no_route", "method", "bad_json", "field", "memory", "keeper")
BOOK = [one for one in REFUSALS if one[0] in ALIKE] + [
    ("not_found", 404, f"^{ID} is not there$", True, "No range, group or member of this kind has the id of the path."),
    ("name_taken", 400, f"^the name is that of {ID}$", True, "Another range, or another group, has this name."),
    ("bounds", 400, f"^(?:first and last do not fit|{ONE_NUMBER} is not in the range)$", True,
     "`start` is 0, `end` is below `start`, or `end` is above the greatest number of the kind; or a number that is to be recorded is not in the range."),
    ("in_use", 409, f"^named by member {ID}$", True, "The range or group that is to be deleted has members, or an edit leaves some outside its bounds."),
    ("taken", 409, f"^{ONE_NUMBER} is that of (?:member {ID}|an earlier item)$", True, "A member of the pool, or an earlier item of the body, has the number."),
    ("no_space", 409, "^no space for claim (?:0|[1-9][0-9]{0,2})$", True, "Only so many numbers are free, and the claim has more items."),
    ("limit", 507, f"^(?:{'|'.join(MOST)}) would exceed [1-9][0-9]*$", True, "A limit is reached."),
]


# ---- schemas

def whole(least, most, **more):
    return {"type": "integer", "minimum": least, "maximum": most, **more}


def members_of(kind):
    _, _, range_name, number_name = WORDS[kind]
    found = {"id": ref("RowId"), range_name: ref("RowId"), number_name: whole(1, MOST_NUMBER[kind]), "name": ref("Name")}
    shown = closed(found)
    return shown if kind == "vlan" else {**shown, "required": [name for name in shown["required"] if name != "name"]}


def body(members, whole=True):
    needed = [name for name, _, default in members if whole and default is REQUIRED]
    known = {"name": ref("Name"), **{name: ref("Number") for name in ("start", "end", "asn", "vid")}}
    properties = {name: known[name] if name != "name" or default is REQUIRED else ref("NameOrNone") for name, _, default in members}
    return {"type": "object", "x-refused": {"type": "bad_json"}, "properties": properties, **({"required": needed} if needed else {})}


def schemas():
    found = {"Name": text(1, 100, description="Characters are counted, not bytes."),
             "NameOrNone": text(0, 100, description="Characters are counted, not bytes. An empty name is none, and is not shown."),
             "Id": whole(1, MOST_ID + 1, description=f"The id of a row. No row has an id above {MOST_ID}."), "RowId": whole(1, MOST_ID),
             "Number": whole(0, 4294967295, description="It has to be at least 1, and at most the greatest number of the kind (else `bounds`)."),
             "NewRange": body(RANGE), "RangeEdit": body(RANGE, whole=False)}
    for kind, (one, member) in ONE.items():
        row = {"id": ref("RowId"), "name": ref("Name"), "start": whole(1, MOST_NUMBER[kind]), "end": whole(1, MOST_NUMBER[kind])}
        item, chosen = member + "ClaimItem", "New" + member
        found |= {one: closed(row), one + "s": {"type": "array", "maxItems": MOST_RANGES, "items": ref(one)}, member: members_of(kind),
                  member + "s": {"type": "array", "maxItems": MOST_MEMBERS, "items": ref(member)}, member + "Page": page(WORDS[kind][1], member, MOST_MEMBERS), item: body(ITEM[kind]), member + "Claim": claim(item),
                  member + "Edit": body(EDIT[kind], whole=False), chosen: body(CHOSEN[kind]), chosen + "s": claim(chosen),
                  "Claimed" + member + "s": {"description": "One object for one object, a list for a list.",
                                             "oneOf": [ref(member), {"type": "array", "minItems": 1, "maxItems": MOST_ITEMS, "items": ref(member)}]},
                  "Available" + member + "s": {"type": "array", "maxItems": MOST_LISTED, "items": whole(1, MOST_NUMBER[kind])}}
    return found | refusals(BOOK)


# ---- operations

def limits(*kinds):
    return {"limit": [f"{which} would exceed {MOST[which]}" for which in kinds]}


def operation(kind, name, summary, status, schema, codes, parameters=(), asked=None):
    found = {"operationId": name, "summary": summary, "tags": [WORDS[kind][0]]}
    if parameters:
        found["parameters"] = list(parameters)
    if asked:
        found["requestBody"] = {"required": True, "content": content(ref(asked))}
    return {**found, "responses": answers(status, schema, codes, BOOK)}


THERE = {"not_found": None, "no_route": None}


def asked_of_members(kind):
    """What a list may ask of each member."""
    _, _, range_name, number_name = WORDS[kind]
    about = {number_name: "Those with this number.", range_name + "_id": f"Those of this {'range' if kind == 'asn' else 'group'}.", "name": "Those with this name."}
    return [{"name": name, "in": "query", "description": words, "schema": {"type": "string"} if name == "name" else whole(1, MOST_ID + 1)} for name, words in about.items()]


def paths_of(kind):
    one, member = ONE[kind]
    ranges, members, range_name, number = WORDS[kind]
    named = fields([name for name, _, _ in RANGE])
    claims = {"bad_json": None, **fields([name for name, _, _ in ITEM[kind]] + ["body"]), **THERE, "no_space": None, "keeper": None, **limits("claims", "members", "ids", "log")}
    records = {"bad_json": None, **fields([name for name, _, _ in CHOSEN[kind]] + ["body"]), **THERE, "bounds": f"^{ONE_NUMBER} is not in the range$", "taken": None, "keeper": None,
               **limits("items", "members", "ids", "log")}
    base = f"/api/ipam/{ranges}/"
    return {
        base: {
            "get": operation(kind, f"list{one}s", "All of them, by id", 200, ref(one + "s"), {}),
            "post": operation(kind, f"create{one}", "Make one", 201, ref(one), {"bad_json": None, **named, "name_taken": None, "bounds": ["first and last do not fit"], "keeper": None, **limits("ranges", "ids", "log")},
                              asked="NewRange")},
        base + "{id}/": {
            "parameters": [ID_PARAMETER],
            "get": operation(kind, f"get{one}", "Get one", 200, ref(one), THERE),
            "patch": operation(kind, f"edit{one}", "Change its name, its first or its last number; what is absent stays", 200, ref(one),
                               {"bad_json": None, **named, **THERE, "name_taken": None, "bounds": ["first and last do not fit"], "in_use": None, "keeper": None, **limits("log")},
                               asked="RangeEdit"),
            "delete": operation(kind, f"delete{one}", "Delete one that has no members", 204, None, {**THERE, "in_use": None, "keeper": None, **limits("log")})},
        base + f"{{id}}/available-{members}/": {
            "parameters": [ID_PARAMETER],
            "get": operation(kind, f"listAvailable{member}s", "The lowest free numbers", 200, ref(f"Available{member}s"), {**fields(["limit"]), **THERE}, [listed(50)]),
            "post": operation(kind, f"claim{member}s", "Claim the lowest free number for each item: all of them, or none", 201, ref(f"Claimed{member}s"), claims, asked=member + "Claim")},
        base + f"{{id}}/{members}/": {
            "parameters": [ID_PARAMETER],
            "get": operation(kind, f"list{member}s", "What it gave out, by id", 200, ref(member + "s"), THERE),
            "post": operation(kind, f"record{member}s", "Record the number of each item, which is in use already or is chosen: all of them, or none", 201, ref(f"Claimed{member}s"), records,
                              asked=f"New{member}s")},
        f"/api/ipam/{members}/": {
            "get": operation(kind, f"list{member}Page", "A page of what all ranges gave out, of those that pass all filters, by id", 200, ref(member + "Page"),
                             fields([number, range_name + "_id", "limit", "offset"]), [*asked_of_members(kind), listed(50), SKIPPED])},
        f"/api/ipam/{members}/{{id}}/": {
            "parameters": [ID_PARAMETER],
            "get": operation(kind, f"get{member}", "Get one", 200, ref(member), THERE),
            "patch": operation(kind, f"edit{member}", "Change its name, if one is given", 200, ref(member),
                               {"bad_json": None, **fields(["name"]), **THERE, "keeper": None, **limits("log")}, asked=member + "Edit"),
            "delete": operation(kind, f"delete{member}", "Give a number back", 204, None, {**THERE, "keeper": None, **limits("log")})},
    }


def document():
    return {
        "openapi": "3.1.0",
        "info": {"title": "poold", "summary": "Pools of AS numbers and VLANs", "version": version(), "description": ABOUT},
        "servers": [{"url": "http://127.0.0.1:8081", "description": "As in the examples of docs/USING-POOLS.md; `--bind` says where it listens."}],
        "security": [],
        "tags": [{"name": ranges} for ranges, _, _, _ in WORDS.values()],
        "paths": {path: item for kind in WORDS for path, item in paths_of(kind).items()},
        "components": {
            "schemas": schemas(),
            "parameters": {"id": {**ID_OF_PATH, "description": "The id of a row. Any other text makes another path (404 `no_route`)."}},
            "headers": shared_headers(["GET", "GET, POST", "GET, PATCH, DELETE"]),
            "responses": other_answers(BOOK),
        },
        **OTHERS,
        "x-limits": {"head_bytes": MOST_HEAD, "head_fields": MOST_FIELDS, "body_bytes": MOST_BODY, "body_depth": MOST_DEPTH,
                     "answers_of_a_connection": MOST_ANSWERS, "log_items": MOST_LOG, "ids": MOST_ID, "ranges": MOST_RANGES, "members": MOST_MEMBERS},
    }
