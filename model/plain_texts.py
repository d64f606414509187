"""What model/plain_register.py reads and how it refuses: texts of addresses and blocks, members of bodies, JSON, parameters of queries."""
import itertools
import json
import re

KINDS = ["vrfs", "rirs", "roles", "aggregates", "prefixes", "ip-ranges", "ip-addresses"]
MOST_ID, MOST_DEPTH = 4294967294, 127
ADDRESS_ROLES = ["loopback", "secondary", "anycast", "vip", "vrrp", "hsrp", "glbp", "carp"]
STATUSES = {
    "prefixes": ["container", "active", "reserved", "deprecated"],
    "ip-ranges": ["active", "reserved", "deprecated"],
    "ip-addresses": ["active", "reserved", "deprecated", "dhcp", "slaac"],
}


class Refused(Exception):
    """A request that is answered with a code and a detail. `asked`: the register was asked, so the answer has a place."""

    def __init__(self, status, code, detail, asked=False, allow=None):
        self.status, self.code, self.detail, self.asked, self.allow = status, code, detail, asked, allow


def rule(code, detail):
    return Refused(400, code, detail, asked=True)


def field(name):
    return Refused(400, "field", f"{name} is missing or malformed")


# ---- addresses and blocks: an address is (family, number), a block is (family, first number, length)

def width(family):
    return 32 if family == 4 else 128


def quad(text):
    parts = text.split(".")
    if len(parts) != 4 or not all(re.fullmatch("0|[1-9][0-9]{0,2}", part) and int(part) <= 255 for part in parts):
        return None
    return int.from_bytes(bytes(int(part) for part in parts), "big")


def groups(text):
    """The groups of pieces between colons; a dotted quad may be the last piece, and is two groups."""
    if text == "":
        return []
    pieces = text.split(":")
    found = []
    for place, piece in enumerate(pieces):
        if "." in piece and place == len(pieces) - 1:
            number = quad(piece)
            if number is None:
                return None
            found += [number >> 16, number & 0xFFFF]
        elif re.fullmatch("[0-9A-Fa-f]{1,4}", piece):
            found.append(int(piece, 16))
        else:
            return None
    return found


def read_address(text):
    if ":" not in text:
        number = quad(text)
        return None if number is None else (4, number)
    halves = text.split("::")
    if len(halves) > 2:
        return None
    if len(halves) == 1:
        found = groups(text)
        if found is None or len(found) != 8:
            return None
    else:
        before, behind = groups(halves[0]), groups(halves[1])
        # a dotted quad may stand only where the whole text ends
        if before is None or behind is None or "." in halves[0] or len(before) + len(behind) > 7:
            return None
        found = before + [0] * (8 - len(before) - len(behind)) + behind
    number = 0
    for group in found:
        number = number * 65536 + group
    return (6, number)


def read_length(text, family):
    if not re.fullmatch("0|[1-9][0-9]{0,2}", text) or int(text) > width(family):
        return None
    return int(text)


def read_host(text):
    """An address with its mask as (family, number, length), or None."""
    address, slash, length = text.partition("/")
    found = read_address(address)
    if found is None:
        return None
    length = read_length(length, found[0]) if slash else width(found[0])
    return None if length is None else found + (length,)


def read_block(text):
    """A block, or None, and whether host bits were set, which the block then has not."""
    found = read_host(text) if "/" in text else None
    if found is None:
        return None, False
    family, number, length = found
    first = number >> (width(family) - length) << (width(family) - length)
    return (family, first, length), first != number


def address_text(family, number):
    if family == 4:
        return ".".join(str(octet) for octet in number.to_bytes(4, "big"))
    found = [number >> shift & 0xFFFF for shift in range(112, -16, -16)]
    best, best_place = 1, None
    for place in range(8):
        run = len(list(itertools.takewhile(lambda group: group == 0, found[place:])))
        if run > best:
            best, best_place = run, place
    texts = [f"{group:x}" for group in found]
    if best_place is None:
        return ":".join(texts)
    return ":".join(texts[:best_place]) + "::" + ":".join(texts[best_place + best:])


def host_text(family, number, length):
    return f"{address_text(family, number)}/{length}"


def last_of(block):
    return block[1] + 2 ** (width(block[0]) - block[2]) - 1


def contains(outer, inner):
    return outer[0] == inner[0] and outer[1] <= inner[1] and last_of(inner) <= last_of(outer)


def strictly_inside(inner, outer):
    return contains(outer, inner) and inner != outer


# ---- values of members: each reader gives the value, or raises Malformed

class Malformed(Exception):
    pass


def need(holds):
    if not holds:
        raise Malformed


def is_plain(text):
    return all(ord(sign) >= 0x20 and ord(sign) != 0x7F for sign in text)


def a_text(least, most):
    def read(value):
        need(isinstance(value, str) and least <= len(value) <= most and is_plain(value))
        return value
    return read


def a_slug(value):
    need(isinstance(value, str) and re.fullmatch("[A-Za-z0-9_-]{1,100}", value))
    return value


def an_rd(value):
    return None if value is None or value == "" else a_text(1, 21)(value)


def a_truth(value):
    need(isinstance(value, bool))
    return value


def a_number(least, most):
    def read(value):
        need(isinstance(value, int) and not isinstance(value, bool) and least <= value <= most)
        return value
    return read


AN_ID = a_number(1, MOST_ID + 1)


def an_id_or_none(value):
    return None if value is None else AN_ID(value)


def one_of(values):
    def read(value):
        need(isinstance(value, str) and value in values)
        return value
    return read


def an_address_role(value):
    return None if value is None or value == "" else one_of(ADDRESS_ROLES)(value)


def a_dns_name(value):
    need(isinstance(value, str) and len(value.encode()) <= 255)
    return value


def a_host(value):
    need(isinstance(value, str))
    found = read_host(value)
    need(found is not None)
    return found


def a_block(value):
    need(isinstance(value, str))
    block, host_bits = read_block(value)
    need(block is not None)
    if host_bits:
        raise Refused(400, "host_bits", f"host bits are set, the prefix is {host_text(*block)}")
    return block


REQUIRED = object()
DESCRIPTION = ("description", a_text(0, 200), "")
BLOCK_ITEM = [("status", one_of(STATUSES["prefixes"]), "active"), ("role", an_id_or_none, None), ("is_pool", a_truth, False),
              ("mark_utilized", a_truth, False), DESCRIPTION]
ADDRESS_ITEM = [("status", one_of(STATUSES["ip-addresses"]), "active"), ("role", an_address_role, None), ("dns_name", a_dns_name, ""), DESCRIPTION]
MEMBERS = {
    "vrfs": [("name", a_text(1, 100), REQUIRED), ("rd", an_rd, None), ("enforce_unique", a_truth, True), DESCRIPTION],
    "rirs": [("name", a_text(1, 100), REQUIRED), ("slug", a_slug, REQUIRED), ("is_private", a_truth, False), DESCRIPTION],
    "roles": [("name", a_text(1, 100), REQUIRED), ("slug", a_slug, REQUIRED), ("weight", a_number(0, 32767), 1000), DESCRIPTION],
    "aggregates": [("prefix", a_block, REQUIRED), ("rir", AN_ID, REQUIRED), DESCRIPTION],
    "prefixes": [("prefix", a_block, REQUIRED), ("vrf", an_id_or_none, None)] + BLOCK_ITEM,
    "ip-ranges": [("start_address", a_host, REQUIRED), ("end_address", a_host, REQUIRED), ("vrf", an_id_or_none, None),
                  ("status", one_of(STATUSES["ip-ranges"]), "active"), ("role", an_id_or_none, None), ("mark_utilized", a_truth, False),
                  ("mark_populated", a_truth, False), DESCRIPTION],
    "ip-addresses": [("address", a_host, REQUIRED), ("vrf", an_id_or_none, None)] + ADDRESS_ITEM,
    "claims of blocks": [("prefix_length", a_number(0, 255), REQUIRED)] + BLOCK_ITEM,
    "claims of addresses": ADDRESS_ITEM,
}


def read_members(given, members, whole):
    """The members of an object in the order of the table; `whole`: those that are absent have their default."""
    found = {}
    for name, read, default in members:
        if name in given:
            try:
                found[name] = read(given[name])
            except Malformed:
                raise field(name)
        elif whole:
            if default is REQUIRED:
                raise field(name)
            found[name] = default
    return found


BAD_JSON = Refused(400, "bad_json", "the body is not the JSON that is asked for")


def whole_number(text):
    """A number without fraction and exponent; what is no number of 64 bits is a float, and `-0` too."""
    number = broken_number(text)
    return number if text == "-0" or not -2 ** 63 <= number < 2 ** 64 else int(text)


def broken_number(text):
    number = float(text)
    if number in (float("inf"), float("-inf")):
        raise ValueError("out of range")
    return number


def no_constant(text):
    raise ValueError(text)


def check_depth(text):
    """Objects and lists nest at most 127 deep, outside of texts."""
    depth = 0
    for sign in re.sub(r'"(?:[^"\\]|\\.)*"', "", text, flags=re.S):
        depth += (sign in "[{") - (sign in "]}")
        if depth > MOST_DEPTH:
            raise ValueError("too deep")


def read_json(body):
    try:
        text = body.decode("utf-8")
        check_depth(text)
        value = json.loads(text, parse_int=whole_number, parse_float=broken_number, parse_constant=no_constant)
        json.dumps(value, ensure_ascii=False).encode("utf-8")  # no half of a surrogate pair stands alone
        return value
    except (ValueError, RecursionError):
        raise BAD_JSON


# ---- parameters of a query

def decoded(text):
    found, at = bytearray(), 0
    while at < len(text):
        if text[at] == ord("%") and re.fullmatch(b"[0-9A-Fa-f]{2}", text[at + 1:at + 3]):
            found.append(int(text[at + 1:at + 3], 16))
            at += 3
        else:
            found.append(ord(" ") if text[at] == ord("+") else text[at])
            at += 1
    return found.decode("utf-8", errors="replace")


def encoded(text):
    found = ""
    for byte in text.encode():
        sign = chr(byte)
        found += sign if re.fullmatch("[A-Za-z0-9*._-]", sign) else "+" if sign == " " else f"%{byte:02X}"
    return found


def read_query(query):
    pairs = {}
    for part in query.split(b"&"):
        if part:
            name, _, value = part.partition(b"=")
            pairs[decoded(name)] = decoded(value)
    return pairs


def digits(text, most_digits):
    need(re.fullmatch("0|[1-9][0-9]{0,%d}" % (most_digits - 1), text))
    return int(text)


def parameter_id(text):
    number = digits(text, 10)
    need(1 <= number <= MOST_ID + 1)
    return number


def parameter_id_or_null(text):
    return None if text == "null" else parameter_id(text)


def parameter_family(text):
    need(text in ("4", "6"))
    return int(text)


def parameter_block(text):
    block, host_bits = read_block(text)
    need(block is not None and not host_bits)
    return block


def parameter_block_or_host(text):
    if "/" in text:
        return parameter_block(text)
    address = read_address(text)
    need(address is not None)
    return address + (width(address[0]),)


def limit_of(pairs, default):
    if "limit" not in pairs:
        return default
    try:
        number = digits(pairs["limit"], 10)
    except Malformed:
        raise field("limit")
    return 1000 if number == 0 or number > 1000 else number


def offset_of(pairs):
    if "offset" not in pairs:
        return 0
    try:
        number = digits(pairs["offset"], 10)
        need(number <= 4294967295)
    except Malformed:
        raise field("offset")
    return number


def ascii_lower(text):
    return "".join(chr(ord(sign) + 32) if "A" <= sign <= "Z" else sign for sign in text)
