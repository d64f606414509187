"""What docs/CLIENTS.md says of paths, methods, refusals, large bodies and the plain form, by requests over HTTP; and the rates of both forms."""
import json
import os
import threading
import time

from conformance.netbox_front import Front

LARGEST = 4_194_304
KINDS = ("vrfs", "rirs", "roles", "aggregates", "prefixes", "ip-ranges", "ip-addresses")


def paths(front):
    """Paths as they may be written, and those that are none; no path leads past the handler."""
    made = front.want(201, "POST", "prefixes/", {"prefix": "10.0.0.0/8"})
    for path in ("prefixes/1/", "%70refixes/1/", "x/../prefixes/1/", "/prefixes//1/", "prefixes/%31/", "./prefixes/1/"):
        assert front.ask("GET", path).value == made, path
    assert front.want(200, "GET", "")["prefixes"] == front.base + "/api/ipam/prefixes/"
    for path in ("prefixes", "prefixes/01/", "prefixes/0/", "prefixes/4294967296/", "prefixes/1", "prefixes/1/x/", "route-targets/", "services/1/",
                 "prefixes/undefined/", "prefixes/1/available-ips", "vrfs/1/available-ips/", "ip-ranges/1/available-prefixes/",
                 "vrfs/1/utilization/", "prefixes/1/%0d%0aX:%20y/", "prefixes/1%3flimit=1/", "__proto__/", "constructor/1/", "prefixes/1/constructor/"):
        for method in ("GET", "POST", "DELETE"):
            answer = front.ask(method, path, b"{}" if method == "POST" else None)
            assert answer.status == 404 and "detail" in answer.value, (method, path, answer.status, answer.text)
    # the handler's own way to the register is no path of a client, and the register's port is behind /register/api/ alone
    for path in ("/register-read/api/ipam/prefixes/1/", "/register-change/api/ipam/prefixes/1/", "/api/../register-change/api/ipam/prefixes/1/",
                 "/register-%63hange/api/ipam/prefixes/1/", "/register/../register-read/api/ipam/prefixes/1/"):
        for method in ("GET", "DELETE"):
            assert front.link.ask(method, path).status == 404, path
    for path in ("/register/api/../api/ipam/prefixes/1/", "/register/%61pi/ipam/prefixes/1/", "/x/../register/api/ipam/prefixes/1/"):
        assert front.link.ask("DELETE", path).status == 404, path
    assert front.want(200, "GET", "prefixes/1/") == made


def methods(front):
    """HEAD, OPTIONS, and methods that a path does not have."""
    for path, allowed in (("vrfs/", "GET, POST, PUT, PATCH, DELETE, OPTIONS"), ("prefixes/1/", "GET, PUT, PATCH, DELETE"),
                          ("prefixes/1/available-ips/", "GET, POST"), ("prefixes/1/utilization/", "GET")):
        for method in {"HEAD", "PUT", "PATCH", "DELETE", "OPTIONS", "POST", "PROPFIND"} - {*allowed.split(", ")}:
            answer = front.ask(method, path)
            assert (answer.status, answer.headers["Allow"]) == (405, allowed) and (method == "HEAD") == (answer.text == b""), (method, path, answer.status)
    with open(f"{front.folder}/register.log") as log:
        assert " bert " in log.read()


def hosts(front):
    """A Host that is no name is not repeated in links; a client's fields do not get to the register."""
    for host, shown in (("a.example:444", "a.example:444"), ("[::1]:5", "[::1]:5"), ('x"y', "register.example.net"), ("x/y", None), ("a b", None)):
        for path in ("/api/ipam/prefixes/1/", "/register/api/ipam/prefixes/?limit=1&offset=1", "/api/"):
            answer = front.link.ask("GET", path, Host=host)
            if shown is None:
                assert answer.status == 400
            else:
                assert answer.status == 200 and f"https://{shown}/" in json.dumps(answer.value).replace('\\"', '"'), (host, answer.text)
    many = {f"X-{n}": "y" * 100 for n in range(60)}
    assert front.ask("GET", "prefixes/1/", **many).status == 200 == front.ask("PATCH", "prefixes/1/", {}, **many).status
    assert front.ask("PATCH", "prefixes/1/", {}, Expect="100-continue", Range="bytes=0-1", TE="trailers").status == 200


def refusals(front):
    """The register's refusals in NetBox's form, with its code in a field; `Ipam-Place` of each answer of the register."""
    front.want(201, "POST", "rirs/", {"name": "A", "slug": "a"})
    front.want(201, "POST", "vrfs/", {"name": "v", "rd": "1"})
    front.want(201, "POST", "ip-addresses/", {"address": "10.1.0.1/24", "vrf": 1})
    front.want(201, "POST", "aggregates/", {"prefix": "11.0.0.0/8", "rir": 1})
    front.want(201, "POST", "ip-ranges/", {"start_address": "10.1.1.1/24", "end_address": "10.1.1.9/24", "mark_populated": True})
    wanted = [
        (400, "field", {"prefix": ["prefix is missing or malformed"]}, "PATCH", "prefixes/1/", {"prefix": 5}),
        (400, "host_bits", {"prefix": ["host bits are set, the prefix is 10.2.0.0/24"]}, "POST", "prefixes/", {"prefix": "10.2.0.1/24"}),
        (400, "duplicate", {"prefix": ["coincides with 1"]}, "POST", "prefixes/", {"prefix": "10.0.0.0/8"}),
        (400, "duplicate", {"address": ["coincides with 1"]}, "POST", "ip-addresses/", {"address": "10.1.0.1/24", "vrf": 1}),
        (400, "no_such", {"vrf": ["vrfs 9 is not there"]}, "POST", "prefixes/", {"prefix": "10.2.0.0/24", "vrf": 9}),
        (400, "no_such", {"role": ["roles 9 is not there"]}, "POST", "prefixes/", {"prefix": "10.2.0.0/24", "role": 9}),
        (400, "no_such", {"rir": ["rirs 9 is not there"]}, "PATCH", "aggregates/1/", {"rir": 9}),
        (400, "name_taken", {"name": ["the name is that of 1"]}, "POST", "rirs/", {"name": "A", "slug": "b"}),
        (400, "slug_taken", {"slug": ["the slug is that of 1"]}, "POST", "rirs/", {"name": "B", "slug": "a"}),
        (400, "rd_taken", {"rd": ["the rd is that of 1"]}, "POST", "vrfs/", {"name": "w", "rd": "1"}),
        (400, "zero_mask", {"prefix": ["a mask of length 0 is refused"]}, "POST", "prefixes/", {"prefix": "0.0.0.0/0"}),
        (400, "aggregate_overlap", {"prefix": ["overlaps aggregate 1"]}, "POST", "aggregates/", {"prefix": "11.0.0.0/16", "rir": 1}),
        (400, "range_order", {"end_address": ["the end must be greater than the start"]}, "PATCH", "ip-ranges/1/", {"end_address": "10.1.1.1/24"}),
        (400, "range_overlap", {"__all__": ["overlaps range 1"]}, "POST", "ip-ranges/", {"start_address": "10.1.1.2/24", "end_address": "10.1.1.3/24"}),
        (400, "populated", {"address": ["inside populated range 1"]}, "POST", "ip-addresses/", {"address": "10.1.1.2/24"}),
        (400, "slaac_family", {"status": ["slaac is for IPv6 only"]}, "POST", "ip-addresses/", {"address": "10.3.0.1/24", "status": "slaac"}),
        (400, "dns_name", {"dns_name": ["not a DNS name"]}, "POST", "ip-addresses/", {"address": "10.3.0.1/24", "dns_name": "a b"}),
        (400, "field", {"detail": "body is missing or malformed"}, "POST", "prefixes/1/available-ips/", []),
        (404, "not_found", {"detail": "prefixes 9 is not there"}, "GET", "prefixes/9/", None),
        (404, "not_found", {"detail": "prefixes 9 is not there"}, "POST", "prefixes/9/available-ips/", {}),
        (409, "in_use", {"detail": "named by ip-addresses 1"}, "DELETE", "vrfs/1/", None),
        (409, "no_space", {"detail": "no space for claim 0"}, "POST", "ip-ranges/1/available-ips/", {}),
        (507, "limit", {"detail": "claims would exceed 1000"}, "POST", "prefixes/1/available-ips/", [{}] * 1001),
    ]
    for status, code, value, method, path, body in wanted:
        answer = front.ask(method, path, body)
        assert (answer.status, answer.headers["Ipam-Code"], answer.value) == (status, code, value), (method, path, body, answer.status, answer.text)
    assert front.ask("POST", "rirs/", [{"name": "A", "slug": "b"}]).value == [{"name": ["the name is that of 1"]}]
    place = int(front.ask("GET", "prefixes/1/").headers["Ipam-Place"])
    for n, (method, path, body) in enumerate((("PATCH", "prefixes/1/", {}), ("GET", "prefixes/?q=10", None), ("DELETE", "vrfs/9/", None))):
        assert int(front.ask(method, path, body).headers["Ipam-Place"]) == place + (n > 0)
    return f"{len(wanted)} refusals"


def own_refusals(front):
    """nginx's own 413 and 502, a wrong token, changes that are held."""
    answer = front.ask("POST", "prefixes/", b"x" * (LARGEST + 1))
    assert answer.status == 413 and "detail" in answer.value
    chunks = (b" " * 64 for _ in range(LARGEST // 64))
    answer = front.ask("POST", "prefixes/", chunks)
    assert answer.status == 413 and "chunks" in answer.value["detail"], answer.text
    assert front.link.ask("GET", "/api/ipam/prefixes/", Authorization="Token 0").status == 401
    with open(f"{front.folder}/hold", "w"):
        pass
    made = front.breaker.changes
    for method in ("POST", "PUT", "PATCH", "DELETE"):
        for path in ("/api/ipam/prefixes/1/", "/api/ipam/vlans/1/", "/register/api/ipam/prefixes/1/", "/register/pools/api/ipam/vlans/1/"):
            answer = front.link.ask(method, path, {})
            assert answer.status == 503 and "detail" in answer.value and answer.headers["Retry-After"] == "2", (method, path, answer.status)
    assert front.ask("GET", "prefixes/1/").status == 200 and front.breaker.changes == made
    os.remove(f"{front.folder}/hold")


def gone(port):
    """The register is not there: 502 with a `detail`."""
    with Front(port, between=False) as front:
        front.children[0].terminate()
        front.children[0].wait()
        for method, path in (("GET", "/api/ipam/prefixes/"), ("POST", "/api/ipam/prefixes/"), ("GET", "/register/api/ipam/prefixes/")):
            answer = front.link.ask(method, path, {"prefix": "10.0.0.0/8"} if method == "POST" else None)
            assert answer.status == 502 and "detail" in answer.value, (method, path, answer.status, answer.text)


def plain(port):
    """The same requests of the register itself and through /register/api/: the same answers, but for the host of links."""
    sent = [("POST", "vrfs/", {"name": "a\"next\":\"/api/"}), ("POST", "rirs/", {"name": "A", "slug": "a"}), ("POST", "roles/", {"name": "L", "slug": "l"}),
            ("POST", "aggregates/", {"prefix": "10.0.0.0/8", "rir": 1}), ("POST", "prefixes/", {"prefix": "10.0.0.0/24", "vrf": 1, "tenant": 5}),
            ("POST", "prefixes/", {"prefix": "10.0.1.0/24"}), ("POST", "prefixes/", {"prefix": "10.0.1.1/24"}), ("POST", "prefixes/", b"{"),
            ("POST", "ip-ranges/", {"start_address": "10.0.0.5/24", "end_address": "10.0.0.9/24"}), ("POST", "ip-addresses/", {"address": "10.0.0.1/24"}),
            ("POST", "prefixes/1/available-ips/", [{}, {}]), ("POST", "prefixes/1/available-prefixes/", {"prefix_length": 26}), ("PATCH", "prefixes/1/", {}),
            ("PUT", "prefixes/1/", {}), ("DELETE", "prefixes/2/", None), ("GET", "vrfs/1/utilization/", None), ("HEAD", "vrfs/", None),
            ("OPTIONS", "vrfs/", None),
            ("GET", "prefixes/?limit=1&q=x", None), ("GET", "prefixes/?limit=1&offset=1&status=%61ctive&status=active", None), ("GET", "%76rfs/", None),
            ("GET", "prefixes/?limit=x", None), ("GET", "//vrfs/", None), ("GET", "prefixes/1/available-ips/?limit=2", None), ("DELETE", "vrfs/1/", b"[1]"),
            ("POST", "prefixes/", b'{"prefix":"10.9.0.0/16","x":"' + b"a" * (LARGEST - 31) + b'"}')] + [("GET", f"{kind}/", None) for kind in KINDS] \
        + [("GET", f"{kind}/1/", None) for kind in KINDS]
    with Front(port, between=False) as front, Front(port + 3, between=False) as other:
        for method, path, body in sent:
            own = other.plain.ask(method, "/api/ipam/" + path, body)
            through = front.link.ask(method, "/register/api/ipam/" + path, body)
            text = through.text.replace(f'"next":"{front.base}/register/api/'.encode(), b'"next":"/api/')
            text = text.replace(f'"previous":"{front.base}/register/api/'.encode(), b'"previous":"/api/')
            assert (own.status, own.text) == (through.status, text), (method, path, own.status, through.status, own.text[:200], text[:200])
            for name in ("Allow", "Ipam-Place", "Content-Type"):
                assert own.headers[name] == through.headers[name], (method, path, name, own.headers[name], through.headers[name])
    return f"{len(sent)} requests"


def fill(unit, front=b"", back=b""):
    return front + unit * ((LARGEST - len(front) - len(back)) // len(unit)) + back


HOSTILE = {
    "{},": (413, fill(b"{},", b"[", b"{}]")), "[": (413, fill(b"[")), "]": (400, fill(b"]")), ",": (413, fill(b",")), "numbers": (400, fill(b"1 ")),
    "digits": (400, fill(b"1")), "texts": (400, fill(b'"" ')), "one text": (400, fill(b"a", b'{"x":"', b'"}')), "an open text": (400, fill(b"a", b'{"x":"')),
    "escapes": (400, fill(b'\\"', b'{"x":"', b'"}')), "pairs": (400, fill(b"\\ud83d\\ude00", b'{"x":"', b'"}')),
    "half a pair": (400, fill(b"\\ud83d\\ude00", b'{"x":"', b'\\ud83d"}')), "UTF-8": (400, fill("ä".encode(), b'{"x":"', b'"}')), "0xff": (400, fill(b"\xff")),
    "cut UTF-8": (400, fill("ä".encode(), b'{"x":"a', b"\xc3")), "spaces": (400, fill(b" ")), "backslashes": (400, fill(b"\\")),
    "20,000 parts": (400, b"[" + b"{}," * 9998 + b"{}]"), "20,000 members": (400, b"{" + b",".join(b'"a%d":null' % n for n in range(19990)) + b"}"),
    "20,000 texts": (400, b"[" + b",".join([b'"' + b'\\"' * 90 + b'"'] * 19990) + b"]"),
    "1,000 claims": (201, b"[" + b",".join([b'{"description":"' + b"\\ud83d\\ude00" * 200 + b'"}'] * 1000) + b"]"),
}
SMALL = [b'{"name":"\\ud800"}', b'{"name":"\\udc00\\ud800"}', b'{"name":"\xed\xa0\x80"}', b'{"name":"x","weight":1.0}', b'{"name":"x","weight":1e2}',
         b'{"name":"x","weight":-0}', b'{"name":"x","weight":01}', b'{"name":"x","weight":1234567890123456}', b'{"x":' + b"[" * 31 + b"]" * 31 + b"}",
         b"[1.5]", b'{"name":"' + b"a" * 1015 + b'","weight":1.5}', b'{"name":"' + b"a" * 1010 + b'\\ud800"}', b"\xef\xbb\xbf{}", b"", b"null", b"5",
         b'"x"', b"nul", b"{} {}"]


def small_bodies(front):
    """What is no body, and what just is one."""
    for body in SMALL:
        answer = front.ask("POST", "roles/", body)
        assert answer.status == 400 and answer.value["detail"].startswith("JSON parse error"), (body[:60], answer.status, answer.text)
    deepest = front.ask("POST", "roles/", b'{"x":' + b"[" * 30 + b"1" + b"]" * 30 + b"}")
    assert deepest.value["x"] == ["the register has no x here"], deepest.text
    assert front.want(201, "POST", "roles/", b'{"name":"\\ud83d\\ude00\xf0\x9f\x98\x80","slug":"x"}')["name"] == "\U0001f600\U0001f600"


class Watcher(threading.Thread):
    """Another client, and by the name of what is sent meanwhile how long it waited at most."""

    def __init__(self, front, path):
        super().__init__(daemon=True)
        self.link, self.path, self.name, self.waits, self.over = front.new_link(), path, "nothing", {}, threading.Event()

    def run(self):
        while not self.over.is_set():
            begun, name = time.monotonic(), self.name
            assert self.link.ask("GET", f"/api/ipam/{self.path}").status == 200
            self.waits[name] = max(self.waits.get(name, 0), time.monotonic() - begun)
            time.sleep(0.005)

    def during(self, name, ask, *words):
        self.name = name
        answer = ask(*words)
        self.name = "nothing"
        time.sleep(0.05)
        return answer


def bodies(front):
    """Hostile bodies, and how long another client waits meanwhile."""
    small_bodies(front)
    path = f"prefixes/{front.want(201, 'POST', 'prefixes/', {'prefix': '172.16.0.0/12'})['id']}/"
    watcher = Watcher(front, path)
    watcher.start()
    time.sleep(1)
    for name, (status, body) in HOSTILE.items():
        answer = watcher.during(name, front.ask, "POST", path + "available-ips/" if status == 201 else "prefixes/", body)
        assert answer.status == status and (status == 201 or {"detail", "prefix"} & {*answer.value}), (name, answer.status)
    plainly = "1,000 claims in the register's own form"
    assert watcher.during(plainly, front.plain.ask, "POST", f"/api/ipam/{path}available-ips/", HOSTILE["1,000 claims"][1]).status == 201
    watcher.over.set()
    watcher.join()
    waits = {name: wait * 1000 for name, wait in watcher.waits.items()}
    # the register lets nobody in while it makes a thousand records, so that wait is compared with the one behind the same claim in its own form
    claims, own, nothing = waits.pop("1,000 claims"), waits.pop(plainly), waits.pop("nothing")
    assert claims < 200 + nothing + 1.2 * own, f"{claims:.0f} ms behind 1,000 claims, {own:.0f} ms if they are made in the register's own form"
    longest = max((wait, name) for name, wait in waits.items())
    assert longest[0] < 200 + nothing, f"{longest[0]:.0f} ms behind {longest[1]}; behind nothing {nothing:.0f} ms"
    return f"{len(HOSTILE)} of up to 4 MiB; another client waits {longest[0]:.0f} ms at most ({longest[1]}), and {nothing:.0f} ms without one"


def largest(front):
    """The largest page: a thousand of the longest records."""
    for n in range(1000):
        front.plain.ask("POST", "/api/ipam/vrfs/", {"name": f"{n:03}" + "\U0001f600" * 97, "description": "\U0001f600" * 200})
    for path in ("vrfs/?limit=0", "vrfs/?limit=0&q=%F0%9F%98%80"):
        page = front.want(200, "GET", path)
        ids = [one["id"] for one in page["results"]]
        assert len({*ids}) == len(ids) == page["count"] >= 999 and ids == sorted(ids), (page["count"], len(ids))
    front.plain.ask("POST", "/api/ipam/prefixes/", {"prefix": "10.200.0.0/16", "vrf": 500})
    front.plain.ask("POST", "/api/ipam/prefixes/", {"prefix": "10.200.0.0/16", "vrf": 501})
    assert [one["vrf"]["id"] for one in front.want(200, "GET", "prefixes/?prefix=10.200.0.0/16")["results"]] == [500, 501]


def rates(port):
    """GETs of a record, lists of 50, and claims, a second, by four connections, in both forms."""
    told = []
    with Front(port, between=False) as front:
        front.plain.ask("POST", "/api/ipam/vrfs/", {"name": "v"})
        front.plain.ask("POST", "/api/ipam/prefixes/", {"prefix": "10.0.0.0/8", "vrf": 1})
        front.plain.ask("POST", "/api/ipam/prefixes/1/available-ips/", [{} for _ in range(100)])
        for name, method, path in (("a GET", "GET", "prefixes/1/"), ("a list of 50", "GET", "ip-addresses/?limit=50"),
                                   ("a claim", "POST", "prefixes/1/available-ips/")):
            for form, before in (("NetBox's", "/api/ipam/"), ("the plain", "/register/api/ipam/")):
                told.append(f"{name} in {form} form {rate(front, method, before + path):.0f}")
    return ", ".join(told)


def rate(front, method, path, seconds=2.0, links=4):
    """Requests a second."""
    counts = [0] * links

    def ask(n):
        link, end = front.new_link(), time.monotonic() + seconds
        while time.monotonic() < end:
            assert link.ask(method, path, b"{}" if method == "POST" else None).status in (200, 201)
            counts[n] += 1
    threads = [threading.Thread(target=ask, args=(n,)) for n in range(links)]
    for thread in threads:
        thread.start()
    for thread in threads:
        thread.join()
    return sum(counts) / seconds
