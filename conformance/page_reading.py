"""Users who may only read, by password and by token; and changes that the page of another site asks for."""
import http.server
import json
import signal
import threading

from conformance.page_stand import BASE, Browser, check, wait

CHANGES = ("New prefix", "New VRF", "Next free address", "Next free block", "Edit", "Delete", "New address", "New range", "Create")


def reads(stand):
    page = Browser(stand.url, user="clara")
    for view in ("plan", "plan/global", "prefixes/1", "prefixes/1?tab=blocks", "prefixes/1?tab=free", "prefixes/2", "ip-addresses/1", "ip-addresses",
        "ip-ranges", "search?q=10.1.0.7"):
        page.go(view)
        page.says("Reading only", ".who")
        for words in CHANGES:
            check(not page.has(words, "button"), f"{view}: a reader is offered '{words}'")
        check(not page.run("return document.querySelectorAll('button.stop').length"), f"{view}: the map offers a change")
    page.go("prefixes/1")
    page.says("10.1.0.1/24")
    status = page.run("return fetch(arguments[0], {method: 'POST', body: '{}'}).then((answer) => answer.status)", BASE + "prefixes/1/available-ips/")
    check(status == 403, f"a reader's claim from the page: {status}")
    page.end()
    for method, path, body in (("POST", "prefixes/1/available-ips/", {}), ("PATCH", "prefixes/1/", {"description": "x"}), ("DELETE", "ip-addresses/1/", None)):
        status, value = stand.ask(method, path, body, user="clara")
        check((status, value["code"]) == (403, "reads_only"), f"a reader's {method}: {status} {value}")
    check(stand.ask("GET", "prefixes/", user="clara")[0] == 200, "a reader may not read")
    # a token may be a reader's, too
    stand.write("register.readers", "clara yes;\nbert yes;\n")
    stand.proxy.send_signal(signal.SIGHUP)
    wait(lambda: stand.ask("PATCH", "prefixes/1/", {}, Authorization=f"Token {stand.token}")[0] == 403, "the token of a reader")
    check(stand.ask("GET", "prefixes/1/", Authorization=f"Token {stand.token}")[0] == 200, "a reader's token may not read")


ATTACK = """<!doctype html><meta charset=utf-8><title>other</title>
<form id=form method=post enctype=text/plain action="{claims}"><input name='{{"description":"form' value='"}}'></form>
<script>
window.done = Promise.all([
    fetch("{claims}", {{method: "POST", mode: "no-cors", credentials: "include", body: '{{"description":"fetch"}}'}}).catch(String),
    fetch("{record}", {{method: "DELETE", credentials: "include"}}).catch(String),
    fetch("{record}", {{method: "PATCH", credentials: "include", headers: {{"Content-Type": "application/json"}}, body: "{{}}"}}).catch(String),
    fetch("{record}", {{credentials: "include"}}).then((answer) => answer.text()).catch(String),
]).then((all) => all.map(String));
</script>"""


def other_site(stand, port):
    """A page of another origin, on the same host and on another one, asks for changes while the user's password is known to the browser."""
    claims, record = (f"{stand.url}{BASE}{path}" for path in ("prefixes/1/available-ips/", "ip-addresses/1/"))
    text = ATTACK.format(claims=claims, record=record).encode()

    class Other(http.server.BaseHTTPRequestHandler):
        def do_GET(self):
            self.send_response(200)
            self.send_header("Content-Type", "text/html")
            self.end_headers()
            self.wfile.write(text)

        def log_message(self, *words):
            pass

    server = http.server.ThreadingHTTPServer(("127.0.0.1", port), Other)
    threading.Thread(target=server.serve_forever, daemon=True).start()
    before = stand.rows("ip-addresses/?limit=1000")
    for host in ("localhost", "127.0.0.1"):
        page = Browser(stand.url)
        page.driver.get(f"http://{host}:{port}/")
        told = page.driver.execute_async_script("const end = arguments[0]; window.done.then(end)")
        check("10.1.0" not in json.dumps(told), f"{host}: another site reads the register: {told}")
        page.run("document.querySelector('#form').submit()")
        page.says("a change that the page of another site asks for is refused")
        page.end()
    check(stand.rows("ip-addresses/?limit=1000") == before, "another site changed the register")
    log = open(f"{stand.folder}/register.log").read()
    refused = [line for line in log.splitlines() if '"POST /register/api/ipam/prefixes/1/available-ips/ ' in line and '" 403 ' in line]
    check(len(refused) >= 5, f"the log has {len(refused)} refused claims")
    server.shutdown()
    server.server_close()


def heads(stand):
    """By the fields of the request alone, at both forms of the register."""
    for path in ("prefixes/1/available-ips/",):
        for headers, status in (({"Sec_Fetch_Site": "cross-site"}, 403), ({"Sec_Fetch_Site": "same-site"}, 403), ({"Sec_Fetch_Site": "none"}, 403),
            ({"Origin": "https://evil.example"}, 403),
                                ({"Origin": "null"}, 403), ({"Origin": stand.url + "0"}, 403), ({"Origin": stand.url[:-1]},
                                    403), ({"Sec_Fetch_Site": "same-origin", "Origin": "https://evil.example"}, 403),
                                ({"Sec_Fetch_Site": "cross-site", "Origin": stand.url}, 403), ({"Origin": stand.url},
                                    201), ({"Sec_Fetch_Site": "same-origin", "Origin": stand.url}, 201), ({}, 201)):
            told = stand.ask("POST", path, {}, **headers)
            check(told[0] == status, f"{headers}: {told} in place of {status}")
            told = stand.ask("POST", "../../../api/ipam/" + path, {}, **headers)
            check(told[0] == status, f"NetBox's form, {headers}: {told} in place of {status}")
    check(stand.ask("GET", "prefixes/", Sec_Fetch_Site="cross-site", Origin="https://evil.example")[0] == 200, "reading is refused")


def page_heads(stand):
    page = Browser(stand.url)
    page.go("plan")
    told = page.run("""return fetch("/web/").then((answer) => ["Content-Security-Policy", "X-Content-Type-Options"].map((name) => answer.headers.get(name)))""")
    check(told == ["default-src 'self'; frame-ancestors 'none'; base-uri 'none'; form-action 'self'; object-src 'none'", "nosniff"],
        f"the fields of the page: {told}")
    page.go("plan")
    page.run("const made = document.createElement('script'); made.textContent = 'window.hacked = 1'; document.body.append(made)")
    check(page.run("return window.hacked ?? null") is None, "an inline script ran")
    stored = page.run("return [localStorage.length, sessionStorage.length, document.cookie, window.location.href]")
    check(stored[:3] == [0, 0, ""] and "secret" not in stored[3], f"something is stored: {stored}")
    page.end()


def run(stand):
    stand.make("prefixes/", {"prefix": "10.1.0.0/24", "description": "first"})
    stand.make("prefixes/", {"prefix": "10.1.0.0/16", "status": "container"})
    stand.make("prefixes/1/available-ips/", [{}, {}, {}])
    stand.make("ip-ranges/", {"start_address": "10.1.0.50/24", "end_address": "10.1.0.59/24"})
    reads(stand)
    other_site(stand, stand.port + 5)
    heads(stand)
    page_heads(stand)
    print("a user who only reads is offered no change and is refused one; another site's page changes nothing and reads nothing, on this host and on another; "
          "no inline script runs, and nothing is stored")
