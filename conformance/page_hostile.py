"""Texts that would harm a careless page, in every field of every kind: they are shown as they are, and nothing of them runs."""
from conformance.page_stand import Browser, check

TEXTS = [
    "<img src=x onerror=window.hacked=1>",
    "<script>window.hacked=2</script>",
    "\"><svg onload=window.hacked=3>",
    "'><iframe src='javascript:parent.hacked=4'>",
    "javascript:window.hacked=5",
    "{{constructor.constructor('window.hacked=6')()}} ${window.hacked=7}",
    "&lt;b&gt; &amp; </title></textarea></style><b>bold",
    "=HYPERLINK(\"https://evil.example\",\"x\"), \"quoted\"",
    "\u202egnirts \u2066 \u200b \u0301\u0301\u0301\u0301 \U0001f4a5",
    "W" * 60,
]
LONGEST = "<b>" + "\U0001f600" * 194 + "</b"


def fill(stand):
    """Records with these texts: two of each kind for each text."""
    for number, text in enumerate([*TEXTS, LONGEST]):
        name = (text if len(text) <= 100 else text[:100])
        rd = text[:21]
        stand.make("vrfs/", {"name": name, "rd": rd, "description": text, "enforce_unique": False})
        stand.make("rirs/", {"name": name, "slug": f"rir-{number}", "description": text})
        stand.make("roles/", {"name": name, "slug": f"role-{number}", "description": text})
        one = number + 1
        stand.make("aggregates/", {"prefix": f"10.{number}.0.0/16", "rir": one, "description": text})
        stand.make("prefixes/", {"prefix": f"10.{number}.0.0/20", "vrf": one, "role": one, "description": text})
        stand.make("prefixes/", {"prefix": f"10.{number}.0.0/24", "role": one, "description": text})
        stand.make("ip-ranges/", {"start_address": f"10.{number}.0.8/24", "end_address": f"10.{number}.0.20/24", "role": one, "description": text})
        stand.make("ip-addresses/", {"address": f"10.{number}.0.9/24", "description": text, "dns_name": "*.x--y_z.example"})
        stand.make("ip-addresses/", {"address": f"10.{number}.0.9/24", "vrf": one, "description": text})


def harmless(page, where):
    found = page.run("""const made = ["img", "script", "iframe", "b"].map((one) => `main ${one}, dialog ${one}`).join();
        return [window.hacked ?? null, document.querySelectorAll(made).length]""")
    check(found == [None, 0], f"{where}: {found}")
    check(not page.run("return document.querySelectorAll('[href^=javascript], [onerror], [onload], [onclick], [style*=url]').length"),
        f"{where}: an element runs something")


def look(page, view, *texts):
    page.go(view)
    shown = page.text("main")
    for text in texts:
        check(text in shown, f"{view}: {text!r} is not shown as it is")
    harmless(page, view)


def dialogs(page, view, text):
    """The forms of a record show its texts as values."""
    page.go(view)
    for words in ("Edit", "Delete"):
        page.click(words)
        harmless(page, f"{view}, {words}")
        if words == "Edit":
            values = page.run("return [...document.querySelectorAll('dialog input')].map((one) => one.value)")
            check(text in values, f"{view}: {text!r} is not a value of its form: {values}")
        page.click("Cancel")
        page.closed()


def run(stand):
    fill(stand)
    page = Browser(stand.url)
    visible = [text for text in TEXTS if "\u202e" not in text]
    for kind in ("vrfs", "rirs", "roles"):
        look(page, kind, *visible)
    for view in ("prefixes", "ip-addresses", "ip-ranges", "aggregates"):
        look(page, view, *(text for text in visible if text.count(" ") < 4))
    look(page, "plan", *visible[:3])
    for number, text in enumerate(TEXTS, 1):
        for view in (f"vrfs/{number}", f"roles/{number}", f"rirs/{number}", f"aggregates/{number}", f"prefixes/{2 * number}",
            f"prefixes/{2 * number - 1}", f"ip-ranges/{number}",
                     f"ip-addresses/{2 * number}", f"plan/{number}"):
            look(page, view)
        if number % 3 == 1:
            for view in (f"vrfs/{number}", f"prefixes/{2 * number}", f"ip-addresses/{2 * number - 1}"):
                dialogs(page, view, text)
    for text in visible[:7]:
        page.run("window.location.hash = '#/search?q=' + encodeURIComponent(arguments[0])", text)
        page.says("prefixes read", "main")
        page.settle()
        check(page.run("return document.querySelectorAll('.found').length") >= 4, f"a search of {text!r} finds {page.text('main')!r}")
        harmless(page, f"a search of {text!r}")
    for view in ("vrfs/%3Cimg%20src=x%20onerror=window.hacked=8%3E", "<img src=x onerror=window.hacked=9>", "prefixes/1?tab=<script>&map=<b>",
        "plan/'\"><script>?at=<b>", "prefixes/__proto__", "constructor/1", "__proto__"):
        page.run("window.location.hash = '#/' + arguments[0]", view)
        page.settle()
        harmless(page, view)
    narrow = page.run("return document.documentElement.scrollWidth <= window.innerWidth")
    check(narrow, "a long text makes the page wider than the window")
    faults = [line for line in page.faults() if "Security Policy" in line]
    check(not faults, f"the browser refused something of a record: {faults}")
    page.end()
    print(f"{len(TEXTS) + 1} hostile texts in every field of every kind: shown as they are in lists, records, trees, maps, forms and searches, "
          "and nothing runs")
