"""A narrow window, the keyboard alone, and what a screen reader is told: roles and names by the accessibility tree."""
from selenium.webdriver.common.keys import Keys

from conformance.page_stand import Browser, check

VIEWS = ("plan", "plan/global", "prefixes", "prefixes/1", "prefixes/2", "prefixes/2?tab=free", "prefixes/4", "ip-addresses", "ip-addresses/1",
    "ip-ranges", "ip-ranges/1", "aggregates", "aggregates/1",
         "vrfs", "vrfs/1", "roles", "roles/1", "rirs", "rirs/1", "search?q=10.1.0.1", "search?q=10.1.0.0/16", "search?q=office")
NAMED = {"button", "link", "textbox", "searchbox", "combobox", "checkbox", "treegrid", "table", "region", "dialog", "navigation", "form", "search",
    "image", "img", "progressbar", "columnheader", "main", "banner"}


def fill(stand):
    stand.make("rirs/", {"name": "RIPE NCC", "slug": "ripe-ncc"})
    stand.make("roles/", {"name": "Office LAN", "slug": "office-lan"})
    stand.make("vrfs/", {"name": "lab", "rd": "65000:1"})
    stand.make("aggregates/", {"prefix": "10.0.0.0/8", "rir": 1})
    stand.make("prefixes/", {"prefix": "10.1.0.0/16", "status": "container",
        "description": "the office with a description that is longer than a narrow window"})
    stand.make("prefixes/", {"prefix": "10.1.0.0/24", "role": 1, "description": "first floor"})
    stand.make("prefixes/", {"prefix": "2001:db8:1234:5678:9abc:def0:1234:0/112", "description": "the longest block text"})
    stand.make("prefixes/", {"prefix": "10.1.16.0/22"})
    stand.make("prefixes/2/available-ips/", [{"dns_name": f"host-{n}.a-long-domain-name.example.net"} for n in range(12)])
    stand.make("ip-addresses/", {"address": "2001:db8:1234:5678:9abc:def0:1234:abcd/112", "dns_name": "six.example.net"})
    stand.make("ip-ranges/", {"start_address": "10.1.0.100/24", "end_address": "10.1.0.149/24", "mark_populated": True})


def narrow(stand):
    page = Browser(stand.url, size=(360, 740))
    for view in VIEWS:
        page.go(view)
        wide = page.run("""const main = document.querySelector("main");
            return [document.documentElement.scrollWidth <= 360, main.scrollWidth <= main.clientWidth,
                [...document.querySelectorAll("h1, .about, .facts, .map, .actions, .search input")]
                    .filter((one) => one.getBoundingClientRect().right > 361).map((one) => one.className)];""")
        check(wide == [True, True, []], f"{view} is wider than 360: {wide}")
        small = page.run("""return [...document.querySelectorAll("main button, main select, header input")]
            .filter((one) => one.getClientRects().length && !one.matches(".stop, .sort"))
            .filter((one) => one.getBoundingClientRect().height < 24).map((one) => one.outerHTML)""")
        check(not small, f"{view}: too small to be touched: {small}")
    page.go("prefixes/2")
    for words in ("Next free address", "Next free block", "Edit", "Delete"):
        page.click(words)
        box = page.run("""const dialog = document.querySelector("dialog"), box = dialog.getBoundingClientRect();
            return [box.left, box.right, dialog.scrollWidth - dialog.clientWidth]""")
        check(box[0] >= 0 and box[1] <= 360 and box[2] <= 0, f"the dialog of '{words}' is too wide: {box}")
        page.click("Cancel")
        page.closed()
    page.end()


class Keyboard:
    """A page that is used by its keys alone."""

    def __init__(self, stand):
        self.page = Browser(stand.url)

    def focus(self):
        return self.page.run("""const one = document.activeElement;
            return one ? (one.getAttribute("aria-label") || one.labels?.[0]?.innerText || one.innerText || one.tagName).trim() : "";""")

    def tab_to(self, words, most=60):
        """Presses Tab until what has the focus has these words."""
        for _ in range(most):
            if self.focus().replace("*", "").strip() == words:
                shown = self.page.run("const style = getComputedStyle(document.activeElement); return style.outlineStyle !== 'none' || style.borderColor")
                check(shown, f"the focus on '{words}' is not shown")
                return
            self.page.keys(Keys.TAB)
        check(False, f"Tab does not come to '{words}'")

    def active(self):
        return self.page.run("return document.getElementById(document.activeElement.getAttribute('aria-activedescendant'))?.innerText ?? ''")


def keyboard(stand):
    use = Keyboard(stand)
    page = use.page
    page.go("plan/global")
    page.run("document.querySelector('#search-text').focus()")
    for _ in range(40):
        page.keys(Keys.TAB)
        if page.run("return document.activeElement.getAttribute('role')") == "treegrid":
            break
    page.keys(Keys.HOME)
    check("10.0.0.0/8" in use.active(), f"the first row: {use.active()}")
    page.keys(Keys.ARROW_LEFT)
    check(page.run("return document.querySelectorAll('.rows [role=row]').length") == 2, "the row does not close")
    page.keys(Keys.ARROW_RIGHT)
    page.keys(Keys.ARROW_RIGHT)
    check("10.1.0.0/16" in use.active(), f"the arrow to the right: {use.active()}")
    page.keys(Keys.ARROW_DOWN)
    check("10.1.0.0/24" in use.active(), f"the arrow down: {use.active()}")
    page.keys(Keys.ENTER)
    page.says("10.1.0.0/24", "h1")
    page.settle()
    claims(use, stand)
    maps(use)
    page.end()


def claims(use, stand):
    page = use.page
    use.tab_to("Next free address")
    page.keys(Keys.ENTER)
    page.says("Next free address in 10.1.0.0/24", "dialog")
    check(use.focus().startswith("How many"), f"the focus in the dialog: {use.focus()}")
    page.keys(Keys.ESCAPE)
    page.closed()
    check(use.focus() == "Next free address", f"the focus after the dialog: {use.focus()}")
    page.keys(Keys.ENTER)
    page.says("How many", "dialog")
    use.tab_to("DNS name")
    page.keys("keys.example.net", Keys.ENTER)
    page.says("It is yours", "dialog")
    page.keys(Keys.ENTER)
    page.closed()
    check(stand.rows("ip-addresses/?dns_name=keys.example.net"), "the claim by the keyboard")


def maps(use):
    page = use.page
    page.run("document.querySelector('#search-text').focus()")
    for _ in range(60):
        page.keys(Keys.TAB)
        if page.run("return document.activeElement.classList.contains('stop')"):
            break
    check(use.focus().startswith("10.1.0.0, kept back"), f"the first address of the map: {use.focus()}")
    page.keys(Keys.ARROW_RIGHT)
    check(use.focus().startswith("10.1.0.1, host-0"), f"the next one: {use.focus()}")
    page.keys(Keys.ARROW_DOWN)
    check(use.focus().startswith("10.1.0.33, free"), f"the one below: {use.focus()}")
    page.keys(Keys.END)
    check(use.focus().startswith("10.1.0.255"), f"the last one: {use.focus()}")
    page.keys(Keys.TAB)
    check(not page.run("return document.activeElement.classList.contains('stop')"), "the map has more than one stop of Tab")


def names(stand):
    page = Browser(stand.url)
    for view in VIEWS:
        page.go(view)
        accessible(page, view)
        check(page.run("return document.querySelectorAll('h1').length") == 1, f"{view} has not one main heading")
    page.go("prefixes/2")
    for words in ("Next free address", "Next free block", "Edit", "Delete"):
        page.click(words)
        accessible(page, f"the dialog of '{words}'")
        page.click("Cancel")
        page.closed()
    page.go("prefixes/3")
    starts = page.run("return [...document.querySelectorAll('.map-start')].map((one) => one.innerText)")
    check(starts == [f"2001:db8:1234:5678:9abc:def0:1234:{n << 12:x}" for n in range(16)], f"the rows of a map of IPv6: {starts}")
    page.go("plan/global")
    rows = page.run("""return [...document.querySelectorAll(".rows [role=row]")]
        .map((one) => [one.getAttribute("aria-level"), one.getAttribute("aria-expanded")])""")
    check(rows[0] == ["1", "true"] and rows[1] == ["2", "true"] and rows[2][0] == "3", f"the levels of the rows: {rows}")
    page.end()


def accessible(page, where):
    """Whether everything that can be used has a name, and which roles there are."""
    nodes = page.devtools("Accessibility.getFullAXTree")["nodes"]
    found = set()
    for node in nodes:
        if node.get("ignored"):
            continue
        role, name = node.get("role", {}).get("value"), node.get("name", {}).get("value", "").strip()
        found.add(role)
        check(role not in NAMED or name or role in ("main", "banner", "form"), f"{where}: a {role} without a name: {node.get('properties')}")
    check({"main", "banner", "navigation", "searchbox"} <= found or "dialog" in found, f"{where}: the roles are {sorted(map(str, found))}")


def run(stand):
    fill(stand)
    narrow(stand)
    keyboard(stand)
    names(stand)
    print(f"{len(VIEWS)} views fit a window 360 wide; a claim, the tree and the map by the keyboard alone; everything that can be used has a name")
