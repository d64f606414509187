"""An office's first day on the page: it creates, claims, edits, deletes and searches, and is refused. After each step the register is asked."""
import os
import time

from conformance.page_stand import ActionChains, Browser, By, check, wait


def create(page, button, **values):
    page.click(button)
    page.send("Create", **values)
    page.closed()


def first_records(stand, page):
    page.go("plan")
    page.says("No prefixes yet")
    page.go("rirs")
    create(page, "New RIR", Name="RIPE NCC")
    check(stand.rows("rirs/")[0]["slug"] == "ripe-ncc", "the slug does not follow the name")
    page.go("aggregates")
    create(page, "New aggregate", Block="10.0.0.0/8", RIR="RIPE NCC", Description="everything inside")
    page.go("roles")
    create(page, "New role", Name="Office LAN")
    page.go("plan")
    create(page, "New VRF", Name="lab", **{"Route distinguisher": "65000:1"})
    create(page, "New prefix", Block="10.1.0.0/16", Status="Container", Description="the office")
    page.says("10.1.0.0/16", "[role=treegrid]")
    check(stand.rows("prefixes/")[0]["status"]["value"] == "container", "the status of the prefix")
    page.go("ip-ranges")


def copied(page):
    """What is in the clipboard."""
    page.devtools("Browser.grantPermissions", permissions=["clipboardReadWrite", "clipboardSanitizedWrite"])
    return page.driver.execute_async_script("const end = arguments[0]; navigator.clipboard.readText().then(end, (fault) => end(String(fault)))")


def claims(stand, page):
    page.go("prefixes/1")
    page.click("Next free block")
    page.send("Claim", Length="24", **{"How many": "2", "Role": "Office LAN"})
    page.says("They are yours")
    check([row["prefix"] for row in stand.rows("prefixes/?within=10.1.0.0/16")] == ["10.1.0.0/24", "10.1.1.0/24"], "the claimed blocks")
    page.click("Done")
    page.closed()
    page.says("10.1.1.0/24", "[role=treegrid]")
    page.go("prefixes/2")
    page.click("Next free address")
    page.send("Claim", **{"DNS name": "GW.example.net", "Role": "VIP"})
    page.says("10.1.0.1", "dialog .claimed")
    page.click("Done")
    page.closed()
    first = stand.rows("ip-addresses/")[0]
    check((first["address"], first["dns_name"], first["role"]["value"]) == ("10.1.0.1/24", "gw.example.net", "vip"), f"the claimed address: {first}")
    page.says("gw.example.net", "[role=table]")
    page.click("Next free address")
    page.send("Claim", **{"How many": "40", "Description": "desk"})
    page.says("40 are yours")
    page.click("Copy all")
    check(copied(page).split("\n") == [f"10.1.0.{number}" for number in range(2, 42)], f"copied: {copied(page)}")
    page.click("Done")
    page.closed()
    page.says("41 in all")
    check(stand.rows("ip-addresses/?limit=1000")[40]["address"] == "10.1.0.41/24", "the claimed addresses")


def refusals(stand, page):
    def refused(field, text):
        page.says(text, "dialog .field-fault")
        check(page.run("return document.activeElement === arguments[0]", page.field(field)), f"the focus is not on {field}")
        check(page.field(field).get_attribute("aria-invalid") == "true", f"{field} is not marked")

    page.go("prefixes")
    page.click("New prefix")
    page.send("Create", Block="10.1.0.0/24")
    refused("Block", "coincides with 2")
    page.send("Create", Block="10.1.0.1/24")
    refused("Block", "host bits are set, the prefix is 10.1.0.0/24")
    page.send("Create", Block="ten")
    refused("Block", "prefix is missing or malformed")
    page.click("Cancel")
    page.closed()
    page.go("ip-addresses")
    page.click("New address")
    page.send("Create", Address="10.1.0.200/24", **{"DNS name": "not a name"})
    refused("DNS name", "not a DNS name")
    page.send("Create", **{"DNS name": "", "Status": "SLAAC"})
    refused("Status", "slaac is for IPv6 only")
    page.click("Cancel")
    page.closed()
    page.go("aggregates")
    page.click("New aggregate")
    page.send("Create", Block="10.0.0.0/9")
    refused("RIR", "rir is missing or malformed")
    page.send("Create", RIR="RIPE NCC")
    refused("Block", "overlaps aggregate 1")
    page.click("Cancel")
    page.closed()
    page.go("prefixes/2")
    page.click("Next free block")
    page.send("Claim", Length="24")
    refused("Length", "the length does not fit the prefix")
    page.click("Cancel")
    page.closed()
    check(len(stand.rows("prefixes/")) == 3, "a refused record was created")


def edits(stand, page):
    page.go("prefixes/2")
    page.click("Edit")
    page.send("Save", Description="first floor", Status="Reserved")
    page.closed()
    page.says("first floor", "h1 + .about, .view-head")
    row = stand.ask("GET", "prefixes/2/")[1]
    check((row["description"], row["status"]["value"], row["role"]) == ("first floor", "reserved", 1), f"the edit: {row}")
    # somebody else changes it while the form is open: both are shown, and the own change goes on the new record
    page.click("Edit")
    page.put("Description", "first floor, east")
    stand.ask("PATCH", "prefixes/2/", {"status": "active", "is_pool": True})
    page.click("Save", "button")
    page.says("Somebody changed it meanwhile")
    for text in ("Shown to you", "In the register now", "Yours", "Reserved", "Active", "first floor, east"):
        page.says(text, "dialog")
    check(stand.ask("GET", "prefixes/2/")[1]["description"] == "first floor", "it was saved before both were shown")
    page.click("Save mine", "button")
    page.closed()
    row = stand.ask("GET", "prefixes/2/")[1]
    check((row["description"], row["status"]["value"], row["is_pool"]) == ("first floor, east", "active", True), f"the second edit: {row}")


def ranges(stand, page):
    page.go("prefixes/2?tab=ranges")
    page.says("No ranges here")
    page.go("ip-ranges")
    create(page, "New range", **{"First address": "10.1.0.100/24", "Last address": "10.1.0.149/24",
        "Filled by others, as by a DHCP server: nothing is claimed here": True})
    page.go("prefixes/2")
    page.says("filled by others")
    names = page.run("return [...document.querySelectorAll('.map .stop')].map((one) => one.getAttribute('aria-label'))")
    check(len(names) == 256, f"the map has {len(names)} addresses")
    check(names[1].startswith("10.1.0.1, gw.example.net") and "withheld" in names[120] and names[200] == "10.1.0.200, free",
        f"the map: {names[1]}, {names[120]}, {names[200]}")
    check(stand.ask("GET", "ip-ranges/1/")[1]["mark_populated"] is True, "the mark of the range")
    ActionChains(page.driver).move_to_element(page.driver.find_elements(By.CSS_SELECTOR, ".map .stop")[1]).perform()
    page.says("10.1.0.1, gw.example.net", ".map-said")
    page.says("Who changed it is in the proxy", "main")


def scales(page):
    """The map of a large prefix: rows of blocks to scale, and what is free."""
    page.go("prefixes/1")
    spans = dict(page.run("""return [...document.querySelectorAll(".map .stop[aria-label]")]
        .map((one) => [one.getAttribute("aria-label"), [one.style.left, one.style.width]])"""))
    check(page.run("return document.querySelectorAll('.map-row').length") == 16, "the rows of a /16")
    wanted = {"10.1.0.0/24, first floor, east": ["0%", "6.25%"], "10.1.1.0/24": ["6.25%", "6.25%"], "10.1.2.0/23, no prefix": ["12.5%", "12.5%"],
        "10.1.128.0/17, no prefix": ["0%", "100%"]}
    for name, place in wanted.items():
        check(spans.get(name) == place, f"the map of 10.1.0.0/16 has '{name}' at {spans.get(name)}: {spans}")
    check("range 10.1.0.100 – 10.1.0.149, filled by others" in spans, f"the range in the map: {list(spans)}")
    page.go("prefixes/1?tab=blocks")
    page.says("10.1.2.0/23", "[role=table]")


def tables_of_plan(page):
    """The switch of the table."""
    page.go("plan")
    page.driver.find_element(By.XPATH, '//select[@aria-label="Table"]/option[.="lab (65000:1)"]').click()
    page.settle()
    page.says("lab", "h1")
    page.says("This table is empty.")
    check(page.driver.current_url.endswith("#/plan/1"), f"the address of the table: {page.driver.current_url}")


def searches(page):
    def search(text):
        page.run("document.activeElement?.blur()")
        field = page.run("return document.querySelector('#search-text')")
        field.clear()
        field.send_keys(text + "\n")
        time.sleep(0.2)
        page.settle()

    search("10.1.0.1")
    page.says("Taken", ".verdict")
    page.says("gw.example.net", ".answer")
    search("10.1.0.120")
    page.says("Not free", ".verdict")
    page.says("in a range that others fill", ".answer")
    search("10.1.1.0")
    page.says("kept back", ".answer")
    search("10.1.1.7")
    page.says("Free", ".verdict")
    search("10.9.9.9")
    page.says("No prefix, range or address has it")
    search("10.1.0.0/16")
    page.says("The prefix")
    page.says("10.1.1.0/24", ".found")
    search("gw.EXAMPLE.net")
    page.says("Addresses with this DNS name")
    search("first FLOOR")
    page.says("1 found")
    page.says("10.1.0.0/24", ".found")
    search("office")
    page.says("Roles")
    page.says("Office LAN", ".found")
    search("zebra")
    page.says("Nothing has this text")


def deletions(stand, page):
    page.go("prefixes/3")
    page.click("Delete")
    page.send("Delete", **{"Type 10.1.1.0/24 to delete it": "10.1.0.0/24"})
    page.says("That is not its name", "dialog .field-fault")
    check(stand.ask("GET", "prefixes/3/")[0] == 200, "it was deleted without its name")
    page.send("Delete", **{"Type 10.1.1.0/24 to delete it": "10.1.1.0/24"})
    page.closed()
    check(stand.ask("GET", "prefixes/3/")[0] == 404, "it was not deleted")
    page.go("prefixes/3")
    page.says("prefixes 3 is not there")
    page.go("rirs/1")
    page.click("Delete")
    page.send("Delete", **{"Type RIPE NCC to delete it": "RIPE NCC"})
    page.says("named by aggregates 1", "dialog .fault")
    page.click("Cancel")
    page.closed()


def addresses_of_views(stand, page):
    """Views can be bookmarked and sent, and Back works."""
    page.go("plan/global?at=10.1.0.0/24")
    page.says("10.1.0.0/24", "[role=row].active")
    page.click("10.1.0.0/24", "[role=treegrid] a")
    page.settle()
    page.click("Free addresses", ".tabs a")
    page.settle()
    page.says("10.1.0.42/24", "[role=table]")
    address = page.driver.current_url
    page.driver.back()
    page.settle()
    page.driver.back()
    page.settle()
    page.says("10.1.0.0/24", "[role=row].active")
    other = Browser(stand.url)
    other.driver.get(address)
    other.settle()
    other.says("10.1.0.42/24", "[role=table]")
    other.end()


def is_old(stand, page):
    """A list is old once the register has changed; it is asked every ten seconds."""
    page.go("ip-addresses")
    check(not page.run("return document.querySelector('#notice').getClientRects().length"), "a fresh list is said to be old")
    stand.make("ip-addresses/", {"address": "10.1.1.9/24"})
    page.says("The register has changed since this was read", "#notice", 15)
    page.click("Read again")
    page.says("42 in all")
    # while nobody looks at it, nothing is asked
    page.run("Object.defineProperty(document, 'visibilityState', { configurable: true, get: () => 'hidden' })")
    stand.ask("PATCH", "ip-addresses/1/", {"description": "the gateway"})
    time.sleep(12)
    check(not page.run("return document.querySelector('#notice').getClientRects().length"), "a page that is hidden asks")
    page.run("delete document.visibilityState; document.dispatchEvent(new Event('visibilitychange'))")
    page.says("The register has changed since this was read", "#notice", 5)
    page.click("Read again")
    page.says("the gateway", "[role=table]")


def tables(page, folder):
    """What is loaded is sorted, and saved as CSV."""
    page.devtools("Browser.setDownloadBehavior", behavior="allow", downloadPath=folder)
    page.go("ip-addresses")
    page.click("DNS name", ".sort")
    page.click("DNS name", ".sort")
    first = page.run("return document.querySelector('[role=table] .rows [role=row]').innerText")
    check("gw.example.net" in first, f"sorted by the name: {first}")
    page.click("Address", ".sort")
    check(page.run("return document.querySelector('[role=columnheader]').getAttribute('aria-sort')") == "ascending", "the order is not said")
    page.click("CSV")
    path = os.path.join(folder, "ip-addresses.csv")
    wait(lambda: os.path.exists(path) and os.path.getsize(path) > 0, "the CSV")
    lines = open(path, newline="").read().split("\r\n")
    check(lines[:2] == ["address,dns_name,vrf,status,role,description", "10.1.0.1/24,gw.example.net,,active,vip,the gateway"], f"the CSV: {lines[:2]}")
    check(len(lines) == 44, f"the CSV has {len(lines)} lines")


def claim_in_range(stand, page):
    page.go("ip-ranges")
    create(page, "New range", **{"First address": "10.1.0.160/24", "Last address": "10.1.0.169/24"})
    page.go("ip-ranges/2")
    page.click("Next free address")
    page.send("Claim", Description="in the range")
    page.says("10.1.0.160", "dialog .claimed")
    page.click("Done")
    page.closed()
    check(stand.rows("ip-addresses/?parent=10.1.0.160/32")[0]["description"] == "in the range", "the claim in a range")


def run(stand):
    page = Browser(stand.url)
    first_records(stand, page)
    claims(stand, page)
    refusals(stand, page)
    edits(stand, page)
    ranges(stand, page)
    scales(page)
    tables_of_plan(page)
    searches(page)
    deletions(stand, page)
    addresses_of_views(stand, page)
    is_old(stand, page)
    tables(page, stand.folder)
    claim_in_range(stand, page)
    faults = [line for line in page.faults() if "the server responded with a status of 4" not in line]
    check(not faults, f"the browser complained: {faults}")
    page.end()
    print("an office's first day: created, claimed and copied, edited (also while another edits), refused next to the field, searched, deleted by name; "
          "maps to scale, tables of VRFs, views by their addresses, Back, an old list, a sorted table and its CSV")
