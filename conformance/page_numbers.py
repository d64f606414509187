"""AS numbers and VLANs on the page, by poold: pools are made, claimed from and deleted; their strips; a refusal, a claim without an answer, a reader, and a
narrow window. Without the program it says that this was not tried."""
import os
import signal

from conformance.page_hostile import TEXTS, look
from conformance.page_stand import POOLD, ActionChains, Browser, By, Stand, check
from conformance.page_windows import accessible

POOLS = "/register/pools/api/ipam/"


def strip(page, name):
    """The parts of a strip, each with its place."""
    return page.run("""const lane = [...document.querySelectorAll(".lane")].find((one) => one.getAttribute("aria-label") === `Strip of ${arguments[0]}`);
        return [...lane.querySelectorAll(".stop")].map((one) => [one.getAttribute("aria-label"), one.style.left, one.style.width])""", name)


def created(stand, page):
    page.go("numbers")
    page.says("No range here")
    page.click("New range")
    page.send("Create", Name="private", **{"First number": "64512", "Last number": "64611"})
    page.closed()
    page.says("0 of 100 given out")
    page.click("New group")
    page.send("Create", Name="floor 1", **{"First number": "100", "Last number": "99"})
    page.says("first and last do not fit", "dialog .field-fault")
    page.send("Create", **{"Last number": "199"})
    page.closed()
    pools = stand.ask("GET", "vlan-groups/", base=POOLS)[1]
    check(pools == [{"end": 199, "id": 2, "name": "floor 1", "start": 100}], f"the groups: {pools}")


def claimed(stand, page):
    page.click("Next free AS number of private")
    page.send("Claim", **{"How many": "3"})
    page.says("They are yours")
    page.says("64514", "dialog .made")
    page.click("Done")
    page.closed()
    wanted = [["64512 – 64514, given out", "0%", "3%"], ["64515 – 64611, free", "3%", "97%"]]
    check(strip(page, "private") == wanted, f"the strip: {strip(page, 'private')}")
    page.click("Next free VLAN of floor 1")
    page.send("Claim", Name="voice")
    page.says("100", "dialog .claimed")
    page.click("Done")
    page.closed()
    check(stand.ask("GET", "vlan-groups/2/vlans/", base=POOLS)[1] == [{"group": 2, "id": 4, "name": "voice", "vid": 100}], "the claimed VLAN")
    ActionChains(page.driver).move_to_element(page.driver.find_element(By.CSS_SELECTOR, ".lane .stop.given")).perform()
    page.says("64512 – 64514, given out", ".map-said")


def given_back(stand, page):
    page.go("asn-ranges/1")
    page.says("The lowest free one is 64515", ".map-said")
    page.click("Give 64513 back")
    page.send("Give back", **{"Type 64513 to confirm": "64512"})
    page.says("is not its name", "dialog .field-fault")
    page.send("Give back", **{"Type 64513 to confirm": "64513"})
    page.closed()
    page.says("2 of 100", ".facts")
    check([part[0] for part in strip(page, "private")] == ["64512, given out", "64513, free", "64514, given out", "64515 – 64611, free"],
        f"the strip: {strip(page, 'private')}")
    page.click("Delete")
    page.send("Delete", **{"Type private to confirm": "private"})
    page.says("named by member 1", "dialog .fault")
    page.click("Cancel")
    page.closed()


def is_old(stand, page):
    page.go("numbers")
    stand.ask("POST", "asn-ranges/1/available-asns/", {}, base=POOLS)
    page.says("The register has changed since this was read", "#notice", 15)
    page.click("Read again")
    page.says("3 of 100 given out")


def stopped(stand, page):
    """The pools end before a claim reaches them: nothing was claimed, and the user sends it again."""
    page.go("asn-ranges/1")
    page.click("Next free AS number")
    page.put("How many", "2")
    page.run("""const send = window.fetch;
        window.fetch = async (...words) => {
            if (words[1]?.method === "POST") { window.held = true; while (window.held) await new Promise((go) => setTimeout(go, 50)); }
            return send(...words);
        };""")
    page.click("Claim", "dialog button")
    while not page.run("return window.held ?? false"):
        pass
    stand.pools.send_signal(signal.SIGKILL)
    stand.pools.wait()
    page.run("window.held = false; delete window.held")
    page.says("Not answered", "dialog")
    stand.start_pools()
    page.says("Nothing is new in private: the claim was not made", "dialog")
    page.click("Close", "dialog button")
    page.closed()
    page.says("3 of 100", ".facts")


def hostile(stand, page):
    """Names that would harm a careless page."""
    for number, text in enumerate(TEXTS):
        group = stand.ask("POST", "vlan-groups/", {"name": text, "start": 1, "end": 9 + number}, base=POOLS)[1]["id"]
        stand.ask("POST", f"vlan-groups/{group}/available-vlans/", {"name": text}, base=POOLS)
        look(page, f"vlan-groups/{group}", *([] if "\u202e" in text else [text]))
    page.go("plan")
    look(page, "numbers", *(text for text in TEXTS if "\u202e" not in text))


def reads(stand):
    page = Browser(stand.url, user="clara")
    for view in ("numbers", "asn-ranges/1", "vlan-groups/2"):
        page.go(view)
        offered = page.run("""return [...document.querySelectorAll("main button:not(.sort, .copy)")].filter((one) => one.getClientRects().length)
            .map((one) => one.innerText)""")
        check(set(offered) <= {"CSV"}, f"{view}: a reader is offered {offered}")
    status, value = stand.ask("POST", "asn-ranges/1/available-asns/", {}, user="clara", base=POOLS)
    check((status, value["code"]) == (403, "reads_only"), f"a reader's claim: {status} {value}")
    check(stand.ask("POST", "asn-ranges/1/available-asns/", {}, base=POOLS, Sec_Fetch_Site="cross-site")[0] == 403, "another site claims")
    page.end()


def narrow(stand):
    page = Browser(stand.url, size=(360, 740))
    for view in ("numbers", "asn-ranges/1", "vlan-groups/2"):
        page.go(view)
        check(page.run("const main = document.querySelector('main'); return main.scrollWidth <= main.clientWidth"), f"{view} is wider than 360")
        accessible(page, view)
    page.end()


def run_alone(port):
    if not os.access(POOLD, os.X_OK):
        print("AS numbers and VLANs: not tried, poold is not built")
        return
    stand = Stand(port, has_pools=True)
    try:
        page = Browser(stand.url)
        for step in (created, claimed, given_back, is_old, stopped, hostile):
            step(stand, page)
        page.end()
        reads(stand)
        narrow(stand)
    finally:
        stand.end()
    print("AS numbers and VLANs: pools created, claimed from, given back, refused and read; strips to scale; a claim without an answer was not made twice")
