"""What the page does while the register is killed and started again, and when an answer is lost: it says so, and never claims twice by itself."""
import time

from conformance.page_stand import Browser, check, wait


def killed(stand, page):
    page.go("prefixes/1")
    stand.kill()
    page.says("The register does not answer", "#notice", 15)
    page.click("Next free address")
    page.send("Claim")
    page.says("did not answer", "dialog", 15)
    page.click("Cancel", "dialog button")
    stand.start()
    wait(lambda: "does not answer" not in page.text("#notice"), "the register is back, for the page,", 15)
    page.go("prefixes/1")
    check(stand.rows("ip-addresses/") == [], "a claim was made")


def lost_claim(stand, page):
    """The claim is made, and its answer lost: the page shows what is new before it offers to send again."""
    stand.make("ip-addresses/", {"address": "10.1.0.5/24", "description": "older"})
    page.go("prefixes/1")
    stand.relay.is_losing = True
    page.click("Next free address")
    page.send("Claim", **{"How many": "3", "Description": "mine"})
    page.says("what you sent may have been done or not", "dialog")
    stand.relay.is_losing = False
    page.says("New in 10.1.0.0/24 since then (3)", "dialog")
    shown = page.text("dialog .made")
    check(all(text in shown for text in ("10.1.0.1/24", "10.1.0.2/24", "10.1.0.3/24")) and "older" not in shown, f"what is new: {shown}")
    check(page.has("Send again", "dialog button"), "sending again is not offered")
    check(len(stand.rows("ip-addresses/")) == 4 and stand.relay.lost == 1, "the claim was sent more than once")
    page.click("Close", "dialog button")
    page.closed()
    page.says("4 in all")


def killed_claim(stand, page):
    """The register is killed before the claim reaches it, and started again: nothing is new, and the claim is sent again by the user alone."""
    page.go("prefixes/1")
    page.click("Next free address")
    page.put("Description", "second")
    # what the page asks before a claim is answered; the claim then meets a register that is killed
    page.run("""const send = window.fetch;
        window.fetch = async (...words) => {
            if (words[1]?.method === "POST") { window.held = true; while (window.held) await new Promise((go) => setTimeout(go, 50)); }
            return send(...words);
        };""")
    page.click("Claim", "dialog button")
    for _ in range(200):
        if page.run("return window.held"):
            break
        time.sleep(0.05)
    stand.kill()
    page.run("window.held = false")
    page.says("Not answered", "dialog")
    page.says("Waiting for the register", "dialog")
    stand.start()
    page.says("Nothing is new in 10.1.0.0/24: the claim was not made", "dialog")
    check(len(stand.rows("ip-addresses/")) == 4, "the claim was made by itself")
    page.run("window.fetch = window.fetch; delete window.held")
    page.run("const frame = document.createElement('iframe'); document.body.append(frame); window.fetch = frame.contentWindow.fetch.bind(window)")
    page.click("Send again", "dialog button")
    page.says("10.1.0.4", "dialog .claimed")
    page.click("Done")
    page.closed()


def lost_changes(stand, page):
    """A creation, an edit and a deletion whose answers are lost."""
    page.go("prefixes")
    stand.relay.is_losing = True
    page.click("New prefix")
    page.send("Create", Block="10.2.0.0/16")
    page.says("may have been done or not", "dialog")
    page.says("New since then (1 prefix)", "dialog")
    stand.relay.is_losing = False
    page.click("Close", "dialog button")
    page.closed()
    page.go("prefixes/2")
    page.click("Edit")
    page.put("Description", "changed")
    stand.relay.is_losing = True
    page.click("Save", "button")
    page.says("It is saved", "dialog")
    check(not page.has("Send again", "dialog button"), "an edit that is saved is offered again")
    page.click("Close", "dialog button")
    page.closed()
    stand.relay.is_losing = False
    page.click("Delete")
    stand.relay.is_losing = True
    page.send("Delete", **{"Type 10.2.0.0/16 to delete it": "10.2.0.0/16"})
    page.says("It is deleted", "dialog")
    stand.relay.is_losing = False
    check(stand.ask("GET", "prefixes/2/")[0] == 404 and len(stand.rows("prefixes/")) == 1, "the deletion")


def restarted(stand, page):
    """A restart begins at place 0: what was read before it is old."""
    page.go("prefixes/1")
    stand.kill()
    stand.start()
    page.says("The register has changed since this was read", "#notice", 30)


def run(stand):
    stand.make("prefixes/", {"prefix": "10.1.0.0/24"})
    page = Browser(stand.url)
    killed(stand, page)
    lost_claim(stand, page)
    killed_claim(stand, page)
    lost_changes(stand, page)
    restarted(stand, page)
    page.end()
    print("the register killed and started again: said, and seen when it is back; a claim, a creation, an edit and a deletion without an "
          "answer are said to be uncertain, "
          "what is new is shown, and none was sent twice")
