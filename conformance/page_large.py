"""A full register: 200,000 prefixes and 500,000 addresses, in a file that is written here. When the first rows of the tree are there, the median of five; that
no task of the page takes more than 200 ms while its lists are scrolled; and that its views are there in time."""
import os
import random
import sqlite3
import statistics
import tempfile
import time

from conformance.page_stand import PATIENCE, TOP, Browser, Stand, check, wait

# PAGE_PARTS=10 takes a tenth of each, for a program that is slow.
PARTS = int(os.environ.get("PAGE_PARTS", "1"))
PREFIXES, ADDRESSES, RANGES = 200_000 // PARTS, 500_000 // PARTS, 10_000 // PARTS
MOST_SECONDS, MOST_TASK = 1.0 * PATIENCE, 200


def text_of(number):
    return ".".join(str(number >> shift & 255) for shift in (24, 16, 8, 0))


def prefixes():
    """10.0.0.0/8 with a level for each of /12, /16, /20 and /24, a /11 that is wider than a sixteenth, IPv6 beside it, and customers in no order below
    11.0.0.0/8."""
    rows = [("10.0.0.0/8", "container", "", "everything"), ("10.32.0.0/11", "container", "", "wider than a sixteenth of it")]
    for length, status in ((12, "container"), (16, "container"), (20, "container"), (24, "active"))[:4 if PARTS == 1 else 3]:
        rows += [(f"{text_of(0x0A000000 + (n << (32 - length)))}/{length}", status, str(1 + n % 3), f"net {n}") for n in range(1 << (length - 8))]
    rows += [(f"2001:db8:{n:x}::/48", "active", "", f"site {n}") for n in range(1, 4001)]
    some = random.Random(1).sample(range(1 << 20), PREFIXES - len(rows))
    return rows + [(f"{text_of(0x0B000000 + (n << 4))}/28", "active", "", f"customer {n}") for n in some]


def write(path):
    """The file of the register: model/tables.sql has its tables."""
    text = open(os.path.join(TOP, "model/tables.sql")).read()
    base = sqlite3.connect(path)
    base.executescript(text[:text.index("INSERT INTO")])
    nets = [n << 8 for n in range(1 << 16)]
    hosts = [(f"{text_of(0x0A000000 + net + at)}/24", "active" if at % 5 else "dhcp", f"host-{net >> 8}-{at}.example.net")
        for net in nets[:ADDRESSES // 16] for at in range(1, 17)]
    base.executemany("INSERT INTO vrfs VALUES (?, ?, ?, 'true', '')", [(1, "guests", "65000:1"), (2, "lab", "65000:2")])
    base.executemany("INSERT INTO rirs VALUES (?, ?, ?, 'true', '')", [(1, "RFC 1918", "rfc-1918")])
    base.executemany("INSERT INTO roles VALUES (?, ?, ?, '1000', '')", [(1, "LAN", "lan"), (2, "WAN", "wan"), (3, "Customers", "customers")])
    base.execute("INSERT INTO aggregates VALUES (1, '10.0.0.0/8', '1', 'everything')")
    base.executemany("INSERT INTO prefixes VALUES (?, ?, '', ?, ?, 'false', 'false', ?)", ((1 + n, *row) for n, row in enumerate(prefixes())))
    base.executemany("INSERT INTO ip_ranges VALUES (?, ?, ?, '', 'active', '', 'false', 'true', 'DHCP')",
                     ((1 + n, f"{text_of(0x0A000000 + net + 100)}/24", f"{text_of(0x0A000000 + net + 199)}/24") for n, net in enumerate(nets[:RANGES])))
    base.executemany("INSERT INTO ip_addresses VALUES (?, ?, '', ?, '', ?, '')", ((1 + n, *row) for n, row in enumerate(hosts)))
    base.executemany("INSERT INTO meta VALUES (?, ?)", [("version", 2), ("next_vrfs", 3), ("next_rirs", 2), ("next_roles", 4), ("next_aggregates", 2),
                                                        ("next_prefixes", PREFIXES + 1), ("next_ip_ranges", RANGES + 1), ("next_ip_addresses", len(hosts) + 1)])
    base.commit()
    counts = [base.execute(f"SELECT count(*) FROM {table}").fetchone()[0] for table in ("prefixes", "ip_addresses", "ip_ranges")]
    check(counts == [PREFIXES, ADDRESSES, RANGES], f"the file has {counts}")
    base.close()


WATCH = """
window.tasks = [];
new PerformanceObserver((list) => window.tasks.push(...list.getEntries().map((one) => one.duration))).observe({ type: "longtask", buffered: true });
document.addEventListener("DOMContentLoaded", () => {
    const look = () => {
        if (document.querySelectorAll(".rows [role=row]").length > 1) window.firstRows = performance.now();
        else requestAnimationFrame(look);
    };
    look();
});
"""


def first_rows(page, view):
    """Seconds from the address to the first rows, the median of five loads with an empty cache."""
    took = []
    for _ in range(5):
        page.driver.get("about:blank")
        page.devtools("Network.clearBrowserCache")
        page.driver.get(f"{page.base}/web/#/{view}")
        took.append(wait(lambda: page.run("return window.firstRows"), f"the rows of {view}") / 1000)
        page.settle()
    return statistics.median(took)


SCROLL = """
const [selector, end] = arguments;
const place = document.querySelector(selector);
window.tasks.length = 0;
const step = (number) => {
    if (number === 150) {
        place.scrollTop = place.scrollHeight;
        setTimeout(() => end([window.tasks, place.scrollHeight]), 600);
        return;
    }
    place.scrollTop = number % 2 ? place.scrollTop + 700 : (place.scrollHeight * number) / 150;
    requestAnimationFrame(() => step(number + 1));
};
step(0);
"""


def task_seconds(page, domain, selector):
    """Scrolls, and gives the seconds of all tasks by a clock, the longest task, and the height of the list."""
    page.devtools("Performance.disable")
    page.devtools("Performance.enable", timeDomain=domain)

    def seconds():
        return next(one["value"] for one in page.devtools("Performance.getMetrics")["metrics"] if one["name"] == "TaskDuration")

    before = seconds()
    tasks, height = page.driver.execute_async_script(SCROLL, selector)
    return seconds() - before, max(tasks, default=0), height


def scroll(page, selector, what):
    """The longest task in milliseconds. On a busy machine a task is longer by what other programs take of the processor, so the longest one is multiplied by
    the share of the processor that the page's tasks had."""
    spent, first, height = task_seconds(page, "threadTicks", selector)
    passed, second, _ = task_seconds(page, "timeTicks", selector)
    check(height > 5000, f"{what} is only {height} high")
    longest = min(first, second) * min(1, spent / passed)
    check(longest <= MOST_TASK, f"{what}: a task of {longest:.0f} ms while it is scrolled ({first:.0f} and {second:.0f} by the clock)")
    return longest


def open_some(page, wanted):
    """Opens row after row, the last closed one in sight first, until the tree is so high."""
    for _ in range(240):
        height = page.run("return document.querySelector('.tree').scrollHeight")
        if height > wanted:
            return
        page.run("[...document.querySelectorAll('.rows [aria-expanded=false] .twist')].pop()?.click(); document.querySelector('.tree').scrollTop = 0")
        wait(lambda: page.run("return !document.querySelector('.rows [aria-busy]')"), "a row to open")
    check(False, f"the tree is {height} high")


def tree(page):
    page.go("plan/global")
    shown = page.text("[role=treegrid]")
    check("10.0.0.0/8" in shown and "11." in shown and "2001:db8:" in shown, f"the tree begins with {shown[:300]}")
    block = "10.40.3.0/24" if PARTS == 1 else "10.40.16.0/20"
    page.go(f"plan/global?at={block}")
    page.says(block, "[role=row].active")
    open_some(page, 60_000 if PARTS == 1 else 20_000)
    return scroll(page, ".tree", "the tree")


def lists(page):
    page.go("ip-addresses")
    page.says(f"1,000 of {ADDRESSES:,} are loaded")
    page.click("Load all")
    wait(lambda: page.run("return Number(document.querySelector('.said').textContent.split(' ')[0].replaceAll(',', ''))") >= 30_000, "30,000 addresses", 120)
    page.run("[...document.querySelectorAll('button')].find((one) => one.textContent === 'Stop' && one.getClientRects().length)?.click()")
    wait(lambda: page.run("return ![...document.querySelectorAll('button')].some((one) => one.textContent === 'Stop' && one.getClientRects().length)"),
        "the loading to stop")
    return scroll(page, ".table-box .scroller", "the table of addresses")


def others(page):
    """The views that a full register makes heavy are there in time."""
    for view, words in (("prefixes/1", "10.32.0.0/11"), ("prefixes/1?map=10.64.0.0/10", "Whole 10.0.0.0/8"), ("search?q=10.3.4.5", "host-772-5.example.net"),
        ("search?q=11.0.0.0/8", "Prefixes inside it"),
                        ("ip-ranges", f"of {RANGES:,} are loaded" if PARTS == 1 else f"{RANGES:,} in all"), ("aggregates/1", "Prefixes in it")):
        start = time.monotonic()
        page.driver.get(f"{page.base}/web/#/{view}")
        page.says(words, seconds=30)
        page.settle()
        check(time.monotonic() - start < 15 * PATIENCE, f"{view} takes {time.monotonic() - start:.1f} s")
    page.go("search?q=customer%2077")
    page.says("prefixes read", seconds=30)


def stops_reading(page):
    """The search in the texts of prefixes says how far it is, and stops."""
    page.driver.get("about:blank")
    page.driver.get(f"{page.base}/web/#/search?q=nothing-like-this")
    page.says(f"of {PREFIXES:,} prefixes read")
    page.click("Stop", "button")
    page.says("Stopped:")


def run_alone(port):
    with tempfile.TemporaryDirectory() as folder:
        path = os.path.join(folder, "large.db")
        write(path)
        stand = Stand(port, path)
        try:
            page = Browser(stand.url)
            page.devtools("Page.addScriptToEvaluateOnNewDocument", source=WATCH)
            seconds = {view: first_rows(page, view) for view in ("plan", "plan/global")}
            tree_task = tree(page)
            list_task = lists(page)
            others(page)
            stops_reading(page)
            page.end()
        finally:
            stand.end()
    said = ", ".join(f"{view} {took:.2f} s" for view, took in seconds.items())
    worst = max(tree_task, list_task)
    tasks = f"the longest task while scrolling {worst:.0f} ms" if worst else "while scrolling no task over 50 ms"
    print(f"{PREFIXES:,} prefixes, {ADDRESSES:,} addresses and {RANGES:,} ranges: the first rows after {said} (median of five); {tasks}")
    check(max(seconds.values()) <= MOST_SECONDS, f"the first rows take {max(seconds.values()):.2f} s")
