"""What the tests of the page stand on: a register, nginx in front of it as examples/nginx-ipamd.conf has it, and a browser. Between nginx and the register is a
relay, which can lose answers. conformance/page.sh says what is tested."""
import base64
import json
import os
import shutil
import signal
import socket
import ssl
import subprocess
import sys
import tempfile
import threading
import time
import urllib.error
import urllib.request

from selenium import webdriver
from selenium.common.exceptions import WebDriverException
from selenium.webdriver.chrome.options import Options
from selenium.webdriver.chrome.service import Service
from selenium.webdriver.common.action_chains import ActionChains
from selenium.webdriver.common.by import By
from selenium.webdriver.common.keys import Keys

TOP = os.path.dirname(os.path.dirname(os.path.abspath(__file__)))
PROGRAM = os.environ.get("IPAMD") or os.path.join(TOP, "crates/ipamd/out/ipamd")
POOLD = os.environ.get("POOLD") or os.path.join(TOP, "crates/poold/out/poold")
BASE = "/register/api/ipam/"
# PAGE_PATIENCE=10 lets everything take ten times as long, on a machine that does something else too.
PATIENCE = float(os.environ.get("PAGE_PATIENCE", "1"))


def fail(text):
    sys.exit(f"page: {text}")


def check(holds, text):
    if not holds:
        fail(text)


def wait(ask, what, seconds=20):
    """What `ask` gives once it gives something."""
    end = time.monotonic() + seconds * PATIENCE
    while time.monotonic() < end:
        found = ask()
        if found:
            return found
        time.sleep(0.05)
    fail(f"{what}: it did not come in {seconds * PATIENCE:.0f} seconds")


class Relay:
    """Passes connections on to the register. While `is_losing`, a POST, PATCH or DELETE is passed on, and its answer is not."""

    def __init__(self, port, inner):
        self.inner, self.is_losing, self.lost = inner, False, 0
        self.listener = socket.create_server(("127.0.0.1", port))
        threading.Thread(target=self.accept, daemon=True).start()

    def accept(self):
        while True:
            try:
                client, _ = self.listener.accept()
            except OSError:
                return
            try:
                server = socket.create_connection(("127.0.0.1", self.inner))
            except OSError:
                client.close()
                continue
            for one in (client, server):
                one.setsockopt(socket.IPPROTO_TCP, socket.TCP_NODELAY, 1)
            state = {"is_losing": False}
            threading.Thread(target=self.send, args=(client, server, state), daemon=True).start()
            threading.Thread(target=self.answer, args=(server, client, state), daemon=True).start()

    def send(self, client, server, state):
        """From nginx to the register."""
        while True:
            data = self.some(client)
            if self.is_losing and data.split(b" ", 1)[0] in (b"POST", b"PATCH", b"DELETE"):
                state["is_losing"] = True
            if not self.put(server, data):
                return

    def answer(self, server, client, state):
        """From the register to nginx; a lost answer closes the connection."""
        while True:
            data = self.some(server)
            if state["is_losing"] and data:
                self.lost += 1
                data = b""
            if not self.put(client, data):
                return

    def end(self):
        """Takes no more connections; the next stand listens on the same port."""
        self.listener.shutdown(socket.SHUT_RDWR)
        self.listener.close()

    @staticmethod
    def some(end):
        try:
            return end.recv(65536)
        except OSError:
            return b""

    @staticmethod
    def put(end, data):
        try:
            if data:
                end.sendall(data)
            else:
                end.shutdown(socket.SHUT_RDWR)
        except OSError:
            return False
        return bool(data)


class Stand:
    """A register in a file, or a given file, nginx on PORT, the relay on PORT + 1, the register on PORT + 2; pools, if they are asked for, on PORT + 3."""

    def __init__(self, port, database=None, has_pools=False):
        self.port, self.folder, self.has_pools = port, tempfile.mkdtemp(prefix="page-"), has_pools
        self.database = database or os.path.join(self.folder, "office.db")
        self.relay = Relay(port + 1, port + 2)
        self.server, self.pools, self.proxy, self.errors = None, None, None, open(os.path.join(self.folder, "messages"), "w")
        try:
            self.begin(port)
        except BaseException:
            self.end()
            raise

    def begin(self, port):
        self.start()
        if self.has_pools:
            self.start_pools()
        front = [os.path.join(TOP, "conformance/front.sh"), self.folder, str(port + 1), str(port)]
        self.write("register.readers", "clara yes;\n")
        environment = {**os.environ, "POOLS": str(port + 3) if self.has_pools else ""}
        self.proxy = subprocess.Popen(front, env=environment, stdout=self.errors, stderr=self.errors)
        wait(lambda: self.listens(port), "nginx")
        password = open(os.path.join(self.folder, "register.users")).read().split(":")[1]
        self.write("register.users", f"anna:{password}clara:{password}")
        self.token = open(os.path.join(self.folder, "token")).read().strip()
        self.url = f"https://localhost:{port}"

    def write(self, name, text):
        with open(os.path.join(self.folder, name), "w") as file:
            file.write(text)

    @staticmethod
    def listens(port):
        try:
            socket.create_connection(("127.0.0.1", port)).close()
            return True
        except OSError:
            return False

    def start(self):
        words = [PROGRAM, "serve", "--bind", f"127.0.0.1:{self.port + 2}", "--workers", "16", "--db", self.database]
        self.server = subprocess.Popen(words, stdout=subprocess.DEVNULL, stderr=self.errors, stdin=subprocess.DEVNULL)
        wait(lambda: self.listens(self.port + 2) or self.server.poll() is not None, "the register", 120)
        check(self.server.poll() is None, f"the register ends: {open(self.errors.name).read()}")

    def start_pools(self):
        words = [POOLD, "serve", "--bind", f"127.0.0.1:{self.port + 3}", "--workers", "16", "--db", os.path.join(self.folder, "pools.db")]
        self.pools = subprocess.Popen(words, stdout=subprocess.DEVNULL, stderr=self.errors, stdin=subprocess.DEVNULL)
        wait(lambda: self.listens(self.port + 3), "the pools", 120)

    def kill(self):
        self.server.send_signal(signal.SIGKILL)
        self.server.wait()

    def end(self):
        for process in filter(None, (self.server, self.pools, self.proxy)):
            process.terminate()
            process.wait()
        self.relay.end()
        self.errors.close()
        # what it wrote stays if a test failed
        if sys.exc_info()[0] is None:
            shutil.rmtree(self.folder, ignore_errors=True)

    def ask(self, method, path, body=None, user="anna", base=BASE, **headers):
        """The status and the value of an answer through nginx, without a browser."""
        data = None if body is None else json.dumps(body).encode()
        request = urllib.request.Request(f"{self.url}{base}{path}", data, method=method)
        request.add_header("Authorization", "Basic " + base64.b64encode(f"{user}:secret".encode()).decode())
        for name, value in headers.items():
            request.add_header(name.replace("_", "-"), value)
        context = ssl._create_unverified_context()
        try:
            with urllib.request.urlopen(request, context=context) as answer:
                text = answer.read()
                return answer.status, json.loads(text) if text else None
        except urllib.error.HTTPError as answer:
            return answer.code, json.loads(answer.read() or b"null")

    def make(self, path, body):
        status, value = self.ask("POST", path, body)
        check(status == 201, f"{path} {body}: {status} {value}")
        return value

    def rows(self, path):
        return self.ask("GET", path)[1]["results"]


class Browser:
    """Chromium with the page of a stand open. Elements are found as people find them: by the texts of buttons, links and labels."""

    def __init__(self, url, user="anna", size=(1360, 860), dark=False, scale=1):
        options = Options()
        for word in ("--headless=new", "--no-sandbox", "--disable-dev-shm-usage", "--ignore-certificate-errors", "--hide-scrollbars", "--lang=en"):
            options.add_argument(word)
        options.set_capability("goog:loggingPrefs", {"browser": "ALL"})
        self.driver = self.started(options)
        self.driver.set_script_timeout(60 * PATIENCE)
        self.size(*size, scale)
        if dark:
            self.devtools("Emulation.setEmulatedMedia", features=[{"name": "prefers-color-scheme", "value": "dark"}])
        self.base = url
        if user:
            self.driver.get(url.replace("://", f"://{user}:secret@") + "/web/")
            self.settle()

    @staticmethod
    def started(options):
        """Chromium; on a busy machine it may not begin in the time that its driver gives it."""
        for _ in range(4):
            try:
                return webdriver.Chrome(options=options, service=Service("/usr/bin/chromedriver"))
            except WebDriverException as fault:
                said = fault
        fail(f"chromium does not begin: {said}")

    def devtools(self, command, **words):
        return self.driver.execute_cdp_cmd(command, words)

    def size(self, width, height, scale=1):
        self.devtools("Emulation.setDeviceMetricsOverride", width=width, height=height, deviceScaleFactor=scale, mobile=False)

    def run(self, script, *words):
        return self.driver.execute_script(script, *words)

    def settle(self):
        """Waits until the view is there whole."""
        wait(lambda: self.run("return document.readyState === 'complete' && document.querySelector('#view').children.length > 0"
                              " && !document.querySelector('[aria-busy=true]')"), f"the view {self.driver.current_url}")
        time.sleep(0.15)

    def go(self, view):
        self.driver.get(f"{self.base}/web/#/{view}")
        self.settle()

    def text(self, selector="body"):
        return self.run("return [...document.querySelectorAll(arguments[0])].map((one) => one.innerText).join('\\n')", selector)

    def says(self, text, selector="body", seconds=20):
        """Waits until the page, or a part of it, has a text."""
        wait(lambda: text in self.text(selector), f"'{text}' in {self.text(selector)!r}", seconds)

    def find(self, words, what="a, button"):
        """The element that can be seen with these words, in the dialog if one is open."""
        def look():
            return self.run("""
                const place = document.querySelector("dialog[open]") ?? document;
                const named = (one) => [one.innerText.trim(), one.getAttribute("aria-label")].includes(arguments[0]);
                return [...place.querySelectorAll(arguments[1])].find((one) => named(one) && one.getClientRects().length > 0) ?? null;""", words, what)
        return wait(look, f"'{words}'")

    def click(self, words, what="a, button"):
        self.find(words, what).click()

    def has(self, words, what="a, button"):
        return self.run("return [...document.querySelectorAll(arguments[1])].some((one) => one.innerText.trim() === arguments[0])", words, what)

    def field(self, label):
        """The input with a label."""
        def look():
            return self.run("""
                const place = document.querySelector("dialog[open]") ?? document;
                const label = [...place.querySelectorAll("label")].find((one) => one.innerText.replace("*", "").trim() === arguments[0]);
                return label?.control ?? null;""", label)
        return wait(look, f"the field '{label}'")

    def put(self, label, value):
        """Writes into a field, chooses in it, or ticks it."""
        field = self.field(label)
        if field.tag_name == "select":
            field.find_element(By.XPATH, f'./option[normalize-space()="{value}"]').click()
        elif field.get_attribute("type") == "checkbox":
            if field.is_selected() != value:
                field.click()
        else:
            field.send_keys(Keys.CONTROL, "a")
            field.send_keys(Keys.DELETE)
            field.send_keys(value)

    def send(self, words, **values):
        """Fills the form of the dialog and sends it."""
        for label, value in values.items():
            self.put(label, value)
        self.click(words, "button")

    def closed(self):
        """Waits until no dialog is open, and the view is there again."""
        wait(lambda: self.run("return !document.querySelector('dialog[open]')"), f"the dialog: {self.text('dialog')}")
        self.settle()

    def keys(self, *some):
        ActionChains(self.driver).send_keys(*some).perform()

    def faults(self):
        """What the browser complained about."""
        return [line["message"] for line in self.driver.get_log("browser") if line["level"] in ("SEVERE", "WARNING")]

    def picture(self, path):
        self.driver.save_screenshot(path)

    def end(self):
        self.driver.quit()
