"""The pictures of README and docs, of the register of examples/demo.sh, which is tried thereby; and the page in Firefox, by a picture and by what it shows.
Pictures are put into FOLDER, docs/ by default: PAGE_PICTURES=FOLDER."""
import base64
import json
import os
import shutil
import signal
import socket
import subprocess
import tempfile
import time

from conformance.page_stand import PATIENCE, PROGRAM, TOP, Browser, check, wait

FOLDER = os.environ.get("PAGE_PICTURES") or os.path.join(TOP, "docs")
MOST_BYTES = 200_000


class Demo:
    """examples/demo.sh, and how it ends."""

    def __init__(self, port):
        words = [os.path.join(TOP, "examples/demo.sh"), str(port)]
        # a shell that starts this in the background has it ignored
        signal.signal(signal.SIGINT, signal.default_int_handler)
        self.process = subprocess.Popen(words, env={**os.environ, "IPAMD": PROGRAM}, stdout=subprocess.PIPE, text=True)
        self.url = f"http://127.0.0.1:{port}"
        line = self.process.stdout.readline()
        check(self.url in line, f"demo.sh says {line!r}")

    def end(self):
        self.process.send_signal(signal.SIGINT)
        check(self.process.wait(20 * PATIENCE) == 0, f"demo.sh ends with {self.process.returncode}")


def unbuilt():
    """Without a program examples/demo.sh says how long it takes to build one before it begins."""
    with tempfile.TemporaryDirectory() as folder:
        os.mkdir(os.path.join(folder, "examples"))
        shutil.copy(os.path.join(TOP, "examples/demo.sh"), os.path.join(folder, "examples"))
        with open(os.path.join(folder, "build"), "w") as file:
            file.write("#!/bin/sh\nexit 70\n")
        os.chmod(file.name, 0o755)
        given = {name: value for name, value in os.environ.items() if name != "IPAMD"}
        done = subprocess.run([os.path.join(folder, "examples/demo.sh")], env=given, capture_output=True, text=True)
        check(done.returncode == 70 and "Building it takes about half an hour" in done.stderr, f"demo.sh without a program: {done}")


def save(path):
    size = os.path.getsize(path)
    check(size < MOST_BYTES, f"{path} has {size} bytes")


def picture(page, name):
    time.sleep(0.5)
    path = os.path.join(FOLDER, f"page-{name}.png")
    page.picture(path)
    save(path)


def figures(page):
    """Waits for the bars of utilisation."""
    wait(lambda: page.run("return document.querySelectorAll('.bar').length > 0 && !document.querySelector('.bar.waiting')"), "the bars")


def pictures(url):
    page = Browser(url, user=None, size=(1280, 800))
    page.go("plan")
    figures(page)
    picture(page, "plan")
    page.click("10.20.1.0/24", "[role=treegrid] a")
    page.settle()
    picture(page, "prefix")
    page.click("Next free address")
    page.send("Claim", **{"DNS name": "desk-38.example.net", "Description": "new desk"})
    page.says("It is yours")
    picture(page, "claim")
    page.click("Done")
    page.closed()
    page.end()
    page = Browser(url, user=None, size=(1280, 800), dark=True)
    page.go("plan/global?at=10.30.0.0/16")
    page.click("10.30.0.0/16", "[role=treegrid] a")
    page.settle()
    picture(page, "dark")
    page.end()
    page = Browser(url, user=None, size=(390, 844), scale=2)
    page.go("plan")
    figures(page)
    picture(page, "narrow")
    page.end()


class Firefox:
    """Firefox without a window, by Marionette, which speaks in JSON behind its length."""

    def __init__(self, port):
        self.profile, self.count = tempfile.mkdtemp(prefix="page-firefox-"), 0
        with open(os.path.join(self.profile, "user.js"), "w") as file:
            for name, value in (("marionette.port", port), ("browser.shell.checkDefaultBrowser", False), ("datareporting.policy.dataSubmissionEnabled", False)):
                file.write(f'user_pref("{name}", {json.dumps(value)});\n')
        words = ["firefox-esr", "--headless", "--no-remote", "--marionette", "--profile", self.profile]
        environment = {**os.environ, "HOME": self.profile, "MOZ_HEADLESS_WIDTH": "1280", "MOZ_HEADLESS_HEIGHT": "885"}
        self.process = subprocess.Popen(words, env=environment, stdout=subprocess.DEVNULL, stderr=subprocess.DEVNULL)
        self.socket = wait(lambda: self.connect(port), "Firefox", 60)
        self.file = self.socket.makefile("rb")
        self.read()
        self.ask("WebDriver:NewSession", {})

    @staticmethod
    def connect(port):
        try:
            return socket.create_connection(("127.0.0.1", port))
        except OSError:
            return None

    def read(self):
        length = b""
        while (byte := self.file.read(1)) != b":":
            length += byte
        return json.loads(self.file.read(int(length)))

    def ask(self, command, words):
        self.count += 1
        text = json.dumps([0, self.count, command, words]).encode()
        self.socket.sendall(b"%d:%s" % (len(text), text))
        _, _, fault, value = self.read()
        check(fault is None, f"Firefox, {command}: {fault}")
        return value

    def run(self, script):
        return self.ask("WebDriver:ExecuteScript", {"script": script, "args": []})["value"]

    def end(self):
        self.process.terminate()
        self.process.wait(20)
        shutil.rmtree(self.profile, ignore_errors=True)


def in_firefox(url, port):
    firefox = Firefox(port)
    firefox.ask("WebDriver:Navigate", {"url": f"{url}/web/#/plan"})
    wait(lambda: firefox.run("return document.querySelectorAll('.rows [role=row]').length > 10 && !document.querySelector('.bar.waiting')"),
        "the tree in Firefox", 30)
    firefox.run("[...document.querySelectorAll('.tree a')].find((one) => one.textContent === '10.20.1.0/24').click()")
    wait(lambda: firefox.run("return document.querySelectorAll('.map .stop').length === 256"), "the map in Firefox", 30)
    firefox.run("[...document.querySelectorAll('button')].find((one) => one.textContent === 'Next free address').click()")
    wait(lambda: firefox.run("return Boolean(document.querySelector('dialog[open] [type=submit]'))"), "the dialog in Firefox")
    firefox.run("document.querySelector('dialog[open] [type=submit]').click()")
    wait(lambda: firefox.run("return document.querySelector('.claimed')?.innerText.includes('10.20.1.4')"), "the claim in Firefox")
    path = os.path.join(FOLDER, "page-firefox.png")
    with open(path, "wb") as file:
        file.write(base64.b64decode(firefox.ask("WebDriver:TakeScreenshot", {"full": False})["value"]))
    save(path)
    firefox.end()


def run_alone(port):
    unbuilt()
    demo = Demo(port + 10)
    try:
        pictures(demo.url)
        in_firefox(demo.url, port + 12)
    finally:
        demo.end()
    print("examples/demo.sh: a register with its page, and nothing left of it; the pictures of docs; in Firefox the tree, a map and a claim")
