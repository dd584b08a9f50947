"""Chromium and Firefox without a window and, where that is allowed, without a network: the page is opened from its folder.

Chromium is driven by selenium, Firefox by its own wire (Marionette), since Debian has no driver for it. Where a program is missing the
script ends with 77 and says which.
"""
import base64
import ctypes
import fcntl
import json
import os
import pathlib
import shutil
import socket
import struct
import subprocess
import sys
import tempfile
import time

PAGE = (pathlib.Path(__file__).resolve().parents[2] / "page" / "index.html").as_uri()
DEBIANS = "/usr/bin/python3"


def skip(reason):
    print(reason)
    sys.exit(77)


def program(name):
    return shutil.which(name) or skip(f"there is no {name} here")


def leave_network():
    """A network namespace of this process's own, with nothing but itself in it; where that isn't allowed all stays as it is."""
    if ctypes.CDLL(None, use_errno=True).unshare(0x40000000) != 0:
        return
    with socket.socket(socket.AF_INET, socket.SOCK_DGRAM) as it:
        fcntl.ioctl(it, 0x8914, struct.pack("16sh14x", b"lo", 0x41))


def selenium():
    """The package, from this interpreter or from Debian's."""
    try:
        import selenium.webdriver
    except ImportError:
        if sys.executable == DEBIANS or not os.path.exists(DEBIANS):
            skip("there is no selenium for python here")
        os.execv(DEBIANS, [DEBIANS, "-B", *sys.argv])
    return selenium.webdriver


class Chromium:
    """A window of Chromium, as wide as is told, in a light scheme or a dark one. Without a solver the page asks nothing meanwhile."""

    def __init__(self, has_solver=False):
        webdriver = selenium()
        from selenium.webdriver.chrome.service import Service

        options = webdriver.ChromeOptions()
        options.binary_location = program("chromium")
        for word in ("--headless=new", "--no-sandbox", "--disable-gpu", "--hide-scrollbars", "--disable-dev-shm-usage", "--window-size=1280,900"):
            options.add_argument(word)
        options.set_capability("goog:loggingPrefs", {"browser": "ALL"})
        leave_network()
        self.driver = webdriver.Chrome(service=Service(program("chromedriver")), options=options)
        self.driver.set_script_timeout(120)
        self.forget = lambda: None
        self.stored()
        if not has_solver:
            self.before("WebAssembly.validate = () => false")

    def __enter__(self):
        return self

    def __exit__(self, *_):
        self.driver.quit()

    def size(self, width, height=900):
        told = {"width": width, "height": height, "deviceScaleFactor": 1, "mobile": width < 500}
        self.driver.execute_cdp_cmd("Emulation.setDeviceMetricsOverride", told)

    def scheme(self, name):
        features = [{"name": "prefers-color-scheme", "value": name}, {"name": "prefers-reduced-motion", "value": "reduce"}]
        self.driver.execute_cdp_cmd("Emulation.setEmulatedMedia", {"features": features})

    def before(self, source):
        """A script that runs before those of each page, until what this hands over is called."""
        told = self.driver.execute_cdp_cmd("Page.addScriptToEvaluateOnNewDocument", {"source": source})
        return lambda: self.driver.execute_cdp_cmd("Page.removeScriptToEvaluateOnNewDocument", told)

    def stored(self, value=None):
        """What the browser keeps of earlier visits when a page is opened: nothing but this, or whatever the page left there."""
        self.keep()
        told = f"localStorage.setItem('luffaknife', {json.dumps(json.dumps(value))})" if value else ""
        self.forget = self.before(f"try {{ localStorage.clear(); {told} }} catch {{}}")

    def keep(self):
        """From now on the browser keeps what the page left there."""
        self.forget()
        self.forget = lambda: None

    def open(self, fragment="", all_rows=False):
        """The page with this fragment, loaded anew, with the row of its deal, or with all."""
        self.driver.get("about:blank")
        self.driver.get(PAGE + fragment)
        self.wait("return document.readyState === 'complete' && !rows.isAwaited(store.now().deal)")
        if all_rows:
            self.run("rows.askAll()")
            self.wait("return rows.isWhole()")

    def wait(self, condition, seconds=20):
        end = time.monotonic() + seconds
        while not self.run(condition):
            if time.monotonic() > end:
                raise TimeoutError(condition)
            time.sleep(0.02)

    def run(self, script, *given):
        return self.driver.execute_script(script, *given)

    def run_async(self, script, *given):
        """What an async function with this body hands over."""
        return self.driver.execute_async_script(f"const end = arguments[arguments.length - 1], given = [...arguments]; (async () => {{ {script} }})().then(end);", *given)

    def picture(self, path, width):
        """The whole page, not only what the window shows."""
        self.size(width, self.run("return document.documentElement.scrollHeight"))
        self.driver.save_screenshot(path)
        self.size(width)

    def console(self):
        return [it["message"] for it in self.driver.get_log("browser")]


class Firefox:
    """A window of Firefox."""

    def __init__(self):
        path = program("firefox-esr")
        leave_network()
        self.folder = tempfile.TemporaryDirectory(prefix="page-", ignore_cleanup_errors=True)
        with open(f"{self.folder.name}/user.js", "w", encoding="utf-8") as it:
            for name, value in {"marionette.port": 0, "ui.prefersReducedMotion": 1, "browser.shell.checkDefaultBrowser": False, "datareporting.policy.dataSubmissionEnabled": False}.items():
                it.write(f"user_pref({json.dumps(name)}, {json.dumps(value)});\n")
        words = [path, "--headless", "--marionette", "--remote-allow-system-access", "--no-remote", "--profile", self.folder.name]
        self.process = subprocess.Popen(words, stdout=subprocess.DEVNULL, stderr=subprocess.DEVNULL, env={**os.environ, "HOME": self.folder.name})
        self.number, port = 0, f"{self.folder.name}/MarionetteActivePort"
        end = time.monotonic() + 60
        while not os.path.exists(port) or not os.path.getsize(port):
            if time.monotonic() > end or self.process.poll() is not None:
                raise TimeoutError("Firefox doesn't begin")
            time.sleep(0.05)
        with open(port, encoding="utf-8") as it:
            self.wire = socket.create_connection(("127.0.0.1", int(it.read())), timeout=60)
        self.heard()
        self.ask("WebDriver:NewSession", capabilities={})

    def __enter__(self):
        return self

    def __exit__(self, *_):
        self.ask("Marionette:Quit", flags=["eForceQuit"])
        self.wire.close()
        self.process.wait(30)
        self.folder.cleanup()

    def heard(self):
        size = b""
        while not size.endswith(b":"):
            size += self.wire.recv(1)
        told = b""
        while len(told) < int(size[:-1]):
            told += self.wire.recv(int(size[:-1]) - len(told))
        return json.loads(told)

    def ask(self, name, **given):
        self.number += 1
        told = json.dumps([0, self.number, name, given]).encode()
        self.wire.sendall(b"%d:%s" % (len(told), told))
        _, _, fault, result = self.heard()
        if fault:
            raise RuntimeError(f"{name}: {fault['message']}")
        return result

    def open(self, fragment=""):
        self.ask("WebDriver:Navigate", url=PAGE + fragment)

    def run(self, script):
        return self.ask("WebDriver:ExecuteScript", script=script, args=[])["value"]

    def element(self, selector):
        return [*self.ask("WebDriver:FindElement", using="css selector", value=selector)["value"].values()][0]

    def click(self, selector):
        self.ask("WebDriver:ElementClick", id=self.element(selector))

    def type(self, selector, text):
        self.ask("WebDriver:ElementSendKeys", id=self.element(selector), text=text)

    def picture(self, path):
        with open(path, "wb") as it:
            it.write(base64.b64decode(self.ask("WebDriver:TakeScreenshot", full=True)["value"]))

    def console(self):
        """What the console has of the page."""
        self.ask("Marionette:SetContext", value="chrome")
        told = self.run("return Services.console.getMessageArray().map(it => [it.sourceName ?? '', String(it.message)])")
        self.ask("Marionette:SetContext", value="content")
        return [message for source, message in told if "/page/" in source + message]
