"""The page in a browser that is driven, and a server for it."""
import base64
import http.server
import json
import pathlib
import shutil
import socket
import subprocess
import tempfile
import time

class Quiet(http.server.SimpleHTTPRequestHandler):
    asked = []

    def log_message(self, *words):
        Quiet.asked.append(self.path)


class Browser:
    """The page in a browser that is driven."""

    def __init__(self, page):
        from selenium import webdriver
        from selenium.webdriver.chrome.options import Options
        from selenium.webdriver.chrome.service import Service

        options = Options()
        for word in ("headless=new", "no-sandbox", "disable-gpu", "hide-scrollbars", "disable-dev-shm-usage"):
            options.add_argument(f"--{word}")
        options.set_capability("goog:loggingPrefs", {"browser": "ALL", "performance": "ALL"})
        self.driver = webdriver.Chrome(service=Service(shutil.which("chromedriver")), options=options)
        self.driver.set_script_timeout(60)
        self.address = f"file://{page}"

    def load(self, after="", address=None):
        self.go("about:blank")
        self.go((address or self.address) + after)
        self.wait("return window.page !== undefined")

    def go(self, address):
        self.driver.get(address)

    def quit(self):
        self.driver.quit()

    def wait(self, script, seconds=10):
        end = time.time() + seconds
        while time.time() < end:
            if self.run(script):
                return True
            time.sleep(0.02)
        return False

    def run(self, script, *words):
        return self.driver.execute_script(script, *words)

    def call(self, method, **words):
        return self.driver.execute_cdp_cmd(method, words)

    def open(self, octets, name="a file"):
        """Gives the page a file, as a drop does."""
        self.run(
            "page.openOctets(arguments[1], Uint8Array.from(atob(arguments[0]), (c) => c.charCodeAt(0)))",
            base64.b64encode(octets).decode(),
            name,
        )

    def paste(self, text):
        self.run(
            "const box = document.getElementById('text'); box.value = arguments[0];"
            "document.getElementById('outcome').className = ''; box.dispatchEvent(new Event('input'))",
            text,
        )
        self.wait("return document.getElementById('outcome').className !== ''")

    def example(self, name):
        self.press("#examples", name)

    def press(self, where, text):
        """Clicks the button with this text."""
        self.run(
            "const buttons = [...document.querySelectorAll(`${arguments[0]} button`)];"
            "buttons.find((button) => button.textContent === arguments[1]).click()",
            where,
            text,
        )

    def point(self, element):
        """Moves the mouse to an element, which is an expression."""
        self.run(f"{element}.dispatchEvent(new MouseEvent('mousemove', {{ bubbles: true }}))")

    def drop(self, fill):
        """Drops what these statements put into a transfer."""
        self.run(
            f"const transfer = new DataTransfer(); {fill};"
            "dispatchEvent(new DragEvent('drop', { dataTransfer: transfer, cancelable: true }))"
        )

    def details(self):
        """What is said of the selected element."""
        return self.run(
            "const terms = [...document.querySelectorAll('#details dt')];"
            "return Object.fromEntries(terms.map((t) => [t.textContent, t.nextElementSibling.textContent]))"
        )

    def select(self, offset):
        """Selects the innermost element with an octet, and returns its details."""
        self.run("page.tree.select(page.items.at(page.shown, arguments[0]))", offset)
        return self.details()

    def seen(self, where):
        """The text of an element as a person sees it: nothing of what is hidden or has no height."""
        return self.run(
            "const element = document.querySelector(arguments[0]);"
            "return element.checkVisibility() && element.getBoundingClientRect().height > 0 ? element.innerText : ''",
            where,
        )

    def outcome(self):
        return self.run("return document.getElementById('outcome').textContent")

    def tree(self, scope="input"):
        return self.run("return page.textToCopy('tree', arguments[0])", scope)

    def copy(self, kind, scope="input"):
        return self.run("return page.textToCopy(arguments[0], arguments[1])", kind, scope)

    def keys(self, *keys):
        from selenium.webdriver.common.action_chains import ActionChains

        ActionChains(self.driver).send_keys(*keys).perform()

    def focus(self):
        return self.run("return document.activeElement.id || document.activeElement.textContent")

    def size(self, width, height, is_phone, is_dark=False):
        sizes = {"width": width, "height": height, "deviceScaleFactor": 1, "mobile": is_phone}
        self.call("Emulation.setDeviceMetricsOverride", **sizes)
        self.call("Emulation.setTouchEmulationEnabled", enabled=is_phone)
        scheme = {"name": "prefers-color-scheme", "value": "dark" if is_dark else "light"}
        self.call("Emulation.setEmulatedMedia", features=[scheme])

    def picture(self, path):
        time.sleep(0.15)
        self.driver.save_screenshot(str(path))

    def marked(self, name):
        """The octets that are marked so."""
        return self.run(
            "return [...document.querySelectorAll(`#octets .octets:not([hidden]) u.${arguments[0]}`)]"
            ".map((cell) => Number(cell.dataset.offset))",
            name,
        )

    def complaints(self):
        """What the browser logs, as each request that a policy forbids."""
        return [entry["message"] for entry in self.driver.get_log("browser")]

    def requests(self):
        """The addresses that the browser asked for since the last call."""
        entries = [json.loads(entry["message"])["message"] for entry in self.driver.get_log("performance")]
        sent = [entry["params"] for entry in entries if entry["method"] == "Network.requestWillBeSent"]
        addresses = [entry["request"]["url"] for entry in sent]
        return [address for address in addresses if not address.startswith(("data:", "about:"))]


class Firefox(Browser):
    """The page in Firefox, over Firefox's own protocol (Marionette), since Debian has no driver for it."""

    def __init__(self, page):
        self.profile = tempfile.mkdtemp(prefix="page-firefox-")
        port = free_port()
        preferences = f'user_pref("marionette.port", {port});\n'
        pathlib.Path(self.profile, "user.js").write_text(preferences)
        command = [firefox(), "--headless", "--marionette", "--no-remote", "--profile", self.profile]
        self.process = subprocess.Popen(command, stdout=subprocess.DEVNULL, stderr=subprocess.DEVNULL)
        self.stream = connect(port, 60).makefile("rwb")
        self.receive()
        self.count = 0
        self.ask("WebDriver:NewSession")
        self.address = f"file://{page}"

    def receive(self):
        """A message is its length, a colon, and JSON."""
        length = b""
        while not length.endswith(b":"):
            octet = self.stream.read(1)
            if not octet:
                raise ConnectionError("Firefox ended")
            length += octet
        return json.loads(self.stream.read(int(length[:-1])))

    def ask(self, command, **words):
        self.count += 1
        message = json.dumps([0, self.count, command, words]).encode()
        self.stream.write(b"%d:%s" % (len(message), message))
        self.stream.flush()
        _, _, fault, result = self.receive()
        if fault:
            raise RuntimeError(f"{command}: {fault['message']}")
        return result

    def go(self, address):
        self.ask("WebDriver:Navigate", url=address)

    def size(self, width, height, is_phone, is_dark=False):
        self.ask("WebDriver:SetWindowRect", width=width, height=height)

    def run(self, script, *words):
        return self.ask("WebDriver:ExecuteScript", script=script, args=list(words))["value"]

    def picture(self, path):
        picture = self.ask("WebDriver:TakeScreenshot", full=False)["value"]
        pathlib.Path(path).write_bytes(base64.b64decode(picture))

    def quit(self):
        self.process.terminate()
        self.process.wait()
        shutil.rmtree(self.profile, ignore_errors=True)


def firefox():
    """The path of Firefox, or None."""
    return shutil.which("firefox-esr") or shutil.which("firefox")


def free_port():
    with socket.socket() as it:
        it.bind(("127.0.0.1", 0))
        return it.getsockname()[1]


def connect(port, seconds):
    end = time.time() + seconds
    while True:
        try:
            return socket.create_connection(("127.0.0.1", port))
        except ConnectionRefusedError:
            if time.time() > end:
                raise
            time.sleep(0.1)
