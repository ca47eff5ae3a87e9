"""The page in a browser: in Chromium by python3-selenium, and in Firefox by its own remote protocol, Marionette."""
import base64
import json
import os
import shutil
import socket
import subprocess
import sys
import tempfile
import time

from tests.page.page_tools import faults, same

SYSTEM = "/usr/bin/python3"
PACKAGES = "Debian's packages are chromium, chromium-driver and python3-selenium"

try:
    from selenium import webdriver
    from selenium.common.exceptions import SessionNotCreatedException
    from selenium.webdriver.chrome.service import Service
    from selenium.webdriver.common.action_chains import ActionChains
    from selenium.webdriver.common.keys import Keys
except ImportError:
    # the system's Python has the package, if another one comes first
    if os.path.exists(SYSTEM) and os.path.realpath(sys.executable) != os.path.realpath(SYSTEM):
        os.execv(SYSTEM, [SYSTEM, "-m", sys.modules["__main__"].__spec__.name, *sys.argv[1:]])
    sys.exit(f"not run, as python3-selenium is missing; {PACKAGES}")

if not all(os.path.exists(path) for path in ("/usr/bin/chromium", "/usr/bin/chromedriver")):
    sys.exit(f"not run, as chromium or chromedriver is missing; {PACKAGES}")

# how long a browser may take, in seconds, where the machine does other work too
PATIENCE = 300
# the module has been compiled, and the page is shown
READY = "return document.body?.classList.contains('ready') ?? false"
# two frames later the page has been laid out and drawn
SETTLED = "const done = arguments[arguments.length - 1]; requestAnimationFrame(() => requestAnimationFrame(() => done()));"


class Browser:
    """What both browsers have: a `with` starts one with a page, and ends it."""

    def __enter__(self):
        return self

    def __exit__(self, *_):
        self.quit()

    def load(self, path):
        self.path = path
        self.open("")

    def sizes(self, sizes):
        """The sizes of a window that the browser can have."""
        return sizes

    def back(self):
        self.run("history.back()")

    def wait(self, script, *words):
        """Waits until a script gives true."""
        end = time.monotonic() + PATIENCE
        while not self.run(script, *words):
            if time.monotonic() > end:
                raise TimeoutError(f"{self.name} does not come to: {script} {words}")
            time.sleep(0.02)


class Chromium(Browser):
    name = "Chromium"

    def __init__(self, text=16):
        """`text` is the size of text that the browser is set to, in pixels."""
        options = webdriver.ChromeOptions()
        options.add_experimental_option("prefs", {"webkit": {"webprefs": {"default_font_size": text}}})
        for word in ("--headless=new", "--no-sandbox", "--disable-dev-shm-usage", "--disable-gpu", "--disable-ipc-flooding-protection"):
            options.add_argument(word)
        options.set_capability("goog:loggingPrefs", {"browser": "ALL"})
        self.driver = self.begin(options)
        self.driver.set_script_timeout(PATIENCE)
        self.driver.execute_cdp_cmd("Performance.enable", {"timeDomain": "threadTicks"})
        self.size(1366, 768)

    def begin(self, options):
        """Starts the browser. The driver gives up after a minute, which a busy machine can need for other work: then once more."""
        end = time.monotonic() + PATIENCE
        while True:
            try:
                return webdriver.Chrome(service=Service("/usr/bin/chromedriver"), options=options)
            except SessionNotCreatedException:
                if time.monotonic() > end:
                    raise

    def open(self, address):
        self.driver.get("about:blank")
        self.driver.get(f"file://{self.path}{address}")
        self.wait(READY)

    def size(self, width, height, scale=1):
        metrics = {"width": width, "height": height, "deviceScaleFactor": scale, "mobile": False}
        self.driver.execute_cdp_cmd("Emulation.setDeviceMetricsOverride", metrics)
        self.settle()

    def media(self, medium="", scheme="light"):
        features = [{"name": "prefers-color-scheme", "value": scheme}]
        self.driver.execute_cdp_cmd("Emulation.setEmulatedMedia", {"media": medium, "features": features})
        self.settle()

    def run(self, script, *words):
        return self.driver.execute_script(script, *words)

    def settle(self):
        self.driver.execute_async_script(SETTLED)

    def type(self, *keys):
        for key in keys:
            ActionChains(self.driver, duration=0).send_keys(key).perform()

    def press(self, wanted):
        """Goes by the tabulator to the button with this id or text, and presses it by Enter."""
        for _ in range(60):
            self.type(Keys.TAB)
            if wanted in self.run("return [document.activeElement.id, document.activeElement.textContent]"):
                return self.type(Keys.ENTER)
        raise TimeoutError(f"the tabulator does not come to {wanted}")

    def click(self, name):
        self.driver.find_element("id", name).click()

    def picture(self, path):
        self.driver.save_screenshot(path)

    def paper(self):
        """The page as it is printed, as PDF."""
        printed = self.driver.execute_cdp_cmd("Page.printToPDF", {"preferCSSPageSize": True, "printBackground": True})
        return base64.b64decode(printed["data"])

    def roles(self):
        """What is not ignored of the accessibility tree, as pairs of a role and a name."""
        nodes = self.driver.execute_cdp_cmd("Accessibility.getFullAXTree", {})["nodes"]
        return [tuple(node.get(what, {}).get("value", "") for what in ("role", "name")) for node in nodes if not node["ignored"]]

    def busy(self):
        """How many milliseconds of the processor the page has taken, with its layout and its drawing."""
        metrics = self.driver.execute_cdp_cmd("Performance.getMetrics", {})["metrics"]
        return 1000 * next(metric["value"] for metric in metrics if metric["name"] == "TaskDuration")

    def quit(self):
        """The page has made no errors, and loaded no files."""
        faults.extend(f"the console: {entry['message']}" for entry in self.driver.get_log("browser") if entry["level"] == "SEVERE")
        same("files that the page loads", self.run("return performance.getEntriesByType('resource').length"), 0)
        self.driver.quit()


def firefox():
    """Where Firefox is installed, if it is."""
    return shutil.which("firefox-esr") or shutil.which("firefox")


class Firefox(Browser):
    """The same for Firefox, as far as it is needed. Its window is at least 500 pixels wide, so the page is a frame in it."""

    name = "Firefox"

    def __init__(self, zoom=1):
        self.home = tempfile.mkdtemp()
        with socket.socket() as free:
            free.bind(("127.0.0.1", 0))
            port = free.getsockname()[1]
        with open(os.path.join(self.home, "user.js"), "w", encoding="ascii") as out:
            out.write(f'user_pref("marionette.port", {port});\nuser_pref("layout.css.devPixelsPerPx", "{zoom}");\n')
            out.write('user_pref("browser.shell.checkDefaultBrowser", false);\nuser_pref("security.fileuri.strict_origin_policy", '
                      'false);\n')
        self.zoom, self.window, self.framed = zoom, (1366, 768), (0, 0)
        words = [firefox(), "--headless", "--marionette", "--no-remote", "--profile", self.home]
        self.process = subprocess.Popen(words, stdout=subprocess.DEVNULL, stderr=subprocess.DEVNULL, env={**os.environ, "HOME": self.home})
        self.socket, self.rest, self.number = self.reach(port), b"", 0
        self.receive()
        self.send("WebDriver:NewSession", {"timeouts": {"script": 1000 * PATIENCE}})

    def reach(self, port):
        end = time.monotonic() + PATIENCE
        while time.monotonic() < end and self.process.poll() is None:
            try:
                return socket.create_connection(("127.0.0.1", port))
            except OSError:
                time.sleep(0.2)
        raise OSError("Firefox does not answer")

    def receive(self):
        while b":" not in self.rest:
            self.rest += self.socket.recv(65536)
        count, _, self.rest = self.rest.partition(b":")
        while len(self.rest) < int(count):
            self.rest += self.socket.recv(65536)
        text, self.rest = self.rest[:int(count)], self.rest[int(count):]
        return json.loads(text)

    def send(self, command, words):
        self.number += 1
        text = json.dumps([0, self.number, command, words]).encode()
        self.socket.sendall(str(len(text)).encode() + b":" + text)
        _, _, fault, result = self.receive()
        if fault:
            raise RuntimeError(f"{command}: {fault['error']}: {fault['message']}")
        return result

    def sizes(self, sizes):
        return [one for one in sizes if one[2] == self.zoom]

    def size(self, width, height, scale=1):
        """The size of the frame that the next page is opened in. A dot is what `zoom` of the browser makes it."""
        self.window = width, height

    def open(self, address):
        width, height = self.window
        path = os.path.join(self.home, "frame.html")
        with open(path, "w", encoding="ascii") as out:
            out.write(f'<body style="margin: 0"><iframe src="file://{self.path}{address}" style="width: {width}px; height: {height}px; '
                      f'border: 0"></iframe>')
        if self.window != self.framed:
            self.send("WebDriver:SetWindowRect", {"width": max(width + 40, 500), "height": height + 120})
            self.framed = self.window
        self.send("WebDriver:Navigate", {"url": "file://" + path})
        self.send("WebDriver:SwitchToFrame", {"id": 0})
        if self.run("window.focus(); return innerWidth") != width:
            raise RuntimeError(f"the frame is not {width} wide")
        self.wait(READY)

    def type(self, *keys):
        acts = [{"type": kind, "value": key} for key in keys for kind in ("keyDown", "keyUp")]
        self.send("WebDriver:PerformActions", {"actions": [{"type": "key", "id": "keys", "actions": acts}]})

    def busy(self):
        """The clock, in milliseconds."""
        return 1000 * time.monotonic()

    def run(self, script, *words):
        """Runs a script where the page's own scripts run; Marionette would run it where it sees none of their variables."""
        text = f"JSON.stringify((function () {{ {script}\n }}).apply(null, {json.dumps(words)}) ?? null)"
        value = self.send("WebDriver:ExecuteScript", {"script": "return window.eval(arguments[0]);", "args": [text]})["value"]
        return json.loads(value)

    def settle(self):
        self.send("WebDriver:ExecuteAsyncScript", {"script": SETTLED, "args": []})

    def quit(self):
        self.process.terminate()
        self.process.wait()
        shutil.rmtree(self.home, ignore_errors=True)
