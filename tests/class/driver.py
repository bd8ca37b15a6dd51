"""Drives Chromium without a window, by chromedriver and the WebDriver protocol: opens a page, presses keys, runs scripts in it, takes pictures."""
import base64
import json
import re
import subprocess
import urllib.error
import urllib.request

STARTED = re.compile(rb"started successfully on port (\d+)")
ARGUMENTS = ("--headless=new", "--no-sandbox", "--disable-gpu", "--disable-dev-shm-usage", "--hide-scrollbars",
             "--disable-background-networking", "--no-first-run")
WIDE, HIGH = 1280, 720
KEYS = {"ArrowRight": "\ue014", "ArrowLeft": "\ue012", "Home": "\ue011", "End": "\ue010", "PageUp": "\ue00e", "PageDown": "\ue00f", "Escape": "\ue00c",
        "Tab": "\ue004", "Enter": "\ue007", " ": " ", "?": "?"}


class Browser:
    """One Chromium, with one page; a context that ends both programs."""

    def __init__(self, folder):
        self.folder = folder

    def __enter__(self):
        """Starts chromedriver on a port that is free, and a session of it."""
        self.driver = subprocess.Popen(["chromedriver", "--port=0"], stdout=subprocess.PIPE, stderr=subprocess.STDOUT)
        for line in self.driver.stdout:
            if found := STARTED.search(line):
                self.address = f"http://127.0.0.1:{int(found[1])}"
                break
        else:
            raise OSError("chromedriver has ended")
        options = {"args": [*ARGUMENTS, f"--user-data-dir={self.folder}"]}
        wanted = {"browserName": "chrome", "goog:chromeOptions": options, "goog:loggingPrefs": {"browser": "ALL", "performance": "ALL"}}
        self.session = self.call("POST", "/session", {"capabilities": {"alwaysMatch": wanted}})["sessionId"]
        self.sized(WIDE, HIGH)
        self.command("Emulation.setEmulatedMedia", {"features": [{"name": "prefers-reduced-motion", "value": "reduce"}]})
        return self

    def __exit__(self, *_):
        """Ends the browser, then its driver."""
        try:
            if hasattr(self, "session"):
                self.call("DELETE", f"/session/{self.session}")
        finally:
            self.driver.terminate()
            self.driver.wait()

    def call(self, method, path, body=None):
        """One request to chromedriver, and the value that it answers."""
        octets = None if body is None else json.dumps(body).encode()
        request = urllib.request.Request(self.address + path, octets, {"Content-Type": "application/json"}, method=method)
        try:
            with urllib.request.urlopen(request, timeout=60) as answer:
                return json.load(answer)["value"]
        except urllib.error.HTTPError as fault:
            raise AssertionError(json.load(fault)["value"]["message"].splitlines()[0]) from fault

    def ask(self, what, body):
        """One request of the session."""
        return self.call("POST", f"/session/{self.session}/{what}", body)

    def sized(self, wide, high):
        """Makes what is seen of the page so wide and so high."""
        metrics = {"width": wide, "height": high, "deviceScaleFactor": 1, "mobile": False}
        self.command("Emulation.setDeviceMetricsOverride", metrics)

    def command(self, name, given):
        """A command of Chromium's own protocol."""
        return self.ask("goog/cdp/execute", {"cmd": name, "params": given})

    def open(self, path, behind=""):
        """Opens a file; `behind` stands behind its address."""
        self.ask("url", {"url": path.resolve().as_uri() + behind})

    def run(self, script, *given):
        """Runs the body of a function in the page, and gives what it returns."""
        return self.ask("execute/sync", {"script": script, "args": given})

    def press(self, *keys):
        """Presses keys, one after another."""
        actions = [{"type": kind, "value": KEYS[key]} for key in keys for kind in ("keyDown", "keyUp")]
        self.ask("actions", {"actions": [{"type": "key", "id": "keyboard", "actions": actions}]})

    def log(self, kind):
        """What the browser has noted since it was asked last."""
        return self.ask("se/log", {"type": kind})

    def picture(self):
        """What is seen of the page, as the octets of a PNG."""
        return base64.b64decode(self.call("GET", f"/session/{self.session}/screenshot"))

    def printed(self):
        """The page as it is printed, as the octets of a PDF."""
        return base64.b64decode(self.ask("print", {}))
