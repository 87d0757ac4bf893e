"""A headless Chromium, steered through its driver by the WebDriver protocol (W3C), with no library besides Python's."""

import base64
import json
import re
import subprocess
import time
import urllib.error
import urllib.request

# Without a sandbox it runs as root too; the page that it opens is our own.
FLAGS = ["--headless=new", "--no-sandbox", "--disable-gpu", "--window-size=1500,950"]
STARTED = re.compile(rb"successfully on port (\d+)")
POLL = 0.05


class Browser:
    """A browser for as long as a `with` lasts."""

    def __init__(self, flags=()):
        self.flags = [*FLAGS, *flags]

    def __enter__(self):
        words = ["chromedriver", "--port=0"]
        self.driver = subprocess.Popen(words, stdout=subprocess.PIPE, stderr=subprocess.DEVNULL)
        self.base = f"http://127.0.0.1:{self.port()}"
        wanted = {"browserName": "chrome", "goog:chromeOptions": {"args": self.flags}}
        started = self.call("POST", "/session", {"capabilities": {"alwaysMatch": wanted}})
        self.base += f"/session/{started['sessionId']}"
        self.call("POST", "/timeouts", {"script": 120_000})
        return self

    def __exit__(self, *_):
        try:
            self.call("DELETE", "")
        finally:
            self.driver.terminate()
            self.driver.wait()

    def port(self):
        """The port that the driver names once it listens."""
        for line in self.driver.stdout:
            if found := STARTED.search(line):
                return int(found[1])
        raise RuntimeError("chromedriver doesn't start")

    def call(self, method, path, body=None):
        data = None if body is None else json.dumps(body).encode()
        request = urllib.request.Request(self.base + path, data, {"Content-Type": "application/json"}, method=method)
        try:
            with urllib.request.urlopen(request, timeout=150) as reply:
                return json.load(reply)["value"]
        except urllib.error.HTTPError as error:
            raise RuntimeError(json.load(error)["value"]["message"]) from None

    def open(self, url):
        self.call("POST", "/url", {"url": url})

    def run(self, script, *arguments):
        """What a script returns."""
        return self.call("POST", "/execute/sync", {"script": script, "args": arguments})

    def wait(self, expression, seconds=60):
        """Waits until an expression is true."""
        end = time.monotonic() + seconds
        while not self.run(f"return Boolean({expression})"):
            if time.monotonic() > end:
                raise RuntimeError(f"waited {seconds} s for {expression}")
            time.sleep(POLL)

    def press(self, keys):
        """Presses and lifts keys, one after another; what has the focus gets them."""
        actions = [it for key in keys for it in ({"type": "keyDown", "value": key}, {"type": "keyUp", "value": key})]
        self.call("POST", "/actions", {"actions": [{"type": "key", "id": "keyboard", "actions": actions}]})

    def command(self, name, parameters):
        """A command of the browser's own protocol."""
        return self.call("POST", "/goog/cdp/execute", {"cmd": name, "params": parameters})

    def picture(self, path):
        with open(path, "wb") as file:
            file.write(base64.b64decode(self.call("GET", "/screenshot")))
