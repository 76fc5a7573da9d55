"""A page in Chromium, by the protocol of chromedriver."""

import base64
import json
import shutil
import socket
import subprocess
import time
import urllib.request

FLAGS = ["--headless", "--no-sandbox", "--disable-gpu", "--hide-scrollbars", "--force-color-profile=srgb", "--no-first-run"]

# How long something may take that is waited for, in seconds, and how often it is looked for.
LIMIT, EACH = 120, 0.05


def missing():
    """What is not installed of the programs that are needed."""
    return [name for name in ("chromium", "chromedriver") if not shutil.which(name)]


def free_port():
    with socket.socket() as it:
        it.bind(("127.0.0.1", 0))
        return it.getsockname()[1]


class Browser:
    """A window of Chromium, as long as it is open."""

    def __init__(self, width=1280, height=800):
        self.port, self.size = free_port(), f"--window-size={width},{height}"

    def __enter__(self):
        words = [shutil.which("chromedriver"), f"--port={self.port}"]
        self.driver = subprocess.Popen(words, stdout=subprocess.DEVNULL, stderr=subprocess.DEVNULL)
        try:
            self.session = f"/session/{self.started()}"
        except BaseException:
            self.ended()
            raise
        return self

    def __exit__(self, *_):
        try:
            self.call("DELETE", self.session)
        finally:
            self.ended()

    def ended(self):
        self.driver.terminate()
        self.driver.wait(timeout=LIMIT)

    def call(self, method, path, **body):
        data = None if method in ("GET", "DELETE") else json.dumps(body).encode()
        request = urllib.request.Request(f"http://127.0.0.1:{self.port}{path}", data, {"Content-Type": "application/json"}, method=method)
        with urllib.request.urlopen(request, timeout=LIMIT * 3) as answer:
            return json.load(answer)["value"]

    def started(self):
        end = time.monotonic() + LIMIT
        while True:
            try:
                self.call("GET", "/status")
                break
            except OSError:
                if time.monotonic() > end:
                    raise
                time.sleep(EACH)
        chrome = {"args": [*FLAGS, self.size], "binary": shutil.which("chromium")}
        wanted = {"browserName": "chrome", "timeouts": {"script": LIMIT * 2000}, "goog:loggingPrefs": {"browser": "ALL"}, "goog:chromeOptions": chrome}
        return self.call("POST", "/session", capabilities={"alwaysMatch": wanted})["sessionId"]

    def open(self, address):
        """Opens a page anew, also where only the part behind `#` is another."""
        self.call("POST", f"{self.session}/url", url="about:blank")
        self.call("POST", f"{self.session}/url", url=address)

    def run(self, script, *words):
        return self.call("POST", f"{self.session}/execute/sync", script=script, args=list(words))

    def until(self, condition):
        """Waits until an expression is true."""
        end = time.monotonic() + LIMIT
        while not self.run(f"return Boolean({condition})"):
            if time.monotonic() > end:
                raise TimeoutError(condition)
            time.sleep(EACH)

    def errors(self):
        """What the page has written to its console as an error since the last call."""
        log = self.call("POST", f"{self.session}/se/log", type="browser")
        return [entry["message"] for entry in log if entry["level"] == "SEVERE"]

    def of_chromium(self, name, **parameters):
        return self.call("POST", f"{self.session}/goog/cdp/execute", cmd=name, params=parameters)

    def picture(self):
        return base64.b64decode(self.call("GET", f"{self.session}/screenshot"))
