"""A headless Chromium that does what it is told, by WebDriver over loopback."""
import base64
import contextlib
import json
import os
import shutil
import socket
import subprocess
import tempfile
import time
import urllib.error
import urllib.request
from typing import Any, Iterator

from lib.sheet.browser import BadBrowser, installed

ELEMENT = "element-6066-11e4-a52e-4f735466cecf"
DRIVER = "chromedriver"
FLAGS = [
    "--headless=new", "--disable-gpu", "--no-first-run", "--disable-background-networking",
    "--disable-component-update", "--host-resolver-rules=MAP * ~NOTFOUND",
]
# of a function that is given words, and what it returns or why it fails
ASYNC = """const done = arguments[arguments.length - 1];
(async (...given) => {%s})(...arguments).then(done, (why) => done(`error: ${why}`));"""
SECONDS, TRIES = 180, 300


class Browser:
    def __init__(self, port: int, folder: str, program: str) -> None:
        self.at = f"http://127.0.0.1:{port}"
        words = [*FLAGS, f"--user-data-dir={folder}", *["--no-sandbox"] * (os.geteuid() == 0)]
        options = {"args": words, "binary": program}
        wanted = {"browserName": "chrome", "goog:chromeOptions": options, "goog:loggingPrefs": {"browser": "ALL"}}
        told = self.call("POST", "/session", {"capabilities": {"alwaysMatch": wanted}})
        self.at += f"/session/{told['sessionId']}"

    def call(self, method: str, path: str, what: Any = None) -> Any:
        data = None if method == "GET" else json.dumps(what or {}).encode()
        asked = urllib.request.Request(self.at + path, data, {"Content-Type": "application/json"}, method=method)
        try:
            with urllib.request.urlopen(asked, timeout=SECONDS) as answer:
                return json.load(answer)["value"]
        except urllib.error.HTTPError as error:
            raise BadBrowser(error.read().decode()) from error

    def open(self, url: str) -> None:
        self.call("POST", "/url", {"url": url})

    def run(self, body: str, *given: Any) -> Any:
        """What an async function with this body returns, which WebDriver runs whatever the page allows."""
        return self.call("POST", "/execute/async", {"script": ASYNC % body, "args": list(given)})

    def type_into(self, css: str, text: str) -> None:
        element = self.call("POST", "/element", {"using": "css selector", "value": css})[ELEMENT]
        self.call("POST", f"/element/{element}/value", {"text": text})

    def press(self, *keys: str) -> None:
        """Presses keys, whatever has the focus."""
        actions = [{"type": kind, "value": key} for key in keys for kind in ("keyDown", "keyUp")]
        self.call("POST", "/actions", {"actions": [{"type": "key", "id": "keys", "actions": actions}]})

    def wide(self, width: int, height: int = 900) -> None:
        size = {"width": width, "height": height, "deviceScaleFactor": 1, "mobile": False}
        self.tools("Emulation.setDeviceMetricsOverride", **size)
        # (a picture has none)
        self.tools("Emulation.setScrollbarsHidden", hidden=True)

    def tools(self, command: str, **given: Any) -> Any:
        return self.call("POST", "/goog/cdp/execute", {"cmd": command, "params": given})

    def logged(self) -> list[str]:
        return [entry["message"] for entry in self.call("POST", "/se/log", {"type": "browser"})]

    def picture(self, path: str) -> None:
        told = self.tools("Page.captureScreenshot", format="png", captureBeyondViewport=True)
        with open(path, "wb") as file:
            file.write(base64.b64decode(told["data"]))


def lacking() -> str | None:
    """What is missing, if something is."""
    return None if installed() and shutil.which(DRIVER) else f"Chromium and {DRIVER}"


@contextlib.contextmanager
def browser() -> Iterator[Browser]:
    with socket.socket() as free:
        free.bind(("127.0.0.1", 0))
        port = free.getsockname()[1]
    quiet = {"stdin": subprocess.DEVNULL, "stdout": subprocess.DEVNULL, "stderr": subprocess.DEVNULL}
    with (
        tempfile.TemporaryDirectory(prefix="browser-", ignore_cleanup_errors=True) as folder,
        subprocess.Popen([DRIVER, f"--port={port}"], **quiet) as driver,
    ):
        found = None
        try:
            for _ in range(TRIES):
                with contextlib.suppress(urllib.error.URLError, ConnectionError):
                    found = Browser(port, folder, installed())
                    break
                time.sleep(.1)
            if found is None:
                raise BadBrowser(f"{DRIVER} does not answer")
            yield found
        finally:
            if found is not None:
                with contextlib.suppress(BadBrowser, OSError):
                    found.call("DELETE", "")
            driver.terminate()
