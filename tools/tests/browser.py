"""A browser without a window, driven by the protocol that WebDriver is, with the standard library alone."""

from __future__ import annotations

import json
import shutil
import socket
import subprocess
import tempfile
import time
import urllib.error
import urllib.request
from pathlib import Path
from typing import Any

PACKAGES = "the Debian packages chromium and chromium-driver"


def is_there() -> bool:
    """Whether the browser and its driver are installed."""
    return bool(shutil.which("chromium") and shutil.which("chromedriver"))


class Browser:
    """A session of its own, with a folder of its own."""

    def __init__(self) -> None:
        with socket.socket() as free:
            free.bind(("127.0.0.1", 0))
            self.top = f"http://127.0.0.1:{free.getsockname()[1]}"
        self.folder = tempfile.TemporaryDirectory()
        self.driver = subprocess.Popen(
            ["chromedriver", "--port=" + self.top.rsplit(":", 1)[1]], stdout=subprocess.DEVNULL, stderr=subprocess.DEVNULL
        )
        self.session = ""
        try:
            self.session = "/session/" + self.open()
        except BaseException:
            self.close()
            raise

    def open(self) -> str:
        """Opens the session, once the driver listens."""
        args = ["--headless=new", "--no-sandbox", "--disable-gpu", "--disable-dev-shm-usage", f"--user-data-dir={self.folder.name}"]
        # A page whose address follows each step may change it as often as a test steps.
        args.append("--disable-ipc-flooding-protection")
        options = {"binary": shutil.which("chromium"), "args": args}
        wanted = {"browserName": "chrome", "goog:chromeOptions": options, "goog:loggingPrefs": {"browser": "ALL", "performance": "ALL"}}
        for _ in range(100):
            try:
                return self.ask("POST", "/session", {"capabilities": {"alwaysMatch": wanted}})["sessionId"]
            except urllib.error.URLError as error:
                if isinstance(error, urllib.error.HTTPError):
                    raise
                time.sleep(0.1)
        raise TimeoutError("chromedriver does not listen")

    def ask(self, method: str, path: str, body: dict[str, Any] | None = None) -> Any:
        """What the driver answers."""
        data = None if body is None else json.dumps(body).encode()
        request = urllib.request.Request(self.top + path, data, {"Content-Type": "application/json"}, method=method)
        with urllib.request.urlopen(request, timeout=120) as answer:
            return json.load(answer)["value"]

    def post(self, path: str, body: dict[str, Any]) -> Any:
        """What the driver answers in the session."""
        return self.ask("POST", self.session + path, body)

    def go(self, page: Path) -> None:
        """Opens a page of this machine."""
        self.post("/url", {"url": page.resolve().as_uri()})

    def run(self, script: str, *args: Any) -> Any:
        """What a script in the page gives."""
        return self.post("/execute/sync", {"script": script, "args": list(args)})

    def command(self, name: str, **params: Any) -> Any:
        """What a command of the browser's own protocol gives."""
        return self.post("/goog/cdp/execute", {"cmd": name, "params": params})

    def press(self, *keys: str) -> None:
        """Presses keys, one after another."""
        actions = [{"type": kind, "value": key} for key in keys for kind in ("keyDown", "keyUp")]
        self.post("/actions", {"actions": [{"type": "key", "id": "keys", "actions": actions}]})

    def log(self, kind: str) -> list[dict[str, Any]]:
        """What was logged since the last look: by the page, or by the browser on its work."""
        return self.post("/se/log", {"type": kind})

    def size(self, width: int, height: int) -> None:
        """Gives the page this size, in pixels."""
        self.command("Emulation.setDeviceMetricsOverride", width=width, height=height, deviceScaleFactor=1, mobile=width < 600)

    def close(self) -> None:
        """Ends the session and the driver."""
        try:
            if self.session:
                self.ask("DELETE", self.session)
        finally:
            self.driver.terminate()
            self.driver.wait()
            self.folder.cleanup()
