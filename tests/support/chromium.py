"""Debian's chromium without a window, led by chromium-driver over its protocol, and pages for it."""
from __future__ import annotations

import contextlib
import functools
import http.client
import http.server
import json
import select
import shutil
import subprocess
import threading
import time
from typing import Any, Callable, Optional

from tests.support.service import free_port

PATIENCE = 300
CHROMIUM, DRIVER = shutil.which("chromium"), shutil.which("chromedriver")
# Why the tests are left out, if they are.
MISSING = None if CHROMIUM and DRIVER else "chromium and chromium-driver aren't there"
# A name that the browser takes for this machine, as a page does that has made its own name lead here.
STRANGER = "stranger.example"
ARGUMENTS = [
    "--headless=new", "--no-sandbox", "--disable-gpu", "--disable-dev-shm-usage", "--no-proxy-server", "--no-first-run",
    f"--host-resolver-rules=MAP {STRANGER} 127.0.0.1",
]


class DriverFailed(Exception):
    """The driver of the browser, or the browser, fails, and not the page."""


class Browser:
    """A browser, from its start until `close`."""

    def __init__(self) -> None:
        assert DRIVER
        self.port = free_port()
        self.driver = subprocess.Popen([DRIVER, f"--port={self.port}"], stdout=subprocess.PIPE, stderr=subprocess.STDOUT, text=True)
        try:
            self.wait_for_driver()
            options = {"goog:chromeOptions": {"binary": CHROMIUM, "args": ARGUMENTS}}
            self.session = self.say("POST", "/session", {"capabilities": {"alwaysMatch": options}})["sessionId"]
        except BaseException:
            self.stop_driver()
            raise

    def wait_for_driver(self) -> None:
        """Waits for its first words."""
        assert self.driver.stdout
        said, end = "", time.monotonic() + PATIENCE
        while "started successfully" not in said:
            if not select.select([self.driver.stdout], [], [], max(0, end - time.monotonic()))[0]:
                raise DriverFailed(f"chromedriver doesn't start: {said}")
            line = self.driver.stdout.readline()
            if not line:
                raise DriverFailed(f"chromedriver ended: {said}")
            said += line

    def say(self, method: str, path: str, said: Optional[dict[str, Any]] = None) -> Any:
        """What the driver answers."""
        connection = http.client.HTTPConnection("127.0.0.1", self.port, timeout=PATIENCE)
        try:
            body = None if said is None else json.dumps(said)
            connection.request(method, path, body, {"content-type": "application/json"})
            value = json.loads(connection.getresponse().read())["value"]
        except (OSError, http.client.HTTPException, ValueError) as error:
            raise DriverFailed(f"{path}: {error!r}") from error
        finally:
            connection.close()
        if isinstance(value, dict) and "error" in value:
            raise DriverFailed(f"{path}: {value['error']}: {value.get('message')}")
        return value

    def open(self, url: str) -> None:
        """Opens a page, and waits until it is loaded."""
        self.say("POST", f"/session/{self.session}/url", {"url": url})

    def run(self, script: str, *given: object) -> Any:
        """What a script of the page returns; a promise is waited for."""
        return self.say("POST", f"/session/{self.session}/execute/sync", {"script": script, "args": given})

    def text(self) -> str:
        """The text that the page shows."""
        text: str = self.run("return document.body ? document.body.innerText : ''")
        return text

    def text_of(self, url: str) -> str:
        """The text of the page with this address, once it is there."""
        end = time.monotonic() + PATIENCE
        while time.monotonic() < end:
            if self.run("return location.href + ' ' + document.readyState") == f"{url} complete":
                return self.text()
            time.sleep(0.05)
        raise AssertionError(f"the browser doesn't come to {url}")

    def close(self) -> None:
        """Ends it. If the driver fails at that, nothing is lost."""
        try:
            with contextlib.suppress(DriverFailed):
                self.say("DELETE", f"/session/{self.session}")
        finally:
            self.stop_driver()

    def stop_driver(self) -> None:
        """Ends the driver, and its browser with it."""
        self.driver.terminate()
        try:
            self.driver.wait(PATIENCE)
        except subprocess.TimeoutExpired:
            self.driver.kill()
            self.driver.wait()
        assert self.driver.stdout
        self.driver.stdout.close()


def once_more(test: Callable[[Any], None]) -> Callable[[Any], None]:
    """Runs a test once more, with all that it has made anew, if the driver of the browser fails and not the page."""

    @functools.wraps(test)
    def run(self: Any) -> None:
        try:
            return test(self)
        except DriverFailed as error:
            print(f"the driver of the browser failed, so the test runs once more: {error}")
        self.doCleanups()
        self.setUp()
        return test(self)

    return run


class Pages:
    """A web server of this machine with pages by their paths, from its start until `close`."""

    def __init__(self, pages: dict[str, str]) -> None:
        class Handler(http.server.BaseHTTPRequestHandler):
            def do_GET(self) -> None:
                page = pages.get(self.path)
                self.send_response(200 if page else 404)
                self.send_header("content-type", "text/html")
                self.end_headers()
                self.wfile.write((page or "").encode())

            def log_message(self, *_: object) -> None:
                pass

        self.server = http.server.ThreadingHTTPServer(("127.0.0.1", 0), Handler)
        self.port = self.server.server_address[1]
        self.thread = threading.Thread(target=self.server.serve_forever)
        self.thread.start()

    def close(self) -> None:
        """Ends it."""
        self.server.shutdown()
        self.thread.join()
        self.server.server_close()
