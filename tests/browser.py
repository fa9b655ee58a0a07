"""A headless Chromium, driven over the DevTools protocol with Python's standard library alone."""
import base64
import json
import os
import re
import shutil
import signal
import socket
import struct
import subprocess
import tempfile
import time
import urllib.request

KEY_CODES = {"ArrowDown": 40, "ArrowUp": 38, "ArrowLeft": 37, "ArrowRight": 39, "Enter": 13, "Escape": 27, "PageDown": 34,
             "PageUp": 33, "Home": 36, "End": 35, "Tab": 9}
# A loaded machine with two processors takes long for each thing; only a browser that hangs takes so long.
PATIENCE = 120
WIDTH, HEIGHT = 1440, 900


class Browser:
    """A browser with one page and a profile of its own, both gone after `close`."""

    def __init__(self, program, width=WIDTH, height=HEIGHT, dark=False):
        self.home = tempfile.mkdtemp(prefix="hdminet-browser-")
        self.log = open(os.path.join(self.home, "log"), "w+", encoding="utf-8", errors="replace")
        flags = ["--headless=new", "--no-sandbox", "--disable-gpu", "--disable-dev-shm-usage", "--remote-debugging-port=0",
                 "--disable-background-networking", "--disable-component-update", "--no-first-run", "--no-default-browser-check",
                 "--mute-audio", f"--user-data-dir={self.home}/profile", f"--window-size={width},{height}", "about:blank"]
        own = ("HOME", "XDG_CACHE_HOME", "XDG_CONFIG_HOME", "TMPDIR")
        environment = {**os.environ, **{name: self.home for name in own}}
        self.process = subprocess.Popen([program, *flags], stdin=subprocess.DEVNULL, stdout=subprocess.DEVNULL, stderr=self.log,
                                        env=environment, start_new_session=True)
        try:
            self._connect()
            for domain in ("Page", "Runtime", "Log", "Network"):
                self.call(f"{domain}.enable")
            self.resize(width, height)
            self.set_dark(dark)
        except BaseException:
            self.close()
            raise

    def _connect(self):
        self.count = 0
        self.events = []
        self.socket = None
        until = time.monotonic() + PATIENCE
        while True:
            with open(self.log.name, encoding="utf-8", errors="replace") as log:
                found = re.search(r"ws://([^:/\s]+):(\d+)/", log.read())
            if found:
                break
            if self.process.poll() is not None or time.monotonic() > until:
                raise RuntimeError(f"the browser does not start, status {self.process.poll()}")
            time.sleep(0.05)
        port = int(found[2])
        opener = urllib.request.build_opener(urllib.request.ProxyHandler({}))  # the loopback is behind no proxy
        while True:
            targets = json.load(opener.open(f"http://127.0.0.1:{port}/json", timeout=PATIENCE))
            pages = [one for one in targets if one["type"] == "page"]
            if pages:
                break
            time.sleep(0.05)
        path = re.sub(r"ws://[^/]+", "", pages[0]["webSocketDebuggerUrl"])
        self.socket = socket.create_connection(("127.0.0.1", port), timeout=PATIENCE)
        key = base64.b64encode(os.urandom(16)).decode()
        self.socket.sendall(
            f"GET {path} HTTP/1.1\r\nHost: 127.0.0.1:{port}\r\nUpgrade: websocket\r\nConnection: Upgrade\r\n"
            f"Sec-WebSocket-Key: {key}\r\nSec-WebSocket-Version: 13\r\n\r\n".encode())
        head = b""
        while not head.endswith(b"\r\n\r\n"):
            head += self._receive(1)

    def _receive(self, count):
        data = bytearray()
        while len(data) < count:
            more = self.socket.recv(min(count - len(data), 1 << 20))
            if not more:
                raise RuntimeError("the browser is gone")
            data += more
        return bytes(data)

    def _message(self):
        data = b""
        while True:
            first, second = self._receive(2)
            length = second & 127
            if length == 126:
                length = struct.unpack(">H", self._receive(2))[0]
            elif length == 127:
                length = struct.unpack(">Q", self._receive(8))[0]
            data += self._receive(length)
            if first & 128:
                return json.loads(data)

    def call(self, method, **parameters):
        self.count += 1
        data = json.dumps({"id": self.count, "method": method, "params": parameters}).encode()
        length = len(data)
        if length < 126:
            head = bytes([0x81, 128 | length])
        elif length < 65536:
            head = bytes([0x81, 254]) + struct.pack(">H", length)
        else:
            head = bytes([0x81, 255]) + struct.pack(">Q", length)
        # A client masks what it sends; the mask may be zero.
        self.socket.sendall(head + b"\0\0\0\0" + data)
        while True:
            message = self._message()
            if message.get("id") == self.count:
                if "error" in message:
                    raise RuntimeError(f"{method}: {message['error']}")
                return message["result"]
            self.events.append(message)

    def js(self, code):
        """The value of an expression in the page."""
        done = self.call("Runtime.evaluate", expression=code, awaitPromise=True, returnByValue=True)
        if "exceptionDetails" in done:
            details = done["exceptionDetails"]
            raise RuntimeError(details.get("exception", {}).get("description", str(details)))
        return done["result"].get("value")

    def open(self, path):
        """Opens a page of hdminet and waits until its data is there."""
        self.events.clear()
        self.call("Page.navigate", url=path if path.startswith("http:") else "file://" + os.path.abspath(path))
        until = time.monotonic() + PATIENCE
        while not self.js("document.readyState === 'complete' && performance.getEntriesByName('loaded').length > 0"):
            if time.monotonic() > until:
                raise RuntimeError(f"{path} is not loaded: {self.faults()}")
            time.sleep(0.02)
        self.settle()

    def settle(self):
        """Waits until what was asked for is drawn."""
        self.js("new Promise(done => requestAnimationFrame(() => requestAnimationFrame(() => setTimeout(done))))")

    def resize(self, width, height):
        self.call("Emulation.setDeviceMetricsOverride", width=width, height=height, deviceScaleFactor=1, mobile=False)

    def set_dark(self, dark):
        value = "dark" if dark else "light"
        self.call("Emulation.setEmulatedMedia", features=[{"name": "prefers-color-scheme", "value": value}])

    def key(self, key, shift=False):
        parameters = {"key": key, "modifiers": 8 if shift else 0}
        if len(key) == 1:
            parameters["text"] = key
        if key == "Enter":
            parameters["text"] = "\r"
        if key in KEY_CODES:
            parameters["windowsVirtualKeyCode"] = KEY_CODES[key]
        for kind in ("keyDown", "keyUp"):
            self.call("Input.dispatchKeyEvent", type=kind, **parameters)

    def mouse(self, kind, x, y, **parameters):
        self.call("Input.dispatchMouseEvent", type=kind, x=x, y=y, **parameters)

    def click(self, x, y, modifiers=0):
        for kind in ("mousePressed", "mouseReleased"):
            self.mouse(kind, x, y, button="left", clickCount=1, modifiers=modifiers)

    def picture(self, path):
        self.settle()
        data = base64.b64decode(self.call("Page.captureScreenshot", format="png")["data"])
        with open(path, "wb") as file:
            file.write(data)

    def faults(self):
        """Exceptions, errors of the console, and what was asked of a network, since the page was opened."""
        found = []
        for event in self.events:
            parameters = event.get("params", {})
            if event["method"] == "Runtime.exceptionThrown":
                details = parameters["exceptionDetails"]
                found.append(details.get("exception", {}).get("description", str(details))[:400])
            if event["method"] == "Log.entryAdded" and parameters["entry"]["level"] == "error":
                found.append(parameters["entry"]["text"][:300])
            if event["method"] == "Network.requestWillBeSent":
                url = parameters["request"]["url"]
                if not url.startswith(("file:", "data:", "blob:", "about:")):
                    found.append(f"network: {url}")
        return found

    def work(self):
        """How many seconds of a processor the browser and what it started have taken, where the system tells."""
        ticks = 0
        for name in os.listdir("/proc") if os.path.isdir("/proc") else ():
            try:
                with open(f"/proc/{name}/stat", encoding="utf-8", errors="replace") as file:
                    told = file.read().rpartition(")")[2].split()
            except OSError:  # no process, or it has ended
                continue
            if told[3] == str(self.process.pid):  # its session
                ticks += sum(map(int, told[11:15]))
        return ticks / os.sysconf("SC_CLK_TCK")

    def close(self):
        """Ends the browser, all that it started, and its profile."""
        try:
            if self.socket:
                self.socket.settimeout(5)
                self.call("Browser.close")
                self.process.wait(10)
        except Exception:  # it is ended below in any case
            pass
        if self.socket:
            self.socket.close()
        try:
            os.killpg(self.process.pid, signal.SIGKILL)
        except ProcessLookupError:
            pass
        self.process.wait()
        self.log.close()
        for _ in range(20):
            shutil.rmtree(self.home, ignore_errors=True)
            if not os.path.exists(self.home):
                break
            time.sleep(0.1)
