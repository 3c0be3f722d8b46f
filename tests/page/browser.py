"""Drives a Chromium without a window, over its debugging protocol (https://chromedevtools.github.io/devtools-protocol). It has a
WebSocket client (RFC 6455) of its own, so nothing but Python and Chromium is needed."""
import base64
import json
import os
import shutil
import socket
import struct
import subprocess
import tempfile
import time
import urllib.request

FLAGS = ["--headless", "--no-sandbox", "--disable-gpu", "--disable-dev-shm-usage", "--no-first-run", "--disable-extensions", "--mute-audio",
         "--disable-background-networking", "--disable-component-update", "--disable-sync", "--disable-default-apps", "--hide-scrollbars",
         "--force-device-scale-factor=1", "--disable-background-timer-throttling", "--remote-debugging-port=0"]


class Failure(Exception):
    """Something that the browser or its page reports."""


class Socket:
    """A WebSocket to a local server, for texts."""

    def __init__(self, address, seconds):
        host, _, path = address.removeprefix("ws://").partition("/")
        name, _, port = host.partition(":")
        self.link = socket.create_connection((name, int(port)), seconds)
        self.link.settimeout(seconds)
        key = base64.b64encode(os.urandom(16)).decode()
        self.link.sendall((f"GET /{path} HTTP/1.1\r\nHost: {host}\r\nUpgrade: websocket\r\nConnection: Upgrade\r\n"
                           f"Sec-WebSocket-Key: {key}\r\nSec-WebSocket-Version: 13\r\n\r\n").encode())
        self.rest = b""
        while b"\r\n\r\n" not in self.rest:
            self.rest += self.more()
        head, _, self.rest = self.rest.partition(b"\r\n\r\n")
        if b" 101 " not in head.split(b"\r\n")[0]:
            raise Failure(f"no WebSocket: {head!r}")

    def more(self):
        read = self.link.recv(1 << 16)
        if not read:
            raise Failure("the browser has ended the connection")
        return read

    def take(self, size):
        while len(self.rest) < size:
            self.rest += self.more()
        taken, self.rest = self.rest[:size], self.rest[size:]
        return taken

    def send(self, text):
        body = text.encode()
        size = len(body)
        head = bytes([0x81])
        if size < 126:
            head += bytes([0x80 | size])
        elif size < 1 << 16:
            head += bytes([0x80 | 126]) + struct.pack(">H", size)
        else:
            head += bytes([0x80 | 127]) + struct.pack(">Q", size)
        # RFC 6455 wants a mask; that of four zeros leaves the body as it is.
        self.link.sendall(head + bytes(4) + body)

    def receive(self):
        text = b""
        while True:
            first, second = self.take(2)
            size = second & 0x7F
            if size == 126:
                size = struct.unpack(">H", self.take(2))[0]
            elif size == 127:
                size = struct.unpack(">Q", self.take(8))[0]
            body = self.take(size)
            kind = first & 0x0F
            if kind == 8:
                raise Failure("the browser has closed the connection")
            if kind in (0, 1):
                text += body
                if first & 0x80:
                    return text.decode()


class Browser:
    """A browser with one page. `faults` has what went to its console, and exceptions; `requests` has what the page asked for."""

    def __init__(self, width=1440, height=900, seconds=60):
        self.folder = tempfile.mkdtemp(prefix="ultra-page-")
        self.seconds = seconds
        self.number = 0
        self.faults, self.requests, self.loads = [], [], 0
        self.process = subprocess.Popen(["chromium", *FLAGS, f"--window-size={width},{height}", f"--user-data-dir={self.folder}", "about:blank"],
                                        stdin=subprocess.DEVNULL, stdout=subprocess.DEVNULL, stderr=subprocess.DEVNULL)
        try:
            self.socket = Socket(self.page_address(), seconds)
            for domain in ("Page", "Runtime", "Log", "Network"):
                self.call(domain + ".enable")
            self.size(width, height)
        except BaseException:
            self.close()
            raise

    def page_address(self):
        port_file = os.path.join(self.folder, "DevToolsActivePort")
        until = time.monotonic() + self.seconds
        while time.monotonic() < until:
            if self.process.poll() is not None:
                raise Failure(f"chromium ended with status {self.process.returncode}")
            try:
                with open(port_file, encoding="ascii") as file:
                    port = int(file.readline())
                with urllib.request.build_opener(urllib.request.ProxyHandler({})).open(f"http://127.0.0.1:{port}/json", timeout=5) as answer:
                    for target in json.load(answer):
                        if target["type"] == "page":
                            return target["webSocketDebuggerUrl"]
            except (OSError, ValueError):
                pass
            time.sleep(0.05)
        raise Failure("chromium does not answer")

    def close(self):
        self.process.terminate()
        try:
            self.process.wait(10)
        except subprocess.TimeoutExpired:
            self.process.kill()
            self.process.wait()
        shutil.rmtree(self.folder, ignore_errors=True)

    def __enter__(self):
        return self

    def __exit__(self, *_):
        self.close()

    # ---- the protocol

    def call(self, method, **parameters):
        self.number += 1
        number = self.number
        self.socket.send(json.dumps({"id": number, "method": method, "params": parameters}))
        while True:
            message = json.loads(self.socket.receive())
            if message.get("id") == number:
                if "error" in message:
                    raise Failure(f"{method}: {message['error']}")
                return message["result"]
            self.note(message)

    def note(self, message):
        method, parameters = message.get("method"), message.get("params", {})
        if method == "Runtime.exceptionThrown":
            self.faults.append(parameters["exceptionDetails"].get("exception", {}).get("description") or parameters["exceptionDetails"]["text"])
        elif method == "Runtime.consoleAPICalled":
            self.faults.append(parameters["type"] + ": " + " ".join(str(it.get("value", it.get("description"))) for it in parameters["args"]))
        elif method == "Log.entryAdded":
            self.faults.append(parameters["entry"]["text"])
        elif method == "Network.requestWillBeSent":
            self.requests.append(parameters["request"]["url"])
        elif method == "Page.loadEventFired":
            self.loads += 1

    # ---- what tests do

    def size(self, width, height):
        self.call("Emulation.setDeviceMetricsOverride", width=width, height=height, deviceScaleFactor=1, mobile=False)

    def open(self, address, ready="document.body && document.body.dataset.ready === 'yes'"):
        """Goes to an address, waits until its page is ready, and gives the seconds that this took."""
        began = time.monotonic()
        self.call("Page.navigate", url="about:blank")
        self.call("Page.navigate", url=address)
        self.wait(ready)
        return time.monotonic() - began

    def run(self, expression):
        answer = self.call("Runtime.evaluate", expression=expression, returnByValue=True, awaitPromise=True)
        if "exceptionDetails" in answer:
            raise Failure(f"{expression}: {answer['exceptionDetails'].get('exception', {}).get('description', answer)}")
        return answer["result"].get("value")

    def wait(self, condition, seconds=None):
        until = time.monotonic() + (seconds or self.seconds)
        while not self.run(condition):
            if time.monotonic() > until:
                raise Failure(f"never: {condition}; {self.faults}")
            time.sleep(0.02)

    def key(self, key, shift=False):
        codes = {" ": 32, "Enter": 13, "Escape": 27, "Tab": 9, "ArrowLeft": 37, "ArrowUp": 38, "ArrowRight": 39, "ArrowDown": 40, "Home": 36,
                 "End": 35, "PageUp": 33, "PageDown": 34}
        code = codes.get(key, ord(key[0].upper()))
        text = {"text": "\r" if key == "Enter" else key} if len(key) == 1 or key == "Enter" else {}
        self.call("Input.dispatchKeyEvent", type="keyDown", key=key, windowsVirtualKeyCode=code, modifiers=8 if shift else 0, **text)
        self.call("Input.dispatchKeyEvent", type="keyUp", key=key, windowsVirtualKeyCode=code, modifiers=8 if shift else 0)

    def mouse(self, kind, x, y, **more):
        self.call("Input.dispatchMouseEvent", type=kind, x=x, y=y, **more)

    def middle(self, selector):
        box = self.run(f"(() => {{ const b = document.querySelector({json.dumps(selector)}).getBoundingClientRect();"
                       " return [b.left + b.width / 2, b.top + b.height / 2]; })()")
        return box[0], box[1]

    def click(self, selector):
        self.click_at(*self.middle(selector))

    def click_at(self, x, y):
        self.mouse("mouseMoved", x, y)
        self.mouse("mousePressed", x, y, button="left", clickCount=1)
        self.mouse("mouseReleased", x, y, button="left", clickCount=1)

    def media(self, media="", **features):
        self.call("Emulation.setEmulatedMedia", media=media, features=[{"name": name.replace("_", "-"), "value": value} for name, value in features.items()])

    def picture(self, path):
        with open(path, "wb") as file:
            file.write(base64.b64decode(self.call("Page.captureScreenshot", format="png")["data"]))

    def paper(self, path):
        printed = base64.b64decode(self.call("Page.printToPDF", landscape=True, printBackground=True, preferCSSPageSize=True)["data"])
        with open(path, "wb") as file:
            file.write(printed)
        return printed
