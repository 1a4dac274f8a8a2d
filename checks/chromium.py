"""A headless Chromium, driven over its own pipe, with nothing but Python's library."""
import base64
import json
import os
import select
import shutil
import struct
import subprocess
import tempfile
import time
import zlib

NAMES = ("chromium", "chromium-browser", "google-chrome", "chrome")


def installed():
    """Returns the browser's path, or None."""
    return next((it for it in map(shutil.which, NAMES) if it), None)


class Browser:
    """A browser with one page. Messages go over two pipes, each ended by a byte 0."""

    def __init__(self, path):
        self.folder = tempfile.mkdtemp(prefix="flash-browser-")
        there, back = os.pipe(), os.pipe()
        words = [path, "--headless=new", "--remote-debugging-pipe", f"--user-data-dir={self.folder}"]
        words += ["--force-color-profile=srgb", "--hide-scrollbars", "--disable-gpu", "--no-first-run"]
        words += ["--disable-extensions", "--disable-background-networking", "--disable-component-update"]
        words += ["--mute-audio", "--host-resolver-rules=MAP * ~NOTFOUND"]
        words += ["--no-sandbox"] * (os.getuid() == 0)

        def fixed():
            # The browser reads from 3 and writes to 4. Copies come first: one pipe's number may be the other's place.
            read, write = os.dup(there[0]), os.dup(back[1])
            high = [os.dup2(it, to) for it, to in ((read, 60), (write, 61))]
            os.dup2(high[0], 3)
            os.dup2(high[1], 4)

        silent = {it: subprocess.DEVNULL for it in ("stdin", "stdout", "stderr")}
        self.process = subprocess.Popen(words, preexec_fn=fixed, close_fds=False, start_new_session=True, **silent)
        os.close(there[0])
        os.close(back[1])
        self.to, self.come = there[1], back[0]
        self.rest, self.count, self.events = b"", 0, []
        target = self.call("Target.createTarget", url="about:blank")["targetId"]
        self.session = None
        self.session = self.call("Target.attachToTarget", targetId=target, flatten=True)["sessionId"]
        for name in ("Page.enable", "Runtime.enable", "Log.enable", "Network.enable"):
            self.call(name)

    def message(self, seconds=60):
        """Returns the next message."""
        until = time.time() + seconds
        while b"\0" not in self.rest:
            if not select.select([self.come], [], [], max(until - time.time(), 0))[0]:
                raise TimeoutError("the browser doesn't answer")
            got = os.read(self.come, 1 << 20)
            if not got:
                raise EOFError("the browser ended")
            self.rest += got
        first, _, self.rest = self.rest.partition(b"\0")
        return json.loads(first)

    def call(self, method, **params):
        """Calls a method of the protocol, and returns what it gives. What is told meanwhile stays in `events`."""
        self.count += 1
        text = {"id": self.count, "method": method, "params": params}
        if getattr(self, "session", None):
            text["sessionId"] = self.session
        os.write(self.to, json.dumps(text).encode() + b"\0")
        while True:
            got = self.message()
            if got.get("id") == self.count:
                if "error" in got:
                    raise RuntimeError(f"{method}: {got['error']['message']}")
                return got["result"]
            self.events.append(got)

    def ask(self, expression):
        """Returns the value of an expression of the page; a promise is waited for."""
        got = self.call("Runtime.evaluate", expression=expression, awaitPromise=True, returnByValue=True)
        if "exceptionDetails" in got:
            raise RuntimeError(got["exceptionDetails"].get("exception", {}).get("description", expression))
        return got["result"].get("value")

    def look(self, width, height, is_dark=False):
        """Sets the window's size and its colours."""
        self.call("Emulation.setDeviceMetricsOverride", width=width, height=height, deviceScaleFactor=1, mobile=False)
        colours = {"name": "prefers-color-scheme", "value": "dark" if is_dark else "light"}
        self.call("Emulation.setEmulatedMedia", features=[colours])

    def open(self, url):
        """Opens an address, and waits until it is loaded: anew, also where another place of that page is open."""
        if "#" in url:
            self.open("about:blank")
        self.events = []
        self.call("Page.navigate", url=url)
        while not any(it.get("method") == "Page.loadEventFired" for it in self.events):
            self.events.append(self.message())

    def faults(self):
        """Returns what the console told of faults since the page was opened, and what was asked of other places."""
        found = []
        for it in self.events:
            params = it.get("params", {})
            if it.get("method") == "Runtime.exceptionThrown":
                found.append(str(params["exceptionDetails"].get("exception", {}).get("description", params)))
            if it.get("method") == "Log.entryAdded" and params["entry"]["level"] in ("error", "warning"):
                found.append(params["entry"]["text"])
            if it.get("method") == "Runtime.consoleAPICalled" and params["type"] in ("error", "warning", "assert"):
                found.append(str(params["args"]))
            if it.get("method") == "Network.requestWillBeSent":
                url = params["request"]["url"]
                if not url.startswith(("file:", "data:", "about:", "blob:")):
                    found.append(f"asks for {url}")
        return found

    def picture(self, x, y, width, height):
        """Returns a part of the page as PNG bytes."""
        clip = {"x": x, "y": y, "width": width, "height": height, "scale": 1}
        got = self.call("Page.captureScreenshot", format="png", clip=clip, captureBeyondViewport=True)
        return base64.b64decode(got["data"])

    def close(self):
        try:
            self.session = None
            self.call("Browser.close")
        except (OSError, EOFError, TimeoutError, RuntimeError):
            pass
        for it in (self.to, self.come):
            os.close(it)
        try:
            self.process.wait(20)
        except subprocess.TimeoutExpired:
            self.process.kill()
        shutil.rmtree(self.folder, ignore_errors=True)


def unfilter(kind, row, above, step):
    """Undoes the filter of a row of a PNG."""
    for i in range(len(row)):
        left = row[i - step] if i >= step else 0
        up, corner = above[i], above[i - step] if i >= step else 0
        if kind == 1:
            add = left
        elif kind == 2:
            add = up
        elif kind == 3:
            add = (left + up) // 2
        else:
            near = left + up - corner
            gaps = abs(near - left), abs(near - up), abs(near - corner)
            add = left if gaps[0] <= gaps[1] and gaps[0] <= gaps[2] else up if gaps[1] <= gaps[2] else corner
        row[i] = (row[i] + add) & 255


def pixels(png):
    """Returns the width, the height, and the rows of a PNG with eight bits a channel: three bytes for each pixel."""
    at, data, head = 8, b"", None
    while at < len(png):
        size, kind = struct.unpack(">I4s", png[at:at + 8])
        body = png[at + 8:at + 8 + size]
        head = struct.unpack(">IIBBBBB", body) if kind == b"IHDR" else head
        data += body if kind == b"IDAT" else b""
        at += 12 + size
    width, height, depth, colours = head[:4]
    if depth != 8 or colours not in (2, 6) or head[6]:
        raise ValueError("a PNG of another kind")
    step = 3 if colours == 2 else 4
    raw, rows, above = zlib.decompress(data), [], bytearray(width * step)
    for y in range(height):
        begin = y * (width * step + 1)
        row = bytearray(raw[begin + 1:begin + 1 + width * step])
        if raw[begin]:
            unfilter(raw[begin], row, above, step)
        above = row
        rows.append(bytes(row) if step == 3 else bytes(it for i in range(0, len(row), 4) for it in row[i:i + 3]))
    return width, height, rows
