"""Headless browsers for the tests of the page: Chromium by its DevTools protocol over two pipes, and Firefox by
WebDriver BiDi over a socket. Both speak JSON; what they report in between is kept in `events`."""
import base64
import fcntl
import json
import os
import re
import select
import shutil
import socket
import struct
import subprocess
import tempfile
import time

# how long an answer may take, also where other work takes the processors
SECONDS = 60
ALT, CONTROL, SHIFT = 1, 2, 8


class Failed(Exception):
    """What the browser or the page refuses."""


class Pipes:
    """What Chromium is spoken to by: it reads from 3 and writes to 4, and ends each message with an octet 0."""

    def __init__(self, words):
        (theirs_in, self.to), (self.of, theirs_out) = self.pipe(), self.pipe()

        def give():
            os.dup2(theirs_in, 3)
            os.dup2(theirs_out, 4)

        self.process = subprocess.Popen(  # pylint: disable=subprocess-popen-preexec-fn,consider-using-with
            words, stdin=subprocess.DEVNULL, stdout=subprocess.DEVNULL, stderr=subprocess.DEVNULL, close_fds=False,
            preexec_fn=give)
        os.close(theirs_in)
        os.close(theirs_out)
        self.left = b""

    @staticmethod
    def pipe():
        """Makes a pipe whose ends are numbers from 10 on, so that none is 3 or 4."""
        ends = os.pipe2(os.O_CLOEXEC)
        moved = [fcntl.fcntl(it, fcntl.F_DUPFD_CLOEXEC, 10) for it in ends]
        for it in ends:
            os.close(it)
        return moved

    def put(self, text):
        octets = text.encode() + b"\0"
        while octets:
            octets = octets[os.write(self.to, octets[:1 << 16]):]

    def take(self, until):
        """Returns the next message, or None if none comes up to a time."""
        while b"\0" not in self.left:
            if not select.select([self.of], [], [], max(0, until - time.monotonic()))[0]:
                return None
            octets = os.read(self.of, 1 << 16)
            if not octets:
                raise Failed("the browser has ended")
            self.left += octets
        one, self.left = self.left.split(b"\0", 1)
        return one

    def close(self):
        os.close(self.to)
        os.close(self.of)


class Socket:
    """What Firefox is spoken to by: a WebSocket (RFC 6455), whose address it writes to standard error."""

    def __init__(self, words):
        self.process = subprocess.Popen(  # pylint: disable=consider-using-with
            words, stdin=subprocess.DEVNULL, stdout=subprocess.DEVNULL, stderr=subprocess.PIPE)
        line = b""
        while b"BiDi listening on" not in line:
            line = self.process.stderr.readline()
            if not line:
                raise Failed("the browser has ended")
        port = int(re.search(rb":(\d+)", line.split(b"//")[1])[1])
        self.of = socket.create_connection(("127.0.0.1", port))
        key = base64.b64encode(os.urandom(16)).decode()
        head = ("GET /session HTTP/1.1", f"Host: 127.0.0.1:{port}", "Upgrade: websocket", "Connection: Upgrade",
                f"Sec-WebSocket-Key: {key}", "Sec-WebSocket-Version: 13", "", "")
        self.of.sendall("\r\n".join(head).encode())
        self.left = b""
        while b"\r\n\r\n" not in self.left:
            self.left += self.of.recv(4096)
        self.left = self.left.split(b"\r\n\r\n", 1)[1]

    def put(self, text):
        octets, mask = text.encode(), os.urandom(4)
        size, big = len(octets), len(octets) > 0xFFFF
        head = struct.pack(">BBQ" if big else ">BBH" if size > 125 else ">BB", 0x81,
                           0x80 | (127 if big else 126 if size > 125 else size), *[size] * (size > 125))
        masked = bytes(it ^ mask[k % 4] for k, it in enumerate(octets))
        self.of.sendall(head + mask + masked)

    def have(self, count, until):
        """Waits for octets; returns whether as many as `count` came up to a time."""
        while len(self.left) < count:
            if not select.select([self.of], [], [], max(0, until - time.monotonic()))[0]:
                return False
            octets = self.of.recv(1 << 16)
            if not octets:
                raise Failed("the browser has ended")
            self.left += octets
        return True

    def take(self, until):
        """Returns the next message, or None if none comes up to a time."""
        whole = b""
        while self.have(2, until):
            short = self.left[1] & 0x7F
            head = {126: 4, 127: 10}.get(short, 2)
            if not self.have(head, until):
                return None
            size = int.from_bytes(self.left[2:head], "big") if head > 2 else short
            if not self.have(head + size, until):
                return None
            kind, part = self.left[0], self.left[head:head + size]
            self.left = self.left[head + size:]
            if kind & 0x0F <= 2:
                whole += part
                if kind & 0x80:
                    return whole
        return None

    def close(self):
        self.of.close()
        self.process.stderr.close()


class Page:
    """A browser with one page, in a profile of its own."""

    NAMES = FLAGS = ()
    SETTINGS = ""
    WAY = None

    @classmethod
    def found(cls):
        """Returns the browser that is installed, or None."""
        return os.environ.get(cls.__name__.upper()) or next(filter(None, map(shutil.which, cls.NAMES)), None)

    def __init__(self, path, address="", width=1280, height=900, dark=False):
        self.home = tempfile.mkdtemp(prefix="warnc-page-")
        with open(os.path.join(self.home, "user.js"), "w", encoding="ascii") as it:
            it.write(self.SETTINGS)
        self.way = self.WAY([self.found(), *(it.format(self.home) for it in self.FLAGS), "about:blank"])
        self.count, self.events, self.path = 0, [], os.path.realpath(path)
        try:
            self.begin()
            self.size(width, height)
            self.look(dark)
            self.go(f"file://{self.path}{'#' if address else ''}{address}")
        except Failed:
            self.leave()
            raise

    def __enter__(self):
        return self

    def __exit__(self, *_):
        try:
            self.end()
            self.way.process.wait(10)
        except (Failed, OSError, subprocess.TimeoutExpired):
            pass
        self.leave()

    def leave(self):
        """Ends the browser, if it hasn't ended, and removes its profile."""
        self.way.process.kill()
        self.way.process.wait()
        self.way.close()
        shutil.rmtree(self.home, ignore_errors=True)

    def send(self, method, **given):
        """Has the browser do something, and returns what it answers."""
        self.count += 1
        self.way.put(json.dumps({"id": self.count, "method": method, "params": given, **self.more(method)}))
        until = time.monotonic() + SECONDS
        while True:
            octets = self.way.take(until)
            if octets is None:
                raise Failed(f"{method} took over {SECONDS} s")
            said = json.loads(octets)
            if said.get("id") == self.count:
                if "error" in said:
                    raise Failed(f"{method}: {said.get('message', said['error'])}")
                return said["result"]
            self.events.append(said)
            self.heard(said)

    def more(self, _method):
        return {}

    def heard(self, said):
        pass

    def run(self, code):
        """Runs code in the page, and returns what it returns."""
        said = self.evaluate(f"(async () => JSON.stringify((await (async () => {{{code}}})()) ?? null))()")
        return json.loads(said)

    def until(self, condition, seconds=30):
        """Waits until something holds in the page."""
        end = time.monotonic() + seconds
        while time.monotonic() < end:
            try:
                if self.run(f"return Boolean({condition})"):
                    return
            except Failed:
                pass
            time.sleep(0.02)
        raise Failed(f"waited in vain for {condition}")

    def asked(self):
        """Returns the addresses that the page and its workers asked for, but for what is in the page itself."""
        return [it for it in self.addresses() if not it.startswith(("blob:", "data:", "about:"))]


class Chromium(Page):
    """Chromium, with its page and workers as targets of one connection."""

    NAMES = ("chromium", "chromium-browser", "google-chrome")
    FLAGS = ("--headless=new", "--no-sandbox", "--disable-gpu", "--hide-scrollbars", "--no-first-run", "--disable-sync",
             "--disable-background-networking", "--disable-component-update", "--disable-extensions", "--lang=en",
             "--remote-debugging-pipe", "--user-data-dir={}")
    WAY = Pipes
    # what it calls keys that write nothing
    CODES = {"Enter": 13, "Tab": 9, "Escape": 27, "PageUp": 33, "PageDown": 34, "End": 35, "Home": 36, "ArrowLeft": 37,
             "ArrowUp": 38, "ArrowRight": 39, "ArrowDown": 40, "Delete": 46, "Backspace": 8, "F2": 113}
    session = None

    def begin(self):
        targets = self.send("Target.getTargets")["targetInfos"]
        page = next(it["targetId"] for it in targets if it["type"] == "page")
        self.session = self.send("Target.attachToTarget", targetId=page, flatten=True)["sessionId"]
        for domain in ("Page", "Runtime", "Log", "Network"):
            self.send(f"{domain}.enable")
        self.send("Target.setAutoAttach", autoAttach=True, waitForDebuggerOnStart=False, flatten=True)

    def end(self):
        self.session = None
        self.send("Browser.close")

    def more(self, _method):
        return {"sessionId": self.session} if self.session else {}

    def heard(self, said):
        """Asks for the requests and faults of a worker, too."""
        if said.get("method") == "Target.attachedToTarget":
            for domain in ("Network", "Runtime"):
                self.way.put(json.dumps({"id": 0, "method": f"{domain}.enable", "params": {},
                                         "sessionId": said["params"]["sessionId"]}))

    def evaluate(self, expression):
        said = self.send("Runtime.evaluate", expression=expression, awaitPromise=True, returnByValue=True)
        if "exceptionDetails" in said:
            raise Failed(said["exceptionDetails"].get("exception", {}).get("description", "a fault of the page"))
        return said["result"]["value"]

    def go(self, address):
        self.send("Page.navigate", url=address)

    def size(self, width, height):
        self.send("Emulation.setDeviceMetricsOverride", width=width, height=height, deviceScaleFactor=1, mobile=False)

    def look(self, dark, media=""):
        features = [{"name": "prefers-color-scheme", "value": "dark" if dark else "light"}]
        self.send("Emulation.setEmulatedMedia", media=media, features=features)

    def key(self, key, modifiers=0, code=""):
        number = self.CODES.get(key, ord(key.upper()[0]))
        words = {"key": key, "code": code or key, "modifiers": modifiers, "windowsVirtualKeyCode": number}
        text = "\r" if key == "Enter" else key if len(key) == 1 and not modifiers & (ALT | CONTROL) else ""
        kind = {"type": "keyDown", "text": text} if text else {"type": "rawKeyDown"}
        self.send("Input.dispatchKeyEvent", **kind, **words)
        self.send("Input.dispatchKeyEvent", type="keyUp", **words)

    def type(self, text):
        self.send("Input.insertText", text=text)

    def shot(self, path, height=0, scale=1):
        """Writes a picture of the page, or of so much of it from above."""
        width, whole = self.run("return [innerWidth, document.documentElement.scrollHeight]")
        clip = {"x": 0, "y": 0, "width": width, "height": height or whole, "scale": scale}
        said = self.send("Page.captureScreenshot", format="png", captureBeyondViewport=True, clip=clip)
        with open(path, "wb") as it:
            it.write(base64.b64decode(said["data"]))

    def addresses(self):
        sent = [it for it in self.events if it.get("method") == "Network.requestWillBeSent"]
        return [it["params"]["request"]["url"] for it in sent]

    def complaints(self):
        """Returns the faults and refusals that the browser reported."""
        said = []
        for it in self.events:
            given = it.get("params", {})
            if it.get("method") == "Runtime.exceptionThrown":
                said.append(str(given["exceptionDetails"])[:300])
            elif it.get("method") == "Log.entryAdded" and given["entry"]["level"] == "error":
                said.append(given["entry"]["text"])
            elif it.get("method") == "Runtime.consoleAPICalled" and given["type"] in ("error", "warning"):
                said.append(str(given["args"])[:300])
        return said


class Firefox(Page):
    """Firefox, with one tab."""

    NAMES = ("firefox", "firefox-esr")
    FLAGS = ("--headless", "--no-remote", "--profile", "{}", "--remote-debugging-port", "0")
    WAY = Socket
    # it takes its window for the one in front, as keys ask for
    SETTINGS = 'user_pref("focusmanager.testmode", true);\n'
    # what WebDriver calls keys that write nothing
    KEYS = {"Enter": "\ue007", "Tab": "\ue004", "Escape": "\ue00c", "PageUp": "\ue00e", "PageDown": "\ue00f",
            "End": "\ue010", "Home": "\ue011", "ArrowLeft": "\ue012", "ArrowUp": "\ue013", "ArrowRight": "\ue014",
            "ArrowDown": "\ue015", "Delete": "\ue017", "Backspace": "\ue003", "F2": "\ue032"}
    MODIFIERS = {ALT: "\ue00a", CONTROL: "\ue009", SHIFT: "\ue008"}

    def begin(self):
        self.send("session.new", capabilities={})
        self.context = self.send("browsingContext.getTree")["contexts"][0]["context"]
        self.send("session.subscribe", events=["network.beforeRequestSent", "log.entryAdded"])

    def end(self):
        self.send("browser.close")

    def evaluate(self, expression):
        said = self.send("script.evaluate", expression=expression, target={"context": self.context}, awaitPromise=True)
        if said["type"] != "success":
            raise Failed(said["exceptionDetails"]["text"])
        return said["result"]["value"]

    def go(self, address):
        self.send("browsingContext.navigate", context=self.context, url=address, wait="complete")

    def size(self, width, height):
        self.send("browsingContext.setViewport", context=self.context, viewport={"width": width, "height": height})

    def look(self, dark, media=""):
        """It stays as it is: WebDriver has no word for it."""

    def key(self, key, modifiers=0, code=""):
        held = [it for bit, it in self.MODIFIERS.items() if modifiers & bit]
        value = self.KEYS.get(key, key)
        steps = [("keyDown", it) for it in [*held, value]] + [("keyUp", it) for it in [value, *held[::-1]]]
        actions = [{"type": kind, "value": it} for kind, it in steps]
        self.send("input.performActions", context=self.context,
                  actions=[{"type": "key", "id": "keyboard", "actions": actions}])

    def type(self, text):
        self.run(f"document.execCommand('insertText', false, {json.dumps(text)})")

    def addresses(self):
        sent = [it["params"] for it in self.events if it.get("method") == "network.beforeRequestSent"]
        return [it["request"]["url"] for it in sent]

    def complaints(self):
        entries = [it["params"] for it in self.events if it.get("method") == "log.entryAdded"]
        return [str(it["text"])[:300] for it in entries if it["level"] == "error"]


def installed():
    """Returns the browsers that are installed."""
    return [it for it in (Chromium, Firefox) if it.found()]
