"""Debian's chromium, headless, driven by its debugging pipe (the Chrome DevTools Protocol): for view_browser.py. Standard library only."""
import base64
import json
import os
import select
import shutil
import subprocess
import tempfile
import time

WORDS = ["--headless=new", "--no-sandbox", "--disable-gpu", "--remote-debugging-pipe", "--no-first-run", "--disable-background-networking",
         "--disable-component-update", "--disable-sync", "--disable-extensions", "--disable-dev-shm-usage", "--force-color-profile=srgb"]
KEYS = {"Tab": 9, "Enter": 13, "ArrowRight": 39, "ArrowDown": 40}
PATIENCE = 60    # seconds


class Chrome:
    """A browser with one page. `events` are the messages of the protocol that answer no call."""

    def __init__(self):
        self.folder = tempfile.mkdtemp(prefix="view-chrome-")
        to_read, to_write = os.pipe()
        from_read, from_write = os.pipe()

        def pipes():
            # the browser reads at 3 and writes at 4, and either number may be a pipe's already
            read, write = os.dup(to_read), os.dup(from_write)
            os.dup2(read, 3)
            os.dup2(write, 4)

        self.process = subprocess.Popen(["chromium", *WORDS, f"--user-data-dir={self.folder}", "about:blank"], preexec_fn=pipes,
                                        close_fds=False, stdout=subprocess.DEVNULL, stderr=subprocess.DEVNULL)
        os.close(to_read)
        os.close(from_write)
        self.out, self.into = to_write, from_read
        self.buffer, self.number, self.events, self.session = b"", 0, [], None
        target = self.call("Target.createTarget", url="about:blank")["targetId"]
        self.session = self.call("Target.attachToTarget", targetId=target, flatten=True)["sessionId"]
        for domain in ("Page", "Runtime", "Log", "Network", "Audits"):
            self.call(f"{domain}.enable")

    def send(self, method, params):
        """Sends a call, and returns its number."""
        self.number += 1
        message = {"id": self.number, "method": method, "params": params}
        if self.session:
            message["sessionId"] = self.session
        octets = json.dumps(message).encode() + b"\0"
        while octets:
            octets = octets[os.write(self.out, octets):]
        return self.number

    def message(self, until):
        """The next message, if one comes in time."""
        while b"\0" not in self.buffer:
            left = until - time.time()
            if left <= 0 or not select.select([self.into], [], [], left)[0]:
                return None
            octets = os.read(self.into, 1 << 16)
            if not octets:
                raise RuntimeError("chromium ended")
            self.buffer += octets
        text, self.buffer = self.buffer.split(b"\0", 1)
        return json.loads(text)

    def call(self, method, **params):
        """What a call gives."""
        number, until = self.send(method, params), time.time() + PATIENCE
        while message := self.message(until):
            if message.get("id") != number:
                self.events.append(message)
            elif "error" in message:
                raise RuntimeError(f"{method}: {message['error']}")
            else:
                return message["result"]
        raise RuntimeError(f"no answer to {method}")

    def wait(self, seconds):
        until = time.time() + seconds
        while message := self.message(until):
            self.events.append(message)

    def wait_for(self, expression, seconds):
        """Waits until an expression is true, and returns how many seconds that took; None if it doesn't become so."""
        began = time.time()
        while time.time() < began + seconds:
            if self.js(expression):
                return time.time() - began
            self.wait(0.1)
        return None

    def go(self, url):
        """Opens a page, and waits until it is loaded."""
        self.call("Page.navigate", url=url)
        if self.wait_for("document.readyState === 'complete' && location.href !== 'about:blank'", PATIENCE) is None:
            raise RuntimeError(f"not loaded: {url}")

    def js(self, expression):
        """The value of an expression of JavaScript."""
        result = self.call("Runtime.evaluate", expression=expression, returnByValue=True, awaitPromise=True)
        if "exceptionDetails" in result:
            raise RuntimeError(f"{expression}: {result['exceptionDetails']}")
        return result["result"].get("value")

    def size(self, width, height, is_mobile=False):
        self.call("Emulation.setDeviceMetricsOverride", width=width, height=height, deviceScaleFactor=1, mobile=is_mobile)

    def scheme(self, name):
        """Prefers `light` or `dark`."""
        self.call("Emulation.setEmulatedMedia", features=[{"name": "prefers-color-scheme", "value": name}])

    def shot(self, path, element="document.documentElement"):
        """Writes a picture of an element, of its first 2,400 pixels at most."""
        box = self.js(f"(r => ({{x: r.x + scrollX, y: r.y + scrollY, width: r.width, height: Math.min(r.height, 2400)}}))({element}.getBoundingClientRect())")
        picture = self.call("Page.captureScreenshot", format="png", captureBeyondViewport=True, clip={**box, "scale": 1})["data"]
        with open(path, "wb") as file:
            file.write(base64.b64decode(picture))

    def key(self, name):
        words = {"key": name, "code": name, "windowsVirtualKeyCode": KEYS[name]}
        self.call("Input.dispatchKeyEvent", type="keyDown", **words)
        self.call("Input.dispatchKeyEvent", type="keyUp", **words)

    def click(self, expression):
        """Clicks into the middle of the element that an expression gives."""
        x, y = self.js(f"(() => {{ const one = {expression}; one.scrollIntoView({{block: 'center'}}); const r = one.getBoundingClientRect();"
                       " return [r.x + r.width / 2, r.y + r.height / 2] })()")
        for kind in ("mousePressed", "mouseReleased"):
            self.call("Input.dispatchMouseEvent", type=kind, x=x, y=y, button="left", clickCount=1)

    def said(self):
        """What the console, the log and the inspector's issues say."""
        found = []
        for event in self.events:
            params = event.get("params", {})
            if event.get("method") == "Runtime.consoleAPICalled":
                found.append(f"console.{params['type']} {[one.get('value', one.get('description')) for one in params['args']]}")
            elif event.get("method") == "Runtime.exceptionThrown":
                details = params["exceptionDetails"]
                found.append(f"exception {details.get('exception', {}).get('description', details['text'])}")
            elif event.get("method") == "Log.entryAdded":
                found.append(f"log {params['entry']['level']} {params['entry']['text']} {params['entry'].get('url', '')}")
            elif event.get("method") == "Audits.issueAdded":
                found.append(f"issue {params['issue']['code']} {json.dumps(params['issue']['details'])[:300]}")
        return found

    def asked(self):
        """The addresses that the page asked for."""
        return [event["params"]["request"]["url"] for event in self.events if event.get("method") == "Network.requestWillBeSent"]

    def close(self):
        try:
            self.session = None
            self.send("Browser.close", {})
            self.process.wait(10)
        except (OSError, subprocess.TimeoutExpired):
            self.process.kill()
            self.process.wait()
        os.close(self.out)
        os.close(self.into)
        shutil.rmtree(self.folder, ignore_errors=True)
