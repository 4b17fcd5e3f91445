"""A headless Chromium, driven through its pipe: what a page loads, says and shows."""
import base64
import contextlib
import json
import os
import select
import shutil
import subprocess
import tempfile

PROGRAM = shutil.which("chromium") or shutil.which("chromium-browser") or ""
WORDS = ("--headless", "--no-sandbox", "--disable-gpu", "--disable-dev-shm-usage", "--no-first-run", "--disable-extensions",
         "--disable-background-networking", "--disable-component-update", "--hide-scrollbars", "--remote-debugging-pipe")

SECONDS = 7200


class Browser:
    """One page of a browser. Events are kept in the order in which they came."""

    def __init__(self):
        if not PROGRAM:
            raise OSError("there is no chromium")
        self.room = tempfile.mkdtemp()
        (here_in, out), (self.into, there_in) = os.pipe()[::-1], os.pipe()
        # the browser reads descriptor 3 and writes descriptor 4
        words = f'exec "$0" "$@" 3<&{out} 4>&{there_in}'
        self.out = here_in
        self.browser = subprocess.Popen(["bash", "-c", words, PROGRAM, *WORDS, f"--user-data-dir={self.room}", "about:blank"],
                                        pass_fds=(out, there_in), stdin=subprocess.DEVNULL, stdout=subprocess.DEVNULL,
                                        stderr=subprocess.DEVNULL)
        os.close(out)
        os.close(there_in)
        self.left, self.number, self.events, self.session = b"", 0, [], None
        target = next(each for each in self.call("Target.getTargets")["targetInfos"] if each["type"] == "page")
        self.session = self.call("Target.attachToTarget", targetId=target["targetId"], flatten=True)["sessionId"]
        for domain in ("Page", "Runtime", "Log", "Network"):
            self.call(f"{domain}.enable")
        self.call("Performance.enable", timeDomain="threadTicks")

    def __enter__(self):
        return self

    def __exit__(self, *_):
        self.session = None
        with contextlib.suppress(OSError):
            self.call("Browser.close")
        os.close(self.out)
        try:
            self.browser.wait(60)
        except subprocess.TimeoutExpired:
            self.browser.kill()
            self.browser.wait()
        os.close(self.into)
        # its helpers may still write there
        shutil.rmtree(self.room, ignore_errors=True)

    def next_message(self):
        while b"\0" not in self.left:
            if not select.select([self.into], [], [], SECONDS)[0]:
                raise OSError(f"the browser told nothing for {SECONDS} seconds")
            got = os.read(self.into, 1 << 20)
            if not got:
                raise OSError("the browser has ended")
            self.left += got
        text, _, self.left = self.left.partition(b"\0")
        return json.loads(text)

    def call(self, method, **values):
        self.number += 1
        message = {"id": self.number, "method": method, "params": values}
        if self.session:
            message["sessionId"] = self.session
        os.write(self.out, json.dumps(message).encode() + b"\0")
        while True:
            told = self.next_message()
            if told.get("id") == self.number:
                if "error" in told:
                    raise OSError(f"{method}: {told['error']['message']}")
                return told["result"]
            self.events.append(told)

    def open(self, file, width, media="screen", scheme="light"):
        """Opens a file as a page of a width, and returns the events until it stood."""
        self.call("Emulation.setDeviceMetricsOverride", width=width, height=900, deviceScaleFactor=1, mobile=width < 600)
        self.call("Emulation.setEmulatedMedia", media=media, features=[{"name": "prefers-color-scheme", "value": scheme}])
        self.events = []
        self.call("Page.navigate", url=f"file://{file}")
        while not any(each.get("method") == "Page.loadEventFired" for each in self.events):
            self.events.append(self.next_message())
        return self.events

    def value(self, expression):
        return self.call("Runtime.evaluate", expression=expression, returnByValue=True)["result"].get("value")

    def picture(self, file, height=None, scale=1):
        """A picture of the page, from its top as far as it goes or to a height."""
        size = self.call("Page.getLayoutMetrics")["cssContentSize"]
        clip = {"x": 0, "y": 0, "width": size["width"], "height": min(size["height"], height or size["height"]),
                "scale": scale}
        shown = self.call("Page.captureScreenshot", format="png", clip=clip, captureBeyondViewport=True)
        with open(file, "wb") as out:
            out.write(base64.b64decode(shown["data"]))

    def printed(self, file):
        """Prints the page on A4, as `open` has opened it for print."""
        made = self.call("Page.printToPDF", printBackground=False, paperWidth=8.27, paperHeight=11.69, preferCSSPageSize=True)
        with open(file, "wb") as out:
            out.write(base64.b64decode(made["data"]))

    def seconds(self):
        """The seconds of processor that the page's main thread took since it was opened, by the browser's own counters."""
        metrics = {each["name"]: each["value"] for each in self.call("Performance.getMetrics")["metrics"]}
        return metrics["TaskDuration"]

    def key(self, name, text="", shift=False):
        """Presses a key and lets it go."""
        codes = {"Tab": 9, "Enter": 13, "Escape": 27, " ": 32}
        values = {"key": name, "windowsVirtualKeyCode": codes.get(name, ord(name[0].upper())), "modifiers": 8 if shift else 0}
        text = text or {"Enter": "\r", " ": " "}.get(name, name if len(name) == 1 else "")
        self.call("Input.dispatchKeyEvent", type="keyDown" if text else "rawKeyDown", text=text, **values)
        self.call("Input.dispatchKeyEvent", type="keyUp", **values)

    def settle(self):
        """Waits until what was done is drawn."""
        self.call("Runtime.evaluate", expression="new Promise((done) => requestAnimationFrame(() => requestAnimationFrame(done)))",
                  awaitPromise=True)
