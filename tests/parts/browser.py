"""A headless Chromium by its DevTools protocol, over a pipe: what tests/parts/page needs of it, with Python's own library."""
import base64
import json
import os
import shutil
import subprocess
import tempfile
import time

PROGRAMS = ("chromium", "chromium-browser", "google-chrome", "chrome")
PATIENCE = 120


def program():
    """The path of a Chromium, or None."""
    return next((found for it in PROGRAMS if (found := shutil.which(it))), None)


class Fault(Exception):
    """What the browser refuses, or a wait that is too long."""


class Browser:
    """A browser with one page. Each command waits for its answer; what the page tells meanwhile is in `told`."""

    def __init__(self, path):
        self.folder = tempfile.mkdtemp()
        down, self.out = os.pipe()
        self.into, up = os.pipe()
        words = ["--headless=new", "--remote-debugging-pipe", f"--user-data-dir={self.folder}", "--no-first-run", "--disable-gpu", "--hide-scrollbars",
                 "--disable-background-networking", "--disable-component-update", "--disable-dev-shm-usage", "--force-color-profile=srgb"]
        if os.geteuid() == 0:
            words.append("--no-sandbox")
        # The browser reads commands from its file 3, and writes to 4.
        self.process = subprocess.Popen(["bash", "-c", f'exec "$0" "$@" 3<&{down} 4>&{up}', path, *words, "about:blank"], pass_fds=(down, up),
                                        stdin=subprocess.DEVNULL, stdout=subprocess.DEVNULL, stderr=subprocess.DEVNULL)
        os.close(down)
        os.close(up)
        self.last, self.rest, self.told, self.session = 0, b"", [], None
        target = next(it for it in self.call("Target.getTargets")["targetInfos"] if it["type"] == "page")
        self.session = self.call("Target.attachToTarget", targetId=target["targetId"], flatten=True)["sessionId"]
        for domain in ("Page", "Runtime", "Network", "Log", "DOM"):
            self.call(f"{domain}.enable")

    def message(self):
        """The next message that the browser writes."""
        while b"\0" not in self.rest:
            piece = os.read(self.into, 1 << 20)
            if not piece:
                raise Fault("the browser has ended")
            self.rest += piece
        text, _, self.rest = self.rest.partition(b"\0")
        return json.loads(text)

    def call(self, method, **given):
        """The result of a command."""
        self.last += 1
        asked = {"id": self.last, "method": method, "params": given}
        if self.session:
            asked["sessionId"] = self.session
        text = json.dumps(asked).encode() + b"\0"
        while text:
            text = text[os.write(self.out, text):]
        while True:
            said = self.message()
            if said.get("id") == self.last:
                if "error" in said:
                    raise Fault(f"{method}: {said['error']['message']}")
                return said["result"]
            self.told.append(said)

    def value(self, script):
        """The value of an expression in the page; a promise is waited for."""
        said = self.call("Runtime.evaluate", expression=script, returnByValue=True, awaitPromise=True, userGesture=True)
        if "exceptionDetails" in said:
            raise Fault(said["exceptionDetails"].get("exception", {}).get("description", "a fault in the page"))
        return said["result"].get("value")

    def wait(self, script, patience=PATIENCE):
        """Waits until an expression in the page is true."""
        end = time.monotonic() + patience
        while not self.value(f"Boolean({script})"):
            if time.monotonic() > end:
                raise Fault(f"waited too long for {script}")
            time.sleep(0.01)

    def open(self, address):
        self.call("Page.navigate", url=address)
        self.wait("document.readyState === 'complete' && 'page' in globalThis")

    def drop(self, files):
        """Drops files on the middle of the place for them, as a hand would."""
        at = self.value("(() => { const box = document.getElementById('drop').getBoundingClientRect(); return [box.x + box.width / 2, box.y + box.height / 2]; })()")
        data = {"items": [], "files": [str(it) for it in files], "dragOperationsMask": 1}
        for kind in ("dragEnter", "dragOver", "drop"):
            self.call("Input.dispatchDragEvent", type=kind, x=at[0], y=at[1], data=data)

    def key(self, name, text="", modifiers=0, **more):
        """Presses a key."""
        code = {"Tab": 9, "Enter": 13, " ": 32, "End": 35, "Home": 36, "ArrowLeft": 37, "ArrowUp": 38, "ArrowRight": 39, "ArrowDown": 40}.get(name, ord(name[0].upper()))
        given = {"key": name, "code": {" ": "Space"}.get(name, name), "windowsVirtualKeyCode": code, "modifiers": modifiers, **more}
        self.call("Input.dispatchKeyEvent", type="keyDown", text=text, **given)
        self.call("Input.dispatchKeyEvent", type="keyUp", **given)

    def type_into(self, name, text):
        """Puts a text in the place of what a field has."""
        self.value(f"(() => {{ const field = document.getElementById('{name}'); field.focus(); field.select(); }})()")
        if text:
            self.call("Input.insertText", text=text)
        else:
            self.key("Delete", windowsVirtualKeyCode=46) if self.value(f"document.getElementById('{name}').value !== ''") else None

    def size(self, width, height, scale=1):
        self.call("Emulation.setDeviceMetricsOverride", width=width, height=height, deviceScaleFactor=scale, mobile=width < 600)

    def scheme(self, name):
        self.call("Emulation.setEmulatedMedia", features=[{"name": "prefers-color-scheme", "value": name}])

    def picture(self, file, width, height):
        """Writes a picture of the page in a window of this size."""
        self.size(width, height)
        self.value("new Promise((done) => requestAnimationFrame(() => requestAnimationFrame(done)))")
        file.write_bytes(base64.b64decode(self.call("Page.captureScreenshot", format="png")["data"]))

    def close(self):
        """Ends the browser, and removes what it has written."""
        try:
            self.session = None
            self.call("Browser.close")
            self.process.wait(10)
        except (Fault, OSError, subprocess.TimeoutExpired):
            self.process.kill()
            self.process.wait()
        os.close(self.out)
        os.close(self.into)
        shutil.rmtree(self.folder, ignore_errors=True)
