"""Debian's Chromium without a window, driven as a person would by its DevTools protocol, over two pipes."""

import base64
import hashlib
import json
import os
import select
import subprocess
import time

from modules.programs import openssl

PROGRAM = "/usr/bin/chromium"
# what a slow machine takes to start it, and to do one thing
SECONDS_TO_START, SECONDS = 240, 300
WORDS = (
    "--headless",
    "--remote-debugging-pipe",
    "--disable-gpu",
    "--disable-dev-shm-usage",
    "--disable-background-networking",
    "--disable-component-update",
    "--no-first-run",
    "--no-proxy-server",
    "--mute-audio",
)
# two frames, or a tenth of a second where none is drawn
FRAMES = """new Promise((done) => {
  requestAnimationFrame(() => requestAnimationFrame(() => done(true)));
  setTimeout(() => done(true), 100);
})"""
# of keys: code and the text that they type
KEYS = {"Tab": (9, ""), "Enter": (13, "\r"), "Escape": (27, ""), "Space": (32, " ")}


def fingerprint(pem):
    """What Chromium is told of a server's key that it is to trust: SHA-256 of the public key, in base 64."""
    public, _ = openssl("x509", "-in", pem, "-noout", "-pubkey")
    der, _ = openssl("pkey", "-pubin", "-outform", "DER", input=public)
    return base64.b64encode(hashlib.sha256(der).digest()).decode()


class Browser:
    """One window, on a page of this host's, which is found at an address; no other host is."""

    def __init__(self, folder, host, address, pem, width=1000, height=1300):
        self.folder, self.downloads = folder, os.path.join(folder, "downloads")
        os.makedirs(self.downloads, exist_ok=True)
        words = [
            *WORDS,
            f"--user-data-dir={folder}/profile",
            f"--host-resolver-rules=MAP {host} {address}, MAP * ~NOTFOUND, EXCLUDE {address}",
            f"--ignore-certificate-errors-spki-list={fingerprint(pem)}",
            f"--window-size={width},{height}",
            *(["--no-sandbox"] if os.geteuid() == 0 else []),
        ]
        to_read, self.to_write = os.pipe()
        self.to_read, to_write = os.pipe()
        # the program reads at 3 and writes at 4
        script = f'exec "$@" 3<&{to_read} 4>&{to_write}'
        how = {"stdin": subprocess.DEVNULL, "stdout": subprocess.DEVNULL, "pass_fds": (to_read, to_write)}
        with open(os.path.join(folder, "chromium.errors"), "wb") as errors:
            bash = ["bash", "-c", script, "bash", PROGRAM, *words, "about:blank"]
            self.process = subprocess.Popen(bash, stderr=errors, start_new_session=True, **how)
        os.close(to_read)
        os.close(to_write)
        self.taken, self.number, self.session = b"", 0, None
        self.requests, self.errors, self.choosers, self.paused, self.dialogs, self.loads = [], [], [], [], [], 0
        self.attach()

    def attach(self):
        targets = self.call("Target.getTargets", seconds=SECONDS_TO_START)["targetInfos"]
        page = next(one for one in targets if one["type"] == "page")
        self.session = self.call("Target.attachToTarget", targetId=page["targetId"], flatten=True)["sessionId"]
        for domain in ("Page", "Runtime", "Network", "Log", "DOM"):
            self.call(f"{domain}.enable")
        self.call("Browser.setDownloadBehavior", behavior="allow", downloadPath=self.downloads)
        self.call("Page.setInterceptFileChooserDialog", enabled=True)

    def __enter__(self):
        return self

    def __exit__(self, *_):
        os.killpg(self.process.pid, 9)
        self.process.wait()
        os.close(self.to_read)
        os.close(self.to_write)

    def send(self, method, parameters):
        self.number += 1
        message = {"id": self.number, "method": method, "params": parameters}
        if self.session:
            message["sessionId"] = self.session
        os.write(self.to_write, json.dumps(message).encode() + b"\0")
        return self.number

    def call(self, method, seconds=SECONDS, **parameters):
        """Does something of the protocol's, and answers what came of it; notes what happens meanwhile."""
        number = self.send(method, parameters)
        end = time.monotonic() + seconds
        while True:
            said = self.message(end)
            if said is None:
                raise RuntimeError(f"Chromium doesn't answer {method}: {self.said()}")
            if said.get("id") == number:
                if "error" in said:
                    raise RuntimeError(f"{method}: {said['error']}")
                return said["result"]
            self.note(said)

    def said(self):
        with open(os.path.join(self.folder, "chromium.errors"), encoding="utf-8", errors="replace") as file:
            return file.read()[-2000:]

    def message(self, end):
        """The next message; none if there is none in time."""
        while b"\0" not in self.taken:
            left = end - time.monotonic()
            if left <= 0 or not select.select([self.to_read], [], [], left)[0]:
                return None
            octets = os.read(self.to_read, 1 << 20)
            if not octets:
                return None
            self.taken += octets
        said, _, self.taken = self.taken.partition(b"\0")
        return json.loads(said)

    def note(self, said):
        method, of = said.get("method"), said.get("params", {})
        if method == "Network.requestWillBeSent":
            self.requests.append(of["request"]["url"])
        elif method == "Runtime.exceptionThrown":
            self.errors.append(str(of["exceptionDetails"].get("exception", of["exceptionDetails"])))
        elif method == "Log.entryAdded" and of["entry"]["level"] == "error":
            self.errors.append(f"{of['entry']['text']} {of['entry'].get('url', '')}")
        elif method == "Page.fileChooserOpened":
            self.choosers.append(of["backendNodeId"])
        elif method == "Fetch.requestPaused":
            self.paused.append(of)
        elif method == "Page.loadEventFired":
            self.loads += 1
        elif method == "Page.javascriptDialogOpening":
            self.dialogs.append(of["type"])
            # whoever is asked goes on
            self.send("Page.handleJavaScriptDialog", {"accept": True})

    def open(self, url=None):
        """Opens an address, or the page anew if none is named."""
        loads = self.loads
        if url:
            self.call("Page.navigate", url=url)
        else:
            self.call("Page.reload")
        end = time.monotonic() + SECONDS
        while self.loads == loads and (said := self.message(end)):
            self.note(said)

    def evaluate(self, expression, seconds=SECONDS):
        """The value of an expression of JavaScript, once it is there."""
        how = {"awaitPromise": True, "returnByValue": True, "userGesture": True}
        done = self.call("Runtime.evaluate", seconds, expression=expression, **how)
        if "exceptionDetails" in done:
            raise RuntimeError(f"{expression}: {done['exceptionDetails']}")
        return done["result"].get("value")

    def wait(self, expression, seconds=SECONDS):
        """Waits until an expression holds; whether it does in time."""
        end = time.monotonic() + seconds
        while time.monotonic() < end:
            if self.evaluate(f"!!({expression})"):
                return True
            time.sleep(0.05)
        return False

    def text(self, selector):
        """What is seen of an element; nothing if there is none."""
        found = f"document.querySelector({json.dumps(selector)})"
        return self.evaluate(f"{found}?.innerText ?? ''")

    def waited(self, selector, part, seconds=SECONDS):
        """The text of an element, once it has this part; or what it says in the end."""
        found = f"document.querySelector({json.dumps(selector)})?.innerText ?? ''"
        self.wait(f"({found}).includes({json.dumps(part)})", seconds)
        return self.text(selector)

    def node(self, selector):
        root = self.call("DOM.getDocument")["root"]["nodeId"]
        return self.call("DOM.querySelector", nodeId=root, selector=selector)["nodeId"]

    def middle(self, selector):
        """Where the middle is of what is seen of an element, once that is in view and stays where it is: a window that
        has its own size again is drawn anew only then, later on a busy machine."""
        node = self.node(selector)
        self.call("DOM.scrollIntoViewIfNeeded", nodeId=node)
        end, before, quad = time.monotonic() + SECONDS, None, []
        while quad != before and time.monotonic() < end:
            before = quad
            self.evaluate(FRAMES)
            quad = self.call("DOM.getContentQuads", nodeId=node)["quads"][0]
        return {"x": sum(quad[0::2]) / 4, "y": sum(quad[1::2]) / 4}

    def click(self, selector):
        """Clicks on the middle of what is seen of an element."""
        where = self.middle(selector)
        for kind in ("mousePressed", "mouseReleased"):
            self.call("Input.dispatchMouseEvent", type=kind, **where, button="left", clickCount=1)

    def drop(self, selector, *paths):
        """Drops files on the middle of what is seen of an element."""
        where, data = self.middle(selector), {"items": [], "files": list(paths), "dragOperationsMask": 1}
        for kind in ("dragEnter", "dragOver", "drop"):
            self.call("Input.dispatchDragEvent", type=kind, **where, data=data)

    def key(self, name, modifiers=0):
        code, text = KEYS[name]
        how = {"key": " " if name == "Space" else name, "code": name, "windowsVirtualKeyCode": code}
        self.call("Input.dispatchKeyEvent", type="keyDown", text=text, modifiers=modifiers, **how)
        self.call("Input.dispatchKeyEvent", type="keyUp", modifiers=modifiers, **how)

    def type(self, selector, text):
        """Types a text in place of what stands in a field."""
        self.call("DOM.focus", nodeId=self.node(selector))
        self.evaluate("document.activeElement.select()")
        self.call("Input.insertText", text=text)

    def choose(self, selector, *paths):
        """Chooses files in a field for them."""
        self.call("DOM.setFileInputFiles", files=list(paths), nodeId=self.node(selector))

    def chosen(self, *paths):
        """Chooses files in the dialog that was opened last."""
        self.evaluate("0")
        self.call("DOM.setFileInputFiles", files=list(paths), backendNodeId=self.choosers.pop())

    def download(self, selector, name):
        """Clicks on a link, and answers the octets that are saved under that name."""
        path, end = os.path.join(self.downloads, name), time.monotonic() + SECONDS
        if os.path.exists(path):
            os.unlink(path)
        self.click(selector)
        while not os.path.exists(path) and time.monotonic() < end:
            self.evaluate("0")
            time.sleep(0.05)
        with open(path, "rb") as file:
            return file.read()

    def in_place(self, pattern, octets, action):
        """Does something that asks for an address, and answers octets in the server's place; what was asked."""
        self.call("Fetch.enable", patterns=[{"urlPattern": pattern}])
        action()
        end = time.monotonic() + SECONDS
        while not self.paused and time.monotonic() < end:
            self.evaluate("0")
        asked = self.paused.pop()
        body = base64.b64encode(octets(asked["request"])).decode()
        self.call("Fetch.fulfillRequest", requestId=asked["requestId"], responseCode=200, body=body)
        self.call("Fetch.disable")

    def standing(self, target, status, text="", head=None, times=1_000_000):
        """Has each page that is opened from now on find this answer, so many times, in the place of the server's; what
        ends that."""
        answer = json.dumps([text, {"status": status, "headers": head or {}}])
        source = f"""{{
          const before = window.fetch;
          let left = {times};
          window.fetch = (target, how) =>
            target === "{target}" && left-- > 0 ? Promise.resolve(new Response(...{answer})) : before(target, how);
        }}"""
        added = self.call("Page.addScriptToEvaluateOnNewDocument", source=source)["identifier"]
        return lambda: self.call("Page.removeScriptToEvaluateOnNewDocument", identifier=added)

    def is_within(self, width):
        """Whether a window of this width has all of the page without moving it sideways."""
        self.call("Emulation.setDeviceMetricsOverride", width=width, height=900, deviceScaleFactor=1, mobile=False)
        return self.evaluate("document.documentElement.scrollWidth <= document.documentElement.clientWidth")

    def emulate(self, **features):
        """Has the page find these of the reader's settings: `prefers_color_scheme`, `forced_colors`."""
        all_of = [{"name": name.replace("_", "-"), "value": value} for name, value in features.items()]
        self.call("Emulation.setEmulatedMedia", features=all_of)

    def screenshot(self, path):
        # all of the page, in the window's whole width: no bar stands in the picture
        width, height = self.evaluate("[innerWidth, document.documentElement.scrollHeight]")
        clip = {"x": 0, "y": 0, "width": width, "height": height, "scale": 1}
        shot = self.call("Page.captureScreenshot", format="png", captureBeyondViewport=True, clip=clip)
        with open(path, "wb") as file:
            file.write(base64.b64decode(shot["data"]))

    def unnamed(self):
        """Roles of what can be used on the page and has no name for a screen reader."""
        nodes = self.call("Accessibility.getFullAXTree")["nodes"]
        used = ("button", "textbox", "searchbox", "link", "combobox", "checkbox", "meter", "progressbar", "dialog")
        return [
            f"{one['role']['value']} {one.get('properties')}"
            for one in nodes
            if not one.get("ignored") and one["role"]["value"] in used and not one.get("name", {}).get("value")
        ]
