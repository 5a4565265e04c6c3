"""A headless Chromium and a headless Firefox, each as a person would use it: choose, drop, press, read. Without any package: Chromium's
protocol goes over a pipe (JSON with a zero byte behind each text), Firefox's over a socket (Marionette: a length, a colon, JSON)."""
import base64
import fcntl
import json
import os
import pathlib
import select
import shutil
import socket
import subprocess
import tempfile
import time

QUIET = {"stdin": subprocess.DEVNULL, "stdout": subprocess.DEVNULL, "stderr": subprocess.DEVNULL}
CHROMIUM = next((name for name in ("chromium", "chromium-browser", "google-chrome") if shutil.which(name)), None)
FIREFOX = next((name for name in ("firefox-esr", "firefox") if shutil.which(name)), None)
# Says when the page was ready, by the browser's clock from the navigation on.
WATCH = "new MutationObserver(() => { window.readyAt ??= performance.now(); }).observe(document, {subtree: true, attributes: true, attributeFilter: ['data-ready']})"


class Browser:
    """What both have. `run(script, *args)` returns what the script returns; its arguments are `arguments`."""

    def text(self, selector):
        return self.run("return document.querySelector(arguments[0]).textContent", selector)

    def texts(self, selector):
        return self.run("return Array.from(document.querySelectorAll(arguments[0]), (e) => e.textContent)", selector)

    def wait(self, script, *args):
        until = time.monotonic() + 30
        while not self.run(script, *args):
            if time.monotonic() > until:
                raise TimeoutError(script)
            time.sleep(0.02)

    def ready(self):
        self.wait("return document.documentElement && document.documentElement.dataset.ready")
        return self.run("return document.documentElement.dataset.ready")

    def choose(self, selector, value):
        self.run("const e = document.querySelector(arguments[0]); e.value = arguments[1]; e.dispatchEvent(new Event('input')); e.dispatchEvent(new Event('change'))", selector, value)

    def board(self, room, kind=""):
        return "".join(f"{line}\n" for line in self.texts(f"[data-room={room}] .board li:is(.header, .ranked, .dominated, .refused){kind} .line"))

    def give(self, room, file):
        """Puts a file into a room's field, as a person does, and waits until the page has taken it."""
        at = f"[data-room={room}] .file"
        turn = "return document.querySelector('#rooms').dataset.turn"
        # The same file again would be no change.
        self.run("document.querySelector(arguments[0]).value = ''", at)
        before = self.run(turn)
        self.put_file(at, str(file))
        self.wait(f"{turn} !== arguments[0]", before)


class Chromium(Browser):
    def __init__(self, size=(1500, 1000)):
        self.profile = tempfile.mkdtemp(prefix="page-test-")
        to_read, self.to = os.pipe()
        self.come, to_write = os.pipe()
        words = [CHROMIUM, "--headless", "--disable-gpu", "--remote-debugging-pipe", f"--user-data-dir={self.profile}", f"--window-size={size[0]},{size[1]}"]
        words += ["--hide-scrollbars", "--no-first-run", "--disable-background-networking", "about:blank"]
        words += ["--no-sandbox"] if os.geteuid() == 0 else []
        # The pipe's ends are to be 3 and 4 there, and are neither before.
        near, far = (to_read, to_write), [fcntl.fcntl(end, fcntl.F_DUPFD, 20) for end in (to_read, to_write)]
        line = f'exec "$@" 3<&{far[0]} 4>&{far[1]} {far[0]}<&- {far[1]}>&-'
        self.process = subprocess.Popen(["bash", "-c", line, "", *words], pass_fds=far, **QUIET)
        for end in (*near, *far):
            os.close(end)
        self.number, self.held, self.session, self.events = 0, b"", None, []
        self.version = self.call("Browser.getVersion")["product"]

    def receive(self, until):
        while b"\0" not in self.held:
            left = until - time.monotonic()
            if left <= 0 or not select.select([self.come], [], [], left)[0]:
                raise TimeoutError("the browser does not answer")
            got = os.read(self.come, 1 << 20)
            if not got:
                raise EOFError("the browser has ended")
            self.held += got
        one, _, self.held = self.held.partition(b"\0")
        return json.loads(one)

    def call(self, method, **parameters):
        self.number += 1
        text = {"id": self.number, "method": method, "params": parameters, **({"sessionId": self.session} if self.session else {})}
        data = json.dumps(text).encode() + b"\0"
        while data:
            data = data[os.write(self.to, data) :]
        until = time.monotonic() + 60
        while True:
            said = self.receive(until)
            if said.get("id") == self.number:
                if "error" in said:
                    raise RuntimeError(f"{method}: {said['error']}")
                return said["result"]
            self.events.append(said)

    def open(self, url):
        self.session = None
        target = self.call("Target.createTarget", url="about:blank")["targetId"]
        self.session = self.call("Target.attachToTarget", targetId=target, flatten=True)["sessionId"]
        for domain in ("Page", "Runtime", "Network", "Log", "DOM"):
            self.call(f"{domain}.enable")
        self.call("Page.addScriptToEvaluateOnNewDocument", source=WATCH)
        self.call("Emulation.setFocusEmulationEnabled", enabled=True)
        self.call("Page.navigate", url=url)
        return self.ready()

    def run(self, script, *args):
        expression = f"(async function () {{ {script} }}).apply(null, {json.dumps(args)})"
        got = self.call("Runtime.evaluate", expression=expression, returnByValue=True, awaitPromise=True)
        if "exceptionDetails" in got:
            raise RuntimeError(f"{script}: {got['exceptionDetails']}")
        return got["result"].get("value")

    def middle(self, selector):
        return self.run("const e = document.querySelector(arguments[0]); e.scrollIntoView({block: 'center'}); const r = e.getBoundingClientRect(); return [r.x + r.width / 2, r.y + r.height / 2]", selector)

    def click(self, selector):
        x, y = self.middle(selector)
        for kind in ("mousePressed", "mouseReleased"):
            self.call("Input.dispatchMouseEvent", type=kind, x=x, y=y, button="left", clickCount=1)

    def press(self, key, text=""):
        self.call("Input.dispatchKeyEvent", type="keyDown", key=key, text=text)
        self.call("Input.dispatchKeyEvent", type="keyUp", key=key)

    def put_file(self, selector, file):
        node = self.call("DOM.querySelector", nodeId=self.call("DOM.getDocument")["root"]["nodeId"], selector=selector)["nodeId"]
        self.call("DOM.setFileInputFiles", files=[file], nodeId=node)

    def drop(self, selector, *files):
        x, y = self.middle(selector)
        data = {"items": [], "files": [str(file) for file in files], "dragOperationsMask": 1}
        for kind in ("dragEnter", "dragOver", "drop"):
            self.call("Input.dispatchDragEvent", type=kind, x=x, y=y, data=data)

    def unnamed(self):
        """The controls and pictures that a screen reader has no name for."""
        wanted = {"button", "textbox", "combobox", "slider", "spinbutton", "img", "image", "list", "region", "listitem"}
        found = []
        for node in self.call("Accessibility.getFullAXTree")["nodes"]:
            role, name = node.get("role", {}).get("value"), node.get("name", {}).get("value")
            if role in wanted - {"listitem", "list"} and not node.get("ignored") and not name:
                found.append(f"{role}: {node.get('nodeId')}")
        return found

    def shot(self, file, media=""):
        self.call("Emulation.setEmulatedMedia", media=media)
        size = self.call("Page.getLayoutMetrics")["cssContentSize"]
        clip = {"x": 0, "y": 0, "width": size["width"], "height": min(size["height"], 4000), "scale": 1}
        pathlib.Path(file).write_bytes(base64.b64decode(self.call("Page.captureScreenshot", format="png", clip=clip, captureBeyondViewport=True)["data"]))
        self.call("Emulation.setEmulatedMedia", media="")

    def downloads(self, folder):
        self.session, kept = None, self.session
        self.call("Browser.setDownloadBehavior", behavior="allow", downloadPath=str(folder))
        self.session = kept

    def faults(self):
        """Exceptions, and whatever was written to a console or log."""
        kinds = ("Runtime.exceptionThrown", "Runtime.consoleAPICalled", "Log.entryAdded")
        return [event["params"] for event in self.events if event["method"] in kinds]

    def asked(self):
        return sorted({event["params"]["request"]["url"].split("#")[0] for event in self.events if event["method"] == "Network.requestWillBeSent"})

    def end(self):
        try:
            self.session = None
            self.call("Browser.close")
        except (EOFError, OSError, TimeoutError):
            pass
        try:
            self.process.wait(10)
        except subprocess.TimeoutExpired:
            self.process.kill()
        shutil.rmtree(self.profile, ignore_errors=True)


class Firefox(Browser):
    def __init__(self):
        self.profile = tempfile.mkdtemp(prefix="page-test-")
        with socket.socket() as free:
            free.bind(("127.0.0.1", 0))
            port = free.getsockname()[1]
        (pathlib.Path(self.profile) / "user.js").write_text(f'user_pref("marionette.port", {port});\n')
        self.process = subprocess.Popen([FIREFOX, "--headless", "--no-remote", "--marionette", "--profile", self.profile], **QUIET)
        until = time.monotonic() + 60
        while True:
            try:
                self.socket = socket.create_connection(("127.0.0.1", port), 60)
                break
            except OSError:
                if time.monotonic() > until:
                    raise
                time.sleep(0.2)
        self.file, self.number = self.socket.makefile("rb"), 0
        self.receive()
        told = self.call("WebDriver:NewSession", capabilities={})["capabilities"]
        self.version = f"{told['browserName']} {told['browserVersion']}"

    def receive(self):
        length = b""
        while (byte := self.file.read(1)) != b":":
            if not byte:
                raise EOFError("the browser has ended")
            length += byte
        return json.loads(self.file.read(int(length)))

    def call(self, name, **parameters):
        self.number += 1
        text = json.dumps([0, self.number, name, parameters]).encode()
        self.socket.sendall(str(len(text)).encode() + b":" + text)
        _, _, error, result = self.receive()
        if error:
            raise RuntimeError(f"{name}: {error['message']}")
        return result

    def open(self, url):
        self.call("WebDriver:Navigate", url="about:blank")
        self.call("WebDriver:Navigate", url=url)
        return self.ready()

    def run(self, script, *args):
        return self.call("WebDriver:ExecuteScript", script=script, args=list(args))["value"]

    def found(self, selector):
        return next(iter(self.call("WebDriver:FindElement", using="css selector", value=selector)["value"].values()))

    def click(self, selector):
        self.call("WebDriver:ElementClick", id=self.found(selector))

    def put_file(self, selector, file):
        self.call("WebDriver:ElementSendKeys", id=self.found(selector), text=file)

    def end(self):
        try:
            self.call("Marionette:Quit", flags=["eForceQuit"])
        except (EOFError, OSError, RuntimeError):
            pass
        try:
            self.process.wait(15)
        except subprocess.TimeoutExpired:
            self.process.kill()
        shutil.rmtree(self.profile, ignore_errors=True)
