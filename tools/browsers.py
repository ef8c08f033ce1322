"""Browsers without a window, for tools/page_test and tools/play_test: Chromium by the pipe of its DevTools, Firefox by Marionette.

Both have the same methods: `open` a page from disk, `visit` an address without waiting, `press` a key that a script takes, `tap` one that the
browser takes too, `type` a text, `eval` an expression of the page, `inside` one of the page in its last frame, `size` the window, `scheme` light or
dark, `shoot` a picture, `close`. Both want Debian's package on the path, and install nothing.
"""
import base64
import json
import os
import socket
import subprocess
import sys
import time

CODES = {" ": "Space", "/": "Slash"}
# The numbers by which Chromium knows keys; a letter's is that of its capital.
NUMBERS = {"Tab": 9, "Enter": 13, "Escape": 27, " ": 32, "PageUp": 33, "PageDown": 34, "End": 35, "Home": 36, "ArrowLeft": 37, "ArrowUp": 38, "ArrowRight": 39, "ArrowDown": 40,
           "Backspace": 8, "F8": 119, "/": 191}
# What Chromium does at a letter with Control.
COMMANDS = {"z": ["undo"], "a": ["selectAll"]}
# The keys that WebDriver names by a character of Unicode's private area.
DRIVER_KEYS = {"ArrowLeft": "\ue012", "ArrowUp": "\ue013", "ArrowRight": "\ue014", "ArrowDown": "\ue015", "PageUp": "\ue00e", "PageDown": "\ue00f",
               "Home": "\ue011", "End": "\ue010", "Enter": "\ue007", "Escape": "\ue00c", "Backspace": "\ue003", "Tab": "\ue004", "F8": "\ue038",
               "Control": "\ue009"}
# Places of an address that no page has, or none has as it is written.
WILD = ["%", "%%", "%E0%A4%A", "%00", "%u0041", "1.5", "-1", "1e9", "99999999999999999999", "0x10", "NaN", "Infinity", "null", "undefined", "__proto__",
        "constructor", "a.b@x", "a.b@-1", "a.b@1.5", "a.b@1@2", "..", ".a.", "a..b", "zz.yy", "a.a.a.a.a.a.a.a.a.a.a.a", "/", "///", "@", "@@@", "@5", "?", "?ask=1",
        "/snapshot/zz@9", "own/snapshot/q.q@3", "write-skew/nolevel@2", "write-skew/snapshot/__proto__@2", "s=", "s=%%", "s=AAAA", "s=a/b@c?d",
        "snapshot:", "nolevel:a.b", ":::", "serializable:a.b@7", "<img src=x onerror=stop()>", "'\"\\", "\u202ea", "\U0001f600@2"]
# What Firefox does at an expression of a page: as its developer tools, since the page's policy lets no text be run.
EVALUATE = r"""
globalThis.Debugger ?? ChromeUtils.importESModule("resource://gre/modules/jsdebugger.sys.mjs").addDebuggerToGlobal(globalThis);
const [expression, where] = arguments, debug = new Debugger(), page = debug.addDebuggee(window.wrappedJSObject ?? window);
const done = ({throw: fault, return: got}) => {
  if (fault !== undefined) throw new Error(String(fault?.unsafeDereference?.() ?? fault));
  return got;
};
const place = where === "window" ? page : debug.addDebuggee(done(page.executeInGlobal(where)).unsafeDereference());
const said = done(place.executeInGlobal("(it => Promise.resolve(it).then(it => JSON.stringify(it === undefined ? null : it)))"));
return Promise.resolve(done(said.call(null, done(place.executeInGlobal(expression)))).unsafeDereference()).finally(() => debug.removeAllDebuggees());
"""
READY = "document.readyState === 'complete' && !!document.body && document.body.dataset.position !== undefined"


def stop(why):
    sys.exit(f"browsers: {why}")


class Chromium:
    """Chromium: a message is JSON, ended by a zero byte."""

    name = "chromium"

    def __init__(self, profile):
        to_child, self.out = os.pipe()
        self.in_, from_child = os.pipe()
        words = ["chromium", "--headless", "--no-sandbox", "--disable-gpu", "--hide-scrollbars", "--remote-debugging-pipe",
                 f"--user-data-dir={profile}"]

        def place():
            # Chromium reads from 3 and writes to 4.
            spare = [os.dup(to_child), os.dup(from_child)]
            os.dup2(spare[0], 3)
            os.dup2(spare[1], 4)

        self.child = subprocess.Popen(words, preexec_fn=place, close_fds=False, stdout=subprocess.DEVNULL, stderr=subprocess.DEVNULL)
        os.close(to_child)
        os.close(from_child)
        self.left, self.last, self.session, self.errors = b"", 0, None, []
        # The number of the place in which the scripts of a frame run, by the frame.
        self.places = {}
        target = self.call("Target.createTarget", url="about:blank")["targetId"]
        self.session = self.call("Target.attachToTarget", targetId=target, flatten=True)["sessionId"]
        self.call("Page.enable")
        self.call("Runtime.enable")

    def message(self):
        while b"\0" not in self.left:
            got = os.read(self.in_, 1 << 16)
            if not got:
                stop("chromium has ended")
            self.left += got
        text, _, self.left = self.left.partition(b"\0")
        return json.loads(text)

    def call(self, method, **params):
        self.last += 1
        said = {"id": self.last, "method": method, "params": params}
        if self.session:
            said["sessionId"] = self.session
        os.write(self.out, json.dumps(said).encode() + b"\0")
        while True:
            got = self.message()
            if got.get("method") == "Runtime.executionContextCreated":
                made = got["params"]["context"]
                if made["auxData"]["isDefault"]:
                    self.places[made["auxData"]["frameId"]] = made["id"]
            if got.get("method") == "Runtime.exceptionThrown":
                details = got["params"]["exceptionDetails"]
                self.errors.append(details.get("exception", {}).get("description", details["text"]))
            if got.get("id") == self.last:
                if "error" in got:
                    stop(f"{method}: {got['error']}")
                return got["result"]

    def visit(self, url):
        self.call("Page.navigate", url="about:blank")
        self.call("Page.navigate", url=url)

    def open(self, path, place=""):
        self.visit(f"file://{path}{place}")
        while self.eval(READY) is not True:
            time.sleep(0.01)

    def tap(self, key, control=False):
        number, text = NUMBERS.get(key) or ord(key.upper()), {"text": "\r"} if key == "Enter" and not control else {}
        code = CODES.get(key) or (f"Key{key.upper()}" if len(key) == 1 else key)
        words = {"key": key, "code": code, "windowsVirtualKeyCode": number, "modifiers": 2 if control else 0}
        commands = {"commands": COMMANDS[key]} if control and key in COMMANDS else {}
        self.call("Input.dispatchKeyEvent", type="keyDown" if text else "rawKeyDown", **words, **text, **commands)
        self.call("Input.dispatchKeyEvent", type="keyUp", **words)

    def type(self, said):
        for char in said:
            if char == "\n":
                self.tap("Enter")
            else:
                self.call("Input.dispatchKeyEvent", type="char", text=char)

    def press(self, key):
        for kind in ("keyDown", "keyUp"):
            text = {"text": key} if len(key) == 1 and kind == "keyDown" else {}
            self.call("Input.dispatchKeyEvent", type=kind, key=key, code=CODES.get(key, key), **text)

    def inside(self, expression):
        frame = self.call("Page.getFrameTree")["frameTree"]["childFrames"][-1]["frame"]["id"]
        return self.eval(expression, contextId=self.places[frame])

    def eval(self, expression, **where):
        got = self.call("Runtime.evaluate", expression=expression, returnByValue=True, awaitPromise=True, **where)
        if "exceptionDetails" in got:
            stop(got["exceptionDetails"].get("exception", {}).get("description", "an exception"))
        return got["result"].get("value")

    def size(self, width, height):
        self.call("Emulation.setDeviceMetricsOverride", width=width, height=height, deviceScaleFactor=1, mobile=False)

    def scheme(self, scheme):
        features = [{"name": "prefers-color-scheme", "value": scheme}, {"name": "prefers-reduced-motion", "value": "reduce"}]
        self.call("Emulation.setEmulatedMedia", features=features)

    def grey(self, is_grey):
        self.call("Emulation.setEmulatedVisionDeficiency", type="achromatopsia" if is_grey else "none")

    def shoot(self, path):
        data = self.call("Page.captureScreenshot", format="png")["data"]
        with open(path, "wb") as it:
            it.write(base64.b64decode(data))

    def close(self):
        self.child.terminate()
        self.child.wait()


class Firefox:
    """Firefox: a message is its length, a colon, and JSON: its kind, its number, the command or the fault, and what goes with it."""

    name = "firefox"

    def __init__(self, profile):
        os.makedirs(profile, exist_ok=True)
        with socket.socket() as free:
            free.bind(("127.0.0.1", 0))
            port = free.getsockname()[1]
        with open(f"{profile}/user.js", "w", encoding="utf-8") as it:
            it.write(f'user_pref("marionette.port", {port});\nuser_pref("ui.prefersReducedMotion", 1);\n')
        words = ["firefox-esr", "--headless", "--marionette", "--remote-allow-system-access", "--no-remote", "--profile", profile]
        self.child = subprocess.Popen(words, stdout=subprocess.DEVNULL, stderr=subprocess.DEVNULL)
        self.left, self.last, self.errors, self.theme = b"", 0, [], "light"
        self.socket = self.connect(port)
        self.message()
        self.call("WebDriver:NewSession", capabilities={"alwaysMatch": {"unhandledPromptBehavior": "ignore"}})
        # A machine may be slow: an expression has ten minutes, in milliseconds.
        self.call("WebDriver:SetTimeouts", script=600_000)
        self.call("WebDriver:Navigate", url="about:blank")

    def connect(self, port):
        for _ in range(600):
            try:
                return socket.create_connection(("127.0.0.1", port), timeout=600)
            except OSError:
                time.sleep(0.1)
        return stop("firefox doesn't listen")

    def message(self):
        while b":" not in self.left:
            self.receive()
        length, _, self.left = self.left.partition(b":")
        while len(self.left) < int(length):
            self.receive()
        text, self.left = self.left[:int(length)], self.left[int(length):]
        return json.loads(text)

    def receive(self):
        got = self.socket.recv(1 << 16)
        if not got:
            stop("firefox has ended")
        self.left += got

    def call(self, command, **params):
        self.last += 1
        text = json.dumps([0, self.last, command, params]).encode()
        self.socket.sendall(f"{len(text)}:".encode() + text)
        while True:
            _, number, fault, result = self.message()
            if number == self.last:
                if fault:
                    stop(f"{command}: {fault.get('message', fault)}")
                return result

    def visit(self, url):
        self.call("WebDriver:Navigate", url="about:blank")
        self.call("WebDriver:Navigate", url=url)

    def open(self, path, place=""):
        self.visit(f"file://{path}{place}")
        while self.eval(READY) is not True:
            time.sleep(0.01)
        self.scheme(self.theme)

    def tap(self, key, control=False):
        value, held = DRIVER_KEYS.get(key, key), [DRIVER_KEYS["Control"]] * control
        taps = [*(("keyDown", it) for it in [*held, value]), *(("keyUp", it) for it in [value, *held])]
        acts = [{"type": kind, "value": it} for kind, it in taps]
        self.call("WebDriver:PerformActions", actions=[{"type": "key", "id": "keys", "actions": acts}])

    def press(self, key):
        self.tap(key)

    def type(self, said):
        for char in said:
            self.tap("Enter" if char == "\n" else char)

    def inside(self, expression):
        return self.eval(expression, "window.frames[window.frames.length - 1]")

    def eval(self, expression, where="window"):
        got = self.call("WebDriver:ExecuteScript", script=EVALUATE, args=[expression, where], sandbox="system", newSandbox=False)["value"]
        return json.loads(got)

    def size(self, width, height):
        """The window, made so large that the page in it has this size."""
        outer = [width, height]
        for _ in range(3):
            self.call("WebDriver:SetWindowRect", width=outer[0], height=outer[1])
            inner = self.eval("[innerWidth, innerHeight]")
            outer = [outer[0] + width - inner[0], outer[1] + height - inner[1]]
            if inner == [width, height]:
                return

    def scheme(self, scheme):
        """Light or dark, as the page's own button sets it."""
        self.theme = scheme
        self.eval(f"document.documentElement.dataset.theme = '{scheme}'")

    def shoot(self, path):
        data = self.call("WebDriver:TakeScreenshot", full=False)["value"]
        with open(path, "wb") as it:
            it.write(base64.b64decode(data))

    def close(self):
        self.child.terminate()
        self.child.wait()


BROWSERS = {"chromium": Chromium, "firefox": Firefox}
