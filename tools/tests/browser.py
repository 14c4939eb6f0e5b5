"""Chromium over the DevTools protocol, by a pipe: no package is needed beside the browser."""
import base64
import fcntl
import json
import os
import select
import shutil
import subprocess
import tempfile
import time

NAMES = ("chromium", "chromium-browser", "google-chrome", "chrome")
WORDS = (
    "--headless=new", "--no-sandbox", "--disable-gpu", "--disable-dev-shm-usage", "--no-first-run", "--hide-scrollbars",
    "--lang=en-US", "--disable-background-timer-throttling", "--disable-renderer-backgrounding",
    "--disable-backgrounding-occluded-windows", "--remote-debugging-pipe", "about:blank",
)
KEYS = {"Enter": (13, "\r"), "Escape": (27, ""), "Tab": (9, ""), "ArrowDown": (40, ""), "ArrowUp": (38, "")}
CONTROL = 2
PATIENCE = 60
# Scrolls to a node, notes from now on whether a click comes to one that fits, and says where the node's middle is.
WATCH_CLICKS = """(node => {{
  if (!node) return null;
  node.scrollIntoView({{ block: 'nearest' }});
  const box = node.getBoundingClientRect();
  window.hasClicked = false;
  window.fitsClick = it => !it.disabled{words};
  if (!window.onClick) addEventListener('click', window.onClick = ({{ target }}) => {{
    const nodes = [...document.querySelectorAll(window.clickSelector)].filter(window.fitsClick);
    window.hasClicked = window.hasClicked || nodes.some(it => it.contains(target));
  }}, true);
  window.clickSelector = {selector};
  return {{ x: box.x + box.width / 2, y: box.y + box.height / 2 }};
}})"""


def path_of_browser():
    """The browser's program, or None if there is none."""
    return next((found for found in map(shutil.which, NAMES) if found), None)


class Browser:
    """A browser that has just begun, with a profile of its own."""

    def __init__(self, program):
        theirs, self.writes = os.pipe()
        self.reads, answers = os.pipe()
        # (numbers that are not 3 and 4, where the browser has its pipe)
        ends = [fcntl.fcntl(it, fcntl.F_DUPFD, 20) for it in (theirs, answers)]
        for it in (self.writes, self.reads):
            os.set_inheritable(it, False)
        self.profile = tempfile.mkdtemp(prefix="page-profile-")

        def connect():
            os.dup2(ends[0], 3)
            os.dup2(ends[1], 4)

        quiet = {"stdout": subprocess.DEVNULL, "stderr": subprocess.DEVNULL}
        words = [program, f"--user-data-dir={self.profile}", *WORDS]
        self.run = subprocess.Popen(words, preexec_fn=connect, close_fds=False, **quiet)
        for it in (theirs, answers, *ends):
            os.close(it)
        self.buffer, self.answers, self.events, self.number = b"", {}, [], 0

    def read(self, seconds):
        """Reads what the browser sends within these seconds."""
        if not select.select([self.reads], [], [], seconds)[0]:
            return
        some = os.read(self.reads, 1 << 20)
        if not some:
            raise RuntimeError("the browser has ended")
        self.buffer += some
        *texts, self.buffer = self.buffer.split(b"\0")
        for text in texts:
            told = json.loads(text)
            if "id" in told:
                self.answers[told["id"]] = told
                continue
            self.events.append(told)
            # A page that is left with entries asks whether it may be.
            if told["method"] == "Page.javascriptDialogOpening":
                self.write("Page.handleJavaScriptDialog", told["sessionId"], accept=True)

    def write(self, method, session, **parameters):
        """Calls a method, and returns the number of the call."""
        self.number += 1
        told = {"id": self.number, "method": method, "params": parameters}
        if session:
            told["sessionId"] = session
        os.write(self.writes, json.dumps(told).encode() + b"\0")
        return self.number

    def send(self, method, session=None, **parameters):
        """Calls a method, and returns its result."""
        number = self.write(method, session, **parameters)
        end = time.monotonic() + 2 * PATIENCE
        while number not in self.answers:
            if time.monotonic() > end:
                raise TimeoutError(method)
            self.read(0.5)
        answer = self.answers.pop(number)
        if "error" in answer:
            raise RuntimeError(f"{method}: {answer['error']['message']}")
        return answer["result"]

    def close(self):
        try:
            self.send("Browser.close")
            self.run.wait(10)
        except (OSError, RuntimeError, TimeoutError, subprocess.TimeoutExpired):
            self.run.kill()
            self.run.wait()
        os.close(self.writes)
        os.close(self.reads)
        shutil.rmtree(self.profile, ignore_errors=True)


class Page:
    """A page in a window of its own."""

    def __init__(self, browser, url, width=1280, height=800, is_phone=False, is_dark=False):
        self.browser = browser
        self.target = browser.send("Target.createTarget", url="about:blank", newWindow=True)["targetId"]
        self.session = browser.send("Target.attachToTarget", targetId=self.target, flatten=True)["sessionId"]
        for domain in ("Page", "Runtime", "Log", "DOM", "Network"):
            self.do(f"{domain}.enable")
        self.do("Emulation.setDeviceMetricsOverride", width=width, height=height, deviceScaleFactor=1, mobile=is_phone)
        self.do("Emulation.setTouchEmulationEnabled", enabled=is_phone)
        self.dark(is_dark)
        self.go(url)

    def close(self):
        """Closes the page, whatever it still has to send."""
        self.browser.send("Target.closeTarget", targetId=self.target)

    def do(self, method, **parameters):
        return self.browser.send(method, self.session, **parameters)

    def go(self, url):
        self.do("Page.navigate", url=url)

    def dark(self, is_dark):
        scheme = {"name": "prefers-color-scheme", "value": "dark" if is_dark else "light"}
        self.do("Emulation.setEmulatedMedia", media="", features=[scheme])

    def paper(self, is_paper):
        self.do("Emulation.setEmulatedMedia", media="print" if is_paper else "")

    def js(self, text):
        """The value of an expression, or of what it promises."""
        answer = self.do("Runtime.evaluate", expression=text, returnByValue=True, awaitPromise=True)
        if "exceptionDetails" in answer:
            details = answer["exceptionDetails"]
            raise RuntimeError(f"{text[:300]}: {json.dumps(details.get('exception', details))[:600]}")
        return answer["result"].get("value")

    def wait(self, text, seconds=PATIENCE):
        """Waits until an expression is true."""
        end, last = time.monotonic() + seconds, None
        while time.monotonic() < end:
            try:
                last = self.js(f"Boolean({text})")
                if last:
                    return
            except RuntimeError as fault:
                last = fault
            self.browser.read(0.03)
        shown = self.js("document.body.innerText")[:1500]
        raise TimeoutError(f"waited for {text[:300]}: {last}; the page has: {shown}")

    def text(self, selector="body"):
        return self.js(f"(document.querySelector({json.dumps(selector)}) || {{}}).innerText || ''")

    def count(self, selector):
        return self.js(f"document.querySelectorAll({json.dumps(selector)}).length")

    def click(self, selector, has=None):
        """Clicks what is visible of a selector, and has these words.

        It is clicked again if it moved or was drawn anew between the look for it and the click, so that the click came
        to nothing that fits.
        """
        words = f" && it.textContent.includes({json.dumps(has)})" if has else ""
        found = (f"[...document.querySelectorAll({json.dumps(selector)})]"
                 f".find(it => it.offsetParent !== null && !it.disabled{words})")
        end = time.monotonic() + PATIENCE
        while time.monotonic() < end:
            self.wait(f"{found} !== undefined")
            point = self.js(f"{WATCH_CLICKS.format(selector=json.dumps(selector), words=words)}({found})")
            if point is None:
                continue
            for kind in ("mousePressed", "mouseReleased"):
                self.do("Input.dispatchMouseEvent", type=kind, **point, button="left", clickCount=1)
            if self.js("window.hasClicked"):
                return
        raise TimeoutError(f"no click came to {selector} {has or ''}")

    def key(self, name, modifiers=0):
        code, text = KEYS.get(name, (ord(name.upper()[0]), name))
        told = {"key": name, "windowsVirtualKeyCode": code, "modifiers": modifiers}
        self.do("Input.dispatchKeyEvent", type="keyDown", **told, **({"text": text} if text else {}))
        self.do("Input.dispatchKeyEvent", type="keyUp", **told)

    def type(self, text):
        self.do("Input.insertText", text=text)

    def replace(self, found, text):
        """Types a text in the place of what an input has, which an expression finds."""
        if self.js(f"{found}.tagName") == "SELECT":
            self.set(found, text)
            return
        self.js(f"(it => {{ it.focus(); it.select(); }})({found})")
        if text:
            self.type(text)
        else:
            self.set(found, "")

    def set(self, found, text):
        """Gives a control a value, as one who chooses it does."""
        events = "for (const kind of ['input', 'change']) it.dispatchEvent(new Event(kind, { bubbles: true }));"
        self.js(f"(it => {{ it.value = {json.dumps(text)}; {events} }})({found})")

    def choose_files(self, selector, paths):
        root = self.do("DOM.getDocument")["root"]["nodeId"]
        node = self.do("DOM.querySelector", nodeId=root, selector=selector)["nodeId"]
        self.do("DOM.setFileInputFiles", nodeId=node, files=paths)

    def shoot(self, path):
        """Writes a picture of what is shown."""
        self.do("Page.bringToFront")
        data = self.do("Page.captureScreenshot", format="png")["data"]
        with open(path, "wb") as it:
            it.write(base64.b64decode(data))

    def complaints(self):
        """Exceptions, and what the policy refused."""
        found = []
        for event in self.browser.events:
            if event.get("sessionId") != self.session:
                continue
            if event["method"] == "Runtime.exceptionThrown":
                details = event["params"]["exceptionDetails"]
                found.append((details.get("exception", {}).get("description") or details["text"])[:400])
            if event["method"] == "Log.entryAdded":
                entry = event["params"]["entry"]
                if entry["level"] == "error" and entry.get("source") != "network":
                    found.append(entry["text"][:300])
        return found
