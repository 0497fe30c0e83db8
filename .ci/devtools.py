"""A page in a Chromium that is driven from outside, as by a user: clicks, pasted texts, and what stands in it. The DevTools protocol goes over two
pipes, so that nothing is needed but Python.
"""

import base64
import fcntl
import json
import os
import select
import signal
import subprocess
import time

COMMANDS, ANSWERS = 3, 4  # the file descriptors that a browser reads commands from, and writes answers to
PATIENCE = 120  # seconds in which something is to be heard of a browser
LOOKS = 2400  # at what is waited for; on a machine without load they take that time
FLAGS = ["--headless", "--no-sandbox", "--disable-gpu", "--no-first-run"]


class Silence(Exception):
    """Nothing is heard of the browser."""


def start(browser, profile, *words, **how):
    """A browser of its own, with a profile of its own."""
    command = [browser, *FLAGS, f"--user-data-dir={profile}", *words]
    return subprocess.Popen(command, stdout=subprocess.DEVNULL, stderr=subprocess.DEVNULL, start_new_session=True, **how)


def stop(running):
    """Ends a browser and all processes that it began."""
    for how in (signal.SIGTERM, signal.SIGKILL):
        try:
            os.killpg(running.pid, how)
            running.wait(10)
        except ProcessLookupError:
            return
        except subprocess.TimeoutExpired:
            pass


class Page:
    """A page in a browser of its own, with the errors that nobody caught in it, and what it asked servers for, by method and URL."""

    def __init__(self, browser, profile, url):
        (theirs, self.commands), (self.answers, other) = os.pipe(), os.pipe()
        # Copies with higher numbers, which their places in the browser's process do not cover.
        copies = [fcntl.fcntl(it, fcntl.F_DUPFD, 10) for it in (theirs, other)]
        place = lambda: [os.dup2(it, number) for it, number in zip(copies, (COMMANDS, ANSWERS))]
        words = ["--window-size=1280,1500", "--remote-debugging-pipe", "about:blank"]
        self.running = start(browser, profile, *words, pass_fds=(COMMANDS, ANSWERS), preexec_fn=place)
        for it in [theirs, other, *copies]:
            os.close(it)
        self.unread, self.sent, self.session = b"", 0, None
        self.errors, self.requests = [], []
        target = self.ask("Target.createTarget", url="about:blank")["targetId"]
        self.session = self.ask("Target.attachToTarget", targetId=target, flatten=True)["sessionId"]
        for it in ("Runtime", "Network", "Page"):
            self.ask(f"{it}.enable")
        self.ask("Page.navigate", url=url)

    def close(self):
        stop(self.running)
        for it in (self.commands, self.answers):
            os.close(it)

    def message(self):
        while b"\0" not in self.unread:
            is_there = select.select([self.answers], [], [], PATIENCE)[0]
            more = os.read(self.answers, 1 << 20) if is_there else b""
            if not more:
                raise Silence
            self.unread += more
        message, _, self.unread = self.unread.partition(b"\0")
        return json.loads(message)

    def ask(self, method, **params):
        """Gives the browser a command, and returns what it answers."""
        self.sent += 1
        command = {"id": self.sent, "method": method, "params": params}
        if self.session:
            command["sessionId"] = self.session
        os.write(self.commands, json.dumps(command).encode() + b"\0")
        while (message := self.message()).get("id") != self.sent:
            self.heed(message)
        if "error" in message:
            raise ValueError(f"{method}: {message['error']['message']}")
        return message["result"]

    def heed(self, event):
        if event["method"] == "Runtime.exceptionThrown":
            details = event["params"]["exceptionDetails"]
            self.errors.append(details.get("exception", {}).get("description", details["text"]))
        elif event["method"] == "Network.requestWillBeSent":
            request = event["params"]["request"]
            self.requests.append((request["method"], request["url"]))

    def value(self, expression):
        """What an expression comes to in the page."""
        answer = self.ask("Runtime.evaluate", expression=expression, returnByValue=True)
        if "exceptionDetails" in answer:
            raise ValueError(f"{expression}: {answer['exceptionDetails']['exception']['description']}")
        return answer["result"].get("value")

    def text(self, selector):
        """What stands in an element, also where it is folded away."""
        return self.value(f"document.querySelector({json.dumps(selector)}).textContent")

    def wait_for(self, expression):
        """Whether the expression comes to hold, in so many looks, which take longer where the machine is loaded."""
        for _ in range(LOOKS):
            if self.value(expression):
                return True
            time.sleep(PATIENCE / LOOKS)
        return False

    def click(self, selector):
        """Clicks in the middle of an element."""
        element = f"document.querySelector({json.dumps(selector)})"
        self.value(f"{element}.scrollIntoView({{block: 'center'}})")
        middle = "({x, y, width, height}) => ({x: x + width / 2, y: y + height / 2})"
        place = self.value(f"({middle})({element}.getBoundingClientRect())")
        for kind in ("mousePressed", "mouseReleased"):
            self.ask("Input.dispatchMouseEvent", type=kind, button="left", clickCount=1, **place)

    def paste(self, selector, text):
        """Clicks into a field, and puts a text there in place of what it has."""
        self.click(selector)
        self.ask("Input.dispatchKeyEvent", type="keyDown", key="a", commands=["selectAll"])
        self.ask("Input.dispatchKeyEvent", type="keyUp", key="a")
        self.ask("Input.insertText", text=text)

    def picture(self):
        """What is seen, as the bytes of a PNG."""
        return base64.b64decode(self.ask("Page.captureScreenshot")["data"])
