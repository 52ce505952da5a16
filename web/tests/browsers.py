"""Chromium and Firefox without a window, driven by WebDriver's commands: by HTTP through chromedriver, and by Firefox's
own protocol Marionette, which has the same commands. Python's library alone is used."""

import base64
import json
import os
import re
import shutil
import socket
import subprocess
import tempfile
import time
import urllib.error
import urllib.request

# The most that a browser has to start, and to answer a command.
SECONDS = 120
ELEMENT = "element-6066-11e4-a52e-4f735466cecf"
ARROW_LEFT, ARROW_RIGHT, ARROW_DOWN, TAB, SPACE, CONTROL = "\ue012", "\ue014", "\ue015", "\ue004", " ", "\ue009"


class Failed(Exception):
    """A browser that did not start, or refused a command."""


def waited_for(what, ready):
    """What `ready` answers, once that is something."""
    end = time.monotonic() + SECONDS
    while time.monotonic() < end:
        found = ready()
        if found:
            return found
        time.sleep(0.05)
    raise Failed(f"waited {SECONDS} seconds for {what}")


class Browser:
    """A browser, with a new profile. `dark` is the colour scheme that it asks pages for. Use it by `with`."""

    def __init__(self, dark=False):
        self.folder = tempfile.mkdtemp()
        self.log = open(f"{self.folder}/log", "w+b")
        self.process = None
        self.start(dark)

    def launch(self, words):
        environment = {**os.environ, "HOME": self.folder, "MOZ_CRASHREPORTER_DISABLE": "1"}
        how = {"stdin": subprocess.DEVNULL, "stdout": self.log, "stderr": self.log, "start_new_session": True}
        self.process = subprocess.Popen(words, env=environment, **how)

    def logged(self):
        """What the browser has written so far; it fails if the browser has ended."""
        with open(f"{self.folder}/log", encoding="utf-8", errors="replace") as log:
            written = log.read()
        if self.process.poll() is not None:
            raise Failed(f"{self.name} ended with {self.process.returncode}: {written[-2000:]}")
        return written

    def __enter__(self):
        return self

    def __exit__(self, *_):
        try:
            self.quit()
            self.process.wait(20)
        except (OSError, Failed, subprocess.TimeoutExpired):
            self.process.kill()
            self.process.wait()
        self.log.close()
        shutil.rmtree(self.folder, ignore_errors=True)

    def script(self, code, *arguments):
        """What the body of a function answers in the page."""
        return self.command("script", {"script": code, "args": list(arguments)})

    def keys(self, selector, keys):
        """Types into an element, as a person does who has put the focus there."""
        found = self.command("find", {"using": "css selector", "value": selector})
        self.command("keys", {"element": found[ELEMENT], "text": keys})

    def picture(self, path):
        """Takes a picture of what is seen, as a PNG."""
        with open(path, "wb") as file:
            file.write(base64.b64decode(self.command("picture", {"full": False})))


class Chromium(Browser):
    name = "Chromium"

    def start(self, dark):
        self.launch(["chromedriver", "--port=0", f"--log-path={self.folder}/driver"])
        found = waited_for("chromedriver", lambda: re.search(r"started successfully on port (\d+)", self.logged()))
        self.address = f"http://127.0.0.1:{found[1]}/session"
        words = ["--headless=new", "--window-size=1280,800", f"--user-data-dir={self.folder}/profile", "--disable-gpu"]
        # Its sandbox does not work for the user root.
        words += ["--no-sandbox"] if os.geteuid() == 0 else []
        options = {"goog:chromeOptions": {"args": words, "binary": shutil.which("chromium")}}
        self.address += "/" + self.sent("", {"capabilities": {"alwaysMatch": options}})["sessionId"]
        scheme = {"name": "prefers-color-scheme", "value": "dark" if dark else "light"}
        self.devtools("Emulation.setEmulatedMedia", {"features": [scheme]})

    def sent(self, path, body):
        how = {"Content-Type": "application/json"}
        request = urllib.request.Request(self.address + path, json.dumps(body).encode(), how)
        try:
            with urllib.request.urlopen(request, timeout=SECONDS) as answer:
                return json.load(answer)["value"]
        except urllib.error.HTTPError as error:
            raise Failed(error.read().decode(errors="replace")) from error

    def devtools(self, command, parameters):
        return self.sent("/goog/cdp/execute", {"cmd": command, "params": parameters})

    def command(self, name, body):
        if name == "picture":
            return self.devtools("Page.captureScreenshot", {})["data"]
        if name == "keys":
            return self.sent(f"/element/{body['element']}/value", {"text": body["text"]})
        return self.sent({"script": "/execute/sync", "find": "/element"}[name], body)

    def open(self, address):
        self.sent("/url", {"url": address})

    def resize(self, width, height):
        view = {"width": width, "height": height, "deviceScaleFactor": 1, "mobile": False}
        self.devtools("Emulation.setDeviceMetricsOverride", view)

    def quit(self):
        urllib.request.urlopen(urllib.request.Request(self.address, method="DELETE"), timeout=20)
        self.process.terminate()


class Firefox(Browser):
    name = "Firefox"

    def start(self, dark):
        profile = f"{self.folder}/profile"
        os.mkdir(profile)
        wanted = {
            "marionette.port": 0,
            "layout.css.prefers-color-scheme.content-override": 0 if dark else 1,
            "datareporting.policy.dataSubmissionEnabled": False,
            "browser.shell.checkDefaultBrowser": False,
            "app.update.enabled": False,
        }
        with open(f"{profile}/user.js", "w", encoding="utf-8") as file:
            file.writelines(f"user_pref({json.dumps(name)}, {json.dumps(to)});\n" for name, to in wanted.items())
        size = ["--width=1280", "--height=800"]
        self.launch(["firefox-esr", "--headless", "--marionette", "--no-remote", "--profile", profile, *size])
        port = waited_for("Firefox", lambda: self.port(f"{profile}/MarionetteActivePort"))
        self.socket = socket.create_connection(("127.0.0.1", port), timeout=SECONDS)
        self.stream = self.socket.makefile("rb")
        self.number = 0
        self.received()
        self.sent("WebDriver:NewSession", {})

    def port(self, path):
        self.logged()
        if os.path.exists(path):
            with open(path, encoding="utf-8") as file:
                return int(file.read() or 0)
        return None

    def received(self):
        length = b""
        while not length.endswith(b":"):
            length += self.stream.read(1) or b":"
        if length == b":":
            raise Failed("Firefox has ended")
        return json.loads(self.stream.read(int(length[:-1])))

    def sent(self, command, parameters):
        self.number += 1
        message = json.dumps([0, self.number, command, parameters]).encode()
        self.socket.sendall(b"%d:%s" % (len(message), message))
        _, _, error, result = self.received()
        if error:
            raise Failed(f"{command}: {error['message']}")
        return result["value"] if isinstance(result, dict) and "value" in result else result

    def command(self, name, body):
        names = {"script": "ExecuteScript", "find": "FindElement", "picture": "TakeScreenshot"}
        if name == "keys":
            return self.sent("WebDriver:ElementSendKeys", {"id": body["element"], "text": body["text"]})
        return self.sent(f"WebDriver:{names[name]}", body)

    def open(self, address):
        self.sent("WebDriver:Navigate", {"url": address})

    def resize(self, width, height):
        inner = "return [outerWidth - innerWidth, outerHeight - innerHeight]"
        across, down = self.script(inner)
        self.sent("WebDriver:SetWindowRect", {"width": width + across, "height": height + down})

    def quit(self):
        self.sent("Marionette:Quit", {"flags": ["eForceQuit"]})
