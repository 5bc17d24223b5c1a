"""The browsers in which pages are tried, without a window, each with the same few calls beside those of selenium.

It is imported by scripts that /usr/bin/python3 runs, whose module selenium is Debian's. They end with status 77 and a reason where a browser
isn't there. Debian has a driver of Chromium's, and none of Firefox's, which is geckodriver: Firefox is asked by its own protocol,
Marionette, into which geckodriver would turn the commands of selenium.
"""
import base64
import contextlib
import json
import os
import shutil
import socket
import subprocess
import sys
import tempfile
import time

LACKING = 77
# How many seconds a browser has until it is there, and to answer, on a machine that others keep busy.
SECONDS = 180


def lack(why):
    print(why, file=sys.stderr)
    sys.exit(LACKING)


try:
    from selenium import webdriver
    from selenium.common.exceptions import WebDriverException
    from selenium.webdriver.chrome.service import Service
    from selenium.webdriver.remote.command import Command
except ImportError:
    lack("python3-selenium isn't installed for /usr/bin/python3")


def found(name, package):
    """The path of a program of Debian's."""
    return shutil.which(name) or lack(f"{name} isn't installed (Debian's package {package})")


class Chromium(webdriver.Chrome):
    """Chromium, which keeps a log of all requests and of what its console says."""

    def __init__(self):
        options = webdriver.ChromeOptions()
        options.binary_location = found("chromium", "chromium")
        for word in ("--headless=new", "--no-sandbox", "--disable-gpu", "--disable-dev-shm-usage", "--hide-scrollbars"):
            options.add_argument(word)
        options.set_capability("goog:loggingPrefs", {"browser": "ALL", "performance": "ALL"})
        super().__init__(service=Service(found("chromedriver", "chromium-driver")), options=options)

    def sized(self, size):
        """Gives pages a view of this size, in pixels."""
        width, height = size
        how = {"width": width, "height": height, "deviceScaleFactor": 1, "mobile": width < 500}
        self.execute_cdp_cmd("Emulation.setDeviceMetricsOverride", how)
        self.execute_cdp_cmd("Emulation.setFocusEmulationEnabled", {"enabled": True})

    def saves_to(self, folder):
        """Puts what pages save into a folder."""
        self.execute_cdp_cmd("Browser.setDownloadBehavior", {"behavior": "allow", "downloadPath": folder})

    def pictured(self, size):
        """A picture of the whole page, of this size."""
        clip = {"x": 0, "y": 0, "width": size[0], "height": size[1], "scale": 1}
        taken = self.execute_cdp_cmd("Page.captureScreenshot", {"captureBeyondViewport": True, "clip": clip})
        return base64.b64decode(taken["data"])

    @contextlib.contextmanager
    def without_wasm(self):
        """Takes WebAssembly away from the pages that are opened within."""
        taken = self.execute_cdp_cmd("Page.addScriptToEvaluateOnNewDocument", {"source": "delete window.WebAssembly"})
        yield
        self.execute_cdp_cmd("Page.removeScriptToEvaluateOnNewDocument", taken)

    @contextlib.contextmanager
    def without_storage(self):
        """Lets the pages that are opened within have no store of their own."""
        refused = "Object.defineProperty(window, 'localStorage', { get() { throw new DOMException('no', 'SecurityError'); } })"
        taken = self.execute_cdp_cmd("Page.addScriptToEvaluateOnNewDocument", {"source": refused})
        yield
        self.execute_cdp_cmd("Page.removeScriptToEvaluateOnNewDocument", taken)

    def logs(self):
        """The addresses that were asked for since the last call, and what the console said."""
        events = [json.loads(it["message"])["message"] for it in self.get_log("performance")]
        asked = [it["params"]["request"]["url"] for it in events if it["method"] == "Network.requestWillBeSent"]
        return {"asked": asked, "console": [it["message"] for it in self.get_log("browser")]}


class Marionette:
    """The commands of selenium, each of which becomes one of Marionette's: a number of bytes, a colon, and as many bytes of JSON."""

    NAMES = {
        Command.NEW_SESSION: "WebDriver:NewSession",
        Command.QUIT: "Marionette:Quit",
        Command.GET: "WebDriver:Navigate",
        Command.W3C_EXECUTE_SCRIPT: "WebDriver:ExecuteScript",
        Command.FIND_ELEMENT: "WebDriver:FindElement",
        Command.FIND_ELEMENTS: "WebDriver:FindElements",
        Command.CLICK_ELEMENT: "WebDriver:ElementClick",
        Command.SEND_KEYS_TO_ELEMENT: "WebDriver:ElementSendKeys",
        Command.W3C_ACTIONS: "WebDriver:PerformActions",
        Command.SET_WINDOW_RECT: "WebDriver:SetWindowRect",
    }

    def __init__(self, port):
        self.number, self.socket = 0, socket.create_connection(("127.0.0.1", port), SECONDS)
        self.stream = self.socket.makefile("rb")
        self.read()

    def read(self):
        length = b""
        while not length.endswith(b":"):
            got = self.stream.read(1)
            if not got:
                raise WebDriverException("Firefox has gone")
            length += got
        return json.loads(self.stream.read(int(length[:-1])))

    def ask(self, name, **params):
        """What Firefox answers to a command of Marionette."""
        self.number += 1
        text = json.dumps([0, self.number, name, params]).encode()
        self.socket.sendall(b"%d:%s" % (len(text), text))
        _, _, error, result = self.read()
        if error:
            raise WebDriverException(f"{error['error']}: {error['message']}")
        return result["value"] if isinstance(result, dict) and {*result} == {"value"} else result

    def execute(self, command, params):
        """What selenium calls. (What it wishes of a session is for a driver.)"""
        given = {} if command == Command.NEW_SESSION else {name: it for name, it in params.items() if name != "sessionId"}
        return {"value": self.ask(self.NAMES[command], **given)}

    def close(self):
        self.socket.close()


class Firefox(webdriver.Remote):
    """Firefox with an empty profile. What isn't a page's, as its settings and its console, is asked in its own context."""

    # Files are saved without a question, scrollbars take no room, and nothing is asked of a network by Firefox itself.
    SETTINGS = {
        "marionette.port": 0,
        "browser.download.folderList": 2,
        "browser.download.always_ask_before_handling_new_types": False,
        "browser.download.alwaysOpenPanel": False,
        "widget.gtk.overlay-scrollbars.enabled": True,
        "ui.useOverlayScrollbars": 1,
        "datareporting.policy.dataSubmissionEnabled": False,
        "network.captive-portal-service.enabled": False,
        "network.connectivity-service.enabled": False,
        "services.settings.server": "data:,",
    }

    def __init__(self):
        program = found("firefox-esr", "firefox-esr")
        self.profile = tempfile.mkdtemp(prefix="osp-firefox-")
        with open(f"{self.profile}/user.js", "w", encoding="utf-8") as file:
            file.writelines(f"user_pref({json.dumps(name)}, {json.dumps(it)});\n" for name, it in self.SETTINGS.items())
        words = [program, "--headless", "--no-remote", "--marionette", "--remote-allow-system-access", "--profile", self.profile]
        quiet = {"stdin": subprocess.DEVNULL, "stdout": subprocess.DEVNULL, "stderr": subprocess.DEVNULL}
        self.process = subprocess.Popen(words, env={**os.environ, "HOME": self.profile, "MOZ_CRASHREPORTER_DISABLE": "1"}, **quiet)
        try:
            super().__init__(command_executor=Marionette(self.port()), options=webdriver.FirefoxOptions())
        except BaseException:
            self.end()
            raise
        # (Else selenium would send files that are put in a page to another machine.)
        self._is_remote = False

    def port(self):
        """Where it listens, once it says so in its profile."""
        ends, name = time.monotonic() + SECONDS, f"{self.profile}/MarionetteActivePort"
        while time.monotonic() < ends and self.process.poll() is None:
            with contextlib.suppress(OSError, ValueError), open(name, encoding="ascii") as file:
                return int(file.read())
            time.sleep(0.2)
        raise WebDriverException("Firefox doesn't listen")

    def end(self):
        """Ends Firefox, if it runs, and takes its profile away."""
        self.process.kill()
        self.process.wait()
        shutil.rmtree(self.profile, ignore_errors=True)

    def quit(self):
        try:
            self.command_executor.ask("Marionette:Quit", flags=["eForceQuit"])
            self.process.wait(SECONDS)
        finally:
            self.command_executor.close()
            self.end()

    def within(self, script, *given):
        """Runs a script in Firefox's own context, and answers what it returns."""
        self.command_executor.ask("Marionette:SetContext", value="chrome")
        try:
            return self.execute_script(script, *given)
        finally:
            self.command_executor.ask("Marionette:SetContext", value="content")

    def sized(self, size):
        """As Chromium.sized. A window is wider and higher than what it shows of a page."""
        for _ in range(2):
            more = self.execute_script("return [window.outerWidth - window.innerWidth, window.outerHeight - window.innerHeight]")
            self.set_window_rect(0, 0, *(wanted + it for wanted, it in zip(size, more)))

    def saves_to(self, folder):
        self.within("Services.prefs.setStringPref('browser.download.dir', arguments[0])", folder)

    def pictured(self, size):
        return base64.b64decode(self.command_executor.ask("WebDriver:TakeScreenshot", full=True))

    @contextlib.contextmanager
    def without_wasm(self):
        self.within("Services.prefs.setBoolPref('javascript.options.wasm', false)")
        yield
        self.within("Services.prefs.clearUserPref('javascript.options.wasm')")

    @contextlib.contextmanager
    def without_storage(self):
        self.within("Services.prefs.setBoolPref('dom.storage.enabled', false)")
        yield
        self.within("Services.prefs.clearUserPref('dom.storage.enabled')")

    def logs(self):
        """The addresses of this page and of what it asked for, and what the console said of pages since the last call."""
        asked = self.execute_script("return [location.href, ...performance.getEntriesByType('resource').map((it) => it.name)]")
        said = """
            const own = /^(chrome|resource):/;
            const told = Services.console.getMessageArray().filter((it) => it instanceof Ci.nsIScriptError && it.innerWindowID && !own.test(it.sourceName));
            Services.console.reset();
            return told.map((it) => it.message);"""
        return {"asked": asked, "console": self.within(said)}


BROWSERS = {"chromium": Chromium, "firefox": Firefox}


def opened(name):
    """A browser. (It may not come up in time where the processors are busy.)"""
    for left in (2, 1, 0):
        try:
            return BROWSERS[name]()
        except (WebDriverException, OSError):
            if not left:
                raise
            time.sleep(5)
