"""Chromium, driven by Debian's python3-selenium and chromium-driver."""
import base64
import concurrent.futures
import contextlib
import os
import pathlib
import random
import shutil
import socket
import time

import debian

selenium = debian.module("selenium.webdriver")
chrome = debian.module("selenium.webdriver.chrome.service")

# Long, because a busy machine needs seconds to show a page.
SECONDS = 120
# Where the browsers are: a page that took its days to be of a zone would be hours off.
ZONE = "America/New_York"
# A clock that is ahead or behind, for pages that are opened from then on.
CLOCK = """{
  const Real = Date;
  const shift = new Real(%r).getTime() - Real.now();
  window.Date = class extends Real {
    constructor(...words) { words.length ? super(...words) : super(Real.now() + shift); }
    static now() { return Real.now() + shift; }
  };
}"""


def missing():
    """Which of the Debian packages aren't installed."""
    programs = {"chromium": "chromium", "chromedriver": "chromium-driver"}
    return [*(package for name, package in programs.items() if not shutil.which(name)),
            *(["python3-selenium"] if selenium is None else [])]


def free_port():
    """A port that nothing has, below those that the system gives to the tests that run beside."""
    while True:
        with socket.socket() as one, contextlib.suppress(OSError):
            one.bind(("127.0.0.1", random.randrange(20_000, 32_768)))
            return one.getsockname()[1]


def until(what, is_so):
    """Waits until something is so."""
    end = time.monotonic() + SECONDS
    while time.monotonic() < end:
        found = is_so()
        if found:
            return found
        time.sleep(0.02)
    raise TimeoutError(f"not within {SECONDS} s: {what}")


def until_or_ended(process, what, is_so):
    """Waits until something is so; ends the process if it never is."""
    try:
        until(what, is_so)
    except Exception:
        process.kill()
        process.wait()
        raise


@contextlib.contextmanager
def starting(folder):
    """A browser that starts while other tests run: what waits for it; None if something is
    missing."""
    if missing():
        yield None
        return
    with concurrent.futures.ThreadPoolExecutor(1) as pool:
        future = pool.submit(Browser, folder)
        try:
            yield future.result
        finally:
            future.result().driver.quit()


class Browser:
    """A browser. For each reader it opens a host of their own, so that none has another's
    password."""

    def __init__(self, folder):
        folder = pathlib.Path(folder)
        options = selenium.ChromeOptions()
        options.binary_location = shutil.which("chromium")
        for word in ("--headless=new", "--no-sandbox", "--disable-dev-shm-usage", "--disable-gpu",
                     "--hide-scrollbars", f"--user-data-dir={folder / 'browser'}",
                     "--host-resolver-rules=MAP *.localhost 127.0.0.1, MAP * ~NOTFOUND"):
            options.add_argument(word)
        options.set_capability("goog:loggingPrefs", {"browser": "ALL"})
        service = chrome.Service(shutil.which("chromedriver"),
                                 env={**os.environ, "TZ": ZONE, "TMPDIR": str(folder)})
        self.driver = selenium.Chrome(service=service, options=options)
        self.driver.set_script_timeout(SECONDS)
        self.readers, self.clock = 0, None
        self.agent = self.run("return navigator.userAgent")

    def __enter__(self):
        return self

    def __exit__(self, *_):
        self.driver.quit()

    def new_host(self, width=1200, height=900, language="en-GB", is_dark=False, ratio=1,
                 now="2005-04-01T08:00:00"):
        """A host for a reader with such a screen, language and clock."""
        self.devtools("Emulation.setDeviceMetricsOverride", width=width, height=height,
                      deviceScaleFactor=ratio, mobile=width < 600)
        self.devtools("Emulation.setEmulatedMedia", media="", features=[
            {"name": "prefers-color-scheme", "value": "dark" if is_dark else "light"}])
        self.devtools("Network.setUserAgentOverride", userAgent=self.agent,
                      acceptLanguage=language)
        if self.clock:
            self.devtools("Page.removeScriptToEvaluateOnNewDocument", identifier=self.clock)
        self.clock = self.devtools("Page.addScriptToEvaluateOnNewDocument",
                                   source=CLOCK % now)["identifier"]
        self.readers += 1
        self.complaints()
        return f"reader{self.readers}.localhost"

    def devtools(self, command, **words):
        return self.driver.execute_cdp_cmd(command, words)

    def go(self, url):
        self.driver.get(url)

    def run(self, script, *args):
        """Returns what the function body returns."""
        return self.driver.execute_script(script, *args)

    def waits(self, script, *args):
        """Runs the body again until what it returns is true of something."""
        try:
            return until(script, lambda: self.run(script, *args))
        except TimeoutError as late:
            page = self.run("return document.body.innerText")
            raise TimeoutError(f"{late}; the page has {page!r}") from None

    def text(self, selector):
        return self.run("return document.querySelector(arguments[0]).innerText", selector)

    def texts(self, selector):
        return self.run("return [...document.querySelectorAll(arguments[0])].map(e => e.innerText)",
                        selector)

    def click(self, selector):
        self.driver.find_element("css selector", selector).click()

    def types(self, selector, text):
        """Types into a field; into one for files, the path of one."""
        self.driver.find_element("css selector", selector).send_keys(text)

    def press(self, *keys):
        """Presses keys, one after another, wherever the focus is."""
        selenium.ActionChains(self.driver, duration=0).send_keys(*keys).perform()

    def chord(self, held, key):
        """Presses a key while another one is held."""
        selenium.ActionChains(self.driver, duration=0).key_down(held).send_keys(key).key_up(
            held).perform()

    def complaints(self, *sources):
        """Returns what the console got from these sources, else from all but the network, which
        reports each refusal."""
        return [entry["message"] for entry in self.driver.get_log("browser")
                if (entry["source"] in sources if sources else entry["source"] != "network")]

    def downloads_to(self, folder):
        """Keeps downloads in this folder."""
        self.devtools("Browser.setDownloadBehavior", behavior="allow", downloadPath=str(folder))

    def pdf(self, path, width, height):
        """The page as it is printed, on paper of this size in inches."""
        made = self.devtools("Page.printToPDF", paperWidth=width, paperHeight=height)
        pathlib.Path(path).write_bytes(base64.b64decode(made["data"]))

    def picture(self, path):
        """The whole page."""
        height = self.run("return document.documentElement.scrollHeight")
        width = self.run("return document.documentElement.clientWidth")
        made = self.devtools("Page.captureScreenshot", format="png", captureBeyondViewport=True,
                             clip={"x": 0, "y": 0, "width": width, "height": height, "scale": 1})
        pathlib.Path(path).write_bytes(base64.b64decode(made["data"]))
