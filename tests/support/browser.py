"""A browser at the desk's page, led by Debian's chromium-driver and python3-selenium. Every wait is for a state of the page, none for a time."""
import base64
import json
import os
import sys
from pathlib import Path

from meadow.programs import TOP

DEBIANS_PYTHON, DRIVER = "/usr/bin/python3", "/usr/bin/chromedriver"
LAPTOP = (1366, 768)
# seconds in which a state must come, however busy the machine is
PATIENCE = 60


def led(checks):
    """The packages that lead a browser, by Debian's Python where this one has none; a test is skipped where nobody has them."""
    try:
        from selenium import webdriver
    except ImportError:
        if sys.executable != DEBIANS_PYTHON and Path(DEBIANS_PYTHON).exists():
            os.execv(DEBIANS_PYTHON, [DEBIANS_PYTHON, str(TOP / "tests" / "support" / "started.py"), checks.name, *sys.argv[1:]])
        webdriver = None
    if webdriver is None or not Path(DRIVER).exists():
        checks.skip("the desk's page", "no browser that a test can lead; bin/setup installs it")
        checks.end()
    return webdriver


class Page:
    """A browser at the desk's page."""

    def __init__(self, webdriver, room, folder=None):
        self.room, self.folder = room, folder
        options = webdriver.ChromeOptions()
        for word in ("--headless=new", "--no-sandbox", "--disable-gpu", "--disable-dev-shm-usage", "--force-device-scale-factor=1"):
            options.add_argument(word)
        options.set_capability("goog:loggingPrefs", {"browser": "ALL"})
        self.driver = webdriver.Chrome(options=options, service=service())
        self.driver.set_script_timeout(PATIENCE)

    def __enter__(self):
        return self

    def __exit__(self, *_):
        self.driver.quit()

    def size(self, wide, high, mobile=False):
        """Another screen."""
        self.driver.execute_cdp_cmd("Emulation.setDeviceMetricsOverride", {"width": wide, "height": high, "deviceScaleFactor": 1, "mobile": mobile})

    def js(self, words, *lent):
        """What an expression of the page is."""
        return self.driver.execute_script(f"return {words}", *lent)

    def wait(self, words):
        """Waits until an expression of the page is true."""
        from selenium.webdriver.support.ui import WebDriverWait

        WebDriverWait(self.driver, PATIENCE, 0.02).until(lambda _: self.js(words), f"waited in vain for {words}")

    def until(self, is_so, what):
        """Waits until something outside the page is so."""
        from selenium.webdriver.support.ui import WebDriverWait

        WebDriverWait(self.driver, PATIENCE, 0.02).until(lambda _: is_so(), what)

    def idle(self):
        """Waits until everything asked for is done and drawn."""
        self.wait("!desk.inLine && !desk.busy && !desk.playing && !isQueued")

    def open(self):
        """Opens the page and waits until it stands."""
        self.driver.get(f"http://127.0.0.1:{self.room.port}/")
        self.wait("document.body.dataset.ready === 'yes'")
        self.idle()

    def find(self, name):
        """An element by its id."""
        return self.driver.find_element("id", name)

    def click(self, name):
        """A click on an element, and all that it does."""
        self.find(name).click()

    def keys(self, *keys):
        """Keys to what has the focus."""
        self.driver.switch_to.active_element.send_keys(*keys)

    def away(self):
        """The focus is nowhere."""
        self.js("document.activeElement.blur()")

    def text(self, name):
        """The words of an element."""
        return self.find(name).text

    def told(self):
        """The words of the last message, also where it has gone by itself."""
        return self.js("document.getElementById('trouble').textContent")

    def depths(self):
        """Every depth of the state that stands."""
        return self.js("Array.from(lastOf(here()).depths)")

    def made(self, count):
        """Waits until so many steps stand, and all is done."""
        self.wait(f"here() && madeOf(here()) === {count} && !desk.inLine && !desk.busy")

    def shot(self, name):
        """The picture of the page, kept where pictures are asked for."""
        self.wait("!isQueued")
        data = base64.b64decode(self.driver.get_screenshot_as_base64())
        if self.folder:
            (Path(self.folder) / f"desk-{name}.png").write_bytes(data)
        return data


def service():
    """What leads the browser."""
    from selenium.webdriver.chrome.service import Service

    return Service(DRIVER)


# ---- hands


def begin_trial(page, name):
    """A new trial by keys alone."""
    from selenium.webdriver.common.keys import Keys

    count = page.js("desk.order.length")
    page.away()
    page.keys("n")
    page.wait("document.getElementById('ask').open")
    page.keys(Keys.CONTROL, "a")
    page.keys(name, Keys.ENTER)
    page.wait(f"desk.order.length === {count + 1} && here() && here().name === {json.dumps(name)}")
    page.idle()


def draw_hatch(page, number, litres):
    """A hatch by its number and a typed rate."""
    from selenium.webdriver.common.keys import Keys

    field = page.find(f"rate{number}")
    field.click()
    field.send_keys(Keys.CONTROL, "a")
    field.send_keys(str(litres), Keys.ENTER)
    page.wait(f"here().rates[{number - 1}] === {litres}")
    page.idle()
    page.away()
