"""A browser and a page for tests: what is waited for is a condition, never a time."""
import re
import signal
import subprocess
import sys
from contextlib import contextmanager
from pathlib import Path

from checks import SECONDS, Mistake, Wrong, call, patience
from selenium import webdriver
from selenium.webdriver.chrome.service import Service
from selenium.webdriver.common.by import By
from selenium.webdriver.common.keys import Keys
from selenium.webdriver.support.ui import WebDriverWait

TOP = Path(__file__).resolve().parent.parent.parent
TRACE = TOP / "examples/sqlite.lirs"
# The page has drawn what was asked of it last.
IS_QUIET = "const it = document.getElementById('page'); return Boolean(it) && it.getAttribute('aria-busy') === 'false'"
# The texts of a page whose colours are too near to that behind them, by the rule of WCAG 2: 4.5 to 1.
PALE = """
const channels = text => text.match(/[\\d.]+/g).map(Number);
const linear = it => it <= 0.03928 ? it / 12.92 : ((it + 0.055) / 1.055) ** 2.4;
const parts = [0.2126, 0.7152, 0.0722];
const light = colour => parts.reduce((sum, part, at) => sum + part * linear(colour[at] / 255), 0);
const behind = it => {
  for (; it; it = it.parentElement) {
    const colour = channels(getComputedStyle(it).backgroundColor);
    if (colour[3] !== 0) return colour;
  }
  return [255, 255, 255];
};
const hasText = it => [...it.childNodes].some(part => part.nodeType === 3 && part.data.trim()) && it.checkVisibility();
return [...document.querySelectorAll("body *:not(svg *, script, style)")].filter(hasText).filter(it => {
  const pair = [light(channels(getComputedStyle(it).color)), light(behind(it))];
  return (Math.max(...pair) + 0.05) / (Math.min(...pair) + 0.05) < 4.5;
}).map(it => it.textContent.slice(0, 40))"""
# What can be chosen and has no name for who cannot see it.
NAMELESS = """
const isNamed = it => it.getAttribute("aria-label") || it.tagName === "BUTTON" && it.textContent.trim()
  || it.labels && it.labels.length && it.labels[0].textContent.trim();
const fields = [...document.querySelectorAll("input, button, select, [tabindex]")];
return fields.filter(it => !isNamed(it)).map(it => it.outerHTML)"""


class Browser:
    def __init__(self):
        options = webdriver.ChromeOptions()
        for it in ("--headless=new", "--no-sandbox", "--disable-dev-shm-usage", "--hide-scrollbars",
                   "--force-color-profile=srgb"):
            options.add_argument(it)
        options.set_capability("goog:loggingPrefs", {"browser": "ALL"})
        self.driver = webdriver.Chrome(service=Service("/usr/bin/chromedriver"), options=options)
        self.quit, self.run = self.driver.quit, self.driver.execute_script
        self.resize(1400)

    def resize(self, width, height=900):
        self.driver.execute_cdp_cmd("Emulation.setDeviceMetricsOverride",
                                    {"width": width, "height": height, "deviceScaleFactor": 1, "mobile": width < 500})

    def open(self, address):
        # Another position of a page that stands here would be no new page. What was said of others is past.
        self.driver.get("about:blank")
        self.complaints()
        self.driver.get(address)

    def show(self, address, at=0):
        """Opens a page of tools/watch at a position."""
        self.open(f"{address}#at={at}" if at else address)
        self.quiet()

    def until(self, script, *words):
        """What a script gives, once it gives something that is true."""
        return WebDriverWait(self.driver, patience(SECONDS),
                             0.02).until(lambda driver: driver.execute_script(script, *words))

    def quiet(self):
        self.until(IS_QUIET)

    def find(self, name):
        return self.driver.find_element(By.ID, name)

    def texts(self, selector):
        return self.run("return [...document.querySelectorAll(arguments[0])].map(it => it.textContent)", selector)

    def press(self, *keys):
        self.driver.find_element(By.TAG_NAME, "body").send_keys(*keys)
        self.quiet()

    def click(self, name):
        self.find(name).click()
        self.quiet()

    def position(self):
        return int(self.find("at").get_attribute("value"))

    def picture(self, file, width, most=20000):
        """A picture of the whole page at this width, which is not wider, or of so many lines of it at most."""
        self.resize(width)
        height = self.run("return document.documentElement.scrollHeight")
        self.resize(width, min(height, most))
        self.driver.save_screenshot(str(file))
        found = self.run("return document.documentElement.scrollWidth")
        self.resize(1400)
        if found > width or file.stat().st_size < 10000:
            raise Wrong(f"the page is {found} wide at {width}, and its picture has {file.stat().st_size} bytes")

    def complaints(self):
        """What the browser has against a page since it was asked last."""
        return [it["message"] for it in self.driver.get_log("browser") if it["level"] in ("SEVERE", "WARNING")]


KEYS = {"left": Keys.ARROW_LEFT, "right": Keys.ARROW_RIGHT}


def hears_signals():
    for number in (signal.SIGINT, signal.SIGHUP):
        signal.signal(number, signal.SIG_DFL)


@contextmanager
def watched(tools, program, *words):
    """The address of a page of tools/watch, and its server."""
    command = [sys.executable, "-SE", tools / "watch", "--program", program, *words]
    # What is begun in the background ignores an interrupt, or the end of a terminal, and so would the server.
    with subprocess.Popen([str(it) for it in command], stdin=subprocess.DEVNULL, stdout=subprocess.PIPE, text=True,
                          preexec_fn=hears_signals) as server:
        try:
            address = server.stdout.readline().strip()
            if not re.fullmatch(r"http://127\.0\.0\.1:\d+/\?token=[\w-]{32}", address):
                raise Wrong(f"the address is {address!r}, status {server.wait()}")
            yield address, server
        finally:
            server.kill()


def dialogue(program, words, *commands):
    """The program's own answers, line by line, to commands that are asked beside the page."""
    out, error, status = call(program, *words, typed="".join(f"{it}\n" for it in commands))
    if status or error:
        raise Wrong(f"status {status}: {error}")
    return out.splitlines()
