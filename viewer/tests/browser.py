"""The page in headless Chromium, and what a person does with it."""

import atexit
import shutil
import subprocess
import tempfile
import time
from pathlib import Path
from typing import Any

from selenium import webdriver
from selenium.webdriver.chrome.service import Service
from selenium.webdriver.common.action_chains import ActionChains
from selenium.webdriver.common.by import By
from selenium.webdriver.common.keys import Keys
from selenium.webdriver.remote.webelement import WebElement
from selenium.webdriver.support.ui import Select

ROOT = Path(__file__).resolve().parents[2]
# The page as it is joined for these tests.
PAGE = Path(tempfile.mkdtemp()) / "index.html"
subprocess.run([ROOT / "viewer" / "join", PAGE], check=True)
atexit.register(shutil.rmtree, PAGE.parent)
# The live region is spoken, and the address is set, this long after a choice.
IDLE = 0.3


class Browser:
    """A page of a size and in a color scheme."""

    def __init__(self, chromium: str, driver: str, width: int, height: int, is_dark: bool) -> None:
        options = webdriver.ChromeOptions()
        options.binary_location = chromium
        for word in ("--headless=new", "--no-sandbox", "--disable-gpu", "--disable-dev-shm-usage", f"--window-size={width},{height}"):
            options.add_argument(word)
        options.set_capability("goog:loggingPrefs", {"browser": "ALL"})
        self.driver = webdriver.Chrome(service=Service(driver), options=options)
        self.driver.set_script_timeout(120)
        self.size = width, height
        self.restore()
        self.is_dark = is_dark
        self.scheme()

    def scheme(self, media: str = "") -> None:
        """Show the page in the person's colors, on the screen or as it is printed."""
        scheme = {"name": "prefers-color-scheme", "value": "dark" if self.is_dark else "light"}
        self.driver.execute_cdp_cmd("Emulation.setEmulatedMedia", {"media": media, "features": [scheme]})

    def resize(self, width: int, height: int, scale: float = 1) -> None:
        size = {"width": width, "height": height, "deviceScaleFactor": scale, "mobile": False}
        self.driver.execute_cdp_cmd("Emulation.setDeviceMetricsOverride", size)

    def restore(self) -> None:
        """Restore the size that the page had first."""
        self.resize(*self.size)

    def open(self, page: Path = PAGE, part: str = "") -> None:
        self.driver.get("about:blank")
        self.driver.get(f"file://{page}{part}")

    def load(self, trace: Path, part: str = "") -> float:
        """Open the page and choose a file there.

        Return the seconds until the run, or the reason for its refusal, is shown.
        """
        self.open(part=part)
        return self.choose_file(trace)

    def choose_file(self, trace: Path) -> float:
        start = time.monotonic()
        self.find("file").send_keys(str(trace))
        self.until("return opening > 0 && document.getElementById('busy').hidden")
        seconds = time.monotonic() - start
        self.frame()
        return seconds

    def until(self, script: str, seconds: float = 60) -> None:
        end = time.monotonic() + seconds
        while not self.run(script):
            if time.monotonic() > end:
                raise TimeoutError(script)
            time.sleep(0.02)

    def frame(self) -> None:
        """Wait until what was requested is drawn."""
        self.driver.execute_async_script("requestAnimationFrame(() => requestAnimationFrame(arguments[0]))")

    def wait_idle(self) -> None:
        """Wait until the address is stored, and what was chosen is spoken."""
        time.sleep(IDLE)

    def go(self, by: int) -> None:
        """Move along the entries of the browser's history."""
        self.run("history.go(arguments[0])", by)
        self.wait_idle()
        self.frame()

    def run(self, script: str, *arguments: Any) -> Any:
        return self.driver.execute_script(script, *arguments)

    def find(self, name: str) -> WebElement:
        return self.driver.find_element(By.ID, name)

    def all(self, selector: str) -> list[WebElement]:
        return self.driver.find_elements(By.CSS_SELECTOR, selector)

    def text(self, name: str) -> str:
        return " ".join(self.find(name).text.split())

    def texts(self, selector: str) -> list[str]:
        return [" ".join(it.split()) for it in self.run("return [...document.querySelectorAll(arguments[0])].map(it => it.innerText)", selector)]

    def title(self) -> str:
        """Return the title of the chosen event."""
        return self.texts("#detail .title")[0]

    def press(self, *keys: str, shift: bool = False) -> None:
        chain = ActionChains(self.driver)
        if shift:
            chain.key_down(Keys.SHIFT)
        chain.send_keys(*keys)
        if shift:
            chain.key_up(Keys.SHIFT)
        chain.perform()
        self.frame()

    def click(self, name: str) -> None:
        self.find(name).click()
        self.frame()

    def write(self, name: str, text: str) -> None:
        """Write a text into an emptied field."""
        self.run("const it = document.getElementById(arguments[0]); it.value = ''; it.dispatchEvent(new Event('input')); it.focus()", name)
        if text:
            self.press(text)
        self.frame()

    def select(self, name: str, value: str) -> None:
        Select(self.find(name)).select_by_value(value)
        self.frame()

    def leave(self) -> None:
        """Remove the focus from what has it."""
        self.run("document.activeElement.blur()")

    def slide(self, count: int) -> None:
        self.run("const it = document.getElementById('slider'); it.value = arguments[0]; it.dispatchEvent(new Event('input'))", count)
        self.frame()

    def problems(self) -> list[str]:
        return [it["message"] for it in self.driver.get_log("browser")]

    def shot(self, path: Path) -> None:
        time.sleep(IDLE)
        self.driver.save_screenshot(str(path))

    def quit(self) -> None:
        self.driver.quit()
