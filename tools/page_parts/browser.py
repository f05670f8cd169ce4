"""A browser for each person: Chromium without a window, driven by Selenium."""
import base64
import time
import typing

from selenium import webdriver
from selenium.common.exceptions import JavascriptException, WebDriverException
from selenium.webdriver.common.by import By
from selenium.webdriver.support.ui import Select, WebDriverWait

from .firm import password

WORDS = ["--headless=new", "--no-sandbox", "--disable-gpu", "--disable-dev-shm-usage", "--lang=en-US",
         "--disable-extensions", "--no-first-run", "--force-device-scale-factor=1", "--hide-scrollbars"]
WIDE = 1200
PHONE = 360
SETTLED = 0.2  # seconds without a change
BEGINNINGS = 3  # how often a browser is begun until it is there
HEARD = 20  # seconds until a click that the page has not heard is made again

# Counts, in each page, the clicks that it heard and the requests that are under way.
COUNTING = """addEventListener('click', () => { window.clicks = (window.clicks ?? 0) + 1; }, true);
const send = window.fetch;
window.fetch = (...words) => {
    window.asking = (window.asking ?? 0) + 1;
    return send.apply(window, words).finally(() => { window.asking -= 1; });
};"""
CLICKS = "return [performance.timeOrigin, window.clicks ?? 0]"
IS_DRAWN = "const main = document.querySelector('main'); return !!main && !document.querySelector('[aria-busy=true]')"
# Behind what the page had to do before this was asked.
SEEN = """setTimeout(() => {
    const main = document.querySelector('main');
    const isBusy = document.querySelector('[aria-busy=true]') !== null || (window.asking ?? 0) > 0;
    done([!isBusy, document.getElementById('said')?.textContent ?? '', main?.textContent, location.hash]);
}, 30);"""
# Until the page has heard of it, and draws.
SET_HASH = """const view = arguments[0];
addEventListener('hashchange', () => done(), { once: true });
if (location.hash === view) dispatchEvent(new Event('hashchange')); else location.hash = view;"""


def begun(options: webdriver.ChromeOptions) -> webdriver.Chrome:
    """A browser. On a busy machine it may not be there in time, and is begun anew."""
    for _ in range(BEGINNINGS - 1):
        try:
            return webdriver.Chrome(options=options)
        except WebDriverException as fault:
            print(f"page: a browser is begun again: {(fault.msg or '').splitlines()[:1]}", flush=True)
    return webdriver.Chrome(options=options)


class Browser:
    """A person's browser, signed on."""

    def __init__(self, person: str, origin: str, width: int = WIDE, height: int = 900) -> None:
        options = webdriver.ChromeOptions()
        for word in [*WORDS, f"--window-size={width},{height}"]:
            options.add_argument(word)
        options.set_capability("goog:loggingPrefs", {"browser": "ALL"})
        self.web = begun(options)
        self.web.set_script_timeout(120)
        self.web.execute_cdp_cmd("Page.addScriptToEvaluateOnNewDocument", {"source": COUNTING})
        self.person, self.origin = person, origin
        if width < 600:
            size = {"width": width, "height": height, "deviceScaleFactor": 1, "mobile": True}
            self.web.execute_cdp_cmd("Emulation.setDeviceMetricsOverride", size)
        if person:
            self.sign_on(person)

    def sign_on(self, person: str) -> None:
        """By an address with the password, which the browser keeps. A page of that address itself asks nothing."""
        address = self.origin.replace("//", f"//{person}:{password(person)}@")
        self.web.get(f"{address}/page/style.css")
        self.open("")

    def open(self, view: str) -> None:
        """Loads the page anew."""
        self.web.get("about:blank")
        self.web.get(f"{self.origin}/{view}")
        self.ready()

    def to(self, view: str) -> None:
        """To another view of the page that is loaded."""
        self.wait(SET_HASH, view)
        self.ready()

    def ready(self) -> None:
        WebDriverWait(self.web, 200, poll_frequency=0.03).until(lambda web: web.execute_script(IS_DRAWN))

    def settle(self) -> None:
        """Until nothing is asked any more, and nothing changes for a while."""
        last: typing.Any = None
        since = begun = time.monotonic()
        while True:
            now = self.seen()
            is_calm = now == last and now[0] and not now[1]
            if is_calm and time.monotonic() - since >= SETTLED:
                return
            if not is_calm:
                last, since = now, time.monotonic()
            if time.monotonic() - begun > 200:
                raise TimeoutError(f"the page does not settle: {now}")

    def seen(self) -> list[typing.Any]:
        """Whether nothing is under way, and what the page shows. One that is loaded anew meanwhile has no answer."""
        try:
            return list(self.wait(SEEN))
        except JavascriptException:
            return [False, "", "", ""]

    def text(self) -> str:
        return self.web.find_element(By.TAG_NAME, "main").text

    def title(self) -> str:
        return self.web.find_element(By.TAG_NAME, "h1").text

    def find(self, selector: str) -> list[typing.Any]:
        return self.web.find_elements(By.CSS_SELECTOR, selector)

    def focused(self) -> typing.Any:
        return self.web.switch_to.active_element

    def fill(self, **values: str) -> None:
        """Fields of the form by their names; `from_` for `from`."""
        for name, value in values.items():
            field = self.web.find_element(By.NAME, name.rstrip("_"))
            if field.tag_name == "select":
                Select(field).select_by_value(value)
            else:
                field.clear()
                field.send_keys(value)

    def click(self, selector: str, words: str) -> None:
        for each in self.find(selector):
            if words in each.text and each.is_displayed():
                self.click_at(each)
                self.settle()
                return
        raise AssertionError(f"no {selector} {words!r} in {self.text()!r}")

    def click_at(self, element: typing.Any) -> None:
        """A busy machine may lose a click: one that the page does not hear is made again."""
        before = self.run(CLICKS)
        element.click()
        end = time.monotonic() + HEARD
        while self.run(CLICKS) == before:
            if time.monotonic() > end:
                print(f"page: a click was not heard: {element.text!r}", flush=True)
                element.click()
                return
            time.sleep(0.03)

    def press(self, words: str) -> None:
        """Presses a button; where the page tells doubts before it books, all the same."""
        self.press_once(words)
        for each in self.find(".box.note button"):
            if each.text == f"{words} all the same":
                each.click()
                self.settle()
                return

    def press_once(self, words: str) -> None:
        self.click("button", words)

    def follow(self, words: str) -> None:
        self.click("main a, nav a", words)

    def run(self, script: str, *words: object) -> typing.Any:
        return self.web.execute_script(script, *words)

    def wait(self, script: str, *words: object) -> typing.Any:
        """Runs a script that gives its result to a callback, `done`."""
        return self.web.execute_async_script(f"const done = arguments[arguments.length - 1]; {script}", *words)

    def picture(self, height: int = 3000, width: int | None = None) -> bytes:
        """The whole page as a PNG, up to a height."""
        size = self.run("return [document.documentElement.clientWidth, document.documentElement.scrollHeight]")
        clip = {"x": 0, "y": 0, "width": width or size[0], "height": min(size[1], height), "scale": 1}
        told = self.web.execute_cdp_cmd("Page.captureScreenshot", {"captureBeyondViewport": True, "clip": clip})
        return base64.b64decode(told["data"])

    def faults(self) -> list[str]:
        """What the browser's log has beyond refused requests, which are asked for."""
        lines = [each["message"] for each in self.web.get_log("browser")]
        return [line for line in lines if "Failed to load resource" not in line]

    def quit(self) -> None:
        self.web.quit()
