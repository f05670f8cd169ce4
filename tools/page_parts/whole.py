"""The page as files and as a person's: it is never empty, a file that is lost is told and asked for again, its files
are kept by their version, an old page sends nothing to a newer desk, and what is kept in a browser is of the person who
signed on, also where several are the firm's cashier."""
import os
import pathlib
import re
import time

from selenium.common.exceptions import WebDriverException

from .browser import Browser
from .checks import Checks
from .firm import Desk, Fault, Firm, FrontEnd, Relay, password

DAY = "2026-03-31"
SHEET = "open,000001,,Ada Chen,lee\ndeposit,000001,0001,500.00,Ada Chen,retainer\n"
LOST = ("chart.js", "views/month.js", "page.js")
LONG = 90  # seconds until a page that is not whole says so, on a busy machine


def with_names(text: str) -> str:
    """Two people who are the firm's cashier."""
    return re.sub(r"include \S+/nginx/cashier\[s\];", '"office joan" cashier; "office maria" cashier;', text)


def is_in_time(browser: Browser, words: str) -> bool:
    end = time.monotonic() + LONG
    while time.monotonic() < end:
        if words in browser.run("return document.body.innerText"):
            return True
        time.sleep(0.3)
    return False


def lose_a_file(firm: Firm, checks: Checks) -> None:
    """Each of these files is refused once: the page says so, and is there once they come."""
    browser = Browser("cashier", firm.origin)
    for name in LOST:
        browser.web.execute_cdp_cmd("Network.enable", {})
        browser.web.execute_cdp_cmd("Network.setCacheDisabled", {"cacheDisabled": True})
        browser.web.execute_cdp_cmd("Network.setBlockedURLs", {"urls": [f"*/{name}"]})
        browser.web.get("about:blank")
        browser.web.get(f"{firm.origin}/")
        checks.so(f"without {name} the page says that it is not whole", is_in_time(browser, "The page is not whole"),
                  browser.run("return document.body.innerText"))
        browser.web.execute_cdp_cmd("Network.setBlockedURLs", {"urls": []})
        if "It was loaded again some times." in browser.run("return document.body.innerText"):
            browser.run("document.querySelector('.box a').click()")  # a busy machine: it gave up before
        checks.so(f"and is loaded again, with {name}", is_in_time(browser, "All ledgers together"),
                  browser.run("return document.body.innerText"))
    browser.web.execute_cdp_cmd("Network.setBlockedURLs", {"urls": ["*.js"]})
    browser.web.get("about:blank")
    browser.web.get(f"{firm.origin}/")
    checks.so("without any script there is a link", is_in_time(browser, "load it again"),
              browser.run("return document.body.innerText"))
    browser.quit()


def files_asked(front: FrontEnd) -> int:
    """How often a file of the page was answered, but for the sign-on's."""
    return sum("/page/" in line and line.split()[-1].endswith(".js") for line in front.log())


def keep_its_files(firm: Firm, checks: Checks) -> None:
    """Opened again, the page asks for none of its files."""
    browser = Browser("cashier", firm.origin)
    before = files_asked(firm.front)
    browser.open("")
    checks.same("the files that are asked for again", files_asked(firm.front) - before, 0)
    files = browser.run("return performance.getEntriesByType('resource').map(({ name }) => new URL(name).pathname)")
    named = [each for each in files if each.endswith(".js") and not re.match(r"/page/[0-9a-f]{16}/", each)]
    checks.same("the files without a version in their name", named, [])
    for path in ("/", "/firm/trial-balance"):
        fields = firm.front.ask("cashier", "GET", path)[2]
        checks.same(f"whether {path} is kept", fields["cache-control"], "no-store")
    browser.quit()


def be_old(firm: Firm, checks: Checks) -> None:
    """A newer page is installed while one is open: what is typed is not sent, and the next view is of the newer one."""
    browser = Browser("cashier", firm.origin)
    browser.to("#/m/000001/deposit")
    browser.settle()
    browser.fill(amount="7", source="Ada Chen", description="costs")
    index = firm.front.folder / "files" / "page" / "index.html"
    later = time.time() + 60
    os.utime(index, (later, later))
    before = firm.desk.ask("cashier", "GET", "/matters/000001")[1]
    browser.press("Book it")
    checks.has("an old page says", browser.text(), ("The page is older than the desk.", "Nothing was sent."))
    checks.same("the matter behind it", firm.desk.ask("cashier", "GET", "/matters/000001")[1], before)
    browser.run("const now = Date.now; Date.now = () => now() + 120000; window.isOld = true")
    browser.to("#/m/000001")
    browser.settle()
    checks.same("whether the old page is still there", browser.run("return window.isOld ?? false"), False)
    checks.has("the newer one has", browser.text(), ("Ada Chen", "500.00"))
    browser.to("#/m/000001/deposit")
    browser.settle()
    browser.fill(amount="7", source="Ada Chen", description="costs")
    browser.press("Book it")
    checks.has("the newer one books", browser.text(), ("deposit of 7.00, entry 0002 of matter 000001",))
    browser.quit()


def change_person(browser: Browser, person: str) -> None:
    """Somebody else signs on in another window of the same browser."""
    browser.web.switch_to.new_window("tab")
    browser.web.get(browser.origin.replace("//", f"//{person}:{password(person)}@") + "/page/style.css")


def send_again(browser: Browser) -> None:
    """By a script: only a browser's first window counts the clicks that it heard."""
    browser.run("[...document.querySelectorAll('button')].find((each) => each.textContent === 'Send again').click()")
    browser.settle()


def be_two_cashiers(firm: Firm, checks: Checks) -> None:
    """What joan sent and was not answered is joan's: maria does not see it, and joan's open window sends nothing in
    maria's name."""
    browser = Browser("joan", firm.origin)
    checks.so("the page names who is signed on", "joan, cashier" in browser.find("#who")[0].text,
              browser.find("#who")[0].text)
    checks.has("joan sees", browser.text(), ("All ledgers together",))
    firm.relay.fail("POST .*/deposit", Fault("closed"), 3)
    browser.to("#/m/000001/deposit")
    browser.settle()
    browser.fill(amount="12", source="Ada Chen", description="costs of joan")
    browser.press("Book it")
    browser.to("#/")
    browser.settle()
    checks.has("joan sees", browser.text(), ("Sent, and not answered", "deposit of 12.00"))
    checks.so("the page prints joan", "Printed by joan" in browser.run("return document.body.textContent"))
    page = browser.web.current_window_handle
    change_person(browser, "maria")
    window = browser.web.current_window_handle
    browser.web.switch_to.window(page)
    sent = len(firm.front.log())
    send_again(browser)
    later = [line for line in firm.front.log()[sent:] if " POST " in line]
    checks.same("what was sent in maria's name", later, [])
    browser.web.switch_to.window(window)
    browser.open("")
    checks.so("the page names maria", "maria, cashier" in browser.find("#who")[0].text)
    checks.lacks("maria does not see", browser.text(), ("Sent, and not answered", "deposit of 12.00"))
    browser.to("#/m/000777")
    browser.settle()
    checks.has("maria is told as a cashier", browser.text(), ("No matter has this number",))
    change_person(browser, "joan")
    browser.open("")
    checks.has("joan sees it again", browser.text(), ("Sent, and not answered", "deposit of 12.00"))
    send_again(browser)
    checks.has("joan's", browser.text(), ("Booked on", "deposit of 12.00, entry"))
    browser.quit()


CHAPTERS = (lose_a_file, keep_its_files, be_old, be_two_cashiers)


class Named(Firm):
    """A firm whose front end names people, of whom two are the cashier."""

    def __init__(self, desk: Desk, folder: pathlib.Path) -> None:
        self.desk = desk
        desk.begin()
        self.relay = Relay(desk)
        self.front = FrontEnd(folder, self.relay.port, with_names)
        self.origin = self.front.origin
        for person in ("joan", "maria"):
            self.front.admit(person)


def play(program: str, folder: pathlib.Path, checks: Checks) -> None:
    desk = Desk(program, folder / "book.db", DAY)
    desk.run("sheet", text=SHEET)
    firm = Named(desk, folder / "front")
    try:
        for chapter in CHAPTERS:
            try:
                chapter(firm, checks)
            except (AssertionError, IndexError, WebDriverException) as fault:  # it is not there
                checks.so(f"{chapter.__name__} goes to its end", False, fault)
    finally:
        firm.end()
