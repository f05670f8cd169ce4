"""A firm of three thousand matters, by its three roles from their signing on: what is shown first, and how soon; a
matter is found, and all are scrolled through; what a view that was left still asks."""
import pathlib
import time

from .browser import PHONE, WIDE, Browser
from .checks import Checks
from .firm import HEAD, Desk, Firm
from .reports import REPORTS
from .views import see

DAY = "2026-03-31"
MATTERS = 3_000
SOON = 2.0  # seconds, for each of: shown, found, scrolled; of a processor where nothing is asked of the desk
TRIES = 3  # how often the first view is opened on a busy machine, until it is soon
OWN = "000007"  # the client's matter
SEEN = [(person, width) for person in ("cashier", "lee", "ada") for width in (WIDE, PHONE)]

# What each is asked of the desk as the page is opened.
LISTS = ["/matters", "/waiting"]
FIRST_ASKED = {
    "cashier": sorted([*(f"/firm/{name}" for name, told in REPORTS.items() if told.is_first), *LISTS]),
    "lee": LISTS,
    "ada": ["/matters", f"/matters/{OWN}", f"/matters/{OWN}/entries", "/waiting"],
}

# Writes into the field by which a matter is found, until its rows are drawn.
FIND = """const field = document.getElementById('find');
field.value = arguments[0];
field.dispatchEvent(new Event('input'));
requestAnimationFrame(() => setTimeout(done));"""
# All that is shown; Selenium's own way takes minutes for thousands of rows.
TEXT = "return document.querySelector('main').innerText.replaceAll('\\t', ' ')"
# Scrolls to the end until all rows are there, or a minute is over.
SCROLL = """const begun = performance.now();
const wanted = arguments[0];
function step() {
    scrollTo(0, document.documentElement.scrollHeight);
    if (rowsOfMatters() >= wanted || performance.now() - begun > 60_000) setTimeout(done);
    else requestAnimationFrame(step);
}
step();"""


def has_more(number: int) -> bool:
    """One matter in ten has a deposit that the bank has not shown, and a payment that waits."""
    return number % 10 == 0


def sheet() -> str:
    lines = []
    for each in range(1, MATTERS + 1):
        lines += [f"open,{each:06},,Client {each} of the firm,{'lee' if each % 2 == 0 else 'sato'}",
                  f"deposit,{each:06},0001,100.00,Client {each},retainer"]
        if has_more(each):
            lines += [f"deposit,{each:06},0002,50.00,Client {each},further retainer",
                      f"propose,{each:06},0003,60.00,general,,Court Clerk,filing fee,{1000 + each}"]
    return "\n".join([*lines, f"seat,{OWN},,ada,client"]) + "\n"


def statement() -> str:
    lines = [f"{DAY},M{each:06}-0001,B{each},100.00,deposit" for each in range(1, MATTERS + 1)]
    return HEAD + "\n".join(lines) + "\n"


def begun(program: str, folder: pathlib.Path) -> Firm:
    desk = Desk(program, folder / "book.db", DAY)
    desk.run("sheet", text=sheet())
    path = folder / "statement.csv"
    path.write_text(statement(), encoding="utf-8")
    desk.run("import", str(path))
    firm = Firm(desk, folder / "front")
    for path_of_list in LISTS:  # so that what is measured is not the first reading of the file
        desk.ask("cashier", "GET", path_of_list)
    return firm


class Look:
    """One person's browser of some width, and what was asked since it was told to forget."""

    def __init__(self, firm: Firm, person: str, width: int, checks: Checks) -> None:
        self.firm, self.person, self.width, self.checks = firm, person, width, checks
        self.browser = Browser(person, firm.origin, width)
        self.count = 0
        self.forget()

    def forget(self) -> None:
        self.count = len(self.firm.front.log())

    def asked(self) -> list[str]:
        lines = [line.split(" ", 3) for line in self.firm.front.log()[self.count:]]
        return sorted(path for _, person, _, path in lines
                      if person == self.person and path != "/" and not path.startswith("/page/"))

    def soon(self, what: str, seconds: float) -> None:
        at = f"{self.person} at {self.width} px"
        print(f"many: {what}, {at}: {seconds:.2f} s", flush=True)
        self.checks.so(f"{what}, {at}, in {SOON} s", seconds < SOON, seconds)

    def worked(self) -> float:
        """How many seconds of a processor the page has had: on a busy machine the clock tells of others too."""
        told = self.browser.web.execute_cdp_cmd("Performance.getMetrics", {})["metrics"]
        return next(float(each["value"]) for each in told if each["name"] == "ThreadTime")

    def does(self, what: str, script: str, *words: object) -> None:
        """Something that the page does by itself, soon."""
        self.browser.web.execute_cdp_cmd("Performance.enable", {})
        before = self.worked()
        self.browser.wait(script, *words)
        self.soon(what, self.worked() - before)

    def same(self, what: str, seen: object, wanted: object) -> None:
        self.checks.same(f"{what} of {self.person} at {self.width} px", seen, wanted)

    def has(self, *words: str) -> None:
        self.checks.has(f"{self.person} at {self.width} px sees", self.browser.run(TEXT), words)


def open_it(look: Look) -> None:
    seconds = SOON
    for _ in range(TRIES):
        look.forget()
        begin = time.monotonic()
        look.browser.open("")
        seconds = time.monotonic() - begin
        look.browser.settle()
        if seconds < SOON:
            break
    look.soon("the first view is shown", seconds)
    look.same("what is asked for the first view", look.asked(), FIRST_ASKED[look.person])
    look.same("what stands aside", see(look.browser, "widthAside()"), 0)


def find(look: Look, all_of_them: int, number: str) -> None:
    browser = look.browser
    look.same("the matters that are drawn first", see(browser, "rowsOfMatters()"), 100)
    look.does("a matter is found", FIND, f"client {int(number)} of")
    look.has(f"Found: 1 of {all_of_them}.", f"Client {int(number)} of the firm")
    look.same("the matters that are found", see(browser, "rowsOfMatters()"), 1)
    look.does("all are shown again", FIND, "")


def scroll(look: Look, all_of_them: int) -> None:
    browser = look.browser
    rows = (pathlib.Path(__file__).parent / "looks.js").read_text(encoding="utf-8")
    look.does("all matters are scrolled", rows + SCROLL, all_of_them)
    look.same("the matters that are drawn at the end", see(browser, "rowsOfMatters()"), all_of_them)
    look.has(f"Client {MATTERS} of the firm", f"Matters: {all_of_them}")
    look.same("what stands aside at the end", see(browser, "widthAside()"), 0)


def see_what_waits(look: Look) -> None:
    look.has("Payments that wait for a lawyer: 10 of 300" if look.width == WIDE else "Payments that wait for a lawyer",
             "Court Clerk")
    look.browser.press("Show all 300")
    look.has("Client 10 of the firm")


def leave(look: Look) -> None:
    """What the bank has not shown is three hundred requests. Who leaves meanwhile waits for none of them."""
    browser = look.browser
    look.forget()
    browser.find("details.unshown summary")[0].click()
    browser.settle()
    look.has("Not yet shown by the bank: deposits of 15,000.00, 0 issued payments",
             "Not yet shown by the bank: 10 of 300",
             "M000010-0002 Client 10 of the firm Client 10 | further retainer")
    look.same("how much is asked for it", len(look.asked()), 300)
    browser.open("#/")
    look.forget()
    browser.run("document.querySelector('details.unshown').open = true")
    begin = time.monotonic()
    browser.to("#/m/000010")
    look.soon("another view is shown", time.monotonic() - begin)
    browser.settle()
    left = [path for path in look.asked() if path.endswith("/entries") and path != "/matters/000010/entries"]
    look.checks.so("what was asked for the view that was left stays behind", len(left) < 100, len(left))


def play(program: str, folder: pathlib.Path, checks: Checks) -> None:
    firm = begun(program, folder)
    try:
        for person, width in SEEN:
            look = Look(firm, person, width, checks)
            open_it(look)
            if person == "ada":
                look.same("the first view", look.browser.title(), f"Matter {OWN}, Client 7 of the firm")
            else:
                number = MATTERS if person == "cashier" else MATTERS // 2
                see_what_waits(look)
                find(look, number, "002500")
                scroll(look, number)
            if person == "cashier" and width == WIDE:
                leave(look)
            look.same("the log", look.browser.faults(), [])
            look.browser.quit()
    finally:
        firm.end()
