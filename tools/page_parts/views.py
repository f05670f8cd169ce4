"""Every view by every role: that it is drawn, can be read and used by everybody, and fits a phone and a sheet."""
import base64
import json
import pathlib
import subprocess
import typing

from selenium.webdriver.common.keys import Keys

from . import firms
from .browser import PHONE, WIDE, Browser
from .checks import Checks
from .firm import ACCOUNT, NAME, Desk, Fault, Firm
from .reports import ADDRESSES

DAY = "2026-03-31"
NARROW = 320  # a page magnified to four times its size has this width
WIDTHS = WIDTHS_OF_MANY = (WIDE, PHONE, NARROW)

REPORTS = [*ADDRESSES, "#/reconciliation", "#/reconciliation/2026-03-31", "#/clients", "#/clients/2026-03-31",
           "#/month", "#/month/2026-03-31", "#/report/receipts", "#/report/receipts/2026-03-01/2026-03-31",
           "#/report/disbursements/2026-03-01/2026-03-31", "#/report/approvals",
           "#/report/approvals/2026-03-01/2026-03-31", "#/report/outstanding", "#/report/outstanding/2026-03-31",
           "#/accounts", "#/accounts/2026-03-01/2026-03-31"]
FORMS = {"cashier": ["deposit", "propose", "claim", "move", "seats"], "lee": ["propose", "fee", "claim"],
         "ada": ["dispute"]}


def views_of(person: str, matter: str, entries: range) -> list[str]:
    """All views that the person has, of one matter."""
    at = f"#/m/{matter}"
    own = [at, f"{at}/card", f"{at}/trail", f"{at}/account", f"{at}/account/2026-03-01/2026-03-31",
           *(f"{at}/{form}" for form in FORMS[person]), *(f"{at}/e/{each:04}" for each in entries)]
    if person == "cashier":
        own += [f"{at}/e/{each:04}/another" for each in entries]
    firm = ["#/open", "#/statement", "#/records", "#/own", *REPORTS] if person == "cashier" else []
    return ["#/", *firm, *own, "#/m/000777", "#/nowhere"]


LOOKS = (pathlib.Path(__file__).parent / "looks.js").read_text(encoding="utf-8")
CONTROLS = ("button", "link", "textbox", "searchbox", "combobox", "Date", "InputTime")


def see(browser: Browser, call: str) -> typing.Any:
    """What a function of looks.js gives."""
    return browser.run(f"{LOOKS} return {call}")


def tree(browser: Browser) -> list[dict[str, typing.Any]]:
    """What a screen reader is given."""
    browser.web.execute_cdp_cmd("Accessibility.enable", {})
    nodes = browser.web.execute_cdp_cmd("Accessibility.getFullAXTree", {})["nodes"]
    return [node for node in nodes if not node.get("ignored")]


def role(node: dict[str, typing.Any]) -> str:
    return str(node.get("role", {}).get("value", ""))


def name(node: dict[str, typing.Any]) -> str:
    return (node.get("name", {}).get("value") or "").strip()


def level(node: dict[str, typing.Any]) -> int:
    return next(int(each["value"]["value"]) for each in node["properties"] if each["name"] == "level")


def look(browser: Browser, at: str, checks: Checks) -> None:
    """What everybody needs of a view."""
    nodes = tree(browser)
    bare = [role(node) for node in nodes if role(node) in CONTROLS and not name(node)]
    checks.same(f"{at}: the controls without a name", bare, [])
    heads = [level(node) for node in nodes if role(node) == "heading"]
    in_order = heads.count(1) == 1 and all(later - one <= 1 for one, later in zip(heads, heads[1:]))
    checks.so(f"{at}: one first heading, and none is skipped", in_order, heads)
    for place in ("banner", "navigation", "main"):
        checks.so(f"{at}: there is a {place}", any(role(node) == place for node in nodes))
    checks.same(f"{at}: the values that are no words", see(browser, "rawValues()"), [])
    checks.same(f"{at}: fields called by their kind, or of none", see(browser, "mislabelledFields()"), [])
    checks.same(f"{at}: the ids that stand twice", see(browser, "idsThatStandTwice()"), [])
    checks.same(f"{at}: the texts with less contrast than 4.5", see(browser, "paleTexts()"), [])
    checks.same(f"{at}: what is lower than 24 px to touch", see(browser, "smallControls()"), [])


def look_at_all(firm: Firm, entries: range, what: str, widths: tuple[int, ...], checks: Checks) -> None:
    for person in FORMS:
        for width in widths:
            browser = Browser(person, firm.origin, width)
            for view in views_of(person, "000001", entries):
                at = f"{what}, {person} {view} at {width} px"
                browser.to(view)
                failed = [box.text for box in browser.find(".refused") if "The page failed" in box.text]
                checks.same(f"{at}: the faults", failed, [])
                checks.same(f"{at}: what stands aside", see(browser, "widthAside()"), 0)
                checks.same(f"{at}: the values that are no words", see(browser, "rawValues()"), [])
                if width != WIDE:
                    checks.same(f"{at}: the reports that are cut", see(browser, "cutReports()"), 0)
                if width == WIDE:
                    look(browser, at, checks)
            checks.same(f"{what}, the log of {person} at {width} px", browser.faults(), [])
            browser.quit()


def read_with_names(firm: Firm, checks: Checks) -> None:
    """Reports have names and grouped sums beside the desk's own text, and entries a sign and the ledger behind them."""
    browser = Browser("cashier", firm.origin)
    for view, words in (
            ("#/report/trial-balance", ("Whose money it is", "000001 Ada Chen 2,915.00",
                                        "All ledgers together 6,838.00", "TOTAL                          6838.00")),
            ("#/report/journal", (f"{DAY} FIRM the firm -3.18 6,838.00", "M000001-0002 Ada Chen -435.00")),
            (f"#/reconciliation/{DAY}", ("The bank\u2019s closing balance 5,563.00", "Deposits in transit",
                                         "Outstanding payments", "Sunrise Reporting, LLC",
                                         "1007 | Cleo Marsh -650.00")),
            ("#/m/000003/account/2026-03-17/2026-03-31", (
                "Statement of account of Cleo Marsh, 2026-03-17 to 2026-03-31", "Opening 3,700.00", "Closing 3,850.00",
                f"{DAY} M000003-0002 returned Dana Marsh | advance on costs -1,200.00 3,850.00")),
            ("#/m/000001", ("5,000.00 5,000.00", "-435.00 4,565.00", "-1,650.00 2,915.00",
                            "cashier, lee\n-435.00")),
            ("#/report/trail", ("2026-03-16 M000001-0002 Ada Chen lee approved the payment",
                                "2026-03-02 000002 Bob Ruiz cashier opened the matter, with this lawyer: sato",
                                "2026-03-16 M000001-0002 lee APPROVED")),
            (f"#/report/approvals/2026-03-01/{DAY}", (
                "lee Clerk of the Superior Court | filing fee | 1001 paid by the bank, 2026-03-19, 0319-0718 435.00",
                "2026-03-30 M000003-0005 sato Sunrise Reporting, LLC | transcript of 11 March | 1007 not shown")),
            ("#/m/1", ("Matter 000001, Ada Chen",)),
            ("#/m/000001/propose/fee/0009", ("Nothing is left to be paid of fee 0009.",))):
        browser.to(view)
        browser.settle()
        checks.has(f"{view} has", browser.text(), words)
    browser.quit()


def read_acts(firm: Firm, checks: Checks) -> None:
    """All who may read a matter see who did what in it; the text to file is the cashier's."""
    for person, has_text in (("cashier", True), ("lee", False), ("ada", False)):
        browser = Browser(person, firm.origin)
        for view, words in (
                ("#/m/000001/trail", ("2026-03-02 cashier opened the matter, with this lawyer: lee",
                                      "2026-03-16 0002 lee approved the payment")),
                ("#/m/000001/e/0002", ("Who did what", "cashier proposed the payment",
                                       "2026-03-16 lee approved the payment",
                                       "cashier cleared it by a line of the bank"))):
            browser.to(view)
            browser.settle()
            text = browser.text()
            checks.has(f"{view} of {person} has", text, words)
            if view.endswith("trail"):
                checks.same(f"whether {view} of {person} has the text", "TRAIL 000001" in text, has_text)
        browser.to("#/m/000002/trail")
        browser.settle()
        is_refused = "404 NoMatter" in browser.text()
        checks.same(f"whether {person} is refused another matter's trail", is_refused, person != "cashier")
        browser.quit()


def read_without_acts(firm: Firm, checks: Checks) -> None:
    """Where the acts can't be read, an entry is shown and decided all the same."""
    browser = Browser("lee", firm.origin)
    for view, words in (("#/m/000001", "Clerk of the Superior Court"), ("#/m/000001/e/0002", "filing fee")):
        firm.relay.fail("GET /matters/000001/trail", Fault("told", 503, '{"name":"Store","refusal":29}'))
        browser.to(view)
        browser.settle()
        checks.has(f"{view} without acts has", browser.text(), (words, "Who did what could not be read."))
    browser.quit()


def read_later_acts(firm: Firm, checks: Checks) -> None:
    """Of an entry that is older than its acts nobody is named who did not make it."""
    browser = Browser("lee", firm.origin)
    act = {"caller": "lee", "day": "2026-03-16", "deed": "approved", "entry": "0002", "person": None, "role": None,
           "to_client": None}
    body = json.dumps({"acts": [act], "earlier": True})
    for view, words in (("#/m/000001", "not recorded, lee"), ("#/m/000001/e/0002", "lee approved the payment")):
        firm.relay.fail("GET /matters/000001/trail", Fault("told", 200, body))
        browser.to(view)
        browser.settle()
        checks.has(f"{view} with later acts has", browser.text(), (words, "Earlier acts are not recorded."))
    browser.to("#/m/000001")
    browser.settle()
    checks.lacks("a matter with all its acts does not have", browser.text(),
                 ("not recorded, lee", "Earlier acts are not recorded."))
    browser.quit()


def read_tables_on_a_phone(firm: Firm, checks: Checks) -> None:
    browser = Browser("ada", firm.origin, PHONE)
    browser.to("#/m/000001")
    cells = [node for node in tree(browser) if role(node) in ("row", "cell", "columnheader", "rowheader")]
    checks.so("on a phone a table is one to a screen reader", len(cells) > 10, len(cells))
    browser.to("#/")
    parts = [each.text for each in browser.find("td.part") if each.is_displayed()]
    is_short = bool(parts) and "0.00" not in parts
    checks.so("on a phone the parts of a matter that are nothing are left out", is_short, parts)
    browser.quit()


class Keyboard:
    """A browser by its keys alone."""

    def __init__(self, browser: Browser) -> None:
        self.browser = browser

    def type(self, *keys: str) -> None:
        for each in keys:
            self.browser.focused().send_keys(each)

    def tab_to(self, words: str) -> None:
        """To a link or button of these words alone, or to a field of this name."""
        for _ in range(80):
            now = self.browser.focused()
            if (now.tag_name in ("a", "button") and words == now.text) or words == now.get_attribute("name"):
                return
            self.type(Keys.TAB)
        raise AssertionError(f"no key leads to {words}")

    def enter(self, words: str) -> None:
        self.tab_to(words)
        self.type(Keys.ENTER)
        self.browser.settle()


def propose_by_keys(firm: Firm, checks: Checks) -> None:
    browser = Browser("cashier", firm.origin)
    keyboard = Keyboard(browser)
    keyboard.type(Keys.TAB)
    checks.so("the first key leads to the content", "To the content" in browser.focused().text)
    keyboard.type(Keys.ENTER)
    keyboard.enter("000003")
    checks.same("what has the focus in a new view", browser.focused().tag_name, "h1")
    keyboard.enter("Propose a payment")
    keyboard.tab_to("amount")
    keyboard.type("5", Keys.TAB, "Court Clerk", Keys.TAB, "copies", Keys.TAB, "1010", Keys.ENTER)
    browser.settle()
    booked = f"Booked on {DAY}: payment of 5.00 to Court Clerk"
    checks.so("it is booked by keys alone", booked in browser.text(), browser.text())
    checks.so("what was done has the focus", "done" in (browser.focused().get_attribute("class") or ""))
    browser.quit()


def print_views(firm: Firm, folder: pathlib.Path, checks: Checks) -> None:
    browser = Browser("cashier", firm.origin)
    for view, words in ((f"#/reconciliation/{DAY}", "ADJUSTED BANK"), (f"#/clients/{DAY}", f"CLIENTS {DAY}"),
                        ("#/m/000001/card", "LEDGER 000001"), ("#/m/000001", "Clerk of the Superior Court"),
                        ("#/m/000003/account/2026-03-17/2026-03-31", "ACCOUNT 000003 Cleo Marsh")):
        browser.to(view)
        sheet = {"preferCSSPageSize": True, "printBackground": False, "paperWidth": 8.5, "paperHeight": 11}
        path = folder / "print.pdf"
        path.write_bytes(base64.b64decode(browser.web.execute_cdp_cmd("Page.printToPDF", sheet)["data"]))
        done = subprocess.run(["pdftotext", "-layout", str(path), "-"], stdout=subprocess.PIPE, check=True)
        text = done.stdout.decode()
        checks.so(f"{view} is printed with the firm and its account", NAME in text and ACCOUNT in text, text)
        checks.so(f"{view} is printed", words in text and f"Printed by cashier, business day {DAY}" in text, text)
        left = [word for word in ("Save as text", "Read again", "Overview", "Propose a payment") if word in text]
        checks.same(f"{view}: the buttons that are printed", left, [])
    browser.quit()


def find_among_many(firm: Firm, checks: Checks) -> None:
    """The list of two hundred matters is drawn in parts, and all of it can be searched."""
    browser = Browser("cashier", firm.origin)
    browser.to("#/")
    checks.same("the matters that are drawn first", see(browser, "rowsOfMatters()"), 100)
    browser.run("scrollTo(0, document.documentElement.scrollHeight)")
    browser.settle()
    checks.same("the matters in the list", see(browser, "rowsOfMatters()"), 200)
    checks.so("each has its client", "Client 200 of the firm" in browser.text())
    checks.so("a closed one too", f"000201 Zora Quinn {DAY}" in browser.text(), browser.text())
    checks.so("ten payments that wait are shown", "Payments that wait for a lawyer: 10 of 50" in browser.text())
    browser.press("Show all 50")
    last = f"000200 Client 200 of the firm {DAY} Court Clerk"
    checks.so("and all when asked for", last in browser.text(), browser.text())
    for words, count, drawn in (("client 17", 11, 11), ("0001", 111, 100), ("client 200", 1, 1), ("nobody", 0, 0)):
        field = browser.find("#find")[0]
        field.clear()
        field.send_keys(words)
        checks.same(f"the matters that have {words!r}", see(browser, "rowsOfMatters()"), drawn)
        checks.so(f"how many have {words!r}", f"Found: {count} of 201." in browser.text(), browser.text())
    field = browser.find("#find")[0]
    field.clear()
    field.send_keys("zora")
    closed = [each.text for each in browser.find("tbody tr") if "Zora" in each.text and each.is_displayed()]
    checks.so("a closed matter is found by its client", bool(closed) and see(browser, "rowsOfMatters()") == 0, closed)
    for words, told in (("1004", f"M000004-0011 {DAY} waits for a lawyer Court Clerk | filing fee | 1004 | Client 4"),
                        ("court clerk", "Entries found: 10 of 50"), ("advance 7", "Entries found: 10 of 200"),
                        ("nothing such", "Nothing that was paid in or out, or waits, has that.")):
        field = browser.find("#find-entry")[0]
        field.clear()
        field.send_keys(words)
        browser.settle()
        checks.so(f"an entry is found by {words!r}", told in browser.text(), browser.text())
    browser.quit()


def play(program: str, folder: pathlib.Path, checks: Checks) -> None:
    firms.play_month(program, folder / "month.db", until="messages/18-close.http")
    month = Firm(Desk(program, folder / "month.db", DAY), folder / "month")
    try:
        look_at_all(month, range(1, 6), "three matters", WIDTHS, checks)
        read_with_names(month, checks)
        read_acts(month, checks)
        read_without_acts(month, checks)
        read_later_acts(month, checks)
        read_tables_on_a_phone(month, checks)
        propose_by_keys(month, checks)
        print_views(month, folder, checks)
    finally:
        month.end()
    desk = Desk(program, folder / "many.db", DAY)
    firms.play_many(desk)
    many = Firm(desk, folder / "many")
    try:
        look_at_all(many, range(1, 2), "200 matters", WIDTHS_OF_MANY, checks)
        find_among_many(many, checks)
    finally:
        many.end()
