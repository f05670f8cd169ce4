"""Each refusal of the desk, and each status of the front end, as the page tells it in words."""
import json
import pathlib
import re

from .browser import Browser
from .checks import Checks
from .firm import ROOT, Desk, Fault, Firm
from .reports import REPORTS

DAY = "2024-01-10"

# What the page says of each, and where docs/REFUSALS.md has more than one form, of which.
REFUSALS = {
    "BadMessage": "The desk did not understand the request.",
    "LengthRequired": "The desk was not told how long the request is.",
    "TooLarge": "That is too large",
    "NoRoute": "The desk does not know this path.",
    "BadMethod": "The desk does not know this request.",
    "NoCaller": "The desk does not take your user name as a name.",
    "NoMatter": "No matter has this number.",
    "Purged": "taken away after their five years",
    "AlreadyOpen": "A matter with this number was opened before.",
    "Closed": "The matter is closed. It can be read.",
    "DateBackwards": "before the last change of this matter (2024-01-10)",
    "NoEntry": "There is no such entry.",
    "WrongKind": "The entry is of another kind.",
    "WrongState": "It is past that",
    "PayeeIsCash": "Nobody is paid in cash from a trust account.",
    "WrongPayee": "does not pay this payee",
    "BadSplit": "The client's part is more than the claim",
    "Short": "Only 400.00 is there for this.",
    "SeatTaken": "This person has access to the matter.",
    "NoSeat": "This person has no access to the matter.",
    "LastLawyer": "A matter keeps at least one lawyer.",
    "NotEmpty": "The matter holds money, or a payment waits",
    "TooEarly": "They may go from 2029-02-01 on.",
    "NoStatement": "No closing balance of that day was imported.",
    "PeriodPurged": "was purged, so that time can't be told whole",
    "Store": "The disk of the desk failed.",
    "Memory": "The desk has no room left.",
}
FIELDS = {
    "amount": "dollars and cents", "body": "do not fit together", "claimant": "The claimant needs a name",
    "client": "The client needs a name", "day": "no day of the calendar", "description": "What it is for",
    "entry": "four digits", "from": "what the payment is drawn on", "header": "This is no statement",
    "instrument": "The check or transfer number", "lawyer": "not called cashier", "matter": "six digits",
    "of": "Choose the fee or the claim", "on": "Choose what is claimed", "payee": "The payee needs a name",
    "person": "not called cashier", "purpose": "The purpose", "reason": "The reason",
    "role": "Choose client or lawyer", "source": "Who paid it in", "to_client": "The client's part",
}
RULES = {
    "read": "Access to the matter", "dispute": "Only a client", "claim": "holds a part of the general fund for a claim",
    "propose": "proposes a payment", "sign": "Only a lawyer of the matter approves", "office": "Only the cashier does",
    "firm": "Only the cashier reads",
}
STATUSES = {
    400: "The request was not understood.", 401: "You are not signed on.", 403: "The front end refused this.",
    413: "That is too large", 414: "The address is too long.", 429: "Too much was asked at once.",
    502: "The desk is not open.", 503: "The desk failed.", 504: "The desk is busy",
}


def refusals_told() -> dict[str, Fault]:
    """Each refusal of docs/REFUSALS.md with its status and object, by its name."""
    text = (ROOT / "docs" / "REFUSALS.md").read_text(encoding="utf-8")
    answers = re.findall(r"^\| \d+ \| `(\d+) (\{.*?\})`", text, re.MULTILINE)
    return {json.loads(body)["name"]: Fault("told", int(status), body) for status, body in answers}


class Asker:
    """Asks for the firm's journal, and has it answered by a fault."""

    def __init__(self, firm: Firm, browser: Browser, checks: Checks) -> None:
        self.firm, self.browser, self.checks = firm, browser, checks

    def sees(self, what: str, fault: Fault, words: str) -> None:
        """Behind a 401 the browser forgets the password, and would ask for it."""
        self.firm.relay.fail("GET /firm/journal", fault)
        self.browser.to("#/report/journal")
        box = self.browser.find("[role=alert]")
        text = box[0].text if box else self.browser.text()
        self.checks.so(f"{what} is told as {words!r}", words in text, text)
        self.checks.so(f"{what} has its status below", str(fault.status) in text.splitlines()[-1], text)
        if fault.status == 401:
            self.browser.sign_on(self.browser.person)


def tell_refusals(asker: Asker) -> None:
    told = refusals_told()
    asker.checks.same("the refusals without words", sorted(set(told) - set(REFUSALS)),
                      ["BadField", "NotAllowed", "WrongNumber"])
    asker.checks.same("how many there are", len(told), 30)
    for name, words in REFUSALS.items():
        asker.sees(name, told[name], words)
    for field, words in FIELDS.items():
        body = json.dumps({"field": field, "name": "BadField", "refusal": 7})
        asker.sees(f"BadField of {field}", Fault("told", 422, body), words)
    for rule, words in RULES.items():
        body = json.dumps({"name": "NotAllowed", "refusal": 10, "rule": rule})
        asker.sees(f"NotAllowed by {rule}", Fault("told", 403, body), words)
    for number, words in (("0002", "book it as 0002"), (None, "The matter is full")):
        body = json.dumps({"name": "WrongNumber", "next": number, "refusal": 14})
        asker.sees(f"WrongNumber with {number}", Fault("told", 409, body), words)
    asker.sees("a refusal that the page does not know", Fault("told", 409, '{"name":"New","refusal":31}'),
               "The desk refused this.")


def tell_statuses(asker: Asker) -> None:
    """By statuses alone: the front end's own pages have no name in them."""
    for status, words in STATUSES.items():
        asker.sees(f"status {status}", Fault("told", status, "{}"), words)


def tell_empty(asker: Asker) -> None:
    """A report without a line says so."""
    for name, told in REPORTS.items():
        if told.empty:
            asker.browser.to(f"#/report/{name}")
            asker.checks.so(f"the empty report {name}", told.empty in asker.browser.text(), asker.browser.text())


def tell_late(asker: Asker) -> None:
    """One of the lists of the overview is refused; and what is asked for once somebody wants to see it."""
    asker.firm.relay.fail("GET /waiting", Fault("told", 503, "{}"))
    asker.browser.to("#/")
    asker.checks.so("a list that is refused", "The desk failed." in asker.browser.text(), asker.browser.text())
    asker.browser.to("#/")
    asker.firm.relay.fail("GET /firm/receipts", Fault("told", 503, "{}"))
    asker.browser.find("#find-entry")[0].send_keys("ada")
    asker.browser.settle()
    asker.checks.so("a search that is refused", "The desk failed." in asker.browser.text(), asker.browser.text())


def tell_to_persons(firm: Firm, checks: Checks) -> None:
    """What a lawyer is told in other words, and a user whose name is none of a person."""
    lee = Browser("lee", firm.origin)
    lee.to("#/m/000007")
    checks.so("a person is told of no matter", "There is no such matter for you." in lee.text(), lee.text())
    lee.quit()
    named = Browser("Lee", firm.origin)
    checks.so("a user whose name is no name of a person", "does not take your user name" in named.text(), named.text())
    named.quit()


def tell_no_answer(firm: Firm, checks: Checks) -> None:
    """A line that breaks."""
    browser = Browser("cashier", firm.origin)
    browser.to("#/m/000001/deposit")
    browser.fill(amount="5", source="Ada Chen", description="costs")
    browser.web.execute_cdp_cmd("Network.enable", {})
    line = {"latency": 0, "downloadThroughput": 0, "uploadThroughput": 0}
    browser.web.execute_cdp_cmd("Network.emulateNetworkConditions", {"offline": True, **line})
    browser.press("Book it")
    checks.so("a line that breaks", "No answer came." in browser.text(), browser.text())
    browser.web.execute_cdp_cmd("Network.emulateNetworkConditions", {"offline": False, "latency": 0,
                                                                     "downloadThroughput": -1, "uploadThroughput": -1})
    browser.press("Send again")
    checks.so("it is sent again", "Booked on 2024-01-10: deposit of 5.00" in browser.text(), browser.text())
    browser.quit()


def play(program: str, folder: pathlib.Path, checks: Checks) -> None:
    desk = Desk(program, folder / "book.db", DAY)
    desk.run("sheet", text="open,000001,,Ada Chen,lee\n")
    firm = Firm(desk, folder / "front")
    browser = Browser("cashier", firm.origin)
    try:
        asker = Asker(firm, browser, checks)
        tell_refusals(asker)
        tell_statuses(asker)
        tell_late(asker)
        tell_empty(asker)
        tell_to_persons(firm, checks)
        tell_no_answer(firm, checks)
        checks.same("the browser's log", browser.faults(), [])
    finally:
        browser.quit()
        firm.end()
