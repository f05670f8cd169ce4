"""Month's end, and the receipts, disbursements and outstanding items, of the month of examples/month."""
import base64
import hashlib
import pathlib
import subprocess
import time
import typing

from . import firms
from .browser import Browser
from .checks import Checks
from .firm import ACCOUNT, NAME, Desk, Fault, Firm

DAY = "2026-03-31"
TOO_MUCH = Fault("told", 429, "{}")
PURGED = Fault("told", 409, '{"name":"PeriodPurged","refusal":28}')
SHEET = {"preferCSSPageSize": True, "printBackground": False, "paperWidth": 8.5, "paperHeight": 11}

# A matter whose texts look like the bars between texts.
SPITEFUL = ("open,000004,,Dee | 9.99 Lane,lee\ndeposit,000004,0001,40.00,Eve | 000001,\"TOTAL 1.00 | x\"\n")

APPROVED = (
    "M000001-0002 lee Clerk of the Superior Court | filing fee | 1001 paid by the bank, 2026-03-19, 0319-0718 435.00",
    "M000003-0005 sato Sunrise Reporting, LLC | transcript of 11 March | 1007 not shown by the bank yet 650.00",
)
SHOWN = (
    "The bank\u2019s closing balance 5,563.00", "Adjusted bank balance 6,953.00", "Gap 0.00",
    "exception 2026-03-27 COUNTER-12 0327-0561 | Counter deposit, branch 12, no name given 75.00",
    "000001 Ada Chen 2,915.00", "000004 Dee | 9.99 Lane 40.00", "The firm\u2019s own 73.00", "Together 6,878.00",
    "2026-03-30 M000003-0004 deposit Cleo Marsh | further advance on costs | Cleo Marsh 2,000.00", "Together 2,040.00",
    "M000003-0005 payment Sunrise Reporting, LLC | transcript of 11 March | 1007 | Cleo Marsh -650.00",
    "Together -650.00", "2026-03-31 M000003-0002 returned Dana Marsh | advance on costs | Cleo Marsh -1,200.00",
    "M000004-0001 deposit Eve | 000001 | TOTAL 1.00 | x | Dee | 9.99 Lane 40.00", "Together 27,643.18",
    "2026-03-13 FIRM the firm\u2019s own 0313-0009 | Service charge, March 12.00",
    "M000002-0006 payment Bob Ruiz | what is left of the settlement | 1005 | Bob Ruiz 10,000.00",
    "Together 20,765.18",
    *APPROVED,
)
HEADINGS = (f"Reconciliation of {DAY}", f"Clients as of {DAY}", f"Outstanding items of {DAY}",
            f"Receipts, 2026-03-01 to {DAY}", f"Disbursements, 2026-03-01 to {DAY}", f"Approvals, 2026-03-01 to {DAY}")


def has(checks: Checks, browser: Browser, at: str, words: typing.Iterable[str]) -> None:
    checks.has(f"{at} has", browser.text(), words)


def kept(browser: Browser, folder: pathlib.Path) -> bytes:
    """What the button Keep saves."""
    place = {"behavior": "allow", "downloadPath": str(folder)}
    browser.web.execute_cdp_cmd("Page.setDownloadBehavior", place)
    browser.press("Keep")
    path = folder / f"month-{DAY}.txt"
    end = time.monotonic() + 20
    while not path.exists() and time.monotonic() < end:
        time.sleep(0.05)
    return path.read_bytes() if path.exists() else b""


def sheets_of(browser: Browser, folder: pathlib.Path) -> list[str]:
    """The texts of the sheets as Chromium prints them."""
    path = folder / "month.pdf"
    path.write_bytes(base64.b64decode(browser.web.execute_cdp_cmd("Page.printToPDF", SHEET)["data"]))
    done = subprocess.run(["pdftotext", "-layout", str(path), "-"], stdout=subprocess.PIPE, check=True)
    return done.stdout.decode().split("\f")[:-1]


def see_month(firm: Firm, browser: Browser, folder: pathlib.Path, checks: Checks) -> None:
    """The packet is shown, kept and printed, and names its bytes."""
    browser.to("#/month")
    browser.press("Look for the last statement")
    checks.same("the last statement", browser.run("return location.hash"), f"#/month/{DAY}")
    parts = [each.text for each in browser.find("main h2")][:len(HEADINGS)]
    checks.same("the parts", parts, list(HEADINGS))
    has(checks, browser, "month's end", SHOWN)
    text = firm.desk.ask("cashier", "GET", f"/firm/month/{DAY}")[1].encode()
    digits = hashlib.sha256(text).hexdigest()
    checks.same("the sum", browser.find(".signing code")[0].text, digits)
    checks.same("what is kept", hashlib.sha256(kept(browser, folder)).hexdigest(), digits)
    sheets = sheets_of(browser, folder)
    checks.same("the sheets", len(sheets), len(HEADINGS))
    for at, (sheet, heading) in enumerate(zip(sheets, HEADINGS)):
        checks.so(f"sheet {at + 1} has the firm, its account and {heading!r}",
                  all(word in sheet for word in (NAME, ACCOUNT, heading)), sheet)
        word = f"Month\u2019s end of {DAY}, part {at + 1} of {len(HEADINGS)}, SHA-256 {digits[:16]}"
        checks.so(f"sheet {at + 1} names its packet", at == 0 or word in sheet, sheet)
        foot = "".join(f"{NAME} \u00b7 Month\u2019s end of {DAY}{at + 1} / {len(HEADINGS)}".split())
        checks.so(f"sheet {at + 1} has at its foot whose it is, and its number", foot in "".join(sheet.split()), sheet)
    checks.so("the first sheet has the sum, and is signed",
              all(word in sheets[0] for word in (digits, "Signed", "Name", "Date")), sheets[0])
    whole = "".join(sheets)
    left = [word for word in ("Keep", "Look for", "Overview", "As the desk printed it") if word in whole]
    checks.same("the buttons that are printed", left, [])


def be_refused(firm: Firm, browser: Browser, checks: Checks) -> None:
    browser.to("#/month/2026-03-30")
    has(checks, browser, "a day without a closing balance", (
        "No closing balance of that day was imported.", "404 NoStatement", "Import the bank\u2019s statement",
        f"Statements ended on {DAY}"))
    for view in (f"#/month/{DAY}", f"#/report/receipts/2026-03-01/{DAY}", f"#/report/approvals/2026-03-01/{DAY}",
                 f"#/report/outstanding/{DAY}"):
        firm.relay.fail("GET /firm/(month|receipts|approvals|outstanding)/", PURGED)
        browser.to(view)
        has(checks, browser, f"{view} of a purged time", ("was purged", "printed or kept then", "409 PeriodPurged"))
    browser.to("#/report/receipts/2026-03-01/2026-02-31")
    has(checks, browser, "a day of no calendar", ("422 BadField",))
    browser.to(f"#/report/receipts/2026-03-01/{DAY}")
    browser.run("document.getElementById('from').value = '2026-04-01'")
    browser.press("List the receipts")
    has(checks, browser, "a period that is backwards", ("That is before the first day.",))


def search(browser: Browser, checks: Checks) -> None:
    """Rows of the two journals are found by what stands in them; what was typed goes along."""
    browser.to("#/report/receipts")
    browser.press("List the receipts")
    checks.same("the days of the receipts", browser.title(), f"Receipts, 2026-03-01 to {DAY}")
    for words, told, found in (
            ("harbor", "Found: 1 of 9.", ("M000002-0001", "Together 18,000.00")),
            ("dana marsh", "Found: 2 of 9.", ("M000003-0002", "Together 0.00")),
            ("1,200.00", "Found: 2 of 9.", ("M000003-0002",)), ("2000.00", "Found: 1 of 9.", ("M000003-0004",)),
            ("x | dee", "Found: 1 of 9.", ("Together 40.00",)), ("nobody", "Found: 0 of 9.", ("Together 0.00",)),
            ("bob ruiz", "Found: 1 of 9.", ("Together 18,000.00",))):
        field = browser.find("#find-movement")[0]
        field.clear()
        field.send_keys(words)
        has(checks, browser, f"receipts looked through for {words!r}", (told, *found))
    browser.follow("The disbursements of the same days")
    has(checks, browser, "disbursements", ("Found: 3 of 9.", "1004", "Together 18,000.00"))
    field = browser.find("#find-movement")[0]
    field.clear()
    field.send_keys("1007")
    has(checks, browser, "disbursements by a check's number", ("Found: 1 of 9.", "Sunrise Reporting, LLC", "650.00"))
    browser.follow("M000003-0005")
    has(checks, browser, "what was found", ("Sunrise Reporting, LLC", "transcript of 11 March"))
    browser.to(f"#/report/outstanding/{DAY}")
    has(checks, browser, "outstanding items", ("Deposits in transit", "Together 2,040.00", "Together -650.00"))


# Whose statements of account are printed, each with its last sum.
ACCOUNTS = (("Ada Chen, matter 000001", "2,915.00"), ("Bob Ruiz, matter 000002", "0.00"),
            ("Cleo Marsh, matter 000003", "3,850.00"), ("Dee | 9.99 Lane, matter 000004", "40.00"))


def print_accounts(firm: Firm, browser: Browser, folder: pathlib.Path, checks: Checks) -> None:
    """Each client's account begins a sheet, under the firm's name. Where the front end bounds the page, it waits."""
    firm.relay.fail("GET /matters/00000[13]/accounting/", TOO_MUCH, 3)
    browser.to(f"#/month/{DAY}")
    browser.follow("The clients\u2019 statements of account")
    checks.same("the bounds that were not met", firm.relay.faults, [])
    checks.same("the days of the accounts", browser.run("return location.hash"), f"#/accounts/2026-03-01/{DAY}")
    has(checks, browser, "the accounts", ("Printed, each of the 4 begins a sheet.", "Closing 3,850.00",
        f"{DAY} M000003-0002 returned Dana Marsh | advance on costs -1,200.00 3,850.00"))
    sheets = sheets_of(browser, folder)
    checks.same("the sheets of the accounts", len(sheets), len(ACCOUNTS))
    for sheet, words in zip(sheets, ACCOUNTS):
        checks.so(f"a sheet has the firm and {words}", all(word in sheet for word in (NAME, ACCOUNT, *words)), sheet)
        checks.so(f"a sheet names itself, {words}", f"Statement of account of {words[0]}" in sheet, sheet)
    browser.to(f"#/accounts/2026-03-30/{DAY}")
    has(checks, browser, "two days", ("Printed, each of the 3 begins a sheet.", "Leave out the 1 without a movement"))
    browser.find("#moved")[0].click()
    has(checks, browser, "those that moved", ("Printed, each of the 2 begins a sheet.", "Cleo Marsh, matter 000003"))
    checks.lacks("what has not moved", browser.text(), ("Ada Chen, matter 000001",))
    browser.to("#/accounts/2026-01-01/2026-02-28")
    has(checks, browser, "days before the firm began", ("No matter had money or a movement in these days.",))


def play(program: str, folder: pathlib.Path, checks: Checks) -> None:
    firms.play_month(program, folder / "book.db", until="messages/19-accounting.http")
    desk = Desk(program, folder / "book.db", DAY)
    desk.run("sheet", text=SPITEFUL)
    firm = Firm(desk, folder / "front")
    try:
        browser = Browser("cashier", firm.origin)
        browser.to("#/")
        browser.settle()
        has(checks, browser, "the list of closed matters", ("000002 Bob Ruiz 2026-03-31",))
        see_month(firm, browser, folder, checks)
        be_refused(firm, browser, checks)
        search(browser, checks)
        print_accounts(firm, browser, folder, checks)
        checks.same("the log of the cashier", browser.faults(), [])
        browser.quit()
        lawyer = Browser("lee", firm.origin)
        lawyer.to(f"#/month/{DAY}")
        has(checks, lawyer, "month's end for a lawyer", ("Only the cashier reads the firm's reports",))
        lawyer.quit()
    finally:
        firm.end()
