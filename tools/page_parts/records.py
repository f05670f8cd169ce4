"""A file of records is sent by the page: what is wrong is told before anything is sent, it goes on where it stopped,
and nothing is booked twice."""
import json
import pathlib

from .browser import Browser
from .checks import Checks
from .firm import HEAD, Desk, Fault, Firm
from .views import look

DAY = "2026-03-16"
SHEET = "".join(f"open,{each:06},,Client {each},lee\ndeposit,{each:06},0001,{each}00.00,Client {each},retainer\n"
                for each in range(1, 9)) + 'propose,000001,0002,10.00,general,,"Clerk, Court",filing fee,1001\n'
# A claim, and what is refused by one name of a refusal for several reasons.
# As a spreadsheet writes it: without the zeros in front, and amounts with marks.
SPREAD = 'deposit,2,2,"$1,500.00",Client 2,costs\ndeposit,3,2,20,Client 3,costs\n'
BANKS = b"OFXHEADER:100\n\n<OFX><BANKMSGSRSV1></BANKMSGSRSV1></OFX>\n"
REFUSED = """claim,000001,0003,5.00,Bay Clinic,bills
deposit,000001,0001,5.00,a,b
propose,000001,0004,5.00,claim,0003,Bay Clinic,bills,1002
cancel,000001,0001
purge,000001
cancel,000001,0009
dismiss,,,2026-03-01,,X1,5.00,none
"""
WRONG = "refund,000001,0002\ndeposit,M1,0001,5.00,a,b\ndeposit,000001,,5.00,a,b\ndeposit,000001,0001,5.00,a\n"


def choose(browser: Browser, folder: pathlib.Path, text: str) -> None:
    path = folder / "sheet.csv"
    path.write_text(text, encoding="utf-8")
    browser.to("#/records")
    browser.find("#records")[0].send_keys(str(path))
    browser.press("Look at it")


def has(checks: Checks, browser: Browser, *words: str) -> None:
    checks.has("the page says", browser.text(), words)


def play(program: str, folder: pathlib.Path, checks: Checks) -> None:
    firm = Firm(Desk(program, folder / "book.db", DAY), folder / "front")
    browser = Browser("cashier", firm.origin)
    try:
        browser.to("#/records")
        browser.press("Look at it")
        has(checks, browser, "Choose a file.")
        choose(browser, folder, WRONG)
        has(checks, browser, "Nothing of sheet.csv was sent.", "4 of 4 records are none.", "there is no verb refund",
            "M1 is no matter: write six digits", "(empty) is no entry", "deposit has 6 fields, and here are 5")
        choose(browser, folder, SHEET)
        has(checks, browser, "sheet.csv has 17 records. Nothing was sent yet.")
        firm.relay.fail("POST .*/000005/.*/deposit", Fault("lost"))
        browser.press("Send these 17")
        has(checks, browser, "9 of 17 records were answered, 0 refused.", "It stopped at record 10", "Go on")
        browser.press("Go on")
        has(checks, browser, "17 of 17 records were answered, 0 refused.", "done, or in the book already", "booked")
        look(browser, "the file of records", checks)
        told = json.loads(firm.desk.ask("cashier", "GET", "/matters/000005")[1])
        checks.same("the entries of a matter whose answer was lost", (told["entries"], told["held"]), (1, "500.00"))
        choose(browser, folder, SHEET + "deposit,000001,0009,5.00,a,b\n")
        browser.press("Send these 18")
        has(checks, browser, "18 of 18 records were answered, 9 refused.", "409 AlreadyOpen", "409 WrongNumber",
            "The number leaves a gap: the next free one is 0003.")
        told = json.loads(firm.desk.ask("cashier", "GET", "/matters/000001")[1])
        checks.same("the entries of a matter that was sent twice", told["entries"], 2)
        choose(browser, folder, "withdraw,000001,0002\n")
        has(checks, browser, "1 of them can\u2019t be taken back", "cancel, withdraw, award")
        browser.press("Send these 1")
        has(checks, browser, "1 of 1 records were answered, 0 refused.")
        told = json.loads(firm.desk.ask("cashier", "GET", "/matters/000001/entries/0002")[1])
        checks.same("the payment that was withdrawn", told["state"], "declined")
        firm.desk.ask("cashier", "POST", "/firm/statements", HEAD + f"{DAY},M000001-0001,B1,100.00,DEPOSIT\n")
        choose(browser, folder, REFUSED)
        browser.press("Send these 7")
        has(checks, browser, "7 of 7 records were answered, 6 refused.", "Another entry has this number.",
            "The claim is not settled yet.", "It is past that", "The matter is not closed.", "There is no such entry.",
            "The list of exceptions has no such line.")
        choose(browser, folder, SPREAD)
        has(checks, browser, "sheet.csv has 2 records. Nothing was sent yet.")
        browser.press("Send these 2")
        has(checks, browser, "2 of 2 records were answered, 0 refused.", "deposit, 000002, 0002, 1500.00")
        told = json.loads(firm.desk.ask("cashier", "GET", "/matters/000002/entries/0002")[1])
        checks.same("the amount of a spreadsheet", told["amount"], "1500.00")
        choose(browser, folder, "Date,Amount,Text\n03/19/2026,1.00,DEPOSIT\n")
        has(checks, browser, "Nothing of sheet.csv was sent.", "None of its lines begins with a verb of a day sheet")
        choose(browser, folder, BANKS.decode())
        has(checks, browser, "sheet.csv is a file of the bank\u2019s, and none of records.")
        checks.same("the browser's log", browser.faults(), [])
    finally:
        browser.quit()
        firm.end()
