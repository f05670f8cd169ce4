"""What a month seldom has: a gap beside an exception, a matter that was closed on the first day, two fees with payments
proposed from each, a check that was voided and written anew, a deposit older than the trail, an exception that a match
would write under another entry, parts of a line that were imported, a withdrawal in a file of records, and an approval
that can't be read."""
import json
import pathlib
import subprocess

from .browser import Browser
from .checks import Checks
from .firm import HEAD, ROOT, Desk, Firm
from .lists import COMPARE
from .matching import Bank

FIRST, DAY = "2026-03-01", "2026-03-31"

OPENED = """open,000001,,Ada Chen,lee
open,000002,,Bob Ruiz,lee
open,000003,,Cleo Marsh,lee
deposit,000001,0001,700.00,Ada Chen,retainer
deposit,000002,0001,500.00,Bob Ruiz,retainer
deposit,000003,0001,700.00,Cleo Marsh,retainer
deposit,000003,0002,40.00,Cleo Marsh,costs
"""
# So is the book of a firm that began before programs kept a trail.
FORGOTTEN = "DELETE FROM trail WHERE matter = 3"
# The approval of Bob's payment becomes an act that there is not.
SPOILED = "UPDATE trail SET deed = 99 WHERE matter = 2 AND deed = 10"
# Bob's money comes and goes on the first day, on which his matter is closed.
PAID_OUT = "propose,000002,0002,500.00,general,,Bob Ruiz,balance,1000\n"
APPROVAL = "POST /matters/000002/entries/0002/approve HTTP/1.1\r\nx-caller: lee\r\n\r\n"
CLOSED = "close,000002,\n"
CAME, WENT = f"{FIRST},M000002-0001,B1,500.00,\n", f"{FIRST},M000002-0002,B2,-500.00,\n"
# One line of the bank under two clients, and one that is nobody's.
DOUBLED = "2026-03-11,M{}-0001,R1,700.00,DEPOSIT\n"
NOBODYS = "2026-03-20,COUNTER-1,R2,-5.00,DEBIT\n2026-03-31,CLOSE,,695.00,\n"
# Imported before its deposit was booked, under another matter's number.
MISNAMED = f"{DAY},M000003-0099,R7,655.00,DEPOSIT CHECK 2291\n"
SLIP = HEAD + f"{DAY},,S881,2500.00,DEPOSIT SLIP 881\n{DAY},,S9,33.00,DEPOSIT\n"


def bring_in(desk: Desk, lines: str) -> None:
    path = desk.book.with_name("lines.csv")
    path.write_text(HEAD + lines, encoding="utf-8")
    desk.run("import", str(path))


def begin(program: str, folder: pathlib.Path) -> Desk:
    desk = Desk(program, folder / "book.db", FIRST)
    desk.run("sheet", text=OPENED)
    subprocess.run([ROOT / "tools" / "sql", FORGOTTEN, str(desk.book)], check=True)
    bring_in(desk, CAME)
    desk.run("sheet", text=PAID_OUT)
    desk.run("stream", text=APPROVAL)
    bring_in(desk, WENT)
    desk.run("sheet", text=CLOSED)
    desk.day = DAY
    bring_in(desk, DOUBLED.format("000001"))
    bring_in(desk, DOUBLED.format("000003") + NOBODYS)
    return desk


def ask(bank: Bank, person: str, path: str, **fields: str) -> None:
    status, told = bank.firm.desk.ask(person, "POST", path, json.dumps(fields) if fields else None)
    bank.checks.so(f"{path} is done", status in (200, 201), told)


def propose(bank: Bank, entry: str, amount: str, instrument: str, **fund: str) -> None:
    ask(bank, "cashier", f"/matters/000001/entries/{entry}/propose", amount=amount, purpose="costs",
        instrument=instrument, **{"from": "general", "payee": "Court Clerk", **fund})


def deposit(bank: Bank, entry: str, amount: str, what: str) -> None:
    ask(bank, "cashier", f"/matters/000003/entries/{entry}/deposit", amount=amount, source="Cleo Marsh",
        description=what)


def tell_gap(bank: Bank) -> None:
    """A gap is told as one, also where exceptions explain a part of the difference."""
    for view in (f"#/reconciliation/{DAY}", f"#/month/{DAY}"):
        bank.browser.to(view)
        bank.has("A gap of -700.00 is explained by nothing. Find it before the month is filed.",
                 "exceptions explain -5.00 of it", "Exceptions come to -5.00.")
        bank.lacks("Lines of the bank that match nothing come to")


def show_closed(bank: Bank) -> None:
    """A matter has a statement of account of the days up to that of its closing, and none of later ones."""
    bank.browser.to(f"#/accounts/{FIRST}/{DAY}")
    bank.has("Bob Ruiz, matter 000002", "Printed, each of the 3 begins a sheet.", "M000002-0002")
    bank.lacks("Left out")
    bank.browser.to(f"#/accounts/2026-03-02/{DAY}")
    bank.has("Printed, each of the 2 begins a sheet.")
    bank.lacks("Bob Ruiz", "Left out")


def draw_on_fees(bank: Bank) -> None:
    """What else is proposed from a fee is counted by the page as by the desk: that from another fee is not."""
    for entry, amount in (("0002", "100.00"), ("0003", "50.00")):
        ask(bank, "lee", f"/matters/000001/entries/{entry}/fee", amount=amount, description="work")
    for entry, amount, fee in (("0004", "100.00", "0002"), ("0005", "50.00", "0003"), ("0006", "20.00", "0003")):
        propose(bank, entry, amount, "2048", **{"from": "fee"}, of=fee, payee="FIRM")
    told = bank.browser.wait(f"{COMPARE} compare(arguments[0]).then(done, (fault) => done(String(fault)))", "000001")
    bank.checks.same("what waits, by the entries", told["own"], told["waiting"])
    bank.checks.same("what else is proposed from each fund", [each["others"] for each in told["own"]],
                     ["0.00", "20.00", "50.00"])


def write_anew(bank: Bank) -> None:
    """The number of a check that was voided is free; that of one that is out is told."""
    propose(bank, "0007", "10.00", "1001")
    propose(bank, "0008", "20.00", "1002")
    for entry, verb in (("0007", "approve"), ("0008", "approve"), ("0007", "void")):
        ask(bank, "lee", f"/matters/000001/entries/{entry}/{verb}")
    bank.browser.to("#/m/000001/propose")
    bank.browser.fill(amount="10", payee="Court Clerk", purpose="costs", instrument="1002")
    bank.browser.press_once("Propose it")
    bank.has("Payment 0008 of matter 000001, 20.00, has the number 1002 too. Is it one check?")
    bank.browser.fill(instrument="1001")
    bank.browser.press_once("Propose it")
    bank.has(f"Booked on {DAY}: payment of 10.00 to Court Clerk")
    bank.lacks("has the number")


def name_doers(bank: Bank) -> None:
    """Who imports the bank's lines has not made a deposit what it is: of one older than the trail nobody is named."""
    for line in (f"{DAY},M000003-0002,R3,40.00,\n", f"{DAY},M000003-0002,R4,-40.00,\n"):
        bank.firm.desk.ask("cashier", "POST", "/firm/statements", HEAD + line)
    bank.checks.same("the deposit", bank.state("M000003-0002"), "returned")
    bank.browser.to("#/m/000003")
    doers = {row.text.split()[0]: row.find_element("css selector", ".hint").text
             for row in bank.browser.find("tbody tr") if row.find_elements("css selector", ".hint")}
    bank.checks.same("who made the deposits", doers, {"0001": "-", "0002": "-"})


def find_its_entry(bank: Bank) -> None:
    """An exception that a match would write under another reference is not yet in the book."""
    bring = bank.firm.desk.ask("cashier", "POST", "/firm/statements", HEAD + MISNAMED)
    bank.checks.so("the exception is kept", '"exceptions":1' in bring[1], bring)
    deposit(bank, "0003", "655.00", "retainer, check 2291")
    bank.browser.to("#/report/exceptions")
    bank.browser.settle()
    bank.has("DEPOSIT CHECK 2291", "Decide what these lines are")
    bank.lacks("The book has this line under another reference")


def split_and_go_on(bank: Bank) -> None:
    """Once the parts of a line are imported it is sent whole again, and is in the book, though another is left."""
    deposit(bank, "0004", "1000.00", "retainer, slip 881")
    deposit(bank, "0005", "1500.00", "retainer, slip 881")
    bank.choose("slip.csv", SLIP)
    bank.browser.press("Use these 2")
    bank.browser.press("Match again")
    bank.has("2 lines would be imported, 0 in the book already, 1 to be looked at.")
    bank.browser.press("Import these")
    bank.has("slip.csv was imported.", "Lines that found their place\n2",
             "0 lines would be imported, 1 in the book already, 1 to be looked at.")
    bank.put_away()


def withdraw_by_file(bank: Bank) -> None:
    """What can't be taken back is told before a file of records is sent."""
    path = bank.folder / "sheet.csv"
    path.write_text("withdraw,000001,0009\nshow,000001,\n", encoding="utf-8")
    bank.browser.to("#/records")
    bank.browser.find("#records")[0].send_keys(str(path))
    bank.browser.press("Look at it")
    bank.has("sheet.csv has 2 records. Nothing was sent yet.", "1 of them can\u2019t be taken back", "withdraw")
    bank.browser.press("Send these 2")
    bank.has("2 of 2 records were answered, 0 refused.")
    told = bank.firm.desk.ask("cashier", "GET", "/matters/000001/entries/0009")[1]
    bank.checks.same("the payment that was withdrawn", json.loads(told)["state"], "declined")


def show_unread(bank: Bank) -> None:
    """The firm's trail says that it begins late. Who gave an approval that can't be read is told as that."""
    bank.browser.to("#/report/trail")
    bank.has("Earlier acts are not recorded.")
    desk = bank.firm.desk
    desk.end()
    subprocess.run([ROOT / "tools" / "sql", SPOILED, str(desk.book)], check=True)
    desk.begin()
    bank.browser.to(f"#/report/approvals/{FIRST}/{DAY}")
    bank.browser.settle()
    named = {row.text.split()[1]: "can\u2019t be read" in row.text for row in bank.browser.find("tbody tr")}
    bank.checks.same("whose approval can't be read", named,
                     {"M000002-0002": True, "M000001-0007": False, "M000001-0008": False})


CHAPTERS = (tell_gap, show_closed, draw_on_fees, write_anew, name_doers, find_its_entry, split_and_go_on,
            withdraw_by_file, show_unread)


def play(program: str, folder: pathlib.Path, checks: Checks) -> None:
    firm = Firm(begin(program, folder), folder / "front")
    browser = Browser("cashier", firm.origin)
    bank = Bank(firm, folder, checks, browser)
    try:
        for chapter in CHAPTERS:
            chapter(bank)
        checks.same("the browser's log", browser.faults(), [])
    finally:
        browser.quit()
        firm.end()
