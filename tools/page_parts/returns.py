"""What the bank does by itself: a deposit that comes back and whose money is spent, interest that is passed on, and
what the month's end tells of payments with one number and of early lines."""
import json
import pathlib

from .browser import Browser
from .checks import Checks
from .firm import HEAD, Desk, Firm
from .matching import Bank
from .views import look

JULY, AUGUST = "2026-07-14", "2026-08-03"
SHEET = """open,000001,,Ada Chen,lee
open,000002,,Bob Ruiz,lee
deposit,000001,0001,5000.00,Ada Chen,retainer
deposit,000002,0001,1200.00,Bob Ruiz,"retainer, check 5530"
"""
CLEARED = HEAD + """2026-07-02,OPEN,,0.00,
2026-07-02,FIRM,F1,100.00,own
2026-07-02,M000001-0001,D1,5000.00,DEPOSIT
2026-07-02,M000002-0001,D2,1200.00,DEPOSIT CHECK 5530
"""
# Payments of matter 000001 with one number for two: the first pair is shown by one line of the bank's in July, the
# second in August, the third not at all.
PAIRS = (("2048", "0002", "0003"), ("2049", "0004", "0005"), ("2050", "0006", "0007"))


def ask(desk: Desk, checks: Checks, person: str, path: str, **fields: str) -> None:
    status, told = desk.ask(person, "POST", path, json.dumps(fields) if fields else None)
    checks.so(f"{path} is done", status in (200, 201), told)


def pay(desk: Desk, checks: Checks, reference: str, amount: str, instrument: str, payee: str = "Court Clerk") -> None:
    """A payment that a lawyer approves."""
    at = f"/matters/{reference[1:7]}/entries/{reference[8:]}"
    ask(desk, checks, "cashier", f"{at}/propose", amount=amount, payee=payee, purpose="filing fee",
        instrument=instrument, **{"from": "general"})
    ask(desk, checks, "lee", f"{at}/approve")


def begin(program: str, folder: pathlib.Path, checks: Checks) -> Desk:
    """July, until its 14th day; then the desk is opened in August."""
    desk = Desk(program, folder / "book.db", JULY)
    desk.run("sheet", text=SHEET)
    (folder / "cleared.csv").write_text(CLEARED, encoding="utf-8")
    desk.run("import", str(folder / "cleared.csv"))
    desk.begin()
    for number, one, other in PAIRS:
        pay(desk, checks, f"M000001-{one}", "100.00", number)
        pay(desk, checks, f"M000001-{other}", "200.00", number)
    pay(desk, checks, "M000002-0002", "900.00", "2051", "Bay Clinic")
    desk.end()
    desk.day = AUGUST
    return desk


def split(day: str, number: str, one: str, other: str) -> str:
    return (f"{day},M000001-{one},K{number},-100.00,CHECK {number}\n"
            f"{day},M000001-{other},K{number},-200.00,CHECK {number}\n")


def month_end(bank: Bank) -> None:
    """Of payments with one number those are told that the bank has not shown; an early line has client and words."""
    desk = bank.firm.desk
    ask(desk, bank.checks, "cashier", "/matters/000002/entries/0003/deposit", amount="40.00", source="Cy Ruiz",
        description="wire of July")
    closed = HEAD + split("2026-07-20", *PAIRS[0]) + ("2026-07-30,M000002-0003,W3,40.00,WIRE\n"
                                                       "2026-07-31,CLOSE,,6040.00,\n")
    status, told = desk.ask("cashier", "POST", "/firm/statements", closed)
    bank.checks.so("July is imported", status == 200 and '"exceptions":0' in told, told)
    bank.browser.to("#/month/2026-07-31")
    bank.browser.settle()
    rows = [row.text for row in bank.browser.find("main table tr") if "double" in row.text or "early" in row.text]
    bank.checks.same("the numbers that are told", [each for each in ("2048", "2049", "2050")
                                                   if any(each in row for row in rows)], ["2049", "2050"])
    bank.checks.so("an early line has its client and words",
                   any("Bob Ruiz | Cy Ruiz | wire of July" in row for row in rows), rows)
    printed = desk.ask("cashier", "GET", "/firm/month/2026-07-31")[1]
    bank.checks.so("the printed text has them all", printed.count("DOUBLE") == 6, printed)
    bank.checks.so("it is shown too", "DOUBLE M000001-0002" in bank.browser.run(
        "return document.querySelector('main pre').textContent"))
    look(bank.browser, "month's end", bank.checks)
    desk.ask("cashier", "POST", "/firm/statements", HEAD + split("2026-08-03", *PAIRS[1]))
    bank.browser.to("#/month/2026-07-31")
    bank.browser.settle()
    rows = [row.text for row in bank.browser.find("main table tr") if "double" in row.text]
    bank.checks.same("what is told once one line shows both", [row for row in rows if "2050" not in row], [])


RETURNED = HEAD + ("2026-08-03,,R1,-1200.00,DEPOSITED ITEM RETURNED NSF CHECK 5530\n"
                   "2026-08-03,,C1,-12.00,SERVICE CHARGE\n")


def take_back_what_is_spent(bank: Bank) -> None:
    """A returned deposit whose money is spent is told before the import, with what the firm owes; then it goes the way
    that is shown."""
    browser = bank.browser
    bank.choose("returned.csv", RETURNED)
    line = next(each for each in browser.find(".left .line") if "RETURNED" in each.text)
    next(each for each in line.find_elements("css selector", "button") if each.text == "Use this").click()
    browser.press("Match again")
    bank.has("The firm owes 860.00 to matter 000002.", "340.00 of it is left",
             "Imported now, the line is an exception.", "The firm pays 860.00 of its own money into the trust account")
    bank.checks.same("whether it is imported without a word", [each.text for each in browser.find("button")
                                                                if each.text == "Import these"], [])
    look(browser, "a shortfall", bank.checks)
    browser.press("Leave the line of -1,200.00 until then")
    bank.lacks("The firm owes")
    bank.has("Left. It is not imported.")
    browser.press("Take it up again")
    line = next(each for each in browser.find(".left .line") if "RETURNED" in each.text)
    next(each for each in line.find_elements("css selector", "button") if each.text == "Use this").click()
    browser.press("Match again")
    browser.press("Book the firm\u2019s 860.00")
    bank.has("Booked on 2026-08-03: deposit of 860.00 by the firm")
    browser.to("#/statement")
    browser.settle()
    bank.has("The firm owes 860.00 to matter 000002.", "may be that of the firm: M000002-0004.")
    bank.put_away()
    desk = bank.firm.desk
    desk.ask("cashier", "POST", "/firm/statements", HEAD + "2026-08-03,M000002-0004,F2,860.00,DEPOSIT\n")
    bank.choose("returned.csv", RETURNED)
    for at in range(2):
        line = browser.find(".left .line")[at]
        words = "Use this" if "RETURNED" in line.text else "FIRM"
        next(each for each in line.find_elements("css selector", "button") if each.text == words).click()
    bank.lacks("[object HTMLElement]")
    browser.press("Match again")
    bank.lacks("The firm owes")
    browser.press("Import these")
    bank.has("Lines that found their place\n2", "Match nothing (exceptions)\n0")
    left = json.loads(desk.ask("cashier", "GET", "/matters/000002")[1])["available"]
    bank.checks.same("what is left in the ledger", left, "0.00")


INTEREST = HEAD + ("2026-08-03,,I2,-590.12,IOLTA INTEREST REMITTANCE\n2026-08-03,,I1,590.12,INTEREST PAID\n")


def pass_interest_on(bank: Bank) -> None:
    """A matter is opened for it once; the interest is its deposit, the remittance its payment. None is the firm's."""
    browser = bank.browser
    own = bank.firm.desk.ask("cashier", "GET", "/firm/trial-balance")[1]
    bank.choose("interest.csv", INTEREST)
    bank.has("Interest of the trust account is the bar foundation\u2019s, not the firm", "Open a matter for it once")
    look(browser, "lines of interest", bank.checks)
    browser.fill(**{"interest-client-1": "State Bar Foundation", "interest-lawyer-1": "lee"})
    browser.press("Open matter 000003, IOLTA interest")
    browser.press("Book it as interest, in matter 000003")
    bank.has("deposit of 590.12 of interest")
    browser.to("#/statement")
    browser.settle()
    browser.press("Propose to pass it on, from matter 000003")
    bank.has("payment of 590.12 of interest", "State Bar Foundation")
    browser.to("#/statement")
    browser.settle()
    bank.has("M000003-0002 waits for a lawyer\u2019s approval.")
    use(bank, "INTEREST PAID")
    browser.press("Match again")
    browser.press("Import these")
    bank.has("Lines that found their place\n1")
    ask(bank.firm.desk, bank.checks, "lee", "/matters/000003/entries/0002/approve")
    browser.press("Match again")
    use(bank, "REMITTANCE")
    browser.press("Match again")
    browser.press("Import these")
    bank.has("Lines that found their place\n1", "Match nothing (exceptions)\n0")
    matter = json.loads(bank.firm.desk.ask("cashier", "GET", "/matters/000003")[1])
    bank.checks.same("the client of the interest", matter["client"], "State Bar Foundation, IOLTA interest")
    bank.checks.same("what is left of it", matter["total"], "0.00")
    now = bank.firm.desk.ask("cashier", "GET", "/firm/trial-balance")[1]
    bank.checks.same("the firm's own", [line for line in now.splitlines() if "FIRM" in line],
                     [line for line in own.splitlines() if "FIRM" in line])


def use(bank: Bank, words: str) -> None:
    """Uses the entry of its amount for the line with these words."""
    line = next(each for each in bank.browser.find(".left .line") if words in each.text)
    next(each for each in line.find_elements("css selector", "button") if each.text == "Use this").click()
    bank.browser.settle()


CHAPTERS = (month_end, take_back_what_is_spent, pass_interest_on)


def play(program: str, folder: pathlib.Path, checks: Checks) -> None:
    firm = Firm(begin(program, folder, checks), folder / "front")
    browser = Browser("cashier", firm.origin)
    bank = Bank(firm, folder, checks, browser)
    try:
        for chapter in CHAPTERS:
            chapter(bank)
        checks.same("the browser's log", browser.faults(), [])
    finally:
        browser.quit()
        firm.end()
