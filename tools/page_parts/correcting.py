"""What a line of the bank cleared by mistake is put right by the page: two lines that it shows before it sends them, of
the bank's day or, where that is reconciled, of today; and the deposit that was taken back is booked anew."""
import json
import pathlib

from .browser import Browser
from .checks import Checks
from .deciding import ask
from .firm import HEAD, Desk, Fault, Firm
from .matching import Bank
from .views import look

DAY = "2026-08-05"
SHEET = """open,000001,,Ada Chen,lee
deposit,000001,0001,1000.00,Ada Chen,"retainer, check 88"
deposit,000001,0002,700.00,Ada Chen,costs
open,000002,,Bob Ruiz,lee
deposit,000002,0001,1000.00,Bob Ruiz,retainer
deposit,000002,0002,700.00,Bob Ruiz,costs
deposit,000002,0003,5.00,Bob Ruiz,copies
deposit,000002,0004,400.00,Bob Ruiz,advance
deposit,000002,0005,300.00,Bob Ruiz,advance
open,000003,,Cleo Marsh,lee
deposit,000003,0001,1000.00,Cleo Marsh,retainer
"""
JULY = HEAD + """2026-07-02,M000001-0001,W1,1000.00,DEPOSIT
2026-07-03,FIRM,O1,90.00,OWN
2026-07-06,FIRM,W5,5.00,DEPOSIT
2026-07-07,M000003-0001,W3,1000.00,DEPOSIT
"""
CLOSED = HEAD + "2026-07-09,M000001-0002,W7,700.00,DEPOSIT\n2026-07-31,CLOSE,,2795.00,Closing balance\n"


def wait_for(bank: Bank, view: str) -> None:
    bank.browser.to(view)
    bank.browser.settle()


def use(bank: Bank, reference: str) -> None:
    """The button beside an entry."""
    bank.browser.find(f'button[aria-label="Use {reference}"]')[0].click()
    bank.browser.settle()


def is_sent(bank: Bank, *lines: list[str]) -> None:
    """The first four fields of the lines that the desk was last handed."""
    bank.checks.same("the lines that were sent", [record[:4] for record in bank.imported()], list(lines))


def state_is(bank: Bank, reference: str, state: str) -> None:
    bank.checks.same(f"{reference} behind it", bank.state(reference), state)


def give_a_deposit(bank: Bank) -> None:
    """The wrong one of two deposits of an amount was cleared: three clicks, and nothing is typed."""
    browser = bank.browser
    wait_for(bank, "#/m/000001/e/0001")
    bank.has("If it was a mistake")
    browser.follow("It was another\u2019s")
    bank.has("1,000.00 on 2026-07-02", "Entries of its amount that wait for the bank", "M000002-0001 Bob Ruiz",
             "The firm\u2019s own money is 95.00 now")
    look(browser, "whose a line was", bank.checks)
    use(bank, "M000002-0001")
    bank.has("What will be sent", "M000001-0001 2026-07-02 W1 -1,000.00 It was M000002-0001: correction",
             "M000002-0001 2026-07-02 W1 1,000.00 Not M000001-0001: correction",
             "1,000.00 less is available in matter 000001, which has 1,000.00 now",
             "They have the bank\u2019s day, 2026-07-02: no closing balance of that day or later is kept.",
             "Then book the deposit of 1,000.00 by Ada Chen anew, as entry 0003")
    bank.lacks("all the same")
    look(browser, "a correction", bank.checks)
    browser.press("Send it")
    bank.has("The lines are sent: 2 of them found their place.", "Booked anew: the deposit of 1,000.00 by Ada Chen, as "
             "entry 0003.", "held: the bank has not shown it yet", "retainer, check 88")
    is_sent(bank, ["2026-07-02", "M000001-0001", "W1", "-1000.00"], ["2026-07-02", "M000002-0001", "W1", "1000.00"])
    for reference, state in (("M000001-0001", "returned"), ("M000002-0001", "cleared"), ("M000001-0003", "held")):
        state_is(bank, reference, state)


def give_what_was_firms(bank: Bank) -> None:
    """FIRM was chosen for a client's money."""
    browser = bank.browser
    wait_for(bank, "#/own")
    bank.has("The firm has 95.00 of its own", "2026-07-06 W5 | DEPOSIT 5.00", "2026-07-03 O1 | OWN 90.00")
    browser.follow("It was another\u2019s")
    bank.has("5.00 on 2026-07-06")
    use(bank, "M000002-0003")
    bank.has("FIRM 2026-07-06 W5 -5.00", "M000002-0003 2026-07-06 W5 5.00 Not FIRM: correction",
             "The firm\u2019s own money is changed by -5.00, from 95.00.")
    browser.press("Send it")
    bank.has("2 of them found their place.", "its opposite is there too", "The firm has 90.00 of its own")
    is_sent(bank, ["2026-07-06", "FIRM", "W5", "-5.00"], ["2026-07-06", "M000002-0003", "W5", "5.00"])
    state_is(bank, "M000002-0003", "cleared")


def give_it_back(bank: Bank) -> None:
    """And it was the firm's own after all: the line is no repeat of the first one."""
    wait_for(bank, "#/own/2026-07-06/5.00/W5")
    bank.has("The book has the opposite of this line too.")
    wait_for(bank, "#/m/000002/e/0003/another")
    bank.browser.press("The book has it elsewhere too")
    bank.has("It is taken back alone.", "The book has it elsewhere: correction")
    bank.browser.press("It was the firm\u2019s own (FIRM)")
    bank.has("M000002-0003 2026-07-06 W5 -5.00", "FIRM 2026-07-06 W5-2 5.00 Not M000002-0003: correction")
    bank.browser.find("#anew")[0].click()
    bank.browser.press("Send it")
    bank.has("2 of them found their place.")
    wait_for(bank, "#/own")
    bank.has("The firm has 95.00 of its own")


def give_what_is_filed(bank: Bank) -> None:
    """Where a closing balance is kept the lines are of today: what was filed stays to the byte. Here the line was of
    two deposits together."""
    browser, desk = bank.browser, bank.firm.desk
    desk.ask("cashier", "POST", "/firm/statements", CLOSED)
    packet = desk.ask("cashier", "GET", "/firm/month/2026-07-31")[1]
    wait_for(bank, "#/m/000001/e/0002/another")
    browser.press("It was several together")
    for reference in ("M000002-0004", "M000002-0005"):
        browser.find(f"#part-1-{reference}")[0].click()
    browser.click(".chooser button", "Use these")
    bank.has(f"M000001-0002 {DAY} W7 -700.00 It was M000002-0004, M000002-0005: correction",
             f"They have today\u2019s day, {DAY}, since a closing balance of 2026-07-31 is kept: what was reconciled "
             "and filed stays as it is.")
    browser.find("#anew")[0].click()
    bank.firm.relay.fail("POST /firm/statements$", Fault("lost"))
    browser.press("Send it")
    bank.has("The desk is not open.")
    browser.press("Send it")
    bank.has("0 of them found their place, 3 were there already.", "returned by the bank")
    is_sent(bank, [DAY, "M000001-0002", "W7", "-700.00"], [DAY, "M000002-0004", "W7", "400.00"],
            [DAY, "M000002-0005", "W7", "300.00"])
    state_is(bank, "M000002-0005", "cleared")
    told = json.loads(desk.ask("cashier", "GET", "/matters/000001")[1])
    bank.checks.same("the entries where it was not booked anew", told["entries"], 3)
    bank.checks.same("the packet of July is as it was", desk.ask("cashier", "GET", "/firm/month/2026-07-31")[1], packet)


def give_a_return(bank: Bank) -> None:
    """A check that bounced was taken for another client's: that one is booked anew, and cleared."""
    browser, desk = bank.browser, bank.firm.desk
    desk.ask("cashier", "POST", "/firm/statements", HEAD + f"{DAY},M000003-0001,R1,-1000.00,RETURNED CHECK 9\n")
    wait_for(bank, "#/m/000003/e/0001")
    browser.follow("It was another\u2019s")
    bank.has("Which deposit did the bank take back?", "M000002-0001 Bob Ruiz")
    bank.lacks("M000001-0003")
    use(bank, "M000002-0001")
    bank.has("is booked anew, as entry 0002, and cleared by the first line.", f"M000003-0002 {DAY} R1 1,000.00",
             f"M000002-0001 {DAY} R1 -1,000.00", "1,000.00 is available in matter 000003 again.")
    browser.press("Send it")
    bank.has("2 of them found their place.", "Booked anew: the deposit of 1,000.00 by Cleo Marsh, as entry 0002.")
    for reference, state in (("M000003-0002", "cleared"), ("M000002-0001", "returned")):
        state_is(bank, reference, state)


def keep_a_payment(bank: Bank) -> None:
    """What a payment's line was stays so: the page says why, and which line explains the gap."""
    for matter, entry, number in (("000003", "0003", "2001"), ("000002", "0006", "2002")):
        at = f"/matters/{matter}/entries/{entry}"
        ask(bank, "cashier", f"{at}/propose", amount="300.00", **{"from": "general"}, payee="Court Clerk",
            purpose="filing fee", instrument=number)
        ask(bank, "lee", f"{at}/approve")
    bank.firm.desk.ask("cashier", "POST", "/firm/statements", HEAD + f"{DAY},M000003-0003,P1,-300.00,CHECK 2002\n")
    wait_for(bank, "#/m/000003/e/0003")
    bank.browser.follow("It was another\u2019s")
    bank.has("A payment that the bank has shown stays so.", "M000002-0006 Bob Ruiz",
             "The two bank numbers stay swapped", "has a gap of 300.00. The line below explains it",
             f"M000003-0003 {DAY} P1 300.00 2001 was not paid")
    bank.browser.press("Import it as an exception")
    bank.has("0 of them found their place. 1 of them match nothing.")
    is_sent(bank, [DAY, "M000003-0003", "P1", "300.00"])
    state_is(bank, "M000003-0003", "cleared")


def say_what_is_spent(bank: Bank) -> None:
    """Said before anything is chosen; what is sent all the same is an exception until it is covered."""
    ask(bank, "cashier", "/matters/000001/entries/0004/deposit", amount="1000.00", source="Ada Chen",
        description="more")
    wait_for(bank, "#/m/000003/e/0002/another")
    bank.has("It can\u2019t be taken back whole.", "Only 700.00 is available in the matter: the rest is spent")
    use(bank, "M000001-0004")
    bank.has("Look at it first.")
    bank.browser.press_once("Send it all the same")
    bank.has("1 of them found their place. 1 of them match nothing.")
    wait_for(bank, "#/m/000003/e/0002/another")
    bank.browser.press("It was the firm\u2019s own (FIRM)")
    bank.has("The firm\u2019s own money is 95.00, and with 1,000.00 it would not stay from 0.00 to 500.00")


def move_money(bank: Bank) -> None:
    """Between two matters of a client: proposed by one form, and behind the approval done by one click, also where it
    is broken off between the two."""
    desk = bank.firm.desk
    ask(bank, "cashier", "/matters/000004/open", client="Bob Ruiz", lawyer="lee")
    wait_for(bank, "#/m/000002")
    bank.browser.follow("Move money to another matter")
    bank.checks.same("the other matter of the client", bank.browser.find("#to")[0].get_attribute("value"), "000004")
    bank.browser.fill(to="3", amount="150", why="costs of the appeal")
    bank.browser.press_once("Propose it")
    bank.has("Matter 000003 is of Cleo Marsh, and this one of Bob Ruiz.")
    bank.browser.fill(to="4")
    bank.browser.press_once("Propose it")
    bank.has("payment of 150.00 to matter 000004, entry 0007", "It moves money to matter 000004, once a lawyer has")
    ask(bank, "lee", "/matters/000002/entries/0007/approve")
    wait_for(bank, "#/m/000002/e/0007")
    bank.browser.follow("Move the money")
    bank.has("M000004-0001 in the matter of Bob Ruiz", "from M000002-0007: costs of the appeal",
             f"M000002-0007 {DAY} MOVE-M000002-0007 -150.00 To 000004: moved",
             f"M000004-0001 {DAY} MOVE-M000002-0007 150.00 From 000002: moved")
    look(bank.browser, "money that moves", bank.checks)
    bank.firm.relay.fail("POST /firm/statements$", Fault("closed"))
    bank.browser.press("Book it and send the lines")
    bank.has("The desk is not open.")
    wait_for(bank, "#/m/000002/e/0007/move")
    bank.has("The deposit, which is booked")
    bank.browser.press("Send the lines")
    bank.has("2 of them found their place.", "cleared by the bank")
    for reference in ("M000002-0007", "M000004-0001"):
        state_is(bank, reference, "cleared")
    told = json.loads(desk.ask("cashier", "GET", "/matters/000004")[1])
    bank.checks.same("what the other matter has", (told["available"], told["entries"]), ("150.00", 1))


def be_no_cashier(bank: Bank) -> None:
    lee = Browser("lee", bank.firm.origin)
    lee.to("#/m/000002/e/0001")
    lee.settle()
    bank.checks.lacks("a lawyer does not see", lee.text(), ("It was another\u2019s",))
    bank.checks.same("the log of lee", lee.faults(), [])
    lee.quit()


CHAPTERS = (give_a_deposit, give_what_was_firms, give_it_back, give_what_is_filed, give_a_return, keep_a_payment,
            say_what_is_spent, move_money, be_no_cashier)


def play(program: str, folder: pathlib.Path, checks: Checks) -> None:
    desk = Desk(program, folder / "book.db", DAY)
    desk.run("sheet", text=SHEET)
    (folder / "july.csv").write_text(JULY, encoding="utf-8")
    desk.run("import", str(folder / "july.csv"))
    firm = Firm(desk, folder / "front")
    browser = Browser("cashier", firm.origin)
    bank = Bank(firm, folder, checks, browser)
    try:
        for chapter in CHAPTERS:
            try:
                chapter(bank)
            except (AssertionError, IndexError) as fault:  # what it looks for is not there: the next one goes on
                checks.so(f"{chapter.__name__} goes to its end", False, fault)
        checks.same("the browser's log", browser.faults(), [])
    finally:
        browser.quit()
        firm.end()
