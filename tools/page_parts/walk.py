"""A firm of three matters, played from its first day by five browsers: two cashiers, two lawyers, a client."""
import json
import pathlib

from .browser import PHONE, Browser
from .checks import Checks
from .firm import HEAD, Desk, Fault, Firm
from .reports import REPORTS

DAY = "2024-01-10"
STATEMENT = HEAD + """2024-01-02,OPEN,,0.00,Opening balance
2024-01-03,FIRM,0103-0112,100.00,"Deposit, firm's own, for the bank's charges"
2024-01-04,M000001-0001,0104-0875,5000.00,"Deposit, check 2291"
2024-01-05,M000002-0001,0105-0341,18000.00,"Deposit, check 90417"
2024-01-08,M000003-0001,0108-0560,2500.00,"Deposit, check 118"
2024-01-08,COUNTER-12,0108-0561,75.00,<b onmouseover=alert(1)>Counter deposit</b>
garbage
2024-01-10,CLOSE,,25675.00,Closing balance
"""


class Walk:
    """The firm, its people's browsers, and what is checked."""

    def __init__(self, firm: Firm, folder: pathlib.Path, checks: Checks) -> None:
        self.firm, self.folder, self.checks = firm, folder, checks
        self.cashier, self.lee, self.sato, self.ada = (Browser(person, firm.origin)
                                                       for person in ("cashier", "lee", "sato", "ada"))

    def has(self, browser: Browser, *words: str) -> None:
        self.checks.has(f"{browser.person} sees", browser.text(), words)

    def lacks(self, browser: Browser, *words: str) -> None:
        self.checks.lacks(f"{browser.person} does not see", browser.text(), words)

    def focus(self, browser: Browser, name: str) -> None:
        self.checks.same(f"the focus of {browser.person}", browser.focused().get_attribute("name"), name)

    def send(self, browser: Browser, view: str, words: str, **values: str) -> None:
        """Fills a view's form in and sends it."""
        browser.to(view)
        browser.fill(**values)
        browser.press(words)

    def close(self) -> None:
        """No browser's log has a fault of the page, or a breach of its policy."""
        for browser in (self.cashier, self.lee, self.sato, self.ada):
            self.checks.same(f"the log of {browser.person}", browser.faults(), [])
            browser.quit()


def open_matters(walk: Walk) -> None:
    for number, client, lawyer in (("1", "Ada Chen", "lee"), ("2", "Bob Ruiz", "sato"), ("", "Cleo Marsh", "lee")):
        given = {"matter": number} if number else {}
        walk.send(walk.cashier, "#/open", "Open it", client=client, lawyer=lawyer, **given)
    walk.checks.same("the matter of the third number, which the page proposed", walk.cashier.title(),
                     "Matter 000003, Cleo Marsh")
    for matter, person, role in (("000001", "ada", "client"), ("000002", "bob", "client"), ("000003", "cleo", "client"),
                                 ("000003", "sato", "lawyer")):
        walk.send(walk.cashier, f"#/m/{matter}/seats", "Give access", person=person, role=role)
        walk.has(walk.cashier, f"{person} has access as {role}.")
    walk.send(walk.cashier, "#/m/000003/seats", "Give access", person="Sato", role="lawyer")
    walk.has(walk.cashier, "Write 1 to 32 of a to z")
    walk.send(walk.cashier, "#/m/000003/seats", "Give access", person="sato", role="lawyer")
    walk.has(walk.cashier, "This person has access to the matter.", "409 SeatTaken")
    walk.send(walk.cashier, "#/m/000003/seats", "Give access", person="bob", role="client")
    walk.cashier.press("Take the access of bob away")
    walk.has(walk.cashier, "bob sees nothing of it any more.")
    walk.cashier.press("Take it away")
    walk.has(walk.cashier, "bob has no access any more.")


def deposit(walk: Walk, matter: str, amount: str, source: str, description: str) -> None:
    walk.send(walk.cashier, f"#/m/{matter}/deposit", "Book it", amount=amount, source=source, description=description)


def book_deposits(walk: Walk) -> None:
    deposit(walk, "000001", "12,5", "", "x")
    walk.has(walk.cashier, "Write dollars and cents", "Write 1 to 80 bytes")
    walk.focus(walk.cashier, "amount")
    deposit(walk, "000001", "5,000", "Ada Chen", "advance on fees and costs")
    walk.has(walk.cashier, f"Booked on {DAY}: deposit of 5,000.00, entry 0001 of matter 000001",
             "held: the bank has not shown it yet")
    deposit(walk, "000002", "$18,000.00", "Harbor Mutual, claims office", "settlement")
    deposit(walk, "000003", "2500.00", "Cleo Marsh", "advance on costs")
    deposit(walk, "000003", "1200.00", "Dana Marsh", "advance on costs")
    walk.checks.same("the entry that the page numbered", walk.cashier.title(),
                     "Deposit 0002 of matter 000003, Cleo Marsh")
    walk.cashier.press("Cancel this deposit of 1,200.00")
    walk.has(walk.cashier, "Cancel the deposit of 1,200.00 by Dana Marsh?", "held")
    walk.cashier.press("Leave it as it is")
    walk.cashier.press("Cancel this deposit of 1,200.00")
    walk.cashier.press("Cancel the deposit")
    walk.has(walk.cashier, "The deposit is cancelled.", "cancelled")


def approve_too_early(walk: Walk) -> None:
    walk.send(walk.cashier, "#/m/000001/propose", "Propose it", amount="435.00", payee=" Cash", purpose="filing fee",
              instrument="1001")
    walk.has(walk.cashier, "Nobody is paid in cash", "422 PayeeIsCash")
    walk.focus(walk.cashier, "payee")
    walk.cashier.fill(payee="Firm")
    walk.cashier.press("Propose it")
    walk.has(walk.cashier, "422 WrongPayee")
    walk.cashier.fill(payee="Clerk of the Superior Court")
    walk.cashier.press("Propose it")
    walk.has(walk.cashier, "waits for a lawyer", "A lawyer of the matter has to approve it.")
    lee = walk.lee
    walk.has(lee, "There is no matter to which you have access.")
    lee.to("#/m/2")
    walk.has(lee, "There is no such matter for you.")
    lee.open("")
    walk.has(lee, "My matters", "000001 Ada Chen", "000003 Cleo Marsh", "Clerk of the Superior Court",
             "435.00 0.00 not enough with 5,000.00 held 0.00")
    walk.lacks(lee, "Bob Ruiz", "Another matter")
    lee.follow("0002")
    walk.has(lee, "It waits for you", "That is not enough",
             "Held: 5,000.00. It counts once the bank has shown it.")
    lee.press("Approve 435.00")
    walk.has(lee, "Only 0.00 is there for this.", "409 Short")


def bring_in(walk: Walk, text: str) -> None:
    path = walk.folder / "statement.csv"
    path.write_text(text, encoding="utf-8")
    walk.cashier.to("#/statement")
    walk.cashier.find("#file")[0].send_keys(str(path))
    walk.cashier.press("Import as it is")


def bring_statements(walk: Walk) -> None:
    walk.cashier.to("#/statement")
    walk.cashier.press("Import as it is")
    walk.has(walk.cashier, "Choose a file.")
    bring_in(walk, HEAD + " " * 4_194_304)
    walk.has(walk.cashier, "The file has more than 4,194,304 bytes")
    bring_in(walk, "day,amount\n")
    walk.has(walk.cashier, "Nothing is taken of statement.csv.", "no column is the day")
    before = len(walk.firm.relay.imported)
    bring_in(walk, HEAD + f"{DAY},CLOSE,,-5.00,Closing balance\n")
    walk.has(walk.cashier, "Its closing balance is below zero", "Import it all the same")
    walk.cashier.press("Match")
    walk.has(walk.cashier, "1 line would be imported", "Its closing balance is below zero")
    walk.cashier.press("Put it away")
    walk.checks.same("how often it was imported", len(walk.firm.relay.imported), before)
    bring_in(walk, STATEMENT)
    walk.has(walk.cashier, "statement.csv was imported.", "Lines that found their place\n6",
             "Match nothing (exceptions)\n1", "Not readable\n1", f"Closing balance of\n{DAY}")
    bring_in(walk, STATEMENT)
    walk.has(walk.cashier, "Lines that found their place\n0", "Were there already\n6")
    walk.cashier.to("#/report/exceptions")
    walk.has(walk.cashier, "<b onmouseover=alert(1)>Counter deposit</b>")


def dispute_a_fee(walk: Walk) -> None:
    lee, ada = walk.lee, walk.ada
    lee.to("#/m/000001/e/0002")
    lee.press("Approve 435.00")
    walk.has(lee, "Approved: 435.00 to Clerk of the Superior Court.", "issued: the bank has not shown it yet")
    walk.send(lee, "#/m/000001/fee", "Record it", amount="9000", description="work")
    walk.has(lee, "Only 4,565.00 is there for this.")
    walk.focus(lee, "amount")
    lee.fill(amount="1800", description="work to 9 January, 6.0 hours")
    lee.press("Record it")
    walk.has(lee, f"Booked on {DAY}: fee of 1,800.00", "Left of it\n1,800.00")
    ada.to("#/m/000001")
    walk.has(ada, "Available\n2,765.00", "Dispute a fee", "1,800.00 left")
    walk.lacks(ada, "Book a deposit", "Propose a payment", "Close this matter")
    ada.open("")
    walk.checks.same("what a client with one matter sees first", ada.title(), "Matter 000001, Ada Chen")
    ada.follow("Dispute a fee")
    ada.fill(amount="300.00", reason="one hour is counted twice")
    ada.press("Dispute it")
    walk.has(ada, f"Booked on {DAY}: dispute of 300.00 of fee 0003", "Nothing was offered yet.")


def accept_an_offer(walk: Walk) -> None:
    lee, ada = walk.lee, walk.ada
    lee.to("#/m/000001")
    walk.has(lee, "Open claims", "one hour is counted twice", "nothing yet")
    walk.send(lee, "#/m/000001/e/0004", "Offer it", to_client="400")
    walk.has(lee, "The client's part is more than the claim")
    lee.fill(to_client="150")
    lee.press("Offer it")
    walk.has(lee, "Offered: 150.00.", "Offered to the client\n150.00")
    ada.to("#/m/000001/e/0004")
    walk.has(ada, "You were made an offer")
    # The lawyer makes another offer while the client looks at the first.
    lee.fill(to_client="100")
    lee.press("Offer it")
    ada.press("Accept 150.00")
    walk.has(ada, "Accept 150.00 of 300.00? It settles the claim for good.")
    ada.press("Accept it for good")
    walk.has(ada, "no longer what was offered", "422 BadSplit")
    ada.to("#/m/000001/e/0004")
    walk.has(ada, "Accept 100.00")
    lee.fill(to_client="150")
    lee.press("Offer it")
    walk.cashier.to("#/")
    walk.cashier.find("#find-entry")[0].send_keys("hour is counted")
    walk.cashier.settle()
    walk.has(walk.cashier, "Entries found", "M000001-0004", "open claim")
    ada.to("#/m/000001/e/0004")
    ada.press("Accept 150.00")
    ada.press("Leave it as it is")
    ada.press("Accept 150.00")
    ada.press("Accept it for good")
    walk.has(ada, "The claim is settled.", "Left to the client\n150.00")


# Where the button of these words stands in the window.
PLACE = """const has = ({ textContent }) => textContent.includes(arguments[0]);
const { top, bottom } = [...document.querySelectorAll('main button')].find(has).getBoundingClientRect();
return [top, bottom];"""


def approve_on_a_phone(walk: Walk) -> None:
    """What a thumb touched once approves, and does not void where it touches again."""
    phone = Browser("sato", walk.firm.origin, PHONE)
    phone.to("#/m/000002/e/0003")
    top, bottom = phone.run(PLACE, "Approve 2,000.00")
    phone.press("Approve 2,000.00")
    walk.has(phone, "Approved: 2,000.00 to Bay Clinic.")
    void_top, void_bottom = phone.run(PLACE, "Void the payment")
    is_apart = void_top > bottom or void_bottom < top
    walk.checks.so("Void does not stand where Approve stood on a phone", is_apart, (top, bottom, void_top, void_bottom))
    phone.quit()


def pay_from_funds(walk: Walk) -> None:
    cashier, sato, lee = walk.cashier, walk.sato, walk.lee
    cashier.to("#/m/000001/e/0003")
    cashier.follow("Propose its payment to the firm")
    walk.checks.same("whom a fee pays", cashier.find("#payee")[0].get_attribute("value"), "FIRM")
    cashier.fill(amount="1650", purpose="fee to 9 January, less 150.00", instrument="1002")
    cashier.press("Propose it")
    walk.has(cashier, "Drawn on\nfee 0003")
    walk.send(sato, "#/m/000002/claim", "Hold it", amount="2400", claimant="Bay Clinic", reason="treatment bills")
    walk.has(sato, f"Booked on {DAY}: claim of 2,400.00")
    walk.send(cashier, "#/m/000002/e/0002", "Award it", to_client="400")
    walk.has(cashier, "Give the client 400.00 of 2,400.00? It settles the claim for good.")
    cashier.press("Award it for good")
    walk.has(cashier, "The claim is settled.", "Left of it\n2,000.00")
    cashier.follow("Propose its payment to the claimant")
    walk.checks.same("whom a claim pays", cashier.find("#payee")[0].get_attribute("value"), "Bay Clinic")
    cashier.fill(amount="2000", purpose="treatment bills, as settled", instrument="1003")
    cashier.press("Propose it")
    approve_on_a_phone(walk)
    lee.to("#/m/000001/e/0005")
    approve = next(each for each in lee.find("button") if "Approve" in each.text).rect
    lee.press("Approve 1,650.00")
    walk.has(lee, "Approved: 1,650.00 to FIRM.")
    void = next(each for each in lee.find("button") if "Void the payment" in each.text)
    walk.checks.so("Void does not stand where Approve stood", void.rect["y"] > approve["y"] + 100, (void.rect, approve))
    lee.press("Void the payment of 1,650.00")
    walk.has(lee, "Void the payment of 1,650.00 to FIRM, 1002?", "It can\u2019t be taken back.")
    lee.click(".asks .box button", "Void the payment")
    walk.has(lee, "The payment is voided.", "voided")


def two_at_once(walk: Walk) -> None:
    cashier, sato, lee = walk.cashier, walk.sato, walk.lee
    cashier.to("#/m/000003/propose")
    walk.has(cashier, "This will be entry 0003")
    walk.send(sato, "#/m/000003/propose", "Propose it", amount="3900", payee="Ortiz Appraisals, Inc.",
              purpose="appraisal of the house", instrument="1006")
    cashier.fill(amount="650", payee="Sunrise Reporting, LLC", purpose="transcript", instrument="1007")
    cashier.press("Propose it")
    walk.has(cashier, "Another entry has this number.", "Ortiz Appraisals, Inc.", "Book mine as 0004")
    cashier.press("Book mine as 0004")
    walk.has(cashier, f"Booked on {DAY}: payment of 650.00 to Sunrise Reporting, LLC, entry 0004")
    lee.to("#/m/000003/e/0003")
    walk.has(lee, "Other payments that are proposed from it: 650.00")
    sato.to("#/m/000003/e/0003")
    sato.press("Withdraw it")
    lee.press("Approve 3,900.00")
    walk.has(lee, "It is past that", "409 WrongState", "declined")
    # Two cashiers book the same words under the same number: once, and the second is told.
    other = Browser("cashier", walk.firm.origin)
    for each in (cashier, other):
        each.to("#/m/000003/deposit")
    for each in (cashier, other):
        each.fill(amount="2000", source="Cleo Marsh", description="further advance")
        each.press("Book it")
    walk.has(other, "This was in the book already, and is there once")
    other.quit()


def lose_an_answer(walk: Walk) -> None:
    cashier, relay = walk.cashier, walk.firm.relay
    cashier.to("#/m/000002/deposit")
    cashier.fill(amount="10", source="Bob Ruiz", description="costs")
    relay.fail("POST .*/deposit", Fault("lost"))
    cashier.press("Book it")
    walk.has(cashier, "This was in the book already, and is there once: deposit of 10.00, entry 0004")
    walk.checks.so("it is there once", '"entries":4' in walk.firm.desk.ask("cashier", "GET", "/matters/000002")[1])


def find_the_desk_closed(walk: Walk) -> None:
    cashier, relay = walk.cashier, walk.firm.relay
    cashier.to("#/m/000002/deposit")
    cashier.fill(amount="20", source="Bob Ruiz", description="costs")
    relay.fail("POST .*/deposit", Fault("closed"), times=3)
    cashier.press("Book it")
    walk.has(cashier, "The desk is not open.", "502", "Send again")
    walk.checks.same("the fields that take something", cashier.find("input:not(:disabled), .form > button:enabled"), [])
    cashier.open("#/m/000002")
    walk.has(cashier, "Sent, and not answered", "deposit of 20.00, entry 0005")
    cashier.follow("Book a deposit")
    walk.has(cashier, "First send again what was not answered")
    cashier.press("Send again")
    walk.has(cashier, f"Booked on {DAY}: deposit of 20.00, entry 0005")
    walk.lacks(cashier, "Sent, and not answered")


def be_answered_late(walk: Walk) -> None:
    cashier, relay = walk.cashier, walk.firm.relay
    before = len(walk.firm.front.log())
    cashier.to("#/m/000002/deposit")
    cashier.fill(amount="30", source="Bob Ruiz", description="costs")
    relay.fail("POST .*/deposit", Fault("late"))
    cashier.press("Book it")
    walk.has(cashier, "The desk is busy and did not answer in time.", "504")
    sent = [line for line in walk.firm.front.log()[before:] if " POST " in line]
    walk.checks.same("how often it was sent", len(sent), 1)
    cashier.press("Send again")
    walk.has(cashier, "This was in the book already, and is there once: deposit of 30.00, entry 0006")
    # An approval is not sent again: the entry is read, and says what became of it.
    walk.send(cashier, "#/m/000002/propose", "Propose it", amount="5", payee="Court Clerk", purpose="copies",
              instrument="1011")
    walk.sato.to("#/m/000002/e/0007")
    relay.fail("POST .*/approve", Fault("lost"))
    walk.sato.press("Approve 5.00")
    walk.has(walk.sato, "The desk is not open.", "issued: the bank has not shown it yet")


def keep_nothing(walk: Walk) -> None:
    """A browser without a store: all works but the kept ask."""
    cashier = walk.cashier
    cashier.run("Storage.prototype.setItem = Storage.prototype.getItem = () => { throw new Error('no store'); }")
    deposit(walk, "000002", "40", "Bob Ruiz", "costs")
    walk.has(cashier, f"Booked on {DAY}: deposit of 40.00, entry 0008")
    cashier.open("")


def write_spiteful_labels(walk: Walk) -> None:
    deposit(walk, "000003", "1.00", "<img src=x onerror=alert(1)>", "a\u202egpj.exe | HELD")
    walk.has(walk.cashier, "<img src=x onerror=alert(1)>", "a\u2039U+202E\u203agpj.exe | HELD")
    walk.cashier.to("#/m/000003")
    walk.has(walk.cashier, "<img src=x onerror=alert(1)>")
    walk.checks.same("the pictures made", walk.cashier.find("img"), [])
    walk.send(walk.cashier, "#/m/000003/propose", "Propose it", amount="1.00", payee="F\u0406RM", purpose="x",
              instrument="1")
    walk.has(walk.cashier, "letters of two alphabets")
    walk.lee.to("#/m/000003/e/0007")
    walk.has(walk.lee, "letters of two alphabets")
    walk.lee.press("Decline it")


def read_and_close(walk: Walk) -> None:
    cashier, ada = walk.cashier, walk.ada
    cashier.to("#/")
    walk.has(cashier, "Overview", "Sunrise Reporting, LLC", "Bank lines that match nothing",
             "Not yet shown by the bank")
    for name, told in REPORTS.items():
        cashier.to(f"#/report/{name}")
        walk.has(cashier, told.walked)
    cashier.to("#/reconciliation")
    cashier.press("Look for the last statement")
    walk.has(cashier, f"Reconciliation of {DAY}", "CLOSING", "25675.00", "Lines of the bank that match nothing come to")
    walk.checks.same("the green boxes of a reconciliation with an exception", cashier.find(".box.done"), [])
    cashier.find("details.explained summary")[0].click()
    walk.has(cashier, "lines that the bank had before the books")
    cashier.to(f"#/clients/{DAY}")
    walk.has(cashier, f"Clients as of {DAY}", f"CLIENTS {DAY}", "Ada Chen")
    cashier.to("#/reconciliation/2024-01-09")
    walk.has(cashier, "No closing balance of that day was imported.", "404 NoStatement")
    cashier.to("#/m/000001")
    cashier.press("Close this matter")
    walk.has(cashier, "Close matter 000001 of Ada Chen?")
    cashier.press("Close it for good")
    walk.has(cashier, "The matter holds money, or a payment waits", "409 NotEmpty")
    walk.send(cashier, "#/open", "Open it", matter="9", client="Eve Short", lawyer="lee")
    cashier.press("Close this matter")
    cashier.press("Close it for good")
    walk.has(cashier, "Matter 000009 is closed.", "The records are kept until 2029-01-1")
    walk.lacks(cashier, "Purge")
    ada.to("#/m/000001/card")
    walk.has(ada, "LEDGER 000001 Ada Chen", "TOTAL")
    ada.find("details.explained summary")[0].click()
    walk.has(ada, "paid in, and not shown by the bank yet")
    ada.to("#/report/journal")
    walk.has(ada, "Only the cashier reads the firm's reports")
    ada.to("#/m/000003")
    walk.has(ada, "There is no such matter for you.")


def take_back(walk: Walk) -> None:
    """What was proposed by mistake is withdrawn, by the cashier or a lawyer."""
    cashier, lee, ada = walk.cashier, walk.lee, walk.ada
    for each, check in ((cashier, "1105"), (lee, "1106")):
        walk.send(each, "#/m/000001/propose", "Propose it", amount="12.00", payee="Court Clerk", purpose="copies",
                  instrument=check)
        view = each.run("return location.hash")
        ada.to(view)
        walk.has(ada, "waits for a lawyer", "A lawyer of the matter has to approve it.")
        walk.checks.same("the buttons of the client", ada.find("main button"), [])
        each.press("Withdraw it")
        walk.has(each, "Withdrawn: 12.00 to Court Clerk.", "declined by a lawyer, or withdrawn")
        walk.checks.same("the buttons behind it", each.find("main button"), [])
    lee.to("#/")
    walk.lacks(lee, "1105", "1106")


def state_the_account(walk: Walk) -> None:
    """A client's statement of account, by the client; a payment that the bank has long not shown is told."""
    ada = walk.ada
    ada.to("#/m/000001")
    ada.follow("Statement of account")
    walk.checks.same("the title of the form", ada.title(), "Statement of account, Ada Chen")
    ada.press("Show the account")
    walk.has(ada, f"Statement of account of Ada Chen, {DAY} to {DAY}", "ACCOUNT 000001 Ada Chen", "Opening 0.00",
             f"{DAY} M000001-0001 deposit Ada Chen | advance on fees and costs 5,000.00 5,000.00", "Closing 4,565.00",
             "Save as text")
    walk.lacks(ada, "more than 180 days")
    ada.open("#/m/000001/account/2024-01-01/2024-01-31")  # a page that is loaded anew goes by the browser's clock
    walk.has(ada, "Payment 0002 of 435.00 to Clerk of the Superior Court was issued on 2024-01-10, more than 180 days "
             "ago, and the bank has not shown it.", "Closing 4,565.00")
    ada.to("#/m/000001/account/2024-02-01/2024-01-01")
    walk.has(ada, "That is no day of the calendar.", "422 BadField")
    ada.to("#/m/000002/account/2024-01-01/2024-01-31")
    walk.has(ada, "There is no such matter for you.")


def sign_on_as_another(walk: Walk) -> None:
    """One browser, two people: it has one password for the site, so nothing is sent under the other's name."""
    browser = Browser("cashier", walk.firm.origin)
    browser.to("#/m/000001/deposit")
    browser.fill(amount="7", source="Ada Chen", description="costs")
    before = walk.firm.desk.ask("cashier", "GET", "/matters/000001")
    page = browser.web.current_window_handle
    browser.web.switch_to.new_window("tab")
    browser.web.get(walk.firm.origin.replace("//", "//lee:secret-lee@") + "/page/style.css")
    browser.web.switch_to.window(page)
    browser.press("Book it")
    walk.has(browser, "This browser is signed on as lee now.", "Nothing was sent.")
    walk.checks.same("the matter", walk.firm.desk.ask("cashier", "GET", "/matters/000001"), before)
    browser.to("#/m/000001")
    browser.settle()
    walk.checks.so("the page was loaded anew, for lee", "lee" in browser.find("#who")[0].text)
    browser.quit()


def lose_a_seat(walk: Walk) -> None:
    walk.cashier.to("#/m/000003/seats")
    walk.cashier.press("Take the access of lee away")
    walk.cashier.press("Take it away")
    walk.lee.to("#/")
    walk.has(walk.lee, "000001 Ada Chen")
    walk.lacks(walk.lee, "000003")
    walk.cashier.press("Take the access of sato away")
    walk.cashier.press("Take it away")
    walk.has(walk.cashier, "A matter keeps at least one lawyer.", "409 LastLawyer")


def tell_doubts(walk: Walk) -> None:
    """Facts that may mean a mistake are told before anything is booked, and refused by nobody."""
    cashier, desk = walk.cashier, walk.firm.desk
    cashier.to("#/m/000003/deposit")
    cashier.fill(amount="2,500", source="Cleo Marsh", description="advance on costs")
    before = desk.ask("cashier", "GET", "/matters/000003")
    cashier.press_once("Book it")
    walk.has(cashier, f"Entry 0001 of {DAY} is a deposit of 2,500.00 by Cleo Marsh too.", "Is it the same money?")
    walk.checks.same("the matter", desk.ask("cashier", "GET", "/matters/000003"), before)
    for payee in ("Petty cash", "ATM", "CASH or bearer"):
        cashier.to("#/m/000003/propose")
        cashier.fill(amount="900000", payee=payee, purpose="x", instrument="1003")
        cashier.press_once("Propose it")
        walk.has(cashier, f"{payee}: nobody is paid in cash from a trust account.", "is left of that fund now.",
                 "Payment 0003 of matter 000002, 2,000.00, has the number 1003 too. Is it one check?")
    walk.checks.same("the matter behind it", desk.ask("cashier", "GET", "/matters/000003"), before)
    cashier.press_once("Propose it all the same")
    walk.has(cashier, f"Booked on {DAY}: payment of 900,000.00 to CASH or bearer")
    cashier.to("#/open")
    cashier.fill(client="Dee Frost", lawyer="nobody")
    cashier.press_once("Open it")
    walk.has(cashier, "nobody is the lawyer of no other matter.")
    cashier.fill(lawyer="lee")
    walk.lacks(cashier, "nobody is the lawyer", "all the same")
    cashier.press_once("Open it")
    walk.has(cashier, "Dee Frost", "is open.", "lee (lawyer)")
    cashier.to("#/m/000002/seats")
    cashier.fill(person="leee", role="lawyer")
    cashier.press_once("Give access")
    walk.has(cashier, "leee is the lawyer of no other matter.", "Give access all the same")
    cashier.fill(role="client")
    cashier.press_once("Give access")
    walk.has(cashier, "leee has access as client.")


def be_turned_away(walk: Walk) -> None:
    """What may have been booked is kept until the desk itself answers; what a front end refuses at once is not."""
    cashier, relay = walk.cashier, walk.firm.relay
    for status, told in ((429, "Too much was asked at once."), (403, "The front end refused this.")):
        cashier.to("#/m/000003/deposit")
        cashier.fill(amount=f"{status}", source="Cleo Marsh", description="turned away")
        relay.fail("POST .*/deposit", Fault("told", status, "{}"))
        cashier.press("Book it")
        walk.has(cashier, told)
        cashier.to("#/m/000003")
        walk.lacks(cashier, "Sent, and not answered")
        cashier.to("#/m/000003/deposit")
        cashier.fill(amount=f"{status}", source="Cleo Marsh", description="turned away")
        relay.fail("POST .*/deposit", Fault("lost"))
        relay.fail("POST .*/deposit", Fault("told", status, "{}"), times=2)
        cashier.press("Book it")
        walk.has(cashier, told)
        cashier.press("Send again")
        walk.has(cashier, told)
        cashier.to("#/m/000003")
        walk.has(cashier, "Sent, and not answered", f"deposit of {status}.00")
        cashier.press("Send again")
        walk.has(cashier, f"This was in the book already, and is there once: deposit of {status}.00")
        walk.lacks(cashier, "Sent, and not answered")
    entries = json.loads(walk.firm.desk.ask("cashier", "GET", "/matters/000003/entries")[1])["entries"]
    walk.checks.same("the deposits that were turned away first",
                     [each["amount"] for each in entries if each.get("description") == "turned away"],
                     ["429.00", "403.00"])


CHAPTERS = (open_matters, book_deposits, approve_too_early, bring_statements, dispute_a_fee, accept_an_offer,
            pay_from_funds, two_at_once, lose_an_answer, find_the_desk_closed, be_answered_late, keep_nothing,
            write_spiteful_labels, read_and_close, take_back, state_the_account, sign_on_as_another, tell_doubts,
            be_turned_away, lose_a_seat)


def play(program: str, folder: pathlib.Path, checks: Checks) -> None:
    """All of it, in order."""
    firm = Firm(Desk(program, folder / "book.db", DAY), folder / "front")
    walk = Walk(firm, folder, checks)
    try:
        for chapter in CHAPTERS:
            chapter(walk)
    finally:
        walk.close()
        firm.end()
