"""What the page asks about and proposes: FIRM where an entry of that amount waits or the book has such a line, which
deposit a returned check was, the firm under its own name, what a fee's payment is, and the next check's number."""
import pathlib

from .browser import Browser
from .checks import Checks
from .deciding import ask
from .firm import HEAD, Desk, Firm
from .matching import Bank
from .views import look, see

DAY = "2026-07-14"
SHEET = """open,000001,,Ada Chen,lee
deposit,000001,0001,500.00,Ada Chen,"balance of 2026-06-30, moved in"
deposit,000001,0002,5.00,Ada Chen,copies
open,000002,,Bob Ruiz,lee
deposit,000002,0001,500.00,Bob Ruiz,"retainer, check 2291"
deposit,000002,0002,900.00,Bob Ruiz,advance
open,000003,,Cleo Marsh,lee
deposit,000003,0001,500.00,Cleo Marsh,"retainer, check 77"
"""
SHOWN = HEAD + """2026-07-01,M000001-0001,OPENING-000001,500.00,Moved in
2026-07-02,M000002-0001,B1,500.00,DEPOSIT CHECK 2291
2026-07-03,M000002-0002,B2,900.00,DEPOSIT
2026-07-06,M000003-0001,B3,500.00,DEPOSIT CHECK 77
2026-07-03,FIRM,O1,100.00,OWN
2026-07-08,FIRM,O2,-12.00,SERVICE CHARGE
"""
FILE = HEAD + """2026-07-10,,X1,5.00,DEPOSIT
2026-07-08,,X2,-12.00,MONTHLY FEE
2026-07-11,,X3,20.00,DEPOSIT
"""


def line_of(bank: Bank, words: str) -> object:
    return next(each for each in bank.browser.find(".left .line") if words in each.text)


def press_in(bank: Bank, line: object, words: str) -> None:
    found = [each for each in line.find_elements("css selector", "button") if each.text == words]
    assert found, f"no button {words!r} in {line.text!r}"
    found[0].click()
    bank.browser.settle()


def has_no_raw_values(bank: Bank, where: str) -> None:
    bank.checks.same(f"{where}: the values that are no words", see(bank.browser, "rawValues()"), [])


def choose_firm(bank: Bank) -> None:
    """FIRM is taken at once where nothing speaks against it, else it is asked."""
    bank.choose("own.csv", FILE)
    press_in(bank, line_of(bank, "20.00"), "FIRM")
    bank.has("Named here: FIRM.")
    has_no_raw_values(bank, "FIRM")
    press_in(bank, line_of(bank, "5.00 on"), "FIRM")
    bank.has("M000001-0002, Ada Chen, waits for the bank and has exactly this amount.", "FIRM all the same")
    bank.checks.same("what is named before it is sure", bank.browser.text().count("Named here: FIRM"), 1)
    press_in(bank, line_of(bank, "5.00 on"), "Not FIRM")
    bank.lacks("FIRM all the same")
    press_in(bank, line_of(bank, "5.00 on"), "FIRM")
    press_in(bank, line_of(bank, "5.00 on"), "FIRM all the same")
    bank.checks.same("what is named then", bank.browser.text().count("Named here: FIRM"), 2)


def type_firm(bank: Bank) -> None:
    """Typed, it is asked before the file is matched again: the same day and amount is in the book."""
    bank.type(r2="FIRM")
    bank.browser.press("Match again")
    bank.has("Perhaps in the book: the firm\u2019s own lines have this amount of this day already, O2 | SERVICE "
             "CHARGE.", "FIRM all the same")
    look(bank.browser, "what is asked of FIRM", bank.checks)
    press_in(bank, line_of(bank, "-12.00 on"), "FIRM all the same")
    bank.browser.press("Match again")
    bank.has("3 lines would be imported, 0 in the book already, 0 to be looked at.")
    has_no_raw_values(bank, "FIRM, matched again")
    bank.put_away()


def find_the_return(bank: Bank) -> None:
    """The deposit whose number the bank has stands first and is marked, an opening balance last; the others stay."""
    ask(bank, "cashier", "/matters/000003/entries/0002/propose", amount="400.00", **{"from": "general"},
        payee="Court Clerk", purpose="filing fee", instrument="1001")
    ask(bank, "lee", "/matters/000003/entries/0002/approve")
    bank.choose("return.csv", HEAD + "2026-07-13,,R1,-500.00,DEPOSITED ITEM RETURNED NSF CHECK 2291\n")
    rows = [each.text for each in bank.browser.find(".left tbody tr")]
    bank.checks.same("the deposits that it may take back", [row.split()[0] for row in rows],
                     ["M000002-0001", "M000003-0001", "M000001-0001"])
    bank.checks.has("the first of them", " ".join(rows[:1]), ("Bob Ruiz", "retainer, check 2291",
                                                              "the bank\u2019s words have its number 2291"))
    bank.checks.has("the second of them", " ".join(rows[1:2]), ("Cleo Marsh", "only 100.00 is available there"))
    bank.checks.lacks("the others", " ".join(rows[1:]), ("the bank\u2019s words have its number",))
    look(bank.browser, "a returned check", bank.checks)
    use = bank.browser.find('button[aria-label="Use M000003-0001 for record 1"]')
    use[0].click()
    bank.browser.press("Match again")
    bank.has("Named here: M000003-0001", "To be looked at: 0; decided here: 1")
    bank.browser.find(".left summary")[0].click()
    rows = [each.text for each in bank.browser.find(".left tbody tr")]
    bank.checks.same("how many stay reachable", len(rows), 3)
    bank.browser.find('button[aria-label="Use M000002-0001 for record 1"]')[0].click()
    bank.browser.press("Match again")
    bank.browser.press("Import these")
    bank.has("Lines that found their place\n1")
    bank.checks.same("what it took back", bank.state("M000002-0001"), "returned")


def value_of(bank: Bank, name: str) -> str:
    return str(bank.browser.find(f'[name="{name}"]')[0].get_attribute("value"))


def pay_a_fee(bank: Bank) -> None:
    """Amount and purpose are those of the fee, the check's number the next one."""
    ask(bank, "lee", "/matters/000002/entries/0003/fee", amount="125.00", description="work in June")
    ask(bank, "cashier", "/matters/000002/entries/0004/propose", amount="10.00", **{"from": "general"},
        payee="Court Clerk", purpose="copies", instrument="1007")
    ask(bank, "cashier", "/matters/000002/entries/0005/propose", amount="10.00", **{"from": "general"},
        payee="Bay Clinic", purpose="records", instrument="wire 7712044")
    bank.browser.to("#/m/000002/propose/fee/0003")
    bank.browser.settle()
    for name, value in (("amount", "125.00"), ("payee", "FIRM"), ("purpose", "work in June"), ("instrument", "1008")):
        bank.checks.same(f"the field {name}", value_of(bank, name), value)
    bank.browser.fill(from_="general")
    for name, value in (("amount", ""), ("payee", ""), ("purpose", "")):
        bank.checks.same(f"the field {name} of the general fund", value_of(bank, name), value)
    bank.browser.fill(amount="7", purpose="parking", from_="fee 0003")
    bank.checks.same("what was typed", (value_of(bank, "amount"), value_of(bank, "purpose")), ("7", "parking"))
    bank.browser.to("#/m/000002/propose/fee/0003")
    bank.browser.settle()
    bank.browser.press_once("Propose it")
    bank.has("payment of 125.00 to FIRM, entry 0006 of matter 000002", "1008")


def pay_the_firm(bank: Bank) -> None:
    """The general fund never pays the firm: also not by its own name, which is asked, and told to the lawyer."""
    bank.browser.to("#/m/000002/propose")
    bank.browser.settle()
    bank.browser.fill(amount="10", payee="lee and sato", purpose="fees", instrument="1010")
    bank.browser.press_once("Propose it")
    bank.has("lee and sato is the firm, by its name, and the general fund is the client\u2019s money.",
             "Propose it all the same")
    bank.browser.press_once("Propose it all the same")
    lee = Browser("lee", bank.firm.origin)
    lee.to("#/m/000002/e/0007")
    lee.settle()
    bank.checks.has("the lawyer sees", lee.text(), ("is the firm, by its name",))
    lee.to("#/m/000002/propose")
    lee.settle()
    bank.checks.same("a lawyer, who sees no other's checks, is proposed no number",
                     lee.find('[name="instrument"]')[0].get_attribute("value"), "")
    bank.checks.same("the log of lee", lee.faults(), [])
    lee.quit()
    bank.browser.to("#/m/000002/propose")
    bank.browser.settle()
    bank.browser.fill(amount="10", payee="Lee", purpose="witness", instrument="1011")
    bank.browser.press_once("Propose it")
    bank.has("payment of 10.00 to Lee, entry 0008")


CSV = "Posted,Amount,Text\n07/10/2026,20.00,DEPOSIT\n"
SAVED = """const made = URL.createObjectURL;
URL.createObjectURL = (blob) => {
    blob.text().then((text) => { window.saved = text; });
    return made.call(URL, blob);
};"""


def share_columns(bank: Bank) -> None:
    """The columns that one browser was told are saved, and known to another one by the firm's file."""
    bank.put_away()
    bank.choose("other.csv", CSV)
    bank.has("The page does not know this bank\u2019s columns yet.")
    bank.browser.press("Take it and match")
    bank.put_away()
    bank.browser.to("#/")
    bank.browser.to("#/statement")
    bank.browser.settle()
    bank.browser.run(SAVED)
    bank.browser.press("Save the bank\u2019s columns")
    saved = str(bank.browser.run("return window.saved"))
    bank.checks.so("the columns are saved", saved.startswith("columns ["), saved)
    firm_file = bank.firm.front.folder / "office.txt"
    text = firm_file.read_text(encoding="utf-8")
    firm_file.write_text(text + saved + "columns of no sense\n", encoding="utf-8")
    browser = Browser("cashier", bank.firm.origin)
    other = Bank(bank.firm, bank.folder, bank.checks, browser)
    other.choose("other.csv", CSV)
    other.has("The columns are as you told them for the last file with this heading.")
    bank.checks.lacks("the print does not have", str(browser.run("return document.getElementById('firm').textContent")),
                      ("columns",))
    bank.checks.same("the other browser's log", browser.faults(), [])
    browser.quit()
    firm_file.write_text(text, encoding="utf-8")


CHAPTERS = (choose_firm, type_firm, find_the_return, pay_a_fee, pay_the_firm, share_columns)


def play(program: str, folder: pathlib.Path, checks: Checks) -> None:
    desk = Desk(program, folder / "book.db", DAY)
    desk.run("sheet", text=SHEET)
    (folder / "shown.csv").write_text(SHOWN, encoding="utf-8")
    desk.run("import", str(folder / "shown.csv"))
    firm = Firm(desk, folder / "front")
    browser = Browser("cashier", firm.origin)
    bank = Bank(firm, folder, checks, browser)
    try:
        for chapter in CHAPTERS:
            try:
                chapter(bank)
            except (AssertionError, IndexError, StopIteration) as fault:  # what it looks for is not there
                checks.so(f"{chapter.__name__} goes to its end", False, fault)
        checks.same("the browser's log", browser.faults(), [])
    finally:
        browser.quit()
        firm.end()
