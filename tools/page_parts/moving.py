"""A firm with clients' money moves in by the page alone, as the tutorial's chapter has it by commands; then its first
bank's file, a wire that is booked late, a statement that is missing, and five years later a purge."""
import pathlib
import subprocess

from .browser import Browser
from .checks import Checks
from .firm import HEAD, ROOT, Desk, Firm
from .matching import Bank
from .records import choose

CUT_OVER, FIRST_STATEMENT, LATER, LAST = "2026-06-30", "2026-07-15", "2026-08-03", "2031-08-04"
LISTS = ROOT / "examples" / "moving-in"
SCRIPT = ROOT / "examples" / "operations" / "moving-in"
WIRE = HEAD + "2026-07-31,,20260731009,812.50,WIRE TRN 20260731004417\n2026-07-31,CLOSE,,30663.00,Closing balance\n"
BROKEN = HEAD + "2026-08-01,OPEN,,30000.00,Opening balance\n2026-08-03,CLOSE,,30663.00,Closing balance\n"
AGREE = "Bank, journal and ledgers agree."


class Moving:
    """The firm, its cashier and lawyers, and what was made of the old books."""

    def __init__(self, firm: Firm, folder: pathlib.Path, checks: Checks) -> None:
        self.firm, self.folder, self.checks = firm, folder, checks
        self.cashier, self.lee, self.sato = (Browser(person, firm.origin) for person in ("cashier", "lee", "sato"))
        self.bank = Bank(firm, folder, checks, self.cashier)
        lists = [str(LISTS / name) for name in ("balances.csv", "outstanding.csv", "transit.csv")]
        subprocess.run([str(SCRIPT), "--day", CUT_OVER, "--bank", "29785.50", *lists, str(folder / "moved")],
                       stdout=subprocess.DEVNULL, check=True)

    def has(self, browser: Browser, *words: str) -> None:
        self.checks.has(f"{browser.person} sees", browser.text(), words)

    def moved(self, name: str) -> str:
        return (self.folder / "moved" / name).read_text(encoding="utf-8")

    def send_records(self, name: str) -> None:
        text = self.moved(name)
        count = len(text.splitlines())
        choose(self.cashier, self.folder, text)
        self.cashier.press(f"Send these {count}")
        self.has(self.cashier, f"{count} of {count} records were answered, 0 refused.")

    def approve(self, lawyer: Browser, matter: str, entry: str, amount: str) -> None:
        lawyer.to(f"#/m/{matter}/e/{entry}")
        lawyer.press(f"Approve {amount}")
        self.has(lawyer, f"Approved: {amount}")

    def bring(self, name: str, text: str, counts: str, *found: str) -> None:
        """Matches a file and imports what would be imported."""
        self.bank.choose(name, text)
        self.bank.has(counts)
        self.cashier.press("Import these")
        self.bank.has(f"{name} was imported.", *found)
        self.bank.put_away()

    def go_on(self, day: str) -> None:
        """The desk is closed, and opened on another day."""
        self.firm.desk.end()
        self.firm.desk.day = day
        self.firm.desk.begin()

    def close(self) -> None:
        for each in (self.cashier, self.lee, self.sato):
            self.checks.same(f"the log of {each.person}", each.faults(), [])
            each.quit()


def move_in(moving: Moving) -> None:
    moving.send_records("sheet.csv")
    moving.bring("statement.csv", moving.moved("statement.csv"),
                 "9 lines would be imported, 0 in the book already, 0 to be looked at.",
                 "Lines that found their place\n9", "Match nothing (exceptions)\n0")
    moving.lee.open("")
    moving.has(moving.lee, "Clerk of the Superior Court", "Dan Quill")
    moving.approve(moving.lee, "000001", "0002", "435.00")
    moving.approve(moving.lee, "000004", "0002", "400.00")
    moving.sato.to("#/m/000005/fee")
    moving.sato.fill(amount="600", description="fee, invoice 733")
    moving.sato.press("Record it")
    moving.send_records("fees.csv")
    moving.approve(moving.sato, "000005", "0003", "600.00")
    moving.cashier.to(f"#/reconciliation/{CUT_OVER}")
    moving.has(moving.cashier, AGREE, "The bank\u2019s closing balance 29,785.50", "Together 1,500.00",
               "Together -1,435.00", "4101")


def bring_first_statement(moving: Moving) -> None:
    """A line from before the day stays left."""
    moving.go_on(FIRST_STATEMENT)
    text = (LISTS / "bank.csv").read_text(encoding="utf-8")
    moving.bank.choose("bank.csv", text)
    moving.bank.has("6 lines would be imported, 0 in the book already, 1 to be looked at.",
                    "DEPOSIT CHECK 2207 F STONE")
    moving.cashier.press("Leave it")
    moving.bank.has("Left. It is not imported.")
    moving.cashier.press("Import these")
    moving.bank.has("Lines that found their place\n5", "Were there already\n1", "Match nothing (exceptions)\n0")
    moving.bank.put_away()
    moving.cashier.to("#/reconciliation/2026-07-14")
    moving.has(moving.cashier, AGREE)


def book_a_wire_late(moving: Moving) -> None:
    """What the bank had in July and is booked in August: July's difference is of days alone, and is not green."""
    moving.go_on(LATER)
    moving.cashier.to("#/m/000001/deposit")
    moving.cashier.fill(amount="812.50", source="Oak Mutual", description="settlement, wire 20260731004417")
    moving.cashier.press("Book it")
    moving.bring("july.csv", WIRE, "2 lines would be imported, 0 in the book already, 0 to be looked at.",
                 "Lines that found their place\n2")
    moving.cashier.to("#/reconciliation/2026-07-31")
    moving.has(moving.cashier, "Bank and journal differ by days alone", "Early lines 812.50", "Gap 0.00")
    moving.checks.same("the green boxes", moving.cashier.find(".box.done"), [])


def miss_a_statement(moving: Moving) -> None:
    """An opening balance that is not the closing one before is told at the top."""
    moving.bring("august.csv", BROKEN, "2 lines would be imported, 0 in the book already, 0 to be looked at.")
    for view in (f"#/reconciliation/{LATER}", f"#/month/{LATER}"):
        moving.cashier.to(view)
        moving.has(moving.cashier, "It opens with 30,000.00 on 2026-08-01, after a closing balance of 30,663.00 on "
                   "2026-07-31.")
        first = moving.cashier.find("main .box")[0].text
        moving.checks.so(f"it is told first in {view}", first.startswith("A statement does not begin where"), first)


def close_and_purge(moving: Moving) -> None:
    """Purging is offered once it may be, and asks for the number."""
    cashier = moving.cashier
    cashier.to("#/m/000004")
    cashier.press("Close this matter")
    cashier.press("Close it for good")
    moving.has(cashier, "Matter 000004 is closed.", "The records are kept until 2031-08-03.")
    moving.go_on(LAST)
    cashier.to("#/m/000004")
    moving.has(cashier, "Purge the records", "Print the accounting first.")
    cashier.fill(again="000005")
    cashier.press("Purge")
    moving.has(cashier, "Type 000004.", "Dan Quill")
    cashier.fill(again="000004")
    cashier.press("Purge")
    moving.has(cashier, "Matter 000004 was purged.", "No matter is closed.")
    cashier.to("#/m/000004")
    moving.has(cashier, "This matter's records were taken away after their five years.", "410 Purged")


CHAPTERS = (move_in, bring_first_statement, book_a_wire_late, miss_a_statement, close_and_purge)


def play(program: str, folder: pathlib.Path, checks: Checks) -> None:
    firm = Firm(Desk(program, folder / "book.db", CUT_OVER), folder / "front")
    moving = Moving(firm, folder, checks)
    try:
        for chapter in CHAPTERS:
            chapter(moving)
    finally:
        moving.close()
        firm.end()
