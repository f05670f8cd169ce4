"""A firm that stands already, new and without a matter, as the package leaves it: a deposit and a payment are booked,
shown by the bank's own file, approved, paid, and reconciled, by a cashier, two lawyers and a client, who signs off."""
import datetime
import pathlib
import re
import sys
import typing

from .checks import Checks
from .firm import HEAD, Firm
from .matching import Bank
from .walk import Walk, deposit

MATTER = "000001"
CLERK = "Clerk of the Superior Court"


class Standing(typing.NamedTuple):
    """All that is known of it: where it is asked."""

    origin: str


def today(walk: Walk) -> datetime.date:
    """The desk's day. Where the firm has matters, or money, nothing is done."""
    walk.cashier.to("#/report/trial-balance")
    empty = re.search(r"TRIAL BALANCE (\S+)\nFIRM +0\.00\nTOTAL +0\.00$", walk.cashier.text(), re.M)
    if not empty:
        sys.exit("page: this firm is not new")
    return datetime.date.fromisoformat(empty[1])


def open_a_matter(walk: Walk) -> None:
    walk.send(walk.cashier, "#/open", "Open it", client="Ada Chen", lawyer="lee")
    walk.send(walk.cashier, f"#/m/{MATTER}/seats", "Give access", person="ada", role="client")
    for each in (walk.cashier, walk.lee, walk.ada):
        each.to(f"#/m/{MATTER}")
        walk.checks.same(f"what {each.person} sees", each.title(), f"Matter {MATTER}, Ada Chen")
    walk.sato.to(f"#/m/{MATTER}")
    walk.has(walk.sato, "There is no such matter for you.")


def book(walk: Walk) -> None:
    """A deposit that the bank has not shown yet pays nobody."""
    deposit(walk, MATTER, "5,000", "Ada Chen", "advance on costs, check 2291")
    walk.has(walk.cashier, f"deposit of 5,000.00, entry 0001 of matter {MATTER}", "held: the bank has not shown it yet")
    walk.send(walk.cashier, f"#/m/{MATTER}/propose", "Propose it", amount="435.00", payee=CLERK, purpose="filing fee",
              instrument="1001")
    walk.has(walk.cashier, "waits for a lawyer")
    walk.lee.to("#/")
    walk.has(walk.lee, CLERK)
    walk.lee.follow("0002")
    walk.lee.press("Approve 435.00")
    walk.has(walk.lee, "Only 0.00 is there for this.", "409 Short")


def match(walk: Walk, lines: list[tuple[datetime.date, str]]) -> None:
    """The bank's own file, whose lines are all sure, is matched and imported."""
    bank = Bank(walk.firm, walk.folder, walk.checks, walk.cashier)
    bank.choose("bank.csv", HEAD + "".join(f"{day},{words}\n" for day, words in lines))
    bank.has(f"{len(lines)} lines would be imported, 0 in the book already, 0 to be looked at.", "filled")
    walk.cashier.press("Import these")
    bank.has("bank.csv was imported.", f"Lines that found their place\n{len(lines)}")


def approve(walk: Walk) -> None:
    walk.lee.to(f"#/m/{MATTER}/e/0002")
    walk.lee.press("Approve 435.00")
    walk.has(walk.lee, f"Approved: 435.00 to {CLERK}.", "issued: the bank has not shown it yet")


def reconcile(walk: Walk, day: datetime.date) -> None:
    walk.cashier.to(f"#/reconciliation/{day}")
    walk.has(walk.cashier, "Bank, journal and ledgers agree.", "4565.00")
    walk.cashier.follow("month\u2019s end")
    walk.has(walk.cashier, f"Month\u2019s end of {day}", "Together 4,565.00", "SHA-256 of the packet")
    walk.cashier.to("#/report/exceptions")
    walk.lacks(walk.cashier, "Dismiss")
    walk.lee.to(f"#/m/{MATTER}/e/0002")
    walk.has(walk.lee, "cleared by the bank")
    walk.ada.to(f"#/m/{MATTER}")
    walk.has(walk.ada, "Available\n4,565.00", CLERK)
    walk.ada.to(f"#/m/{MATTER}/card")
    walk.has(walk.ada, f"LEDGER {MATTER} Ada Chen", "4565.00")


def sign_off(walk: Walk) -> None:
    """The browser forgets the password, and is shown nothing."""
    walk.ada.open("")
    walk.ada.web.get(f"{walk.firm.origin}/sign-off")
    walk.ada.web.get(f"{walk.firm.origin}/")
    walk.checks.same("what the page shows to who signed off", walk.ada.find("main"), [])


def play(origin: str, folder: pathlib.Path, checks: Checks) -> None:
    walk = Walk(typing.cast(Firm, Standing(origin)), folder, checks)
    try:
        day = today(walk)
        before = day - datetime.timedelta(days=1)
        open_a_matter(walk)
        book(walk)
        match(walk, [(before, "OPEN,,0.00,Opening balance"), (before, ",B1,5000.00,DEPOSIT CHECK 2291 A CHEN"),
                     (before, "CLOSE,,5000.00,Closing balance")])
        approve(walk)
        match(walk, [(day, ",B2,-435.00,CHECK 1001"), (day, "CLOSE,,4565.00,Closing balance")])
        reconcile(walk, day)
        sign_off(walk)
    finally:
        walk.close()
