"""The bank's own file, matched: what the page shows of it, what is typed into it, and what becomes of it where the
desk is away, where it refuses, and where the bank's words look like something else."""
import csv
import io
import json
import pathlib
import typing

from selenium.webdriver.common.keys import Keys

from .browser import PHONE, Browser
from .checks import Checks
from .firm import HEAD, Desk, Fault, Firm
from .views import NARROW, look, see

DAY = "2026-03-16"
SMALL = 700  # a window, in which a table is still one
SHEET = """open,000001,,Ada Chen,lee
open,000002,,Bob Ruiz,sato
open,000003,,Cleo Marsh,lee
deposit,000001,0001,5000.00,Ada Chen,"advance on fees and costs, check 2291"
deposit,000002,0001,18000.00,"Harbor Mutual, claims office","settlement, check 90417"
deposit,000003,0001,2500.00,Cleo Marsh,advance on costs
deposit,000003,0002,1200.00,Dana Marsh,"advance on costs, check 5530"
open,000004,,<img src=x onerror=alert(1)>,lee
deposit,000004,0001,77.00,<img src=x onerror=alert(2)>,"costs, check 7777"
deposit,000004,0002,31.00,F\u0406RM \u202ex,costs
"""

# The file of the tutorial: three lines are sure, three are not.
MARCH = HEAD + """2026-03-02,OPEN,,0.00,Opening balance
2026-03-03,,202603030112,100.00,DEPOSIT
2026-03-04,,202603040875,5000.00,DEPOSIT CHECK 2291 A CHEN
2026-03-05,,202603050341,18000.00,DEPOSIT CHECK 90417 HARBOR MUTUAL
2026-03-11,,202603110560,2500.00,DEPOSIT CHECK 118 C MARSH
2026-03-12,,202603120204,1200.00,DEPOSIT CHECK 5530 D MARSH
2026-03-13,,202603130009,-12.00,SERVICE CHARGE
2026-03-16,CLOSE,,26788.00,Closing balance
"""
SURE = ["M000001-0001", "M000002-0001", "M000003-0002"]

# Lines that look like something else: HTML, a reason, the next line that is told, a text that is turned around.
SPITEFUL = HEAD + """2026-03-13,,X1,1.00,<img src=x onerror=alert(1)>: no entry of its amount
2026-03-13,,X2,2.00,"two lines\nrecord 9, 2026-03-13 9.00 y: nothing"
2026-03-13,,X3,3.00,"a\u202egpj.exe, ""quoted"" \u2028 and more"
2026-03-13,,X4,31.00,ONLINE
garbage
2026-03-13,,X6,6.00,
"""
NONE_LEFT = HEAD + "2026-03-15,,Y1,77.00,DEPOSIT CHECK 7777\n"


class Bank:
    """The cashier's browser, and the bank's files."""

    def __init__(self, firm: Firm, folder: pathlib.Path, checks: Checks, browser: Browser) -> None:
        self.firm, self.folder, self.checks, self.browser = firm, folder, checks, browser

    def has(self, *words: str) -> None:
        self.checks.has(f"{self.browser.person} sees", self.browser.text(), words)

    def lacks(self, *words: str) -> None:
        self.checks.lacks(f"{self.browser.person} does not see", self.browser.text(), words)

    def choose(self, name: str, text: str | bytes, button: str = "Match") -> None:
        """Chooses a file of the bank's in a view that is drawn anew, and presses a button."""
        path = self.folder / name
        path.write_bytes(text if isinstance(text, bytes) else text.encode())
        self.browser.to("#/statement")
        self.browser.settle()
        self.browser.find("#file")[0].send_keys(str(path))
        self.browser.press(button)

    def type(self, **references: str) -> None:
        """Types references into the fields of records: `r5="FIRM"`."""
        for name, words in references.items():
            self.browser.fill(**{f"reference-{name[1:]}": words})

    def put_away(self) -> None:
        self.browser.to("#/statement")
        self.browser.settle()
        if "Put it away" in self.browser.text():
            self.browser.press("Put it away")

    def state(self, reference: str) -> str:
        """What the desk has of an entry."""
        path = f"/matters/{reference[1:7]}/entries/{reference[8:]}"
        return str(json.loads(self.firm.desk.ask("cashier", "GET", path)[1])["state"])

    def imported(self) -> list[list[str]]:
        """The records that the desk was last asked to import, as the relay saw them."""
        return list(csv.reader(io.StringIO(self.firm.relay.imported[-1].decode(), newline="")))[1:]


def match_and_import(bank: Bank) -> None:
    """What is sure goes into the book, and nothing before it is asked for."""
    bank.browser.to("#/statement")
    bank.browser.press("Match")
    bank.has("Choose a file.")
    bank.choose("march.csv", MARCH)
    bank.has("march.csv: 5 lines would be imported, 0 in the book already, 3 to be looked at.",
             "Nothing was imported by this.", "What would be imported", "To be looked at", "Opening balance",
             "DEPOSIT CHECK 118 C MARSH", "nothing in its words tells which entry", "An equal amount does not tell",
             "no entry of its amount", "its words tell of a charge", "march.csv is kept in this browser")
    rows = [row.text for row in bank.browser.find("table:not(.left table) tbody tr")]
    bank.checks.same("the lines that would be imported", len(rows), 5)
    bank.checks.same("those that the desk filled", [row.split()[0] for row in rows if "filled" in row], SURE)
    bank.checks.same("the fields for what is left", [each.get_attribute("name") for each in fields(bank)],
                     ["reference-2", "reference-5", "reference-7"])
    bank.checks.same("what stands in them", [each.get_attribute("value") for each in fields(bank)], ["", "", ""])
    for reference in SURE:
        bank.checks.same(f"{reference} before it is imported", bank.state(reference), "held")
    bank.browser.press("Import these")
    bank.has("march.csv was imported.", "Lines that found their place\n5", f"Closing balance of\n{DAY}",
             "3 in the book already, 3 to be looked at.")
    bank.checks.same("the references that were sent", [record[1] for record in bank.imported()],
                     ["OPEN", *SURE, "CLOSE"])
    for reference in SURE:
        bank.checks.same(f"{reference} behind it", bank.state(reference), "cleared")
    bank.checks.same("an entry of an equal amount", bank.state("M000003-0001"), "held")


def fields(bank: Bank) -> list[typing.Any]:
    return bank.browser.find("form.left .typing input")


def type_what_is_left(bank: Bank) -> None:
    """References are typed into the file that the browser keeps, which outlasts the page and a desk that is away."""
    browser, relay = bank.browser, bank.firm.relay
    bank.type(r5="Cleo")
    browser.press("Match again")
    bank.has("Write FIRM, or an entry's reference")
    bank.checks.same("the focus", browser.focused().get_attribute("name"), "reference-5")
    bank.type(r5="m000003-0001")
    browser.click("form.left button", "FIRM")
    relay.fail("POST .*/match", Fault("closed"))
    browser.press("Match again")
    bank.has("The desk is not open.", "The file is kept in this browser")
    browser.open("#/statement")
    browser.settle()
    bank.has("march.csv is kept in this browser", "named here", "Decided here. It would be imported so.",
             "1 to be looked at.")
    bank.checks.same("what was typed", [each.get_attribute("value") for each in fields(bank)],
                     ["FIRM", "m000003-0001", ""])
    browser.follow("M000003-0001")
    bank.checks.same("where a reference leads", browser.title(), "Deposit 0001 of matter 000003, Cleo Marsh")
    browser.web.back()
    browser.settle()
    bank.checks.same("what was typed, as one comes back", len(fields(bank)), 3)
    bank.type(r7="FIRM")
    fields(bank)[-1].send_keys(Keys.ENTER)
    browser.settle()
    bank.has("5 lines would be imported, 3 in the book already, 0 to be looked at.")


def import_what_is_left(bank: Bank) -> None:
    """An answer that is lost, and what is imported twice."""
    browser, relay = bank.browser, bank.firm.relay
    relay.fail("POST /firm/statements$", Fault("lost"))
    browser.press("Import these")
    bank.has("The desk is not open.", "The file is kept in this browser")
    bank.checks.same("it was done", bank.state("M000003-0001"), "cleared")
    browser.press("Match again")
    browser.press("Import these")
    bank.has("march.csv was imported.", "Lines that found their place\n0", "Were there already\n5")
    bank.lacks("march.csv is kept in this browser", "To be looked at")
    bank.checks.same("the references that were sent", [record[1] for record in bank.imported()],
                     ["OPEN", "FIRM", "M000003-0001", "FIRM", "CLOSE"])
    browser.to(f"#/reconciliation/{DAY}")
    bank.has("Bank, journal and ledgers agree.")
    browser.to("#/statement")
    bank.checks.same("what is kept behind it", browser.run("return Object.keys(localStorage).filter("
                                                           "(name) => /file|typed/.test(name))"), [])


def change_the_book_meanwhile(bank: Bank) -> None:
    """What is imported is what was shown: an entry that is cancelled between the two is not."""
    bank.choose("april.csv", NONE_LEFT)
    bank.has("1 line would be imported, 0 in the book already, 0 to be looked at.", "filled")
    bank.firm.desk.ask("cashier", "POST", "/matters/000004/entries/0001/cancel")
    before = len(bank.firm.relay.imported)
    bank.browser.press("Import these")
    bank.has("The book has changed since this was matched.", "0 lines would be imported", "1 to be looked at.")
    bank.checks.same("how often it was imported", len(bank.firm.relay.imported), before)
    bank.put_away()
    bank.has("The file is kept no more.")
    bank.lacks("april.csv is kept in this browser")


def name_a_wrong_entry(bank: Bank) -> None:
    """A line that names what is not there is told before it is imported, and is mended in its field."""
    line = "2026-03-14,M000002-0010,Z1,18000.00,DEPOSIT\n"
    bank.choose("wrong.csv", HEAD + line)
    bank.has("1 line would be imported, 0 in the book already, 1 to be looked at.",
             "Some of these lines match nothing as they stand", "Import these all the same")
    bank.checks.same("the field has what the file has", fields(bank)[0].get_attribute("value"), "M000002-0010")
    bank.type(r1="FIRM")
    bank.browser.press("Match again")
    bank.has("the firm's own money would be 18,088.00 with it, and stays from 0.00 to 500.00", "all the same")
    bank.type(r1="M000004-0002")
    bank.choose("wrong.csv", HEAD + line.replace("18000.00", "31.00"))
    bank.type(r1="M000004-0002")
    bank.browser.press("Match again")
    bank.has("1 line would be imported, 0 in the book already, 0 to be looked at.")
    bank.lacks("all the same")
    bank.put_away()


def bring_in_as_it_is(bank: Bank) -> None:
    """Of a file with empty references it is asked twice: its lines would be exceptions."""
    before = len(bank.firm.relay.imported)
    bank.choose("raw.csv", NONE_LEFT, "Import as it is")
    bank.has("Lines without a reference: 1.", "Match the file first.")
    bank.checks.same("how often it was imported", len(bank.firm.relay.imported), before)
    bank.firm.relay.fail("POST /firm/statements$", Fault("closed"))
    bank.browser.press("Import them as exceptions")
    bank.has("The desk is not open.", "raw.csv is kept in this browser")
    bank.put_away()


FULL = """const set = Storage.prototype.setItem;
Storage.prototype.setItem = function (name, text) {
    if (name.endsWith('.file')) throw new Error('full');
    set.call(this, name, text);
};"""


def have_no_room(bank: Bank) -> None:
    """A file that the browser has no room for leaves none, and above all not the one before it."""
    bank.choose("raw.csv", NONE_LEFT)
    bank.browser.run(FULL)
    bank.choose("larger.csv", HEAD + "2026-03-14,,Z1,18000.00,DEPOSIT\n")
    bank.type(r1="FIRM")
    bank.browser.press("Match again")
    bank.has("larger.csv", "the firm's own money would be")
    bank.browser.open("#/statement")
    bank.browser.settle()
    bank.lacks("raw.csv", "larger.csv", "is kept in this browser")


SLIPS = HEAD + """2026-03-14,M000030-0001,S1,7.00,DEPOSIT
2026-03-14,,S2,8.00,
2026-03-14,A SLIP,S3,9.00,x
2026-03-14,M000004-0003,S4,13.00,"two, ""marks"" more"
"""


def see_exceptions(bank: Bank) -> None:
    """Each with its reason, or as printed alone where the desk is away meanwhile; one that would be applied now says
    so."""
    desk, relay = bank.firm.desk, bank.firm.relay
    desk.ask("cashier", "POST", "/firm/statements", body=SLIPS)
    slips = ("A slip in a file", "Dismiss M000030-0001", "Dismiss the line of 8.00", "Dismiss the line of 9.00",
             "the book has no matter of its reference", "it has no reference", "its reference names no entry",
             "the book has no entry of its reference")
    relay.fail("GET /firm/exceptions/reasons", Fault("closed"))
    bank.browser.to("#/report/exceptions")
    bank.browser.settle()
    bank.has("M000030-0001 S1 7.00", "The desk is not open.")
    bank.lacks(*slips)
    bank.browser.to("#/report/exceptions")
    bank.browser.settle()
    bank.has(*slips)
    bank.lacks("it would be applied now")
    desk.ask("cashier", "POST", "/matters/000004/entries/0003/deposit",
             body='{"amount":"13.00","source":"Ada Chen","description":"costs"}')
    bank.browser.to("#/report/exceptions")
    bank.has("it would be applied now; import the same file again")
    look(bank.browser, "the exceptions", bank.checks)
    for width in (SMALL, PHONE, NARROW):
        small = Browser("cashier", bank.firm.origin, width)
        small.to("#/report/exceptions")
        bank.checks.same(f"what stands aside of the exceptions at {width} px", see(small, "widthAside()"), 0)
        small.quit()


def take_a_slip_back(bank: Bank) -> None:
    """Exceptions that the bank does not have are dismissed, asked twice, whatever their references are."""
    bank.browser.press("Dismiss M000030-0001")
    bank.has("Only where the bank does not have this line.")
    bank.browser.press("Keep it")
    bank.lacks("Only where the bank does not have this line.")
    for name in ("Dismiss M000030-0001", "Dismiss the line of 8.00", "Dismiss the line of 9.00"):
        bank.browser.press(name)
        bank.browser.press("The bank does not have it: dismiss it")
        bank.has("The line is no exception any more.")
        bank.lacks(name)
    # Another cashier dismisses the last one meanwhile.
    bank.browser.press("Dismiss M000004-0003")
    line = {"date": "2026-03-14", "reference": "M000004-0003", "bank_ref": "S4", "amount": "13.00",
            "text": 'two, "marks" more'}
    bank.firm.desk.ask("cashier", "POST", "/firm/exceptions/dismiss", json.dumps(line))
    bank.browser.press("The bank does not have it: dismiss it")
    bank.has("The list of exceptions has no such line.", "404 NoEntry")
    bank.lacks("Dismiss M000004-0003")
    left = bank.firm.desk.ask("cashier", "GET", "/firm/exceptions")[1]
    slips = [slip for slip in ("S1", "S2", "S3", "S4") if f" {slip} " in left]
    bank.checks.same("the slips that are left", slips, [])
    trail = Browser("cashier", bank.firm.origin)
    trail.to("#/report/trail")
    trail.settle()
    bank.checks.has("the trail has", trail.text(), ("cashier dismissed the exception", "- cashier DISMISSED"))
    trail.quit()


def see_spiteful_words(bank: Bank) -> None:
    """Whatever the bank or a client wrote is shown as a text, and is in no other line's place."""
    bank.choose("spite.csv", SPITEFUL)
    bank.has("<img src=x onerror=alert(1)>: no entry of its amount", "\u2039U+202E\u203agpj.exe, \"quoted\"",
             "letters of two alphabets", "not readable", "garbage", "no line of a statement", "mend it in the file")
    why = [" ".join(each.text for each in row.find_elements("css selector", ":scope > p")[1 if at < 4 else 0:])
           for at, row in enumerate(bank.browser.find(".left .line"))]
    bank.checks.same("the records whose reasons are told apart from the bank's words",
                     [at for at, words in enumerate(why) if words.startswith("no entry of its amount")], [0, 1, 2, 5])
    bank.checks.same("the pictures made", bank.browser.find("img"), [])
    bank.checks.same("the fields", [each.get_attribute("name") for each in fields(bank)],
                     [f"reference-{each}" for each in (1, 2, 3, 4, 6)])
    bank.type(r1="F\u0406RM")
    bank.browser.press("Match again")
    bank.has("Write FIRM, or an entry's reference")
    bank.put_away()
    # A byte that is no UTF-8 goes there and back as it is.
    before = len(bank.firm.relay.imported)
    bank.choose("latin.csv", (HEAD + "2026-03-14,FIRM,L1,1.00,caf").encode() + b"\xe9\r\n")
    bank.has("1 line would be imported")
    bank.browser.press("Import these")
    bank.checks.same("the byte that was sent", b"caf\xe9" in b"".join(bank.firm.relay.imported[before:]), True)
    bank.put_away()


ENTRY = {"reference": "M000001-0001", "state": "held", "day": "2026-03-12", "bank_ref": None, "party": "Ada",
         "amount": "5.00"}
ENTRIES = {"count": 1, "listed": [ENTRY]}
HELD = "M000001-0001 held 2026-03-12 Ada"

# Reasons as the desk has them, and the words and the advice for each; a name that the page does not know is shown.
LEFT = (
    ({"name": "NoneOfItsAmount"}, "no entry of its amount", "Book what is missing"),
    ({"name": "Together", "day": "2026-03-12", "entries": ENTRIES},
     f"no entry of its amount; the deposits of 2026-03-12 are together its amount: {HELD}",
     "If the slip has these, use them."),
    ({"name": "Claimed", "reference": "M000001-0001"}, "it shows M000001-0001, which another record names",
     "The bank shows an entry once."),
    ({"name": "OfAnotherAmount", "entries": {"count": 7, "listed": [ENTRY]}},
     f"it shows an entry of another amount: {HELD} 5.00; and 6 more", "Then split the line."),
    ({"name": "OfAnotherAmount", "entries": {"count": 1, "listed": [{**ENTRY, "state": "issued", "amount": "-5.00"}]}},
     "it shows an entry of another amount: M000001-0001 issued 2026-03-12 Ada -5.00", "have the payment voided"),
    ({"name": "Shared", "records": {"count": 2, "listed": [6, 16]}, "reference": "M000001-0001"},
     "records 6 and 16 show M000001-0001", "The bank shows an entry once."),
    ({"name": "IsException", "entries": {"count": 0, "listed": []}, "exceptions": {"count": 1, "listed": [
        {"entry": {**ENTRY, "state": "cleared", "bank_ref": "B2"}, "misfit": "NotWaiting",
         "reference": "M000001-0001"}]}},
     "it is an exception under M000001-0001 (not waiting for the bank: cleared 2026-03-12 B2 Ada); dismiss takes an "
     "exception away", "It was imported before"),
    ({"name": "what nobody has told yet"}, "what nobody has told yet", ""),
)


def advise(bank: Bank) -> None:
    """What the page's own module says of reasons that no file here has."""
    script = ("import('/page/reasons.js').then(({ adviceOn, whyLeft }) => done([adviceOn(arguments[0]), "
              "whyLeft(arguments[0]).flat(Infinity).filter(Boolean).map((part) => part.textContent ?? part)"
              ".join('')]), String)")
    for reason, words, advice in LEFT:
        told = bank.browser.wait(script, reason)
        bank.checks.same(f"why a line with the reason {reason} is left", told[1], words)
        is_so = advice in told[0] if advice else not told[0]
        bank.checks.so(f"the advice on {words!r} has {advice!r}, or is none", is_so, told[0])


# Reasons of exceptions as the desk has them, and the words for each; a name that the page does not know is shown.
WHY = (
    ({"name": "Applies"}, "it would be applied now; import the same file again"),
    ({"name": "Repeat"}, "the book has it already; import the same file again, and it is no exception any more"),
    ({"name": "Stray"}, "its reference names no entry"),
    ({"name": "Future"}, "it is dated after the business day"),
    ({"name": "NoMatter"}, "the book has no matter of its reference"),
    ({"name": "NoEntry"}, "the book has no entry of its reference"),
    ({"name": "WrongKind", "kind": "fee"}, "its reference is that of a fee, which no line of the bank clears"),
    ({"name": "WrongState", "state": "voided"}, "its reference is that of an entry that is voided"),
    ({"name": "WrongAmount", "amount": "5000.00"}, "its reference is that of an entry of another amount, 5,000.00"),
    ({"name": "Uncovered", "available": "430.00"},
     "it takes a deposit back, and only 430.00 is available in the matter"),
    ({"name": "Uncovered", "available": "500.00"},
     "it takes a deposit back, and the business day is before the last day of its matter"),
    ({"name": "Zero"}, "an amount of 0.00 moves nothing"),
    ({"name": "Beyond", "balance": "10.00"},
     "the firm\u2019s own money is 10.00, and would not stay from 0.00 to 500.00 with it"),
    ({"name": "OtherBalance", "kept": "-1000.00"}, "another balance of its kind and day is kept, -1,000.00"),
    ({"name": "constructor"}, "constructor"),
)


def explain(bank: Bank) -> None:
    """What the page's own module says of each reason that the desk has for an exception."""
    script = ("import('/page/reasons.js').then(({ whyException }) => done([whyException(arguments[0])].flat()"
              ".map((part) => part.textContent ?? part).join('')), String)")
    for reason, words in WHY:
        told = bank.browser.wait(script, {"reference": "A SLIP", "amount": "-500.00", "reason": reason})
        bank.checks.same(f"why a line with the reason {reason} is an exception", told, words)


def see_long_files(bank: Bank) -> None:
    """A hundred lines are shown, and all when asked for; the front end takes a statement of this length."""
    lines = "".join(f"2026-03-14,,K{at},{at}.25,CARD {'x' * 40}\n" for at in range(1, 1201))
    bank.choose("long.csv", HEAD + lines)
    bank.has("1200 to be looked at.", "To be looked at: 1200", "100 of 1200 are shown.", "Show all 1200")
    bank.checks.same("the fields at first", len(fields(bank)), 100)
    bank.type(r7="FIRM")
    bank.browser.press("Show all 1200")
    bank.checks.same("the fields when asked for", len(fields(bank)), 1200)
    bank.checks.same("what was typed before", fields(bank)[6].get_attribute("value"), "FIRM")
    bank.put_away()
    bank.choose("large.csv", HEAD + " " * 4_194_304)
    bank.has("The file has more than 4,194,304 bytes")


CHAPTERS = (match_and_import, type_what_is_left, import_what_is_left, change_the_book_meanwhile, name_a_wrong_entry,
            bring_in_as_it_is, have_no_room, see_exceptions, take_a_slip_back, see_spiteful_words, advise,
            explain, see_long_files)

# What the page says of an answer to either route, and whether it keeps the file.
TOO_LARGE = Fault("told", 413, '{"name":"TooLarge","refusal":3}')
HEADER = Fault("told", 422, '{"field":"header","name":"BadField","refusal":7}')
REFUSALS = (
    (TOO_LARGE, "That is too large", False),
    (HEADER, "This is no statement: its first line has to be", False),
    (Fault("told", 403, '{"name":"NotAllowed","refusal":10,"rule":"firm"}'), "Only the cashier reads", True),
    (Fault("told", 404, '{"name":"NoRoute","refusal":4}'), "The desk does not know this path.", True),
    (Fault("told", 429, "{}"), "Too much was asked at once.", True),
    (Fault("told", 503, '{"name":"Store","refusal":29}'), "The disk of the desk failed.", True),
    (Fault("told", 503, '{"name":"Memory","refusal":30}'), "The desk has no room left.", True),
    (Fault("closed"), "The desk is not open.", True),
    (Fault("lost"), "The desk is not open.", True),
    (Fault("late"), "The desk is busy and did not answer in time.", True),
)


def be_refused(bank: Bank) -> None:
    """Each answer in words, and whether the file is kept."""
    bank.put_away()
    for path in ("match", "unmatched"):
        for fault, words, is_kept in REFUSALS:
            bank.firm.relay.fail(f"POST /firm/statements/{path}", fault)
            bank.choose("march.csv", MARCH)
            what = f"{path}, {fault.kind} {fault.status}"
            text = bank.browser.text()
            bank.checks.so(f"{what} is told as {words!r}", words in text, text)
            bank.checks.same(f"{what}: the file is kept", "march.csv is kept in this browser" in text, is_kept)
            bank.put_away()


# Notes all that the page says while it does something.
HEAR = """const said = document.getElementById('said');
window.heard = [];
new MutationObserver(() => heard.push(said.textContent)).observe(said, { childList: true, characterData: true,
    subtree: true });"""


def wait_for_an_import(bank: Bank) -> None:
    """One that the front end gives up: meanwhile its lines and its seconds are told."""
    bank.put_away()
    bank.firm.relay.fail("POST /firm/statements$", Fault("late"))
    bank.browser.run(HEAR)
    bank.choose("none.csv", HEAD + "2026-03-14,OPEN,,zero,\n", "Import as it is")
    heard = bank.browser.run("return window.heard")
    for words in ("Importing lines: 1", "Importing lines: 1, 5 seconds so far",
                  "Importing lines: 1, 10 seconds so far"):
        bank.checks.so(f"while it waits the page says {words!r}", words in heard, heard)
    bank.has("A long statement may still be read.", "none.csv is kept in this browser")
    bank.put_away()


def be_no_cashier(bank: Bank) -> None:
    """A lawyer, who has no such place in the list, and another site."""
    lee = Browser("lee", bank.firm.origin)
    other = Bank(bank.firm, bank.folder, bank.checks, lee)
    other.choose("march.csv", MARCH)
    other.has("You may not do this.", "403 NotAllowed")
    bank.checks.same("the log of lee", lee.faults(), [])
    lee.quit()
    for path in ("match", "unmatched"):
        for fields_sent in ({"origin": "http://elsewhere.example"}, {"sec-fetch-site": "cross-site"}):
            status = bank.firm.front.ask("cashier", "POST", f"/firm/statements/{path}", fields_sent)[0]
            bank.checks.same(f"the status of {path} from another site", status, 403)


def look_at_it(bank: Bank) -> None:
    """What everybody needs of the view, on a wide screen and on a phone."""
    bank.choose("march.csv", MARCH)
    look(bank.browser, "the matched file", bank.checks)
    for width in (PHONE, NARROW):
        small = Browser("cashier", bank.firm.origin, width)
        Bank(bank.firm, bank.folder, bank.checks, small).choose("march.csv", MARCH)
        bank.checks.same(f"what stands aside at {width} px", see(small, "widthAside()"), 0)
        bank.checks.same(f"what is lower than 24 px at {width} px", see(small, "smallControls()"), [])
        bank.checks.same(f"the log at {width} px", small.faults(), [])
        small.quit()
    bank.put_away()


def play(program: str, folder: pathlib.Path, checks: Checks) -> None:
    desk = Desk(program, folder / "book.db", DAY)
    desk.run("sheet", text=SHEET)
    firm = Firm(desk, folder / "front")
    browser = Browser("cashier", firm.origin)
    bank = Bank(firm, folder, checks, browser)
    try:
        look_at_it(bank)
        for chapter in (*CHAPTERS, be_refused, wait_for_an_import, be_no_cashier):
            chapter(bank)
        checks.same("the browser's log", browser.faults(), [])
    finally:
        browser.quit()
        firm.end()
