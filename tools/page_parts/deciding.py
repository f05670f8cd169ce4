"""Lines that the desk is not sure of: an entry is used, a line is split, left, or found to be an exception already; all
without a key typed."""
import json
import pathlib

from .browser import PHONE, Browser
from .checks import Checks
from .firm import HEAD, Desk, Firm
from .matching import Bank
from .views import NARROW, look, see

DAY = "2026-07-14"

# The words of US banks, each of an entry of its own amount, whose words the office wrote in its own way: a deposit's
# source and what it is for, or a payment's payee, purpose and number.
DEPOSITS = (
    ("DEPOSIT", "Ann Moss", "retainer"),
    ("MOBILE DEPOSIT", "Ben Ochoa", "retainer"),
    ("REMOTE ONLINE DEPOSIT #          1", "Cora Pace", "advance on costs"),
    ("BRANCH DEPOSIT  BR 0412 TLR 03", "Dan Quill", "retainer cash receipt 12"),
    ("COUNTER CREDIT", "Eli Rook", "retainer"),
    ("ATM CHECK DEPOSIT 07/06 100 MAIN ST SALEM OR", "Fay Stone", "retainer"),
    ("ATM CASH DEPOSIT 07/06 100 MAIN ST", "Gus Trent", "retainer"),
    ("Zelle payment from IDA UMBER 22915520117", "Ida Umber", "retainer"),
    ("ZELLE FROM JON VANCE ON 07/07 REF # PP0X7T2QQ", "Jon Vance", "retainer"),
    ("LAWPAY DES:DEPOSIT ID:XXXXX1234 INDN:GRAY AND LEE CO ID:9888888888 CCD", "Kay West", "retainer by card"),
    ("AFFINIPAY LLC   LAWPAY     070726 ST-A1B2", "Lou Xander", "retainer by card"),
    ("CLIO PAYMENTS PAYOUT", "Max Young", "retainer by card"),
    ("STRIPE           TRANSFER   ST-K3L4M5N6", "Nia Zorn", "retainer by card"),
    ("WIRE TYPE:WIRE IN DATE: 260707 TIME:1412 ET TRN:2026070700", "Oak Mutual", "settlement"),
    ("FEDWIRE CREDIT VIA: JPMORGAN CHASE BANK B/O: PINE INS CO REF: /BNF/CLAIM", "Pine Insurance", "settlement"),
    ("INCOMING WIRE", "Quartz LLC", "settlement"),
    ("ACH CREDIT STATE FARM CLAIMS", "State Farm", "settlement"),
    ("Preauthorized Credit ALLSTATE INS CO CLAIMPMT", "Allstate", "settlement"),
    ("EDEPOSIT IN BRANCH 07/08/26 02:14:09 PM", "Rae Adler", "advance"),
    ("CASHIERS CHECK DEPOSIT", "Sid Brand", "purchase price"),
    ("BKOFAMERICA MOBILE 07/08 XXXXX44021 DEPOSIT *MOBILE OR", "Tia Cole", "retainer"),
    ("ONLINE TRANSFER FROM CHK ...4821", "Uma Drew", "retainer"),
)
PAYMENTS = (
    ("CHECK PAID #4103", "Clerk of the Court", "filing fee", "4103"),
    ("4104 CHECK", "Metro Process Servers", "service", "4104"),
    ("SUBSTITUTE CHECK", "Sunrise Reporting", "transcript", "4105"),
    ("INCLEARING CHECK", "City Records", "copies", "4106"),
    ("OUTGOING WIRE TRANSFER", "Bay Clinic", "treatment bills", "wire 77120"),
    ("ONLINE BILL PAYMENT TO DMV", "Department of Motor Vehicles", "records", "online"),
    ("ACH DEBIT OREGON STATE COURTS EFILING", "State Courts", "e-filing", "ACH"),
    ("CHECK CASHED", "Ortiz Appraisals", "appraisal", "4109"),
)


# Words that show a number, and the number as the office typed it: behind what a deposit is for, or as what a payment is
# made with. Of the words of PAYMENTS the first two show theirs too, but with a word between, or without one in front.
NUMBERED = (
    ("DEPOSIT CHECK 2291 A CHEN", "retainer, check 2291"),
    ("DEPOSIT  ID NUMBER 417", "retainer, slip 417"),
    ("REMOTE DEPOSIT SLIP #0881", "retainer, slip 881"),
    ("MOBILE DEPOSIT CHK 5530", "advance, check 5530"),
    ("WIRE TYPE:WIRE IN DATE: 260707 TIME:1412 ET TRN:2026070700123456", "settlement, wire 2026070700123456"),
    ("Zelle payment from IDA UMBER 22915520118", "retainer, Zelle 22915520118"),
    ("LAWPAY DES:DEPOSIT ID:884120556 INDN:GRAY AND LEE CO ID:9888888888 CCD", "by card, LawPay 884120556"),
    ("ACH CREDIT STATE FARM CLAIM 0000731984", "settlement, claim 731984"),
)
NUMBERED_PAYMENTS = (
    ("CHECK 4110", "4110"), ("CHECK # 4111", "4111"), ("CHECK NO. 4112", "4112"), ("CHK4113", "4113"),
    ("CK 4114", "4114"), ("CASHED CHECK 4115 07/08", "4115"), ("OUTGOING WIRE TRN 771204455", "wire 771204455"),
)


def amount_of(at: int) -> str:
    return f"{300 + at * 7}.{at % 100:02}"


def sheet_of_thirty() -> str:
    """Two matters: deposits, of which a first one is cleared, and payments of it that are approved."""
    lines = ["open,000001,,Ada Chen,lee", "open,000002,,Bob Ruiz,lee",
             "deposit,000002,0001,20000.00,Bob Ruiz,purchase price", "open,000004,,Dan Quill,lee",
             "deposit,000004,0001,20000.00,Dan Quill,purchase price"]
    lines += [f"deposit,000001,{at:04},{amount_of(at)},{source},{what}"
              for at, (_, source, what) in enumerate(DEPOSITS, 1)]
    lines += ["open,000003,,Cleo Marsh,lee"]
    lines += [f'deposit,000003,{at:04},{amount_of(100 + at)},Cleo Marsh,"{what}"'
              for at, (_, what) in enumerate(NUMBERED, 1)]
    return "\n".join(lines) + "\n"


def sheet_of_payments() -> str:
    lines = [f"propose,000002,{at + 1:04},{amount_of(50 + at)},general,,{payee},{purpose},{instrument}\n"
             for at, (_, payee, purpose, instrument) in enumerate(PAYMENTS, 1)]
    lines += [f"propose,000004,{at + 1:04},{amount_of(150 + at)},general,,Court Clerk,filing fee,{instrument}\n"
              for at, (_, instrument) in enumerate(NUMBERED_PAYMENTS, 1)]
    return "".join(lines)


FIRST = HEAD + ("2026-07-14,M000002-0001,W1,20000.00,WIRE\n2026-07-14,M000004-0001,W2,20000.00,WIRE\n"
                "2026-07-14,FIRM,O1,123.00,OWN\n")


def thirty_lines() -> str:
    lines = [f'2026-07-14,,D{at},{amount_of(at)},"{text}"' for at, (text, *_) in enumerate(DEPOSITS, 1)]
    lines += [f'2026-07-14,,P{at},-{amount_of(50 + at)},"{text}"' for at, (text, *_) in enumerate(PAYMENTS, 1)]
    return HEAD + "\n".join(lines) + "\n"


def begin(program: str, folder: pathlib.Path) -> Desk:
    desk = Desk(program, folder / "book.db", DAY)
    desk.run("sheet", text=sheet_of_thirty())
    (folder / "first.csv").write_text(FIRST, encoding="utf-8")
    desk.run("import", str(folder / "first.csv"))
    desk.run("sheet", text=sheet_of_payments())
    return desk


def approve_all(bank: Bank) -> None:
    for matter, payments in (("000002", PAYMENTS), ("000004", NUMBERED_PAYMENTS)):
        for at in range(1, len(payments) + 1):
            ask(bank, "lee", f"/matters/{matter}/entries/{at + 1:04}/approve")


def fill_by_number(bank: Bank) -> None:
    """Where the bank's words show the number that was typed, nothing is left to decide."""
    lines = [f'2026-07-14,,N{at},{amount_of(100 + at)},"{text}"' for at, (text, _) in enumerate(NUMBERED, 1)]
    lines += [f'2026-07-14,,Q{at},-{amount_of(150 + at)},"{text}"'
              for at, (text, _) in enumerate(NUMBERED_PAYMENTS, 1)]
    bank.choose("numbered.csv", HEAD + "\n".join(lines) + "\n")
    count = len(lines)
    bank.checks.same("the lines with a number that are filled", len(bank.browser.find("[data-state=filled]")), count)
    bank.has(f"{count} lines would be imported, 0 in the book already, 0 to be looked at.")
    bank.browser.press("Import these")
    bank.has(f"Lines that found their place\n{count}", "Match nothing (exceptions)\n0")


def use_all(bank: Bank) -> int:
    """Clicks *Use this* wherever one entry alone has the amount; how often."""
    used = 0
    for line in bank.browser.find(".left .line"):
        buttons = [each for each in line.find_elements("css selector", "button") if each.text == "Use this"]
        if len(buttons) == 1:
            buttons[0].click()
            used += 1
    return used


def decide_thirty(bank: Bank) -> None:
    """Thirty lines as banks print them: none is typed."""
    bank.choose("thirty.csv", thirty_lines())
    filled = len(bank.browser.find("[data-state=filled]"))
    used = use_all(bank)
    print(f"of thirty texts of banks {filled} are filled, {used} used by a click", flush=True)
    bank.checks.same("the lines that are filled or used", filled + used, 30)
    bank.has("Named here: M000001-0001.", "377.00 left to 500.00")
    bank.browser.press("Import these" if filled else "Match again")
    bank.has("30 lines would be imported, 0 in the book already, 0 to be looked at.")
    bank.browser.press("Import these")
    bank.has("thirty.csv was imported.", "Lines that found their place\n30", "Match nothing (exceptions)\n0")
    for at in range(1, len(DEPOSITS) + 1):
        bank.checks.same(f"deposit {at}", bank.state(f"M000001-{at:04}"), "cleared")
    for at in range(1, len(PAYMENTS) + 1):
        bank.checks.same(f"payment {at}", bank.state(f"M000002-{at + 1:04}"), "cleared")
    bank.choose("thirty.csv", thirty_lines())
    bank.has("0 lines would be imported, 30 in the book already, 0 to be looked at.")
    bank.put_away()


def ask(bank: Bank, person: str, path: str, **fields: str) -> None:
    status, told = bank.firm.desk.ask(person, "POST", path, json.dumps(fields) if fields else None)
    bank.checks.so(f"{path} is done", status in (200, 201), told)


def deposit(bank: Bank, entry: str, amount: str, source: str, what: str) -> None:
    ask(bank, "cashier", f"/matters/000001/entries/{entry}/deposit", amount=amount, source=source, description=what)


SLIP = HEAD + ("2026-07-14,,S881,2500.00,DEPOSIT SLIP 881\n"
               "2026-07-14,,S2048,-3300.00,CHECK 2048\n"
               '2026-07-14,,S882,1100.00,"LAWPAY BATCH, ""3"" cards"\n')


def split_lines(bank: Bank) -> None:
    """A slip of two checks, a check that pays two fees, and a batch of three cards: a line for each part, of the bank's
    own day and reference, so the same file again is in the book."""
    for entry, amount, source, what in (
            ("0023", "1000.00", "Ann Moss", "retainer, slip 881"),
            ("0024", "1500.00", "Ben Ochoa", "retainer, slip 881"),
            ("0025", "400.00", "Cora Pace", "by card"), ("0026", "300.00", "Dan Quill", "by card"),
            ("0027", "400.00", "Eli Rook", "by card"), ("0028", "900.00", "Fay Stone", "by card")):
        deposit(bank, entry, amount, source, what)
    for fee, amount in (("0010", "1300.00"), ("0011", "2000.00")):
        ask(bank, "lee", f"/matters/000002/entries/{fee}/fee", amount=amount, description="work")
    for fee, payment, amount in (("0010", "0012", "1300.00"), ("0011", "0013", "2000.00")):
        at = f"/matters/000002/entries/{payment}"
        ask(bank, "cashier", f"{at}/propose", amount=amount, **{"from": "fee"}, of=fee, payee="FIRM", purpose="fee",
            instrument="2048")
        ask(bank, "lee", f"{at}/approve")
    bank.choose("slip.csv", SLIP)
    bank.has("0 lines would be imported, 0 in the book already, 3 to be looked at.", "Together they are its amount")
    bank.browser.press("Use these 2")
    bank.browser.press("Use these 2")
    bank.has("Split over M000001-0023 1,000.00, M000001-0024 1,500.00",
             "Split over M000002-0012 -1,300.00, M000002-0013 -2,000.00")
    bank.browser.press("Split it")
    bank.has("Which entries are together this line?", "0 chosen; 1,100.00 of 1,100.00 is missing.")
    for reference in ("M000001-0025", "M000001-0026", "M000001-0027"):
        bank.browser.find(f"#part-3-{reference}")[0].click()
    bank.has("3 chosen; 0.00 of 1,100.00 is missing.")
    look(bank.browser, "lines that are split", bank.checks)
    bank.browser.click(".chooser button", "Use these")
    bank.browser.press("Match again")
    bank.has("7 lines would be imported, 0 in the book already, 0 to be looked at.")
    bank.browser.press("Import these")
    bank.has("Lines that found their place\n7", "Match nothing (exceptions)\n0")
    sent = [(record[0], record[2], record[3], record[4]) for record in bank.imported()]
    bank.checks.same("the first parts that were sent", sent[:2],
                     [(DAY, "S881", "1000.00", "DEPOSIT SLIP 881"), (DAY, "S881", "1500.00", "DEPOSIT SLIP 881")])
    bank.checks.same("the last part that was sent", sent[-1], (DAY, "S882", "400.00", 'LAWPAY BATCH, "3" cards'))
    for reference in ("M000001-0023", "M000001-0024", "M000001-0025", "M000001-0027", "M000002-0012", "M000002-0013"):
        bank.checks.same(f"{reference} behind it", bank.state(reference), "cleared")
    bank.checks.same("one that was not chosen", bank.state("M000001-0028"), "held")
    bank.choose("slip.csv", SLIP)
    bank.has("0 lines would be imported, 3 in the book already, 0 to be looked at.")
    bank.put_away()


OWN = HEAD + "2026-07-14,,F1,812.50,DEPOSIT\n2026-07-14,,F2,200.00,DEPOSIT\n"


def take_too_much_for_the_firm(bank: Bank) -> None:
    """FIRM with what is left to 500.00; a line that is too much is told before it is imported, and as an exception."""
    bank.choose("own.csv", OWN)
    lines = bank.browser.find(".left .line")
    for line in lines:
        next(each for each in line.find_elements("css selector", "button") if each.text == "FIRM").click()
    bank.browser.press("Match again")
    bank.has("2 lines would be imported, 0 in the book already, 1 to be looked at.",
             "Some of these lines match nothing as they stand", "Import these all the same",
             "the firm's own money would be 935.50 with it, and stays from 0.00 to 500.00")
    bank.browser.press("Import these all the same")
    bank.has("Match nothing (exceptions)\n1", "Lines that found their place\n1")
    bank.checks.same("the box is green", bank.browser.find(".box.done"), [])
    bank.browser.to("#/report/exceptions")
    bank.has("the firm\u2019s own money is 323.00, and would not stay from 0.00 to 500.00 with it")
    bank.put_away()


def end_a_loop(bank: Bank) -> None:
    """A line that was imported under a wrong reference is looked at with it, used for another entry, and then the old
    exception is dismissed by one more click."""
    deposit(bank, "0029", "655.00", "Gus Trent", "retainer")
    bank.choose("loop.csv", HEAD + "2026-07-14,,L1,655.00,DEPOSIT\n")
    bank.type(r1="M000002-0099")
    bank.browser.press("Match again")
    bank.browser.press("Import these all the same")
    bank.has("Match nothing (exceptions)\n1")
    bank.put_away()
    bank.choose("loop.csv", HEAD + "2026-07-14,,L1,655.00,DEPOSIT\n")
    bank.has("1 to be looked at.", "It was imported before under M000002-0099",
             "the book has no entry of its reference", "Entries of its amount that wait for the bank", "M000001-0029")
    bank.put_away()
    bank.browser.to("#/report/exceptions")
    bank.browser.press("Decide what these lines are")
    bank.has("The exceptions is kept in this browser", "It was imported before under M000002-0099",
             "It was imported before under FIRM", "money is 323.00")
    line = next(each for each in bank.browser.find(".left .line") if "655.00" in each.text)
    next(each for each in line.find_elements("css selector", "button") if each.text == "Use this").click()
    other = next(each for each in bank.browser.find(".left .line") if "812.50" in each.text)
    next(each for each in other.find_elements("css selector", "button") if each.text == "Leave it").click()
    bank.has("Left. It is not imported.")
    bank.browser.press("Match again")
    bank.browser.press("Import these")
    bank.has("Lines that found their place\n1", "They are still exceptions under another reference",
             "655.00 of 2026-07-14, under M000002-0099")
    bank.checks.same("the deposit", bank.state("M000001-0029"), "cleared")
    bank.browser.to("#/report/exceptions")
    bank.has("The book has this line under another reference")
    bank.browser.press("Dismiss M000002-0099")
    bank.has("The book has this line under another reference. Nothing else changes.")
    bank.lacks("The bank does not have it")
    bank.browser.press("Keep it")
    # Once more by the file, as it is after an import.
    deposit(bank, "0030", "656.00", "Ida Umber", "retainer")
    bank.choose("again.csv", HEAD + "2026-07-14,M000001-0028,L2,656.00,DEPOSIT\n", "Import as it is")
    bank.choose("again.csv", HEAD + "2026-07-14,,L2,656.00,DEPOSIT\n")
    bank.browser.press("Use this")
    bank.browser.press("Match again")
    bank.browser.press("Import these")
    bank.has("656.00 of 2026-07-14, under M000001-0028")
    bank.browser.press("Dismiss the exception under M000001-0028")
    bank.has("The line is no exception any more.")
    bank.lacks("656.00 of 2026-07-14, under M000001-0028")
    left = bank.firm.desk.ask("cashier", "GET", "/firm/exceptions")[1]
    bank.checks.so("the exception is gone", "M000001-0028" not in left, left)


RETURNED = HEAD + "2026-07-14,,R1,-1000.00,DEPOSITED ITEM RETURNED\n"


def take_a_deposit_back(bank: Bank) -> None:
    """A deposit that the bank takes back is used by a click too."""
    bank.choose("returned.csv", RETURNED)
    bank.has("Deposits that it may take back", "M000001-0023")
    bank.browser.press("Use this")
    bank.browser.press("Match again")
    bank.browser.press("Import these")
    bank.checks.same("the deposit", bank.state("M000001-0023"), "returned")


def look_at_it(bank: Bank) -> None:
    bank.choose("thirty.csv", thirty_lines())
    look(bank.browser, "lines to be decided", bank.checks)
    for width in (PHONE, NARROW):
        small = Browser("cashier", bank.firm.origin, width)
        Bank(bank.firm, bank.folder, bank.checks, small).choose("thirty.csv", thirty_lines())
        small.press("Split it")
        bank.checks.same(f"what stands aside at {width} px", see(small, "widthAside()"), 0)
        bank.checks.same(f"what is lower than 24 px at {width} px", see(small, "smallControls()"), [])
        bank.checks.same(f"the log at {width} px", small.faults(), [])
        small.quit()
    bank.put_away()


CHAPTERS = (approve_all, look_at_it, fill_by_number, decide_thirty, split_lines, take_too_much_for_the_firm, end_a_loop,
            take_a_deposit_back)


def play(program: str, folder: pathlib.Path, checks: Checks) -> None:
    firm = Firm(begin(program, folder), folder / "front")
    browser = Browser("cashier", firm.origin)
    bank = Bank(firm, folder, checks, browser)
    try:
        for chapter in CHAPTERS:
            chapter(bank)
        checks.same("the browser's log", browser.faults(), [])
    finally:
        browser.quit()
        firm.end()
