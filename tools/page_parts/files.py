"""The bank's own files on the page: OFX, camt.053 and CSV are read as the script reads them, and what is no bank's file
is told, and nothing of it taken."""
import json
import pathlib
import subprocess
import time

from selenium.webdriver.common.keys import Keys

from .browser import PHONE, Browser
from .checks import Checks
from .firm import ROOT, Desk, Firm
from .matching import Bank
from .views import NARROW, look, see

DAY = "2026-08-03"
BANK = ROOT / "examples" / "bank"
SCRIPT = ROOT / "examples" / "operations" / "bank-to-statement"
KEPT = "return JSON.parse(localStorage['gekuipo.cashier.file'] ?? '[{}]')[0].text"


def by_script(*words: str) -> str:
    return subprocess.run([str(SCRIPT), *words], stdout=subprocess.PIPE, check=True).stdout.decode()


def choose(bank: Bank, name: str, data: bytes) -> None:
    """Chooses a file, whatever is in it."""
    bank.put_away()
    path = bank.folder / name
    path.write_bytes(data)
    bank.browser.to("#/statement")
    bank.browser.find("#file")[0].send_keys(str(path))
    bank.browser.press("Match")


def take(bank: Bank, name: str) -> None:
    choose(bank, name, (BANK / name).read_bytes())


def is_kept(bank: Bank, what: str, wanted: str) -> None:
    """What the browser keeps has a character for each byte."""
    kept = bank.browser.run(KEPT)
    bank.checks.same(f"the statement of {what}", (kept or "").encode("latin-1").decode(), wanted)


def give(bank: Bank, **values: str) -> None:
    """Fields of the question, by their names, with `_` for a hyphen; each tells that it changed."""
    for name, value in values.items():
        bank.browser.run("const [name, value] = arguments; const at = document.getElementById(name); at.value = value;"
                         "at.dispatchEvent(new Event('change'))", name.replace("_", "-"), value)
    bank.browser.settle()


# Drops a file of this name and text on the form.
DROP = """const data = new DataTransfer();
data.items.add(new File([arguments[1]], arguments[0]));
document.querySelector('main form').dispatchEvent(
    new DragEvent('drop', { dataTransfer: data, bubbles: true, cancelable: true }));"""


def drop_qbo(bank: Bank) -> None:
    """A file is dropped, of the name that QuickBooks gives OFX."""
    bank.put_away()
    bank.browser.run(DROP, "march.qbo", (BANK / "first-half.ofx").read_text(encoding="ascii"))
    bank.browser.press("Match")
    bank.has("What march.qbo has", "26,788.00 on 2026-03-16")
    bank.browser.press("Take it and match")
    is_kept(bank, "march.qbo", by_script("--close", "2026-03-16", str(BANK / "first-half.ofx")))


def take_ofx(bank: Bank) -> None:
    """The file's own balance is of a moment: it closes with a day before."""
    take(bank, "first-half.ofx")
    bank.has("What first-half.ofx has", "The first 5 of 6 lines", "DEPOSIT CHECK 2291 A CHEN",
             "26,788.00 on 2026-03-16")
    look(bank.browser, "the bank's file", bank.checks)
    bank.browser.press("Take it and match")
    bank.has("first-half.ofx: ", "first-half.ofx is kept in this browser")
    is_kept(bank, "first-half.ofx", by_script("--close", "2026-03-16", str(BANK / "first-half.ofx")))
    take(bank, "second-half.qfx")
    give(bank, closing_day="2026-03-27")
    bank.has("5,563.00 on 2026-03-27", "3 lines of 2026-03-31 to 2026-04-01, together 2000.00, left out: "
             "behind the last day, 2026-03-27; the next file has them")
    give(bank, closing_day="2026-04-01")
    bank.has("7,563.00 on 2026-04-01", "it is that of 2026-04-01 only if the bank had nothing more on that day")
    bank.browser.press("Take all lines, without balances")
    bank.browser.press("Take it and match")
    is_kept(bank, "second-half.qfx", by_script(str(BANK / "second-half.qfx")))


def take_camt(bank: Bank) -> None:
    take(bank, "second-half.camt.xml")
    bank.has("26,788.00 on 2026-03-17", "26,353.00 on 2026-03-31", "1 line left out: not booked by the bank yet")
    bank.browser.press("Take it and match")
    is_kept(bank, "camt.053", by_script(str(BANK / "second-half.camt.xml")))


def take_csv(bank: Bank) -> None:
    """The columns are asked once; balances are typed, and have to join the lines."""
    take(bank, "checks.csv")
    bank.has("Say once which is which", "Which column is which?", "month/day/year", "CHECK 1001")
    look(bank.browser, "the columns of a file", bank.checks)
    bank.has("The balances of the file do not go with its amounts. Type one balance")
    give(bank, column_0="")
    for rows in ("0", "1"):
        bank.browser.find("#rows")[0].send_keys(Keys.END, Keys.BACKSPACE, rows, Keys.TAB)
        bank.browser.settle()
        bank.checks.same(f"what has the focus behind {rows} rows", bank.browser.run("return document.activeElement.id"),
                         "format")
    bank.browser.press("Take it and match")
    is_kept(bank, "checks.csv", by_script(str(BANK / "checks.csv"), str(BANK / "checks.rules")))
    take(bank, "checks.csv")
    bank.has("The columns are as you told them for the last file with this heading.")
    give(bank, closing_day="2026-04-01", closing="7,563.00", opening_day="2026-03-19", opening="7000")
    bank.has("Nothing is taken of checks.csv.", "the opening balance 7000.00 and the lines 365.00 don't make")
    give(bank, opening="7198.00")
    bank.browser.press("Take it and match")
    told = by_script(str(BANK / "checks.csv"), str(BANK / "checks.rules")).splitlines()
    first, last = "2026-03-19,OPEN,,7198.00,Opening balance", "2026-04-01,CLOSE,,7563.00,Closing balance"
    is_kept(bank, "checks.csv with its balances", "\n".join([told[0], first, *told[1:], last, ""]))
    take(bank, "two-columns.csv")
    give(bank, column_1="number")
    bank.has("27,788.00 on 2026-03-19")
    bank.browser.press("Take all lines, without balances")
    bank.browser.press("Take it and match")
    is_kept(bank, "two-columns.csv", by_script(str(BANK / "two-columns.csv"), str(BANK / "two-columns.rules")))
    take(bank, "references.csv")
    bank.browser.press("Take it and match")
    is_kept(bank, "references.csv", by_script(str(BANK / "references.csv"), str(BANK / "references.rules")))


JULY = ROOT / "cases" / "bank-files" / "july"
PAPER = "370041.25"  # the balance of 31 July on the bank's paper
# The files of a July: how often a day has to be typed for it to be closed, then whether a balance, and what is told.
MONTH: dict[str, tuple[bool, bool, str]] = {
    "up-to-today.ofx": (False, False, "2 lines of 2026-08-03, together 650.00, left out: behind the last day"),
    "fetched-later.ofx": (False, True, "the lines end on 2026-07-31: those between are missing. Type one balance"),
    "balance-of-the-last-day.ofx": (False, False, "The balances are those of the file."),
    "fetched-on-the-last-day.ofx": (True, False, "3 lines of 2026-07-31, together -12.00, left out: behind"),
    "without-a-balance.qbo": (False, True, "The file tells no balance. Type one balance"),
    "without-a-time.ofx": (True, False, "3 lines of 2026-07-31, together -12.00, left out: behind"),
    "balance-before-the-end.ofx": (False, False, "2 lines of 2026-08-03, together 650.00, left out: behind"),
    "pending.qfx": (False, False, "1 line left out: not booked by the bank yet"),
    "running-balance.csv": (False, False, "The balances are those of the file."),
    "newest-first.csv": (False, False, "The balances are those of the file."),
    "summary-rows.csv": (False, False, "line 8 left out: no line of the account: 'Beginning balance as of 07/01/2026'"),
    "no-heading.csv": (False, True, "The file tells no balance. Type one balance"),
    "balance-rows.csv": (False, False, "line 16 left out: no line of the account: 'Ending Balance'"),
    "debit-or-credit.csv": (False, False, "The balances are those of the file."),
    "trailing-minus.csv": (False, True, "line 15 left out: no line of the account: 'Total'"),
    "parentheses.csv": (False, False, "The balances are those of the file."),
    "up-to-today.csv": (False, False, "2 lines of 2026-08-03, together 650.00, left out: behind the last day"),
    "five-decimals.csv": (False, True, "The file tells no balance. Type one balance"),
    "month.camt.xml": (False, False, "The balances are those of the file."),
    "opening-alone.camt.xml": (False, False, "The balances are those of the file."),
}


def by_paper(name: str) -> str:
    """The statement of July that the script writes by the balance of the bank's paper."""
    rules = JULY / f"{name.removesuffix('.csv')}.rules"
    own = [] if name == "month.camt.xml" else ["--balance", PAPER]
    return by_script("--close", "2026-07-31", *own, str(JULY / name), *([str(rules)] if rules.exists() else []))


def close_a_month(bank: Bank) -> None:
    """Each file of a month closes it: by itself, or by a day or one balance of the bank's paper. All that is left out
    is told."""
    bank.browser.run("localStorage.removeItem('gekuipo.cashier.columns')")
    for name, (has_day, has_balance, words) in MONTH.items():
        choose(bank, name, (JULY / name).read_bytes())
        bank.has(f"What {name} has", words)
        if has_day:
            bank.has("on 2026-07-30")
            give(bank, closing_day="7/31/2026")
            bank.has("it is that of 2026-07-31 only if the bank had nothing more on that day")
        if has_balance:
            give(bank, closing="370,041.25")
        bank.has("370,041.25 on 2026-07-31")
        bank.lacks("Nothing is taken")
        if name == "summary-rows.csv":
            look(bank.browser, "a file with balances", bank.checks)
        bank.browser.press("Take it and match")
        is_kept(bank, name, by_paper(name))


def ask_about_one_side(bank: Bank) -> None:
    """Amounts that all go one way are taken only where somebody says that it is so."""
    rows = "".join(f"07/{at:02}/2026,{at}.00,CARD\n" for at in range(1, 28))
    choose(bank, "cards.csv", f"Date,Amount,Text\n{rows}".encode())
    bank.has("All 27 lines are paid in.", "If another column tells which are paid out, name it above")
    taking = next(each for each in bank.browser.find("button") if each.text == "Take it and match")
    bank.checks.same("whether it can be taken at once", taking.is_enabled(), False)
    bank.browser.find("#one-sided")[0].click()
    bank.browser.press("Take it and match")
    bank.has("cards.csv is kept in this browser")
    choose(bank, "debit-or-credit.csv", (JULY / "debit-or-credit.csv").read_bytes())
    give(bank, column_2="")
    bank.has("All 13 lines are paid in.")
    give(bank, column_2="sign")
    bank.lacks("All 13 lines are paid in.")


# Files of shapes that no bank writes: each is read, or refused in words, while the page goes on.
HOSTILE = (
    ("blanks.ofx", "<OFX><STMTRS><STMTTRN><DTPOSTED>20260702<TRNAMT>-1.00<FITID>1<NAME>a" + " " * 4_000_000
     + "b</STMTTRN></STMTRS></OFX>", "-1.00"),
    ("values.ofx", "<OFX><STMTRS><STMTTRN><DTPOSTED>20260702<TRNAMT>-1.00<FITID>1" + "<A>b" * 50_000
     + "</STMTTRN></STMTRS></OFX>", "-1.00"),
    ("prefixes.xml", "<BkToCstmrStmt " + " ".join(f'xmlns:p{at}="u"' for at in range(50_000)) + "/>",
     "has 0 BkToCstmrStmt/Stmt, not one"),
    ("parts.xml", "<D><BkToCstmrStmt><Stmt><Ntry><Amt>1.00</Amt><CdtDbtInd>CRDT</CdtDbtInd><Sts>BOOK</Sts><BookgDt><Dt>"
     "2026-07-02</Dt></BookgDt><NtryRef>1</NtryRef><NtryDtls><TxDtls><RmtInf>" + "<Ustrd>words</Ustrd>" * 150_000
     + "</RmtInf></TxDtls></NtryDtls></Ntry></Stmt></BkToCstmrStmt></D>", "1.00"),
    ("elements.ofx", "<OFX><STMTRS>" + "<A>b" * 900_000 + "</STMTRS></OFX>", "the file has more than 200000 elements"),
    ("rows.csv", "Date,Amount\n" + "07/02/2026,1.00\n" * 60_000, "the file has more than 50000 rows"),
    ("columns.csv", "Date,Amount" + ",1" * 2_000_000 + "\n", "it has more than 99 columns"),
    ("long.csv", "Date,Amount,Text\n" + "".join(f"07/02/2026,-{at}.00,CARD {at}\n07/02/2026,{at}.00,CARD {at}\n"
                                                for at in range(1, 20_001)), "40000"),
)
# Notes the longest time between two frames.
WATCH = """window.longest = 0; let last = performance.now();
(function frame() { const now = performance.now(); window.longest = Math.max(window.longest, now - last); last = now;
    window.frames_seen = requestAnimationFrame(frame); })();"""
SOON = 60  # seconds, on a busy machine; what is not linear takes minutes


def read_beside(bank: Bank) -> None:
    """Hostile files are read by a worker, or refused in words."""
    for name, text, words in HOSTILE:
        bank.browser.run(WATCH)
        begun = time.monotonic()
        choose(bank, name, text.encode())
        seconds = time.monotonic() - begun
        bank.has(f"What {name} has", words)
        bank.checks.so(f"{name} is read soon", seconds < SOON, seconds)
        frame = bank.browser.run("cancelAnimationFrame(window.frames_seen); return window.longest")
        print(f"{name}: {seconds:.1f} s, longest frame {frame:.0f} ms", flush=True)
    asked = bank.browser.run("return performance.getEntriesByType('resource').map(({ name }) => name)")
    bank.checks.so("a worker reads them", any(each.endswith("/page/bank/worker.js") for each in asked), asked)


# Ways in which a day is typed.
TYPED = ("8/1/2026", "08/01/2026", "8-1-2026", "8/1/26", "Aug 1, 2026", "August 1 2026", "1 Aug 2026", "2026-8-1")


def type_days(bank: Bank) -> None:
    """The four fields are called for what stands in them, and a day is typed as one writes it."""
    choose(bank, "august.csv", b"Date,Amount,Text\n08/01/2026,1.00,a\n08/31/2026,2.00,b\n")
    labels = [each.text for each in bank.browser.find(".asking label")]
    wanted = ["First day", "Opening balance", "Last day", "Closing balance"]
    bank.checks.same("the labels of the balances", [each for each in labels if each in wanted], wanted)
    give(bank, closing_day="8/31/2026", opening="5", closing="8")
    for typed in TYPED:
        give(bank, opening_day="")
        give(bank, opening_day=typed)
        shown = bank.browser.find("#opening-day")[0].get_attribute("value")
        bank.checks.same(f"the day {typed} as it is shown", shown, "2026-08-01")
        bank.has("5.00 on 2026-08-01", "8.00 on 2026-08-31")
    for typed in ("13/1/2026", "8.1.2026", "Feb 30, 2026", "tomorrow"):
        give(bank, opening_day=typed)
        bank.has("Nothing is taken of august.csv.", "is no day: write it as 8/31/2026 or 2026-08-31")
    bank.browser.find("#opening-day")[0].clear()
    bank.browser.find("#opening-day")[0].send_keys("Aug 1, 2026\t")
    bank.browser.settle()
    bank.has("5.00 on 2026-08-01")
    bank.browser.press("Take it and match")
    bank.has("august.csv is kept in this browser")


# What is no bank's file, or has a fault: what is told of it.
BAD = (
    ("paper.pdf", b"%PDF-1.7 ...", "of a PDF or a spreadsheet nothing can be read"),
    ("sheet.xlsx", b"PK\x03\x04\x00\x00", "of a PDF or a spreadsheet nothing can be read"),
    ("book.xls", b"\xd0\xcf\x11\xe0\x00\x00", "of a PDF or a spreadsheet nothing can be read"),
    ("wide.csv", "date,amount\n".encode("utf-16"), "The file is in UTF-16: save it again as CSV in UTF-8."),
    ("mixed.csv", b"Date,Amount,Text\n03/19/2026,1.00,\x81\n", "the text is neither UTF-8 nor Windows-1252"),
    ("empty.csv", b"", "no column is the day"),
    ("words.csv", b"day,amount\n", "no column is the day"),
    ("amount.csv", b"Date,Amount,Text\n03/19/2026,1.0.0,a\n", "line 2: '1.0.0' is no amount"),
    ("day.csv", b"Date,Amount,Text\n03/19/2026,1.00,a\n02/30/2026,1.00,a\n", "line 3: '02/30/2026' is no day"),
    ("quote.csv", b'Date,Amount,Text\n03/19/2026,1.00,"a\n', "unexpected end of data"),
    ("bank.qif", b"!Type:Bank\nD08/01/2026\nT-5.00\n^\n", "this is QIF, which is not read: ask the bank for OFX"),
    ("bank.txt", b"01,121000358,0001,260803,0900,1,,,2/\n02,0001,121000358,1,260803,,USD,2/\n",
     "this is BAI2, which is not read"),
    ("bank.sta", b":20:STATEMENT\n:25:0000/4417\n:28C:1/1\n:60F:C260701USD354000,00\n",
     "this is MT940, which is not read"),
    ("cut.ofx", b"<OFX><STMTRS><STMTTRN><TRNAMT>1", "the file does not end with </OFX>: it may have been cut"),
    ("cut.xml", b"<Document><BkToCstmrStmt>", "the file is no XML: "),
)


def refuse(bank: Bank) -> None:
    """Told, and nothing is kept or sent."""
    before = len(bank.firm.relay.imported)
    for name, data, words in BAD:
        choose(bank, name, data)
        bank.has(words)
        bank.checks.same(f"what is kept of {name}", bank.browser.run(KEPT), None)
        taking = [each for each in bank.browser.find("button") if each.text == "Take it and match"]
        bank.checks.same(f"whether {name} can be taken", [each.is_enabled() for each in taking], [False] * len(taking))
    bank.checks.same("how often it was imported", len(bank.firm.relay.imported), before)


TURNED = "Date,Details,Paid\n03/04/2026,CHECK 1001,435.00\n04/03/2026,DEPOSIT,-2000.00\n"
TURNED_RULES = "skip 1\ndate-format %d/%m/%Y\ndate %1\namount -%3\ndescription %2\n"


def turn_around(bank: Bank) -> None:
    """Days that may be read in two orders are told; signs that are the other way round are turned."""
    choose(bank, "card.csv", TURNED.encode())
    bank.has("Nothing is taken of card.csv.", "no column is an amount")
    give(bank, column_2="amount")
    bank.has("The days of this file could also be day/month/year: compare them.", "2026-03-04", "2,000.00")
    give(bank, format="%d/%m/%Y")
    bank.browser.find("#turned")[0].click()
    bank.has("2026-04-03 -435.00 CHECK 1001", "2026-03-04 2,000.00 DEPOSIT")
    bank.browser.press("Take it and match")
    paths = [bank.folder / "turned.csv", bank.folder / "turned.rules"]
    for path, text in zip(paths, (TURNED, TURNED_RULES)):
        path.write_text(text, encoding="ascii")
    is_kept(bank, "card.csv", by_script(*map(str, paths)))


def match_it(bank: Bank) -> None:
    """From the bank's file to the reconciliation, without an editor."""
    desk = bank.firm.desk
    for matter, client in (("000001", "Ada Chen"), ("000002", "Bob Ruiz")):
        desk.ask("cashier", "POST", f"/matters/{matter}/open", json.dumps({"client": client, "lawyer": "lee"}))
    for matter, entry, amount, what in (
            ("000001", "0001", "5000.00", "retainer, check 2291"), ("000002", "0001", "18000.00", "check 90417"),
            ("000001", "0002", "2500.00", "advance"), ("000001", "0003", "1200.00", "advance")):
        desk.ask("cashier", "POST", f"/matters/{matter}/entries/{entry}/deposit",
                 json.dumps({"amount": amount, "source": "x", "description": what}))
    take(bank, "first-half.ofx")
    bank.browser.press("Take it and match")
    for line in bank.browser.find(".left .line"):
        words = "FIRM" if "100.00" in line.text.splitlines()[0] or "-12.00" in line.text else "Use this"
        next(each for each in line.find_elements("css selector", "button") if each.text == words).click()
    bank.browser.press("Match again")
    bank.has("0 to be looked at.")
    bank.browser.press("Import these")
    bank.has("Match nothing (exceptions)\n0", "Closing balance of\n2026-03-16")
    bank.browser.follow("Reconcile 2026-03-16")
    bank.has("26788.00")


def look_small(bank: Bank) -> None:
    for width in (PHONE, NARROW):
        small = Browser("cashier", bank.firm.origin, width)
        other = Bank(bank.firm, bank.folder, bank.checks, small)
        for name in ("checks.csv", "first-half.ofx"):
            take(other, name)
            bank.checks.same(f"what stands aside of {name} at {width} px", see(small, "widthAside()"), 0)
            bank.checks.same(f"what is lower than 24 px at {width} px", see(small, "smallControls()"), [])
        bank.checks.same(f"the log at {width} px", small.faults(), [])
        small.quit()


CHAPTERS = (take_ofx, drop_qbo, take_camt, take_csv, close_a_month, ask_about_one_side, type_days, read_beside,
            turn_around, refuse, look_small, match_it)


def play(program: str, folder: pathlib.Path, checks: Checks) -> None:
    firm = Firm(Desk(program, folder / "book.db", DAY), folder / "front")
    browser = Browser("cashier", firm.origin)
    bank = Bank(firm, folder, checks, browser)
    try:
        for chapter in CHAPTERS:
            chapter(bank)
        checks.same("the browser's log", browser.faults(), [])
    finally:
        browser.quit()
        firm.end()
