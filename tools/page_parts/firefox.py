"""The main views in Firefox, which is driven by its own remote protocol, Marionette: JSON behind its length, by TCP."""
import base64
import contextlib
import hashlib
import json
import os
import pathlib
import shutil
import socket
import subprocess
import time
import typing

from shared import free_port, wait_for

from . import firms
from .checks import Checks
from .firm import ROOT, Desk, Firm, password
from .month import DAY, HEADINGS, SHOWN, SPITEFUL
from .reports import ADDRESSES
from .views import LOOKS, NARROW, WIDE

PROGRAM = "firefox-esr"
STARTED = 120  # seconds
SETTLED = 60
ELEMENT = "element-6066-11e4-a52e-4f735466cecf"  # the name of an element's key, by the standard
ENTER, TAB = "\ue007", "\ue004"
PREFERENCES = {
    "browser.download.folderList": 2, "browser.download.useDownloadDir": True,
    "browser.download.alwaysOpenPanel": False, "browser.shell.checkDefaultBrowser": False,
    "datareporting.policy.dataSubmissionEnabled": False,
    "network.captive-portal-service.enabled": False, "network.connectivity-service.enabled": False,
    "app.update.enabled": False, "browser.safebrowsing.malware.enabled": False,
    "browser.safebrowsing.phishing.enabled": False, "network.http.phishy-userpass-length": 255,
    "intl.accept_languages": "en-US",
}
IS_DRAWN = """const main = document.querySelector('main');
return !!main && !document.querySelector('[aria-busy=true]') && !document.getElementById('said').textContent;"""
# What the browser's console has of the page: errors of scripts, and what its policy held back.
FAULTS = """return Services.console.getMessageArray()
    .filter((each) => each instanceof Ci.nsIScriptError && each.sourceName.startsWith(arguments[0]))
    .map((each) => each.errorMessage);"""
MAGNIFY = "window.ZoomManager.zoom = arguments[0]"


class Firefox:
    """A person's browser, signed on."""

    def __init__(self, person: str, origin: str, folder: pathlib.Path) -> None:
        self.origin, self.folder, self.asked = origin, folder, 0
        port = free_port()
        folder.mkdir()
        prefer = {**PREFERENCES, "marionette.port": port, "browser.download.dir": str(folder)}
        (folder / "user.js").write_text("".join(f"user_pref({json.dumps(name)}, {json.dumps(value)});\n"
                                                for name, value in prefer.items()), encoding="ascii")
        words = [PROGRAM, "--headless", "--no-remote", "--marionette", "--remote-allow-system-access", "--profile",
                 str(folder), "--width", str(WIDE), "--height", "900"]
        self.process = subprocess.Popen(words, stdout=subprocess.DEVNULL, stderr=subprocess.DEVNULL,
                                        env={**os.environ, "HOME": str(folder), "MOZ_DISABLE_CONTENT_SANDBOX": "1"})
        try:
            wait_for(port, self.process, STARTED)
            self.line = socket.create_connection(("127.0.0.1", port), timeout=STARTED)
            self.told = self.line.makefile("rb")
            self.answer()
            self.ask("WebDriver:NewSession", capabilities={"alwaysMatch": {"pageLoadStrategy": "normal"}})
            address = origin.replace("//", f"//{person}:{password(person)}@")
            self.ask("WebDriver:Navigate", url=f"{address}/page/style.css")
            self.ask("WebDriver:Navigate", url=f"{origin}/")
            self.settle()
        except BaseException:
            self.end()
            raise

    def answer(self) -> typing.Any:
        length = b""
        while (byte := self.told.read(1)) != b":":
            if not byte:
                raise ConnectionError("Firefox ended")
            length += byte
        return json.loads(self.told.read(int(length)))

    def ask(self, command: str, **words: object) -> typing.Any:
        """A command of the protocol, and what it gives."""
        self.asked += 1
        message = json.dumps([0, self.asked, command, words]).encode()
        self.line.sendall(b"%d:%s" % (len(message), message))
        _, _, fault, result = self.answer()
        if fault:
            raise RuntimeError(f"{command}: {fault['error']}: {fault['message']}")
        return result["value"] if isinstance(result, dict) and set(result) == {"value"} else result

    def run(self, script: str, *words: object) -> typing.Any:
        return self.ask("WebDriver:ExecuteScript", script=script, args=list(words))

    def settle(self) -> None:
        """Until the view is drawn, and stays as it is."""
        end = time.monotonic() + SETTLED
        last = None
        while time.monotonic() < end:
            now = self.run(f"const isDrawn = (() => {{ {IS_DRAWN} }})(); return isDrawn && document.body.textContent;")
            if now and now == last:
                return
            last = now
            time.sleep(0.15)
        raise TimeoutError("the page does not settle in Firefox")

    def to(self, view: str) -> None:
        self.run("location.hash = arguments[0]", view)
        time.sleep(0.1)
        self.settle()

    def text(self) -> str:
        return str(self.run("return document.querySelector('main').innerText.replace(/\\s+/g, ' ')"))

    def find(self, selector: str, words: str = "") -> str:
        """The first element that is seen and has these words."""
        found = self.run("return [...document.querySelectorAll(arguments[0])].find((each) => each.checkVisibility() "
                         "&& each.textContent.includes(arguments[1])) ?? null", selector, words)
        if not found:
            raise AssertionError(f"no {selector} {words!r} in {self.text()!r}")
        return str(found[ELEMENT])

    def click(self, selector: str, words: str = "") -> None:
        self.ask("WebDriver:ElementClick", id=self.find(selector, words))
        time.sleep(0.1)
        self.settle()

    def type(self, selector: str, keys: str) -> None:
        self.ask("WebDriver:ElementSendKeys", id=self.find(selector), text=keys)

    def run_in_browser(self, script: str, *words: object) -> typing.Any:
        """Runs a script not in the page, but in Firefox itself."""
        self.ask("Marionette:SetContext", value="chrome")
        try:
            return self.run(script, *words)
        finally:
            self.ask("Marionette:SetContext", value="content")

    def faults(self) -> list[str]:
        return list(self.run_in_browser(FAULTS, self.origin))

    def print(self, path: pathlib.Path) -> list[str]:
        """The texts of the sheets as Firefox prints them."""
        page = {"width": 21.59, "height": 27.94}  # centimetres
        told = self.ask("WebDriver:Print", page=page, background=False, shrinkToFit=False)
        path.write_bytes(base64.b64decode(told))
        done = subprocess.run(["pdftotext", "-layout", str(path), "-"], stdout=subprocess.PIPE, check=True)
        return done.stdout.decode().split("\f")[:-1]

    def end(self) -> None:
        with contextlib.suppress(OSError, ValueError, AttributeError):
            self.line.close()
        self.process.terminate()
        try:
            self.process.wait(30)
        except subprocess.TimeoutExpired:
            self.process.kill()
            self.process.wait()


@contextlib.contextmanager
def signed_on(person: str, firm: Firm, folder: pathlib.Path, checks: Checks) -> typing.Iterator[Firefox]:
    """A person's browser, whose console has no fault of the page at the end."""
    browser = Firefox(person, firm.origin, folder / f"firefox-{person}")
    try:
        yield browser
        checks.same(f"what the console of {person}'s Firefox has of the page", browser.faults(), [])
    finally:
        browser.end()


VIEWS = ("#/", "#/open", "#/statement", "#/records", *ADDRESSES, f"#/reconciliation/{DAY}", f"#/clients/{DAY}",
         f"#/month/{DAY}", f"#/report/receipts/2026-03-01/{DAY}", f"#/report/outstanding/{DAY}", "#/m/000001",
         "#/m/000001/card", "#/m/000001/account/2026-03-01/2026-03-31", "#/m/000001/propose", "#/m/000001/e/0002",
         "#/m/000001/e/0001/another", "#/m/000001/move", "#/own", "#/m/000001/seats", f"#/accounts/2026-03-01/{DAY}")


def look_at_views(browser: Firefox, checks: Checks) -> None:
    """Each view is drawn, can be read, and fits a window as narrow as a phone, magnified to twice its size."""
    for width, times in ((WIDE, 1), (2 * NARROW, 2)):
        browser.ask("WebDriver:SetWindowRect", width=width, height=900)
        browser.run_in_browser(MAGNIFY, times)
        checks.same("the width of Firefox's page", browser.run("return window.innerWidth"), width // times)
        for view in VIEWS:
            at = f"Firefox, {view} at {width // times} px"
            browser.to(view)
            checks.so(f"{at} is drawn", "The page failed" not in browser.text() and "Not shown" not in browser.text(),
                      browser.text())
            for what, call, wanted in (("the values that are no words", "rawValues()", []),
                                       ("what is called by its kind", "mislabelledFields()", []),
                                       ("the pale texts", "paleTexts()", []), ("what is small", "smallControls()", []),
                                       ("the ids that stand twice", "idsThatStandTwice()", []),
                                       ("what stands aside", "widthAside()", 0)):
                checks.same(f"{at}: {what}", browser.run(f"{LOOKS} return {call}"), wanted)
    browser.run_in_browser(MAGNIFY, 1)
    browser.ask("WebDriver:SetWindowRect", width=WIDE, height=900)


def book_by_keys(browser: Firefox, checks: Checks) -> None:
    browser.to("#/m/000001/deposit")
    browser.type("[name=amount]", f"5{TAB}")
    checks.same("the field behind the amount", browser.run("return document.activeElement.name"), "source")
    ring = browser.run("return getComputedStyle(document.activeElement).outlineWidth")
    checks.same("the ring around it", ring, "3px")
    browser.type("[name=source]", f"Ada Chen{TAB}")
    browser.type("[name=description]", f"copies{ENTER}")
    time.sleep(0.2)
    browser.settle()
    told = browser.text()
    checks.so("a deposit is booked by keys alone", f"Booked on {DAY}: deposit of 5.00" in told, told)
    checks.same("what was done has the focus", browser.run("return document.activeElement.className"), "box done")


def bring_statement(browser: Firefox, folder: pathlib.Path, checks: Checks) -> None:
    path = folder / "statement.csv"
    path.write_text(f"date,reference,bank_ref,amount,text\n{DAY},,F1,5.00,DEPOSIT\n", encoding="ascii")
    browser.to("#/statement")
    browser.type("#file", str(path))
    browser.click("button", "Match")
    told = browser.text()
    checks.so("the bank's file is matched", "5.00 on" in told, told)
    browser.click(".left button", "Use this")
    browser.click("button", "Match again")
    browser.click("button", "Import these")
    told = browser.text()
    checks.so("and imported", "statement.csv was imported." in told and "Lines that found their place 1" in told, told)


def read_bank_file(firm: Firm, browser: Firefox, checks: Checks) -> None:
    """A worker reads the bank's own file; one balance is typed, and the month is closed."""
    browser.to("#/statement")
    browser.type("#file", str(ROOT / "cases" / "bank-files" / "july" / "fetched-later.ofx"))
    browser.click("button", "Match")
    told = browser.text()
    checks.so("the bank's own file asks for a balance", "those between are missing. Type one balance" in told, told)
    browser.type("#closing", f"370,041.25{TAB}")
    browser.settle()
    told = browser.text()
    checks.so("the month is closed by it", "370,041.25 on 2026-07-31" in told, told)
    asked = [line for line in firm.front.log() if "/page/bank/worker.js" in line]
    checks.so("a worker reads it", len(asked) > 0, asked)


def propose(browser: Firefox, checks: Checks) -> None:
    """The number of the next check is there."""
    browser.to("#/m/000001/propose")
    for name, words in (("amount", "12"), ("payee", "Court Clerk"), ("purpose", "copies")):
        browser.type(f"[name={name}]", words)
    browser.click("button", "Propose it")
    told = browser.text()
    checks.so("a payment is proposed", "payment of 12.00 to Court Clerk, entry 0007 of matter 000001" in told, told)


def be_a_lawyer(browser: Firefox, checks: Checks) -> None:
    """The first view has what waits; it is approved, and does not stand there any more."""
    told = browser.text()
    checks.so("a lawyer's first view", "My matters" in told and "Court Clerk | copies | 1008" in told, told)
    browser.click("main a", "0007")
    browser.click("button", "Approve 12.00")
    told = browser.text()
    checks.so("a lawyer approves", "Approved: 12.00 to Court Clerk." in told and "Void the payment" in told, told)
    browser.to("#/")
    told = browser.text()
    checks.so("what was approved waits no more", "Court Clerk | copies | 1008" not in told, told)
    browser.to("#/report/journal")
    told = browser.text()
    checks.so("a lawyer reads no report", "Only the cashier reads the firm's reports" in told, told)


def be_a_client(browser: Firefox, checks: Checks) -> None:
    told = browser.text()
    checks.so("a client's first view", "Matter 000001, Ada Chen" in told and "12.00" in told, told)
    browser.to("#/m/000001/card")
    told = browser.text()
    checks.so("a client's card", "LEDGER 000001 Ada Chen" in told, told)
    browser.to("#/m/000002")
    told = browser.text()
    checks.so("another's matter", "There is no such matter for you." in told, told)


def see_month(firm: Firm, browser: Firefox, folder: pathlib.Path, checks: Checks) -> None:
    browser.to(f"#/month/{DAY}")
    text = browser.text()
    checks.has("month's end in Firefox has", text, SHOWN)
    packet = firm.desk.ask("cashier", "GET", f"/firm/month/{DAY}")[1].encode()
    digits = hashlib.sha256(packet).hexdigest()
    checks.so("and the sum", digits in text, text)
    browser.click("button", "Keep")
    kept = browser.folder / f"month-{DAY}.txt"
    end = time.monotonic() + 20
    while not (kept.exists() and kept.stat().st_size) and time.monotonic() < end:
        time.sleep(0.05)
    checks.same("what Firefox keeps", hashlib.sha256(kept.read_bytes()).hexdigest() if kept.exists() else "", digits)
    sheets = browser.print(folder / "month.pdf")
    checks.same("the sheets that Firefox prints", len(sheets), len(HEADINGS))
    for sheet, heading in zip(sheets, HEADINGS):
        checks.so(f"a sheet has {heading!r}", heading in sheet, sheet)
    checks.so("the first sheet is signed", bool(sheets) and digits in sheets[0] and "Signed" in sheets[0], sheets[:1])


def search(browser: Firefox, checks: Checks) -> None:
    browser.to(f"#/report/disbursements/2026-03-01/{DAY}")
    browser.type("#find-movement", "1007")
    browser.settle()
    told = browser.text()
    checks.so("a check's number is found in Firefox", "Found: 1 of 9." in told and "Sunrise" in told, told)


def sign_off(firm: Firm, folder: pathlib.Path, checks: Checks) -> None:
    """The browser forgets the password, once its question for another one is left."""
    browser = Firefox("ada", firm.origin, folder / "firefox-leaving")
    try:
        before = len(firm.front.log())
        for path in ("/sign-off", "/matters"):
            browser.ask("WebDriver:Navigate", url=firm.origin + path)
            browser.ask("WebDriver:DismissAlert")
        asked = [line for line in firm.front.log()[before:] if not line.endswith("/favicon.ico")]
        checks.same("what Firefox asks as who signed off", asked, ["401 ada GET /sign-off", "401 - GET /matters"])
    finally:
        browser.end()


def play(program: str, folder: pathlib.Path, checks: Checks) -> None:
    if not shutil.which(PROGRAM):
        print(f"page: left out: Firefox: there is no {PROGRAM}", flush=True)
        return
    firms.play_month(program, folder / "book.db", until="messages/19-accounting.http")
    desk = Desk(program, folder / "book.db", DAY)
    desk.run("sheet", text=SPITEFUL)
    firm = Firm(desk, folder / "front")
    try:
        with signed_on("cashier", firm, folder, checks) as browser:
            see_month(firm, browser, folder, checks)
            search(browser, checks)
            look_at_views(browser, checks)
            book_by_keys(browser, checks)
            propose(browser, checks)
            bring_statement(browser, folder, checks)
            read_bank_file(firm, browser, checks)
        with signed_on("lee", firm, folder, checks) as browser:
            be_a_lawyer(browser, checks)
        with signed_on("ada", firm, folder, checks) as browser:
            be_a_client(browser, checks)
        sign_off(firm, folder, checks)
    finally:
        firm.end()
