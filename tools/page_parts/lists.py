"""What the desk lists, and what the page makes of it by itself, of matters with spiteful labels."""
import json
import pathlib
import random
import typing

from .browser import Browser
from .checks import Checks
from .firm import HEAD, Desk, Firm

DAY = "2024-01-31"
MATTERS = 60
ENTRIES = 12
SEED = 1
LABELS = ["retainer", "a | b", " | FROM FEE 0001 | x", "HELD", "x\u2028GAP 0.00", "TOTAL                   9.99",
          "0002 2024-01-31 DEPOSIT 9.00 HELD | a", "\u202egpj.exe", "F\u0406RM", "Geb\u00fchr", "x" * 80, "-", "$&"]
BANK_REFERENCES = ["B{}", "B{} | FROM GENERAL", "B{} RETURNED 2024-01-31 X", "B{} VOIDED 2024-01-31", "ON FEE 0001 {}",
                   "CLEARED 2024-01-01 {}"]

COMPARE = (pathlib.Path(__file__).parent / "compare.js").read_text(encoding="utf-8")


class Maker:
    """Makes a matter by chance: asks of every kind, whether they are accepted or not."""

    def __init__(self, desk: Desk, chance: random.Random, matter: str) -> None:
        self.desk, self.chance, self.matter = desk, chance, matter
        self.lines: list[str] = []

    def ask(self, person: str, entry: int, verb: str, **fields: str) -> int:
        body = json.dumps(fields) if fields else None
        return self.desk.ask(person, "POST", f"/matters/{self.matter}/entries/{entry:04}/{verb}", body)[0]

    def label(self) -> str:
        return self.chance.choice(LABELS)

    def earlier(self, entry: int) -> str:
        return f"{self.chance.randint(1, entry):04}"

    def make_entry(self, entry: int) -> None:
        amount = f"{self.chance.randint(1, 40)}.00"
        kind = self.chance.choice(["deposit", "propose", "propose", "draw", "draw", "fee", "claim", "dispute"])
        fields = {
            "deposit": {"source": self.label(), "description": self.label()},
            "propose": {"from": "general", "payee": self.label(), "purpose": self.label(), "instrument": "1"},
            "draw": {"from": "fee", "of": self.earlier(entry), "payee": "FIRM", "purpose": self.label(),
                     "instrument": "1"},
            "fee": {"description": self.label()},
            "claim": {"on": "general", "claimant": self.label(), "reason": self.label()},
            "dispute": {"on": "fee", "of": self.earlier(entry), "reason": self.label()},
        }[kind]
        person = {"deposit": "cashier", "dispute": "ada"}.get(kind, "lee")
        verb = {"dispute": "claim", "draw": "propose"}.get(kind, kind)
        if self.ask(person, entry, verb, amount=amount, **fields) != 201:
            self.ask("cashier", entry, "deposit", amount=amount, source=self.label(), description=self.label())

    def change_entry(self, entry: int) -> None:
        """All that may be asked of an entry, of which most is refused."""
        part = f"{self.chance.randint(1, 5)}.00"
        person, verb = self.chance.choice([
            ("lee", "approve"), ("lee", "approve"), ("lee", "decline"), ("lee", "void"), ("cashier", "cancel"),
            ("lee", "offer"), ("ada", "accept"), ("cashier", "award")])
        fields = {"to_client": part} if verb in ("offer", "accept", "award") else {}
        self.ask(person, entry, verb, **fields)

    def show_at_bank(self, entry: int) -> None:
        """A line of the bank that clears the entry, or takes it back."""
        told = json.loads(self.desk.ask("lee", "GET", f"/matters/{self.matter}/entries/{entry:04}")[1])
        sign = {"held": "", "issued": "-", "cleared": "-" if told["kind"] == "deposit" else None}.get(told.get("state"))
        if sign is not None and self.chance.random() < 0.6:
            reference = self.chance.choice(BANK_REFERENCES).format(f"{self.matter}{entry}{self.chance.randint(0, 999)}")
            line = f"{DAY},M{self.matter}-{entry:04},{reference},{sign}{told['amount']},x\n"
            self.desk.ask("cashier", "POST", "/firm/statements", HEAD + line)

    def make(self) -> None:
        for verb, fields in (("open", {"client": self.label(), "lawyer": "lee"}),
                             ("seats", {"person": "ada", "role": "client"})):
            self.desk.ask("cashier", "POST", f"/matters/{self.matter}/{verb}", json.dumps(fields))
        for entry in range(1, ENTRIES + 1):
            self.make_entry(entry)
            for _ in range(3):
                self.change_entry(self.chance.randint(1, entry))
                self.show_at_bank(self.chance.randint(1, entry))


SHARED = ("available", "claims", "client", "closed", "disputed", "entries", "fees", "held", "matter", "opened", "total")


def cents(amount: str) -> int:
    return int(amount.replace(".", ""))


def moved_in(entry: dict[str, typing.Any]) -> int:
    """What an entry moved in its matter's ledger, as it stands by now."""
    if entry["kind"] == "deposit":
        return cents(entry["amount"]) if entry["state"] in ("held", "cleared") else 0
    return -cents(entry["amount"]) if entry["kind"] == "payment" and entry["state"] in ("issued", "cleared") else 0


def look_at_account(told: dict[str, typing.Any], checks: Checks) -> None:
    """The statement of account of all time: it adds up, and has the words of its entries."""
    account, matter = told["account"], told["head"]["matter"]
    checks.same(f"the opening of the account of {matter}", account["opening"], "0.00")
    ledger = 0
    for each in account["movements"]:
        ledger += cents(each["amount"])
        checks.same(f"the ledger behind {each['reference']}", cents(each["sum"]), ledger)
        checks.same(f"the words of {each['reference']}", each["words"], told["texts"].get(each["reference"]))
    checks.same(f"the closing of the account of {matter}", cents(account["closing"]), ledger)
    checks.same(f"the ledger of {matter} by its entries", sum(map(moved_in, told["entries"])), ledger)


def look_at(told: dict[str, typing.Any], checks: Checks) -> set[str]:
    """Compares what is told of a matter in several places; the states that it had."""
    head, listed, entries = told["head"], told["listed"], told["entries"]
    matter = head["matter"]
    for name in SHARED:
        checks.same(f"{name} of {matter} in the list", listed[name], head[name])
    ledger = cents(head["total"]) + cents(head["held"])
    checks.same(f"the ledger of {matter} in the list", cents(listed["ledger"]), ledger)
    checks.same(f"the role in {matter}", listed["role"], "cashier")
    checks.same(f"the entries of {matter}, each by itself", told["alone"], entries)
    checks.same(f"what waits in {matter}, by its entries", told["own"], told["waiting"])
    checks.same(f"where the picture of {matter} ends", told["end"], str(ledger))
    is_at_bank = any(each.get("state") in ("held", "issued") for each in entries)
    checks.same(f"whether the bank has not shown something of {matter}", told["isUnshown"], is_at_bank)
    pending = sum(each["kind"] == "payment" and each["state"] in ("proposed", "issued") for each in entries)
    checks.same(f"the payments of {matter} that pend", listed["pending"], pending)
    look_at_account(told, checks)
    return {f"{each['kind']} {each['state']}" for each in entries if each["kind"] != "fee"}


def play(program: str, folder: pathlib.Path, checks: Checks) -> None:
    firm = Firm(Desk(program, folder / "book.db", DAY), folder / "front")
    chance = random.Random(SEED)
    states: set[str] = set()
    browser = Browser("cashier", firm.origin)
    try:
        for each in range(1, MATTERS + 1):
            Maker(firm.desk, chance, f"{each:06}").make()
            told = browser.wait(f"{COMPARE} compare(arguments[0]).then(done, (fault) => done(String(fault)))",
                                f"{each:06}")
            if isinstance(told, str):
                checks.so(f"matter {each:06} is read", False, told)
            else:
                states |= look_at(told, checks)
        checks.same("the states that came", sorted(states), [
            "claim open", "claim settled", "deposit cancelled", "deposit cleared", "deposit held", "deposit returned",
            "payment cleared", "payment declined", "payment issued", "payment proposed", "payment voided"])
    finally:
        browser.quit()
        firm.end()
