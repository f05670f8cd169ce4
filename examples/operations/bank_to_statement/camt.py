"""Reads camt.053, a bank's statement by ISO 20022, in any of its versions: names are taken without their namespace."""
import re
from xml.etree import ElementTree
from xml.etree.ElementTree import Element

from .statement import Balance, Known, Line, Statement, check_balances, checked, not_booked, total_of
from .values import (NotUnderstood, amount_text, bank_ref_of, cents_of, day_beside, day_of, quoted, with_number, within,
                     words_of)

TIME = re.compile(r"([0-9]{4})-([0-9]{2})-([0-9]{2})(T[0-9:.]+)?(Z|[-+][0-9]{2}:[0-9]{2})?")
SIGNS = {"CRDT": 1, "DBIT": -1}
# So many elements a file may have.
MOST = 200_000
# Some banks write UTF-8 without its hyphen, a name that XML does not know.
UTF8 = re.compile(rb"""(?:\xef\xbb\xbf)?<\?xml\s[^>]*?\sencoding\s*=\s*["']utf8["']""", re.IGNORECASE)
BOOKED = "BOOK"
NOT_BOOKED = {"PDNG", "INFO", "FUTR"}
# The standard's own word for a reference that nobody gave.
NO_REFERENCE = "NOTPROVIDED"


def text_at(element: Element, *paths: str) -> str:
    """The text at the first of these paths that has one, else empty."""
    texts = ((element.findtext(path) or "").strip() for path in paths)
    return next(filter(None, texts), "")


def one_of(element: Element, path: str) -> Element:
    """The only element at this path."""
    found = element.findall(path)
    if len(found) != 1:
        raise NotUnderstood(f"{element.tag} has {len(found)} {path}, not one")
    return found[0]


def amount_of(amount: Element, currency: str) -> int:
    """The cents of an amount, which has no sign of its own."""
    cents = cents_of((amount.text or "").strip())
    if cents < 0:
        raise NotUnderstood(f"the amount {amount_text(cents)} has a sign")
    if amount.get("Ccy", "") != currency:
        raise NotUnderstood(f"an amount is in {quoted(amount.get('Ccy', ''))}, and the first one in {quoted(currency)}")
    return cents


def sign_of(element: Element) -> int:
    """1 of a credit, -1 of a debit."""
    indicator = (one_of(element, "CdtDbtInd").text or "").strip()
    if indicator not in SIGNS:
        raise NotUnderstood(f"{quoted(indicator)} is neither CRDT nor DBIT")
    return SIGNS[indicator]


def signed(element: Element, currency: str) -> int:
    """The cents of an entry or a balance: above 0 of a credit, below of a debit."""
    return sign_of(element) * amount_of(one_of(element, "Amt"), currency)


def day_at(element: Element, path: str) -> str:
    """The day that stands at this path, as a day or as a time: the bank's own, whatever the hour and the zone."""
    text = text_at(element, f"{path}/Dt", f"{path}/DtTm")
    parts = TIME.fullmatch(text)
    if not parts:
        raise NotUnderstood(f"{path} is {quoted(text)}, and no day")
    return day_of(int(parts[1]), int(parts[2]), int(parts[3]))


def is_booked(entry: Element) -> bool:
    """Whether the bank has booked an entry."""
    status = text_at(one_of(entry, "Sts"), "Cd", ".")
    if status != BOOKED and status not in NOT_BOOKED:
        raise NotUnderstood(f"the status {quoted(status)} is none of an entry's")
    return status == BOOKED


def parts_of(entry: Element, total: int, currency: str) -> list[tuple[Element, int]]:
    """The transactions of an entry with their cents, where their amounts make the entry's; else none."""
    parts: list[tuple[Element, int]] = []
    for transaction in entry.findall("NtryDtls/TxDtls"):
        amount = transaction.find("Amt")
        if amount is None:
            amount = transaction.find("AmtDtls/TxAmt/Amt")
        if amount is None or amount.get("Ccy", "") != currency:
            return []
        owner = entry if transaction.find("CdtDbtInd") is None else transaction
        parts.append((transaction, sign_of(owner) * amount_of(amount, currency)))
    return parts if len(parts) > 1 and sum(cents for _, cents in parts) == total else []


def text_of(entry: Element, transactions: list[Element]) -> str:
    """The bank's words of some transactions of an entry, or of an entry that has none."""
    words = [text_at(entry, "AddtlNtryInf")]
    for transaction in transactions:
        words += [part.text or "" for part in transaction.findall("RmtInf/Ustrd")]
        for party in ("RltdPties/Dbtr", "RltdPties/Cdtr"):
            words.append(text_at(transaction, f"{party}/Nm", f"{party}/Pty/Nm"))
        reference = text_at(transaction, "Refs/EndToEndId")
        words.append("" if reference == NO_REFERENCE else reference)
    text = words_of(words)
    for transaction in transactions:
        text = with_number(text, text_at(transaction, "Refs/ChqNb"))
    return text


def lines_of_entry(entry: Element, currency: str) -> list[Line]:
    """The lines of an entry: one, or where it is a sum that the bank parts, one for each transaction."""
    reference = text_at(entry, "AcctSvcrRef", "NtryRef")
    if not reference:
        raise NotUnderstood("it has no reference of the bank's (AcctSvcrRef or NtryRef)")
    day, total = day_at(entry, "BookgDt"), signed(entry, currency)
    parts = parts_of(entry, total, currency)
    if not parts:
        return [Line(day, bank_ref_of(reference), total, text_of(entry, entry.findall("NtryDtls/TxDtls")))]
    return [Line(day, bank_ref_of(f"{reference}/{number}"), cents, text_of(entry, [transaction]))
            for number, (transaction, cents) in enumerate(parts, 1)]


def lines_of(statement: Element, currency: str, notes: list[str]) -> list[Line]:
    """The lines of all entries that are booked. How many are not is noted."""
    lines: list[Line] = []
    pending = 0
    for number, entry in enumerate(statement.findall("Ntry"), 1):
        with within(f"entry {number}"):
            if is_booked(entry):
                lines += lines_of_entry(entry, currency)
            else:
                pending += 1
    if pending:
        notes.append(not_booked(pending))
    return lines


def balances_of(statement: Element, currency: str) -> dict[str, Balance]:
    """The statement's balances by their codes."""
    balances: dict[str, Balance] = {}
    for balance in statement.findall("Bal"):
        code = text_at(balance, "Tp/CdOrPrtry/Cd")
        if code in ("OPBD", "PRCD", "CLBD"):
            if code in balances:
                raise NotUnderstood(f"the file has the balance {code} twice")
            balances[code] = Balance(day_at(balance, "Dt"), signed(balance, currency))
    return balances


def opening_of(balances: dict[str, Balance]) -> Balance | None:
    """The balance as the first day opens. That at which the statement before closed is the next day's."""
    before = balances.get("PRCD")
    if "OPBD" in balances or not before:
        return balances.get("OPBD")
    return Balance(day_beside(before.day, 1), before.cents)


def currency_of(statement: Element) -> str:
    """The currency of the file's first amount."""
    amounts = statement.findall("Bal/Amt") + statement.findall("Ntry/Amt")
    return amounts[0].get("Ccy", "") if amounts else ""


def statement_element(data: bytes) -> Element:
    """The file's statement, with all names in it taken without their namespace."""
    try:
        parser = ElementTree.XMLParser(encoding="utf-8" if UTF8.match(data) else None)
        root = ElementTree.fromstring(data, parser)
    except (ElementTree.ParseError, LookupError, ValueError) as reason:
        raise NotUnderstood(f"the file is no XML: {reason}") from None
    if sum(1 for _ in root.iter()) > MOST:
        raise NotUnderstood(f"the file has more than {MOST} elements")
    for element in root.iter():
        element.tag = element.tag.split("}")[-1]
    return one_of(root, "BkToCstmrStmt/Stmt")


def known_of(lines: list[Line], opening: Balance | None, closing: Balance | None) -> Known:
    """What the file tells of its balances, where it tells one. The other one is that with its lines."""
    first = opening.day if opening else lines[0].day if lines else None
    last = closing.day if closing else None
    if opening:
        return Known(first, last, opening.cents)
    if closing:
        return Known(first, last, closing.cents - total_of(lines))
    return Known(first, last, why="the file tells no balance")


def read(data: bytes) -> Statement:
    """The statement of a camt.053 file, with the balances that it tells."""
    element = statement_element(data)
    currency = currency_of(element)
    booked: list[str] = []
    notes: list[str] = []
    lines = checked(lines_of(element, currency, booked), notes)
    balances = balances_of(element, currency)
    opening, closing = opening_of(balances), balances.get("CLBD")
    check_balances(lines, opening, closing)
    return Statement(lines, opening, closing, notes + booked, known_of(lines, opening, closing))


def check_close(read_statement: Statement, close: str) -> None:
    """Refuses another day than that of the closing balance."""
    closing = read_statement.closing
    if closing is None or closing.day != close:
        raise NotUnderstood(f"the file's closing balance is of {closing.day if closing else 'no day'}, not of {close}")
