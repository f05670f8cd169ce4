"""A statement in the CSV that `cashier import` takes, with its references empty."""
import csv
import io
from collections.abc import Iterable
from dataclasses import dataclass, field

from .values import NotUnderstood, amount_text, quoted

# So many lines of a bank's CSV that all go one way are asked about.
MANY = 10
HEADER = ["date", "reference", "bank_ref", "amount", "text"]


@dataclass(frozen=True)
class Line:
    """A line of the bank: its day as YYYY-MM-DD, the bank's reference, the amount in cents, the bank's words."""

    day: str
    bank_ref: str
    cents: int
    text: str


@dataclass(frozen=True)
class Balance:
    """What is in the account as a day opens or closes, in cents."""

    day: str
    cents: int


@dataclass(frozen=True)
class Known:
    """What a file tells of its balances: its first day, and the cents with which that opens; the last day that it may
    close with, which `until` names, or None where the file does not tell where it ends. Or why there is no balance;
    `fault` is what speaks against all of it."""

    first: str | None = None
    last: str | None = None
    opening: int | None = None
    until: str = ""
    why: str = ""
    fault: str = ""


@dataclass(frozen=True)
class Statement:
    """The lines of an account, its balances where they are known, what is noted of the file, and what the file tells of
    its balances."""

    lines: list[Line]
    opening: Balance | None = None
    closing: Balance | None = None
    notes: list[str] = field(default_factory=list)
    known: Known = Known()


def counted(count: int) -> str:
    """So many lines."""
    return "1 line" if count == 1 else f"{count} lines"


def left_out(lines: list[Line], why: str) -> str:
    """What is said of lines that are left out, in the order of their days."""
    first, last = lines[0].day, lines[-1].day
    days = first if first == last else f"{first} to {last}"
    return f"{counted(len(lines))} of {days}, together {amount_text(total_of(lines))}, left out: {why}"


def not_booked(count: int) -> str:
    """What is said of lines that are pending."""
    return f"{counted(count)} left out: not booked by the bank yet"


def closed(read: Statement, close: str, balance: int | None) -> Statement:
    """The statement up to a day, with the balances that the file tells, or by what is told of that day's, in cents."""
    known = read.known
    if balance is None:
        if known.why:
            raise NotUnderstood(known.why)
        if known.last is None and close < (known.first or ""):
            raise NotUnderstood(f"{close} is before {known.first}")
        if known.last is not None and not (known.first or "") <= close <= known.last:
            raise NotUnderstood(f"{close} is no day from {known.first} to {known.until or known.last}")
        if known.fault:
            raise NotUnderstood(known.fault)
    kept = [line for line in read.lines if line.day <= close]
    behind = [line for line in read.lines if line.day > close]
    begin = min(filter(None, [known.first, kept[0].day if kept else None, close]))
    at_open = known.opening if known.opening is not None else (balance or 0) - total_of(kept)
    opening, closing = Balance(begin, at_open), Balance(close, at_open + total_of(kept) if balance is None else balance)
    check_balances(kept, opening, closing)
    notes = [*read.notes, *([left_out(behind, f"behind {close}")] if behind else [])]
    return Statement(kept, opening, closing, notes, known)


def checked(lines: list[Line], notes: list[str]) -> list[Line]:
    """The lines in the order of their days, without those of 0.00, which are noted. No two of them may look alike."""
    nothing = sorted((line for line in lines if not line.cents), key=lambda line: line.day)
    if nothing:
        notes.append(left_out(nothing, "0.00 moves nothing"))
    kept = sorted((line for line in lines if line.cents), key=lambda line: line.day)
    seen: set[tuple[str, str, int]] = set()
    for line in kept:
        key = (line.day, line.bank_ref, line.cents)
        if key in seen:
            raise NotUnderstood(f"two lines of {line.day} have the reference {quoted(line.bank_ref)} and the amount "
                                f"{amount_text(line.cents)}: nothing tells them apart")
        seen.add(key)
    return kept


def check_balances(lines: list[Line], opening: Balance | None, closing: Balance | None) -> None:
    """Refuses balances that the lines don't join."""
    if opening and closing and opening.cents + total_of(lines) != closing.cents:
        first, moved, last = map(amount_text, (opening.cents, total_of(lines), closing.cents))
        raise NotUnderstood(f"the opening balance {first} and the lines {moved} don't make the closing balance {last}")


def total_of(lines: Iterable[Line]) -> int:
    """The sum of lines, in cents."""
    return sum(line.cents for line in lines)


def csv_of(statement: Statement) -> str:
    """The text of a statement."""
    rows = [HEADER]
    if statement.opening:
        rows.append([statement.opening.day, "OPEN", "", amount_text(statement.opening.cents), "Opening balance"])
    rows += [[line.day, "", line.bank_ref, amount_text(line.cents), line.text] for line in statement.lines]
    if statement.closing:
        rows.append([statement.closing.day, "CLOSE", "", amount_text(statement.closing.cents), "Closing balance"])
    output = io.StringIO()
    csv.writer(output, lineterminator="\n").writerows(rows)
    return output.getvalue()
