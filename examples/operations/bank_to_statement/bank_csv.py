"""Reads a bank's CSV by the rules for it."""
import csv
import datetime
import hashlib
import io
import re
from dataclasses import dataclass

from . import csv_rules
from .csv_rules import COLUMN, Condition, Pattern, Rules
from .statement import MANY, Known, Line, Statement, checked
from .values import (NotUnderstood, amount_text, bank_ref_of, cents_of, day_of, decoded, in_one_line, quoted,
                     with_number, within, words_of)

DAY = re.compile(r"([0-9]{4})[-/.]([0-9]{1,2})[-/.]([0-9]{1,2})")
# A sign in front or a minus behind, or parentheses in its place; dollars or no word for them; digits and their marks.
AMOUNT = re.compile(r"(?:([-+]?)[$]?|[$]([-+]))([0-9.,]+)|[$]?([0-9.,]+)-|\([$]?([0-9.,]+)\)")
# Cells of rows that are no lines of the account: its sums and balances.
SUMMARY = re.compile(
    r"(?:(?:sub|grand )?totals?(?: (?:credits|debits|deposits|withdrawals|payments|fees|checks))?"
    r"|(?:beginning|opening|starting|previous|ending|closing|final) (?:ledger )?balance"
    r"|balance (?:brought |carried )?forward)(?: (?:as of|on|for) .*)?:?", re.IGNORECASE)
# Of these the ones with which the file opens.
OPENS = re.compile("beginning|opening|starting|previous|balance (?:brought )?forward", re.IGNORECASE)
TOTALS = re.compile("(?:sub|grand )?total", re.IGNORECASE)
AS_OF = re.compile(" (?:as of|on|for) (.*?):?$", re.IGNORECASE)
# So many rows with a text a file may have, and so many columns each of them.
MOST_ROWS = 50_000
MOST_COLUMNS = 99
REFERENCE = re.compile(r"(?:^|[\s,])ref:([^,]*)")


@dataclass(frozen=True)
class Row:
    """A row of the CSV, and the line of the file that it ends in."""

    number: int
    cells: list[str]

    def cell(self, place: int) -> str:
        """The cell in this place."""
        if place >= len(self.cells):
            raise NotUnderstood(f"it has {len(self.cells)} columns, and the rules ask for number {place + 1}")
        return self.cells[place]


def rows_of(text: str, rules: Rules) -> list[Row]:
    """The rows behind those that are skipped. Rows without any text are passed over."""
    file = io.StringIO(text, newline="")
    reader = csv.reader(file, delimiter=rules.separator, skipinitialspace=True, strict=True)
    rows: list[Row] = []
    try:
        for cells in filter(None, reader):
            with within(f"line {reader.line_num}"):
                take_row(rows, Row(reader.line_num, cells))
    except csv.Error as reason:
        raise NotUnderstood(f"line {reader.line_num}: {reason}") from None
    return rows[rules.skip:]


def take_row(rows: list[Row], row: Row) -> None:
    """Takes a row, if it has a text."""
    if len(row.cells) > MOST_COLUMNS:
        raise NotUnderstood(f"it has more than {MOST_COLUMNS} columns")
    if any(map(str.strip, row.cells)):
        rows.append(row)
    if len(rows) > MOST_ROWS:
        raise NotUnderstood(f"the file has more than {MOST_ROWS} rows")


def fits(row: Row, pattern: Pattern, rules: Rules) -> bool:
    """Whether a row fits a pattern."""
    text = row.cell(rules.place_of(pattern.column)) if pattern.column else ",".join(row.cells)
    return pattern.expression.search(text) is not None


def fits_any(row: Row, condition: Condition, rules: Rules) -> bool:
    """Whether a row fits one of the patterns of an `if`, and those that are joined to it."""
    found: list[bool] = []
    for pattern in condition.patterns:
        is_fitting = fits(row, pattern, rules)
        if pattern.is_joined:
            found[-1] = found[-1] and is_fitting
        else:
            found.append(is_fitting)
    return any(found)


def filled(row: Row, name: str, value: str, rules: Rules) -> str:
    """What is assigned to a field, with the cells of a row in the places of the columns' names."""
    text = COLUMN.sub(lambda it: row.cell(rules.place_of(it[1])), value).strip()
    # A minus before the column of an amount turns its sign around.
    is_turned = name.startswith("amount") and value.startswith("-%")
    turned = re.fullmatch(r"-(?:-(.*)|\((.*)\)|(.*)-)", text) if is_turned else None
    return (turned[1] or turned[2] or turned[3] or "") if turned else text


def assigned(row: Row, rules: Rules) -> dict[str, str]:
    """What is assigned to the fields of a row; nothing where the row is skipped."""
    assignments = dict(rules.assignments)
    for condition in rules.conditions:
        if fits_any(row, condition, rules):
            if condition.is_skip:
                return {}
            assignments.update(condition.assignments)
    return {name: filled(row, name, value, rules) for name, value in assignments.items() if name != "balance"}


def day_of_cell(text: str, date_format: str) -> str:
    """The day of a cell."""
    if not date_format:
        parts = DAY.fullmatch(text)
        if not parts:
            raise NotUnderstood(f"{quoted(text)} is no day, and the rules have no date-format")
        return day_of(int(parts[1]), int(parts[2]), int(parts[3]))
    # A name for a number of one or two digits is Python's for two.
    date_format = re.sub("%-([dmHIMSyj])", r"%\1", date_format.replace("%e", "%d"))
    try:
        date = datetime.datetime.strptime(text, date_format)
    except (ValueError, re.error):
        raise NotUnderstood(f"{quoted(text)} is no day by the date-format {quoted(date_format)}") from None
    return day_of(date.year, date.month, date.day)


def plain_number(text: str, decimal_mark: str) -> str:
    """Digits without the marks that part thousands. These are taken where it is sure which of the marks they are."""
    for mark, parting in ((".", ","), (",", ".")):
        decimals = rf"[{mark}][0-9]{{1,2}}"
        if decimal_mark == mark:
            decimals = f"({decimals})?"
        if decimal_mark in ("", mark) and re.fullmatch(rf"[0-9]{{1,3}}([{parting}][0-9]{{3}})+{decimals}", text):
            return text.replace(parting, "")
    if decimal_mark and re.search(r"[.,]", text.replace(decimal_mark, "")):
        raise NotUnderstood(f"{quoted(text)} is no amount with the decimal-mark {decimal_mark}")
    return text


def cents_of_cell(text: str, decimal_mark: str) -> int:
    """The cents of a cell."""
    parts = AMOUNT.fullmatch(text)
    if not parts:
        raise NotUnderstood(f"{quoted(text)} is no amount")
    sign, inner_sign, digits, before_minus, in_parentheses = parts.groups()
    cents = cents_of(plain_number(digits or before_minus or in_parentheses, decimal_mark))
    return -cents if "-" in (sign, inner_sign) or before_minus or in_parentheses else cents


def cents_of_row(values: dict[str, str], rules: Rules) -> int:
    """The cents of a row, from one column or from two, of which one has an amount."""
    signs = {"amount": 1, "amount-in": 1, "amount-out": -1}
    told = {name: cents_of_cell(values[name], rules.decimal_mark) for name in signs if values.get(name)}
    moved = {name: cents for name, cents in told.items() if cents}
    if not told or len(moved) > 1:
        raise NotUnderstood(f"it has {len(moved)} amounts, not one")
    return sum(signs[name] * cents for name, cents in moved.items())


def reference_for(day: str, cents: int, text: str, seen: dict[str, int]) -> str:
    """A reference for a line without one: a sum of what it says, and which of its like it is that day."""
    said = f"{day}|{amount_text(cents)}|{text}"
    seen[said] = seen.get(said, 0) + 1
    return f"{hashlib.sha256(said.encode()).hexdigest()[:16]}-{seen[said]}"


def line_of(values: dict[str, str], rules: Rules, seen: dict[str, int]) -> Line:
    """The line of what is assigned to a row's fields."""
    day, cents = day_of_cell(values["date"], rules.date_format), cents_of_row(values, rules)
    text = with_number(words_of([values.get("description")]), values.get("code", ""))
    told = REFERENCE.search(values.get("comment", ""))
    reference = told[1].strip() if told else ""
    reference = bank_ref_of(reference) if reference else reference_for(day, cents, text, seen)
    return Line(day, reference, cents, text)


def check_shape(own: tuple[int, str], first: tuple[int, str]) -> None:
    """Refuses a row with another number of columns, or another currency, than the first one has."""
    if own[0] != first[0]:
        raise NotUnderstood(f"it has {own[0]} columns, and the first line {first[0]}")
    if own[1] != first[1]:
        raise NotUnderstood(f"it is in {quoted(own[1])}, and the first line in {quoted(first[1])}")


@dataclass(frozen=True)
class Step:
    """What a row moves, in cents, and the balance behind it, if it tells one. Of a row that is no line, whether the
    file opens with it."""

    cents: int
    balance: int | None
    day: str | None
    is_line: bool = True
    opens: bool = False


def summary_of(row: Row) -> str | None:
    """The words of a row by which it is no line; None where it is none of these."""
    return next((it for it in map(in_one_line, row.cells) if SUMMARY.fullmatch(it)), None)


def balance_of(row: Row, is_line: bool, rules: Rules) -> int | None:
    """The balance of a row, if it has one that can be read. Of a row that is no line it may stand in the amount's
    place."""
    for name in ("balance",) if is_line else ("balance", "amount"):
        try:
            text = filled(row, name, rules.assignments.get(name, ""), rules)
        except NotUnderstood:
            continue
        if text:
            try:
                return cents_of_cell(text, rules.decimal_mark)
            except NotUnderstood:
                return None
    return None


def mark_of(row: Row, words: str, rules: Rules) -> Step:
    """A balance among the rows: it moves nothing, and tells the day that the file opens or closes with."""
    as_of = AS_OF.search(words)
    day = None
    for value in (rules.assignments["date"], as_of[1] if as_of else ""):
        try:
            day = day or day_of_cell(filled(row, "date", value, rules), rules.date_format)
        except NotUnderstood:
            pass
    return Step(0, balance_of(row, False, rules), day, False, OPENS.match(words) is not None)


def opening_of(steps: list[Step]) -> int | None:
    """The balance before the first of some steps; None where their balances do not go with their amounts."""
    total, opening = 0, None
    for step in steps:
        total += step.cents
        if step.balance is not None:
            opening = step.balance - total if opening is None else opening
            if opening + total != step.balance:
                return None
    return opening


def balance_before(steps: list[Step]) -> int:
    """The same, of rows that stand with the oldest or with the newest first. Where both fit, their days tell which."""
    if all(step.balance is None for step in steps):
        raise NotUnderstood("the file tells no balance")
    forward, backward = opening_of(steps), opening_of(steps[::-1])
    if forward is None and backward is None:
        raise NotUnderstood("the balances of the file do not go with its amounts")
    if forward is None or backward is None or forward == backward:
        return forward if forward is not None else backward or 0
    days = [step.day for step in steps if step.day]
    if days[0] == days[-1]:
        raise NotUnderstood("the balances of the file can be read in two orders")
    return forward if days[0] < days[-1] else backward


def known_of(steps: list[Step]) -> Known:
    """The file's first day, and what it tells of its balances. It does not tell where it ends."""
    days = sorted(step.day for step in steps if step.day and (step.is_line or step.opens))
    first = days[0] if days else None
    try:
        if first is None:
            raise NotUnderstood("the file has no day")
        return Known(first, opening=balance_before(steps))
    except NotUnderstood as reason:
        return Known(first, why=str(reason))


def lines_of(rows: list[Row], rules: Rules, notes: list[str]) -> tuple[list[Line], list[Step]]:
    """The lines of all rows that are not skipped, which have to have as many columns, and one currency; and all that
    moves or tells the balance."""
    lines: list[Line] = []
    steps: list[Step] = []
    seen: dict[str, int] = {}
    shape: tuple[int, str] | None = None
    for row in rows:
        words = summary_of(row)
        if words is not None:
            notes.append(f"line {row.number} left out: no line of the account: {quoted(words)}")
            if not TOTALS.match(words):
                steps.append(mark_of(row, words, rules))
            continue
        with within(f"line {row.number}"):
            values = assigned(row, rules)
            if not values:
                continue
            line = line_of(values, rules, seen)
            own = (len(row.cells), values.get("currency", ""))
            shape = shape or own
            check_shape(own, shape)
        lines.append(line)
        steps.append(Step(line.cents, balance_of(row, True, rules), line.day))
    return lines, steps


def note_one_side(lines: list[Line], notes: list[str]) -> None:
    """Asks about lines that all go one way."""
    if len(lines) >= MANY and len({line.cents > 0 for line in lines}) == 1:
        told, other = ("in", "out") if lines[0].cents > 0 else ("out", "in")
        notes.append(f"all {len(lines)} lines are paid {told}: does another column tell which are paid {other}?")


def read(data: bytes, rules_data: bytes) -> Statement:
    """The lines of a bank's CSV, and what its balances tell."""
    rules = csv_rules.read(decoded(rules_data))
    notes: list[str] = []
    lines, steps = lines_of(rows_of(decoded(data), rules), rules, notes)
    kept = checked(lines, notes)
    note_one_side(kept, notes)
    return Statement(kept, notes=notes, known=known_of(steps))
