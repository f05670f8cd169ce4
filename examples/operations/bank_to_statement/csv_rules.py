"""Reads a file of hledger's CSV rules: what the columns of a bank's CSV are called, and what its lines are made of.

Taken of these rules are `skip`, `separator`, `fields`, `date-format`, `decimal-mark`, assignments of fields, and `if`
with its patterns, assignments and `skip`. What tells of accounts and order is passed over, and all else
refused.
"""
import re
import warnings
from dataclasses import dataclass, field

from .values import NotUnderstood, quoted, within

# The fields that a line of a statement is made of, by the names that the rules have for them.
USED = {"date": "date", "description": "description", "code": "code", "comment": "comment", "currency": "currency",
        "amount": "amount", "amount-in": "amount-in", "amount-out": "amount-out", "currency1": "currency",
        "amount1": "amount", "amount1-in": "amount-in", "amount1-out": "amount-out", "balance": "balance",
        "balance1": "balance"}
PASSED_OVER = {"account1", "account2", "balance-type", "date2", "intra-day-reversed",
               "newest-first", "status"}
SEPARATORS = {",": ",", ";": ";", "|": "|", "tab": "\t", "\\t": "\t"}

COMMENT = re.compile(r"\s*([#;*].*)?")
SETTING = re.compile(r"([A-Za-z0-9-]+)(?:\s*:\s*|\s+|$)(.*)")
OF_COLUMN = re.compile(r"%([A-Za-z0-9_-]+)\s+(.*)")
COLUMN = re.compile(r"%([A-Za-z0-9_-]+)")


@dataclass(frozen=True)
class Pattern:
    """What a row is compared with: a column of it, or all of it where none is named. A joined one has to fit along with
    the one before."""

    column: str
    expression: re.Pattern[str]
    is_joined: bool


@dataclass
class Condition:
    """An `if`: what is assigned to the rows that fit its patterns, or that these are skipped."""

    patterns: list[Pattern]
    assignments: dict[str, str] = field(default_factory=dict)
    is_skip: bool = False
    has_begun: bool = False


@dataclass
class Rules:
    """The rules of a bank's CSV."""

    skip: int = 0
    separator: str = ","
    columns: list[str] = field(default_factory=list)
    date_format: str = ""
    decimal_mark: str = ""
    assignments: dict[str, str] = field(default_factory=dict)
    conditions: list[Condition] = field(default_factory=list)

    def place_of(self, column: str) -> int:
        """The place of a column in a row, by its name or its number."""
        if column.lower() in self.columns:
            return self.columns.index(column.lower())
        if not re.fullmatch("[1-9][0-9]?", column):
            raise NotUnderstood(f"the rules name no column {quoted(column)}")
        return int(column) - 1


def pattern_of(text: str) -> Pattern:
    """The pattern of a line of an `if`."""
    is_joined = text.startswith("&")
    text = text.removeprefix("&").strip()
    named = OF_COLUMN.fullmatch(text)
    column, expression = named.groups() if named else ("", text)
    if expression.startswith("!"):
        raise NotUnderstood(f"{quoted(text)} is not taken as a pattern")
    try:
        # What Python warns of, it may read otherwise than hledger.
        with warnings.catch_warnings():
            warnings.simplefilter("error")
            return Pattern(column, re.compile(expression, re.IGNORECASE), is_joined)
    except (re.error, OverflowError, Warning):
        raise NotUnderstood(f"{quoted(text)} is not taken as a pattern") from None


class Reader:
    """Reads rules line by line, and knows the `if` that it is in."""

    def __init__(self) -> None:
        self.rules = Rules()
        self.condition: Condition | None = None
        self.directives: set[str] = set()

    def take(self, line: str) -> None:
        """Takes a line of the rules."""
        text = line.strip()
        setting = SETTING.fullmatch(text)
        name, value = (setting[1].lower(), setting[2]) if setting else ("", "")
        if line[0].isspace():
            is_taken = self.condition is not None and self.take_in_condition(self.condition, name, value)
        elif self.condition and not self.condition.has_begun:
            self.condition.patterns.append(pattern_of(text))
            is_taken = True
        else:
            self.condition = None
            is_taken = self.take_directive(name, value) or assign(self.rules.assignments, name, value)
        if not is_taken:
            raise NotUnderstood(f"{quoted(text)} is not taken")

    def take_in_condition(self, condition: Condition, name: str, value: str) -> bool:
        """Whether a line in an `if` is taken."""
        condition.has_begun = True
        if name == "skip" and not value:
            condition.is_skip = True
            return True
        return assign(condition.assignments, name, value)

    def take_directive(self, name: str, value: str) -> bool:
        """Whether a rule is taken that is about the whole file, or begins an `if`."""
        rules = self.rules
        if name == "if":
            self.condition = Condition([pattern_of(value)] if value else [])
            rules.conditions.append(self.condition)
        elif name == "skip" and re.fullmatch("[0-9]{0,4}", value):
            rules.skip = int(value or "1")
        elif name == "separator" and value.lower() in SEPARATORS:
            rules.separator = SEPARATORS[value.lower()]
        elif name == "decimal-mark" and value in (".", ","):
            rules.decimal_mark = value
        elif name == "date-format":
            rules.date_format = value
        elif name == "fields":
            self.take_columns(value.split(","))
        else:
            return False
        if name != "if" and name in self.directives:
            raise NotUnderstood(f"{name} is given twice")
        self.directives.add(name)
        return True

    def take_columns(self, names: list[str]) -> None:
        """Takes the names of the columns. One that is called as a field is assigned to it."""
        self.rules.columns = [name.strip().strip('"').lower() for name in names]
        for number, name in enumerate(self.rules.columns, 1):
            assign(self.rules.assignments, name, f"%{number}")


def assign(assignments: dict[str, str], name: str, value: str) -> bool:
    """Assigns to a field, if it is one that is used; whether there is a field of this name."""
    if name in USED:
        assignments[USED[name]] = value
    return name in USED or name in PASSED_OVER


def check(rules: Rules) -> None:
    """Refuses rules that lack what each line has to have, or that name a column which is none."""
    if "date" not in rules.assignments or not rules.assignments.keys() & {"amount", "amount-in", "amount-out"}:
        raise NotUnderstood("the rules tell no date or no amount")
    for condition in rules.conditions:
        if not condition.patterns or condition.patterns[0].is_joined:
            raise NotUnderstood("an if of the rules has no pattern, or begins with &")
        for pattern in condition.patterns:
            if pattern.column:
                rules.place_of(pattern.column)
    for assignments in [rules.assignments, *(condition.assignments for condition in rules.conditions)]:
        for column in COLUMN.findall(" ".join(assignments.values())):
            rules.place_of(column)


def read(text: str) -> Rules:
    """The rules of a file."""
    reader = Reader()
    for number, line in enumerate(text.splitlines(), 1):
        if not COMMENT.fullmatch(line):
            with within(f"line {number} of the rules"):
                reader.take(line)
    check(reader.rules)
    return reader.rules
