"""The command bank-to-statement: its words, its output and its exit status."""
import argparse
import os
import re
import sys

from . import bank_csv, camt, ofx
from .statement import Statement, closed, csv_of
from .values import NotUnderstood, cents_of, day_of

DESCRIPTION = """\
Writes a bank's own file as a statement for `cashier import`, to standard output. Its references are empty.

  bank-to-statement [--close DAY [--balance AMOUNT]] FILE            OFX 1 or 2 (.ofx, .qfx, .qbo), or camt.053
  bank-to-statement [--close DAY [--balance AMOUNT]] FILE.csv RULES  a bank's CSV, by hledger's CSV rules

With DAY, as 2026-03-16, only the lines up to that day are taken, and OPEN and CLOSE are told with them: by the file's
own balance, or by AMOUNT, the balance with which DAY closed. A camt.053 file tells both itself, and DAY, if it is
given, has to be the one of its closing balance.

What is left out of a file is told on standard error, a line for each kind. All or nothing else: where something in the
file is not understood, one line says what, nothing is written, and the exit status is 1. That of wrong words is 2.
"""
STANDARD_OUTPUT = 1
# Formats of banks that are not read, and how a file of each begins.
UNREAD = [
    ("QIF", re.compile(r"!(?:Type|Account|Option|Clear)\b", re.IGNORECASE | re.ASCII)),
    ("BAI2", re.compile(r"01,[^,\r\n]*,[^,\r\n]*,[0-9]{6},")),
    ("MT940", re.compile(r"(?:\{1:|:20:).*?^:(?:25|28C?|60[FM]|61):", re.DOTALL | re.MULTILINE)),
]


def day(text: str) -> str:
    """A day of the command line."""
    parts = re.fullmatch("([0-9]{4})-([0-9]{2})-([0-9]{2})", text)
    if not parts:
        raise argparse.ArgumentTypeError(f"{text!r} is no day")
    try:
        return day_of(int(parts[1]), int(parts[2]), int(parts[3]))
    except NotUnderstood as reason:
        raise argparse.ArgumentTypeError(str(reason)) from None


def amount(text: str) -> int:
    """An amount of the command line, in cents."""
    try:
        return cents_of(text)
    except NotUnderstood as reason:
        raise argparse.ArgumentTypeError(str(reason)) from None


def words_of_command(arguments: list[str]) -> argparse.Namespace:
    """The words of the command line."""
    parser = argparse.ArgumentParser("bank-to-statement", description=DESCRIPTION,
                                     formatter_class=argparse.RawDescriptionHelpFormatter)
    parser.add_argument("--close", metavar="DAY", type=day)
    parser.add_argument("--balance", metavar="AMOUNT", type=amount)
    parser.add_argument("file", metavar="FILE")
    parser.add_argument("rules", metavar="RULES", nargs="?")
    words = parser.parse_args(arguments)
    if words.balance is not None and not words.close:
        parser.error("--balance is that of a day: name it by --close")
    return words


def bytes_of(path: str) -> bytes:
    """The bytes of a file."""
    try:
        with open(path, "rb") as file:
            return file.read()
    except OSError as reason:
        raise NotUnderstood(f"{path!r} can't be read: {reason.strerror}") from None


def check_format(data: bytes) -> None:
    """Refuses a file of a format that is known and not read."""
    front = data[:4096].removeprefix(b"\xef\xbb\xbf").lstrip(b" \t\r\n").decode("latin-1")
    found = next((name for name, form in UNREAD if form.match(front)), None)
    if found:
        raise NotUnderstood(f"this is {found}, which is not read: ask the bank for OFX (QFX, QBO), camt.053 or CSV")


def lines_of(data: bytes, rules: str | None) -> Statement:
    """The lines of a bank's file, what is noted of it, and what it tells of its balances."""
    check_format(data)
    if rules:
        return bank_csv.read(data, bytes_of(rules))
    if b"BkToCstmrStmt" in data:
        return camt.read(data)
    if b"<OFX>" in data.upper():
        return ofx.read(data)
    raise NotUnderstood("the file is neither OFX nor camt.053; a CSV needs its rules")


def statement_of(words: argparse.Namespace) -> Statement:
    """The statement of a bank's file."""
    data = bytes_of(words.file)
    read = lines_of(data, words.rules)
    if not words.close:
        return read
    is_camt = not words.rules and b"BkToCstmrStmt" in data
    if read.closing and words.balance is not None:
        raise NotUnderstood("the file tells its closing balance itself")
    if is_camt and words.balance is None:
        camt.check_close(read, words.close)
        return read
    return closed(read, words.close, words.balance)


def text_by(arguments: list[str]) -> str:
    """The text of the statement that the words of a command line ask for."""
    return csv_of(statement_of(words_of_command(arguments)))


def write(text: str) -> None:
    """Writes all of a text to standard output."""
    rest = memoryview(text.encode())
    while rest:
        rest = rest[os.write(STANDARD_OUTPUT, rest):]


def main(arguments: list[str]) -> int:
    """Runs the command, and gives its exit status."""
    try:
        statement = statement_of(words_of_command(arguments))
        for note in statement.notes:
            print(f"bank-to-statement: {note}", file=sys.stderr)
        write(csv_of(statement))
    except NotUnderstood as reason:
        print(f"bank-to-statement: {reason}", file=sys.stderr)
        return 1
    except OSError as reason:
        print(f"bank-to-statement: standard output can't be written: {reason.strerror}", file=sys.stderr)
        return 1
    return 0
