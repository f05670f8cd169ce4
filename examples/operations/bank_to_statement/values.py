"""The values of a statement's lines, from the texts of a bank's file: amounts, days, references and words."""
import contextlib
import datetime
import hashlib
import re
from collections.abc import Iterable, Iterator

# What `cashier import` takes at most: cents with 16 digits before the point, years, bytes of a reference and of a text.
MAX_CENTS = 10**18 - 1
MIN_YEAR, MAX_YEAR = 2000, 2199
MAX_REFERENCE_BYTES = 64
MAX_TEXT_BYTES = 1000

# Of four decimals or more those behind the second are zeros. Of three nobody can say: they may be thousands.
AMOUNT = re.compile(r"([-+]?)([0-9]{1,16})(?:[.,](?:([0-9]{0,2})|([0-9]{2})0{2,}))?")
CONTROLS = re.compile(r"[\x00-\x1f\x7f-\x9f]")
# What a check's or a slip's number stands behind, in a bank's words.
NUMBER_WORDS = r"\b(check|chk|ck|cheque|slip|id number)[^a-z0-9]*((no|num|number)[^a-z0-9]*)?"


class NotUnderstood(Exception):
    """What in the bank's file is not understood. Nothing is written then."""


@contextlib.contextmanager
def within(place: str) -> Iterator[None]:
    """Has what is not understood tell this place of the file."""
    try:
        yield
    except NotUnderstood as reason:
        raise NotUnderstood(f"{place}: {reason}") from None


def decoded(data: bytes) -> str:
    """The text of a file: in UTF-8, or else in Windows-1252."""
    for encoding in ("utf-8-sig", "cp1252"):
        try:
            return data.decode(encoding)
        except UnicodeDecodeError:
            pass
    raise NotUnderstood("the text is neither UTF-8 nor Windows-1252")


def in_one_line(text: str) -> str:
    """A text without control characters, and one blank in the place of all white space."""
    return " ".join(CONTROLS.sub(" ", text).split())


def quoted(text: str) -> str:
    """A text of the bank's file as a message shows it: in one line, and no more than its front."""
    line = in_one_line(text)
    return repr(line if len(line) <= 40 else line[:40] + "..")


def cents_of(text: str) -> int:
    """The cents of an amount, which has a point or a comma before at most two digits, and no other mark."""
    parts = AMOUNT.fullmatch(text)
    if not parts:
        raise NotUnderstood(f"{quoted(text)} is no amount")
    sign, dollars, rest, front = parts.groups()
    cents = int(dollars) * 100 + int((rest or front or "").ljust(2, "0"))
    return -cents if sign == "-" else cents


def amount_text(cents: int) -> str:
    """The text of an amount, as the statement has it."""
    if abs(cents) > MAX_CENTS:
        raise NotUnderstood(f"an amount of {abs(cents) // 100} has more than 16 digits")
    dollars, rest = divmod(abs(cents), 100)
    return f"{'-' if cents < 0 else ''}{dollars}.{rest:02d}"


def day_of(year: int, month: int, day: int) -> str:
    """The text of a day, as the statement has it."""
    try:
        date = datetime.date(year, month, day)
    except ValueError:
        date = None
    if date is None or not MIN_YEAR <= year <= MAX_YEAR:
        raise NotUnderstood(f"{year:04d}-{month:02d}-{day:02d} is no day from {MIN_YEAR} to {MAX_YEAR}")
    return date.isoformat()


def day_beside(day: str, by: int) -> str:
    """The day so many days behind another one."""
    date = datetime.date.fromisoformat(day) + datetime.timedelta(days=by)
    return day_of(date.year, date.month, date.day)


def bank_ref_of(text: str) -> str:
    """A reference of the bank; where a statement can't have it, a sum of it, which is the same each time."""
    if len(text) <= MAX_REFERENCE_BYTES and all(" " <= character <= "~" for character in text):
        return text
    return "sha256:" + hashlib.sha256(text.encode()).hexdigest()[:40]


def words_of(parts: Iterable[str | None]) -> str:
    """The bank's words in one line. What stands in a part before is not said again, nor what is behind the end."""
    told: list[str] = []
    length = 0
    for part in parts:
        words = in_one_line(part or "")
        if not any(words in other for other in told):
            told.append(words)
            length += len(words)
        if length > MAX_TEXT_BYTES:
            break
    return " ".join(filter(None, told)).encode()[:MAX_TEXT_BYTES].decode(errors="ignore").rstrip()


def with_number(text: str, number: str) -> str:
    """The words with the number of the check or slip behind a word that says so, unless it stands there already."""
    number = number.strip().lstrip("0")
    if len(number) > MAX_TEXT_BYTES:
        return words_of([text, f"check {number}"])
    if not number or re.search(rf"{NUMBER_WORDS}0*{re.escape(number)}(?![0-9])", text, re.IGNORECASE):
        return text
    return words_of([text, f"check {number}"])
