"""Reads OFX 1 (SGML) and OFX 2 (XML), as .ofx, .qfx and .qbo files have it.

Both are read alike: a value is the text behind its tag, whether the tag is closed or not. A section begins with a tag
that holds no value itself (a transaction, a balance) and ends with its closing tag or where the next one begins.
"""
import re
from dataclasses import dataclass, field

from .statement import Balance, Known, Line, Statement, checked, not_booked, total_of
from .values import (NotUnderstood, bank_ref_of, cents_of, day_beside, day_of, decoded, quoted, with_number, within,
                     words_of)

TOKEN = re.compile(
    r"<!\[CDATA\[(?P<verbatim>.*?)\]\]>|<!--.*?-->|<\?.*?\?>"
    r"|<(?P<end>/?)(?P<name>[A-Za-z][A-Za-z0-9._]*)\s*/?>|(?P<text>[^<]+)", re.DOTALL)
ENTITY = re.compile(r"&(?:(amp|lt|gt|quot|apos|nbsp)|#([0-9]{1,7})|#x([0-9a-fA-F]{1,6}));")
NAMED = {"amp": "&", "lt": "<", "gt": ">", "quot": '"', "apos": "'", "nbsp": " "}
TIME = re.compile(r"([0-9]{4})([0-9]{2})([0-9]{2})([0-9]{4}([0-9]{2}([.][0-9]{1,3})?)?)?\s*(\[[^\]]*\])?")

TRANSACTION = "STMTTRN"
# Transactions that the bank has not booked yet are left out.
PENDING = "STMTTRNP"
SECTIONS = {"BANKTRANLIST", "BANKTRANLISTP", TRANSACTION, PENDING, "LEDGERBAL", "AVAILBAL", "BALLIST", "BAL"}
# The values that a transaction has to have.
NEEDED = ["DTPOSTED", "TRNAMT", "FITID"]
# So many elements a file may have.
MOST = 200_000
CHARGES = {"FEE", "SRVCHG"}


@dataclass(frozen=True)
class Tag:
    """A tag, and the text that stands behind it."""

    name: str
    is_end: bool
    parts: list[str] = field(default_factory=list)


@dataclass(frozen=True)
class Section:
    """A part of the file, by the name of its tag, and the texts of the values in it by their names."""

    name: str
    values: dict[str, list[str]] = field(default_factory=dict)

    def value(self, name: str) -> str:
        """The value of this name, empty where there is none."""
        texts = [text for text in self.values.get(name, []) if text]
        if len(texts) > 1:
            raise NotUnderstood(f"{self.name} has {name} twice")
        return texts[0] if texts else ""

    def needed(self, name: str) -> str:
        """The value of this name, which has to be there."""
        value = self.value(name)
        if not value:
            raise NotUnderstood(f"{self.name} has no {name}")
        return value


def character_of(entity: re.Match[str]) -> str:
    """The character that an entity stands for; what stands for none is left as it is."""
    name, decimal, hexadecimal = entity.groups()
    if name:
        return NAMED[name]
    code = int(decimal) if decimal else int(hexadecimal, 16)
    is_character = code < 0xD800 or 0xE000 <= code <= 0x10FFFF
    return chr(code) if is_character else entity[0]


def tags_of(text: str) -> list[Tag]:
    """The tags of the file, each with the text behind it."""
    tags: list[Tag] = []
    begun = 0
    at = 0
    while at < len(text):
        token = TOKEN.match(text, at)
        if not token:
            raise NotUnderstood(f"no tag of OFX begins with {quoted(text[at:at + 40])}")
        if token["name"]:
            begun += not token["end"]
            if begun > MOST:
                raise NotUnderstood(f"the file has more than {MOST} elements")
            tags.append(Tag(token["name"].upper(), bool(token["end"])))
        else:
            tags[-1].parts.append(token["verbatim"] or ENTITY.sub(character_of, token["text"] or ""))
        at = token.end()
    return tags


def sections_of(tags: list[Tag]) -> list[Section]:
    """The sections of the file, in order. What stands in none is in one without a name."""
    sections = [Section("")]
    for tag in tags:
        value = "".join(tag.parts).strip()
        if tag.is_end and value:
            raise NotUnderstood(f"{quoted(value)} stands behind the end of {tag.name}")
        if tag.name in SECTIONS:
            sections.append(Section("" if tag.is_end else tag.name))
        elif not tag.is_end:
            sections[-1].values.setdefault(tag.name, []).append(value)
    return sections


def check_account(tags: list[Tag]) -> None:
    """Refuses a file that has not one account, and one that was cut."""
    accounts = [tag.name for tag in tags if not tag.is_end and tag.name.endswith("STMTRS")]
    if accounts != ["STMTRS"]:
        found = ", ".join(accounts) or "none"
        raise NotUnderstood(f"the file has to have one bank account, STMTRS, and has {found}")
    if tags[-1].name != "OFX" or not tags[-1].is_end:
        raise NotUnderstood("the file does not end with </OFX>: it may have been cut")


def check_strays(sections: list[Section]) -> None:
    """Refuses a transaction's value that stands in no transaction."""
    for section in sections:
        strays = [name for name in NEEDED if name in section.values]
        if strays and section.name not in (TRANSACTION, PENDING):
            raise NotUnderstood(f"{strays[0]} stands outside of any transaction")


def only(sections: list[Section], name: str) -> Section:
    """The only section of this name."""
    found = [section for section in sections if section.name == name]
    if len(found) != 1:
        raise NotUnderstood(f"the file has {len(found)} {name}, not one")
    return found[0]


def day_of_time(text: str) -> str:
    """The day of a time: its first eight digits, the bank's own, whatever the hour and the zone."""
    parts = TIME.fullmatch(text)
    if not parts:
        raise NotUnderstood(f"{quoted(text)} is no day")
    return day_of(int(parts[1]), int(parts[2]), int(parts[3]))


def text_of(transaction: Section) -> str:
    """The bank's words of a transaction."""
    text = with_number(words_of([transaction.value("NAME"), transaction.value("MEMO")]), transaction.value("CHECKNUM"))
    is_charge = transaction.value("TRNTYPE").upper() in CHARGES
    if is_charge and not re.search("charge|fee", text, re.IGNORECASE):
        text = words_of([text, "charge"])
    return text


def line_of(transaction: Section, currency: str) -> Line:
    """The line of a transaction."""
    if "CORRECTFITID" in transaction.values:
        raise NotUnderstood("it corrects another one (CORRECTFITID)")
    if "CURRENCY" in transaction.values and transaction.value("CURSYM") != currency:
        raise NotUnderstood(f"it is in {quoted(transaction.value('CURSYM'))}, and the account in {quoted(currency)}")
    day, amount, reference = map(transaction.needed, NEEDED)
    return Line(day_of_time(day), bank_ref_of(reference), cents_of(amount), text_of(transaction))


def lines_of(sections: list[Section]) -> list[Line]:
    """The lines of all transactions."""
    currency = next((section.value("CURDEF") for section in sections if "CURDEF" in section.values), "")
    lines: list[Line] = []
    for transaction in (section for section in sections if section.name == TRANSACTION):
        with within(f"transaction {len(lines) + 1}"):
            lines.append(line_of(transaction, currency))
    return lines


def written_on(sections: list[Section]) -> str | None:
    """The day on which the bank wrote the file; None where it does not tell."""
    try:
        return day_of_time(next((it.value("DTSERVER") for it in sections if "DTSERVER" in it.values), ""))
    except NotUnderstood:
        return None


def balances_of(lines: list[Line], sections: list[Section]) -> Known:
    """The file's balance is of a moment. If the bank wrote the file on that same day, it is in the midst of the day: so
    a day before closed with that less the lines since. On a later day it is that with which its own day closed."""
    if not any(section.name == "LEDGERBAL" for section in sections):
        raise NotUnderstood("the file tells no balance")
    ledger, period = only(sections, "LEDGERBAL"), only(sections, "BANKTRANLIST")
    balance = Balance(day_of_time(ledger.needed("DTASOF")), cents_of(ledger.needed("BALAMT")))
    first, end = day_of_time(period.needed("DTSTART")), day_of_time(period.needed("DTEND"))
    if end < balance.day:
        raise NotUnderstood(f"the balance is of {balance.day}, and the lines end on {end}: those between are missing")
    written = written_on(sections)
    is_whole = written is not None and written > balance.day
    last = end if written and is_whole and written > end else day_beside(written if written and is_whole
                                                                        else balance.day, -1)
    to = end if is_whole else balance.day
    outside = [line.day for line in lines if not first <= line.day <= to]
    return Known(first, last, balance.cents - total_of(line for line in lines if line.day <= balance.day),
                 "" if is_whole else f"the day before that of the balance, {balance.day}", "",
                 f"a line is of {outside[0]}, and the file of {first} to {to}" if outside else "")


def known_of(lines: list[Line], sections: list[Section]) -> Known:
    """The same; where there is no balance, why, with the file's days as far as it tells them."""
    try:
        return balances_of(lines, sections)
    except NotUnderstood as reason:
        return Known(day_at(sections, "DTSTART"), day_at(sections, "DTEND"), why=str(reason))


def day_at(sections: list[Section], name: str) -> str | None:
    """A day of the list of lines; None where there is none."""
    try:
        return day_of_time(only(sections, "BANKTRANLIST").needed(name))
    except NotUnderstood:
        return None


def body_of(text: str) -> str:
    """The file behind its header, in which no tag stands but those of XML's own."""
    header, begin, body = re.split("(<OFX>)", text, maxsplit=1, flags=re.IGNORECASE)
    if "<" in re.sub(r"<\?[^<]*\?>", "", header):
        raise NotUnderstood("a tag stands before <OFX>")
    return begin + body


def read(data: bytes) -> Statement:
    """The lines of an OFX file, and what it tells of its balances."""
    tags = tags_of(body_of(decoded(data)))
    check_account(tags)
    sections = sections_of(tags)
    check_strays(sections)
    notes: list[str] = []
    lines = checked(lines_of(sections), notes)
    pending = sum(section.name == PENDING for section in sections)
    if pending:
        notes.append(not_booked(pending))
    return Statement(lines, notes=notes, known=known_of(lines, sections))
