"""The page's reports that take no day, by their names in its addresses."""
import typing


class Told(typing.NamedTuple):
    """Words that the page shows of a report."""

    walked: str  # at the end of the walk
    empty: str | None = None  # where it has no line
    is_first: bool = True  # whether the overview reads it


REPORTS = {
    "trial-balance": Told("TOTAL"),
    "exceptions": Told("EXCEPTIONS 2024-01-10", "Each line of the bank\u2019s has its entry."),
    "journal": Told("M000001-0001", "Nothing came into the account yet."),
    "retention": Told("RETENTION 2024-01-10", "No matter is closed."),
    "trail": Told("TRAIL 2024-01-10", is_first=False),
}
ADDRESSES = [f"#/report/{name}" for name in REPORTS]
