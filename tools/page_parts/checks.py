"""Counts what was looked at."""
import typing


class Checks:
    """How many checks passed and failed. A check that fails prints a line."""

    def __init__(self) -> None:
        self.passed = 0
        self.failed = 0

    def so(self, what: str, is_so: bool, seen: object = "") -> None:
        """Counts one check: what should be so, whether it is, and what was seen in its place."""
        if is_so:
            self.passed += 1
            return
        self.failed += 1
        print(f"NOT SO: {what} | {str(seen)[-900:]}", flush=True)

    def has(self, where: str, text: str, words: typing.Iterable[str]) -> None:
        """Counts a check for each of the words: they stand in the text."""
        for each in words:
            self.so(f"{where} {each!r}", each in text, text)

    def lacks(self, where: str, text: str, words: typing.Iterable[str]) -> None:
        """Counts a check for each of the words: they do not stand in the text."""
        for each in words:
            self.so(f"{where} {each!r}", each not in text, text)

    def same(self, what: str, seen: object, wanted: object) -> None:
        """Counts one check: the two are equal."""
        self.so(f"{what} is {wanted!r}", seen == wanted, seen)
