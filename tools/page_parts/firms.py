"""Firms to look at: the month of examples/month, and one of two hundred matters."""
import pathlib

from .firm import HEAD, ROOT, Desk

MONTH = ROOT / "examples" / "month"


def play_month(program: str, book: pathlib.Path, until: str) -> None:
    """March 2026, with three matters, until the step that takes this file."""
    for step in (MONTH / "steps").read_text(encoding="utf-8").splitlines():
        day, command, taken = step.split()
        if taken == until:
            return
        desk = Desk(program, book, day)
        if command == "import":
            desk.run("import", str(MONTH / taken))
        else:
            desk.run(command, text=(MONTH / taken).read_bytes().decode())


def sheet_of_many(matters: int, entries: int) -> str:
    lines = []
    for each in range(1, matters + 1):
        lawyer = "lee" if each % 2 else "sato"
        lines.append(f"open,{each:06},,Client {each} of the firm,{lawyer}")
        lines += [f"deposit,{each:06},{at:04},{100 + at * 25}.00,Client {each},advance {at}"
                  for at in range(1, entries + 1)]
        if each % 4 == 0:
            lines.append(f"propose,{each:06},{entries + 1:04},60.00,general,,Court Clerk,filing fee,{1000 + each}")
    closed = f"{matters + 1:06}"
    return "\n".join([*lines, f"open,{closed},,Zora Quinn,lee", f"close,{closed},"]) + "\n"


def statement_of_many(matters: int, entries: int) -> str:
    lines = [f"2026-03-{at % 27 + 1:02},M{each:06}-{at:04},B{each}-{at},{100 + at * 25}.00,deposit"
             for each in range(1, matters + 1) for at in range(1, entries)]
    return HEAD + "\n".join(lines) + "\n"


def play_many(desk: Desk, matters: int = 200, entries: int = 10) -> None:
    """So many matters with so many deposits each, all but the last of which the bank has shown; and a closed one."""
    desk.run("sheet", text=sheet_of_many(matters, entries))
    path = desk.book.with_suffix(".csv")
    path.write_text(statement_of_many(matters, entries), encoding="utf-8")
    desk.run("import", str(path))
