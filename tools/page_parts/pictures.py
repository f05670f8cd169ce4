"""The pictures of docs/pictures, of the month of examples/month on its thirtieth day and at its end."""
import pathlib

from . import firms
from .browser import PHONE, Browser
from .firm import Desk, Firm

WIDTH = 1000

# The browser's clock has the desk's day.
CLOCK = """const Real = Date;
Date = class extends Real {{
    constructor(...given) {{
        super(...(given.length ? given : ['{}T09:30:00']));
    }}
}};"""

# The day, and the step before which the month stops; the file, whose browser, the view, and the width and the greatest
# height of each picture.
DAYS = (
    ("2026-03-30", "messages/17-approve-transcript.http", (
        ("overview.png", "cashier", "#/", WIDTH, 880),
        ("decision.png", "lee", "#/m/000003/e/0005", WIDTH, 712),
        ("matter-on-a-phone.png", "ada", "#/m/000001", PHONE, 984),
    )),
    ("2026-03-31", "messages/19-accounting.http", (
        ("month-end.png", "cashier", "#/month/2026-03-31", WIDTH, 1190),
    )),
)


def take_of(firm: Firm, day: str, pictures: tuple[tuple[str, str, str, int, int], ...], into: pathlib.Path) -> None:
    for name, person, view, width, height in pictures:
        browser = Browser(person, firm.origin, width)
        browser.web.execute_cdp_cmd("Page.addScriptToEvaluateOnNewDocument", {"source": CLOCK.format(day)})
        browser.open(view)
        browser.settle()
        (into / name).write_bytes(browser.picture(height))
        browser.quit()


def take(program: str, folder: pathlib.Path, into: pathlib.Path) -> None:
    for day, until, pictures in DAYS:
        book = folder / f"{day}.db"
        firms.play_month(program, book, until=until)
        firm = Firm(Desk(program, book, day), folder / day)
        try:
            take_of(firm, day, pictures, into)
        finally:
            firm.end()
