"""What another site's page, a label and a spoofed field can do to somebody who has signed on."""
import base64
import http.server
import json
import pathlib
import re
import threading

from shared import free_port

from .browser import Browser
from .checks import Checks
from .firm import Answer, Change, Desk, Firm, FrontEnd

DAY = "2024-01-10"

# The other site is localhost, the desk's is 127.0.0.1: two sites to a browser. A page has {front} for the desk's.
PAGES = {
    "form": """<form id=f method=post action="{front}/matters/000001/entries/0001/decline"></form>
        <script>f.submit()</script>""",
    "text": """<form id=f method=post enctype=text/plain action="{front}/matters/000001/seats">
        <input name='{{"person":"x' value='","person":"eve","role":"lawyer"}}'></form><script>f.submit()</script>""",
    "fetch": """<script>fetch("{front}/matters/000001/seats", {{ method: "POST", mode: "no-cors",
        credentials: "include", body: '{{"person":"mal","role":"lawyer"}}' }})</script>""",
    "picture": """<img src="{front}/firm/journal">""",
    "frame": """<iframe src="{front}/"></iframe>""",
    "link": """<a id=a href="{front}/#/m/000001">x</a>""",
    "answer": """<a id=a href="{front}/matters/000001/accounting">x</a>""",
}

ORIGIN_TEST = "    if ($from_elsewhere) {\n        return 403;\n    }\n"
SITE_TEST = "    if ($brought_here) {\n        return 403;\n    }\n"


def without(*parts: str) -> Change:
    """The configuration with these parts taken out."""
    def change(text: str) -> str:
        for part in parts:
            assert part in text, part
            text = text.replace(part, "")
        return text
    return change


# What becomes of each page: the status that the front end logged. Without both tests the first two are done.
VARIANTS = {
    "as it is": (without(), {"form": 403, "text": 403, "fetch": 403, "picture": 403, "frame": 401, "link": 200,
                             "answer": 403}),
    "the test of Origin alone": (without(SITE_TEST), {"form": 403, "text": 403, "fetch": 403, "picture": 401,
                                                      "frame": 401, "link": 200, "answer": 200}),
    "the test of Sec-Fetch-Site alone": (without(ORIGIN_TEST), {"form": 403, "text": 403, "fetch": 403, "picture": 403,
                                                                "frame": 401, "link": 200, "answer": 403}),
    "without both tests": (without(ORIGIN_TEST, SITE_TEST), {"form": 200, "text": 200, "fetch": 401, "picture": 401,
                                                             "frame": 401, "link": 200, "answer": 200}),
}


class OtherSite:
    """Another site, whose pages ask the front end."""

    def __init__(self) -> None:
        self.front = ""
        site = self

        class Handler(http.server.BaseHTTPRequestHandler):
            def do_GET(self) -> None:
                page = PAGES.get(self.path[1:], "").format(front=site.front)
                self.send_response(200)
                self.send_header("content-type", "text/html")
                self.end_headers()
                self.wfile.write(page.encode())

            def log_message(self, *_: object) -> None:
                """Nothing."""

        self.server = http.server.ThreadingHTTPServer(("127.0.0.1", free_port()), Handler)
        self.origin = f"http://localhost:{self.server.server_address[1]}"
        threading.Thread(target=self.server.serve_forever, daemon=True).start()


def asked_status(front: FrontEnd, page: str, before: int) -> int:
    """The status of what the page had the browser ask."""
    target = re.findall(r'\{front\}([^"#]*)', PAGES[page])[0]
    found = [line for line in front.log()[before:] if line.split()[3] == target]
    return int(found[-1].split()[0]) if found else 0


def open_page(browser: Browser, site: OtherSite, front: FrontEnd, page: str) -> int:
    site.front = front.origin
    before = len(front.log())
    browser.web.get(f"{site.origin}/{page}")
    links = browser.find("#a")
    if links:
        links[0].click()
    for _ in range(400):
        status = asked_status(front, page, before)
        if status:
            return status
        browser.wait("setTimeout(done, 50)")
    return 0


def prepare(firm: Firm) -> None:
    """A matter with a payment that waits, and a deposit whose labels would be HTML."""
    asks = [("seats", {"person": "ada", "role": "client"}),
            ("entries/0001/propose", {"amount": "1.00", "from": "general", "payee": "Court", "purpose": "x",
                                      "instrument": "1"}),
            ("entries/0002/deposit", {"amount": "1.00", "source": "<img src=x onerror=alert(1)>",
                                      "description": "<script>alert(1)</script>"})]
    for path, body in asks:
        firm.desk.ask("cashier", "POST", f"/matters/000001/{path}", json.dumps(body))


def try_pages(firm: Firm, folder: pathlib.Path, site: OtherSite, checks: Checks) -> None:
    """Each page in a browser in which a lawyer has signed on, and the cashier for the asks of the office."""
    for at, (variant, (change, statuses)) in enumerate(VARIANTS.items()):
        front = FrontEnd(folder / f"variant-{at}", firm.desk.port, change)
        for page, status in statuses.items():
            browser = Browser("cashier" if page in ("text", "fetch", "picture") else "lee", front.origin)
            checks.same(f"{variant}: the status of the {page}", open_page(browser, site, front, page), status)
            if page == "frame":
                browser.web.switch_to.frame(0)
                framed = browser.run("return document.body ? document.body.innerText : ''")
                checks.so(f"{variant}: nothing is framed", "My matters" not in framed, framed)
            browser.quit()
        matter = json.loads(firm.desk.ask("cashier", "GET", "/matters/000001")[1])
        entry = json.loads(firm.desk.ask("cashier", "GET", "/matters/000001/entries/0001")[1])
        is_done = variant == "without both tests"
        checks.same(f"{variant}: the payment", entry["state"], "declined" if is_done else "proposed")
        has_seat = "eve" in [seat["person"] for seat in matter["seats"]]
        checks.same(f"{variant}: whether a stranger has a seat", has_seat, is_done)
        front.end()


def try_own_browser(firm: Firm, site: OtherSite, checks: Checks) -> None:
    """What a client can do from within the page, and what a fault of the page could."""
    ada = Browser("ada", firm.origin)
    spoofed = ada.wait("fetch('/firm/journal', { headers: { 'x-caller': 'cashier' } })"
                       ".then(({ status }) => done(status))")
    checks.same("the journal, asked with an x-caller", spoofed, 403)
    html = ada.run("try { document.body.innerHTML = '<b>x'; return 'set' } catch (fault) { return String(fault) }")
    checks.so("no HTML is made of a text", "TrustedHTML" in html, html)
    script = ada.run("""const made = document.createElement('script');
        try { made.textContent = 'document.title = 1'; document.body.append(made); } catch (fault) { return 'refused' }
        return document.title""")
    checks.so("no script of the page's own is run", script != "1", script)
    gone = ada.wait("fetch(arguments[0]).then(() => done('went'), () => done('refused'))", f"{site.origin}/link")
    checks.same("what is sent to another site", gone, "refused")
    ada.web.get(f"{firm.origin}/matters/000001/accounting")
    seen = ada.run("return [document.contentType, document.querySelectorAll('img, script').length]")
    checks.same("an answer that is opened by itself", seen, ["text/plain", 0])
    ada.quit()


HEADERS = {"cache-control": "no-store", "x-content-type-options": "nosniff", "x-frame-options": "DENY",
           "referrer-policy": "same-origin", "cross-origin-opener-policy": "same-origin",
           "cross-origin-resource-policy": "same-origin"}


def look_at_headers(what: str, answer: Answer, person: str | None, checks: Checks) -> None:
    headers = answer[2]
    for name, value in HEADERS.items():
        checks.same(f"{name} of {what}", headers.get(name), value)
    policy = headers.get("content-security-policy", "")
    for part in ("default-src 'none'", "script-src 'self'", "frame-ancestors 'none'", "form-action 'none'",
                 "trusted-types bank"):
        checks.so(f"the policy of {what} has {part}", part in policy, policy)
    checks.same(f"x-person of {what}", headers.get("x-person"), person)


def try_fields(firm: Firm, checks: Checks) -> None:
    """The statuses and headers of answers to what is no browser, or says that it is another site's."""
    front = firm.front
    for what, person, path, status in (
            ("the page", "ada", "/", 200), ("a module", "ada", "/page/desk.js", 200),
            ("no file", "ada", "/page/none.js", 404), ("a matter", "ada", "/matters/000001", 200),
            ("another's matter", "ada", "/matters/000009", 404), ("the firm's", "ada", "/firm/journal", 403),
            ("nobody", "", "/", 401)):
        answer = front.ask(person, "GET", path)
        checks.same(f"the status of {what}", answer[0], status)
        look_at_headers(what, answer, person or None, checks)
    for what, path, status, fields in (
            ("a page of this site", "/matters/000001", 200, {"sec-fetch-site": "same-origin", "origin": firm.origin}),
            ("an address that was typed", "/matters/000001", 200, {"sec-fetch-site": "none"}),
            ("another site", "/matters/000001", 403, {"sec-fetch-site": "cross-site"}),
            ("another site of this domain", "/matters/000001", 403, {"sec-fetch-site": "same-site"}),
            ("another site's link to the page", "/", 200, {"sec-fetch-site": "cross-site"}),
            ("another origin", "/matters/000001", 403, {"origin": "http://elsewhere.example"}),
            ("another origin for the page", "/page/page.js", 403, {"origin": "http://elsewhere.example"}),
            ("no origin", "/matters/000001", 403, {"origin": "null"})):
        checks.same(f"the status for {what}", front.ask("ada", "GET", path, fields)[0], status)
    for path in ("/", "/page/index.html"):
        checks.same(f"the status of a POST to {path}", front.ask("ada", "POST", path)[0], 403)
    checks.same("a way out of the folder of files", front.ask("ada", "GET", "/page/../../office.people")[0], 400)
    for what, name in (("a wrong password", "cashier"), ("a name with a line end", "x\r\n\r\n<b>told</b>"),
                       ("a name that ends a line", "lee\n"), ("a name with a control character", "\u001b[31m")):
        word = base64.b64encode(f"{name}:wrong".encode()).decode()
        status, text, headers = front.ask("", "GET", "/", {"authorization": f"Basic {word}"})
        checks.same(f"the status of {what}", status, 401)
        checks.same(f"x-person of {what}", headers.get("x-person"), "cashier" if name == "cashier" else None)
        checks.so(f"{what} tells nothing", "told" not in text, text)


def limit(text: str) -> str:
    """The configuration with limits that a slow machine reaches too."""
    return re.sub(r"burst=(1000|2000)", "burst=5", re.sub(r"rate=[0-9]+r/s", "rate=1r/m", text))


def try_limits(firm: Firm, folder: pathlib.Path, checks: Checks) -> None:
    """Asks above the limit are 429, and not the 503 behind which something may be done. No claim counts as one."""
    front = FrontEnd(folder / "limits", firm.desk.port, limit)
    statuses = [front.ask("ada" if at % 2 else "", "GET", "/")[0] for at in range(20)]
    checks.same("the statuses at the limit", statuses, [401, 200] * 6 + [401, 429] * 4)
    for path in ("/", "/page/page.js", "/page/firm.txt", "/matters", "/firm/statements"):
        checks.same(f"the status of {path} of another person there", front.ask("lee", "GET", path)[0], 429)
    front.end()


def play(program: str, folder: pathlib.Path, checks: Checks) -> None:
    desk = Desk(program, folder / "book.db", DAY)
    desk.run("sheet", text="open,000001,,Ada Chen,lee\n")
    firm = Firm(desk, folder / "front")
    site = OtherSite()
    try:
        prepare(firm)
        try_fields(firm, checks)
        try_limits(firm, folder, checks)
        try_own_browser(firm, site, checks)
        try_pages(firm, folder, site, checks)
    finally:
        site.server.shutdown()
        firm.end()
