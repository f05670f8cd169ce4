"""A firm to try the page on: `serve` over a book, the relay, and nginx with the repository's configuration."""
import base64
import email.message
import http.client
import http.server
import os
import pathlib
import re
import socketserver
import subprocess
import threading
import time
import typing
import urllib.error
import urllib.request

from shared import free_port, wait_for

ROOT = pathlib.Path(__file__).resolve().parent.parent.parent
CONFIGURATION = ROOT / "examples" / "operations" / "nginx.conf"
PEOPLE = ["cashier", "lee", "sato", "ada", "bob", "cleo", "eve", "Lee"]
NAME, ACCOUNT = "Lee & Sato LLP", "First Bank of Springfield, trust account ending in 4417"  # on what is printed
STARTED = 10_800  # ./cashier may prove and build the program first
LATE = 15  # seconds until nginx gives up, in the place of the configuration's
HEAD = "date,reference,bank_ref,amount,text\n"  # the first line of a statement

Answer = tuple[int, str, dict[str, str]]
Change = typing.Callable[[str], str]  # of the configuration's text


def password(person: str) -> str:
    return f"secret-{person}"


def joined(headers: email.message.Message) -> dict[str, str]:
    """Fields by their names in small letters; those of one name are joined."""
    return {name.lower(): ", ".join(headers.get_all(name, [])) for name in headers.keys()}


class Desk:
    """`serve` over the book in a file."""

    def __init__(self, program: str, book: pathlib.Path, day: str) -> None:
        self.program, self.book, self.day = program, book, day
        self.port = free_port()
        self.process: subprocess.Popen[bytes] | None = None

    def run(self, *words: str, text: str = "") -> str:
        """One of the other commands over the book, while `serve` does not run; what it prints."""
        command = [self.program, "--db", str(self.book), "--today", self.day, *words]
        done = subprocess.run(command, input=text.encode(), stdout=subprocess.PIPE, check=False)
        return done.stdout.decode()

    def begin(self) -> None:
        command = [self.program, "--db", str(self.book), "--today", self.day, "serve", str(self.port), "1000000"]
        self.process = subprocess.Popen(command, stdout=subprocess.DEVNULL)
        wait_for(self.port, self.process, STARTED)

    def end(self) -> None:
        if self.process:
            self.process.terminate()
            self.process.wait()
            self.process = None

    def ask(self, person: str, method: str, path: str, body: str | None = None) -> tuple[int, str]:
        """Asked of `serve` itself, by the field that the front end sets."""
        line = http.client.HTTPConnection("127.0.0.1", self.port, timeout=60)
        line.request(method, path, body.encode() if body else None, {"x-caller": person})
        reply = line.getresponse()
        told = reply.status, reply.read().decode()
        line.close()
        return told


class Fault(typing.NamedTuple):
    """What becomes of a request at the relay, in the place of the desk's answer."""

    kind: str  # lost: done, and not told; closed: not done, and not told; late: told too late; told: told in its place
    status: int = 0
    body: str = ""


class Relay(socketserver.ThreadingMixIn, http.server.HTTPServer):
    """Stands between nginx and `serve`, and hands on what it gets, but for the faults that a test asks for."""

    daemon_threads = True

    def __init__(self, desk: Desk) -> None:
        super().__init__(("127.0.0.1", 0), Relayed)
        self.desk = desk
        self.port = self.server_address[1]
        self.faults: list[tuple[re.Pattern[str], Fault]] = []
        self.imported: list[bytes] = []  # the statements that the desk was handed
        threading.Thread(target=self.serve_forever, daemon=True).start()

    def fail(self, pattern: str, fault: Fault, times: int = 1) -> None:
        """The next requests whose method and path fit meet this fault."""
        self.faults += [(re.compile(pattern), fault)] * times

    def fault_of(self, request: str) -> Fault | None:
        for each in self.faults:
            if each[0].search(request):
                self.faults.remove(each)
                return each[1]
        return None

    def handle_error(self, request: object, client_address: object) -> None:
        """nginx is gone before the answer: it gave up."""


class Relayed(http.server.BaseHTTPRequestHandler):
    """One request."""

    server: Relay
    protocol_version = "HTTP/1.1"

    def answer(self, status: int, kind: str, body: bytes) -> None:
        self.send_response(status)
        self.send_header("content-type", kind)
        self.send_header("content-length", str(len(body)))
        self.end_headers()
        self.wfile.write(body)

    def asked(self) -> tuple[int, str, bytes]:
        """The desk's own answer."""
        body = self.rfile.read(int(self.headers.get("content-length", "0")))
        if self.path == "/firm/statements":
            self.server.imported.append(body)
        line = http.client.HTTPConnection("127.0.0.1", self.server.desk.port, timeout=60)
        line.request(self.command, self.path, body or None, {"x-caller": self.headers.get("x-caller", "")})
        reply = line.getresponse()
        told = reply.status, reply.getheader("content-type", ""), reply.read()
        line.close()
        return told

    def handle_one(self) -> None:
        self.close_connection = True
        fault = self.server.fault_of(f"{self.command} {self.path}")
        if fault and fault.kind == "told":
            self.answer(fault.status, "application/json", fault.body.encode())
            return
        if fault and fault.kind == "closed":
            return
        told = self.asked()
        if fault and fault.kind == "late":
            time.sleep(LATE + 1)
        if not fault:
            self.answer(*told)

    do_GET = do_POST = do_HEAD = do_PUT = handle_one

    def log_message(self, *_: object) -> None:
        """Nothing: nginx has a log."""


class FrontEnd:
    """nginx with the repository's configuration, by whoever runs this, in a folder."""

    def __init__(self, folder: pathlib.Path, behind: int, change: Change = lambda text: text) -> None:
        self.folder = folder
        self.port = free_port()
        self.origin = f"http://127.0.0.1:{self.port}"
        folder.mkdir()
        (folder / "files").mkdir()
        subprocess.run([ROOT / "tools" / "put-page", folder / "files" / "page"], check=True)
        self.write(behind, change)
        self.process = subprocess.Popen(["nginx", "-p", str(folder), "-e", "nginx.err", "-c", "nginx.conf"])
        wait_for(self.port, self.process)

    def write(self, behind: int, change: Change) -> None:
        text = CONFIGURATION.read_text(encoding="utf-8")
        for old, new in (("127.0.0.1:81;", f"127.0.0.1:{self.port};"), ("/etc/gekuipo/", f"{self.folder}/"),
                         ("/usr/share/gekuipo;", f"{self.folder}/files;"), ("timeout 300s", f"timeout {LATE}s"),
                         ("timeout 30m", f"timeout {LATE}s"),
                         ("/var/log/gekuipo/requests.log gekuipo if=$upstream_status;", "access.log asked;")):
            text = text.replace(old, new)
        (self.folder / "gekuipo.conf").write_text(change(text), encoding="utf-8")
        (self.folder / "nginx").mkdir()
        (self.folder / "nginx" / "hosts").write_text("127.0.0.1 office;\n", encoding="ascii")
        (self.folder / "nginx" / "desks").write_text(f"office 127.0.0.1:{behind};\n", encoding="ascii")
        temporary = "".join(f"{kind}_temp_path {kind};" for kind in
                            ("client_body", "proxy", "fastcgi", "uwsgi", "scgi"))
        user = "user root;" if os.getuid() == 0 else ""
        form = "log_format asked '$status $remote_user $request_method $request_uri';"
        (self.folder / "nginx.conf").write_text(
            f"{user} daemon off; pid nginx.pid; error_log nginx.err; events {{}}\n"
            f"http {{ include /etc/nginx/mime.types; {form} {temporary}\n"
            "include gekuipo.conf; }\n", encoding="utf-8")
        (self.folder / "office.txt").write_text(f"{NAME}\n{ACCOUNT}\n", encoding="utf-8")
        (self.folder / "office.people").touch()
        for person in PEOPLE:
            self.admit(person)

    def admit(self, person: str) -> None:
        subprocess.run(["htpasswd", "-bB", str(self.folder / "office.people"), person, password(person)],
                       check=True, stderr=subprocess.DEVNULL)

    def ask(self, person: str, method: str, path: str, fields: dict[str, str] | None = None) -> Answer:
        """Asked of nginx, with the person's password, or by nobody."""
        request = urllib.request.Request(self.origin + path, method=method, headers=fields or {})
        if person:
            word = base64.b64encode(f"{person}:{password(person)}".encode()).decode()
            request.add_header("authorization", f"Basic {word}")
        try:
            with urllib.request.urlopen(request, timeout=60) as reply:
                return reply.status, reply.read().decode(), joined(reply.headers)
        except urllib.error.HTTPError as fault:
            return fault.code, fault.read().decode(), joined(fault.headers)

    def log(self) -> list[str]:
        """The requests so far: status, user, method, address."""
        return (self.folder / "access.log").read_text(encoding="utf-8").splitlines()

    def end(self) -> None:
        self.process.terminate()
        self.process.wait()


class Firm:
    """All of it in one folder: the desk, the relay and the front end."""

    def __init__(self, desk: Desk, folder: pathlib.Path) -> None:
        self.desk = desk
        desk.begin()
        self.relay = Relay(desk)
        self.front = FrontEnd(folder, self.relay.port)
        self.origin = self.front.origin

    def end(self) -> None:
        self.front.end()
        self.relay.shutdown()
        self.desk.end()
