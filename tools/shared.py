"""What several tools have in common: where the repository and the built program are, the reports, and the ports
of `serve`.

Whoever imports this sets `sys.dont_write_bytecode` first, as for loading.py.
"""
import os
import random
import socket
import sys
import threading
import time

ROOT = os.path.dirname(os.path.dirname(os.path.realpath(__file__)))
BUILT = os.path.join(ROOT, "crates", "cashier_cli", "out", "cashier_cli")
CASHIER = os.path.join(ROOT, "cashier")  # runs the program of program/
# The reports: their commands, and their routes, in which the operands stand.
REPORTS = {"trial": "/firm/trial-balance", "journal": "/firm/journal", "retention": "/firm/retention",
           "exceptions": "/firm/exceptions", "reconcile": "/firm/reconciliation/{0}", "clients": "/firm/clients/{0}",
           "receipts": "/firm/receipts/{0}/{1}", "disbursements": "/firm/disbursements/{0}/{1}",
           "approvals": "/firm/approvals/{0}/{1}", "trail": "/firm/trail",
           "outstanding": "/firm/outstanding/{0}", "month": "/firm/month/{0}", "ledger": "/matters/{0}/accounting",
           "account": "/matters/{0}/accounting/{1}/{2}"}
# Those of the firm, whose operands are days.
OF_FIRM = {name: path for name, path in REPORTS.items() if path.startswith("/firm/")}

LOCK, GIVEN = threading.Lock(), set()


def free_port():
    """A port of 127.0.0.1 that nobody has. The system gives none of these to a client, and this none of them twice."""
    with LOCK:
        while True:
            port = random.randrange(10_000, 32_000)
            with socket.socket() as held:
                try:
                    held.bind(("127.0.0.1", port))
                except OSError:
                    continue
            if port not in GIVEN:
                GIVEN.add(port)
                return port


def is_listened_on(port):
    """Whether a program listens on a port of 127.0.0.1. To connect would be one of the connections that it serves."""
    with open("/proc/net/tcp", encoding="ascii") as table:
        return f"0100007F:{port:04X} 00000000:0000 0A" in table.read()


def wait_for(port, process, seconds=120):
    """Until the process listens on the port. Where it does not, the tool ends."""
    end = time.monotonic() + seconds
    while not is_listened_on(port):
        if process.poll() is not None or time.monotonic() > end:
            tool = os.path.basename(sys.argv[0])
            sys.exit(f"{tool}: nobody listens on port {port}, and the program's status is {process.poll()}")
        time.sleep(0.02)
