"""Asks the counter that serves: for its state, and for tokens, which OpenSSL verifies."""

import http.client
import os
import socket
import tempfile

from . import places
from .machine import Refused

TYPE = "application/timestamp-query"
QUOTA = b"rule 11"
SECONDS = 60


class AtSocket(http.client.HTTPConnection):
    """HTTP at a Unix socket."""

    def __init__(self, path):
        super().__init__("localhost", timeout=SECONDS)
        self.path = path

    def connect(self):
        self.sock = socket.socket(socket.AF_UNIX, socket.SOCK_STREAM)
        self.sock.settimeout(SECONDS)
        self.sock.connect(self.path)


def connection(machine, address):
    if address.startswith("unix:"):
        return AtSocket(machine.path(address.removeprefix("unix:")))
    return http.client.HTTPConnection(address, timeout=SECONDS)


def operator_key(machine):
    """The operator's key, from the line `Counter-Key: ..`; none if there is none."""
    if not machine.exists(places.HEADER):
        return None
    return machine.read(places.HEADER).partition(":")[2].strip()


def asked(machine, method, target, body=None, headers=None):
    """Status and body of an answer; refused where nobody answers."""
    if not machine.exists(places.ADDRESS):
        raise Refused("the counter doesn't serve", "systemctl start counter; counterctl check tells why it may not")
    one = connection(machine, machine.read(places.ADDRESS).strip())
    key = operator_key(machine)
    given = {"Counter-Key": key, **(headers or {})}
    try:
        one.request(method, target, body, {name: value for name, value in given.items() if value})
        answer = one.getresponse()
        return answer.status, answer.read()
    except OSError as fault:
        raise Refused(f"the counter doesn't answer: {fault}", "journalctl -u counter tells why") from None
    finally:
        one.close()


def state(machine):
    """What GET /status tells, by its names."""
    status, body = asked(machine, "GET", "/status")
    if status != 200:
        told = body.decode(errors="replace").strip()
        raise Refused(f"the counter refuses its state: {told}", "counterctl account key operator, with --restart")
    return dict(line.split(" ", 1) for line in body.decode().splitlines())


def token(machine, what="a token"):
    """Asks for a token as the operator, or as nobody if the quota of that is used up, and has OpenSSL verify it by root
    and chain; tells its number."""
    with tempfile.TemporaryDirectory() as folder:
        document, query, reply = (os.path.join(folder, name) for name in ("document", "query", "reply"))
        with open(document, "wb") as file:
            file.write(b"counterctl\n")
        machine.ask("openssl", "ts", "-query", "-data", document, "-sha256", "-cert", "-out", query)
        with open(query, "rb") as file:
            octets = file.read()
        status, body = asked(machine, "POST", "/tsp", octets, {"Content-Type": TYPE})
        if QUOTA in body:
            status, body = asked(machine, "POST", "/tsp", octets, {"Content-Type": TYPE, "Counter-Key": None})
        with open(reply, "wb") as file:
            file.write(body)
        return verified(machine, query, reply, status, what)


def verified(machine, query, reply, status, what):
    text = machine.tells("openssl", "ts", "-reply", "-in", reply, "-text")
    lines = dict(line.split(": ", 1) for line in text.splitlines() if ": " in line)
    if status != 200 or not lines.get("Status", "").startswith("Granted"):
        rule = lines.get("Status description", f"HTTP {status}")
        raise Refused(f"{what}: refused by {rule}", RULES.get(rule, "counterctl check"))
    known = ("-CAfile", machine.path(places.ROOT)) if machine.exists(places.ROOT) else own_certificate(machine, reply)
    done, _, errors = machine.ask("openssl", "ts", "-verify", "-queryfile", query, "-in", reply, *known)
    if done != 0:
        raise Refused(f"{what}: OpenSSL doesn't verify it: {errors.decode().strip()}", "counterctl check")
    number = int(lines["Serial number"], 16)
    machine.tell(f"{what}: number {number}, verified by OpenSSL")
    return number


def own_certificate(machine, reply):
    """Where the root isn't known: the certificate itself, in a file beside the reply."""
    file = f"{reply}.certificate"
    text = machine.ask("openssl", "x509", "-inform", "DER", text=machine.octets(places.CERTIFICATE))[1]
    with open(file, "wb") as opened:
        opened.write(text)
    return "-partial_chain", "-CAfile", file


RULES = {
    "rule 03": "the operator's account isn't known to the counter: systemctl restart counter",
    "rule 10": "see to chronyd, then systemctl start counter-calibrate; or wait for the end of a hold",
    "rule 11": "the operator's quota of the day is used up: wait for midnight in UTC",
    "rule 12": "journalctl -u counter-key-holder tells why nothing is signed",
}
