"""The certificates by which the page in the browser checks tokens."""

import os

from . import certificates, places

NGINX = "/etc/nginx"
SIGNERS = ".signers.pem"
FOLDER = "/etc/counter-page"


def signers_of(machine):
    """The files with certificates of the TSA, one for each name of the proxy."""
    folder = machine.path(NGINX)
    names = os.listdir(folder) if os.path.isdir(folder) else []
    return [f"{NGINX}/{name}" for name in names if name.endswith(SIGNERS)]


def add_certificates(machine, signers):
    """Adds the TSA's certificate, its chain and the root to those of earlier tokens."""
    if not machine.exists(places.CERTIFICATE):
        return
    of_tsa = in_pem(machine, machine.octets(places.CERTIFICATE))
    for name in signers:
        add(machine, name, of_tsa)
    if not os.path.isdir(machine.path(FOLDER)):
        return
    for one in certificates.stored_chain(machine):
        add(machine, f"{FOLDER}/chain.pem", in_pem(machine, one))
    if machine.exists(places.ROOT):
        add(machine, f"{FOLDER}/ca.pem", machine.octets(places.ROOT))


def in_pem(machine, der):
    return machine.ask("openssl", "x509", "-inform", "DER", text=der)[1]


def add(machine, name, pem):
    old = machine.octets(name) if machine.exists(name) else b""
    if pem not in old:
        machine.write(name, old + (b"\n" if old and not old.endswith(b"\n") else b"") + pem)
