"""Takes the first certificate of the key, once it is right."""

from . import ceremony, certificates, places, units
from .machine import Refused

NAME = "certificate"


def words(parser):
    parser.add_argument("file", metavar="FILE")
    parser.add_argument("--root", metavar="FILE")
    parser.add_argument("--chain", action="append", default=[], metavar="FILE")


def do(machine, given):
    machine.only_one()
    if not machine.exists(ceremony.REQUEST):
        raise Refused("no key waits for a certificate", "counterctl ceremony, or setup, which holds it")
    der, chain = checked(machine, given, requested_key(machine, ceremony.REQUEST))
    if machine.exists(places.CERTIFICATE) and machine.octets(places.CERTIFICATE) != der:
        raise Refused(f"there is another certificate, {places.CERTIFICATE}", "counterctl rekey")
    install(machine, given, der, chain)
    machine.tell("then: counterctl setup, as before")
    return 0


def requested_key(machine, request):
    return machine.ask("openssl", "req", "-noout", "-pubkey", text=machine.octets(request))[1].decode().strip()


def checked(machine, given, key):
    """The certificate and its chain, if nothing is wrong with them."""
    root = given.root or (machine.path(places.ROOT) if machine.exists(places.ROOT) else None)
    if root is None:
        raise Refused("the root that verifiers trust isn't named", "--root FILE, in PEM")
    der = certificates.in_form(machine, given.file, "DER")
    chain = certificates.chain_in_der(machine, given.chain)
    found = list(certificates.faults(machine, der, key, chain, root))
    if found:
        raise Refused(f"{given.file}: {'; '.join(what for what, _ in found)}", found[0][1])
    return der, chain


def install(machine, given, der, chain):
    """The chain before the certificate, which the counter needs for its start."""
    if given.root:
        with open(given.root, "rb") as file:
            machine.write(places.ROOT, file.read())
    if chain or machine.exists(places.CHAIN):
        machine.write(places.CHAIN, b"".join(chain))
        units.drop_in(machine, places.CHAIN_UNIT, f'Environment="CHAIN=--chain {places.CHAIN}"')
    machine.write(places.ALGORITHM, certificates.algorithm(machine, der))
    machine.write(places.CERTIFICATE, der)
    ends = certificates.day(certificates.validity(machine, der)[1])
    machine.tell(f"certificate: {certificates.subject(machine, der)}, until {ends}")
