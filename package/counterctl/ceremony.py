"""The key ceremony: a key in a device, a request for its certificate, and a record for those present to sign."""

import re

from . import device, places
from .machine import Refused

NAME = "ceremony"
USAGE = "keyUsage=critical,digitalSignature", "extendedKeyUsage=critical,timeStamping"
REQUEST = f"{places.CEREMONY}/tsa.csr"
KINDS = "rsa:3072", "rsa:4096", "EC:prime256v1", "EC:secp384r1"


def words(parser):
    parser.add_argument("--module", required=True, metavar="FILE")
    parser.add_argument("--name", required=True, metavar="SUBJECT")
    parser.add_argument("--token", default="tsa", metavar="LABEL")
    parser.add_argument("--key-type", default="rsa:3072", choices=KINDS, metavar="KIND")
    parser.add_argument("--so-pin", default=places.SO_PIN, metavar="FILE")
    parser.add_argument("--setting", action="append", default=[], metavar="LINE")


def do(machine, given):
    machine.only_one()
    one = device.Device(machine, given.module, given.token)
    one.look()
    if machine.exists(places.CERTIFICATE):
        raise Refused(f"there is a certificate already, {places.CERTIFICATE}", "counterctl rekey")
    device.make_token(one, given.so_pin)
    make_key(one, "key", given.key_type)
    make_request(one, "key", given.name, REQUEST)
    device.install(one, "key", given.setting)
    tell_request(machine, REQUEST, "counterctl certificate FILE --root FILE")
    if given.so_pin == places.SO_PIN and machine.exists(given.so_pin):
        machine.tell(f"SO PIN: take it from {given.so_pin} to a safe, on paper, and remove the file")
    return 0


def make_key(one, label, kind):
    if one.machine.dry_run and one.flags() is None:
        one.run("--keypairgen", "--key-type", kind, "--usage-sign", "--label", label, *one.login())
        return
    keys = one.keys()
    if label in keys:
        return
    number = max((int(it, 16) for it in keys.values()), default=0) + 1
    words = "--keypairgen", "--key-type", kind, "--usage-sign", "--label", label, "--id", f"{number:02x}"
    one.run(*words, *one.login())
    one.give_back()
    one.machine.tell(f"key {label}: made in the device, {kind}")


def make_request(one, label, subject, request):
    """The request, and the record beside it."""
    machine = one.machine
    if machine.exists(request):
        return
    machine.folder(places.CEREMONY, 0o700)
    extensions = [word for one_usage in USAGE for word in ("-addext", one_usage)]
    engine = "-engine", "pkcs11", "-keyform", "engine", "-key", one.uri(label, places.PIN)
    text = machine.run("openssl", "req", "-new", *engine, "-subj", subject, *extensions, secrets=one.secrets())
    one.give_back()
    if machine.dry_run:
        return
    record = request.removesuffix(".csr") + ".record"
    machine.write(record, record_of(one, label, text), 0o600)
    machine.write(request, text, 0o600)


def record_of(one, label, request):
    """What was made, when, by which program and in which device, and that the key can't leave it."""
    machine = one.machine
    key = machine.ask("openssl", "req", "-noout", "-pubkey", text=request)[1]
    der = machine.ask("openssl", "pkey", "-pubin", "-outform", "DER", text=key)[1]
    told = one.tells("--list-objects", "--type", "privkey", *one.login())
    objects = [text for text in re.split(r"^(?=Private Key Object)", told, flags=re.M) if f" {label}\n" in text]
    if not objects or "never extractable" not in objects[0]:
        raise Refused("the device doesn't say that the key can't leave it", "take another device")
    parts = (
        machine.tells("date", "-u"),
        machine.tells("hostname"),
        machine.tells("counter", "--version"),
        one.tells("--list-token-slots"),
        objects[0].strip(),
        "public key: SHA-256 " + digest(machine, der),
        "request: SHA-256 " + digest(machine, request),
        "present (name, role, signature):",
    )
    return "\n".join(parts) + "\n"


def digest(machine, octets):
    return machine.ask("openssl", "dgst", "-sha256", "-r", text=octets)[1].decode().split()[0]


def tell_request(machine, request, then):
    record = request.removesuffix(".csr") + ".record"
    machine.tell(f"record: {record}, to be printed and signed by all who are present")
    machine.tell(f"request: {request}, for the authority; with its certificate: {then}")
