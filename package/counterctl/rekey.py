"""Another key, whose certificate comes into force in place of the old one's."""

import os
import time

from . import asking, ceremony, certificate, device, page, places, setup, units
from .machine import Refused, Stopped

NAME = "rekey"
REQUEST = f"{places.CEREMONY}/next.csr"
LABEL = f"{places.CEREMONY}/next.label"
EARLIER = f"{places.ETC}/earlier"
NEXT_KEY = f"{places.KEYS}/next.key"


def words(parser):
    parser.add_argument("--name", metavar="SUBJECT")
    parser.add_argument("--certificate", dest="file", metavar="FILE")
    parser.add_argument("--chain", action="append", default=[], metavar="FILE")
    parser.add_argument("--root", metavar="FILE")
    parser.add_argument("--destroy-old", action="store_true")


def do(machine, given):
    machine.only_one()
    if not machine.exists(places.CERTIFICATE):
        raise Refused("there is no certificate yet", "counterctl setup")
    one, label = device.installed(machine)
    if one is None:
        return of_trial(machine)
    if given.destroy_old:
        return destroy(machine, one, label)
    if given.file:
        return go_over(machine, given, one)
    return begin(machine, given, one)


def begin(machine, given, one):
    """The next key and its request."""
    if not machine.exists(REQUEST):
        if not given.name:
            raise Refused("the certificate's subject isn't named", "--name SUBJECT, other than the old one's")
        keys = one.keys()
        label = f"key-{max(int(it, 16) for it in keys.values()) + 1}" if keys else "key"
        label = machine.read(LABEL) if machine.exists(LABEL) else label
        machine.folder(places.CEREMONY, 0o700)
        machine.write(LABEL, label, 0o600)
        kind = "EC:prime256v1" if len(machine.octets(places.ALGORITHM)) == 12 else "rsa:3072"
        ceremony.make_key(one, label, kind)
        ceremony.make_request(one, label, given.name, REQUEST)
    ceremony.tell_request(machine, REQUEST, "counterctl rekey --certificate FILE")
    if machine.dry_run:
        return 0
    raise Stopped("the next key waits for its certificate; the old one signs", "counterctl rekey --certificate FILE")


def go_over(machine, given, one):
    """Changes certificate and key while the counter is stopped, so that no request meets one without the other."""
    if not machine.exists(REQUEST):
        raise Refused("no next key waits for a certificate", "counterctl rekey --name SUBJECT")
    der, chain = certificate.checked(machine, given, certificate.requested_key(machine, REQUEST))
    old = kept(machine)
    units.stop_counter(machine)
    certificate.install(machine, given, der, chain)
    device.install(one, machine.read(LABEL), device.settings(machine))
    try:
        restart(machine, "token by the next key")
    except Refused as fault:
        machine.tell(f"no token by the next key: {fault.what}; back to the old one")
        put_back(machine, old)
        raise Refused(fault.what, f"{fault.instead}; the old key signs, and rekey may be given again") from None
    done = f"{places.CEREMONY}/{time.strftime('%Y%m%dT%H%M%SZ', time.gmtime())}"
    for end in ("csr", "record"):
        machine.move(f"{places.CEREMONY}/next.{end}", f"{done}.{end}")
    machine.remove(LABEL)
    page.add_certificates(machine, page.signers_of(machine))
    machine.tell("then: counterctl rekey --destroy-old")
    return 0


def restart(machine, what):
    machine.run("systemctl", "restart", "counter-key-holder", instead=units.why("counter-key-holder"))
    units.start_counter(machine)
    if not machine.dry_run:
        asking.token(machine, what)


def kept(machine):
    """What is in force now, kept for later and for the way back: older tokens verify by it."""
    folder = f"{EARLIER}/{time.strftime('%Y%m%dT%H%M%SZ', time.gmtime())}"
    files = [places.CERTIFICATE, places.ALGORITHM, places.CHAIN, places.DEVICE_UNIT, places.KEY]
    old = {name: machine.octets(name) for name in files if machine.exists(name)}
    for name in (places.CERTIFICATE, places.ALGORITHM, places.CHAIN):
        if name in old:
            machine.write(f"{folder}/{os.path.basename(name)}", old[name])
    return old


def put_back(machine, old):
    units.stop_counter(machine)
    for name, octets in old.items():
        machine.write(name, octets, 0o600 if name == places.KEY else 0o644)
    machine.run("systemctl", "daemon-reload")
    restart(machine, "token by the old key")


def of_trial(machine):
    """The next key of a trial, in one step."""
    if not machine.exists(places.TRIAL):
        raise Refused("the key is in a file, and not of a trial", "take a device: counterctl ceremony")
    old = kept(machine)
    machine.remove(NEXT_KEY)
    setup.make_key(machine, NEXT_KEY)
    units.stop_counter(machine)
    setup.certify_trial(machine, NEXT_KEY, f"/CN=TSA of a trial, {time.strftime('%Y-%m-%d %H:%M:%S')}")
    machine.write(places.KEY, machine.octets(NEXT_KEY), 0o600)
    machine.remove(NEXT_KEY)
    try:
        restart(machine, "token by the next key")
    except Refused:
        put_back(machine, old)
        raise
    page.add_certificates(machine, page.signers_of(machine))
    return 0


def destroy(machine, one, label):
    """Destroys every key in the token but the one that signs, with a record (RFC 3628 7.2.5)."""
    if machine.exists(REQUEST):
        raise Refused("the next key waits for its certificate, and the old one signs", "counterctl rekey --certificate")
    if not units.is_active(machine, "counter-key-holder"):
        raise Refused("the key holder doesn't sign by the new key", units.why("counter-key-holder"))
    keys = one.keys()
    if label not in keys:
        raise Refused(f"the device has no key {label}, by which the key holder signs", "counterctl check")
    old = {name: number for name, number in keys.items() if name != label}
    for name, number in old.items():
        one.run("--delete-object", "--type", "privkey", "--id", number, *one.login())
        machine.tell(f"key {name}: destroyed in the device")
    if not old:
        machine.tell("there is no old key")
        return 0
    one.give_back()
    if not machine.dry_run:
        record = f"{places.CEREMONY}/destroyed-{time.strftime('%Y%m%dT%H%M%SZ', time.gmtime())}.record"
        left = one.tells("--list-objects", "--type", "privkey", *one.login())
        text = f"{machine.tells('date', '-u')}\ndestroyed: {', '.join(old)}\nleft:\n{left}\n"
        machine.write(record, f"{text}present (name, role, signature):\n", 0o600)
        machine.tell(f"record: {record}, to be printed and signed by all who are present")
    return 0
