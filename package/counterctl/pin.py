"""Another PIN for the key's device, which is tried once."""

import getpass
import sys

from . import device, places, units
from .machine import Refused

NAME = "pin"


def words(parser):
    parser.add_argument("--file", metavar="FILE")


def do(machine, given):
    machine.only_one()
    one, _ = device.installed(machine)
    if one is None:
        raise Refused("the key is in a file, which has no PIN", "counterctl check")
    pin = typed(machine, given.file)
    old = machine.read(places.PIN).strip() if machine.exists(places.PIN) else None
    if machine.exists(places.WRONG_PIN):
        if pin == old:
            raise Refused("that is the PIN that the device didn't take", "take the right one: devices lock after some")
        look_at_tries(one)
    elif pin == old and units.is_active(machine, "counter-key-holder"):
        machine.tell("PIN: it is that one already, and the key holder signs")
        return 0
    machine.write(places.PIN, pin, 0o600)
    machine.remove(places.WRONG_PIN)
    machine.run("systemctl", "reset-failed", "counter-key-holder.service")
    machine.run("systemctl", "restart", "counter-key-holder", instead="counterctl pin, with the right one")
    machine.tell("PIN: the device takes it, and the key holder signs")
    return 0


def typed(machine, file):
    if file:
        return machine.read(file).strip()
    if not sys.stdin.isatty():
        raise Refused("nobody is there to type the PIN", "--file FILE")
    return getpass.getpass("PIN: ")


def look_at_tries(one):
    """Refuses if the next wrong PIN locks the device, as it says by itself."""
    flags = one.flags() or ""
    if "user PIN locked" in flags:
        raise Refused("the device has locked its PIN", "set a new one with the SO PIN: pkcs11-tool --init-pin")
    if "final user PIN try" in flags:
        raise Refused("the next wrong PIN locks the device", "set a new one with the SO PIN: pkcs11-tool --init-pin")
