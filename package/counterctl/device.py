"""A device behind PKCS #11 that holds the key, by pkcs11-tool and OpenSSL's engine, and the PINs."""

import getpass
import os
import re
import secrets
import sys

from . import places, units
from .machine import Refused

NEEDS = {"pkcs11-tool": "opensc"}
SOFTHSM = "softhsm"
SOFTHSM_LINES = "SupplementaryGroups=softhsm", "ReadWritePaths=/var/lib/softhsm/tokens"


class Device:
    def __init__(self, machine, module, token):
        self.machine, self.module, self.token = machine, module, token

    def look(self):
        """Refuses if what asks the device is missing."""
        self.machine.needs(NEEDS)
        if not os.path.exists(self.module):
            raise Refused(f"the module {self.module} isn't there", "apt-get install softhsm2, or the device's package")
        if self.machine.ask("openssl", "engine", "pkcs11")[0] != 0:
            raise Refused("OpenSSL has no engine pkcs11", "apt-get install libengine-pkcs11-openssl")

    def secrets(self):
        known = {"PKCS11_MODULE_PATH": self.module}
        for name, file in (("PIN", places.PIN), ("SO_PIN", places.SO_PIN)):
            if self.machine.exists(file):
                known[name] = self.machine.read(file).strip()
        return known

    def run(self, *words, **more):
        return self.machine.run("pkcs11-tool", "--module", self.module, *words, secrets={**self.secrets(), **more})

    def tells(self, *words):
        return self.machine.tells("pkcs11-tool", "--module", self.module, *words, secrets=self.secrets())

    def slots(self):
        """Of each slot with a token the label, none if it isn't initialised, and its flags."""
        told = self.tells("--list-token-slots")
        for slot in re.split(r"^Slot ", told, flags=re.M)[1:]:
            label = re.search(r"^  token label +: (.*?) *$", slot, re.M)
            flags = re.search(r"^  token flags +: (.*)$", slot, re.M)
            yield label[1] if label else None, flags[1] if flags else ""

    def flags(self):
        return next((flags for label, flags in self.slots() if label == self.token), None)

    def keys(self):
        """The private keys, by their labels, with the identifier of each; a login."""
        told = self.tells("--list-objects", "--type", "privkey", *self.login())
        return dict(re.findall(r"^  label: +(.*)\n  ID: +(\w+)$", told, re.M))

    def login(self):
        return "--token-label", self.token, "--login", "--pin", "env:PIN"

    def give_back(self):
        """What root wrote in SoftHSM2's folder is the key holder's."""
        if SOFTHSM in self.module:
            self.machine.run("chown", "-R", "counter-key-holder", "/var/lib/softhsm/tokens")

    def uri(self, label, pin):
        return f"pkcs11:token={self.token};type=private;object={label};pin-source=file:{pin}"


def new_secret(machine, file, called, who):
    """A PIN: typed twice if somebody is there, and else made. It is in its file before it is in the device."""
    if machine.exists(file):
        return
    pin = secrets.token_hex(8)
    if sys.stdin.isatty() and not machine.dry_run:
        pin = getpass.getpass(f"{called}, by {who} (empty: one is made): ") or pin
        if getpass.getpass(f"{called} again (empty if it was): ") not in (pin, ""):
            raise Refused(f"the {called} was typed in two ways", "begin again")
    machine.write(file, pin, 0o600)
    machine.tell(f"{called}: in {file}")


def make_token(device, so_pin):
    """A token with both PINs; a token that is there already is taken as it is."""
    machine, flags = device.machine, device.flags()
    if flags is not None and "PIN initialized" in flags:
        if not machine.exists(places.PIN):
            raise Refused(f"the PIN of the token {device.token} isn't known", f"write it to {places.PIN} (mode 600)")
        return
    new_secret(machine, so_pin, "SO PIN", "who keeps it in a safe")
    new_secret(machine, places.PIN, "PIN", "who starts the key holder")
    pins = {"SO_PIN": machine.read(so_pin).strip(), "PIN": machine.read(places.PIN).strip()}
    if flags is None:
        slot = next((at for at, (label, _) in enumerate(device.slots()) if label is None), None)
        if slot is None:
            raise Refused("the device has no slot without a token", "name its token, --token LABEL")
        device.run("--init-token", "--slot-index", str(slot), "--label", device.token, "--so-pin", "env:SO_PIN", **pins)
    words = ("--init-pin", "--token-label", device.token, "--login", "--so-pin", "env:SO_PIN", "--new-pin", "env:PIN")
    device.run(*words, **pins)
    machine.tell(f"token {device.token}: made")


def installed(machine):
    """The device by the drop-in that names it, and the key's label; none for a key in a file."""
    if not machine.exists(places.DEVICE_UNIT):
        return None, None
    text = machine.read(places.DEVICE_UNIT)
    found = re.search(r"KEY=pkcs11:token=([^;]*);type=private;object=([^;]*);", text)
    module = re.search(r"\bMODULE=(\S+)", text)
    if not found or not module:
        raise Refused(f"{places.DEVICE_UNIT} isn't understood", "write it as counterctl ceremony does")
    return Device(machine, module[1].strip('"'), found[1]), found[2]


def install(device, label, settings=()):
    """The key holder's unit signs by that key from its next start on."""
    uri = device.uri(label, "%d/pin")
    lines = SOFTHSM_LINES if SOFTHSM in device.module else ()
    return units.drop_in(
        device.machine,
        places.DEVICE_UNIT,
        *lines,
        *settings,
        "LoadCredential=",
        f"LoadCredential=pin:{places.PIN}",
        f"LoadCredential=tsa.der:{places.CERTIFICATE}",
        f'Environment="KEY={uri}" MODULE={device.module}',
        "ExecStart=",
        "ExecStart=/usr/bin/key-holder --key ${KEY} --module ${MODULE} \\",
        "  --certificate ${CREDENTIALS_DIRECTORY}/tsa.der --peer counter",
    )


def settings(machine):
    """What the drop-in says of the device besides what is written here."""
    credentials = [f"LoadCredential={name}" for name in ("pin:", "tsa.der:")]
    own = ("#", "[Service]", *credentials, 'Environment="KEY=', "ExecStart=", "  --", *SOFTHSM_LINES)
    lines = machine.read(places.DEVICE_UNIT).splitlines()
    return [line for line in lines if line and line != "LoadCredential=" and not line.startswith(own)]
