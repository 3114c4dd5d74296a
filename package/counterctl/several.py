"""Units: machines with a key, a certificate and a database each, and the same policy file."""

import hashlib
import os

from . import accounts, certificates, places, policy
from .machine import Refused

INSTEAD = "counterctl setup --unit N --like FOLDER, which has /etc/counter of another unit"


def prepare(machine, given, answers):
    """Names the unit in its certificate's subject, and takes the policy file and the operator's key of another one."""
    if given.unit is None or given.unit < 1:
        raise Refused("a unit has a number", INSTEAD)
    if answers.get("name"):
        if not answers["name"].rpartition("/")[2].startswith("CN="):
            raise Refused(f"{answers['name']} doesn't end with a common name", "write it as /O=Example/CN=Example TSA")
        answers["name"] += f" unit {given.unit}"
    answers["names_itself"] = True
    if given.like:
        look_at_other(machine, given.like)
        take(machine, given.like)
    if machine.exists(places.RULES):
        file = policy.read(machine.read(places.RULES))
        if not file.document["counter"].get("tsa_name", False):
            raise Refused("its tokens wouldn't name the unit", f"write tsa_name = true to {places.RULES}")


def look_at_other(machine, folder):
    """Refuses the other unit's certificate on this machine, and a folder without what is alike."""
    for name in ("counter.toml", "operator.header"):
        if not os.path.exists(os.path.join(folder, name)):
            raise Refused(f"{folder} has no {name}", INSTEAD)
    certificate = os.path.join(folder, "tsa.der")
    if not os.path.exists(certificate) or not machine.exists(places.CERTIFICATE):
        return
    here, there = machine.octets(places.CERTIFICATE), octets(certificate)
    for what in (certificates.public_key, certificates.subject):
        if what(machine, here) == what(machine, there):
            raise Refused("the other unit's key or name is this one's", "each unit has a key and a subject of its own")


def take(machine, folder):
    rules, header = (octets(os.path.join(folder, name)) for name in ("counter.toml", "operator.header"))
    if machine.exists(places.RULES) and machine.octets(places.RULES) != rules:
        raise Refused(f"{places.RULES} isn't as in {folder}", "have the same policy file on all units")
    key = hashlib.sha256(header.decode().partition(":")[2].strip().encode()).hexdigest()
    if key not in (one.get("key_sha256", "").lower() for one in accounts.accounts(policy.read(rules.decode()))):
        raise Refused(f"no account of {folder}/counter.toml has the key in operator.header", INSTEAD)
    machine.write(places.HEADER, header, 0o600)
    if machine.write(places.RULES, rules, 0o640, "root", "counter"):
        machine.tell(f"policy file: {places.RULES}, as in {folder}")


def octets(path):
    with open(path, "rb") as file:
        return file.read()
