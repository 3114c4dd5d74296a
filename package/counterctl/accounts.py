"""The accounts of the policy file, which is changed as text, so that its comments stay."""

import hashlib
import re
import secrets
import tomllib

from . import faults, places, policy, units
from .machine import Refused

NAME = "account"
KEY = re.compile(r"[0-9a-fA-F]{64}")


def words(parser):
    tasks = parser.add_subparsers(dest="what", required=True, metavar="add|list|revoke|key")
    for name in ("add", "list", "revoke", "key"):
        one = tasks.add_parser(name, help=f"{name} accounts")
        if name == "list":
            continue
        one.add_argument("name", metavar="NAME")
        one.add_argument("--restart", action="store_true")
        if name == "revoke":
            continue
        key = one.add_mutually_exclusive_group()
        key.add_argument("--key-sha256", metavar="HEX")
        key.add_argument("--header", metavar="FILE")
        if name == "add":
            one.add_argument("--policies", metavar="NAMES")
            one.add_argument("--quota", type=int, default=1000, metavar="N")
            one.add_argument("--auditor", action="store_true")
            one.add_argument("--operator", action="store_true")


def do(machine, given):
    if given.what == "list":
        return show(read(machine))
    machine.only_one()
    {"add": add, "revoke": revoke, "key": change_key}[given.what](machine, given)
    if given.restart:
        units.start_counter(machine, "restart")
    return 0


def read(machine):
    """The policy file, without a fault."""
    if not machine.exists(places.RULES):
        raise Refused(f"there is no {places.RULES}", "counterctl setup")
    found = faults.policy_in_words(machine, places.RULES)
    if found:
        raise Refused(*found)
    return policy.read(machine.read(places.RULES))


def accounts(file):
    return file.document.get("account", [])


def named(file, name):
    """The number of the account in the file, or none."""
    return next((number for number, one in enumerate(accounts(file)) if one["name"] == name), None)


def show(file):
    for one in accounts(file):
        roles = [role for role in ("auditor", "operator") if one.get(role)]
        key = "a key" if "key_sha256" in one else "no key"
        state = "active" if one.get("active", True) else "revoked"
        told = [state, key, f"quota {one['daily_quota']}", "policies " + ",".join(one["policies"]), *roles]
        print(f"{one['name']}: {', '.join(told)}")
    return 0


def save(machine, text, wanted):
    """Takes a changed text if it says what was wanted, and its form is right."""
    if tomllib.loads(text) != wanted:
        raise Refused(f"{places.RULES} is written in a form that isn't changed here", "change it by hand")
    try:
        policy.read(text)
    except policy.Fault as fault:
        raise Refused(f"the changed file would be wrong: {fault}", "name other values") from None
    if machine.write(places.RULES, text, 0o640, "root", "counter"):
        machine.tell(f"policy file: changed; it counts from the counter's next start on{RESTART}")


RESTART = " (systemctl restart counter, or --restart)"


def new_key(machine, given):
    """The SHA-256 of a key that is given, or of one that is made and written to a file."""
    if given.key_sha256:
        if not KEY.fullmatch(given.key_sha256):
            raise Refused("a key's SHA-256 has 64 hexadecimal digits", "printf %s KEY | sha256sum")
        return given.key_sha256.lower()
    file = given.header or f"{given.name}.header"
    if machine.exists(file):
        raise Refused(f"{file} is there already", "name another file by --header")
    key = secrets.token_hex(32)
    machine.write(file if file.startswith("/") else f"./{file}", f"Counter-Key: {key}\n", 0o600)
    machine.tell(f"key of {given.name}: in {file}, for curl -H @{file}")
    return hashlib.sha256(key.encode()).hexdigest()


def add(machine, given):
    file = read(machine)
    number = named(file, given.name)
    if number is not None:
        if accounts(file)[number].get("active", True):
            raise Refused(f"there is an account {given.name} already", "counterctl account key, for another key")
        raise Refused(f"{given.name} was revoked", f"counterctl account key {given.name}, which makes it active again")
    policies = given.policies.split(",") if given.policies else [file.document["policy"][0]["name"]]
    entry = {"name": given.name, "key_sha256": "0" * 64, "policies": policies, "daily_quota": given.quota}
    entry |= {role: True for role in ("auditor", "operator") if getattr(given, role)}
    look = {**file.document, "account": [*accounts(file), entry]}
    look_at(look, entry)
    entry["key_sha256"] = new_key(machine, given)
    save(machine, file.text.rstrip("\n") + "\n\n[[account]]\n" + lines_of(entry), look)


def look_at(document, entry):
    """Refuses an account that the file wouldn't take, before a key is made for it."""
    file = policy.File("")
    file.document = document
    try:
        others = document["account"][:-1]
        found = {"policy": [one["name"] for one in document["policy"]]}
        if len(others) == policy.MOST["account"]:
            raise Refused("there are 64 accounts already, the most that a file may have", "set up another counter")
        policy.Entry(file, "account", len(others), entry).look(others, found)
    except policy.Fault as fault:
        raise Refused(str(fault).partition(": ")[2], "name another value") from None


def lines_of(entry):
    return "".join(f"{key} = {in_toml(value)}\n" for key, value in entry.items())


def in_toml(value):
    if isinstance(value, bool):
        return "true" if value else "false"
    if isinstance(value, list):
        return "[" + ", ".join(f'"{one}"' for one in value) + "]"
    return str(value) if isinstance(value, int) else f'"{value}"'


def with_key(file, number, key, value):
    """The text with that key of an account changed, or put behind its name."""
    lines = file.text.splitlines()
    place = file.places.get(("account", number, key))
    if place:
        lines[place[0] - 1 : place[1]] = [f"{key} = {in_toml(value)}"]
    else:
        behind = file.places.get(("account", number, "name"), (0, 0))[1]
        lines.insert(behind, f"{key} = {in_toml(value)}")
    return "\n".join(lines) + "\n"


def changed(file, number, values):
    wanted = [dict(one) for one in accounts(file)]
    wanted[number] |= values
    return {**file.document, "account": wanted}


def existing(machine, name):
    file = read(machine)
    number = named(file, name)
    if number is None:
        raise Refused(f"there is no account {name}", "counterctl account list")
    return file, number


def is_of_units(machine, account):
    """Whether it is the account by whose key this machine's units calibrate."""
    if not machine.exists(places.HEADER):
        return False
    key = machine.read(places.HEADER).partition(":")[2].strip()
    return account.get("key_sha256", "").lower() == hashlib.sha256(key.encode()).hexdigest()


def is_for_units(machine, file, account):
    """The same, or an operator's where no account has the key of this machine's units."""
    if is_of_units(machine, account):
        return True
    return account.get("operator", False) and not any(is_of_units(machine, one) for one in accounts(file))


def revoke(machine, given):
    file, number = existing(machine, given.name)
    one = accounts(file)[number]
    if is_of_units(machine, one):
        raise Refused(f"by the key of {given.name} this machine calibrates", f"counterctl account key {given.name}")
    if file.document["counter"].get("anonymous") == given.name:
        raise Refused(f"{given.name} is the account of all without a key", "take `anonymous` out of the policy file")
    save(machine, with_key(file, number, "active", False), changed(file, number, {"active": False}))


def change_key(machine, given):
    """Another key, by which a revoked account is active again. That of this machine's units is theirs, too."""
    file, number = existing(machine, given.name)
    is_own = is_for_units(machine, file, accounts(file)[number])
    if is_own and (given.key_sha256 or given.header):
        raise Refused(f"the key of {given.name} is this machine's own", "leave --key-sha256 and --header out")
    if is_own:
        key = secrets.token_hex(32)
        machine.write(places.HEADER, f"Counter-Key: {key}\n", 0o600)
        hashed = hashlib.sha256(key.encode()).hexdigest()
        given.restart = True
    else:
        hashed = new_key(machine, given)
    wanted = changed(file, number, {"key_sha256": hashed, "active": True})
    text = with_key(file, number, "key_sha256", hashed)
    file = policy.File(text)
    save(machine, with_key(file, number, "active", True), wanted)
