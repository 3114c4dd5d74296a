"""Looks at everything that a fault may come from; each part tells what is wrong with it, and what to do."""

import glob
import os
import pwd
import shutil
import stat
import time

from . import accounts, asking, certificates, clock, database, faults, places, policy, proxy, status, units
from . import upgrade_notes
from .machine import Refused

NAME = "check"
DAY = 86400
LARGEST_DEPOSIT, STAMP = 1_048_576, 1000
MOST_DAYS, WARNED_DAYS = 30, 30
MOST_BACKUP_AGE = 26 * 3600


def words(parser):
    parser.add_argument("--rules", metavar="FILE")


def do(machine, given):
    if given.rules:
        found = faults.policy_in_words(machine, given.rules)
        print(found[0] if found else f"{given.rules}: good")
        return int(found is not None)
    count = 0
    for name, look in PARTS:
        try:
            found = list(look(machine) or [])
        except (Refused, OSError, policy.Fault) as fault:
            found = [(str(fault), getattr(fault, "instead", "see to that"))]
        for what, instead in found:
            count += instead is not None
            print(f"{name}: {what}" + (f"\n  to do: {instead}" if instead else ""))
        if not found:
            print(f"{name}: good")
    return int(count > 0)


def look_at_policy(machine):
    if not machine.exists(places.RULES):
        yield f"there is no {places.RULES}", "counterctl setup"
        return
    found = faults.policy_in_words(machine, places.RULES)
    if found:
        yield found
        return
    file = policy.read(machine.read(places.RULES))
    examples = [one["oid"] for one in file.document.get("policy", []) if one["oid"].startswith("2.999.")]
    if examples and not machine.exists(places.TRIAL):
        yield f"the policy {examples[0]} is of the arc for examples", "take an object identifier of your own"
    running = running_policy(machine)
    if running and running != digest(machine, places.RULES):
        yield "the file was changed since the counter was started", "systemctl restart counter"


def digest(machine, name):
    return machine.tells("sha256sum", machine.path(name)).split(" ")[0]


def running_policy(machine):
    name = "/run/counter/policy"
    return machine.read(name).strip() if units.is_active(machine, "counter") and machine.exists(name) else None


def look_at_octets(machine):
    """What the quotas come to in deposits, beside the memory into which a start reads all of them."""
    file = accounts.read(machine)
    hidden = file.document["counter"].get("anonymous")
    members = [one for one in accounts.accounts(file) if one.get("active", True) and one["name"] != hidden]
    quotas = sum(one["daily_quota"] for one in members if "key_sha256" in one)
    a_day, room = quotas * LARGEST_DEPOSIT, status.memory_of() // 2 - status.size_of(machine)
    if room <= 0:
        yield "the database is larger than half of the memory, into which a start reads it", "counterctl new-period"
        return
    if not a_day:
        return
    days = room / a_day
    what = f"members' quotas come to {status.octets(a_day)} of deposits a day"
    half = f"the database may be half as large as the memory in {days:.1f} days"
    much = "smaller quotas (counter.toml), or a limit of octets at the proxy (nginx.conf); it may be more than is used"
    yield f"{what}: {half}", much if days < MOST_DAYS else None


def look_at_files(machine):
    """Modes and owners: nobody else may read what is secret, and the counter what it needs."""
    for name, mode, owner in FILES:
        if not machine.exists(name):
            continue
        there = os.stat(machine.path(name))
        if stat.S_IMODE(there.st_mode) & ~mode:
            yield f"{name} has the mode {stat.S_IMODE(there.st_mode):o}", f"chmod {mode:o} {name}"
        if machine.root == "/" and there.st_uid != pwd.getpwnam(owner).pw_uid:
            yield f"{name} belongs to {database.account(there.st_uid)}", f"chown {owner} {name}"
    if machine.exists(places.SO_PIN):
        yield f"the SO PIN lies on this machine, in {places.SO_PIN}", "put it on paper into a safe, remove the file"


FILES = (
    (places.ETC, 0o750, "root"),
    (places.KEYS, 0o700, "root"),
    (places.DATA, 0o700, "counter"),
    (places.RULES, 0o640, "root"),
    (places.HEADER, 0o600, "root"),
    (places.KEY, 0o600, "root"),
    (places.PIN, 0o600, "root"),
    (places.CERTIFICATE, 0o644, "root"),
    (places.ALGORITHM, 0o644, "root"),
    (places.DATABASE, 0o660, "counter"),
)


def look_at_database(machine):
    if not machine.exists(places.DATABASE):
        known, _, who = database.last_known(machine)
        first = "counterctl lost-machine FOLDER" if known else "counterctl setup"
        yield f"there is no {places.DATABASE}" + (f", and {who} tells the number {known}" if known else ""), first
        return
    if machine.exists(places.BELOW_LAST_SERIAL):
        what = "the next start takes a database below the last known number"
        yield what, f"remove {places.BELOW_LAST_SERIAL}, unless that is wanted"
    for begun in ("new-period", "lost-machine"):
        if machine.exists(f"{places.DATA}/{begun}"):
            yield f"counterctl {begun} was stopped before its end", f"counterctl {begun}, as before"
    if units.is_active(machine, "counter"):
        return
    what, instead = database.in_words(machine, places.DATABASE)
    if "can't open it" not in what:
        yield what, instead
        return
    known, _, who = database.last_known(machine)
    serial, _ = database.serial_in(machine, places.DATABASE)
    if serial < known:
        yield f"its last number is {serial}, and {who} tells {known}", "counterctl lost-machine FOLDER"


def look_at_certificate(machine):
    if not machine.exists(places.CERTIFICATE):
        yield f"there is no {places.CERTIFICATE}", "counterctl setup"
        return
    der = machine.octets(places.CERTIFICATE)
    root = machine.path(places.ROOT) if machine.exists(places.ROOT) else None
    yield from certificates.faults(machine, der, None, certificates.stored_chain(machine), root)
    if root is None:
        yield f"{places.ROOT} isn't there, by which tokens are verified", "write the root's certificate there, in PEM"
    algorithm = certificates.algorithm(machine, der)
    if algorithm and (not machine.exists(places.ALGORITHM) or machine.octets(places.ALGORITHM) != algorithm):
        again = f"key-holder --certificate {places.CERTIFICATE} --print-algorithm > {places.ALGORITHM}"
        yield f"{places.ALGORITHM} isn't that of the certificate's key", again
    days = (certificates.validity(machine, der)[1] - time.time()) / DAY
    if days < WARNED_DAYS:
        yield f"it ends in {days:.0f} days", "counterctl rekey"


def look_at_key_holder(machine):
    if machine.exists(places.WRONG_PIN):
        yield "the device didn't take the PIN, which isn't tried again", "counterctl pin"
    elif not units.is_active(machine, "counter-key-holder"):
        words = "journalctl", "--unit", "counter-key-holder", "--lines", "1", "--output", "cat", "--no-pager"
        last = machine.tells(*words)
        yield f"it isn't at work: {last}", "see to that, then systemctl start counter-key-holder"


def look_at_operator(machine):
    """The units' key has to be an active operator's."""
    there = accounts.accounts(accounts.read(machine))
    names = [one["name"] for one in there if one.get("operator")]
    instead = f"counterctl account key {names[0]}" if names else "counterctl setup"
    if not machine.exists(places.HEADER):
        yield f"there is no {places.HEADER}, so nothing calibrates", instead
        return
    found = [one for one in there if accounts.is_of_units(machine, one)]
    if not found or not found[0].get("operator") or not found[0].get("active", True):
        yield f"the key in {places.HEADER} is no active operator's", instead


def look_at_clock(machine):
    yield from clock.faults(machine)


def look_at_service(machine):
    for unit in ("counter", "counter-key-holder", *units.helpers(machine)):
        if machine.ask("systemctl", "is-enabled", "--quiet", unit)[0] != 0:
            yield f"{unit} isn't started at boot", f"systemctl enable --now {unit}"
    if not units.is_active(machine, "counter"):
        refusal = units.refusal(machine)
        yield f"it doesn't serve: {refusal.what}", refusal.instead
        return
    told = asking.state(machine)
    if told["tokens"] != "yes":
        yield "no token is given now: rule 10", "see to chronyd, then systemctl start counter-calibrate"
    for name, whose in (("store-faults", "the database"), ("signer-faults", "the key holder")):
        if told[name] != "0":
            yield f"{whose} has failed {told[name]} times since the start", "look into the journal of both services"


def look_at_earlier(machine):
    """Earlier databases are shown by units of their own."""
    for path in sorted(glob.glob(machine.path(f"{places.DATA}/[0-9]*.db"))):
        unit = f"counter@{os.path.basename(path).removesuffix('.db')}.service"
        if not units.is_active(machine, unit):
            yield f"{os.path.basename(path)} isn't shown", f"systemctl enable --now {unit}"


def look_at_backups(machine):
    folder, copies = status.copies_of(machine)
    if not copies or time.time() - copies[-1][1] > MOST_BACKUP_AGE:
        yield f"there is no copy of the last day in {folder}", "counterctl backup; journalctl -u counter-backup"
    elif os.stat(machine.path(folder)).st_dev == os.stat(machine.path(places.DATA)).st_dev:
        yield f"{folder} is on the database's disk", "name another by `backups` of the answers, and send copies away"


def look_at_disk(machine):
    place = machine.path(places.DATA)
    if os.path.isdir(place) and shutil.disk_usage(place).free < 2 * status.size_of(machine) + 2**28:
        yield f"{places.DATA} has no room for a copy of the database", "make room: df /var/lib/counter"


def look_at_failures(machine):
    if not machine.exists(places.FAILURE_UNIT):
        yield "they are told to the journal alone", "`failures` of the answers, as mail -s counter root"


def look_at_proxy(machine):
    """Nobody but the proxy's account is in the socket's group, and its file is the package's."""
    others = [name for name in proxy.members(machine) if name != proxy.ACCOUNT]
    if others:
        yield f"{', '.join(others)} may connect past the proxy, by the group {proxy.GROUP}", "\n  ".join(
            f"gpasswd --delete {name} {proxy.GROUP}" for name in others
        )
    if not machine.exists(places.PROXY):
        yield "none is set up by counterctl, so only this machine asks", None
    elif proxy.ACCOUNT not in proxy.members(machine):
        yield f"{proxy.ACCOUNT} may not connect to the counter", f"adduser {proxy.ACCOUNT} {proxy.GROUP}"


def look_at_upgrade(machine):
    yield from upgrade_notes.found(machine)


PARTS = (
    ("policy file", look_at_policy),
    ("octets", look_at_octets),
    ("files", look_at_files),
    ("database", look_at_database),
    ("certificate", look_at_certificate),
    ("key holder", look_at_key_holder),
    ("operator", look_at_operator),
    ("clock", look_at_clock),
    ("service", look_at_service),
    ("earlier databases", look_at_earlier),
    ("backups", look_at_backups),
    ("disk", look_at_disk),
    ("failures", look_at_failures),
    ("proxy", look_at_proxy),
    ("upgrade", look_at_upgrade),
)
