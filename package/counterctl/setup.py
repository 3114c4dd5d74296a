"""Sets a counter up, for a trial or for production; what is there already stays as it is."""

import hashlib
import os
import re
import secrets
import sys
import time
import tomllib

from . import accounts, asking, ceremony, certificates, clock, database, device, faults, places, policy, several, units
from .machine import Refused, Stopped

NAME = "setup"
KEYS = {"name", "policy", "module", "token", "key_type", "settings", "backups", "failures"}
EXAMPLE_ARC = "2.999"
QUESTIONS = {
    "name": "The authority's name, as /O=Example/CN=Example TSA",
    "policy": "The object identifier of your time-stamp policy",
    "module": "The module of PKCS #11 that knows the device, as /usr/lib/softhsm/libsofthsm2.so",
}
TRIAL_QUERY = f"{places.TRIAL}/query.tsq"
DAYS = 1825
OPERATOR_QUOTA = 100


def words(parser):
    how = parser.add_mutually_exclusive_group()
    how.add_argument("--trial", action="store_true")
    how.add_argument("--answers", metavar="FILE")
    how.add_argument("--end-trial", action="store_true")
    parser.add_argument("--unit", type=int, metavar="N")
    parser.add_argument("--like", metavar="FOLDER")


def do(machine, given):
    machine.only_one()
    if given.end_trial:
        return end_trial(machine)
    answers = {"policy": f"{EXAMPLE_ARC}.1"} if given.trial else answered(given.answers)
    look(machine, given.trial)
    if given.trial and (given.unit is not None or given.like):
        raise Refused("a trial is no unit", several.INSTEAD)
    if given.trial:
        # by which it is known for a trial from now on
        machine.folder(places.TRIAL, 0o700)
    else:
        look_at_device(machine, answers)
    if given.unit is not None or given.like:
        several.prepare(machine, given, answers)
    make_policy(machine, answers)
    make_drop_ins(machine, answers)
    clock.prepare(machine)
    if not machine.dry_run:
        clock.look(machine)
    if given.trial:
        make_trial(machine)
    else:
        make_production(machine, answers)
    make_database(machine)
    if machine.dry_run:
        units.start(machine)
        return 0
    units.start(machine)
    asking.token(machine, "token")
    if given.trial:
        tell_trial(machine)
    return 0


def answered(file):
    """The answers of a file, or of whoever is asked."""
    if file is None:
        if not sys.stdin.isatty():
            raise Refused("nobody is there to answer", "name a file of answers, --answers FILE, or --trial")
        return {key: input(f"{question}: ").strip() for key, question in QUESTIONS.items()}
    with open(file, "rb") as opened:
        try:
            answers = tomllib.load(opened)
        except tomllib.TOMLDecodeError as fault:
            raise Refused(f"{file} is no TOML: {fault}", "mend it") from None
    for key in answers:
        if key not in KEYS:
            raise Refused(f"{file}: {key}: unknown", f"the answers are {', '.join(sorted(KEYS))}")
    return answers


def look(machine, is_trial):
    """Refuses what would harm: a trial beside a production, and the other way round."""
    is_there = machine.exists(places.TRIAL)
    if is_trial and not is_there and any(map(machine.exists, (places.RULES, places.CERTIFICATE, places.DATABASE))):
        raise Refused("this machine is set up already, and for no trial", "try it on another machine")
    if not is_trial and is_there:
        raise Refused("a trial is set up here, whose key is in a file", "counterctl setup --end-trial, which keeps it")


def look_at_device(machine, answers):
    for key in QUESTIONS:
        # what is set up needs no answer
        if not answers.get(key) and not (machine.exists(places.DEVICE_UNIT) and machine.exists(places.RULES)):
            raise Refused(f"there is no answer for {key}", QUESTIONS[key])
    identifier = answers.get("policy", "")
    if identifier and not policy.is_identifier(identifier):
        raise Refused(f"{identifier} is no object identifier", "write it as 1.3.6.1.4.1.32473.1")
    if identifier == EXAMPLE_ARC or identifier.startswith(f"{EXAMPLE_ARC}."):
        raise Refused("2.999 is for examples", "take an object identifier of your own arc, from IANA for nothing")
    if answers.get("module"):
        device.Device(machine, answers["module"], answers.get("token", "tsa")).look()


def make_policy(machine, answers):
    """The example's policy file, with the policy's object identifier, and an operator's account for the units."""
    if machine.exists(places.RULES):
        found = faults.policy_in_words(machine, places.RULES)
        if found:
            raise Refused(*found)
    else:
        with open(f"{places.EXAMPLES}/counter.toml", encoding="utf-8") as file:
            text = file.read()
        text = re.sub(r"\n# 2\.999 is.*", "", text)
        text = text.replace(f'"{EXAMPLE_ARC}.1"', f'"{answers["policy"]}"')
        if answers.get("names_itself"):
            text = text.replace("tsa_name = false", "tsa_name = true")
        machine.write(places.RULES, text, 0o640, "root", "counter")
        machine.tell(f"policy file: {places.RULES}, with the policy {answers['policy']}")
    file = policy.read(machine.read(places.RULES))
    if machine.exists(places.HEADER) and any(accounts.is_of_units(machine, one) for one in accounts.accounts(file)):
        return
    if accounts.named(file, "operator") is not None:
        raise Refused(f"there is an account operator, and no {places.HEADER}", "counterctl account key operator")
    machine.write(places.HEADER, f"Counter-Key: {secrets.token_hex(32)}\n", 0o600)
    add_operator(machine)


def add_operator(machine):
    key = machine.read(places.HEADER).partition(":")[2].strip()
    file = policy.read(machine.read(places.RULES))
    entry = {
        "name": "operator",
        "key_sha256": hashlib.sha256(key.encode()).hexdigest(),
        "operator": True,
        "policies": [file.document["policy"][0]["name"]],
        "daily_quota": OPERATOR_QUOTA,
    }
    text = file.text.rstrip("\n") + "\n\n# whose key calibrates on this machine\n"
    text += "[[account]]\n" + accounts.lines_of(entry)
    machine.write(places.RULES, text, 0o640, "root", "counter")
    machine.tell(f"operator's key: {places.HEADER}")


def make_drop_ins(machine, answers):
    backups = answers.get("backups")
    if backups:
        machine.folder(backups, 0o700)
        if units.drop_in(machine, places.BACKUP_UNIT, f"Environment=FOLDER={backups}"):
            machine.tell(f"backups: each night to {backups}")
    if answers.get("failures"):
        command = f"/usr/lib/counter/failure %i | {answers['failures']}".replace('"', '\\"')
        if units.drop_in(machine, places.FAILURE_UNIT, "ExecStart=", f'ExecStart=/bin/sh -c "{command}"'):
            machine.tell(f"failures: told to {answers['failures']}")


def make_trial(machine):
    """A root of its own, and a key in a file that it certifies."""
    root, root_key = f"{places.TRIAL}/root.pem", f"{places.TRIAL}/root.key"
    make_key(machine, root_key)
    if not machine.exists(root):
        subject = "-subj", "/CN=Root of a trial", "-days", str(DAYS)
        text = machine.run("openssl", "req", "-x509", "-new", "-key", machine.path(root_key), *subject)
        machine.write(root, text)
    machine.write(places.ROOT, b"" if machine.dry_run else machine.octets(root))
    make_key(machine, places.KEY)
    if not machine.exists(places.CERTIFICATE):
        certify_trial(machine, places.KEY, "/CN=TSA of a trial")
        machine.tell("key: in a file, for a trial")


def make_key(machine, name):
    if not machine.exists(name):
        words = "openssl", "genpkey", "-algorithm", "EC", "-pkeyopt", "ec_paramgen_curve:P-256"
        machine.write(name, machine.run(*words), 0o600)


def certify_trial(machine, key, subject):
    """The certificate of a trial's key, by the trial's root."""
    root, root_key = (machine.path(f"{places.TRIAL}/root.{end}") for end in ("pem", "key"))
    extensions = [word for usage in ceremony.USAGE for word in ("-addext", usage)]
    request = machine.run("openssl", "req", "-new", "-key", machine.path(key), "-subj", subject, *extensions)
    by = "-CA", root, "-CAkey", root_key, "-days", str(DAYS), "-set_serial", f"0x{secrets.token_hex(8)}"
    text = machine.run("openssl", "x509", "-req", "-copy_extensions", "copy", *by, text=request)
    if not machine.dry_run:
        der = machine.ask("openssl", "x509", "-outform", "DER", text=text)[1]
        machine.write(places.ALGORITHM, certificates.algorithm(machine, der))
        machine.write(places.CERTIFICATE, der)


def make_production(machine, answers):
    """The ceremony if there is no key, and a stop until there is its certificate."""
    if machine.exists(places.CERTIFICATE) and machine.exists(places.DEVICE_UNIT):
        return
    if not machine.exists(places.DEVICE_UNIT) or not machine.exists(ceremony.REQUEST):
        one = device.Device(machine, answers["module"], answers.get("token", "tsa"))
        device.make_token(one, places.SO_PIN)
        ceremony.make_key(one, "key", answers.get("key_type", "rsa:3072"))
        ceremony.make_request(one, "key", answers["name"], ceremony.REQUEST)
        device.install(one, "key", answers.get("settings", []))
    if machine.exists(places.CERTIFICATE):
        return
    ceremony.tell_request(machine, ceremony.REQUEST, "counterctl certificate FILE --root FILE")
    if machine.exists(places.SO_PIN):
        machine.tell(f"SO PIN: take it from {places.SO_PIN} to a safe, on paper, and remove the file")
    if not machine.dry_run:
        raise Stopped("the key waits for its certificate", "counterctl certificate FILE --root FILE, then setup again")


def make_database(machine):
    if machine.exists(places.DATABASE):
        return
    known, _, who = database.last_known(machine)
    if known:
        raise Refused(f"the number {known} was given here, as {who} tells", "counterctl lost-machine FOLDER")
    faults.counter(machine, "init", "--db", machine.path(places.DATABASE))
    machine.tell(f"database: {places.DATABASE}")


def tell_trial(machine):
    """A query at hand, and the line by which a client asks."""
    if not machine.exists(TRIAL_QUERY):
        words = "-query", "-data", machine.path(places.RULES), "-sha256", "-cert"
        machine.write(TRIAL_QUERY, machine.ask("openssl", "ts", *words)[1])
    verify = f"openssl ts -verify -in /dev/stdin -queryfile {TRIAL_QUERY} -CAfile {places.ROOT}"
    machine.tell("a client asks so:")
    machine.tell(
        f"  curl -sS --unix-socket /run/counter-http/socket -H 'Content-Type: {asking.TYPE}' \\\n"
        f"    --data-binary @{TRIAL_QUERY} http://localhost/tsp | \\\n    {verify}"
    )


def end_trial(machine):
    """Moves all of a trial to one folder; nothing of it is removed."""
    if not machine.exists(places.TRIAL):
        raise Refused("no trial is set up here", "counterctl setup begins one by --trial")
    folder = f"/var/backups/counter-trial-{time.strftime('%Y%m%dT%H%M%SZ', time.gmtime())}"
    machine.folder(folder, 0o700)
    stopped = "counter.service", "counter-key-holder.service", "counter-key-holder.socket", *units.helpers(machine)
    machine.run("systemctl", "--quiet", "disable", "--now", *stopped)
    for place in (places.DATA, places.KEYS, places.ETC):
        for name in sorted(os.listdir(machine.path(place)), key=lambda it: f"{place}/{it}" == places.TRIAL):
            machine.move(f"{place}/{name}", f"{folder}{place}/{name}")
    machine.tell(f"trial: moved to {folder}")
    return 0
