"""What the counter's faults mean, in words, and what to do."""

import re

from . import database, places, policy
from .machine import Refused

FAULT = re.compile(rb"^counter: ([a-z]+) (\d+)$", re.M)
# by who tells them and their number: what it is, and what to do
WORDS = {
    ("der", 8): ("an object identifier isn't one", "write it as 1.3.6.1.4.1.32473.1"),
    ("cms", 1): ("a file is no certificate, no chain or no AlgorithmIdentifier", "counterctl certificate FILE"),
    ("cms", 2): ("a certificate has more than 16,384 octets", "have a smaller one issued"),
    ("cms", 3): ("memory ran out", "give the machine more"),
    ("cms", 4): ("the chain has more than three certificates", "leave the root out"),
    ("cms", 5): ("a certificate stands twice in the chain", "leave it out of the chain"),
    ("store", 1): ("memory ran out", "give the machine more memory, or counterctl new-period"),
    ("store", 5): ("the clock reads less than at the latest calibration", "set the clock right, by chronyd"),
    ("desk", 8): ("memory ran out", "give the machine more"),
    ("desk", 9): ("the database refused an entry", "look whether the disk is full: df /var/lib/counter"),
    ("audit", 1): ("the account is no active auditor", "counterctl account add NAME --auditor"),
    ("audit", 2): ("the range doesn't begin at 1 or above, or ends before it begins", "name another range"),
    ("audit", 3): ("memory ran out", "give the machine more"),
    ("audit", 4): ("the database failed", "look at the disk; counterctl restore FOLDER"),
    ("audit", 5): ("the extract can't be written", "look whether the disk is full"),
    ("input", 2): ("a file can't be read, or the policy file isn't UTF-8", "counterctl check"),
    ("input", 3): ("the hold ends before it begins", "name its bounds in their order"),
    ("input", 4): ("no account has that name or key", "counterctl account list"),
    ("input", 5): ("the clock was set while the counter served", "let chronyd keep it without steps"),
    ("input", 6): ("the address can't be listened on", "look who listens there: ss -lxnt"),
    ("input", 7): ("memory ran out", "give the machine more"),
    ("input", 8): ("the key holder can't be reached", "journalctl -u counter-key-holder tells why"),
    ("input", 9): ("the number or moment isn't behind those of the old database", "take a greater number"),
}


def first_fault(written):
    """Who tells a fault and its number, in what the counter wrote to standard error."""
    found = FAULT.search(written)
    return (found[1].decode(), int(found[2])) if found else None


def in_words(machine, fault, rules=places.RULES, file=places.DATABASE):
    """What a fault is, and what to do."""
    who, number = fault
    if who == "policy":
        return policy_in_words(machine, rules)
    if fault in (("store", 2), ("store", 3)):
        return database.in_words(machine, file)
    return WORDS.get(fault, (f"counter: {who} {number}", "formats.md, `Faults`"))


def policy_in_words(machine, rules):
    """The first fault of a policy file, in words; None if there is none."""
    instead = f"mend that line of {rules}, and look again by counterctl check"
    try:
        policy.read(machine.read(rules), rules.rpartition("/")[2])
    except policy.Fault as fault:
        return str(fault), instead
    except UnicodeDecodeError as fault:
        return f"{rules}: not UTF-8 at octet {fault.start + 1}", instead
    return None


def counter(machine, *words, looks=False, file=places.DATABASE):
    """What the counter writes under its own account; a fault of its is refused in words."""
    words = ("runuser", "-u", "counter", "--", "counter", *words)
    if machine.dry_run and not looks:
        machine.run(*words)
        return b""
    machine.log(f"runs {' '.join(words)}")
    status, written, errors = machine.ask(*words)
    if status == 0:
        return written
    fault = first_fault(errors)
    if fault:
        what, instead = in_words(machine, fault, file=file) or (f"counter: {fault[0]} {fault[1]}", "look again")
        raise Refused(f"counter: {fault[0]} {fault[1]}: {what}", instead)
    raise Refused(f"the counter fails: {errors.decode(errors='replace').strip()}", "see to what it tells")
