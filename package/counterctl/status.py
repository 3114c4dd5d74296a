"""How the counter is, in words."""

import calendar
import os
import time

from . import asking, backup, certificates, places, units
from .machine import Refused

NAME = "status"
MINUTE, DAY = 60, 86400


def words(_parser):
    pass


def do(machine, _given):
    for name, tell in PARTS:
        try:
            print(f"{name}: {tell(machine)}", flush=True)
        except (Refused, OSError) as fault:
            print(f"{name}: not known: {fault}")
    return 0 if units.is_active(machine, "counter") else 1


def ago(seconds):
    """A span in its largest unit."""
    for length, unit in ((DAY, "day"), (3600, "hour"), (MINUTE, "minute"), (1, "second")):
        if abs(seconds) >= length:
            count = int(abs(seconds) // length)
            return f"{count} {unit}{'s' if count > 1 else ''}"
    return "no time"


def octets(number):
    for unit in ("octets", "kB", "MB", "GB", "TB"):
        if number < 1000 or unit == "TB":
            return f"{number:.0f} {unit}" if unit == "octets" or number >= 10 else f"{number:.1f} {unit}"
        number /= 1000
    return ""


def service(machine):
    state = units.property_of(machine, "counter", "ActiveState")
    since = units.property_of(machine, "counter", "StateChangeTimestamp")
    if state == "active":
        return f"serves since {since}"
    if state == "activating":
        return f"starts, since {since}: it reads the database, or waits for a calibration"
    return f"doesn't serve, since {since}: counterctl check tells what to do"


def last_token(machine):
    told = asking.state(machine)
    if told["last-gen-time"] == "none":
        return "none yet"
    given = calendar.timegm(time.strptime(told["last-gen-time"][:14], "%Y%m%d%H%M%S"))
    return f"number {told['serial']}, {ago(time.time() - given)} ago"


def clock(machine):
    told = asking.state(machine)
    if told["held"] == "yes":
        return "a hold covers now: no token is given"
    if told["calibration-age-us"] == "none":
        return "never calibrated: no token is given"
    age, left = (int(told[f"calibration-{name}-us"]) / 1e6 for name in ("age", "left"))
    if told["tokens"] != "yes":
        return f"not good enough for a token; calibrated {ago(age)} ago"
    return f"good; calibrated {ago(age)} ago, which lasts {ago(left)} more"


def certificate(machine):
    if not machine.exists(places.CERTIFICATE):
        return "none"
    der = machine.octets(places.CERTIFICATE)
    ends = certificates.validity(machine, der)[1]
    left = ends - time.time()
    what = f"ends in {ago(left)}" if left > 0 else f"ended {ago(left)} ago"
    return f"{certificates.subject(machine, der)}, {what} ({certificates.day(ends)})"


def key_holder(machine):
    if machine.exists(places.WRONG_PIN):
        return "the device didn't take the PIN: counterctl pin"
    return "signs" if units.is_active(machine, "counter-key-holder") else "doesn't sign: counterctl check"


def size(machine):
    used, memory = size_of(machine), memory_of()
    share = 100 * used / memory
    return f"{octets(used)}, {share:.0f} of 100 parts of the memory, into which a start reads it"


def size_of(machine):
    files = (places.DATABASE, f"{places.DATABASE}-wal")
    return sum(os.path.getsize(machine.path(name)) for name in files if machine.exists(name))


def memory_of():
    return os.sysconf("SC_PHYS_PAGES") * os.sysconf("SC_PAGE_SIZE")


def copies_of(machine):
    """The backups, the newest last: (name, moment in seconds)."""
    folder = backup.folder_of(machine)
    if not machine.exists(folder):
        return folder, []
    found = [name for name in sorted(os.listdir(machine.path(folder))) if is_copy(name)]
    return folder, [(name, calendar.timegm(time.strptime(name, "%Y%m%dT%H%M%SZ"))) for name in found]


def is_copy(name):
    try:
        time.strptime(name, "%Y%m%dT%H%M%SZ")
    except ValueError:
        return False
    return True


def backups(machine):
    folder, copies = copies_of(machine)
    if not copies:
        return f"none in {folder}"
    return f"{len(copies)} in {folder}, the newest {ago(time.time() - copies[-1][1])} old"


PARTS = (
    ("service", service),
    ("last token", last_token),
    ("clock", clock),
    ("key holder", key_holder),
    ("certificate", certificate),
    ("database", size),
    ("backups", backups),
)
