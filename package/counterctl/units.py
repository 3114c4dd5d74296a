"""The services, and the files by which they are set up (drop-ins of systemd)."""

import glob
import os
import re
import time

from . import faults, places
from .machine import Refused

MOST_SECONDS = 600
# without which its unit isn't started
NEEDED = places.RULES, places.CERTIFICATE, places.ALGORITHM, places.DATABASE


def is_active(machine, unit):
    return machine.ask("systemctl", "is-active", "--quiet", unit)[0] == 0


def property_of(machine, unit, name):
    return machine.tells("systemctl", "show", f"--property={name}", "--value", unit)


def helpers(machine):
    """The timers and paths of the package, by which the services are helped."""
    found = [
        path for end in ("timer", "path") for path in glob.glob(machine.path(f"{places.INSTALLED}/counter-*.{end}"))
    ]
    return sorted(os.path.basename(path) for path in found)


def drop_in(machine, name, *lines):
    """Whether the drop-in had to be written; systemd reads it then."""
    head = "# By counterctl, which writes it anew.\n[Service]\n"
    if not machine.write(name, head + "".join(f"{line}\n" for line in lines)):
        return False
    machine.run("systemctl", "daemon-reload")
    return True


def start(machine):
    """Starts key holder and counter, at each boot too, with the timers, and waits until the counter answers."""
    machine.run("systemctl", "--quiet", "enable", "counter-key-holder.service", "counter.service", *helpers(machine))
    if not is_active(machine, "counter-key-holder"):
        machine.run("systemctl", "start", "counter-key-holder", instead=why("counter-key-holder"))
    start_counter(machine)
    machine.run("systemctl", "start", *helpers(machine))


def start_counter(machine, verb="start"):
    """Waits for a start that reads a large database; one that is refused again and again is told at once."""
    if machine.dry_run:
        machine.run("systemctl", verb, "--no-block", "counter")
        return
    missing = [name for name in NEEDED if not machine.exists(name)]
    if missing:
        raise Refused(f"the counter needs {', '.join(missing)}", "counterctl check tells what to do")
    machine.run("systemctl", verb, "--no-block", "counter")
    refused, end = refusals(machine), time.monotonic() + MOST_SECONDS
    while not is_active(machine, "counter"):
        if refusals(machine) > refused:
            raise refusal(machine)
        if time.monotonic() > end:
            raise Refused(f"the counter still starts, after {MOST_SECONDS} seconds", why("counter"))
        time.sleep(0.5)


def refusal(machine):
    """Why a start is refused: a fault of the counter's in words."""
    line = last_fault(machine)
    found = faults.first_fault(line.encode())
    words = faults.in_words(machine, found) if found else None
    if words:
        return Refused(f"the counter doesn't start: {line}: {words[0]}", words[1])
    return Refused(f"the counter doesn't start: {line}", "see to that; counterctl check tells more")


def refusals(machine):
    """How often a start was refused within the hour."""
    told = journal(machine)
    return told.count("event=refused-start ") + told.count('event=uncalibrated cause="no calibration')


def journal(machine):
    words = "--unit", "counter", "--since", "-1 hour", "--output", "cat", "--no-pager"
    return machine.tells("journalctl", *words)


def last_fault(machine):
    lines = [line for line in journal(machine).splitlines() if re.match(r"(counter|calibrate|lifecycle): ", line)]
    return lines[-1] if lines else "its journal tells why"


def why(unit):
    return f"journalctl --unit {unit} tells why"


def stop_counter(machine):
    machine.run("systemctl", "stop", "counter.service")
