"""chronyd, which keeps the machine's clock: slowly, and without steps."""

import os
import re
import time

from . import places
from .machine import Refused

MAIN = "/etc/chrony/chrony.conf"
OWN = "/etc/chrony/conf.d/counter.conf"
SLEW = 50
STEPS = re.compile(r"^(?=\s*makestep\b)", re.M)


def prepare(machine):
    """Has chronyd adjust the clock by 50 parts in a million at most, and never step it."""
    machine.needs({"chronyc": "chrony"})
    if not machine.exists(MAIN):
        return
    text = machine.read(MAIN)
    changed = STEPS.sub("# by counterctl, since tokens are wrong after a step: ", text)
    own = machine.write(OWN, f"# by counterctl: as slow as the policy file's drift_ppb\nmaxslewrate {SLEW}\n")
    if machine.write(MAIN, changed) or own:
        machine.run("systemctl", "try-restart", "chrony")
        machine.tell(f"clock: {MAIN} without makestep, {OWN} with maxslewrate {SLEW}")


def directives(machine):
    """The lines of chronyd's configuration."""
    found = []
    names = [MAIN]
    folder = os.path.dirname(OWN)
    if machine.exists(folder):
        names += [f"{folder}/{name}" for name in sorted(os.listdir(machine.path(folder))) if name.endswith(".conf")]
    for name in names:
        if machine.exists(name):
            found += [(name, line.split()) for line in machine.read(name).splitlines() if line.split()]
    return found


def faults(machine):
    """What is wrong with chronyd, and what to do."""
    tracking = machine.tells("chronyc", "-c", "tracking")
    fields = tracking.split(",")
    if len(fields) != 14:
        yield f"chronyc doesn't tell how the clock is: {tracking or 'no answer'}", "systemctl start chrony"
    elif fields[13] == "Not synchronised" or fields[0] == "00000000":
        yield "chronyd follows no source", "name servers in /etc/chrony/sources.d, and wait a minute"
    elif fields[0].startswith("7F7F"):
        yield "chronyd follows its own clock", "take the directive `local` out of its configuration"
    slews = [float(words[1]) for _, words in directives(machine) if words[0] == "maxslewrate"]
    for name, words in directives(machine):
        if words[0] == "makestep":
            yield f"{name}: {' '.join(words)} lets chronyd step the clock", "counterctl setup, or take it out"
    if machine.exists(MAIN) and (not slews or slews[-1] > SLEW):
        yield f"chronyd adjusts the clock faster than {SLEW} parts in a million", "counterctl setup"
    if len(fields) == 14 and is_older_than_step(machine, float(fields[3]) - float(fields[4])):
        what = "chronyd hasn't measured since the clock was set, so nothing is calibrated"
        yield what, "wait a minute: chronyc burst 4/4"


def is_older_than_step(machine, measured):
    """Whether chronyd's last measurement, by the machine's clock, is from before a step in this boot."""
    if not machine.exists(places.STEPPED):
        return False
    boot, _, step = machine.read(places.STEPPED).strip().partition(" ")
    with open("/proc/sys/kernel/random/boot_id", encoding="ascii") as file:
        if boot != file.read().strip().replace("-", "") or not step.isdigit():
            return False
    since_boot = time.clock_gettime(time.CLOCK_BOOTTIME) - (time.time() - measured)
    return since_boot < int(step) / 1_000_000 + 1


def look(machine):
    """Refuses a clock that nobody keeps."""
    for what, instead in faults(machine):
        raise Refused(what, instead)
