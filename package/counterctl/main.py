"""The words of counterctl."""

import argparse
import os
import sys

from . import accounts, backup, ceremony, certificate, check, lost_machine, new_period, pin, proxy, rekey, restore
from . import setup, status, upgrade_notes
from .machine import Machine, Refused, Stopped

TASKS = (
    (setup, "set a counter up, for a trial or for production"),
    (accounts, "add, list and revoke accounts, or give one another key"),
    (ceremony, "make a key in a device, and a request for its certificate"),
    (certificate, "take the key's first certificate"),
    (rekey, "go on with another key"),
    (pin, "take another PIN of the device"),
    (proxy, "put nginx before the counter"),
    (backup, "copy the database"),
    (restore, "make a backup the database again"),
    (new_period, "have the history go on in a new database"),
    (lost_machine, "go on from an old backup"),
    (status, "tell how the counter is"),
    (check, "look at everything that a fault may come from"),
    (upgrade_notes, "tell what to do after an upgrade"),
)


def parser():
    whole = argparse.ArgumentParser("counterctl", description="Set up, change and mend a counter.", allow_abbrev=False)
    tasks = whole.add_subparsers(dest="task", required=True, metavar="TASK")
    for module, told in TASKS:
        one = tasks.add_parser(module.NAME, help=told, description=told, allow_abbrev=False)
        one.add_argument("--dry-run", action="store_true", help="tell what would be done")
        module.words(one)
        one.set_defaults(do=module.do)
    return whole


def main(words=None):
    given = parser().parse_args(words)
    # tests have a folder that stands for the machine
    machine = Machine(os.environ.get("COUNTERCTL_ROOT", "/"), given.dry_run)
    try:
        return given.do(machine, given)
    except Refused as refused:
        sys.stdout.flush()
        how = "stopped" if isinstance(refused, Stopped) else "refused"
        then = "it goes on by" if isinstance(refused, Stopped) else "instead"
        machine.log(f"{given.task}: {how}: {refused.what}")
        # where it stopped is what was asked for
        where = sys.stdout if isinstance(refused, Stopped) else sys.stderr
        print(f"counterctl: {how}: {refused.what}\n  {then}: {refused.instead}", file=where)
        return 1
    except KeyboardInterrupt:
        print("\ncounterctl: stopped; give the task again to go on", file=sys.stderr)
        return 1
