"""Has the history go on from an old backup, above every serial number that clients can have."""

import json
import os
import time

from . import accounts, asking, clock, database, faults, new_period, places, units
from .machine import Refused

NAME = "lost-machine"
DAY = 86400
MOST = 2**63 - 1
BEGUN = f"{places.DATA}/lost-machine"


def words(parser):
    parser.add_argument("folder", metavar="FOLDER")
    parser.add_argument("--above", type=int, metavar="N")
    parser.add_argument("--knowingly-older", action="store_true")


def do(machine, given):
    machine.only_one()
    folder = os.path.abspath(given.folder) if machine.root == "/" else given.folder
    plan = json.loads(machine.read(BEGUN)) if machine.exists(BEGUN) else begin(machine, given, folder)
    go_on(machine, plan)
    units.start(machine)
    new_period.show(machine, plan["name"])
    machine.remove(BEGUN)
    machine.tell(f"database: {places.DATABASE} goes on above {plan['above']}; /{plan['name']}/ shows the backup's")
    if not machine.dry_run:
        asking.token(machine, "token")
    return 0


def begin(machine, given, folder):
    """Verifies everything, moves the present database aside, and writes down what is done then."""
    serial, moment = database.look_at_backup(machine, folder)
    if not serial:
        raise Refused(f"{folder} has no stamp to go on from", "counterctl restore, which takes it as it is")
    machine.tell(f"{folder}: sound, each row passes, last number {serial}")
    clock.look(machine)
    look_at_present(machine, given, serial)
    known = [*database.numbers(machine), (serial, moment, folder)]
    above = number_above(machine, given.above, known)
    units.stop_counter(machine)
    aside = database.move_aside(machine)
    if aside:
        machine.tell(f"database: the present one is in {aside}")
    name = name_of(machine, time.strftime("%Y-%m-%d", time.gmtime(moment)))
    plan = {"folder": folder, "name": name, "above": above}
    machine.write(BEGUN, json.dumps(plan) + "\n", 0o600)
    return plan


def name_of(machine, day):
    """The day of the backup's last stamp, or that with a number."""
    names = (day, *(f"{day}-{number}" for number in range(2, 100)))
    return next(name for name in names if not machine.exists(f"{places.DATA}/{name}.db"))


def look_at_present(machine, given, serial):
    """Refuses where the present database is sound and has more than the backup."""
    if not machine.exists(places.DATABASE) or given.knowingly_older:
        return
    process = database.holder(machine, places.DATABASE)
    if process:
        raise Refused(f"{places.DATABASE} serves, by process {process}", "nothing is lost; or systemctl stop counter")
    with database.Copy(machine, places.DATABASE) as copy:
        if not database.is_sound(copy.path):
            return
    present, _ = database.serial_in(machine, places.DATABASE)
    if present > serial:
        what = f"{places.DATABASE} is sound, and has the numbers up to {present}"
        raise Refused(what, "start it: systemctl start counter; --knowingly-older gives up what the backup lacks")


def number_above(machine, wanted, known):
    """A number that no client can have: each known one, and the quotas of all accounts for each UTC day since, that day
    and today included, since every number counts towards a quota; and once more for each new database since, in which
    quotas began anew."""
    quotas = sum(one["daily_quota"] for one in accounts.accounts(accounts.read(machine)))
    today = int(time.time()) // DAY
    ends = ends_of_periods(machine)
    bounds = [
        number + quotas * (today - int(moment) // DAY + 1 + sum(end >= int(moment) for end in ends))
        for number, moment, _ in known
    ]
    least, who = max((number, who) for number, _, who in known)
    if wanted is None:
        return max(bounds)
    if wanted <= least:
        raise Refused(f"{who} tells the number {least}, which isn't below {wanted}", "leave --above out")
    if wanted < max(bounds):
        machine.tell(f"above {wanted}: fewer than the quotas would have let be given, {max(bounds)}")
    return min(wanted, MOST - 1)


def ends_of_periods(machine):
    """When the last number was given of each database here whose history went on in another one, in seconds."""
    names = (name.removesuffix(".db") for name in os.listdir(machine.path(places.DATA)) if name.endswith(".db"))
    ended = filter(new_period.FORM.fullmatch, names)
    return [database.serial_in(machine, f"{places.DATA}/{name}.db")[1] for name in ended]


def go_on(machine, plan):
    """The backup under a name from which nothing gives tokens, and a new database that goes on from it."""
    old = f"{places.DATA}/{plan['name']}.db"
    units.stop_counter(machine)
    if not machine.exists(old):
        database.put_rules_back(machine, plan["folder"])
        machine.copy(f"{plan['folder']}/counter.db", old, "counter")
    if machine.exists(places.DATABASE):
        return
    moment = str(int(time.time()) * 1_000_000)
    where = "--from", machine.path(old), "--db", machine.path(places.DATABASE)
    faults.counter(machine, "continue", *where, "--above", str(plan["above"]), "--moment", moment, file=old)
