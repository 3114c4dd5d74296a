"""Has the history go on in a new database, and shows the old one under a name. Where it was stopped it goes on by the
files that are there."""

import re
import time

from . import asking, backup, faults, places, units
from .machine import Refused

NAME = "new-period"
NEXT = f"{places.DATA}/next.db"
FORM = re.compile(r"\d[\d-]*")
BEGUN = f"{places.DATA}/new-period"


def words(parser):
    parser.add_argument("name", nargs="?", metavar="NAME")


def do(machine, given):
    machine.only_one()
    name = machine.read(BEGUN).strip() if machine.exists(BEGUN) else given.name or time.strftime("%Y", time.gmtime())
    old = f"{places.DATA}/{name}.db"
    look(machine, given, name, old)
    machine.write(BEGUN, f"{name}\n", 0o600)
    units.stop_counter(machine)
    go_on(machine, old)
    units.start(machine)
    show(machine, name)
    copy = backup.make(machine)
    machine.remove(BEGUN)
    machine.tell(f"database: {places.DATABASE} goes on from {old}, which /{name}/ shows; backup: {copy}")
    if not machine.dry_run:
        asking.token(machine, "token")
    return 0


def look(machine, given, name, old):
    if not FORM.fullmatch(name):
        raise Refused(f"{name} isn't a name of digits and `-`", "name a year, as 2026")
    if given.name not in (None, name):
        raise Refused(f"the period {name} has begun, and isn't done", f"counterctl new-period {name}")
    if machine.exists(BEGUN):
        return
    if machine.exists(old):
        raise Refused(f"{old} is there already", "name another period, as 2026-2")
    if machine.exists(NEXT):
        raise Refused(f"{NEXT} is there, and no period has begun", f"look whose it is: mv {NEXT} {NEXT}-other")
    if not machine.exists(places.DATABASE):
        raise Refused(f"{places.DATABASE} is missing", "counterctl restore FOLDER, or lost-machine FOLDER")


def go_on(machine, old):
    """Each step only if its file isn't there yet: the old name goes before the new one comes."""
    if machine.exists(places.DATABASE) and not machine.exists(old):
        if not machine.exists(NEXT):
            where = "--from", machine.path(places.DATABASE), "--db", machine.path(NEXT)
            faults.counter(machine, "continue", *where)
        machine.move(places.DATABASE, old)
    if machine.exists(NEXT) or machine.dry_run:
        if machine.exists(f"{places.DATABASE}-wal") and not machine.exists(f"{old}-wal"):
            machine.move(f"{places.DATABASE}-wal", f"{old}-wal")
        # the log first: a database that has its name is whole
        if machine.exists(f"{NEXT}-wal"):
            machine.move(f"{NEXT}-wal", f"{places.DATABASE}-wal")
        machine.move(NEXT, places.DATABASE)


def show(machine, name):
    """The earlier database is shown by a unit of its own, now and after each boot."""
    unit = f"counter@{name}.service"
    machine.run("systemctl", "--quiet", "enable", "--now", unit, instead=units.why(unit))
