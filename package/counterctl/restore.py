"""Makes a backup the database again, with its policy files, once everything about it is verified."""

import os

from . import asking, database, places, units
from .machine import Refused

NAME = "restore"


def words(parser):
    parser.add_argument("folder", metavar="FOLDER")
    parser.add_argument("--knowingly-older", action="store_true")


def do(machine, given):
    machine.only_one()
    folder = os.path.abspath(given.folder) if machine.root == "/" else given.folder
    serial, _ = database.look_at_backup(machine, folder)
    machine.tell(f"{folder}: sound, each row passes, last number {serial}")
    look_at_numbers(machine, folder, serial, given.knowingly_older)
    units.stop_counter(machine)
    # what was given until the stop counts, too
    look_at_numbers(machine, folder, serial, given.knowingly_older)
    if given.knowingly_older and database.last_known(machine)[0] > serial:
        machine.write(places.BELOW_LAST_SERIAL, f"{serial}\n", 0o600, "counter", "counter")
    aside = database.move_aside(machine)
    if aside:
        machine.tell(f"database: the present one is in {aside}")
    database.put_rules_back(machine, folder)
    machine.copy(f"{folder}/counter.db", places.DATABASE, "counter")
    units.start(machine)
    if not machine.dry_run:
        asking.token(machine, "token")
    return 0


def look_at_numbers(machine, folder, serial, is_known):
    """Refuses a backup below a number that was given: it would be given again."""
    known, _, who = database.last_known(machine)
    if units.is_active(machine, "counter") and machine.exists(places.ADDRESS):
        known, who = max((known, who), (int(asking.state(machine)["serial"]), "the counter that serves"))
    if known > serial and not is_known:
        what = f"{folder} ends with the number {serial}, and {who} tells {known}: numbers would be given twice"
        raise Refused(what, f"counterctl lost-machine {folder}, which goes on above; or --knowingly-older")
