"""A copy of the database, as each night."""

import re

from . import places, units

NAME = "backup"


def words(parser):
    parser.add_argument("--folder", metavar="FOLDER")


def folder_of(machine):
    """Where the timer's copies go."""
    environment = units.property_of(machine, "counter-backup.service", "Environment")
    found = re.search(r"\bFOLDER=(\S+)", environment)
    return found[1] if found else places.BACKUPS


def do(machine, given):
    machine.only_one()
    copy = make(machine, given.folder)
    if copy:
        machine.tell(f"backup: {copy}")
    return 0


def make(machine, folder=None):
    written = machine.run(f"{places.PROGRAMS}/backup", folder or folder_of(machine))
    return written.decode().strip()
