"""Databases as files, and what is known of serial numbers. A database that serves is never opened, and no other but as
a copy: SQLite would write to it."""

import glob
import os
import pwd
import re
import shutil
import sqlite3
import subprocess
import tempfile
import time

from . import places
from .machine import Refused

SCHEMA = 3
TABLES = {"meta", "stamp", "calibration", "hold", "deposit", "reader", "group_reader", "tally", "identity"}


def holder(machine, file):
    """The number of a process that has the file open; none if nobody has."""
    path = os.path.realpath(machine.path(file))
    for link in glob.glob("/proc/[0-9]*/fd/*"):
        try:
            if os.readlink(link) == path:
                return int(link.split("/")[2])
        except OSError:
            continue
    return None


class Copy:
    """A copy of a database with its log, which may be opened; it is removed at the end."""

    def __init__(self, machine, file, without_log=False):
        # where there is room for it
        self.folder = tempfile.mkdtemp(prefix=".counterctl-", dir=machine.path(places.DATA))
        self.path = os.path.join(self.folder, "counter.db")
        for end in ("",) if without_log else ("", "-wal"):
            if os.path.exists(machine.path(file) + end):
                subprocess.run(["cp", "--reflink=auto", "--", machine.path(file) + end, self.path + end], check=True)

    def __enter__(self):
        return self

    def __exit__(self, *_):
        shutil.rmtree(self.folder)

    def rows(self, statement):
        database = sqlite3.connect(self.path)
        try:
            return database.execute(statement).fetchall()
        finally:
            database.close()

    def number(self, statement):
        return self.rows(statement)[0][0]


def in_words(machine, file):
    """What is wrong with a database that the counter can't open or take, and what to do; by formats.md."""
    path = machine.path(file)
    if not os.path.exists(path):
        return f"{file} is missing", "counterctl setup for a first one, counterctl lost-machine FOLDER for a lost one"
    owner = os.stat(path).st_uid
    if machine.root == "/" and owner != pwd.getpwnam("counter").pw_uid:
        return f"{file} belongs to the account {account(owner)}", f"chown counter:counter {file}*"
    process = holder(machine, file)
    if process:
        return f"{file} is in use by process {process}", f"end that: systemctl stop counter, or ps {process}"
    with Copy(machine, file) as copy:
        return of_tables(machine, file, copy)


def account(number):
    try:
        return pwd.getpwuid(number).pw_name
    except KeyError:
        return str(number)


def of_tables(machine, file, copy):
    tables = tables_of(copy)
    if tables is None or TABLES - tables:
        # with a log that isn't its own a database is none, or another one
        with Copy(machine, file, without_log=True) as alone:
            if not TABLES - (tables_of(alone) or set()) and machine.exists(f"{file}-wal"):
                return f"{file}-wal is the log of another database", f"move it away: mv {file}-wal {file}-other-wal"
    if tables is None:
        return f"{file} is no sound database", "counterctl restore FOLDER"
    version = copy.number("SELECT version FROM meta") if "meta" in tables else None
    if version in range(1, SCHEMA):
        again = f"counterctl backup; systemctl stop counter; runuser -u counter -- counter migrate --db {file}"
        return f"{file} is of schema {version}, which an older counter made", again
    if version is not None and version != SCHEMA:
        return f"{file} is of schema {version}, which a newer counter made", "install the newer package"
    if not tables:
        return f"{file} has no tables", "counterctl lost-machine FOLDER, or if there never was one, counterctl setup"
    if TABLES - tables:
        return f"{file} is no database of the counter's: it lacks {', '.join(sorted(TABLES - tables))}", "take another"
    return f"{file} is sound, but the counter can't open it", "look at the disk: df, dmesg"


def tables_of(copy):
    """The names of its tables; none if it is no sound database."""
    if not is_sound(copy.path):
        return None
    return {name for (name,) in copy.rows("SELECT name FROM sqlite_master WHERE type = 'table'")}


def is_sound(path):
    try:
        database = sqlite3.connect(path)
        try:
            return database.execute("PRAGMA quick_check(1)").fetchone() == ("ok",)
        finally:
            database.close()
    except sqlite3.DatabaseError:
        return False


def serial_in(machine, file):
    """The greatest serial number of a database, and the moment of its genTime in seconds; (0, 0) without one."""
    with Copy(machine, file) as copy:
        return copy.rows("SELECT coalesce(max(serial), 0), coalesce(max(gen), 0) / 1000000 FROM stamp")[0]


def numbers(machine):
    """Each serial number that is known to have been given here: (number, moment in seconds, who tells it)."""
    if machine.exists(places.LAST_SERIAL):
        text = machine.read(places.LAST_SERIAL).strip()
        if not text.isdigit():
            raise Refused(f"{places.LAST_SERIAL} has no number", "look what wrote to it, and write the right one")
        yield int(text), os.path.getmtime(machine.path(places.LAST_SERIAL)), places.LAST_SERIAL
    daily = f"{places.DATA}/daily"
    if machine.exists(daily):
        serial, _, moment = machine.read(daily).strip().partition(" ")
        if serial.isdigit() and moment.isdigit():
            yield int(serial), int(moment), daily
    journal = machine.tells("journalctl", "--unit", "counter-calibrate", "--output", "short-unix", "--no-pager")
    told = re.findall(r"^(\d+)\.\d+ .* event=calibration number=\d+ serial=(\d+) ", journal, re.M)
    if told:
        yield int(told[-1][1]), int(told[-1][0]), "the journal of counter-calibrate"
    if machine.exists(places.DATABASE) and not holder(machine, places.DATABASE):
        try:
            yield *serial_in(machine, places.DATABASE), places.DATABASE
        except sqlite3.DatabaseError:
            return


def last_known(machine):
    return max(numbers(machine), default=(0, 0, "nothing"))


def aside(machine):
    """A new folder's name for what is moved aside, by the moment."""
    name = f"{places.DATA}/aside-{time.strftime('%Y%m%dT%H%M%SZ', time.gmtime())}"
    return next(one for one in (name, *(f"{name}-{number}" for number in range(2, 1000))) if not machine.exists(one))


def move_aside(machine, file=places.DATABASE):
    """Moves a database and its log aside; the folder, or none if there is no database."""
    there = [file + end for end in ("", "-wal", "-shm") if machine.exists(file + end)]
    if not there:
        return None
    folder = aside(machine)
    machine.folder(folder, 0o700, "counter", "counter")
    # the log first: a database without its log is one that lacks the newest rows
    for name in reversed(there):
        machine.move(name, f"{folder}/{name.rpartition('/')[2]}")
    return folder


def put_rules_back(machine, folder):
    """Puts the policy files that a backup has beside the database again; a list of which counted when that isn't the
    backup's goes aside."""
    kept, own = f"{folder}/rules", f"{places.KEPT_RULES}/list"
    names = sorted(os.listdir(machine.path(kept))) if machine.exists(kept) else []
    if "list" in names and machine.exists(own) and machine.octets(own) != machine.octets(f"{kept}/list"):
        other = aside(machine)
        machine.folder(other, 0o700, "counter", "counter")
        machine.move(own, f"{other}/rules-list")
    for name in names:
        machine.folder(places.KEPT_RULES, 0o750, "counter", "counter")
        if not machine.exists(f"{places.KEPT_RULES}/{name}"):
            machine.copy(f"{kept}/{name}", f"{places.KEPT_RULES}/{name}", "counter")


def look_at_backup(machine, folder):
    """Verifies a backup: its digest, the database, and each row; its greatest serial number, and that one's moment."""
    copy = f"{folder}/counter.db"
    if not machine.exists(copy):
        raise Refused(f"{folder} has no counter.db", "name the folder of a backup, as counterctl status tells")
    done = subprocess.run(
        ["sha256sum", "--check", "--quiet", "SHA256SUMS"], cwd=machine.path(folder), capture_output=True, text=True
    )
    if done.returncode != 0:
        told = done.stdout.strip() or done.stderr.strip()
        raise Refused(f"{folder} isn't what was copied: {told}", "take another one")
    with Copy(machine, copy) as own:
        look_at_rows(machine, folder, own)
        return own.rows("SELECT coalesce(max(serial), 0), coalesce(max(gen), 0) / 1000000 FROM stamp")[0]


def look_at_rows(machine, folder, own):
    try:
        for pragma in ("integrity_check", "foreign_key_check"):
            found = own.rows(f"PRAGMA {pragma}")
            if found not in ([("ok",)], []):
                raise Refused(f"{folder} isn't sound: {found[0]}", "take another one")
        first, last = own.rows("SELECT min(serial), max(serial) FROM stamp")[0]
    except sqlite3.DatabaseError as fault:
        raise Refused(f"{folder} isn't sound: {fault}", "take another one") from None
    if last is None:
        return
    where = ("--db", own.path, "--rules", f"{places.PROGRAMS}/audit.toml", "--account", "backup")
    status, _, errors = machine.ask("counter", "audit", *where, "--from", str(first), "--to", str(last), "--check")
    if status != 0:
        raise Refused(f"rows of {folder} fail their check: {errors.decode().strip()}", "take another one")
