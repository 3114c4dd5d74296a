"""Histories that go on in new databases: `counter continue`, what the new one has to begin with, as `sqlite3` reads it,
and tokens of the stand-in's."""

import hashlib
import itertools
import os
import shutil
import subprocess

from modules.load import GRANTED, REQUEST, members, moment_of, serial_of
from modules.programs import CERTIFICATE, EXAMPLE, PROGRAM, TABLES, sqlite

GREATEST = 2**63 - 1
DONE = (0, "")
# what is carried on, and with what it has to be equal
STAMP = "account, day, gen, hex(policy) AS p, hex(algorithm) AS a, hex(digest) AS d, hex(request) AS r, hex(tst) AS t"
LAST = f"SELECT serial, {STAMP}, hex(token) AS token FROM stamp ORDER BY serial DESC LIMIT 1"
CALIBRATION = "SELECT reading, offset_us, uncertainty FROM calibration ORDER BY n DESC LIMIT 1"
HOLDS = f"SELECT from_us, to_us FROM hold WHERE NOT (from_us <= 0 AND to_us = {GREATEST}) ORDER BY n"
IDENTITY = "SELECT hex(certificate) AS c, hex(chain) AS i FROM identity"
LATEST = f"{IDENTITY} ORDER BY n DESC LIMIT 1"
# the one that was in force when the last serial number was reserved
SIGNED = f"{IDENTITY} WHERE after_serial < (SELECT max(serial) FROM stamp) ORDER BY n DESC LIMIT 1"
# of a void one in the last one's place: what it has of that one, and what of its own
SAME = "SELECT account, hex(policy) AS p, hex(algorithm) AS a, hex(digest) AS d, hex(request) AS r FROM stamp"
OWN = "SELECT serial, gen, day, hex(token) AS token FROM stamp"
TST_INFO = "SELECT hex(tst) AS t FROM stamp ORDER BY serial DESC LIMIT 1"
DAY = 86_400_000_000
CLOSING = f"SELECT from_us, to_us FROM hold WHERE from_us <= 0 AND to_us = {GREATEST}"
ALL_MOMENTS = [{"from_us": 0, "to_us": GREATEST}]


def fault(number, who="store"):
    return (1, f"counter: {who} {number}\n")


def run(*words, **how):
    """Status and standard error of a run, which writes nothing to standard output."""
    done = subprocess.run([PROGRAM, *words], stdin=subprocess.DEVNULL, capture_output=True, **how)
    return (done.returncode, done.stderr.decode()) if not done.stdout else ("wrote", done.stdout)


def carried_on(old, new, above=None, **how):
    """Above a serial number and from a moment on, if they are named."""
    more = zip(("--above", "--moment"), map(str, above)) if above else ()
    return run("continue", "--from", old, "--db", new, *itertools.chain(*more), **how)


def count(path, table):
    return sqlite(path, f"SELECT count(*) AS count FROM {table}")[0]["count"]


def is_sound(path, wrong, when):
    wrong.unless(f"integrity {when}", sqlite(path, "PRAGMA integrity_check"), [{"integrity_check": "ok"}])
    wrong.unless(f"foreign keys {when}", sqlite(path, "PRAGMA foreign_key_check"), [])


def is_void_above(old, new, above, wrong, when):
    """The new one's stamp is void, under another serial number and at another moment than the last one of the old one,
    and for the same request; so is its TSTInfo, which names no tsa (RFC 3161 2.4.2)."""
    serial, moment = above
    wrong.unless(f"the last request {when}", sqlite(new, SAME), sqlite(old, f"{SAME} ORDER BY serial DESC LIMIT 1"))
    row = {"serial": serial, "gen": moment, "day": moment // DAY, "token": ""}
    wrong.unless(f"the void one {when}", sqlite(new, OWN), [row])
    (of_old,), (of_new,) = (members(bytes.fromhex(sqlite(path, TST_INFO)[0]["t"])) for path in (old, new))
    of_old, of_new = members(of_old), members(of_new)
    wrong.unless(f"version, policy and imprint {when}", of_new[:3], of_old[:3])
    wrong.unless(f"number and moment {when}", (int.from_bytes(of_new[3], "big"), moment_of(of_new[4])), above)
    # a name is a GeneralName of the kind directoryName
    without_tsa = [member for member in of_old[5:] if member[:1] != b"\xa4"]
    wrong.unless(f"accuracy, and what is behind {when}", of_new[5:], without_tsa)


def is_carried_on(old, new, wrong, when, above=None):
    """The new database begins with what the old one shows, and with nothing else; the old one has a hold more. Above a
    serial number and a moment it begins with a void stamp in place of the last one."""
    for path, which in ((old, "the old one"), (new, "the new one")):
        is_sound(path, wrong, f"of {which} {when}")
    found = [row["name"] for row in sqlite(new, "SELECT name FROM sqlite_schema WHERE type = 'table' ORDER BY name")]
    wrong.unless(f"tables {when}", found, sorted(("meta", *TABLES)))
    if above:
        is_void_above(old, new, above, wrong, when)
    for what, query in (
        *[("the last stamp", LAST)] * (not above), ("the calibration", CALIBRATION), ("the holds", HOLDS),
        ("who signed", SIGNED), ("the latest identity", LATEST),
    ):
        wrong.unless(f"{what} {when}", sqlite(new, query), sqlite(old, query))
    stamps = min(1, count(old, "stamp"))
    wrong.unless(f"how many stamps {when}", count(new, "stamp"), stamps)
    wrong.unless(f"tallies {when}", sqlite(new, "SELECT sum(count) AS count FROM tally"), [{"count": stamps or None}])
    both = {str(row) for row in (*sqlite(old, SIGNED), *sqlite(old, LATEST))}
    wrong.unless(f"how many identities {when}", count(new, "identity"), len(both))
    for table in ("deposit", "reader", "group_reader"):
        wrong.unless(f"{table} {when}", count(new, table), 0)
    for table in ("calibration", "hold", "identity"):
        numbers = [row["n"] for row in sqlite(new, f"SELECT n FROM {table} ORDER BY n")]
        wrong.unless(f"numbers of {table} {when}", numbers, list(range(1, 1 + len(numbers))))
    wrong.unless(f"the hold of all moments {when}", sqlite(old, CLOSING), ALL_MOMENTS)
    wrong.unless(f"holds of all moments in the new one {when}", sqlite(new, CLOSING), [])


def files(folder):
    """The files of a setting whose signer is the stand-in."""
    for name, octets in (("tsa.der", CERTIFICATE), ("key", b"k")):
        with open(os.path.join(folder, name), "wb") as file:
            file.write(octets)
    shutil.copyfile(EXAMPLE, os.path.join(folder, "policy.toml"))


def setting(folder, path, reading):
    rules, certificate, key = (os.path.join(folder, name) for name in ("policy.toml", "tsa.der", "key"))
    words = ["--db", path, "--rules", rules, "--certificate", certificate, "--signing-key", key]
    return [*words, "--reading", str(reading)]


def answered(folder, path, reading, data):
    """The serial number of the token that `answer` gives, or none where it rejects the request or fails."""
    query = hashlib.sha256(data).digest().join(REQUEST)
    words_of_answer = ["answer", *setting(folder, path, reading)]
    done = subprocess.run([PROGRAM, *words_of_answer], input=query.hex().encode(), capture_output=True)
    reply = bytes.fromhex(done.stdout.decode())
    at = reply.find(GRANTED)
    return serial_of(reply[at + len(GRANTED) :]) if at in (2, 3, 4) else None


def made(folder, name, stamps=0):
    """A database with a calibration and so many stamps of the stand-in."""
    path = os.path.join(folder, name)
    run("init", "--db", path)
    run("calibrate", "--db", path, "--reading", "1000000", "--offset", "0", "--uncertainty", "1")
    for number in range(stamps):
        answered(folder, path, 1000000 + number, bytes([number]))
    return path
