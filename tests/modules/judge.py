"""Judges the stamps of a database by a policy file, as docs/formats.md has its tables and rules, and explains them. It
knows nothing of what the counter's program does: files are read by Python's sqlite3 and tomllib."""

import collections
import contextlib
import hashlib
import re
import sqlite3
import tomllib

from modules.messages import NoValue, gen_time, oid_text, read_request, subject_of

DAY = 86_400_000_000
LAST_MOMENT = 253_402_300_799_999_999
LAST_READING = 2**63 - 1
GIVEN, HELD, NOT_GIVEN = "given", "may have been held", "isn't given by these rules: "
TABLES = {
    "stamp": "serial account day gen policy algorithm digest request tst token",
    "calibration": "reading offset_us uncertainty",
    "hold": "from_us to_us",
    "identity": "after_serial certificate",
}
# lines of an explanation that tell of the clock
CLOCK = "calibration-reading", "calibration-offset-us", "calibration-uncertainty-us", "reading"


def rows_of(database, table):
    """Those of `stamp`, and of the other tables those numbered 1, 2, 3 and so on, as far as they go."""
    row = collections.namedtuple(table, TABLES[table])
    found = database.execute(f"SELECT rowid, {', '.join(row._fields)} FROM {table} ORDER BY rowid")
    return [row(*one) for at, (number, *one) in enumerate(found, 1) if table == "stamp" or number == at]


def named(entries, key, wanted):
    return next((one for one in entries if one[key] == wanted), None)


def requested(stamp):
    """The request that a stamp's octets are; none if they aren't one."""
    try:
        return read_request(stamp.request)
    except NoValue:
        return None


def sha256(octets):
    return hashlib.sha256(octets).hexdigest()


class Judge:
    """What stamps are judged by: a policy file, and what the tables keep."""

    def __init__(self, path, rules):
        database = sqlite3.connect(path)
        self.stamps, self.calibrations, self.holds, self.identities = (rows_of(database, one) for one in TABLES)
        database.close()
        with open(rules, "rb") as file:
            self.file = collections.defaultdict(list, tomllib.load(file))
        self.counter = self.file["counter"]
        self.step = 10 ** (6 - self.counter["fraction_digits"])

    def account(self, stamp):
        return named(self.file["account"], "name", stamp.account)

    def policy(self, stamp, request):
        """The one that is asked for, if the file has it."""
        if request.policy is not None:
            return named(self.file["policy"], "oid", oid_text(request.policy))
        account = self.account(stamp)
        return account and named(self.file["policy"], "name", account["policies"][0])

    def failing(self, stamp, request):
        """The first of the rules 2 to 9 that fails."""
        account, policy = self.account(stamp), self.policy(stamp, request)
        algorithm = named(self.file["algorithm"], "oid", oid_text(request.algorithm))
        kinds = [kind for kind, _, _ in request.extensions]
        known = [named(self.file["extension"], "oid", oid_text(kind)) for kind in kinds]
        listed = (policy or {}).get("extensions", [])
        most = [one["max_length"] if one and one["name"] in listed else -1 for one in known]
        holds = {
            2: request.version == b"\x01",
            3: account is not None and account.get("active", True),
            4: algorithm is not None and request.parameters in (None, b"\x05\x00"),
            5: algorithm is None or len(request.hash) == algorithm["length"],
            6: None not in (account, policy) and policy["name"] in account["policies"],
            7: None not in (algorithm, policy) and algorithm["name"] in policy["algorithms"],
            8: len(set(kinds)) == len(kinds) and all(len(it[2]) <= n for n, it in zip(most, request.extensions)),
            9: not request.cert_req or (policy is not None and policy.get("certificate", True)),
        }
        return next((rule for rule, it_holds in holds.items() if not it_holds), None)

    def readings(self, moment):
        """Each calibration, with the readings at which it was the latest one and gave that genTime."""
        for one, later in zip(self.calibrations, [*self.calibrations[1:], None]):
            end = min(moment + self.step - 1 - one.offset_us, LAST_READING, later.reading if later else LAST_READING)
            yield one, range(max(one.reading, moment - one.offset_us), end + 1) if moment % self.step == 0 else ()

    def deviation(self, calibration, reading):
        drifted = (reading - calibration.reading) * self.counter["drift_ppb"]
        return calibration.uncertainty + (drifted + 10**9 - 1) // 10**9

    def is_good(self, calibration, reading, last, holds):
        """Whether a token may be given behind a last genTime."""
        now = reading + calibration.offset_us
        moment = now - now % self.step
        return (
            reading - calibration.reading <= self.counter["max_age_us"]
            and self.deviation(calibration, reading) + self.step - 1 <= self.counter["accuracy_us"]
            and now <= LAST_MOMENT
            and not any(hold.from_us <= now < hold.to_us for hold in holds)
            and (last is None or last < moment or (last == moment and not self.counter.get("ordering", False)))
        )

    def was_good(self, moment, last, holds):
        """At some reading: the earlier it is, the better, where nothing is held."""
        return any(
            reading in span and self.is_good(one, reading, last, holds)
            for one, span in self.readings(moment)
            for reading in (*span[:1], *(hold.to_us - one.offset_us for hold in holds))
        )

    def before(self, stamp):
        """The last genTime, and how many stamps the account had on the day."""
        rows = [row for row in self.stamps if row.serial < stamp.serial]
        count = sum((row.account, row.gen // DAY) == (stamp.account, stamp.gen // DAY) for row in rows)
        return min(rows[-1].gen, LAST_MOMENT) if rows else None, count

    def identity(self, stamp):
        return next((one for one in reversed(self.identities) if one.after_serial < stamp.serial), None)

    def subject(self, stamp):
        identity = self.identity(stamp)
        with contextlib.suppress(NoValue):
            return identity and subject_of(identity.certificate)

    def is_row(self, stamp, request):
        """Whether the row is that of the stamp which is allowed."""
        subject = self.subject(stamp) if self.counter.get("tsa_name", False) else b""
        if subject is None or oid_text(stamp.policy) != self.policy(stamp, request)["oid"]:
            return False
        how = self.counter["accuracy_us"], self.counter.get("ordering", False), subject
        columns = stamp.day, stamp.algorithm, stamp.digest, stamp.tst
        answer = request.answer(stamp.policy, stamp.serial, stamp.gen, *how)
        return columns == (stamp.gen // DAY, request.algorithm, request.hash, answer)

    def judged(self, stamp):
        """None for one that was carried on from another database."""
        (last, count), request = self.before(stamp), requested(stamp)
        if last is None and stamp.serial != 1:
            return None
        rule = self.failing(stamp, request) if request else 1
        if not rule and not self.was_good(stamp.gen, last, []):
            rule = 10
        if not rule and count >= self.account(stamp)["daily_quota"]:
            rule = 11
        if rule or not self.is_row(stamp, request):
            return NOT_GIVEN + (f"rule {rule}" if rule else "text")
        return GIVEN if self.was_good(stamp.gen, last, self.holds) else HELD

    def told(self):
        """What is to be told: of each stamp that isn't simply given."""
        judged = {stamp.serial: self.judged(stamp) for stamp in self.stamps}
        return {serial: found for serial, found in judged.items() if found not in (None, GIVEN)}

    def explained(self, stamp, said):
        """The lines that explain a stamp: of the clock any reading that was said, if none is better."""
        (last, count), request, account = self.before(stamp), requested(stamp), self.account(stamp)
        values, clock = {1: f": {len(stamp.request)} octets", 5: f": {len(stamp.digest)} octets"}, ["calibration none"]
        said, was_good = dict(line.partition(" ")[::2] for line in said), self.was_good(stamp.gen, last, [])
        is_furthest = not was_good
        if "reading" in said:
            *one, reading = (int(said[name]) for name in CLOCK)
            one = self.calibrations[0]._make(one)
            is_furthest = any(one == other and reading in span for other, span in self.readings(stamp.gen))
            is_furthest = is_furthest and self.is_good(one, reading, last, []) == was_good
            distance = self.deviation(one, reading)
            clock = [f"{name} {value}" for name, value in zip(CLOCK, one)]
            clock += [f"calibration-age-us {reading - one.reading}", f"reading {reading}", f"deviation-us {distance}"]
            values[10] = f": {distance + self.step - 1} of {self.counter['accuracy_us']} microseconds"
        moment = gen_time(stamp.gen).decode() if stamp.gen <= LAST_MOMENT else str(stamp.gen)
        date = "-".join((moment[:4], moment[4:6], moment[6:8])) if stamp.gen <= LAST_MOMENT else stamp.gen // DAY
        if account:
            values[11] = f": {count} of {account['daily_quota']} on {date}"
        judged = self.judged(stamp)
        fails = int((re.findall(r"rule (\d+)$", judged or "") or ["99"])[0])
        rules = (" isn't judged" if not judged or rule > fails else
                 (" fails" if rule == fails else " holds") + values.get(rule, "") for rule in range(1, 13))
        subject, identity = self.subject(stamp), self.identity(stamp)
        kinds = [oid_text(kind) for kind, _, _ in request.extensions] if request else []
        return is_furthest, [
            f"serial {stamp.serial}", f"account {stamp.account}",
            f"state {'void' if stamp.token is None else 'sealed'}", f"gen-time {moment}",
            f"algorithm {oid_text(stamp.algorithm)}", f"digest {stamp.digest.hex()}",
            f"nonce {request.nonce.hex() if request and request.nonce else 'none'}",
            f"policy {oid_text(stamp.policy)}", f"extensions {' '.join(kinds) or 'none'}",
            *(f"rule {rule}{text}" for rule, text in enumerate(rules, 1)), *clock,
            f"accuracy-us {self.counter['accuracy_us']}", f"subject {subject.hex() if subject else 'none'}",
            f"certificate-sha256 {sha256(identity.certificate) if identity else 'none'}",
            f"token-sha256 {sha256(stamp.token) if stamp.token else 'none'}",
            f"verdict {judged or 'carried on from another database'}",
        ]
