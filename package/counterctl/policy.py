"""The policy file: its first fault by the order of formats.md, with the line, and changes of its accounts. What the
program says by a number is said here in words."""

import re
import tomllib

NAMES = {1: "Toml", 2: "Missing", 3: "BadValue", 4: "Duplicate", 5: "UnknownName", 6: "TooMany"}
MOST = {"algorithm": 8, "extension": 32, "policy": 16, "account": 64, "group": 16}
# the five algorithms whose length their identifier gives
LENGTHS = {
    "1.3.14.3.2.26": 20,
    "2.16.840.1.101.3.4.2.4": 28,
    "2.16.840.1.101.3.4.2.1": 32,
    "2.16.840.1.101.3.4.2.2": 48,
    "2.16.840.1.101.3.4.2.3": 64,
}
NAME = re.compile(r"[a-z0-9-]{1,32}")
NUMBER = "(?:0|[1-9][0-9]*)"
IDENTIFIER = re.compile(rf"{NUMBER}(?:\.{NUMBER})+")
HASH = re.compile(r"[0-9A-Fa-f]{64}")


class Fault(Exception):
    """A fault of the file: its number, the key that it is of, and where; `str` tells it in words."""

    def __init__(self, number, field, where, what):
        super().__init__(f"{where}{what}")
        self.number, self.field = number, field


def statements(text):
    """Of each line that begins something: its number, that of its last line, and its text. A value may have several
    lines: so many are taken together that they are a document by themselves."""
    lines = text.splitlines()
    at = 0
    while at < len(lines):
        end = at + 1
        while end < len(lines) and not stands(lines[at:end]):
            end += 1
        if not stands(lines[at:end]):
            end = at + 1
        if lines[at].strip() and not lines[at].lstrip().startswith("#"):
            yield at + 1, end, "\n".join(lines[at:end])
        at = end


def stands(lines):
    try:
        tomllib.loads("\n".join(lines))
    except tomllib.TOMLDecodeError:
        return False
    return True


def places(text):
    """Where each table and key stands: by (array or table, number of the entry, key) its first and last line."""
    found, counts, table = {}, {}, None
    for first, last, statement in statements(text):
        header = re.match(r"\s*\[\[?\s*\"?([\w-]+)\"?\s*\]\]?", statement)
        if header:
            name = header[1]
            counts[name] = counts.get(name, -1) + 1
            table = (name, counts[name])
            found.setdefault((*table, None), (first, last))
            continue
        key = re.match(r"\s*\"?([\w-]+)", statement)
        if key:
            found.setdefault((*(table or (None, 0)), key[1]), (first, last))
    return found


class File:
    """A policy file's text, read as TOML."""

    def __init__(self, text, name="counter.toml"):
        self.text, self.name = text, name
        try:
            self.document = tomllib.loads(text)
        except (tomllib.TOMLDecodeError, RecursionError) as fault:
            raise self.unreadable(str(fault)) from None
        if not all_fit(self.document):
            raise self.unreadable("a whole number has more than 64 bits")
        self.places = places(text)

    def unreadable(self, cause):
        line = re.search(r"at line (\d+)", cause)
        where = f"{self.name}:{line[1]}: " if line else f"{self.name}: "
        return Fault(1, None, where, f"no TOML document: {cause[0].lower()}{cause[1:]}")

    def line(self, table, number=0, key=None):
        for place in ((table, number, key), (table, number, None), (None, 0, table), (table, 0, None)):
            if place in self.places:
                return f"{self.name}:{self.places[place][0]}: "
        return f"{self.name}: "


def all_fit(value):
    if isinstance(value, dict):
        return all(all_fit(one) for one in value.values())
    if isinstance(value, list):
        return all(all_fit(one) for one in value)
    return not isinstance(value, int) or -(2**63) <= value < 2**63


class Entry:
    """A table with keys: `counter`, or an entry of an array, beside the earlier ones."""

    def __init__(self, file, table, number, values):
        self.file, self.table, self.number, self.values = file, table, number, values

    def fault(self, number, key, what):
        field = f"{self.table}.{key}" if key in KEYS[self.table] else "key"
        called = "" if self.table == "counter" else f" {self.called()}"
        return Fault(
            number, field, self.file.line(self.table, self.number, key), f"{self.table}{called}: {key}: {what}"
        )

    def called(self):
        name = self.values.get("name")
        return f'"{name}"' if isinstance(name, str) else f"number {self.number + 1}"

    def look(self, earlier, names):
        """The first fault of the entry: an unknown key, then its keys in the order of the table below."""
        for key in self.values:
            if key not in KEYS[self.table]:
                raise self.fault(5, key, f"unknown; the keys are {', '.join(KEYS[self.table])}")
        for key, (look, *options) in KEYS[self.table].items():
            if key in self.values:
                look(self, key, earlier, names, *options)
            elif (self.table, key) not in MAY_BE_ABSENT:
                raise self.fault(2, key, "missing")


def look_at_number(entry, key, _earlier, _names, low, high):
    value = entry.values[key]
    if isinstance(value, bool) or not isinstance(value, int) or not low <= value <= high:
        raise entry.fault(3, key, f"not a whole number from {low} to {high}")


def look_at_length(entry, key, earlier, names):
    length = LENGTHS.get(entry.values["oid"])
    if length is None:
        look_at_number(entry, key, earlier, names, 16, 64)
    elif isinstance(entry.values[key], bool) or entry.values[key] != length:
        raise entry.fault(3, key, f"not {length}, which is the length of {entry.values['oid']}")


def look_at_truth(entry, key, _earlier, _names):
    if not isinstance(entry.values[key], bool):
        raise entry.fault(3, key, "neither true nor false")


def look_at_form(entry, key, value):
    if not isinstance(value, str) or not NAME.fullmatch(value):
        raise entry.fault(3, key, f"{said(value)} is no name of 1 to 32 lower-case letters, digits or hyphens")


def look_at_name(entry, key, _earlier, _names):
    look_at_form(entry, key, entry.values[key])


def look_at_new_name(entry, key, earlier, _names):
    look_at_form(entry, key, entry.values[key])
    look_at_new(entry, key, earlier, entry.values[key])


def look_at_new(entry, key, earlier, value, like=lambda other: other):
    for number, other in enumerate(earlier):
        if key in other and like(other[key]) == like(value):
            where = entry.file.line(entry.table, number, key).rpartition(":")[0].rpartition(":")[2]
            raise entry.fault(4, key, f"stands already in line {where}")


def look_at_identifier(entry, key, earlier, _names):
    value = entry.values[key]
    if not isinstance(value, str) or not is_identifier(value):
        raise entry.fault(3, key, f"{said(value)} is no object identifier, as 1.3.6.1.4.1.32473.1")
    look_at_new(entry, key, earlier, value)


def is_identifier(text):
    """Whether it is 1 to 32 subidentifiers below 2^128, of which the first is 40 X + Y."""
    if not IDENTIFIER.fullmatch(text):
        return False
    first, second, *others = (int(part) for part in text.split("."))
    if first > 2 or (first < 2 and second > 39) or len(others) > 31:
        return False
    return all(part < 2**128 for part in (40 * first + second, *others))


def look_at_hash(entry, key, earlier, _names):
    value = entry.values[key]
    if not isinstance(value, str) or not HASH.fullmatch(value):
        raise entry.fault(3, key, "not 64 hexadecimal digits")
    look_at_new(entry, key, earlier, value, str.lower)


def look_at_names(entry, key, _earlier, names, least, of_table):
    values = entry.values[key]
    if not isinstance(values, list):
        raise entry.fault(3, key, "no list of names")
    for value in values:
        look_at_form(entry, key, value)
    if len(values) < least:
        raise entry.fault(3, key, "a list without a name")
    for value in values:
        if values.count(value) > 1:
            raise entry.fault(4, key, f'"{value}" stands twice')
    for value in values:
        if value not in names[of_table]:
            raise entry.fault(5, key, f'there is no {of_table} "{value}"')


def said(value):
    return f'"{value}"' if isinstance(value, str) else "this"


# the keys of each table in the order in which they are looked at
KEYS = {
    "counter": {
        "accuracy_us": (look_at_number, 1, 1_000_000),
        "fraction_digits": (look_at_number, 0, 6),
        "ordering": (look_at_truth,),
        "drift_ppb": (look_at_number, 0, 1_000_000),
        "max_age_us": (look_at_number, 1, 31_536_000_000_000),
        "anonymous": (look_at_name,),
        "tsa_name": (look_at_truth,),
    },
    "algorithm": {"name": (look_at_new_name,), "oid": (look_at_identifier,), "length": (look_at_length,)},
    "extension": {
        "name": (look_at_new_name,),
        "oid": (look_at_identifier,),
        "max_length": (look_at_number, 0, 4_096),
    },
    "policy": {
        "name": (look_at_new_name,),
        "oid": (look_at_identifier,),
        "algorithms": (look_at_names, 1, "algorithm"),
        "extensions": (look_at_names, 0, "extension"),
        "certificate": (look_at_truth,),
    },
    "account": {
        "name": (look_at_new_name,),
        "key_sha256": (look_at_hash,),
        "active": (look_at_truth,),
        "auditor": (look_at_truth,),
        "operator": (look_at_truth,),
        "policies": (look_at_names, 1, "policy"),
        "daily_quota": (look_at_number, 0, 1_000_000_000),
    },
    "group": {"name": (look_at_new_name,), "members": (look_at_names, 1, "account")},
}
MAY_BE_ABSENT = {("counter", key) for key in ("ordering", "anonymous", "tsa_name")}
MAY_BE_ABSENT |= {("policy", key) for key in ("extensions", "certificate")}
MAY_BE_ABSENT |= {("account", key) for key in ("key_sha256", "active", "auditor", "operator")}


def look_at_array(file, table, names):
    entries = file.document.get(table, [])
    if not isinstance(entries, list) or not all(isinstance(one, dict) for one in entries):
        raise Fault(3, table, file.line(table), f"{table}: no array of tables, as [[{table}]]")
    if len(entries) > MOST[table]:
        raise Fault(6, table, file.line(table, MOST[table]), f"{table}: more than {MOST[table]} entries")
    for number, values in enumerate(entries):
        Entry(file, table, number, values).look(entries[:number], names)
    names[table] = [values["name"] for values in entries]


def read(text, name="counter.toml"):
    """What a policy file says; raises its first fault."""
    file = File(text, name)
    for key in file.document:
        if key not in KEYS:
            raise Fault(5, "key", file.line(key, 0, None), f"{key}: unknown; the tables are {', '.join(KEYS)}")
    if "counter" not in file.document:
        raise Fault(2, "counter", f"{name}: ", "the table [counter] is missing")
    if not isinstance(file.document["counter"], dict):
        raise Fault(3, "counter", file.line("counter"), "counter: no table, as [counter]")
    counter = Entry(file, "counter", 0, file.document["counter"])
    counter.look([], {})
    names = {}
    for table in MOST:
        look_at_array(file, table, names)
    anonymous = counter.values.get("anonymous")
    if anonymous is not None and anonymous not in names["account"]:
        raise counter.fault(5, "anonymous", f'there is no account "{anonymous}"')
    return file
