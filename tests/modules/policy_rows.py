"""The rows of policy files that the player plays, each with the refusal that is stored for it."""

import os
import re

from modules.programs import CRATES

PLAYER = os.path.join(CRATES, "player")
PART = re.compile(r"'((?:[^'\\]|\\.)*)'|\"((?:[^\"\\]|\\.)*)\"|(\d+)\*([0-9a-f]+)|([A-Z]\w*)|([0-9a-f]+)")
ESCAPES = {"n": "\n", "r": "\r", "t": "\t", "0": "\0"}


def parts(expression, names):
    """The octets of each part of an expression of the player's."""
    for one, other, count, digits, name, plain in PART.findall(expression):
        if name:
            yield names.get(name, b"")
        elif count or plain:
            yield bytes.fromhex((digits or plain) * int(count or 1))
        else:
            text = one or other
            yield re.sub(r"\\(.)", lambda it: ESCAPES.get(it[1], it[1]), text).encode()


def lines(*path):
    with open(os.path.join(PLAYER, *path), encoding="utf-8") as file:
        return file.read().splitlines()


def names(example):
    found, last = {"EXAMPLE": example.encode()}, None
    for line in lines("data", "vectors", "octets.txt"):
        word, _, rest = line.partition(" ")
        if word == "octets":
            last, _, rest = rest.partition(" ")
        if word in ("octets", "+"):
            found[last] = found.get(last, b"" if word == "+" else b"") + b"".join(parts(rest, found))
    return found


def rows(example):
    """A row, its file's text, and the refusal, as `BadValue(CounterAccuracyUs)`; none where the file is read."""
    named, stored, played = names(example), lines("stdout"), set(lines("data", "vectors", "files.txt"))
    for at, row in enumerate(stored):
        if not row.startswith("policy ") or row not in played:
            continue
        name, _, changes = row.removeprefix("policy ").partition(" ")
        text, pieces = named.get(name, b"").decode(), [piece.decode() for piece in parts(changes, named)]
        for old, new in zip(pieces[::2], pieces[1::2]):
            text = text.replace(old, new, 1)
        told = stored[at + 1].strip()
        yield row, text, told if re.fullmatch(r"[A-Z]\w+(\(\w+\))?", told) else None
