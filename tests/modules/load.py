"""Clients that ask `counter serve` again and again, and whether a database has what they were answered."""

import calendar
import contextlib
import hashlib
import http.client
import random
import threading
import time

from modules.programs import sqlite

GRANTED = bytes.fromhex("3003020100")
# a request for a token, but for its hash (RFC 3161 2.4.1)
REQUEST = bytes.fromhex("3039020101 3031 300d06096086480165030402010500 0420"), bytes.fromhex("0101ff")


class Client(threading.Thread):
    """Asks again and again for a token or, each fourth time, makes a deposit, and keeps what was answered whole."""

    def __init__(self, number, server, seed):
        super().__init__()
        self.number, self.server, self.chance = number, server, random.Random(seed)
        self.tokens, self.deposits, self.others = [], [], []
        self.is_over = False

    def count(self):
        return len(self.tokens) + len(self.deposits)

    def run(self):
        while not self.is_over:
            octets = self.chance.randbytes(40)
            with contextlib.suppress(OSError, http.client.HTTPException):
                if self.chance.randrange(4):
                    self.ask(octets)
                else:
                    self.deposit(octets)

    def exchange(self, target, body, fields):
        with contextlib.closing(http.client.HTTPConnection("127.0.0.1", self.server.port, timeout=60)) as connection:
            connection.request("POST", target, body, fields)
            answer = connection.getresponse()
            return answer.status, answer.read()

    def ask(self, octets):
        digest = hashlib.sha256(octets).digest()
        status, reply = self.exchange("/tsp", digest.join(REQUEST), {"Content-Type": "application/timestamp-query"})
        at = reply.find(GRANTED)
        if status == 200 and at in (2, 3, 4):
            self.tokens.append((digest, reply[at + len(GRANTED) :]))
        else:
            self.others.append((status, reply))

    def deposit(self, octets):
        fields = {"Counter-Key": "hello", "Deposit-Reference": octets.hex()[:64]}
        status, number = self.exchange("/deposits", octets, fields)
        if status == 201:
            self.deposits.append((int(number), octets))
        else:
            self.others.append((status, number))


@contextlib.contextmanager
def asking(server, count, chance):
    """So many clients at work, until the end of the block."""
    clients = [Client(number, server, chance.random()) for number in range(count)]
    for client in clients:
        client.start()
    try:
        yield clients
    finally:
        for client in clients:
            client.is_over = True
        for client in clients:
            client.join()


def answers(clients, kind):
    """What all of them were answered, of `tokens`, `deposits` or `others`."""
    return [one for client in clients for one in getattr(client, kind)]


def members(octets):
    """The contents of the values that the octets are, one after the other (X.690 8.1)."""
    found, at = [], 0
    while at < len(octets):
        count, at = octets[at + 1], at + 2
        if count > 127:
            count, at = int.from_bytes(octets[at : at + count - 128], "big"), at + count - 128
        found.append(octets[at : at + count])
        at += count
    return found


def tst_info_of(token):
    """The contents of the members of a token's TSTInfo (RFC 5652 3 and 5.1, RFC 3161 2.4.2)."""
    (content_info,) = members(token)
    (signed_data,) = members(members(content_info)[1])
    (octet_string,) = members(members(members(signed_data)[2])[1])
    (tst_info,) = members(octet_string)
    return members(tst_info)


def serial_of(token):
    return int.from_bytes(tst_info_of(token)[3], "big")


def moment_of(text):
    """Of a GeneralizedTime, in microseconds since 1970-01-01T00:00:00Z."""
    whole, _, fraction = text.decode().removesuffix("Z").partition(".")
    return calendar.timegm(time.strptime(whole, "%Y%m%d%H%M%S")) * 1_000_000 + int(fraction.ljust(6, "0"))


def gen_time_of(token):
    return moment_of(tst_info_of(token)[4])


def is_kept(db, wrong, tokens, deposits):
    """Each token that was answered is in the file, under a number of its own and with its hash; each deposit, too."""
    rows = sqlite(
        db, "SELECT serial, hex(digest) AS digest, hex(token) AS token FROM stamp WHERE token IS NOT NULL"
    )
    found = {bytes.fromhex(row["token"]): (row["serial"], bytes.fromhex(row["digest"])) for row in rows}
    wrong.unless("answered tokens that aren't in the file", sum(token not in found for _, token in tokens), 0)
    kept = [found[token] for _, token in tokens if token in found]
    wrong.unless(
        "the tokens' hashes", [digest for _, digest in kept], [digest for digest, token in tokens if token in found]
    )
    told = [serial_of(token) for _, token in tokens]
    wrong.unless("the tokens' serial numbers", [serial for serial, _ in kept], told)
    given = told + [number for number, _ in deposits]
    wrong.unless("serial numbers that were given twice", len(given) - len(set(given)), 0)
    rows = sqlite(db, "SELECT serial, hex(bytes) AS bytes FROM deposit")
    stored = {row["serial"]: bytes.fromhex(row["bytes"]) for row in rows}
    wrong.unless(
        "deposits that aren't in the file", sum(stored.get(number) != octets for number, octets in deposits), 0
    )
