"""Requests that `counter serve` finds whole at the same time, and what their clients get: beside the same requests one
by one, over a copy of the database.

Its clocks are the test's (`c/stepping_clock.c`): the monotonic one stands, and the machine's is a microsecond further
for each request, unless a case says otherwise. So a request's reading is its place in the order in which they are
served. The signer is the stand-in, by a key that the test knows: with the reading and the serial number each octet of a
token is given.
"""

import contextlib
import hashlib
import itertools
import os
import re
import shutil
import socket
import subprocess
import tempfile
import threading

from modules.authority import Server, UnixServer
from modules.exchanges import client, ended, key_holder, received, stopped
from modules.load import GRANTED, gen_time_of, serial_of
from modules.programs import ALGORITHM, CERTIFICATE, EXAMPLE, PROGRAM, TABLES, compiled_library, octets_of, value

# more connections than serve gets before it is killed
ENDLESS = 2**32 - 1
# the reading of the first request, in seconds, and by how many nanoseconds each request's is further
AT, STEP = 1_000, 1_000
FIRST = AT * 1_000_000
DAY = 86_400_000_000
KEY = b"k"
LIBRARIES = "stepping_clock", "recorded_disk", "refused_memory"
# object identifiers (RFC 8017 appendix B.1, and the example's policies and extension)
SHA_256, SHA_512, SHA_224 = (bytes.fromhex("0609608648016503040201")[:-1] + bytes([last]) for last in (1, 3, 4))
OPEN, STRICT = bytes.fromhex("0603883701"), bytes.fromhex("0603883702")
BATCH, UNKNOWN = bytes.fromhex("0603883707"), bytes.fromhex("0603883708")
TRUE, NULL = bytes.fromhex("0101ff"), bytes.fromhex("0500")
# the keys of the example's accounts, and of an operator
ALICE, BOB, CAROL, AUDRA, NOBODY, OPERATOR = "hello", "test", "foo", "a", "nobody", "o"
MORE_ACCOUNTS = f"""
[[account]]
name = "operator"
key_sha256 = "{hashlib.sha256(OPERATOR.encode()).hexdigest()}"
operator = true
policies = ["open"]
daily_quota = 1000
"""
QUERY, FORM = "application/timestamp-query", "application/x-www-form-urlencoded"
RULE = re.compile(rb"\x0c\x07rule (\d\d)\x03")
FILES = "counter.db", "counter.db-wal"


def text(**changes):
    """The example's policy file with finer genTimes and an operator, and with other values of its table `counter`."""
    with open(EXAMPLE, encoding="utf-8") as file:
        rules = file.read() + MORE_ACCOUNTS
    for name, changed in {"fraction_digits": 6, **changes}.items():
        rules, count = re.subn(rf"^{name} = .*$", f"{name} = {changed}", rules, flags=re.M)
        rules = rules if count else rules.replace("[counter]\n", f"[counter]\n{name} = {changed}\n")
    return rules


def query(document, version=1, algorithm=SHA_256, digest=None, policy=b"", certificate=TRUE, extension=b""):
    """A TimeStampReq for a document (RFC 3161 2.4.1), or for a digest."""
    name = {SHA_224: "sha224", SHA_256: "sha256", SHA_512: "sha512"}[algorithm]
    digest = hashlib.new(name, document).digest() if digest is None else digest
    imprint = value(0x30, value(0x30, algorithm, NULL), value(4, digest))
    extensions = value(0xA0, value(0x30, extension, value(4, b"\x2a"))) if extension else b""
    return value(0x30, value(2, bytes([version])), imprint, policy, value(2, b"\x07"), certificate, extensions)


def post(target, body, **fields):
    """The octets of a request by POST; a field's name has `_` for its hyphens."""
    lines = "".join(f"{name.replace('_', '-')}: {text}\r\n" for name, text in fields.items() if text is not None)
    return f"POST {target} HTTP/1.1\r\n{lines}Content-Length: {len(body)}\r\n\r\n".encode() + body


def get(target, key):
    return f"GET {target} HTTP/1.1\r\nCounter-Key: {key}\r\n\r\n".encode()


def stamp(number, key=None, **parts):
    """The octets of a request for a token, which asks for a document of its own."""
    return post("/tsp", query(b"document %d" % number, **parts), Content_Type=QUERY, Counter_Key=key)


def stamps(count, key=None):
    return [stamp(number, key) for number in range(count)]


def deposit(reference, key=ALICE):
    return post("/deposits", reference.encode(), Counter_Key=key, Deposit_Reference=reference)


def token_in(octets):
    """The token of an answer, if it has one."""
    body = octets.partition(b"\r\n\r\n")[2]
    at = body.find(GRANTED)
    return body[at + len(GRANTED) :] if octets.startswith(b"HTTP/1.1 200 OK") and at in (2, 3, 4) else None


def told(octets):
    """What an answer tells: the serial number of a token, the rule of a rejection, or another status."""
    token = token_in(octets)
    if token is not None:
        return serial_of(token)
    rule = RULE.search(octets)
    if rule and octets.startswith(b"HTTP/1.1 200 OK"):
        return f"rule {rule[1].decode()}"
    return octets[9:12].decode() if octets.startswith(b"HTTP/1.1 ") else octets


def moment(octets):
    """Of a token: how many microseconds after the first reading it says that it was."""
    token = token_in(octets)
    return None if token is None else gen_time_of(token) - FIRST


def together(server, requests):
    """What clients get whose requests are all there when the program looks, in this order."""
    with contextlib.ExitStack() as stack:
        with stopped(server):
            peers = [stack.enter_context(client(server, octets)) for octets in requests]
        return [received(peer, may_be_reset=True) for peer in peers]


def one_by_one(server, requests):
    """What they get where each is answered before the next one asks."""
    answers = []
    for octets in requests:
        with client(server, octets) as peer:
            answers.append(received(peer, may_be_reset=True))
    return answers


class Setting:
    """A folder with what `serve` is given."""

    def __init__(self, folder):
        self.folder = folder
        self.libraries = {name: compiled_library(name, folder) for name in LIBRARIES}
        self.certificate, self.algorithm = self.write("tsa.der", CERTIFICATE), self.write("algorithm.der", ALGORITHM)
        self.key = self.write("signing.key", KEY)
        # a database that is calibrated at the reading of the first request
        self.begun = os.path.join(folder, "begun.db")
        measured = ["--reading", str(FIRST), "--offset", "0", "--uncertainty", "0"]
        for words in (["init"], ["calibrate", *measured]):
            subprocess.run([PROGRAM, *words, "--db", self.begun], check=True)

    def write(self, name, octets):
        path = os.path.join(self.folder, name)
        with open(path, "wb") as file:
            file.write(octets)
        return path

    def new_folder(self):
        return tempfile.mkdtemp(dir=self.folder)

    def largest_chain(self):
        """A file of as many and as large certificates as a chain has at most."""
        tbs, algorithm = CERTIFICATE[2:91], CERTIFICATE[91:98]
        larger = (tbs[:4] + bytes([serial]) + tbs[5:] for serial in (4, 5, 6))
        certificates = [value(0x30, each, algorithm, value(3, bytes(16_276))) for each in larger]
        return self.write("chain.der", b"".join(certificates))


class Counter:
    """A database of its own, which begins as a file does, and its policy file."""

    def __init__(self, setting, rules=None, begun=None):
        self.setting, self.folder, self.chain = setting, setting.new_folder(), None
        self.db, self.rules = (os.path.join(self.folder, name) for name in ("counter.db", "policy.toml"))
        with open(self.rules, "w", encoding="utf-8") as file:
            file.write(text() if rules is None else rules)
        shutil.copyfile(begun or setting.begun, self.db)

    def copy(self):
        """Another one with the same files, before it is served again."""
        with open(self.rules, encoding="utf-8") as file:
            copied = Counter(self.setting, file.read(), self.db)
        copied.chain = self.chain
        return copied

    def hold(self, begin, end):
        words = ["hold", "--db", self.db, "--from", str(begin), "--to", str(end)]
        subprocess.run([PROGRAM, *words], check=True)

    def continued(self, *words):
        """The database in which this one goes on."""
        path = os.path.join(self.setting.new_folder(), "new.db")
        subprocess.run([PROGRAM, "continue", "--from", self.db, "--db", path, *words], check=True)
        return path

    def files(self):
        """What the database's files hold, by their names."""
        return {name: octets_of(os.path.join(self.folder, name)) for name in FILES if name in os.listdir(self.folder)}

    def desk_words(self, address=None):
        setting = self.setting
        files = ["--db", self.db, "--rules", self.rules, "--certificate", setting.certificate]
        chain = ["--chain", self.chain] if self.chain else []
        signer = ["--signer", address, "--signer-algorithm", setting.algorithm] if address else None
        return [*files, *chain, *(signer or ["--signing-key", setting.key])]

    def serving(self, connections=ENDLESS, address=None, path=None, environment=None, **clock):
        """`serve` at work by such clocks, with the stand-in or a key holder; at a Unix socket if one is named."""
        words = [PROGRAM, "serve", *self.desk_words(address), "--connections", str(connections), "--tell"]
        words += ["--listen", f"unix:{path}" if path else "127.0.0.1:0"]
        clock = {"at": AT, "set": STEP, "step": 0, **clock}
        variables = {f"CLOCK_{name.upper()}": str(told) for name, told in clock.items() if told is not None}
        libraries = ":".join(self.setting.libraries.values())
        variables = {"LD_PRELOAD": libraries, **variables, **(environment or {})}
        return UnixServer(path, words, variables) if path else Server(words, variables)

    def answer(self, octets, reading):
        """The reply that `answer` gives to the octets of a request; none where it fails."""
        words = [PROGRAM, "answer", *self.desk_words(), "--reading", str(reading)]
        done = subprocess.run(words, input=octets.hex().encode(), capture_output=True, timeout=60)
        return bytes.fromhex(done.stdout.decode()) if done.returncode == 0 else None

    def rows(self):
        """All rows, each as a line of sqlite3's."""
        words = ["sqlite3", "-readonly", self.db, *(f"SELECT '{name}', * FROM {name}" for name in TABLES)]
        quoted = subprocess.run([*words[:2], "-quote", *words[2:]], capture_output=True, text=True, check=True)
        return sorted(quoted.stdout.splitlines())

    def numbers(self):
        """The serial numbers, and those of them that have a token."""
        words = ["sqlite3", "-readonly", self.db, "SELECT serial, token IS NOT NULL FROM stamp ORDER BY serial"]
        lines = subprocess.run(words, capture_output=True, text=True, check=True).stdout.split()
        pairs = [tuple(map(int, line.split("|"))) for line in lines]
        return [serial for serial, _ in pairs], [serial for serial, is_sealed in pairs if is_sealed]


class Holder(threading.Thread):
    """A key holder with the stand-in's key, which at the text of a number answers something else, and ends the
    session. It hears of one session alone."""

    def __init__(self, setting, faulty=None, fault=b""):
        super().__init__(daemon=True)
        self.faulty, self.fault, self.texts = faulty, fault, []
        self.listener, self.address = key_holder(os.path.join(setting.new_folder(), "socket"))

    def __enter__(self):
        self.start()
        return self

    def __exit__(self, *_):
        self.listener.close()
        self.join()

    def run(self):
        with contextlib.suppress(OSError):
            session, _ = self.listener.accept()
            with session:
                for number in itertools.count(1):
                    length = int.from_bytes(session.recv(4, socket.MSG_WAITALL), "big")
                    octets = session.recv(length, socket.MSG_WAITALL) if length else b""
                    if not octets or number == self.faulty:
                        session.sendall(self.fault)
                        return
                    self.texts.append(octets)
                    signature = hashlib.sha256(KEY + octets).digest()
                    session.sendall(len(signature).to_bytes(4, "big") + signature)


class Comparison:
    """A group beside the same requests one by one, and what is found wrong."""

    def __init__(self, setting, wrong):
        self.setting, self.wrong, self.groups, self.requests = setting, wrong, 0, 0

    def served(self, counter, ask, requests, holder, end, how):
        """What a way to ask is answered, and what the key holder was asked to sign."""
        signing = Holder(self.setting, *holder) if holder else contextlib.nullcontext()
        with signing as signer, counter.serving(len(requests), signer and signer.address, **how) as server:
            answers = ask(server, requests)
            found = ended(server)
            self.wrong.unless(f"{end[0]}: how serve ended ({ask.__name__})", found, end[1])
        return answers, signer and signer.texts

    def compare(self, name, counter, requests, wanted, holder=None, end=(0, b""), **how):
        """Has the requests answered both ways: what is told has to be as wanted, and octets and rows the same. The
        answers are told."""
        copied = counter.copy()
        got, texts = self.served(counter, together, requests, holder, (name, end), how)
        alone, other_texts = self.served(copied, one_by_one, requests, holder, (name, end), how)
        self.wrong.unless(f"{name}: what is told", [told(octets) for octets in got], wanted)
        for number, (octets, other) in enumerate(zip(got, alone), 1):
            self.wrong.unless(f"{name}: client {number}", octets, other)
        self.wrong.unless(f"{name}: what is signed", texts, other_texts)
        self.wrong.unless(f"{name}: rows", counter.rows(), copied.rows())
        self.groups += 1
        self.requests += len(requests)
        return got
