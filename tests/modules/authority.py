"""A time-stamping authority in a folder, for the tests beside this file: a key, certificates and a database, a key
holder and `counter serve`."""

import os
import re
import subprocess
import tempfile
import time

from modules.certificates import ALGORITHMS, CertificationAuthority
from modules.programs import EXAMPLE, KEY_HOLDER, PROGRAM, now, openssl, sqlite

# how long a program has to listen on its port, on a slow machine
SECONDS_TO_START = 120
# the lines of a start of `serve --tell`
LISTENING = re.compile(rb"^event=listening address=(\S+) seconds=\d+\n", re.M)
START = re.compile(rb"event=opening octets=[1-9]\d*\n(" + LISTENING.pattern + rb")?", re.M)
MOST_OCTETS = 4096
MOST_CONNECTIONS = 2**32 - 1


def behind_start(told):
    """What `serve` told behind the lines of its start, which have to be there: that it opens its database, and where it
    listens, if it gets there."""
    start = START.match(told)
    return told[start.end() :] if start else b"no start: " + told


class Running:
    """A process of the test's own; it is killed at the end, if not before."""

    def __init__(self, words, environment=None, handed=None):
        # a file, since nobody reads it before the end
        self.errors = tempfile.TemporaryFile()
        how = {"stdin": subprocess.DEVNULL, "stdout": subprocess.PIPE, "stderr": self.errors, "env": environment}
        self.process = subprocess.Popen(words, pass_fds=[handed.fileno()] if handed else [], **how)

    def __enter__(self):
        return self

    def __exit__(self, *_):
        self.kill()

    def kill(self):
        """Ends it at once, as `kill -9` does, and answers what it wrote since."""
        if self.errors.closed:
            return b""
        self.process.kill()
        written, _ = self.process.communicate()
        with self.errors:
            self.errors.seek(0)
            return written + self.errors.read()


class KeyHolder(Running):
    """The key holder, at work on a port that the system picked if none is named."""

    def __init__(self, certified, *options, program=KEY_HOLDER, port=0):
        words = ["--key", certified.key, "--certificate", certified.der, "--listen", f"127.0.0.1:{port}", *options]
        super().__init__([program, *words])
        self.address = self.process.stdout.readline().decode().strip()
        self.port = int(self.address.rpartition(":")[2])


class Serving(Running):
    """`counter serve`, which tells where it is at work."""

    def __init__(self, words, environment=None):
        super().__init__(words, environment)
        end = time.monotonic() + SECONDS_TO_START
        while not (listening := LISTENING.search(os.pread(self.errors.fileno(), MOST_OCTETS, 0))):
            if self.process.poll() is not None or time.monotonic() > end:
                raise RuntimeError(f"it doesn't listen: {words}: {self.kill()}")
            time.sleep(0.005)
        self.address = listening[1].decode()

    def kill(self):
        """The same, and what it wrote behind the lines of its start."""
        return behind_start(super().kill()) if not self.errors.closed else b""


class Server(Serving):
    """The same on a port that the system picked."""

    def __init__(self, words, environment=None):
        super().__init__(words, environment)
        self.port = int(self.address.rpartition(":")[2])
        self.url = f"http://{self.address}"


def listens(path, flags="00010000"):
    """Whether somebody listens at the path of a Unix socket."""
    with open("/proc/net/unix", encoding="utf-8") as file:
        return any(parts[3] == flags and parts[7:] == [path] for parts in map(str.split, file))


class UnixServer(Serving):
    """The same at the path of a Unix socket."""

    def __init__(self, path, words, environment=None):
        super().__init__(words, environment)
        self.path = path


class Authority:
    """Files in a folder: a certification authority, the key and certificate that it certifies for time-stamping, the
    policy file, and a database that is calibrated by the machine's clock, unless told not to. The policy file is the
    example as it is, or with more fraction digits and with quotas that aren't used up, or the one at the path."""

    def __init__(self, folder, kind, is_example=False, policy=None, is_calibrated=True):
        self.folder, self.kind = folder, kind
        self.rules, self.db = self.path("rules.toml"), self.path("counter.db")
        self.root = CertificationAuthority(folder, kind)
        self.ca = self.root.pem
        self.use(self.root.certified("tsa"))
        self.algorithm = self.write("tsa.algorithm", ALGORITHMS[kind])
        with open(policy or EXAMPLE, encoding="utf-8") as file:
            rules = file.read()
        if not (is_example or policy):
            rules = rules.replace("fraction_digits = 0", "fraction_digits = 6").replace(
                "daily_quota = 1000", "daily_quota = 1000000000"
            )
        self.write("rules.toml", rules.encode())
        self.words("init", "--db", self.db)
        if is_calibrated:
            self.words("calibrate", "--db", self.db, "--reading", str(now()), "--offset", "0", "--uncertainty", "1")

    def path(self, name):
        return os.path.join(self.folder, name)

    def write(self, name, octets):
        with open(self.path(name), "wb") as file:
            file.write(octets)
        return self.path(name)

    def words(self, *words):
        subprocess.run([PROGRAM, *words], check=True)

    def use(self, certified, chain=None):
        """From now on it is this key that signs, and the certificates of this file go with its own, if one is named."""
        self.certified, self.pem, self.certificate, self.chain = certified, certified.pem, certified.der, chain

    def key_holder(self, port=0):
        return KeyHolder(self.certified, port=port)

    def desk_words(self, *signer):
        """The options of the words that give tokens: with a signer's; one word alone is a key holder's address."""
        if len(signer) == 1:
            signer = ["--signer", *signer, "--signer-algorithm", self.algorithm]
        chain = ["--chain", self.chain] if self.chain else []
        return ["--db", self.db, "--rules", self.rules, "--certificate", self.certificate, *chain, *signer]

    def serve_words(self, *signer, listen="127.0.0.1:0"):
        words = [PROGRAM, "serve", *self.desk_words(*signer)]
        return [*words, "--listen", listen, "--connections", str(MOST_CONNECTIONS), "--tell"]

    def serving(self, *signer):
        return Server(self.serve_words(*signer))

    def serving_at(self, path, *signer):
        """The same at the path of a Unix socket."""
        return UnixServer(path, self.serve_words(*signer, listen=f"unix:{path}"))

    def query(self, *options, data=b"abc"):
        """A request that OpenSSL makes."""
        return openssl("ts", "-query", "-data", self.write("data", data), *options)[0]

    def is_verified(self, reply, *options):
        """Whether OpenSSL verifies the reply, with the certificate at hand."""
        words = [
            "ts",
            "-verify",
            "-in",
            self.write("reply", reply),
            "-CAfile",
            self.ca,
            "-untrusted",
            self.pem,
            *options,
        ]
        said, status = openssl(*words)
        return status == 0 and b"Verification: OK" in said

    def shown(self, reply):
        """What OpenSSL says of the reply."""
        return openssl("ts", "-reply", "-in", self.write("reply", reply), "-text")[0].decode()

    def is_sound(self, wrong, when):
        """The database as sqlite3 finds it once nobody has it open."""
        wrong.unless(f"integrity {when}", sqlite(self.db, "PRAGMA integrity_check"), [{"integrity_check": "ok"}])
        wrong.unless(f"foreign keys {when}", sqlite(self.db, "PRAGMA foreign_key_check"), [])
        wrong.unless(f"deposits without a token {when}", sqlite(self.db, LACKING), [])
        rows = sqlite(self.db, "SELECT serial FROM stamp ORDER BY serial")
        wrong.unless(f"serials {when}", [row["serial"] for row in rows], list(range(1, 1 + len(rows))))
        tallied = sqlite(self.db, "SELECT coalesce(sum(count), 0) AS count FROM tally")
        wrong.unless(f"the tallies {when}", tallied, [{"count": len(rows)}])


LACKING = "SELECT deposit.serial FROM deposit LEFT JOIN stamp USING (serial) WHERE token IS NULL"
