"""Another time-stamping authority, which OpenSSL is: its own root, a certificate, and a server that answers by
`openssl ts -reply`."""

import contextlib
import http.server
import os
import subprocess
import threading

from modules.certificates import KINDS, CertificationAuthority, Certified, made

# what `openssl ts -reply` is told (its manual page, section CONFIGURATION FILE OPTIONS)
CONFIGURATION = """\
[tsa]
default_tsa = own
[own]
serial = {0}/serial
signer_cert = {1}
signer_key = {2}
signer_digest = sha256
default_policy = 2.999.7
digests = sha256, sha512
accuracy = secs:1
ess_cert_id_alg = sha256
"""


class OtherAuthority:
    """One in a folder, whose certificate ends after so many days; `file` is the file for the package's scripts. It
    answers nothing but a fault of HTTP while `is_away`, and with a token for another request while `is_wrong`."""

    def __init__(self, folder, days):
        self.folder, self.is_away, self.is_wrong, self.asked = folder, False, False, 0
        root, words = Certified(folder, "root"), ["-nodes", "-x509", "-subj", "/O=Other/CN=CA", "-days", "7300"]
        made("req", "-newkey", *KINDS["ECDSA"], *words, "-keyout", root.key, "-out", root.pem)
        self.root = CertificationAuthority(folder, "ECDSA", root)
        certified = self.root.certified("other", "-days", str(days))
        self.configuration, self.file = self.path("tsa.conf"), self.path("authority.pem")
        self.write("tsa.conf", CONFIGURATION.format(folder, certified.pem, certified.key).encode())
        self.write("serial", b"01\n")

    def path(self, name):
        return os.path.join(self.folder, name)

    def write(self, name, octets):
        with open(self.path(name), "wb") as file:
            file.write(octets)

    def reply(self, query):
        self.asked += 1
        if self.is_wrong:
            words = ["-data", self.configuration, "-sha256", "-cert"]
            query = subprocess.run(["openssl", "ts", "-query", *words], capture_output=True, check=True).stdout
        self.write("query.tsq", query)
        words = ["-config", self.configuration, "-queryfile", self.path("query.tsq"), "-out", self.path("reply.tsr")]
        subprocess.run(["openssl", "ts", "-reply", *words], check=True, stderr=subprocess.DEVNULL)
        with open(self.path("reply.tsr"), "rb") as file:
            return file.read()

    @contextlib.contextmanager
    def serving(self):
        """At work on a port that the system picked, which its file names."""
        authority = self

        class Handler(http.server.BaseHTTPRequestHandler):
            def do_POST(self):  # noqa: N802
                query = self.rfile.read(int(self.headers["Content-Length"]))
                reply = b"" if authority.is_away else authority.reply(query)
                self.send_response(503 if authority.is_away else 200)
                self.send_header("Content-Type", "application/timestamp-reply")
                self.send_header("Content-Length", str(len(reply)))
                self.end_headers()
                self.wfile.write(reply)

            def log_message(self, *_):
                pass

        with http.server.HTTPServer(("127.0.0.1", 0), Handler) as server, open(self.root.pem, "rb") as root:
            address = f"http://127.0.0.1:{server.server_address[1]}/tsp\n"
            self.write("authority.pem", address.encode() + root.read())
            thread = threading.Thread(target=server.serve_forever)
            thread.start()
            try:
                yield self
            finally:
                server.shutdown()
                thread.join()
