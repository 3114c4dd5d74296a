"""Keys and certificates that OpenSSL makes, for the tests."""

import os
import subprocess
import time

# what `openssl req -newkey` is told of each kind of key
KINDS = {
    "RSA": ["rsa:3072"],
    "ECDSA": ["ec", "-pkeyopt", "ec_paramgen_curve:P-256"],
    "RSA-PSS": ["rsa-pss", "-pkeyopt", "rsa_keygen_bits:3072"],
    "P-384": ["ec", "-pkeyopt", "ec_paramgen_curve:P-384"],
}
# the AlgorithmIdentifier of signatures with SHA-256: PKCS #1 v1.5 (RFC 4055 5), ECDSA (RFC 5758 3.2), and RSA-PSS with
# SHA-256 in MGF1 and 32 octets of salt (RFC 4055 3.1)
SHA256 = "300d 0609608648016503040201 0500"
ALGORITHMS = {
    "RSA": bytes.fromhex("300d06092a864886f70d01010b0500"),
    "ECDSA": bytes.fromhex("300a06082a8648ce3d040302"),
    "RSA-PSS": bytes.fromhex(
        f"3041 06092a864886f70d01010a 3034 a00f {SHA256} a11c 301a 06092a864886f70d010108 {SHA256} a203 020120"
    ),
    "P-384": bytes.fromhex("300a06082a8648ce3d040302"),
}
# the extensions of a certificate for time-stamps (RFC 3161 2.3)
USAGE = "keyUsage=critical,digitalSignature", "extendedKeyUsage=critical,timeStamping"
# and those of an authority that certifies no further one (RFC 5280 4.2.1.3, 4.2.1.9)
CERTIFYING = "basicConstraints=critical,CA:TRUE,pathlen:0", "keyUsage=critical,keyCertSign"
# what `openssl ca` is told, which alone takes a moment at which a certificate ends
CONFIGURATION = """\
[ca]
default_ca = own
[own]
database = {0}.index
new_certs_dir = {1}
rand_serial = yes
default_md = sha256
copy_extensions = copy
policy = any
[any]
organizationName = optional
commonName = supplied
"""


def made(*words):
    subprocess.run(["openssl", *words], check=True, stderr=subprocess.DEVNULL)


class Certified:
    """A key and its certificate, in files of that name in the folder."""

    is_for_pss = False

    def __init__(self, folder, name):
        self.key, self.request, self.pem, self.der = (
            os.path.join(folder, f"{name}.{kind}") for kind in ("key", "csr", "pem", "der")
        )


class CertificationAuthority:
    """One in a folder, with keys of that kind: a root of its own, or one whose key another certified."""

    def __init__(self, folder, kind, certified=None):
        self.folder, self.kind = folder, kind
        own = certified or self.root()
        self.key, self.pem, self.der = own.key, own.pem, own.der

    def root(self):
        new, words = Certified(self.folder, "ca"), ["-nodes", "-x509", "-subj", "/O=Example/CN=CA"]
        made("req", "-newkey", *KINDS[self.kind], *words, "-keyout", new.key, "-out", new.pem)
        made("x509", "-in", new.pem, "-outform", "DER", "-out", new.der)
        return new

    def intermediate(self, name):
        """Another authority, which it certifies."""
        return CertificationAuthority(self.folder, self.kind, self.certified(name, extensions=CERTIFYING))

    def certified(self, name, *options, newkey=None, extensions=USAGE, ends=None, begins=None):
        """A new key that it certifies for that name, with these extensions and options of `openssl x509`, or until a
        moment, and from another one if that is named."""
        new = Certified(self.folder, name)
        asked = [word for extension in extensions for word in ("-addext", extension)]
        words = ["-nodes", "-subj", f"/O=Example/CN={name}", *asked, "-keyout", new.key, "-out", new.request]
        made("req", "-newkey", *(newkey or KINDS[self.kind]), *words)
        if ends:
            self.certify_until(new, ends, begins)
        else:
            signer = ["-CA", self.pem, "-CAkey", self.key, "-CAcreateserial"]
            made("x509", "-req", "-in", new.request, "-copy_extensions", "copy", *signer, *options, "-out", new.pem)
        made("x509", "-in", new.pem, "-outform", "DER", "-out", new.der)
        return new

    def certify_until(self, new, ends, begins=None):
        with open(new.pem + ".index", "w", encoding="ascii"), open(new.pem + ".conf", "w", encoding="ascii") as file:
            file.write(CONFIGURATION.format(new.pem, self.folder))
        words = ["-config", new.pem + ".conf", "-cert", self.pem, "-keyfile", self.key, "-batch", "-notext"]
        begin, end = (time.strftime("%Y%m%d%H%M%SZ", time.gmtime(moment or time.time())) for moment in (begins, ends))
        made("ca", *words, "-startdate", begin, "-enddate", end, "-in", new.request, "-out", new.pem)
