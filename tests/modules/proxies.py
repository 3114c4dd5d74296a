"""nginx before a counter, by the file package/nginx.conf, in a folder and on ports of the test's own."""

import os
import re
import socket
import subprocess
import sys
import time

from modules.authority import SECONDS_TO_START, Running
from modules.certificates import CertificationAuthority
from modules.programs import ROOT

CONFIGURATION = os.path.join(ROOT, "package", "nginx.conf")
PAGE = os.path.join(ROOT, "package", "www")
NGINX, MODULE = "/usr/sbin/nginx", "/usr/lib/nginx/modules/ngx_http_lua_module.so"
NAME = "tsa.example.org"
TYPE = "Content-Type: application/timestamp-query"
# what nginx is told of besides: it has a folder of its own, and is told the addresses of clients that aren't on this
# machine
MAIN = """\
{modules}
daemon off;
worker_processes 1;
pid {folder}/nginx.pid;
error_log {folder}/errors warn;
{user}
events {{ worker_connections {connections}; }}
http {{
    access_log off;
    set_real_ip_from 127.0.0.1;
    real_ip_header Client-Address;
    {paths}
    {server}
}}
"""
MODULES = "include /etc/nginx/modules-enabled/*.conf;"
KEPT = "client_body", "proxy", "fastcgi", "uwsgi", "scgi"


def has_ipv6():
    """Whether this machine has the loopback address of IPv6."""
    try:
        with socket.create_server(("::1", 0), family=socket.AF_INET6):
            return True
    except OSError:
        return False


def free_port(address):
    with socket.create_server((address, 0)) as listener:
        return listener.getsockname()[1]


class Proxy(Running):
    """nginx in a folder, on ports that were free, before a server. Patterns of `changes` are replaced in its file. It
    has as many connections as Debian's file says, if not told otherwise."""

    def __init__(self, folder, server, changes=(), connections=768):
        issuer = CertificationAuthority(folder, "ECDSA")
        names = f"subjectAltName=DNS:{NAME},DNS:localhost"
        tls = issuer.certified("tls", extensions=[names])
        self.ca, self.address, self.pem = issuer.pem, "127.0.0.1", tls.pem
        self.signers, self.log = os.path.join(folder, "signers.pem"), os.path.join(folder, "counter.log")
        self.port, self.plain = free_port(self.address), free_port(self.address)
        with open(CONFIGURATION, encoding="ascii") as file:
            lines = file.read()
        for pattern, other in (
            *changes,
            ("listen 443", f"listen {self.address}:{self.port}"),
            ("listen 80", f"listen {self.address}:{self.plain}"),
            (r"listen \[::\]:443", f"listen [::1]:{self.port}" if has_ipv6() else "#"),
            (r"listen \[::\]:80", f"listen [::1]:{self.plain}" if has_ipv6() else "#"),
            (r"/etc/nginx/tsa\.example\.org\.pem", tls.pem),
            (r"/etc/nginx/tsa\.example\.org\.key", tls.key),
            (r"/etc/nginx/tsa\.example\.org\.signers\.pem", self.signers),
            ("/usr/share/counter/www", PAGE),
            ("/usr/share/counter/nginx", os.path.join(ROOT, "package")),
            ("unix:/run/counter-http/socket", server.address),
            ("unix:/run/counter-http", f"unix:{folder}"),
            ("/var/log/nginx", folder),
        ):
            lines, count = re.subn(pattern, other, lines)
            if not count:
                sys.exit(f"{CONFIGURATION} hasn't {pattern}")
        paths = "\n    ".join(f"{name}_temp_path {folder}/{name};" for name in KEPT)
        user = "user root;" if os.geteuid() == 0 else ""
        path = os.path.join(folder, "nginx.conf")
        with open(path, "w", encoding="ascii") as file:
            server = lines.replace("\n", "\n    ")
            own = {"modules": MODULES, "folder": folder, "user": user, "connections": connections, "paths": paths}
            file.write(MAIN.format(**own, server=server))
        super().__init__([NGINX, "-c", path, "-e", f"{folder}/errors"])
        end = time.monotonic() + SECONDS_TO_START
        while time.monotonic() < end and self.process.poll() is None:
            with socket.socket() as connection:
                if connection.connect_ex((self.address, self.port)) == 0:
                    return
            time.sleep(0.01)
        sys.exit(f"nginx doesn't listen: {self.kill()}")

    def kill(self):
        """Ends it with its workers."""
        self.process.terminate()
        self.process.wait()
        return super().kill()

    def curl(self, target, *options, source="127.0.0.1", is_plain=False, address=None):
        """Status, head and body of the answer; the status is 0 if there is none."""
        body, head = os.path.join(os.path.dirname(self.ca), "body"), os.path.join(os.path.dirname(self.ca), "head")
        port, scheme = (self.plain, "http") if is_plain else (self.port, "https")
        resolve = ["--cacert", self.ca, "--resolve", f"{NAME}:{port}:{address or self.address}", "--interface", source]
        words = ["--max-time", "150", "-o", body, "-D", head, "-w", "%{http_code}", *options]
        url = f"{scheme}://{NAME}:{port}{target}"
        done = subprocess.run(["curl", "-sS", *resolve, *words, url], capture_output=True)
        if done.returncode:
            return 0, done.stderr.decode(), b""
        with open(head, encoding="latin-1", newline="") as file, open(body, "rb") as octets:
            return int(done.stdout), file.read().lower(), octets.read()

    def token(self, query, **how):
        return self.curl("/tsp", "-H", TYPE, "--data-binary", f"@{query}", **how)

    def statuses(self, path, times, *words):
        """Of how many requests for tokens at once each status is, with TLS if a word says so."""
        url = f"http://{NAME}:{self.plain}/tsp"
        resolve = ["--resolve", f"{NAME}:{self.plain}:{self.address}"]
        if "https" in words:
            url = f"https://{NAME}:{self.port}/tsp"
            resolve = ["--cacert", self.ca, "--resolve", f"{NAME}:{self.port}:{self.address}"]
        words = [word for word in words if word != "https"]
        each = [*resolve, *words, "-H", TYPE, "--data-binary", f"@{path}", "-o", "/dev/null"]
        each += ["-w", "%{http_code}\n", url]
        every = [word for number in range(times) for word in (["--next"] if number else []) + ["-sS", *each]]
        # one client may have 16 connections
        at_once = ["--parallel", "--parallel-max", "12"]
        told = subprocess.run(["curl", *at_once, *every], capture_output=True, text=True).stdout.split()
        return {status: told.count(status) for status in set(told)}
