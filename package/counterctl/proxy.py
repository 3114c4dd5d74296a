"""nginx before the counter, with TLS."""

import os
import re

from . import page, places
from .machine import Refused

NAME = "proxy"
EXAMPLE_NAME = "tsa.example.org"
MAIN = "/etc/nginx/nginx.conf"
ACCOUNT, GROUP = "www-data", "counter-http"
FILES, CONNECTIONS = 65536, 16384
PACKAGES = {"nginx": "nginx-light libnginx-mod-http-lua"}
MODULE = "/usr/share/nginx/modules-available/mod-http-lua.conf"


def words(parser):
    parser.add_argument("name", metavar="NAME")
    parser.add_argument("--certificate", required=True, metavar="FILE")
    parser.add_argument("--key", required=True, metavar="FILE")


def do(machine, given):
    machine.only_one()
    machine.needs(PACKAGES)
    if not machine.exists(MODULE):
        raise Refused("nginx has no module Lua", "apt-get install libnginx-mod-http-lua")
    look_at_key(machine, given)
    before = {name: machine.octets(name) for name in (MAIN, places.PROXY) if machine.exists(name)}
    for file, mode, end in ((given.certificate, 0o644, "pem"), (given.key, 0o600, "key")):
        with open(file, "rb") as opened:
            machine.write(f"/etc/nginx/{given.name}.{end}", opened.read(), mode)
    page.add_certificates(machine, [f"{page.NGINX}/{given.name}{page.SIGNERS}"])
    machine.write(MAIN, with_limits(machine.read(MAIN)))
    machine.write(places.PROXY, configuration(given.name))
    join(machine)
    status, _, errors = machine.ask("nginx", "-t", "-q")
    if status != 0 and not machine.dry_run:
        put_back(machine, before)
        told = errors.decode(errors="replace").strip()
        raise Refused(f"nginx doesn't take it: {told}", "see to what it tells; its files are as before")
    machine.run("systemctl", "--quiet", "enable", "nginx")
    machine.run("systemctl", "restart", "nginx", instead="journalctl -u nginx tells why")
    machine.tell(f"proxy: https://{given.name}/ and http://{given.name}/tsp")
    return 0


def look_at_key(machine, given):
    """Refuses a certificate that isn't the key's."""
    of_certificate = machine.tells("openssl", "x509", "-in", given.certificate, "-noout", "-pubkey")
    of_key = machine.tells("openssl", "pkey", "-in", given.key, "-pubout")
    if not of_key or of_certificate != of_key:
        raise Refused(f"{given.certificate} isn't a certificate of {given.key}", "name both, in PEM")


def with_limits(text):
    """As many files and connections as the configuration's limits reckon with."""
    text = re.sub(r"^worker_rlimit_nofile .*\n", "", text, flags=re.M)
    return f"worker_rlimit_nofile {FILES};\n" + re.sub(
        r"worker_connections \d+;", f"worker_connections {CONNECTIONS};", text
    )


def configuration(name):
    with open(os.path.join(places.EXAMPLES, "nginx.conf"), encoding="utf-8") as file:
        return file.read().replace(EXAMPLE_NAME, name)


def join(machine):
    """The proxy's account may connect to the counter's socket."""
    if ACCOUNT not in members(machine):
        machine.run("adduser", "--quiet", ACCOUNT, GROUP)


def members(machine):
    told = machine.tells("getent", "group", GROUP).split(":")
    return [name for name in told[3].split(",") if name] if len(told) == 4 else []


def put_back(machine, before):
    for name in (MAIN, places.PROXY):
        if name in before:
            machine.write(name, before[name])
        else:
            machine.remove(name)
