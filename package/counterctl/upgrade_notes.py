"""What to do after an upgrade: what the changes ask for, programs that are older than the package, and files of older
pages that are carried over."""

import glob
import gzip
import hashlib
import os
import re

from . import device, places, proxy, units

NAME = "upgrade-notes"
SECTION = re.compile(r"^### For those who run an older package\n(.*?)(?=^##|\Z)", re.M | re.S)
# SHA-256 of the files nginx.conf of packages before today's
OLDER_PROXIES = {"8744ab2641a1ef11e0bb75165e5666a66fd5b4331a345d3bf98dd3b928b2ccb0"}
PROGRAMS = {"counter": "counter", "counter-key-holder": "key-holder"}


def words(parser):
    # what the package does once it is installed over an older one
    parser.add_argument("--carry-over", action="store_true")


def do(machine, given):
    if given.carry_over:
        machine.only_one()
        return carry_over(machine)
    notes = SECTION.findall(changes(machine))
    print("\n".join(note.strip() for note in notes) if notes else "nothing is to be changed")
    left = list(found(machine))
    for what, instead in left:
        print(f"{what}\n  to do: {instead}")
    return int(bool(left))


def changes(machine):
    if not machine.exists(places.CHANGES):
        return ""
    return gzip.decompress(machine.octets(places.CHANGES)).decode()


def found(machine):
    """What an older package left at work, or in files that its page had people write."""
    for unit, program in PROGRAMS.items():
        process = units.property_of(machine, unit, "MainPID")
        if process not in ("", "0") and runs_older(machine, process, program):
            yield f"{unit} runs the program of an older package", f"systemctl restart {unit}"
    for name in sorted(glob.glob(machine.path(f"{places.UNITS}/counter*.d/*.conf"))):
        with open(name, encoding="utf-8") as file:
            yield from of_drop_in(name, file.read())


def carry_over(machine):
    """Brings files that the page of an older package had people write into today's form, or says which isn't."""
    if machine.exists(places.PROXY):
        carry_proxy_over(machine)
    one, label = device.installed(machine)
    if one is not None:
        device.install(one, label, device.settings(machine))
    return 0


def carry_proxy_over(machine):
    """An example of an older package with another name in it is today's with that name."""
    text = machine.read(places.PROXY)
    name = re.search(r"^    server_name (\S+);$", text, re.M)
    example = hashlib.sha256(text.replace(name[1], proxy.EXAMPLE_NAME).encode()).hexdigest() if name else None
    if text == proxy.configuration(name[1] if name else ""):
        return
    if example not in OLDER_PROXIES:
        machine.tell(f"{places.PROXY} was changed by hand: compare it with {places.EXAMPLES}/nginx.conf")
        return
    machine.write(f"{places.PROXY}.older", text)
    machine.write(places.PROXY, proxy.configuration(name[1]))
    status, _, errors = machine.ask("nginx", "-t", "-q")
    if status != 0:
        machine.write(places.PROXY, text)
        told = errors.decode(errors="replace").strip()
        machine.tell(f"{places.PROXY} stays as it was, since nginx refuses today's: {told}")
        return
    machine.run("systemctl", "try-reload-or-restart", "nginx")
    machine.tell(f"{places.PROXY}: today's, the older one is {places.PROXY}.older")


def runs_older(machine, process, program):
    try:
        return os.readlink(f"/proc/{process}/exe") == f"/usr/bin/{program} (deleted)"
    except OSError:
        return False


def of_drop_in(name, text):
    """Lines of drop-ins that replace what the package's units have come to need."""
    if "counter.service.d" in name and re.search(r"^ExecStart=.*counter serve", text, re.M) and "--tell" not in text:
        yield f"{name} has a line ExecStart= of its own", "leave it out: CHAIN, LISTEN and SIGNER have variables"
