"""Files that the page stamps: large ones, many at once, of any name; and what it says where it gets no token."""

import datetime
import io
import os
import re
import shutil
import subprocess
import time
import zipfile

from modules.page import ALICE, DOCUMENT, GIVEN, LAST, again, announced, asked, choose, key, offered, shown, stamped
from modules.page import unfolded, verified_by_lines, write
from modules.programs import openssl

# one that is hashed as a whole, and one that isn't
WHOLE, PIECES = 200_000_000, 541_000_000
# how many times as fast the browser's digest is, at least, as the page's own; measured were ten
FASTER = 2
# the reader's, and how Chromium tells it
ZONE_NAME, ZONE, ZONE_AHEAD = "Asia/Kathmandu", "GMT+5:45", datetime.timedelta(hours=5, minutes=45)
# of files that a person may have, with what a shell or a browser would take for its own
NAMES = "plan 7.pdf", "it's $HOME.txt", "-x", "Prüfbericht [2] (ä).odt", "a+b, c;d=e@f!#{g}^&`h~50%.txt"
RULE_6 = "Rule 6: this policy isn't one of your account's."
RULE_9 = "Rule 9: this policy doesn't put the certificate into tokens. Ask without it."
CANCEL, AGAIN = "#stamp-results button", f"{LAST} button"


def of_size(folder, name, size):
    """A file of this size, which takes little room."""
    path = write(folder, name, b"begin")
    with open(path, "r+b") as file:
        file.truncate(size - 3)
        file.seek(0, os.SEEK_END)
        file.write(b"end")
    return path


def large_files(browser, folder, wrong):
    """A file of 200 megabytes is hashed by the browser's own digest, and one of 541 in pieces, in per cent, until it is
    cancelled; their tokens are OpenSSL's to verify and to read."""
    path, larger = of_size(folder, "large.iso", WHOLE), of_size(folder, "larger.iso", PIECES)
    slow = asked(
        browser,
        """const begun = performance.now();
        hash.hashed(hash.SHA256, new Uint8Array(2e7));
        return performance.now() - begun;""",
    )
    begun = time.monotonic()
    browser.choose("#stamp-files", path)
    text = browser.waited(LAST, GIVEN, 1500)
    took = time.monotonic() - begun
    wrong.unless(f"a large file: {text}", GIVEN in text, True)
    own = slow / 1000 * WHOLE / 2e7
    wrong.unless(f"{took:.1f} seconds, in pieces {own:.1f}", took < own / FASTER, True)
    lines = verified_by_lines(browser, folder, LAST, [path], wrong)
    parts(browser, folder, path, wrong)
    browser.choose("#stamp-files", larger)
    browser.wait(f"document.querySelector('{LAST} progress')?.value > 0")
    said = re.search(r"Hashing: (\d+)% \((\S+) MiB of 515.9 MiB\)", browser.text(LAST))
    is_so = bool(said) and int(said[1]) == int(float(said[2]) / 515.9 * 100)
    wrong.unless(f"how far it is, in per cent: {browser.text(LAST)}", is_so, True)
    browser.click(AGAIN)
    wrong.unless("it is cancelled", browser.waited(LAST, "Cancelled. There is no token.") != "", True)
    told = "larger.iso: Cancelled. There is no token."
    wrong.unless("that is announced, and the keyboard stays", (announced(browser), stays(browser)), (told, "Try again"))
    return lines


def stays(browser):
    """What the keyboard is at."""
    return browser.evaluate("document.activeElement.textContent")


def parts(browser, folder, path, wrong):
    """The parts of a token, as OpenSSL tells them of its file."""
    told, _ = openssl("ts", "-reply", "-in", os.path.join(folder, "saved", "large.iso.tsr"), "-text")
    told, got = told.decode(), shown(browser, LAST)
    digest, _ = openssl("dgst", "-sha256", "-r", path)
    wrong.unless("its hash", got["Hash"], f"SHA-256 {digest.decode().split()[0]}")
    wrong.unless("its policy", got["Policy"], re.search(r"Policy OID: (.*)", told)[1])
    serial = int(re.search(r"Serial number: (.*)", told)[1], 16)
    wrong.unless("its serial number", got["Serial number"], f"{serial} (0x{serial:02X})")
    wrong.unless("its accuracy", (got["Accuracy"], "Accuracy: 0x01 seconds" in told), ("± 1 second", True))
    month, day, clock, year = re.search(r"Time stamp: (\w+) +(\d+) (\S+) (\d+) GMT", told).groups()
    number = "JanFebMarAprMayJunJulAugSepOctNovDec".index(month) // 3 + 1
    wrong.unless("its time", got["Time"], f"{year}-{number:02}-{int(day):02} {clock} UTC")
    there = datetime.datetime.fromisoformat(f"{year}-{number:02}-{int(day):02}T{clock}+00:00") + ZONE_AHEAD
    told = f"{there:%A, %B} {there.day}, {there.year}", f"{there:%M:%S} ", ZONE
    wrong.unless("its time in the reader's zone", [part in got["Your time"] for part in told], [True] * 3)
    wrong.unless("its certificate", got["Certificate"], "O = Example, CN = tsa")


def small_files(browser, folder, wrong):
    """Files of any name, several at once, chosen by the keyboard alone: each has its line, the oldest first, OpenSSL
    takes its lines, and one archive has all tokens. Before that the page asks whoever leaves it."""
    paths = [write(folder, name, name.encode()) for name in NAMES]
    again(browser)
    for _ in range(20):
        browser.key("Tab")
        if browser.evaluate("document.activeElement.id") == "stamp-files":
            break
    browser.key("Enter")
    browser.chosen(*paths)
    is_done = f"document.querySelectorAll('#stamp-results .outcome.good').length === {len(NAMES)}"
    wrong.unless("files of any name", browser.wait(is_done), True)
    wrong.unless("how many", browser.text("#stamp-count"), f"{len(NAMES)} of {len(NAMES)} files have their token.")
    headings = browser.evaluate("[...document.querySelectorAll('#stamp-results h3')].map((one) => one.textContent)")
    wrong.unless("in their order", headings, list(NAMES))
    wrong.unless("each in a line", browser.evaluate("document.querySelectorAll('#stamp-results [open]').length"), 0)
    archive = browser.download("#stamp-save", "tokens.zip")
    wrong.unless("saved, none asks", again(browser), [])
    browser.choose("#stamp-files", *paths)
    browser.wait(is_done)
    count = 0
    for number, path in enumerate(paths):
        article = f"#stamp-results article:nth-child({number + 1})"
        count += verified_by_lines(browser, folder, article, [path], wrong)
    archived(folder, archive, wrong)
    stamped(browser, paths[0], GIVEN)
    wrong.unless("whoever leaves unsaved tokens is asked", again(browser), ["beforeunload"])
    return count


def archived(folder, archive, wrong):
    """What an archive holds, by Python and by unzip: a reply and a request for each file, which OpenSSL verifies."""
    path, own = write(folder, "tokens.zip", archive), os.path.join(folder, "archive")
    with zipfile.ZipFile(io.BytesIO(archive)) as all_of:
        wrong.unless("the archive's sums", all_of.testzip(), None)
        names = sorted(f"{name}.{kind}" for name in NAMES for kind in ("tsr", "tsq"))
        wrong.unless("what it holds", sorted(all_of.namelist()), names)
        there = datetime.datetime(*all_of.infolist()[0].date_time, tzinfo=datetime.timezone.utc)
        age = time.time() - there.timestamp()
        all_of.extractall(own)
    # the reader is in a zone of its own
    wrong.unless(f"its time, {age}", abs(age + ZONE_AHEAD.total_seconds()) < 600, True)
    if shutil.which("unzip"):
        shutil.rmtree(own)
        done = subprocess.run(["unzip", "-q", path, "-d", own], env={"LC_ALL": "C.UTF-8"}, capture_output=True)
        wrong.unless("unzip", (done.returncode, done.stderr), (0, b""))
    else:
        print("browser: the archive is read by Python alone, since unzip isn't installed")
    for name in NAMES:
        how = ["-in", os.path.join(own, f"{name}.tsr"), "-queryfile", os.path.join(own, f"{name}.tsq")]
        said, _ = openssl("ts", "-verify", *how, "-CAfile", os.path.join(folder, "saved", "ca.pem"))
        wrong.unless(f"{name} out of the archive", said, b"Verification: OK\n")


def folders(browser, folder, wrong):
    """A folder that is dropped is walked, in the order of names, and its archive has the same paths."""
    again(browser)
    inner = os.path.join(folder, "folder")
    for name in ("b.txt", "a/deep/ü.txt", "a/c.txt"):
        write(inner, name, name.encode())
    browser.drop("#stamp .drop", inner)
    is_done = "document.querySelectorAll('#stamp-results .outcome.good').length === 3"
    wrong.unless("files of a folder", browser.wait(is_done), True)
    headings = browser.evaluate("[...document.querySelectorAll('#stamp-results h3')].map((one) => one.textContent)")
    names = ["folder/a/c.txt", "folder/a/deep/ü.txt", "folder/b.txt"]
    wrong.unless("their paths", headings, names)
    with zipfile.ZipFile(io.BytesIO(browser.download("#stamp-save", "tokens.zip"))) as all_of:
        kinds = [f"{name}.{kind}" for name in names for kind in ("tsr", "tsq")]
        wrong.unless("the archive's paths", all_of.namelist(), kinds)


def waits(browser, folder, wrong):
    """Where the proxy has too many requests, the page waits as long as it is told, says so, and goes on."""
    path = write(folder, "plan", DOCUMENT)
    end = browser.standing("tsp", 429, head={"Retry-After": "3"}, times=2)
    again(browser)
    end()
    browser.choose("#stamp-files", path)
    begun = time.monotonic()
    part = "The server takes only so many requests at a time. It is asked again in 3 s."
    wrong.unless("why it waits", part in browser.waited(LAST, part), True)
    wrong.unless("a token after that", GIVEN in browser.waited(LAST, GIVEN), True)
    wrong.unless("as long as it was told", time.monotonic() - begun >= 5, True)
    end = browser.standing("tsp", 429, head={"Retry-After": "3000"})
    again(browser)
    end()
    browser.choose("#stamp-files", path)
    browser.waited(LAST, "asked again in 3,000 s.")
    browser.click(AGAIN)
    text = browser.waited(LAST, "Cancelled.")
    wrong.unless(f"a wait that is ended: {text}", "Cancelled. There is no token." in text, True)
    again(browser)


def rejections(browser, folder, wrong):
    """Rules that refuse, in words, which are announced; what a policy asks for instead; and a token without a
    certificate, once the options changed, for which nothing is hashed again."""
    path = write(folder, "plan", DOCUMENT)
    browser.evaluate("document.querySelector('#stamp > details').open = true")
    for given, policy, algorithm, part in (
        ("", "2.999.2", "SHA-512", RULE_6),
        (ALICE, "2.999.2", "SHA-256", "Rule 7: the policy doesn't allow this hash algorithm."),
        (ALICE, "2.999.2", "SHA-224", "Rule 4: the server doesn't know this hash algorithm."),
        (ALICE, "2.999.2", "SHA-512", RULE_9),
    ):
        key(browser, given)
        choose(browser, "#stamp-policy", policy)
        choose(browser, "#stamp-algorithm", algorithm)
        wrong.unless(f"a rejection: {part}", part in stamped(browser, path, part), True)
        wrong.unless(f"it is announced: {part}", announced(browser), f"plan: {part}")
        wrong.unless("nothing is offered", browser.evaluate("document.querySelectorAll('#stamp-results a').length"), 0)
    browser.evaluate(
        """window.posted = 0;
        const post = Worker.prototype.postMessage;
        Worker.prototype.postMessage = function (...all) { window.posted += 1; post.apply(this, all); };0"""
    )
    browser.click("#stamp-certificate")
    browser.click(AGAIN)
    browser.waited(LAST, GIVEN)
    unfolded(browser)
    text = browser.text(LAST)
    wrong.unless(f"without a certificate: {text}", "hash, nonce and policy are the ones" in text, True)
    wrong.unless("nothing was hashed again", browser.evaluate("window.posted"), 0)
    wrong.unless("its algorithm", shown(browser, LAST)["Hash"].split()[0], "SHA-512")
    return verified_by_lines(browser, folder, LAST, [path], wrong)


ACCOUNT = """name alice
policy open 2.999.1
algorithm sha256 2.16.840.1.101.3.4.2.1
algorithm sha512 2.16.840.1.101.3.4.2.3
extension batch 2.999.7
policy strict 2.999.2
algorithm sha512 2.16.840.1.101.3.4.2.3
quota 1000
used 3
auditor no
operator no
group staff
"""


def options(browser, wrong):
    """What is offered is what the server tells of the account, for each policy its algorithms."""
    own, both, policies = "your account's own", ["SHA-256", "SHA-512"], ["open (2.999.1)", "strict (2.999.2)"]
    end = browser.standing("account", 200, ACCOUNT)
    again(browser)
    browser.wait("document.querySelectorAll('#stamp-policy option').length === 3")
    wrong.unless("the account's policies", offered(browser, "#stamp-policy"), [own, *policies])
    for policy, algorithms in (("", both), ("2.999.2", ["SHA-512"]), ("2.999.1", both)):
        choose(browser, "#stamp-policy", policy)
        wrong.unless(f"the algorithms of {policy}", offered(browser, "#stamp-algorithm"), algorithms)
    key(browser, ALICE)
    wrong.unless("whose key", browser.text("#account-state"), "Asking as alice")
    end()
    again(browser)


def by_account(browser, proxy, wrong):
    """What the server tells of an account, the page offers."""
    status, _, body = proxy.curl("/account", "-H", f"Counter-Key: {ALICE}")
    wrong.unless("the status of an account", status, 200)
    again(browser)
    key(browser, ALICE)
    policies = [f"{name} ({oid})" for name, oid in re.findall(r"^policy (\S+) (\S+)$", body.decode(), re.M)]
    browser.wait(f"document.querySelectorAll('#stamp-policy option').length === {1 + len(policies)}")
    wrong.unless("the server's policies", offered(browser, "#stamp-policy")[1:], policies)
    wrong.unless("whose key", browser.text("#account-state"), "Asking as alice")
    return again(browser)
