"""What the tests of the page share: how it is used, as people do, and what it shows."""

import base64
import copy
import os
import shutil
import subprocess

from modules.programs import PROGRAM, now

# the accounts' keys
ALICE, BOB, CAROL, AUDRA = "hello", "test", "foo", "a"
DOCUMENT = b"a document, and\r\n\0 octets of any kind \xff"
GIVEN, LAST = "Token given at", "#stamp-results article:last-child"
# what a module's value is asked by
IMPORTS = """
const octets = (text) => Uint8Array.from(atob(text), (one) => one.charCodeAt(0));
const hash = await import("/hash.js");
const tokens = await import("/tokens.js");
const signatures = await import("/signatures.js");
"""


def write(folder, name, octets):
    path = os.path.join(folder, name)
    os.makedirs(os.path.dirname(path), exist_ok=True)
    with open(path, "wb") as file:
        file.write(octets)
    return path


def base64_of(octets):
    return base64.b64encode(octets).decode()


def asked(browser, body, seconds=300):
    """What a function of the page's own modules answers."""
    return browser.evaluate(f"(async () => {{ {IMPORTS} {body} }})()", seconds)


def again(browser):
    """Opens the page anew; whether it asked before."""
    browser.dialogs.clear()
    browser.open()
    return browser.dialogs


def announced(browser):
    """What was announced last."""
    return browser.evaluate("document.querySelector('#announcement').lastElementChild?.textContent ?? ''")


def saved(browser, article):
    """What the links of a card save, by name."""
    browser.evaluate("document.querySelectorAll('[id^=save-]').forEach((one) => one.removeAttribute('id'))")
    links = f"[...document.querySelectorAll('{article} a[download]')]"
    names = browser.evaluate(f"{links}.map((one, at) => (one.id = `save-${{at}}`, one.download))")
    return {name: browser.download(f"#save-{at}", name) for at, name in enumerate(names)}


def unfolded(browser):
    browser.evaluate("document.querySelectorAll('article details').forEach((one) => (one.open = true))")


def offered_below(browser):
    """What the links at the page's foot save, by name; before that stands a dialog, if one is open."""
    texts = browser.evaluate(
        """Promise.all([...document.querySelectorAll("#site a[download]")].map(async (one) =>
          [one.download, await (await fetch(one.href)).text()]))"""
    )
    return {name: text.encode() for name, text in texts}


def verified_by_lines(browser, folder, article, files, wrong):
    """Saves what the page offers into a folder that has a person's files alone, the certificates at its foot too, and
    runs the lines that it shows, as they stand there."""
    own = os.path.join(folder, "saved")
    shutil.rmtree(own, ignore_errors=True)
    os.mkdir(own)
    for path in files:
        os.symlink(path, os.path.join(own, os.path.basename(path)))
    unfolded(browser)
    for name, octets in {**saved(browser, article), **offered_below(browser)}.items():
        write(own, name, octets)
    lines = browser.evaluate(f"[...document.querySelectorAll('{article} pre')].map((one) => one.textContent)")
    said = [subprocess.run(["bash", "-c", line], cwd=own, capture_output=True, text=True).stdout for line in lines]
    wrong.unless(f"{lines}", said, ["Verification: OK\n"] * len(lines))
    return len(lines)


def shown(browser, article):
    """The parts that a card tells."""
    unfolded(browser)
    rows = f"[...document.querySelectorAll('{article} dt')].map((one) => [one.innerText, one.nextSibling.innerText])"
    return dict(browser.evaluate(rows))


def key(browser, text):
    """Gives a key, or none, and answers what the page says of it."""
    browser.evaluate("document.querySelector('#account').open = true")
    browser.evaluate("document.querySelector('#account-outcome').textContent = ''")
    browser.type("#account-key", text)
    browser.key("Enter")
    browser.wait("document.querySelector('#account-outcome').textContent")
    # seen or not: once a key is used its field is folded away
    return browser.evaluate("document.querySelector('#account-outcome').textContent")


def stamped(browser, path, part):
    """What the page says of a file's stamp, once it says this part."""
    browser.evaluate("document.querySelector('#stamp-results').replaceChildren()")
    browser.choose("#stamp-files", path)
    browser.waited(LAST, part)
    unfolded(browser)
    return browser.text(LAST)


def choose(browser, field, value):
    """Chooses in a list; what else it then offers."""
    browser.evaluate(
        f"""(() => {{
          const select = document.querySelector("{field}");
          select.value = [...select.options].find((one) => [one.value, one.text].includes("{value}"))?.value;
          select.dispatchEvent(new Event("change"));
        }})()"""
    )


def offered(browser, field):
    return browser.evaluate(f"[...document.querySelector('{field}').options].map((one) => one.text)")


def answer(authority, query):
    """The reply that the program gives to a request, with a database beside that of the counter that serves."""
    beside = copy.copy(authority)
    beside.db = beside.path("beside.db")
    if not os.path.exists(beside.db):
        beside.words("init", "--db", beside.db)
        beside.words("calibrate", "--db", beside.db, "--reading", str(now()), "--offset", "0", "--uncertainty", "1")
    words = [PROGRAM, "answer", *beside.desk_words(authority.signer), "--reading", str(now())]
    done = subprocess.run(words, input=query.hex().encode(), capture_output=True, check=True)
    return bytes.fromhex(done.stdout.decode())


def flipped(octets):
    return octets[:-1] + bytes([octets[-1] ^ 1])
