"""Deposits by the page: made, listed, opened, and shown to others."""

import os
import re

from modules.page import ALICE, BOB, CAROL, DOCUMENT, key, saved, verified_by_lines, write


def deposited(browser, path, reference, part):
    """What the page says of a deposit, once it says this part."""
    browser.choose("#deposit-file", path)
    if reference:
        browser.type("#deposit-reference", reference)
    browser.wait("!document.querySelector('#deposit-form button').disabled")
    browser.click("#deposit-form button")
    return browser.waited("#deposit-outcome", part)


def listed(browser):
    """Number, reference and owner of each deposit in the list."""
    cells = "[...row.cells].slice(0, 3).map((one) => one.innerText)"
    return browser.evaluate(f"[...document.querySelectorAll('#list tbody tr')].map((row) => {cells})")


def deposits(browser, authority, folder, wrong):
    """Deposits by one account, which another one may read while it has the right."""
    path, other = write(folder, "plan 7.pdf", DOCUMENT), write(folder, "other", b"other")
    largest, larger = write(folder, "largest", bytes(1_048_576)), write(folder, "larger", bytes(1_048_577))
    text = deposited(browser, path, None, "Deposited")
    number = re.search(r"\d+", text)[0] if "Deposited" in text else "none"
    wrong.unless("a deposit", text, f"Deposited under number {number} as plan-7.pdf.")
    text = deposited(browser, path, "plan-7.pdf", "already")
    wrong.unless("it stands already", f"as number {number}. Nothing was deposited twice." in text, True)
    text = deposited(browser, other, "plan-7.pdf", "Another")
    wrong.unless("a conflict", text, "Another document stands under this reference. Choose another reference.")
    wrong.unless("the largest", "Deposited" in deposited(browser, largest, "largest", "Deposited"), True)
    text = deposited(browser, larger, "larger", "too large")
    wrong.unless("a larger one", "It is too large" in text, True)
    rows = [[str(int(number) + 1), "largest", "alice"], [number, "plan-7.pdf", "alice"]]
    browser.wait(f"document.querySelectorAll('#list tbody tr').length === {len(rows)}")
    wrong.unless("the list", listed(browser), rows)
    browser.type("#list-search", "PLAN alice")
    wrong.unless("a search", listed(browser), rows[1:])
    opened(browser, rows[1])
    files = saved(browser, "#deposit")
    wrong.unless("what is saved", (list(files), files.get("plan-7.pdf")), (["plan-7.pdf", "plan-7.pdf.tsr"], DOCUMENT))
    lines = verified_by_lines(browser, folder, "#deposit", [], wrong)
    rights(browser, rows, wrong)
    return lines


def opened(browser, row):
    """Opens the first deposit of the list, which is this one."""
    browser.wait("document.querySelectorAll('#list tbody tr').length === 1")
    browser.click("#list tbody tr button")
    text = browser.waited("#deposit-results", "belong together")
    wrong_title = browser.text("#deposit-title")
    if "File and token belong together." not in text or wrong_title != f"{row[1]} ({row[0]})":
        raise RuntimeError(f"{row} isn't opened: {wrong_title} {text}")


def right(browser, kind, name, does, part):
    """What the page says once a right was given or taken."""
    browser.evaluate(f"document.querySelector('#rights-kind').value = '{kind}'")
    browser.type("#rights-name", name)
    browser.click(f"#rights-form button[value={does}]")
    return browser.waited("#rights-outcome", part)


def rights(browser, rows, wrong):
    """With alice's deposit open: bob reads it by a right of his own or his group's, and not without."""
    for kind, name, does, part in (
        ("readers", "nobody", "give", "There is no account of this name."),
        ("groups", "nobody", "give", "There is no group of this name."),
        ("readers", "alice", "give", "The owner may read it anyway."),
        ("readers", "bob", "give", "bob may read it now."),
    ):
        wrong.unless(f"{does} {kind} {name}", right(browser, kind, name, does, part), part)
    browser.key("Escape")
    wrong.unless("Escape closes it", browser.wait("!document.querySelector('#deposit').open"), True)
    key(browser, BOB)
    browser.wait("document.querySelectorAll('#list tbody tr').length")
    wrong.unless("bob's list", listed(browser), rows[1:])
    opened(browser, rows[1])
    part = "Only the owner of a deposit says who may read it."
    wrong.unless("a reader gives no right", right(browser, "readers", "carol", "give", part), part)
    # while bob has it open, alice takes the right, by another program
    change(browser, ALICE, "DELETE", f"deposits/{rows[1][0]}/readers/bob")
    browser.key("Escape")
    browser.click("#list tbody tr button")
    part = "There is no such deposit, or you may not read it."
    wrong.unless("bob without the right", browser.waited("#deposit-results", part), part)
    browser.key("Escape")
    browser.click("#list-again")
    wrong.unless("bob's list without", browser.waited("#list-outcome", "none"), "There is none yet.")
    group_rights(browser, rows, wrong)


def staff_right(browser, row, change, part, wrong):
    """Alice gives or takes the right of the group staff."""
    key(browser, ALICE)
    browser.type("#list-search", "plan")
    opened(browser, row)
    wrong.unless(f"a group's right: {change}", right(browser, "groups", "staff", change, part), part)
    browser.key("Escape")


def group_rights(browser, rows, wrong):
    staff_right(browser, rows[1], "give", "The members of the group staff may read it now.", wrong)
    key(browser, BOB)
    browser.wait("document.querySelectorAll('#list tbody tr').length")
    wrong.unless("bob's list by his group", listed(browser), rows[1:])
    told = "The group staff hasn't the right any more. A member's own right stays."
    staff_right(browser, rows[1], "take", told, wrong)


def change(browser, who, method, target):
    """Asks the counter beside the page."""
    how = f"{{ method: '{method}', headers: {{ 'Counter-Key': '{who}' }} }}"
    return browser.evaluate(f"fetch('{target}', {how}).then((one) => one.text())")


def quota(browser, folder, wrong):
    """Carol's quota is two a day."""
    key(browser, CAROL)
    for number, part in ((1, "Deposited"), (2, "Deposited"), (3, "Rule 11: your account's quota of today is used up.")):
        text = deposited(browser, write(folder, f"carol-{number}", bytes([number])), None, part)
        wrong.unless(f"carol's deposit {number}: {text}", part in text, True)
