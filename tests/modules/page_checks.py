"""Files and tokens that the page checks: the verdict on each, and answers and tokens that are wrong."""

import base64
import os
import shutil

from modules.forgeries import token as token_of
from modules.page import DOCUMENT, GIVEN, LAST, again, announced, answer, asked, base64_of, flipped, stamped
from modules.page import verified_by_lines, write
from modules.page_stamps import RULE_6
from modules.programs import octets_of, openssl

SUBJECT = "O = Example, CN = tsa"
KNOWN = f"Signed by {SUBJECT}, whose certificate this page was set up with."
NAMESAKE = f"a certificate of the name {SUBJECT}, which is none of those of this name"
FITS = "It fits the file. Who signed it isn't known here."


def checked(browser, file, token, part):
    """What the page says of a file and its token."""
    browser.evaluate("document.querySelector('#check-results').replaceChildren()")
    browser.choose("#check-file", file)
    browser.choose("#check-token", token)
    return browser.waited("#check-results", part)


def checks(browser, authority, folder, wrong):
    """A file and its token, another file, and what is no token; and which certificate the page knows."""
    query = authority.query("-sha512", "-cert", data=DOCUMENT)
    reply = answer(authority, query)
    token, _ = openssl("ts", "-reply", "-in", write(folder, "plan.tsr", reply), "-token_out")
    plan, other = write(folder, "plan", DOCUMENT), write(folder, "other", b"other")
    browser.click('a[href="#check"]')
    lines = 0
    for name, octets in (("plan.tsr", reply), ("plan.tst", token)):
        path = write(folder, name, octets)
        text = checked(browser, plan, path, "belong together")
        wrong.unless(f"{name} fits: {text}", "✓ The token is for exactly this file." in text, True)
        wrong.unless(f"{name}: by whom", "Signed by O = Example, CN = tsa, whose certificate" in text, True)
        lines += verified_by_lines(browser, folder, "#check-results", [plan, path], wrong)
    lines += wrapped(browser, folder, reply, token, wrong)
    rejection = answer(authority, authority.query("-sha256", "-tspolicy", "2.999.2"))
    for file, name, octets, part in (
        (other, "other.tsr", reply, "it is another file, or it was changed."),
        (plan, "damaged.tsr", flipped(reply), "The signature is wrong."),
        (plan, "no.tsr", DOCUMENT, "no.tsr is no time-stamp token, or one that this page can't read."),
        (plan, "refused.tsr", rejection, "This reply has no token. The request was refused: " + RULE_6),
    ):
        text = checked(browser, file, write(folder, name, octets), part)
        wrong.unless(f"{name}: {text}", part in text, True)
        told = announced(browser)
        is_told = told.startswith(f"{os.path.basename(file)}: ") and told.endswith(part)
        wrong.unless(f"{name} is announced: {told}", is_told, True)
    return lines


def wrapped(browser, folder, reply, token, wrong):
    """A reply and a token in PEM and in base 64, which the page gives OpenSSL's lines as they have to be."""
    lines, plan = 0, write(folder, "plan", DOCUMENT)
    for name, octets, label in (("plan.pem", token, "PKCS7"), ("plan.b64", reply, None), ("plan.txt", token, None)):
        text = base64.encodebytes(octets)
        if label:
            text = f"-----BEGIN {label}-----\n".encode() + text + f"-----END {label}-----\n".encode()
        said = checked(browser, plan, write(folder, name, text), "belong together")
        wrong.unless(f"{name} fits: {said}", "✓ The token is for exactly this file." in said, True)
        lines += verified_by_lines(browser, folder, "#check-results", [plan], wrong)
    return lines


def alone_and_swapped(browser, authority, folder, wrong):
    """A token without its file says what it says, and no more; a file and a token in each other's place are told."""
    reply = answer(authority, authority.query("-sha256", "-cert", data=DOCUMENT))
    plan, token = write(folder, "plan", DOCUMENT), write(folder, "plan.tsr", reply)
    again(browser)
    browser.choose("#check-token", token)
    text = browser.waited("#check-results", "what the token says")
    part = "This is what the token says. With its file, it can be checked whether it fits."
    wrong.unless(f"a token alone: {text}", f"! {part}" in text and KNOWN in text and "2.999.1" in text, True)
    wrong.unless("nothing fits there", "exactly this file" in text or "belong together" in text, False)
    wrong.unless("it is announced", announced(browser), f"plan.tsr: {part}")
    browser.choose("#check-token", write(folder, "damaged.tsr", flipped(reply)))
    text = browser.waited("#check-results", "The signature is wrong.")
    wrong.unless(f"a damaged one alone: {text}", "✗ This token isn't to be trusted." in text, True)
    text = checked(browser, token, plan, "were swapped")
    swapped = "The two were swapped: plan.tsr is the token."
    good = "File and token belong together."
    wrong.unless(f"swapped ones: {text}", f"! {swapped}" in text and f"✓ {good}" in text, True)
    wrong.unless("that is announced", announced(browser), f"plan: {swapped} {good}")
    names = "['file', 'token'].map((one) => document.querySelector(`#check-${one}`).files[0].name)"
    wrong.unless("where they stand now", browser.evaluate(names), ["plan", "plan.tsr"])


def pairs(browser, authority, folder, wrong):
    """Several files and tokens that are dropped are paired by their names, and whatever has none is told."""
    good, alone = "✓ File and token belong together.", "! This is what the token says."
    own = os.path.join(folder, "pairs")
    paths = []
    for name, token, data in (
        ("one.pdf", "one.pdf.tsr", b"one"),
        ("two.odt", "two.tsr", b"two"),
        # which of two is told by neither
        ("three.a", "three.tsr", b"three"),
        ("three.b", None, b"four"),
        ("five", None, b"five"),
        (None, "six.tsr", b"six"),
    ):
        paths += [write(own, name, data)] if name else []
        reply = answer(authority, authority.query("-sha256", "-cert", data=data))
        paths += [write(own, token, reply)] if token else []
    browser.drop("#check .drop", *paths)
    browser.wait("document.querySelectorAll('#check-results .outcome').length === 7")
    said = browser.evaluate(
        """[...document.querySelectorAll("#check-results article")].map((one) =>
          [one.querySelector("h3").textContent, one.querySelector(".outcome").innerText.split(".")[0] + "."])"""
    )
    lonely = "! No token of this name was among the files."
    want = [
        ["one.pdf and one.pdf.tsr", good],
        ["two.odt and two.tsr", good],
        ["three.tsr", alone],
        ["six.tsr", alone],
        ["three.a", lonely],
        ["three.b", lonely],
        ["five", lonely],
    ]
    wrong.unless("pairs by name", said, want)
    wrong.unless("what is announced of the others", announced(browser), "Without a token: three.a, three.b, five")
    return len(paths)


def chains(browser, authority, proxy, site, folder, wrong):
    """A chain leads from the certificate to a root that the page was set up with, by one between them; or it doesn't,
    and that is said."""
    plan, lines = write(folder, "plan", DOCUMENT), 0
    between = authority.root.intermediate("between")
    below = between.certified("below")
    no_authority = authority.root.certified("no authority", extensions=[])
    beside = type(between)(folder, authority.kind, no_authority).certified("beside")
    with open(proxy.signers, "wb") as file:
        file.write(b"".join(octets_of(one.pem) for one in (authority, below, beside)))
    with open(os.path.join(site, "chain.pem"), "wb") as file:
        file.write(octets_of(between.pem) + octets_of(no_authority.pem))
    again(browser)
    led = "✓ A chain of certificates leads from it to O = Example, CN = CA, a root that this page was set up with."
    rest = "Not checked here: whether the certificate was revoked."
    for certified, option, is_led in ((below, [], True), (below, ["-nocerts"], True), (beside, [], False)):
        name = os.path.basename(certified.pem) + "".join(option)
        path = write(folder, name, token_of(certified, DOCUMENT, None, *option))
        text = checked(browser, plan, path, "belong together")
        what = f"the chain of {name}: {text}"
        wrong.unless(what, (led in text, "No chain leads from it" in text, rest in text), (is_led, not is_led, True))
        if is_led:
            lines += verified_by_lines(browser, folder, "#check-results", [plan, path], wrong)
    os.unlink(os.path.join(site, "chain.pem"))
    shutil.copy(authority.pem, proxy.signers)
    again(browser)
    return lines


def is_verdict(browser, what, wrong, kind, headline, part):
    """The verdict in the page's colour, sign, headline and announcement, and what it says of the signer."""
    article = "#check-results article"
    browser.waited(article, "Not checked here")
    got = browser.evaluate(
        f"""(() => {{
          const outcome = document.querySelector("{article} .outcome");
          const colour = getComputedStyle(document.documentElement).getPropertyValue("--{kind}");
          const painted = document.createElement("p");
          painted.className = "{kind}";
          document.body.append(painted);
          const is = getComputedStyle(outcome).color === getComputedStyle(painted).color;
          painted.remove();
          return [colour !== "" && is, outcome.innerText];
        }})()"""
    )
    sign = {"good": "✓", "warn": "!", "bad": "✗"}[kind]
    wrong.unless(f"the verdict on {what}", got, [True, f"{sign} {headline}"])
    reason = f" {part}" if kind == "bad" else ""
    wrong.unless(f"what is announced of {what}", announced(browser), f"plan: {headline}{reason}")
    text = browser.text(article)
    wrong.unless(f"who signed {what}: {text}", part in text, True)


def verdicts(browser, authority, other, forger, proxy, folder, wrong):
    """Tokens for the very file, by whom the page was set up with, and by others that have or take the same name: only
    the former's are called good."""
    plan = write(folder, "plan", DOCUMENT)
    right = answer(authority, authority.query("-sha256", "-cert", data=DOCUMENT))
    by_other = answer(other, other.query("-sha256", "-cert", data=DOCUMENT))
    good = "File and token belong together."
    bad = "This token isn't to be trusted."
    ended = "The certificate of O = Example, CN = expired wasn't valid at the token's time."
    without = "The signature wasn't checked: the token has no certificate"
    signed = "Signed by O = Example, CN = expired, whose certificate"
    tried = (
        ("the authority's token", right, "good", good, KNOWN),
        ("a forged token of 2019", token_of(forger.own, DOCUMENT, "20190601000000Z"), "warn", FITS, NAMESAKE),
        ("another authority's", by_other, "warn", FITS, NAMESAKE),
        ("a namesake's", token_of(forger.namesake, DOCUMENT), "warn", FITS, NAMESAKE),
        ("a namesake's alone", token_of(forger.namesake, DOCUMENT, None, "-nocerts"), "warn", FITS, without),
        ("one after its certificate's end", token_of(forger.expired, DOCUMENT, "20210101000001Z"), "bad", bad, ended),
        ("one before that", token_of(forger.expired, DOCUMENT, "20210101000000Z"), "good", good, signed),
    )
    with open(proxy.signers, "wb") as file:
        file.write(octets_of(authority.pem) + octets_of(forger.expired.pem))
    again(browser)
    browser.click('a[href="#check"]')
    for number, (what, octets, kind, headline, part) in enumerate(tried):
        checked(browser, plan, write(folder, f"verdict-{number}.tsr", octets), headline)
        is_verdict(browser, what, wrong, kind, headline, part)
    return len(tried) + by_nobody(browser, authority, proxy, folder, right, wrong)


def by_nobody(browser, authority, proxy, folder, right, wrong):
    """A page that was set up with no certificate knows nobody; then it is set up with the authority's."""
    other = f"fits the certificate of {SUBJECT}, which is none of those"
    path = write(folder, "plan", DOCUMENT)
    os.unlink(proxy.signers)
    again(browser)
    checked(browser, path, write(folder, "plan.tsr", right), FITS)
    is_verdict(browser, "a token where nobody is known", wrong, "warn", FITS, other)
    browser.click('a[href="#stamp"]')
    text = stamped(browser, path, GIVEN)
    wrong.unless(f"a stamp where nobody is known: {text}", "Who signed it isn't known here." in text, True)
    kind = browser.evaluate(f"document.querySelector('{LAST} .outcome').className")
    wrong.unless("it isn't green", kind, "outcome warn")
    shutil.copy(authority.pem, proxy.signers)
    again(browser)
    text = stamped(browser, path, GIVEN)
    wrong.unless(f"a stamp by whom the page knows: {text}", KNOWN in text and "isn't known" not in text, True)
    return 3


def drops(browser, authority, folder, wrong):
    """Files that are dropped: several to be stamped, a file and its token in either order; and one beside the places
    for that, which the page neither takes nor gives way to."""
    browser.click('a[href="#stamp"]')
    browser.evaluate("document.querySelector('#stamp-results').replaceChildren()")
    plan, other = write(folder, "plan", DOCUMENT), write(folder, "other", b"other")
    browser.drop("h1", plan)
    browser.drop("#stamp .drop", plan, other)
    is_done = "document.querySelectorAll('#stamp-results .outcome.good').length === 2"
    wrong.unless("files that are dropped", browser.wait(is_done), True)
    names = browser.evaluate("[...document.querySelectorAll('#stamp-results h3')].map((one) => one.textContent)")
    wrong.unless("whose", names, ["plan", "other"])
    token = write(folder, "plan.tsr", answer(authority, authority.query("-sha256", "-cert", data=DOCUMENT)))
    browser.click('a[href="#check"]')
    for paths in ((plan, token), (token, plan)):
        browser.evaluate("document.querySelector('#check-results').replaceChildren()")
        browser.drop("#check .drop", *paths)
        text = browser.waited("#check-results", "belong together")
        wrong.unless(f"a file and a token that are dropped: {text}", "for exactly this file" in text, True)
    wrong.unless("the page is still there", browser.text("h1"), "Time-stamps")


def damages(browser, authority, other, wrong):
    """Each token with any one bit changed that the page calls right, OpenSSL verifies too."""
    count = 0
    for one in (authority, other):
        query = one.query("-sha256", "-cert", data=DOCUMENT)
        reply = answer(one, query)
        right = asked(
            browser,
            f"""
            const reply = octets("{base64_of(reply)}");
            const right = [];
            for (let at = 0; at <= reply.length; at += 1) {{
              const damaged = reply.slice();
              if (at < reply.length) damaged[at] ^= 1 << at % 8;
              try {{
                const {{ token }} = tokens.readResponse(damaged);
                const judgement = await signatures.judged(token, []);
                const stamped = hash.hashed(token.info.imprint.algorithm, octets("{base64_of(DOCUMENT)}"));
                const fits = stamped.every((octet, place) => octet === token.info.imprint.hash[place]);
                if (fits && judgement.state === "right") right.push(at);
              }} catch {{ }}
            }}
            return right;""",
            120,
        )
        wrong.unless(f"{one.kind}: whole, it is right", right[-1:], [len(reply)])
        document = one.write("document", DOCUMENT)
        for at in right:
            damaged = bytes(octet ^ (1 << at % 8 if place == at else 0) for place, octet in enumerate(reply))
            is_verified = one.is_verified(damaged, "-data", document)
            wrong.unless(f"{one.kind}, bit of octet {at}: OpenSSL verifies", is_verified, True)
        count += len(reply)
    return count


def wrong_answers(browser, authority, folder, wrong):
    """Answers in the counter's place, which aren't the request's: none is offered as a token."""
    path = write(folder, "plan", DOCUMENT)

    def imprint(data):
        return lambda _: answer(authority, authority.query("-sha256", "-cert", data=data))

    def own(request, change):
        """The counter's own answer to the request, or to one that was changed."""
        octets = base64.b64decode(request["postDataEntries"][0]["bytes"])
        return answer(authority, change(octets))

    def another_nonce(octets):
        at = octets.rindex(b"\x02\x10") if b"\x02\x10" in octets else octets.rindex(b"\x02\x11")
        return octets[: at + 4] + bytes([octets[at + 4] ^ 1]) + octets[at + 5 :]

    for what, octets, part in (
        ("another file's", imprint(b"other"), "The answer's token is for another file."),
        ("another request's", imprint(DOCUMENT), "The answer is to another request: its nonce differs."),
        ("another nonce's", lambda request: own(request, another_nonce), "its nonce differs."),
        ("no reply", lambda _: b"<html>", "The server's answer is no reply to a time-stamp request."),
        ("a changed signature", lambda request: flipped(own(request, bytes)), "The signature is wrong."),
        ("the right one", lambda request: own(request, bytes), GIVEN),
    ):
        browser.evaluate("document.querySelector('#stamp-results').replaceChildren()")
        browser.in_place("*/tsp", octets, lambda: browser.choose("#stamp-files", path))
        text = browser.waited(LAST, part)
        wrong.unless(f"{what}: {text}", part in text, True)
        links = browser.evaluate("document.querySelectorAll('#stamp-results a').length")
        wrong.unless(f"{what}: links", links, 2 if part == GIVEN else 0)
