"""How the page looks: its texts in each language, in windows of any width, in the reader's own colours, to a screen
reader; and what its rules refuse."""

import os
import re

from modules.page import ALICE, AUDRA, key

# of windows: a small telephone's, a larger one's, a desk's
WIDTHS = 320, 390, 1280
PARTS = "stamp", "check", "deposits", "state"


def texts(browser, folder, wrong):
    """Each language has each text, with the same values in it; and no text is asked for that isn't there."""
    got = browser.evaluate(
        """(async () => {
          const { english } = await import("/english.js");
          const { german } = await import("/german.js");
          const html = new DOMParser().parseFromString(await (await fetch("/")).text(), "text/html");
          const all = { ...english };
          for (const one of html.querySelectorAll("[data-text]")) all[one.dataset.text] = one.textContent;
          for (const one of html.querySelectorAll("[data-label]")) all[one.dataset.label] ??= "";
          const values = (text) => (text.match(/\\{\\w+\\}/g) ?? []).sort().join();
          const names = Object.keys({ ...all, ...german });
          return names.filter((one) => values(all[one] ?? "?{}") !== values(german[one] ?? "?{none}"));
        })()"""
    )
    wrong.unless("texts that one language lacks, or says of other values", got, [])
    names = set(browser.evaluate("(async () => Object.keys((await import('/german.js')).german))()"))
    asked_for = set()
    for name in os.listdir(folder):
        if name.endswith(".js") and name not in ("english.js", "german.js"):
            with open(os.path.join(folder, name), encoding="utf-8") as file:
                asked_for |= set(re.findall(r'"([a-z]+(?:\.[a-z]+)+)"', file.read()))
    lacking = {one for one in asked_for - names if not one.endswith((".js", ".json", ".pem", ".zip"))}
    wrong.unless("texts that aren't there", lacking, set())


def at_part(browser, part, path):
    """Brings a part of the page to where a person would use it."""
    browser.click(f'a[href="#{part}"]')
    if not browser.wait(f"!document.querySelector('#{part}').hidden"):
        raise RuntimeError(f"the page doesn't come to {part}")
    if part == "stamp":
        browser.evaluate("document.querySelector('#stamp-results').replaceChildren()")
        browser.choose("#stamp-files", path)
        browser.wait("document.querySelector('#stamp-results dl')")
    elif part == "deposits":
        key(browser, ALICE)
        browser.wait("document.querySelectorAll('#list tbody tr').length")
    elif part == "state":
        key(browser, AUDRA)
        browser.wait("document.querySelector('#state-parts dd')")
        browser.click("#audit-form button")
        browser.wait("document.querySelector('#audit-result td')")


def looks(browser, pictures, path, wrong):
    """Each part in each language, light and dark: what can be used has a name for a screen reader, and a window of each
    width has all of it."""
    count = 0

    def look(part):
        wrong.unless(f"{part} in {language}: without a name", browser.unnamed(), [])
        for width in WIDTHS:
            is_within = browser.is_within(width)
            wrong.unless(f"{part} in {language} at {width} pixels", is_within, True)
            if pictures:
                browser.screenshot(os.path.join(pictures, f"{part}-{language}-{width}.png"))
        browser.call("Emulation.clearDeviceMetricsOverride")
        return len(WIDTHS)

    for language, scheme in (("en", "light"), ("de", "dark")):
        browser.click(f"button[data-language={language}]")
        wrong.unless("the page's language", browser.evaluate("document.documentElement.lang"), language)
        browser.emulate(prefers_color_scheme=scheme)
        for part in PARTS:
            at_part(browser, part, path)
            count += look(part)
        at_part(browser, "deposits", path)
        browser.click("#list tbody tr button")
        browser.wait("document.querySelector('#deposit-results dl')")
        count += look("deposit")
        browser.key("Escape")
    browser.emulate()
    left = "[...document.querySelectorAll('[data-text]')].filter((one) => one.innerText === one.dataset.text).length"
    wrong.unless("texts that no language has", browser.evaluate(left), 0)
    browser.click("button[data-language=en]")
    return count


def forced_colours(browser, wrong):
    """What is chosen shows where colours are the reader's: which part, and which language."""
    browser.emulate(forced_colors="active")
    for chosen, other in (
        ("nav a[aria-current]", "nav a:not([aria-current])"),
        ("[data-language][aria-pressed=true]", "[data-language][aria-pressed=false]"),
    ):
        colours = [
            browser.evaluate(f"getComputedStyle(document.querySelector('{one}')).backgroundColor")
            for one in (chosen, other)
        ]
        wrong.unless(f"{chosen} in forced colours: {colours}", len(set(colours)), 2)
    browser.emulate()


def is_closed(browser, wrong):
    """The page's rules let no script of another place run, and nothing be asked of another server."""
    refused = browser.evaluate(
        """(async () => {
          const broken = [];
          document.addEventListener("securitypolicyviolation", (event) => broken.push(event.effectiveDirective));
          const script = document.createElement("script");
          script.textContent = "window.ran = true";
          document.head.append(script);
          document.body.setAttribute("style", "color: red");
          const image = new Image();
          image.src = "https://127.0.0.2/image.png";
          await fetch("https://127.0.0.2/").catch(() => {});
          await new Promise((resolve) => setTimeout(resolve, 200));
          return [window.ran ?? false, broken.sort()];
        })()"""
    )
    want = ["connect-src", "img-src", "script-src-elem", "style-src-attr"]
    wrong.unless("what the page's rules refuse", refused, [False, want])
