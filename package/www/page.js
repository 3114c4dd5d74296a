// The page as a whole: its parts, its language, and the key.
import * as check from "./check.js";
import { Refusal, account, hasKey, site as siteOf, useKey } from "./counter.js";
import * as deposits from "./deposits.js";
import { announce, busy, byId, noOutcome, outcome } from "./elements.js";
import { offer, offerOwn } from "./options.js";
import * as site from "./site.js";
import * as stamp from "./stamp.js";
import * as state from "./state.js";
import { choose, preferred, show } from "./texts.js";

const PARTS = ["stamp", "check", "deposits", "state"];

// Shows the part that the address names behind `#`; the first one, if it names none.
function open(isFirst) {
  const named = location.hash.slice(1);
  if (named === "main") return byId("main").focus();
  const part = PARTS.includes(named) ? named : PARTS[0];
  for (const one of PARTS) byId(one).hidden = one !== part;
  for (const link of document.querySelectorAll("nav a")) {
    if (link.hash === `#${part}`) link.setAttribute("aria-current", "page");
    else link.removeAttribute("aria-current");
  }
  refresh(part);
  if (!isFirst) {
    byId(`${part}-title`).focus();
    window.scrollTo(0, 0);
  }
  return undefined;
}

function refresh(part) {
  if (!hasKey()) return;
  if (part === "deposits") deposits.list();
  if (part === "state") state.ask();
}

function changed(name) {
  const isThere = hasKey();
  for (const one of document.querySelectorAll(".with-key")) one.hidden = !isThere;
  for (const one of document.querySelectorAll(".needs-key")) one.hidden = isThere;
  byId("account-forget").hidden = !isThere;
  show(byId("account-state"), isThere ? (name ? "account.named" : "account.some") : "account.none", { name });
  deposits.forget();
  state.forget();
}

// What people have at hand is often the whole line that curl takes from a file.
const typed = () => byId("account-key").value.trim().replace(/^counter-key:\s*/i, "");

// A key is used once the server knows it; until then, and if it doesn't, the last one stays.
async function use() {
  const place = byId("account-outcome");
  const key = typed();
  noOutcome(place);
  if (!key) return forget();
  // what a field of HTTP may hold
  if (!/^[\x20-\x7e]+$/.test(key)) return outcome(place, "bad", "account.fault");
  let told;
  try {
    told = await account(key);
  } catch (error) {
    if (!(error instanceof Refusal)) throw error;
    return outcome(place, "bad", error.text, error.values);
  }
  useKey(key);
  byId("account-key").value = "";
  changed(told?.name);
  offer(told, await siteOf());
  outcome(place, "good", "account.good");
  byId("account").open = false;
  byId("account").firstElementChild.focus();
  announce("account.good");
  return refresh(PARTS.find((one) => !byId(one).hidden));
}

function forget() {
  useKey("");
  byId("account-key").value = "";
  changed();
  outcome(byId("account-outcome"), "", "account.forgotten");
  offerOwn();
}

function begin() {
  choose(preferred());
  for (const one of document.querySelectorAll("[data-language]")) {
    one.addEventListener("click", () => choose(one.dataset.language));
  }
  byId("account-form").addEventListener("submit", (event) => {
    event.preventDefault();
    busy(event.submitter, use);
  });
  byId("account-forget").addEventListener("click", forget);
  // a file that misses its place isn't opened in place of the page
  for (const name of ["dragover", "drop"]) window.addEventListener(name, (event) => event.preventDefault());
  for (const part of [stamp, check, deposits, state, site]) part.begin();
  window.addEventListener("hashchange", () => open(false));
  changed();
  offerOwn();
  open(true);
}

begin();
